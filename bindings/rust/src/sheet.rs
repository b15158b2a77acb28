//! The tables as a text sheet: a line for each row.

use crate::refusal::{Refusal, Refused};
use crate::sys::{
    self, MACHINE_LINE, MACHINE_WORDS, STATE_LINE, STATE_WORDS, TRANSITION_LINE, TRANSITION_WORDS,
};
use crate::tables::Tables;

impl Tables {
    /// The tables as a text sheet, to be printed or stored. A line is the kind of its row (1 machine,
    /// 2 state, 3 transition) in 4 columns, then the words of the row in 21 columns each, and a line
    /// feed. Machines come first, then states, then transitions.
    ///
    /// ```
    /// use maybenot_link::state::State;
    /// use maybenot_link::{Machine, Refusal, Tables};
    ///
    /// let machine = Machine::new(7, 0.0, 0, 0.0, vec![State::default()])?;
    /// let tables = Tables::new(&[machine])?;
    ///
    /// let sheet = tables.to_sheet();
    /// assert_eq!(sheet.lines().count(), 2);
    /// assert!(sheet.starts_with("   1                    7                    0"));
    ///
    /// let read = Tables::from_sheet(&sheet)?;
    /// assert_eq!(read.to_sheet(), sheet);
    ///
    /// let cut = Tables::from_sheet(sheet.trim_end()).unwrap_err();
    /// assert_eq!(cut, Refusal::SheetForm);
    /// # Ok::<(), Box<dyn std::error::Error>>(())
    /// ```
    pub fn to_sheet(&self) -> String {
        let words = self.words();
        let mut sheet = vec![0; words.sheet_len()];
        let written = sys::sheet_write(words, &mut sheet);
        assert_eq!(written.refusal, 0, "tables are whole rows, and there is room for them");
        String::from_utf8(sheet).expect("digits, spaces and line feeds")
    }

    /// The tables of a sheet, such as [`to_sheet`](Tables::to_sheet) writes. Any other text is refused
    /// ([`Refusal::SheetForm`]), be the difference a single space. What the sheet holds are words, and
    /// they are judged as by [`from_words`](Tables::from_words).
    pub fn from_sheet(sheet: impl AsRef<[u8]>) -> Result<Tables, Refused> {
        let sheet = sheet.as_ref();
        // room for a sheet of nothing but this kind of line
        let room = |words: usize, line: usize| vec![0; sheet.len() / line * words];
        let mut machines = room(MACHINE_WORDS, MACHINE_LINE);
        let mut states = room(STATE_WORDS, STATE_LINE);
        let mut transitions = room(TRANSITION_WORDS, TRANSITION_LINE);
        let read = sys::sheet_read(sheet, &mut machines, &mut states, &mut transitions);
        if let Some(refusal) = Refusal::from_number(read.refusal) {
            return Err(refusal.into());
        }
        machines.truncate(read.machines as usize * MACHINE_WORDS);
        states.truncate(read.states as usize * STATE_WORDS);
        transitions.truncate(read.transitions as usize * TRANSITION_WORDS);
        Tables::from_words(machines, states, transitions)
    }
}
