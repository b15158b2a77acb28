//! The C interface as it is: the structs of `bindings/c/maybenot.h` word for word, and its functions
//! over slices.
//!
//! These functions are safe: whatever words, floats, bytes and lengths they are lent, they end, stay
//! inside what they were lent and answer with a refusal where it does not fit. All lengths are free, so
//! this is the layer at which an odd event list or a short output can be tried.

use std::mem::{offset_of, size_of};

/// The version of the interface that this binding is written for. The archive's function of that name
/// answers it, and an archive of another version does not link.
pub const INTERFACE: u64 = 2;
/// At most so many machines.
pub const MAX_MACHINES: usize = 16;
/// Words of a row of the machine table.
pub const MACHINE_WORDS: usize = 6;
/// Words of a row of the state table.
pub const STATE_WORDS: usize = 58;
/// Words of a row of the transition table.
pub const TRANSITION_WORDS: usize = 2;
/// Columns of a line's kind in a sheet.
pub const KIND_COLUMNS: usize = 4;
/// Columns of a word in a sheet.
pub const WORD_COLUMNS: usize = 21;
/// Bytes of a machine's line in a sheet, with its line feed.
pub const MACHINE_LINE: usize = line(MACHINE_WORDS);
/// Bytes of a state's line.
pub const STATE_LINE: usize = line(STATE_WORDS);
/// Bytes of a transition's line.
pub const TRANSITION_LINE: usize = line(TRANSITION_WORDS);
/// Words of an event.
pub const EVENT_WORDS: usize = 2;
/// Words of a row of the output.
pub const ACTION_WORDS: usize = 6;
/// Words of the framework.
pub const FRAMEWORK_WORDS: usize = 12 + 9 * MAX_MACHINES;

/// One machine's state.
#[repr(C)]
#[derive(Debug, Clone, Copy, PartialEq, Eq, Hash)]
pub struct MachineRuntime {
    /// The state it is in; [`STATE_END`](crate::constants::STATE_END) where it has ended.
    pub current_state: u64,
    /// How often the state's action may still be taken.
    pub state_limit: u64,
    /// Padding packets of this machine.
    pub padding_sent: u64,
    /// Normal packets since the machine started.
    pub normal_sent: u64,
    /// Microseconds of blocking since the machine started, whoever asked for it, without what is going
    /// on.
    pub blocking_duration: u64,
    /// The time at which it started.
    pub machine_start: u64,
    /// The microseconds of blocking before other limits apply.
    pub allowed_blocked_microsec: u64,
    /// Counter A.
    pub counter_a: u64,
    /// Counter B.
    pub counter_b: u64,
}

/// The framework, as the sender keeps it between calls. Every pattern of words is a value.
#[repr(C)]
#[derive(Debug, Clone, Copy, PartialEq)]
pub struct Framework {
    /// A machine's state, for as many as there are.
    pub runtime: [MachineRuntime; MAX_MACHINES],
    /// The number of machines.
    pub machines: u64,
    /// How many of them have ended. A batch refuses another number as 18.
    pub ended: u64,
    /// The time of the last accepted call.
    pub current_time: u64,
    /// 0 none, 1 all machines, 2 + m all but machine m.
    pub signal_pending: u64,
    /// The maximum fraction of padding packets over all machines; no limit where it is 0.
    pub max_padding_frac: f64,
    /// The maximum fraction of blocked time over all machines; no limit where it is 0.
    pub max_blocking_frac: f64,
    /// The time of the opening.
    pub framework_start: u64,
    /// Normal packets since the opening.
    pub normal_sent_packets: u64,
    /// Padding packets since the opening, of unknown machines too.
    pub padding_sent_packets: u64,
    /// Microseconds of blocking, without what is going on.
    pub blocking_duration: u64,
    /// The time at which blocking last began; that of the opening before the first.
    pub blocking_started: u64,
    /// On where it is not 0.
    pub blocking_active: u64,
}

/// The answer of an opening.
#[repr(C)]
#[derive(Debug, Clone, Copy, PartialEq)]
pub struct Opened {
    /// The refusal, or 0.
    pub refusal: u64,
    /// How many chance draws were taken: none.
    pub chance_used: u64,
    /// How many value draws were taken.
    pub value_used: u64,
    /// The framework; all 0 where the call was refused.
    pub framework: Framework,
}

/// The answer of a batch.
#[repr(C)]
#[derive(Debug, Clone, Copy, PartialEq, Eq, Hash)]
pub struct Reply {
    /// The refusal, or 0.
    pub refusal: u64,
    /// How many rows were written.
    pub actions: u64,
    /// How many chance draws were taken.
    pub chance_used: u64,
    /// How many value draws were taken.
    pub value_used: u64,
}

/// The answer of an opening from words.
#[repr(C)]
#[derive(Debug, Clone, Copy, PartialEq)]
pub struct OpenedWords {
    /// The refusal, or 0.
    pub refusal: u64,
    /// How many words were taken: every one that was tried.
    pub words_used: u64,
    /// The framework; all 0 where the call was refused.
    pub framework: Framework,
}

/// The answer of a batch from words.
#[repr(C)]
#[derive(Debug, Clone, Copy, PartialEq, Eq, Hash)]
pub struct ReplyWords {
    /// The refusal, or 0.
    pub refusal: u64,
    /// How many rows were written.
    pub actions: u64,
    /// How many words were taken: every one that was tried.
    pub words_used: u64,
}

/// The answer of a sheet's reader.
#[repr(C)]
#[derive(Debug, Clone, Copy, PartialEq, Eq, Hash)]
pub struct SheetRows {
    /// The refusal, or 0.
    pub refusal: u64,
    /// How many rows were read into the machine table.
    pub machines: u64,
    /// How many rows were read into the state table.
    pub states: u64,
    /// How many rows were read into the transition table.
    pub transitions: u64,
}

/// The answer of a sheet's writer.
#[repr(C)]
#[derive(Debug, Clone, Copy, PartialEq, Eq, Hash)]
pub struct SheetBytes {
    /// The refusal, or 0.
    pub refusal: u64,
    /// How many bytes were written.
    pub bytes: u64,
}

/// The answer of a due list.
#[repr(C)]
#[derive(Debug, Clone, Copy, PartialEq, Eq, Hash)]
pub struct Due {
    /// The refusal, or 0.
    pub refusal: u64,
    /// How many rows were written.
    pub rows: u64,
}

/// The three tables, lent.
#[derive(Debug, Clone, Copy)]
pub struct Words<'a> {
    /// The machine table, [`MACHINE_WORDS`] a row.
    pub machines: &'a [u64],
    /// The state table, [`STATE_WORDS`] a row.
    pub states: &'a [u64],
    /// The transition table, [`TRANSITION_WORDS`] a row.
    pub transitions: &'a [u64],
}

/// Bytes of the line of a row of so many words.
const fn line(words: usize) -> usize {
    KIND_COLUMNS + WORD_COLUMNS * words + 1
}

// The numbers of maybenot.h and its test.
const _: () = {
    assert!(size_of::<usize>() == 8);
    assert!(size_of::<MachineRuntime>() == 72);
    assert!(offset_of!(MachineRuntime, current_state) == 0);
    assert!(offset_of!(MachineRuntime, state_limit) == 8);
    assert!(offset_of!(MachineRuntime, padding_sent) == 16);
    assert!(offset_of!(MachineRuntime, normal_sent) == 24);
    assert!(offset_of!(MachineRuntime, blocking_duration) == 32);
    assert!(offset_of!(MachineRuntime, machine_start) == 40);
    assert!(offset_of!(MachineRuntime, allowed_blocked_microsec) == 48);
    assert!(offset_of!(MachineRuntime, counter_a) == 56);
    assert!(offset_of!(MachineRuntime, counter_b) == 64);

    assert!(size_of::<Framework>() == 16 * 72 + 96);
    assert!(size_of::<Framework>() == 8 * FRAMEWORK_WORDS);
    assert!(offset_of!(Framework, runtime) == 0);
    assert!(offset_of!(Framework, machines) == 16 * 72);
    assert!(offset_of!(Framework, ended) == 16 * 72 + 8);
    assert!(offset_of!(Framework, current_time) == 16 * 72 + 16);
    assert!(offset_of!(Framework, signal_pending) == 16 * 72 + 24);
    assert!(offset_of!(Framework, max_padding_frac) == 16 * 72 + 32);
    assert!(offset_of!(Framework, max_blocking_frac) == 16 * 72 + 40);
    assert!(offset_of!(Framework, framework_start) == 16 * 72 + 48);
    assert!(offset_of!(Framework, normal_sent_packets) == 16 * 72 + 56);
    assert!(offset_of!(Framework, padding_sent_packets) == 16 * 72 + 64);
    assert!(offset_of!(Framework, blocking_duration) == 16 * 72 + 72);
    assert!(offset_of!(Framework, blocking_started) == 16 * 72 + 80);
    assert!(offset_of!(Framework, blocking_active) == 16 * 72 + 88);

    assert!(size_of::<Opened>() == 24 + size_of::<Framework>());
    assert!(offset_of!(Opened, refusal) == 0);
    assert!(offset_of!(Opened, chance_used) == 8);
    assert!(offset_of!(Opened, value_used) == 16);
    assert!(offset_of!(Opened, framework) == 24);

    assert!(size_of::<Reply>() == 32);
    assert!(offset_of!(Reply, refusal) == 0);
    assert!(offset_of!(Reply, actions) == 8);
    assert!(offset_of!(Reply, chance_used) == 16);
    assert!(offset_of!(Reply, value_used) == 24);

    assert!(size_of::<OpenedWords>() == 16 + size_of::<Framework>());
    assert!(offset_of!(OpenedWords, refusal) == 0);
    assert!(offset_of!(OpenedWords, words_used) == 8);
    assert!(offset_of!(OpenedWords, framework) == 16);

    assert!(size_of::<ReplyWords>() == 24);
    assert!(offset_of!(ReplyWords, refusal) == 0);
    assert!(offset_of!(ReplyWords, actions) == 8);
    assert!(offset_of!(ReplyWords, words_used) == 16);

    assert!(size_of::<SheetRows>() == 32);
    assert!(offset_of!(SheetRows, refusal) == 0);
    assert!(offset_of!(SheetRows, machines) == 8);
    assert!(offset_of!(SheetRows, states) == 16);
    assert!(offset_of!(SheetRows, transitions) == 24);

    assert!(size_of::<SheetBytes>() == 16);
    assert!(offset_of!(SheetBytes, refusal) == 0);
    assert!(offset_of!(SheetBytes, bytes) == 8);

    assert!(size_of::<Due>() == 16);
    assert!(offset_of!(Due, refusal) == 0);
    assert!(offset_of!(Due, rows) == 8);

    assert!(MACHINE_LINE == 131);
    assert!(STATE_LINE == 1223);
    assert!(TRANSITION_LINE == 47);
};

impl Framework {
    /// The framework as words, in the order of its fields: to store it, or to compare it bit by bit.
    pub fn to_words(&self) -> [u64; FRAMEWORK_WORDS] {
        // SAFETY: the struct is repr(C) of 8-byte numbers alone, of the same size (asserted above).
        unsafe { std::mem::transmute(*self) }
    }

    /// The framework of these words. A call on one that no opening gave is refused as 18 or goes by
    /// the numbers it finds.
    pub fn from_words(words: [u64; FRAMEWORK_WORDS]) -> Framework {
        // SAFETY: as above, and every pattern of words is a value of every field.
        unsafe { std::mem::transmute(words) }
    }
}

impl Words<'_> {
    /// Bytes of the sheet of these tables: the room that [`sheet_write`] needs.
    pub fn sheet_len(&self) -> usize {
        self.machines.len() / MACHINE_WORDS * MACHINE_LINE
            + self.states.len() / STATE_WORDS * STATE_LINE
            + self.transitions.len() / TRANSITION_WORDS * TRANSITION_LINE
    }
}

/// A function of the archive, called with the tables behind the first arguments.
macro_rules! with_tables {
    ($name:ident($($first:expr),*; $tables:expr; $($then:expr),*)) => {
        c::$name(
            $($first,)*
            $tables.machines.as_ptr(),
            $tables.machines.len(),
            $tables.states.as_ptr(),
            $tables.states.len(),
            $tables.transitions.as_ptr(),
            $tables.transitions.len(),
            $($then),*
        )
    };
}

mod c {
    use super::{Due, Framework, Opened, OpenedWords, Reply, ReplyWords, SheetBytes, SheetRows};

    extern "C" {
        pub fn maybenot_opening(
            max_padding_frac: f64,
            max_blocking_frac: f64,
            time: u64,
            machines: *const u64,
            machines_len: usize,
            states: *const u64,
            states_len: usize,
            transitions: *const u64,
            transitions_len: usize,
            values: *const f64,
            values_len: usize,
        ) -> Opened;

        pub fn maybenot_batch(
            framework: *mut Framework,
            machines: *const u64,
            machines_len: usize,
            states: *const u64,
            states_len: usize,
            transitions: *const u64,
            transitions_len: usize,
            time: u64,
            events: *const u64,
            events_len: usize,
            chances: *const f32,
            chances_len: usize,
            values: *const f64,
            values_len: usize,
            out: *mut u64,
            out_len: usize,
        ) -> Reply;

        pub fn maybenot_opening_words(
            max_padding_frac: f64,
            max_blocking_frac: f64,
            time: u64,
            machines: *const u64,
            machines_len: usize,
            states: *const u64,
            states_len: usize,
            transitions: *const u64,
            transitions_len: usize,
            words: *const u64,
            words_len: usize,
        ) -> OpenedWords;

        pub fn maybenot_batch_words(
            framework: *mut Framework,
            machines: *const u64,
            machines_len: usize,
            states: *const u64,
            states_len: usize,
            transitions: *const u64,
            transitions_len: usize,
            time: u64,
            events: *const u64,
            events_len: usize,
            words: *const u64,
            words_len: usize,
            out: *mut u64,
            out_len: usize,
        ) -> ReplyWords;

        pub fn maybenot_all_machines_ended(framework: *const Framework) -> bool;

        pub fn maybenot_sheet_read(
            sheet: *const u8,
            sheet_len: usize,
            machines: *mut u64,
            machines_len: usize,
            states: *mut u64,
            states_len: usize,
            transitions: *mut u64,
            transitions_len: usize,
        ) -> SheetRows;

        pub fn maybenot_sheet_write(
            machines: *const u64,
            machines_len: usize,
            states: *const u64,
            states_len: usize,
            transitions: *const u64,
            transitions_len: usize,
            sheet: *mut u8,
            sheet_len: usize,
        ) -> SheetBytes;

        pub fn maybenot_due_list(
            rows: *const u64,
            rows_len: usize,
            out: *mut u64,
            out_len: usize,
        ) -> Due;

        pub fn maybenot_interface_2() -> u64;
    }
}

/// Kept in every program, so that an archive of another version does not link, whoever calls what.
#[used]
static LINKED: unsafe extern "C" fn() -> u64 = c::maybenot_interface_2;

/// The version of the interface, as the archive answers it: [`INTERFACE`].
pub fn interface() -> u64 {
    // SAFETY: the function reads nothing and answers a number.
    unsafe { c::maybenot_interface_2() }
}

/// Opens a framework with the machines of these tables.
pub fn opening(
    max_padding_frac: f64,
    max_blocking_frac: f64,
    time: u64,
    tables: Words<'_>,
    values: &[f64],
) -> Opened {
    // SAFETY: each pointer comes with the length of its slice; the function reads inside these alone.
    unsafe {
        with_tables!(maybenot_opening(
            max_padding_frac, max_blocking_frac, time; tables;
            values.as_ptr(), values.len()
        ))
    }
}

/// Runs a batch of events on the framework and writes a row for each action to take. A refused call
/// leaves the framework and the output as they were.
#[allow(clippy::too_many_arguments)] // the C interface's own
pub fn batch(
    framework: &mut Framework,
    tables: Words<'_>,
    time: u64,
    events: &[u64],
    chances: &[f32],
    values: &[f64],
    out: &mut [u64],
) -> Reply {
    // SAFETY: each pointer comes with the length of its slice; the function reads inside these alone
    // and writes inside the framework and the output, which are lent to nobody else.
    unsafe {
        with_tables!(maybenot_batch(
            framework; tables;
            time, events.as_ptr(), events.len(), chances.as_ptr(), chances.len(), values.as_ptr(),
            values.len(), out.as_mut_ptr(), out.len()
        ))
    }
}

/// Opens a framework with the machines of these tables, and works its draws out of random words. A
/// distribution that is drawn outside is refused (24).
pub fn opening_words(
    max_padding_frac: f64,
    max_blocking_frac: f64,
    time: u64,
    tables: Words<'_>,
    words: &[u64],
) -> OpenedWords {
    // SAFETY: each pointer comes with the length of its slice; the function reads inside these alone.
    unsafe {
        with_tables!(maybenot_opening_words(
            max_padding_frac, max_blocking_frac, time; tables;
            words.as_ptr(), words.len()
        ))
    }
}

/// Runs a batch of events and works its draws out of random words: the same as [`batch`] on these draws.
/// A distribution that is drawn outside is refused (24). A refused call leaves the framework and the
/// output as they were.
pub fn batch_words(
    framework: &mut Framework,
    tables: Words<'_>,
    time: u64,
    events: &[u64],
    words: &[u64],
    out: &mut [u64],
) -> ReplyWords {
    // SAFETY: each pointer comes with the length of its slice; the function reads inside these alone
    // and writes inside the framework and the output, which are lent to nobody else.
    unsafe {
        with_tables!(maybenot_batch_words(
            framework; tables;
            time, events.as_ptr(), events.len(), words.as_ptr(), words.len(), out.as_mut_ptr(),
            out.len()
        ))
    }
}

/// Whether every machine has ended; true with no machines. It reads the fields `ended` and `machines` of
/// any framework and nothing else: true exactly where they are equal, a count above 16 read as 16.
pub fn all_machines_ended(framework: &Framework) -> bool {
    // SAFETY: the function reads the framework alone, and every pattern of words is a value of it.
    unsafe { c::maybenot_all_machines_ended(framework) }
}

/// Reads a sheet into the tables, whose words behind what was read stay. It judges the form of the sheet
/// alone (22), then the room (23). A refused call leaves the tables as they were.
pub fn sheet_read(
    sheet: &[u8],
    machines: &mut [u64],
    states: &mut [u64],
    transitions: &mut [u64],
) -> SheetRows {
    // SAFETY: each pointer comes with the length of its slice; the function reads inside the sheet alone
    // and writes inside the tables, which are lent to nobody else.
    unsafe {
        c::maybenot_sheet_read(
            sheet.as_ptr(),
            sheet.len(),
            machines.as_mut_ptr(),
            machines.len(),
            states.as_mut_ptr(),
            states.len(),
            transitions.as_mut_ptr(),
            transitions.len(),
        )
    }
}

/// Writes the sheet of the tables, whatever their words; the bytes behind it stay. Tables that are not
/// whole rows are refused (3), then a sheet that is too small (23). A refused call leaves the sheet as
/// it was.
pub fn sheet_write(tables: Words<'_>, sheet: &mut [u8]) -> SheetBytes {
    // SAFETY: each pointer comes with the length of its slice; the function reads inside these alone
    // and writes inside the sheet, which is lent to nobody else.
    unsafe {
        with_tables!(maybenot_sheet_write(
            ; tables;
            sheet.as_mut_ptr(), sheet.len()
        ))
    }
}

/// Puts the rows of a batch into `out` in the order in which they fall due; the words behind the last
/// row stay. Rows that are not whole are refused (3), then a kind other than 1 to 4 (14), then an output
/// that is shorter than the rows (20). A refused call leaves the output as it was.
pub fn due_list(rows: &[u64], out: &mut [u64]) -> Due {
    // SAFETY: each pointer comes with the length of its slice; the function reads inside these alone
    // and writes inside the output, which is lent to nobody else.
    unsafe { c::maybenot_due_list(rows.as_ptr(), rows.len(), out.as_mut_ptr(), out.len()) }
}
