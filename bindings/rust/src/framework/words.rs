//! Draws from random words: one tape of them serves every Uniform, and the library works the draws out.

use super::{accepted, most_draws, push_actions, Framework, NO_ROWS};
use crate::action::TriggerAction;
use crate::draws::Store;
use crate::event::TriggerEvent;
use crate::refusal::Refused;
use crate::sys;
use crate::tables::Tables;
use std::borrow::Borrow;

impl<T: Borrow<Tables>> Framework<T> {
    /// Opens a framework as [`open`](Self::open) does, with the limits of the start states drawn from
    /// random words.
    ///
    /// `words` gives the next word of the sender's source, each of its 64 bits 0 or 1 with the same
    /// probability. Tables with a distribution that is drawn outside are refused
    /// ([`Refusal::DrawnOutside`](crate::Refusal::DrawnOutside); [`Tables::draws_outside`] tells).
    pub fn open_words(
        tables: T,
        max_padding_frac: f64,
        max_blocking_frac: f64,
        time: u64,
        words: impl FnMut() -> u64,
    ) -> Result<Self, Refused> {
        let (lent, mut store) = (tables.borrow(), Store::default());
        let opened = store.words.lend(lent.num_machines(), words, |words| {
            let opened =
                sys::opening_words(max_padding_frac, max_blocking_frac, time, lent.words(), words);
            (opened.refusal, opened.words_used, opened)
        })?;
        Ok(Framework { store, ..Framework::of(opened.framework, tables) })
    }

    /// Opens a framework with a tape of words of the sender's own, read from the front. Gives the
    /// framework and the number of words used.
    pub fn open_with_words(
        tables: T,
        max_padding_frac: f64,
        max_blocking_frac: f64,
        time: u64,
        words: &[u64],
    ) -> Result<(Self, usize), Refused> {
        let lent = tables.borrow().words();
        let opened = sys::opening_words(max_padding_frac, max_blocking_frac, time, lent, words);
        accepted(opened.refusal)?;
        Ok((Framework::of(opened.framework, tables), opened.words_used as usize))
    }

    /// Triggers the events at this time, and returns the actions to take, as
    /// [`trigger_events`](Self::trigger_events) does, with draws from random words: one call of the
    /// library, however many distributions the tables have. The first choice where none of them is
    /// drawn outside.
    ///
    /// Words are taken from the source in order, and each is used once: the calls of a framework use
    /// what one long tape of the source's words would give them, the opening's first, then those of
    /// each accepted call. A chance is the top 24 bits of a word over 2^24. A Uniform value is
    /// low + (high - low) * u, with u the top 53 bits over 2^53; where that rounds up to high the next
    /// word is tried. Every word that was tried is used.
    ///
    /// Before the call words are taken ahead, one for each draw that it may need, and more where they
    /// are used up (16). What the call has not used is kept for the next one
    /// ([`words_in_store`](Self::words_in_store)): lend the same source again.
    ///
    /// A refused call returns no action and leaves the framework as it was. For its draws it is refused
    /// only where 64 words for each of them hold too few that serve: the source is broken, and the words
    /// in store are dropped. The crate's [documentation](crate#draws) has an example.
    pub fn trigger_events_words(
        &mut self,
        events: &[TriggerEvent],
        time: u64,
        words: impl FnMut() -> u64,
    ) -> Result<&[TriggerAction], Refused> {
        self.put_events(events);
        self.run_words(time, words)?;
        Ok(&self.actions)
    }

    /// Runs the events with words of the source, and puts the actions to take.
    pub(super) fn run_words(
        &mut self,
        time: u64,
        words: impl FnMut() -> u64,
    ) -> Result<(), Refused> {
        let (tables, mut rows) = (self.tables.borrow(), NO_ROWS);
        let most = most_draws(tables, self.events.len() / sys::EVENT_WORDS);
        let (state, events) = (&mut self.state, &self.events);
        let actions = self.store.words.lend(most.chances + most.values, words, |words| {
            let reply = sys::batch_words(state, tables.words(), time, events, words, &mut rows);
            (reply.refusal, reply.words_used, reply.actions)
        })?;
        self.actions.clear();
        push_actions(&rows, actions, &mut self.actions);
        Ok(())
    }

    /// Runs a batch of events with a tape of words of the sender's own, read from the front, and gives
    /// the number of words used. The actions to take replace what is in `out`; where the call is
    /// refused, `out` and the framework stay as they are. After a refusal as 16 the same words and more
    /// behind them will do.
    pub fn batch_words(
        &mut self,
        time: u64,
        events: &[TriggerEvent],
        words: &[u64],
        out: &mut Vec<TriggerAction>,
    ) -> Result<usize, Refused> {
        self.put_events(events);
        let (tables, mut rows) = (self.tables.borrow().words(), NO_ROWS);
        let reply = sys::batch_words(&mut self.state, tables, time, &self.events, words, &mut rows);
        accepted(reply.refusal)?;
        out.clear();
        push_actions(&rows, reply.actions, out);
        Ok(reply.words_used as usize)
    }

    /// How many words were taken from the source that no call has used yet. A clone and a framework that
    /// was resumed have none.
    pub fn words_in_store(&self) -> usize {
        self.store.words.len()
    }
}
