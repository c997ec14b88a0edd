//! A turn of the devices in one call.

use crate::error::{Error, done};
use crate::machine::{Machine, Pick, Step};
use crate::raw;

/// A turn of the devices. Keep it with its machine, and set `left` before each turn: so the next one begins after the last step of this one,
/// and no device keeps the others from their work.
#[derive(Clone, Copy, Debug, Default, PartialEq, Eq, Hash)]
pub struct Turn {
    /// The step that was made or passed over last.
    pub last: Pick,

    /// How many steps may still be made or passed over. Each counts it down, so a loop around [`Machine::work`] ends, whatever a guest does.
    pub left: u32,
}

/// Why a call of [`Machine::work`] ended.
#[derive(Clone, Copy, Debug, PartialEq, Eq, Hash)]
#[non_exhaustive]
#[must_use = "a message of the guest may be in it"]
pub enum TurnEnd<'a> {
    /// No step of any device has anything to do.
    Idle,

    /// There is more to do: the turn has no step left, or memory was refused to a step that was not the first of this call. Let the guest run,
    /// and come again.
    Unfinished,

    /// This step was passed over, as the guest takes what it wrote to the disk of this device for durable by it. Bring the disk to its file by
    /// [`Machine::sync`], and if that did not fail make the step by [`Machine::step`]. Then call again.
    SyncOwed(Pick),

    /// This step was made, and the host has to know its answer: [`Step::Sent`], [`Step::Dropped`], [`Step::NeedsReset`], [`Step::BadSector`],
    /// [`Step::DiskFailed`], or [`Step::Completed`] of an entropy device, which has room for so many bytes now. Call again to go on.
    Answer(Pick, Step<'a>),
}

impl Turn {
    /// The first turn of a machine, of at most so many steps.
    #[must_use]
    pub const fn new(steps: u32) -> Turn {
        Turn { last: Pick { dev: 0, pick: 0 }, left: steps }
    }
}

impl Machine {
    /// The devices do their work: the steps that [`Machine::next`] names, one after another, as [`Machine::step`] makes them, until the host has
    /// something to do. The loop around it, after each register write and each input, is on the first page of this crate.
    ///
    /// ```
    /// use vmig::{Device, Machine, SENT_MAX, Turn, TurnEnd};
    ///
    /// let mut machine = Machine::builder().pages(16).device(Device::Console).build()?;
    /// let mut turn = Turn::new(1000);
    /// assert_eq!(machine.work(&mut turn, &mut vec![0; SENT_MAX])?, TurnEnd::Idle);        // its guest has no driver yet
    /// assert_eq!(turn.left, 1000);
    /// # Ok::<(), Box<dyn std::error::Error>>(())
    /// ```
    ///
    /// Refusals: `Stopped`; `TooSmall`, where the buffer has fewer than [`Machine::message_len`] bytes, whatever the work; `NoMemory` of the first
    /// step of this call, and then nothing has changed: the next call begins with this step. To let the others go first, set `turn.last` to the
    /// step that [`Machine::next`] names after it.
    pub fn work<'a>(&mut self, turn: &mut Turn, buf: &'a mut [u8]) -> Result<TurnEnd<'a>, Error> {
        let Pick { dev, pick } = turn.last;
        let mut held = raw::Turn { dev, pick, left: turn.left, ..raw::Turn::default() };
        // SAFETY: the handle is of this machine, and the slice is valid for the call.
        let status = done(unsafe { raw::vmig_work(&mut self.held, &mut held, buf.as_mut_ptr(), buf.len()) })?;
        let last = Pick { dev: held.dev, pick: held.pick };
        *turn = Turn { last, left: held.left };
        Ok(match status {
            raw::IDLE => TurnEnd::Idle,
            raw::WORK => TurnEnd::Unfinished,
            raw::SYNC => TurnEnd::SyncOwed(last),
            answer => TurnEnd::Answer(last, Step::of(answer, held.len, buf)?),
        })
    }
}
