//! Disks outside: what a device asks of one, and what its caller answers.

use crate::error::{Error, Refused, done};
use crate::machine::Machine;
use crate::raw;

/// What is to be done.
#[derive(Clone, Copy, Debug, PartialEq, Eq, Hash)]
#[non_exhaustive]
pub enum DiskWork {
    /// Sectors are read.
    Read,

    /// Sectors are written.
    Write,

    /// Sectors become zeros.
    Clear,

    /// What was answered before this was handed out becomes durable.
    Flush,
}

/// A call of a disk outside, until it is answered: by [`Machine::disk_done`] or [`Machine::disk_failed`], which take it. So none is answered twice.
///
/// It is answered, as failed too, once nothing of it can land any more: a write that lands later lies over what the guest wrote since. One that is
/// dropped without an answer is out still, and its guest waits: [`Machine::calls_out`] has it, so that it can be answered. Its number is of its
/// machine alone.
#[derive(Debug, PartialEq, Eq)]
#[must_use = "it has to be answered"]
pub struct Call {
    asked: raw::Call,
    what: DiskWork,
    machine: u64,
}

impl Call {
    /// The number of the device.
    #[must_use]
    pub const fn dev(&self) -> u8 {
        self.asked.dev
    }

    /// What is to be done.
    #[must_use]
    pub const fn what(&self) -> DiskWork {
        self.what
    }

    /// The first sector, and 0 of a flush.
    #[must_use]
    pub const fn first(&self) -> u64 {
        self.asked.first
    }

    /// How many sectors of 512 bytes: none of a flush, and else one at least.
    #[must_use]
    pub const fn count(&self) -> u32 {
        self.asked.count
    }

    /// How many bytes of the buffer it reads or writes.
    #[must_use]
    pub const fn len(&self) -> usize {
        match self.what {
            DiskWork::Read | DiskWork::Write => self.asked.count as usize * 512,
            DiskWork::Clear | DiskWork::Flush => 0,
        }
    }

    /// Whether it reads or writes no byte of the buffer.
    #[must_use]
    pub const fn is_empty(&self) -> bool {
        self.len() == 0
    }

    /// Whether a write, or a clearing, has to be durable before it is answered: its driver did not accept FLUSH.
    #[must_use]
    pub const fn is_durable(&self) -> bool {
        self.asked.durable != 0
    }

    /// It will not be answered here, as where its machine is gone.
    pub fn discard(self) {}

    fn of(call: raw::Call, machine: u64) -> Result<Call, Error> {
        let what = match call.what {
            raw::DISK_READ => DiskWork::Read,
            raw::DISK_WRITE => DiskWork::Write,
            raw::DISK_CLEAR => DiskWork::Clear,
            raw::DISK_FLUSH => DiskWork::Flush,
            _ => return Err(Error::NotKnown),
        };
        Ok(Call { asked: call, what, machine })
    }
}

/// Disks outside.
impl Machine {
    /// The next call that a device waits for, if there is one, of at most as many sectors as the buffer has room for, 512 bytes each. Of a write its
    /// bytes are in the buffer. Call it after each turn until there is none, and after each answer make a turn.
    ///
    /// ```no_run
    /// use vmig::{Call, DiskWork, Machine};
    /// use std::{fs::File, io, os::unix::fs::FileExt};
    ///
    /// /// Does what the disk is asked for, in a file: how many sectors were done.
    /// fn serve(file: &File, call: &Call, buf: &mut [u8]) -> io::Result<u32> {
    ///     let at = call.first() * 512;
    ///     match call.what() {
    ///         DiskWork::Read => file.read_exact_at(&mut buf[..call.len()], at)?,
    ///         DiskWork::Write => file.write_all_at(&buf[..call.len()], at)?,
    ///         DiskWork::Clear => (0..u64::from(call.count())).try_for_each(|k| file.write_all_at(&[0; 512], at + 512 * k))?,
    ///         DiskWork::Flush => file.sync_data()?,
    ///         _ => return Err(io::ErrorKind::Unsupported.into()),     // of a later version of this crate
    ///     }
    ///     if call.is_durable() {
    ///         file.sync_data()?;      // where one fails a whole host calls `Machine::sync_failed`, for good
    ///     }
    ///     Ok(call.count())
    /// }
    ///
    /// /// After each turn of the devices. A host with threads hands calls and buffers to them, and answers later.
    /// fn serve_all(machine: &mut Machine, file: &File) -> Result<(), vmig::Error> {
    ///     let mut buf = vec![0; 1 << 18];
    ///     while let Some(call) = machine.disk_call(&mut buf)? {
    ///         let answered = match serve(file, &call, &mut buf) {
    ///             Ok(count) => {
    ///                 let read = if call.what() == DiskWork::Read { call.len() } else { 0 };
    ///                 machine.disk_done(call, count, &buf[..read])
    ///             }
    ///             Err(_) => machine.disk_failed(call),
    ///         };
    ///         answered.map_err(|refused| refused.error)?;
    ///     }
    ///     Ok(())
    /// }
    /// ```
    ///
    /// Refusals: `Stopped`, `TooSmall` (a buffer of fewer than 512 bytes).
    pub fn disk_call(&mut self, buf: &mut [u8]) -> Result<Option<Call>, Error> {
        let mut call = raw::Call::default();
        // SAFETY: the handle is of this machine, and the slice is valid for the call, as those of the calls below are.
        match done(unsafe { raw::vmig_disk_call(&mut self.held, &mut call, buf.as_mut_ptr(), buf.len()) })? {
            raw::CALL => Call::of(call, self.number).map(Some),
            _ => Ok(None),
        }
    }

    /// This number of its sectors were done, from the first one on: one at least, and of a flush none. Of a read their bytes are handed in, of others
    /// none. What lacks is asked for anew, by another call. It is Ok too where the device asked for a reset meanwhile, and nobody waits any more; and
    /// where the disk is lost ([`Machine::sync_failed`]) and this says that something is durable: that counts as failed.
    ///
    /// Refused, and the call is handed back: `NotOut` (it is one of another machine), `TooSmall` or `TooLong` (not as many sectors or bytes),
    /// `Stopped`.
    pub fn disk_done(&mut self, call: Call, count: u32, bytes: &[u8]) -> Result<(), Refused<Call>> {
        if call.machine != self.number {
            return Err(Refused::new(Error::NotOut, call));
        }
        // SAFETY: see `disk_call`.
        answered(call, |number| unsafe { raw::vmig_disk_done(&mut self.held, number, count, bytes.as_ptr(), bytes.len()) })
    }

    /// It failed, and nothing of it can land any more: the guest reads an error. A time-out is no answer.
    pub fn disk_failed(&mut self, call: Call) -> Result<(), Refused<Call>> {
        if call.machine != self.number {
            return Err(Refused::new(Error::NotOut, call));
        }
        // SAFETY: see `disk_call`.
        answered(call, |number| unsafe { raw::vmig_disk_failed(&mut self.held, number) })
    }

    /// The calls that were handed out and are not answered, as they were handed out, oldest first. So one that was dropped, as by a `?`, can be
    /// answered. Of one that is held elsewhere too the first answer counts, and the other is `NotOut`.
    pub fn calls_out(&self) -> Result<Vec<Call>, Error> {
        let mut calls = vec![raw::Call::default(); self.describe().calls_out as usize];
        let mut count = 0;
        // SAFETY: see `disk_call`.
        done(unsafe { raw::vmig_calls_out(&self.held, calls.as_mut_ptr(), calls.len(), &mut count) })?;
        calls.into_iter().map(|call| Call::of(call, self.number)).collect()
    }
}

/// The call is spent by an answer that is taken.
fn answered(call: Call, answer: impl FnOnce(u64) -> u32) -> Result<(), Refused<Call>> {
    match done(answer(call.asked.number)) {
        Ok(_) => Ok(()),
        Err(error) => Err(Refused::new(error, call)),
    }
}
