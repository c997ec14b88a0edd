//! A machine and its guest.

use crate::builder::MachineBuilder;
use crate::device::{Device, devices_of};
use crate::error::{Error, SyncError, done};
use crate::image::Image;
use crate::memory::Memory;
use crate::pages::Pages;
use crate::raw;
use std::sync::atomic::{AtomicU64, Ordering};

/// A machine, which is freed with its owner.
///
/// It may go to another thread. Two threads cannot have it at once: it is not [`Sync`], since the library takes one call at a time.
#[derive(Debug)]
pub struct Machine {
    pub(crate) held: raw::Machine,
    // Where its RAM and its disks lie, if not in memory of the library. They are dropped after the machine was freed.
    pub(crate) parts: Parts,
    // No other machine of this process has it: a call of a disk is of one machine, and its numbers begin there.
    pub(crate) number: u64,
}

// SAFETY: the library keeps nothing of the thread that made a machine, and one call at a time has it.
unsafe impl Send for Machine {}

/// The memory of the caller that a machine used, with its bytes.
#[derive(Debug, Default)]
pub struct Parts {
    /// Its RAM, if that was not in memory of the library.
    pub memory: Option<Memory>,

    /// Its disks, in the order of the devices, if they were not in memory of the library.
    pub images: Vec<Image>,
}

/// A step of the devices: a device, and which piece of its work.
#[derive(Clone, Copy, Debug, Default, PartialEq, Eq, Hash)]
pub struct Pick {
    /// The number of the device.
    pub dev: u8,

    /// Which piece: see [`Machine::step`].
    pub pick: u8,
}

/// What the devices have to do next.
#[derive(Clone, Copy, Debug, PartialEq, Eq, Hash)]
#[non_exhaustive]
pub enum Next {
    /// No step of any device has anything to do, and no call of a disk outside may be handed out: one that waits has to wait for an answer of
    /// another.
    Idle,

    /// This step.
    Work(Pick),

    /// This step, and the guest takes what it wrote to the disk of this device for durable by it: bring the disk to its file before, by
    /// [`Machine::sync`], and make the step only if that did not fail.
    Sync(Pick),

    /// No step of any device has anything to do, and a call of the disk outside of this device waits to be asked for, by [`Machine::disk_call`].
    Call(u8),
}

/// What a device did in a step.
#[derive(Clone, Copy, Debug, PartialEq, Eq, Hash)]
#[non_exhaustive]
#[must_use = "a message of the guest may be in it"]
pub enum Step<'a> {
    /// It found nothing to do.
    Idle,

    /// A block device took a request.
    Taken,

    /// One unit of a request is done: a sector, a flush or the id.
    Moved,

    /// The sector is bad; the request will end with an error.
    BadSector,

    /// The disk is lost: the flush failed, and the request will end with an error.
    DiskFailed,

    /// A chain was given back to the driver, with this used length.
    Completed(u32),

    /// A message of the guest, at the front of the buffer.
    Sent(&'a [u8]),

    /// A frame did not fit into the guest's buffer, and is gone.
    Dropped,

    /// The guest's chain is malformed; the device asks its driver for a reset.
    NeedsReset,
}

impl<'a> Step<'a> {
    /// What a step was answered by this status. `len` is that of a message, at the front of the buffer, or the used length.
    pub(crate) fn of(status: u32, len: u32, buf: &'a [u8]) -> Result<Step<'a>, Error> {
        Ok(match status {
            raw::IDLE => Step::Idle,
            raw::TAKEN => Step::Taken,
            raw::MOVED => Step::Moved,
            raw::BAD_SECTOR => Step::BadSector,
            raw::DISK_FAILED => Step::DiskFailed,
            raw::COMPLETED => Step::Completed(len),
            raw::SENT => Step::Sent(&buf[..len as usize]),
            raw::DROPPED => Step::Dropped,
            raw::NEEDS_RESET => Step::NeedsReset,
            _ => return Err(Error::Unknown),
        })
    }
}

/// Where a machine stands between the beginning and the end of a move.
#[derive(Clone, Copy, Debug, PartialEq, Eq, Hash)]
#[non_exhaustive]
pub enum State {
    /// It is not being sent.
    Idle,

    /// It is being sent, and its guest runs.
    Sending,

    /// Memory was refused for what waits to be taken: [`Machine::send_abort`] makes it idle again.
    SendFailed,

    /// It was sent whole, and its guest is paused.
    Stopped,
}

/// Refuses where the library that was linked is of another major version than this crate, or older.
pub(crate) fn is_linked_right() -> Result<(), Error> {
    is_right(crate::version()).then_some(()).ok_or(Error::NotKnown)
}

/// Whether a library of this version has what this crate calls.
fn is_right(linked: u32) -> bool {
    let parts = [env!("CARGO_PKG_VERSION_MAJOR"), env!("CARGO_PKG_VERSION_MINOR"), env!("CARGO_PKG_VERSION_PATCH")];
    let wanted = parts.iter().fold(0, |sum, part| sum << 8 | part.parse().unwrap_or(0u32));
    linked >> 16 == wanted >> 16 && linked >= wanted
}

/// A number that no other machine of this process has.
pub(crate) fn new_number() -> u64 {
    static NEXT: AtomicU64 = AtomicU64::new(1);
    NEXT.fetch_add(1, Ordering::Relaxed)
}

/// The number of the first call of the machine with this number: each has 2^40 of its own, so an answer of another machine meets nobody, nor does one
/// of a machine that is gone.
pub(crate) fn first_number(machine: u64) -> u64 {
    machine << 40
}

impl Drop for Machine {
    fn drop(&mut self) {
        // SAFETY: the handle is one of the library, or all zeros.
        unsafe { raw::vmig_free(&mut self.held) }
    }
}

/// Its life.
impl Machine {
    pub(crate) fn new(held: raw::Machine, parts: Parts, number: u64) -> Machine {
        Machine { held, parts, number }
    }

    /// How a machine is made.
    pub fn builder() -> MachineBuilder {
        MachineBuilder::default()
    }

    /// Frees the machine. The result is the memory of the caller that it used: RAM, and images with what the guest left there. A sector that
    /// is bad may hold anything.
    #[must_use = "dropping the machine frees it too"]
    pub fn into_parts(mut self) -> Parts {
        let mut slots: Vec<_> = self.parts.images.iter().map(|_| raw::NO_IMAGE).collect();
        // SAFETY: the handle is of this machine, and the slots are valid for the call.
        let status = unsafe { raw::vmig_release(&mut self.held, slots.as_mut_ptr(), slots.len()) };
        debug_assert_eq!(status, raw::OK, "a machine that is not lent, and slots for all its images");
        std::mem::take(&mut self.parts)
    }

    pub(crate) fn describe(&self) -> raw::Description {
        let mut found = raw::Description::default();
        // SAFETY: the handle is of this machine, here and in all that follows.
        unsafe { raw::vmig_describe(&self.held, &mut found) };
        found
    }

    /// How many pages of RAM it has.
    #[must_use]
    pub fn pages(&self) -> u32 {
        self.describe().pages
    }

    /// The guest-physical address at which its RAM begins.
    #[must_use]
    pub fn base(&self) -> u64 {
        self.describe().base
    }

    /// What its devices were made as. `NotKnown` where the library has a kind that this crate has not.
    pub fn devices(&self) -> Result<Vec<Device>, Error> {
        devices_of(&self.describe())
    }

    /// Whether it is being sent.
    #[must_use]
    pub fn state(&self) -> State {
        match self.describe().state {
            raw::IS_SENDING => State::Sending,
            raw::IS_SEND_FAILED => State::SendFailed,
            raw::IS_STOPPED => State::Stopped,
            _ => State::Idle,
        }
    }

    /// The size of buffer that is enough for every step.
    #[must_use]
    pub fn message_len(&self) -> usize {
        self.describe().message as usize
    }

    /// Whether it was made, or arrived, with greater limits than the usual ([`MachineBuilder::large`]).
    #[must_use]
    pub fn is_large(&self) -> bool {
        self.describe().flags & raw::LARGE != 0
    }

    /// Whether the pages that calls write are logged ([`MachineBuilder::log_written`]).
    #[must_use]
    pub fn is_logged(&self) -> bool {
        self.describe().flags & raw::LOG != 0
    }

    /// While it is being sent, the number of the round that is open, from 1 on; else 0.
    #[must_use]
    pub fn rounds(&self) -> u32 {
        self.describe().rounds
    }

    /// Why sending it failed ([`State::SendFailed`]): what was answered first. `None` in all other states.
    #[must_use]
    pub fn fault(&self) -> Option<Error> {
        let fault = self.describe().fault;
        (fault != 0).then(|| Error::of(fault))
    }

    /// How many of its disks are images, which [`Machine::into_parts`] gives back.
    #[must_use]
    pub fn images(&self) -> u32 {
        self.describe().images
    }

    /// Whether the disk of a device, in the machine or outside, is lost, by [`Machine::sync`] or [`Machine::sync_failed`].
    #[must_use]
    pub fn is_lost(&self, dev: u8) -> bool {
        self.describe().lost.checked_shr(dev.into()).unwrap_or(0) & 1 == 1
    }
}

/// What the guest and the host do.
impl Machine {
    /// The driver reads a register: 1, 2 or 4 bytes (`width`) at an offset in the device's window. An offset without a register reads 0.
    pub fn read_register(&self, dev: u8, offset: u32, width: u8) -> Result<u32, Error> {
        let mut value = 0;
        // SAFETY: see `describe`.
        done(unsafe { raw::vmig_reg_read(&self.held, dev, offset, width, &mut value) })?;
        Ok(value)
    }

    /// The driver writes a register. The result is a byte where a console gives one out: print it.
    ///
    /// `CallsOut`, and nothing has changed: it would drop a request whose call is out ([`Machine::disk_call`]). Answer what is out, and write again.
    pub fn write_register(&mut self, dev: u8, offset: u32, width: u8, value: u32) -> Result<Option<u8>, Error> {
        let mut byte = raw::NO_BYTE;
        // SAFETY: see `describe`.
        done(unsafe { raw::vmig_reg_write(&mut self.held, dev, offset, width, value, &mut byte) })?;
        Ok(u8::try_from(byte).ok())
    }

    /// The interrupt lines, level triggered: bit d is set while device d has an interrupt that its driver has not acknowledged. Read them
    /// after a register write, a step, a resize and a reset.
    #[must_use]
    pub fn lines(&self) -> u32 {
        // SAFETY: see `describe`.
        unsafe { raw::vmig_lines(&self.held) }
    }

    /// The host puts bytes in: entropy, text for a console, or one frame, of 14 bytes to the longest of its device. It tells how many were kept: the
    /// first ones, a frame whole or not at all.
    pub fn input(&mut self, dev: u8, bytes: &[u8]) -> Result<usize, Error> {
        let mut kept = 0;
        // SAFETY: see `describe`; the slice is valid for the call, as those of the calls below are.
        done(unsafe { raw::vmig_input(&mut self.held, dev, bytes.as_ptr(), bytes.len(), &mut kept) })?;
        Ok(kept)
    }

    /// How many bytes, or of a network device frames, `input` would keep.
    pub fn room(&self, dev: u8) -> Result<usize, Error> {
        let mut room = 0;
        // SAFETY: see `describe`.
        done(unsafe { raw::vmig_room(&self.held, dev, &mut room) })?;
        Ok(room)
    }

    /// The host sets the size of a console, in characters.
    pub fn resize(&mut self, dev: u8, columns: u16, rows: u16) -> Result<(), Error> {
        // SAFETY: see `describe`.
        done(unsafe { raw::vmig_resize(&mut self.held, dev, columns, rows) }).map(drop)
    }

    /// Drops what was put in and the guest has not taken: before a snapshot that may run twice.
    pub fn drop_input(&mut self, dev: u8) -> Result<(), Error> {
        // SAFETY: see `describe`.
        done(unsafe { raw::vmig_drop(&mut self.held, dev) }).map(drop)
    }

    /// The guest's reboot: each device is reset, and what was put in is dropped. RAM and disks stay. `CallsOut` as of [`Machine::write_register`].
    pub fn reset(&mut self) -> Result<(), Error> {
        // SAFETY: see `describe`.
        done(unsafe { raw::vmig_reset(&mut self.held) }).map(drop)
    }
}

/// Work of the devices: [`Machine::work`] makes a turn of it, and the other calls make it step by step.
impl Machine {
    /// A step that has something to do: the first in turn after this one. Begin with `Pick::default()`, and hand in the last one that was named: so
    /// no device keeps the others from their work. Where no step has, whether a call of a disk outside waits to be asked for: so a host that goes on
    /// only where this is not [`Next::Idle`] leaves no guest waiting.
    pub fn next(&self, after: Pick) -> Result<Next, Error> {
        let Pick { mut dev, mut pick } = after;
        // SAFETY: see `describe`.
        Ok(match done(unsafe { raw::vmig_next(&self.held, &mut dev, &mut pick) })? {
            raw::WORK => Next::Work(Pick { dev, pick }),
            raw::SYNC => Next::Sync(Pick { dev, pick }),
            raw::CALL => Next::Call(dev),
            raw::IDLE => Next::Idle,
            _ => return Err(Error::Unknown),
        })
    }

    /// A device does one piece of its work. Of a block device pick 0 takes the next request, and pick k, from 1 to 8, brings the k-th request
    /// that it has taken one unit on. Of the others pick 0 fills the next buffer of the driver, and pick 1 takes its next message, which goes
    /// to the front of the buffer. [`SENT_MAX`](crate::SENT_MAX) bytes, or [`Machine::message_len`], always suffice.
    ///
    /// For a host that holds a device back, as for a rate: [`Machine::work`] makes steps without being asked for each.
    pub fn step<'a>(&mut self, pick: Pick, buf: &'a mut [u8]) -> Result<Step<'a>, Error> {
        let Pick { dev, pick } = pick;
        let mut len = 0;
        // SAFETY: see `describe`.
        let status = done(unsafe { raw::vmig_step(&mut self.held, dev, pick, buf.as_mut_ptr(), buf.len(), &mut len) })?;
        Step::of(status, len, buf)
    }
}

/// Disks.
impl Machine {
    /// Brings the disk of a device to its file, where its image is of one: else it has nothing to do. Where the system fails the disk is lost
    /// ([`Machine::sync_failed`]), and nothing is tried again. A machine that was stopped is refused.
    pub fn sync(&mut self, dev: u8) -> Result<(), SyncError> {
        let devices = self.devices()?;
        if self.state() == State::Stopped {
            return Err(Error::Stopped.into());
        }
        if !devices.get(usize::from(dev)).ok_or(Error::NoDevice)?.is_disk() {
            return Err(Error::WrongKind.into());
        }
        if self.is_lost(dev) {
            return Err(SyncError::Lost);
        }
        let place = devices[..usize::from(dev)].iter().filter(|device| device.is_disk()).count();
        let Some(Err(why)) = self.parts.images.get(place).map(Image::sync) else {
            return Ok(());
        };
        self.sync_failed(dev)?;
        Err(SyncError::Failed(why))
    }

    /// Brings all disks to their files: of a machine that arrived, before the source is told that all is there. Where it fails the machine
    /// does not run here: drop it, and the source continues.
    pub fn sync_all(&mut self) -> Result<(), SyncError> {
        let devices = self.devices()?;
        for (dev, _) in (0..).zip(&devices).filter(|(_, device)| device.is_disk()) {
            self.sync(dev)?;
        }
        Ok(())
    }

    /// The disk could not be brought to where the caller keeps it: it is lost from then on, for good. Each later flush of it fails, and a
    /// write whose driver did not accept the feature FLUSH does not end. Never try again in the hope that it will do: the system tells the
    /// error once.
    ///
    /// Of a [`Device::Outside`]: its storage may have lost writes that it answered, as where a sync failed, a connection broke, a server restarted or
    /// a cache was dropped. From then on no answer of a flush, or of a call that is durable, counts as done, also of one that is out: its request
    /// ends with an error, whatever [`Machine::disk_done`] says. All else is served as ever. A machine that arrives over the same storage is not
    /// told: its host says it here, after [`Arrival::finish`](crate::Arrival::finish), before the guest runs.
    pub fn sync_failed(&mut self, dev: u8) -> Result<(), Error> {
        // SAFETY: see `describe`.
        done(unsafe { raw::vmig_sync_failed(&mut self.held, dev) }).map(drop)
    }

    /// Reads a sector of a disk. It tells whether the sector is good: a bad one has no bytes.
    pub fn read_sector(&self, dev: u8, sector: u64, buf: &mut [u8; 512]) -> Result<bool, Error> {
        // SAFETY: see `describe`.
        let status = done(unsafe { raw::vmig_sector_read(&self.held, dev, sector, buf) })?;
        Ok(status != raw::BAD_SECTOR)
    }
}

/// RAM.
impl Machine {
    /// Reads the guest's RAM from an address on, at most 4,096 bytes.
    pub fn read_ram(&self, addr: u64, buf: &mut [u8]) -> Result<(), Error> {
        // SAFETY: see `describe`.
        done(unsafe { raw::vmig_ram_read(&self.held, addr, buf.as_mut_ptr(), buf.len()) }).map(drop)
    }

    /// Writes the guest's RAM from an address on, at most 4,096 bytes.
    pub fn write_ram(&mut self, addr: u64, bytes: &[u8]) -> Result<(), Error> {
        // SAFETY: see `describe`.
        done(unsafe { raw::vmig_ram_write(&mut self.held, addr, bytes.as_ptr(), bytes.len()) }).map(drop)
    }

    /// Names pages that were written while RAM was lent and were not named when it came back: each counts as written once more, whole, with the
    /// bytes that are there. Pages may be named in pieces, and more of them than were written. Of a machine that is being sent each page that
    /// was written is named before the next [`Machine::send_round`] and [`Machine::send_stop`], and [`Machine::send_left`] counts those that were.
    ///
    /// Refusals: `TooSmall` (a bitmap of too few words), `OutOfRam` (no such page), `Stopped`, `NoMemory` (a bitmap, or all).
    pub fn mark(&mut self, written: Pages<'_>) -> Result<(), Error> {
        // SAFETY: see `describe`; the list and the bitmap are valid for the call.
        done(unsafe { raw::vmig_mark(&mut self.held, &written.raw()) }).map(drop)
    }

    /// Hands out the numbers of the pages that [`Machine::step`], [`Machine::work`], [`Machine::write_ram`], [`Machine::push`] and
    /// [`Machine::disk_done`] wrote, and forgets them: as many as the slice has room for, ascending. It tells how many; where these are fewer than
    /// there is room for, they were all. Exactly these: not those that the caller named, and none that arrived. For a host that translates code, or
    /// shows a frame buffer.
    ///
    /// `NotKnown` where it was made, or arrived, without [`MachineBuilder::log_written`].
    pub fn hand_out(&mut self, pages: &mut [u32]) -> Result<usize, Error> {
        let mut count = 0;
        // SAFETY: see `describe`; the slice is valid for the call.
        done(unsafe { raw::vmig_written(&mut self.held, pages.as_mut_ptr(), pages.len(), &mut count) })?;
        Ok(count)
    }

    /// All of them, as [`Machine::hand_out`] hands them out.
    pub fn written(&mut self) -> Result<Vec<u32>, Error> {
        let (mut pages, mut count) = (Vec::new(), 0);
        while count == pages.len() {
            pages.resize(count + 64, 0);
            count += self.hand_out(&mut pages[count..])?;
        }
        pages.truncate(count);
        Ok(pages)
    }

    /// Of RAM that is mirrored: hands in pages that the guest wrote in a RAM of the caller's own, and notes their versions in `seen`, which
    /// has an entry for each page. Begin with [`UNSEEN`](crate::UNSEEN) in each.
    pub fn push(&mut self, written: Pages<'_>, ram: &[u8], seen: &mut [u64]) -> Result<(), Error> {
        let (written, at, count) = (written.raw(), seen.as_mut_ptr(), seen.len());
        // SAFETY: see `describe`.
        done(unsafe { raw::vmig_push(&mut self.held, &written, ram.as_ptr(), ram.len(), at, count) }).map(drop)
    }

    /// Of RAM that is mirrored: copies the pages that the caller has not seen into its RAM, and tells how many these were.
    pub fn pull(&self, ram: &mut [u8], seen: &mut [u64]) -> Result<u32, Error> {
        let mut pulled = 0;
        let (at, len) = (ram.as_mut_ptr(), ram.len());
        // SAFETY: see `describe`.
        done(unsafe { raw::vmig_pull(&self.held, at, len, seen.as_mut_ptr(), seen.len(), &mut pulled) })?;
        Ok(pulled)
    }
}

#[cfg(test)]
mod tests {
    use super::*;

    #[test]
    fn a_library_of_this_major_version_or_a_later_minor_one_is_right() {
        assert!(is_right(0x1_0100) && is_right(0x1_0101) && is_right(0x1_0200));
        assert!(!is_right(0x0_0900) && !is_right(0x1_0000) && !is_right(0x2_0000));
        assert!(is_right(crate::version()));
    }
}
