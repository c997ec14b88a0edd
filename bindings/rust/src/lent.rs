//! A machine whose RAM is lent to the caller.

use crate::call::Call;
use crate::device::Device;
use crate::error::{Error, Refused, SyncError, done};
use crate::machine::{Machine, Next, Pick, State};
use crate::migration::{Due, Left};
use crate::pages::Pages;
use crate::raw;
use std::slice;
use std::sync::atomic::{AtomicU64, Ordering};

/// The bytes of a page, and of what is loaded of one at once.
const PAGE_SIZE: usize = 4096;
const WORD_SIZE: usize = size_of::<AtomicU64>();

/// A machine whose RAM is lent: the caller and its guest read and write the bytes. Until RAM is given back it has the calls that need no byte of
/// it: registers, what the host puts in, the lines, the next step, and the bytes of a move.
///
/// ```
/// use vmig::{Device, Lent, Machine, Memory, Next, Pages, SENT_MAX, Step, Turn, TurnEnd};
///
/// /// A processor of the guest came out, for a write of a register. The others come out for steps alone.
/// fn writes(mut lent: Lent, turn: &mut Turn, dev: u8, offset: u32, value: u32) -> Result<Lent, Box<dyn std::error::Error>> {
///     lent.write_register(dev, offset, 4, value)?;
///     if lent.next(turn.last)? != Next::Idle {
///         let mut machine = lent.give_back(Pages::NONE)?;   // all processors are outside from here on
///         let mut buf = vec![0; SENT_MAX];
///         turn.left = 1000;
///         loop {
///             match machine.work(turn, &mut buf)? {
///                 TurnEnd::Idle | TurnEnd::Unfinished => break,
///                 TurnEnd::Answer(_, Step::Sent(message)) => println!("{} bytes for the terminal", message.len()),
///                 end => println!("{end:?}"),
///             }
///         }
///         lent = machine.lend()?;
///     }
///     println!("interrupt lines: {:#x}", lent.lines());
///     Ok(lent)
/// }
///
/// let machine = Machine::builder().memory(Memory::zeros(16)?).device(Device::Console).build()?;
/// let lent = writes(machine.lend()?, &mut Turn::default(), 0, 0x070, 3)?;
/// assert_eq!(lent.read_register(0, 0x070, 4)?, 3);
/// # Ok::<(), Box<dyn std::error::Error>>(())
/// ```
#[derive(Debug)]
pub struct Lent {
    machine: Machine,
    ram: raw::Ram,
}

// SAFETY: as of `Machine`, and the bytes of RAM are owned.
unsafe impl Send for Lent {}

impl Machine {
    /// Lends RAM, if it lies in a [`crate::Memory`], else `NotYours`. It takes as long for any size of RAM.
    pub fn lend(mut self) -> Result<Lent, Refused<Machine>> {
        let mut ram = raw::NO_RAM;
        // SAFETY: the handle is of this machine.
        match done(unsafe { raw::vmig_lend(&mut self.held, &mut ram) }) {
            Ok(_) => Ok(Lent { machine: self, ram }),
            Err(error) => Err(Refused::new(error, self)),
        }
    }
}

impl Lent {
    /// Where RAM lies, for a guest that runs on it: the same address at each loan, and that of the [`crate::Memory`], so a memory slot of KVM
    /// is set once. While the guest runs no slice of these bytes is in use here, and all its processors are outside before RAM is given back.
    #[must_use]
    pub fn as_mut_ptr(&mut self) -> *mut u8 {
        self.ram.at.cast()
    }

    /// The bytes of RAM.
    #[must_use]
    pub fn ram(&self) -> &[u8] {
        // SAFETY: the bytes are there, and no call of the library touches them while they are lent.
        unsafe { slice::from_raw_parts(self.ram.at.cast(), self.ram.len) }
    }

    /// The bytes of RAM, to be written. The pages that were written are named when RAM is given back.
    #[must_use]
    pub fn ram_mut(&mut self) -> &mut [u8] {
        // SAFETY: as in `ram`.
        unsafe { slice::from_raw_parts_mut(self.ram.at.cast(), self.ram.len) }
    }

    /// Gives RAM back, with pages that were written meanwhile: in Rust or by the guest. Of a machine that is being sent, a page that was written
    /// is lost at the target, unless it is named here, at a later return or by [`Machine::mark`] before [`Machine::send_round`] and
    /// [`Machine::send_stop`].
    ///
    /// Refusals: `TooSmall` (a bitmap of too few words), `OutOfRam` (no such page), `NoMemory` (a bitmap, or all). RAM is still lent then.
    pub fn give_back(mut self, written: Pages<'_>) -> Result<Machine, Refused<Lent>> {
        // SAFETY: the handle is of this machine, its RAM is where it was lent, and the list and the bitmap are valid for the call.
        match done(unsafe { raw::vmig_give_back(&mut self.machine.held, &mut self.ram, &written.raw()) }) {
            Ok(_) => Ok(self.machine),
            Err(error) => Err(Refused::new(error, self)),
        }
    }
}

/// The calls of a [`Machine`] that need no byte of RAM. They do the same, and other processors of the guest run on meanwhile.
impl Lent {
    /// As [`Machine::pages`].
    #[must_use]
    pub fn pages(&self) -> u32 {
        self.machine.pages()
    }

    /// As [`Machine::base`].
    #[must_use]
    pub fn base(&self) -> u64 {
        self.machine.base()
    }

    /// As [`Machine::devices`].
    pub fn devices(&self) -> Result<Vec<Device>, Error> {
        self.machine.devices()
    }

    /// As [`Machine::state`].
    #[must_use]
    pub fn state(&self) -> State {
        self.machine.state()
    }

    /// As [`Machine::calls_out`].
    pub fn calls_out(&self) -> Result<Vec<Call>, Error> {
        self.machine.calls_out()
    }

    /// As [`Machine::disk_done`], of all but a read, which is `Lent`. So what is out is answered before a driver's reset, and no processor comes out
    /// for it.
    pub fn disk_done(&mut self, call: Call, count: u32, bytes: &[u8]) -> Result<(), Refused<Call>> {
        self.machine.disk_done(call, count, bytes)
    }

    /// As [`Machine::disk_failed`].
    pub fn disk_failed(&mut self, call: Call) -> Result<(), Refused<Call>> {
        self.machine.disk_failed(call)
    }

    /// As [`Machine::rounds`].
    #[must_use]
    pub fn rounds(&self) -> u32 {
        self.machine.rounds()
    }

    /// As [`Machine::fault`].
    #[must_use]
    pub fn fault(&self) -> Option<Error> {
        self.machine.fault()
    }

    /// As [`Machine::images`].
    #[must_use]
    pub fn images(&self) -> u32 {
        self.machine.images()
    }

    /// As [`Machine::message_len`]: the size of buffer for the steps after RAM came back.
    #[must_use]
    pub fn message_len(&self) -> usize {
        self.machine.message_len()
    }

    /// As [`Machine::is_large`].
    #[must_use]
    pub fn is_large(&self) -> bool {
        self.machine.is_large()
    }

    /// As [`Machine::is_logged`].
    #[must_use]
    pub fn is_logged(&self) -> bool {
        self.machine.is_logged()
    }

    /// As [`Machine::read_register`].
    pub fn read_register(&self, dev: u8, offset: u32, width: u8) -> Result<u32, Error> {
        self.machine.read_register(dev, offset, width)
    }

    /// As [`Machine::write_register`]. Where [`Lent::next`] names a step after it, RAM is given back for the step, with all processors outside.
    pub fn write_register(&mut self, dev: u8, offset: u32, width: u8, value: u32) -> Result<Option<u8>, Error> {
        self.machine.write_register(dev, offset, width, value)
    }

    /// As [`Machine::lines`].
    #[must_use]
    pub fn lines(&self) -> u32 {
        self.machine.lines()
    }

    /// As [`Machine::input`].
    pub fn input(&mut self, dev: u8, bytes: &[u8]) -> Result<usize, Error> {
        self.machine.input(dev, bytes)
    }

    /// As [`Machine::room`].
    pub fn room(&self, dev: u8) -> Result<usize, Error> {
        self.machine.room(dev)
    }

    /// As [`Machine::resize`].
    pub fn resize(&mut self, dev: u8, columns: u16, rows: u16) -> Result<(), Error> {
        self.machine.resize(dev, columns, rows)
    }

    /// As [`Machine::drop_input`].
    pub fn drop_input(&mut self, dev: u8) -> Result<(), Error> {
        self.machine.drop_input(dev)
    }

    /// As [`Machine::reset`].
    pub fn reset(&mut self) -> Result<(), Error> {
        self.machine.reset()
    }

    /// As [`Machine::next`]. RAM is given back before the step, and before a call of a disk is asked for.
    pub fn next(&self, after: Pick) -> Result<Next, Error> {
        self.machine.next(after)
    }

    /// As [`Machine::sync`].
    pub fn sync(&mut self, dev: u8) -> Result<(), SyncError> {
        self.machine.sync(dev)
    }

    /// As [`Machine::sync_failed`].
    pub fn sync_failed(&mut self, dev: u8) -> Result<(), Error> {
        self.machine.sync_failed(dev)
    }

    /// As [`Machine::is_lost`].
    #[must_use]
    pub fn is_lost(&self, dev: u8) -> bool {
        self.machine.is_lost(dev)
    }

    /// As [`Machine::hand_out`].
    pub fn hand_out(&mut self, pages: &mut [u32]) -> Result<usize, Error> {
        self.machine.hand_out(pages)
    }

    /// As [`Machine::written`].
    pub fn written(&mut self) -> Result<Vec<u32>, Error> {
        self.machine.written()
    }

    /// As [`Machine::send_next`].
    pub fn send_next(&self) -> Result<Due, Error> {
        self.machine.send_next()
    }

    /// Copies a page out of RAM while the guest may write it: each 8 bytes are loaded once, as an atomic, and no reference to them is made. The
    /// bytes may be those of two writes of the guest. `OutOfRam`: there is no such page.
    pub fn copy_page(&self, page: u32, bytes: &mut [u8; PAGE_SIZE]) -> Result<(), Error> {
        let first = page as usize * PAGE_SIZE;
        if first >= self.ram.len {
            return Err(Error::OutOfRam);
        }
        let words = self.ram.at.cast::<AtomicU64>();
        for (n, word) in bytes.chunks_exact_mut(WORD_SIZE).enumerate() {
            // SAFETY: RAM has this page, begins at a multiple of a page, and is there until it is given back; all that writes it meanwhile is
            // the guest, and who copies.
            let at = unsafe { &*words.add(first / WORD_SIZE + n) };
            word.copy_from_slice(&at.load(Ordering::Relaxed).to_ne_bytes());
        }
        Ok(())
    }

    /// Sends a page while RAM is lent and the guest runs, by the bytes that were copied out of it, as by [`Lent::copy_page`]. It has to be the one
    /// that [`Lent::send_next`] names, else `NotNext`. **Forget the page's bit in your log, then copy its bytes, then hand them in**: a page whose
    /// bytes may have changed since the copy began is named when RAM is given back, or by a mark. To forget after the copy loses a page, and
    /// nothing sees it.
    ///
    /// Refusals besides: `OutOfRam` (no such page), `NotSending`, `SendFailed`.
    pub fn send_page(&mut self, page: u32, bytes: &[u8; PAGE_SIZE]) -> Result<(), Error> {
        // SAFETY: the handle is of this machine, and the array is no part of RAM and valid for the call.
        done(unsafe { raw::vmig_send_page(&mut self.machine.held, page, bytes) }).map(drop)
    }

    /// As [`Machine::send_some`], of sectors: `Lent` where a page is next ([`Lent::send_page`]).
    pub fn send_some(&mut self, most: u32) -> Result<bool, Error> {
        self.machine.send_some(most)
    }

    /// As [`Machine::send_round`]. What was written in this loan counts as written after it; what was written before it has to be named before.
    pub fn send_round(&mut self) -> Result<bool, Error> {
        self.machine.send_round()
    }

    /// As [`Machine::mark`]. A page that may be written after it is named again. It changes nothing for [`Machine::pull`], nor of a machine that is
    /// not being sent: for these pages are named when RAM is given back.
    pub fn mark(&mut self, written: Pages<'_>) -> Result<(), Error> {
        self.machine.mark(written)
    }

    /// As [`Machine::send_left`]. What was written and not named is not counted.
    pub fn send_left(&self) -> Result<Left, Error> {
        self.machine.send_left()
    }

    /// As [`Machine::send_take`]: in pieces of some 64 KiB, since each call waits for the one before.
    pub fn send_take(&mut self, buf: &mut [u8]) -> Result<usize, Error> {
        self.machine.send_take(buf)
    }
}
