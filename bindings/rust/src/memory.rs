//! Memory of the caller for the RAM of a machine.

use crate::error::Error;
use crate::raw;
use crate::region::{PAGE, Region};
use std::ops::{Deref, DerefMut};
use std::ptr::NonNull;

/// Memory for the RAM of a machine: 1 to 16,384 pages of 4,096 bytes, and more for one that is
/// [`MachineBuilder::large`](crate::MachineBuilder::large).
///
/// Its owner reads and writes the bytes, for instance to put a kernel there. Then a machine is made over it
/// ([`MachineBuilder::memory`](crate::MachineBuilder::memory)), or arrives in it ([`ArrivalBuilder::memory`](crate::ArrivalBuilder::memory)).
/// [`Machine::lend`](crate::Machine::lend) gives it to a guest, and [`Machine::into_parts`](crate::Machine::into_parts) gives it back.
///
/// ```
/// use vmig::{Device, Machine, Memory};
///
/// let mut memory = Memory::zeros(16)?;
/// memory[0x1000..0x1005].copy_from_slice(b"hello");
/// let machine = Machine::builder().memory(memory).base(0x8000_0000).device(Device::Console).build()?;
/// let mut bytes = [0; 5];
/// machine.read_ram(0x8000_1000, &mut bytes)?;
/// assert_eq!(&bytes, b"hello");
/// assert_eq!(machine.into_parts().memory.expect("memory of this program")[0x1000], b'h');
/// # Ok::<(), Box<dyn std::error::Error>>(())
/// ```
#[derive(Debug)]
pub struct Memory {
    region: Region,
}

impl Memory {
    /// Pages of zeros, aligned to a page. Of many pages the system gives each when it is first written.
    pub fn zeros(pages: u32) -> Result<Memory, Error> {
        if pages == 0 {
            return Err(Error::BadRam);
        }
        let region = Region::zeros(PAGE * pages as usize).ok_or(Error::NoMemory)?;
        Ok(Memory { region })
    }

    /// Memory that the caller has, as a mapping that a virtual machine monitor made for its guest.
    ///
    /// # Safety
    /// `len` bytes, fewer than 2^63, are at `at`, and may be read and written. Until this value, or the machine that it became a part of, is
    /// dropped they stay there, and nothing else reads or writes them, but for the guest while they are lent. If a file lies behind them it
    /// is not cut.
    #[must_use]
    pub unsafe fn from_raw_parts(at: NonNull<u8>, len: usize) -> Memory {
        // SAFETY: the caller says so.
        Memory { region: unsafe { Region::from_raw_parts(at, len) } }
    }

    /// The same as C has it, for a call that takes it.
    pub(crate) fn slot(&mut self) -> raw::Ram {
        raw::Ram { at: self.region.as_mut_ptr(), len: self.region.len() }
    }
}

impl Deref for Memory {
    type Target = [u8];

    fn deref(&self) -> &[u8] {
        self.region.bytes()
    }
}

impl DerefMut for Memory {
    fn deref_mut(&mut self) -> &mut [u8] {
        self.region.bytes_mut()
    }
}
