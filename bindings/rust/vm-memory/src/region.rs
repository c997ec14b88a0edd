//! The one region of RAM.

use crate::written::{WrittenPages, WrittenSlice};
use std::io::{Read, Write};
use std::sync::atomic::Ordering;
use vm_memory::bitmap::Bitmap;
use vm_memory::guest_memory::{Error, Result};
use vm_memory::{Address, AtomicAccess, Bytes, GuestAddress, GuestMemoryRegion, GuestUsize, MemoryRegionAddress, VolatileSlice};

/// RAM of a [`GuestRam`](crate::GuestRam), by a shared reference alone.
#[derive(Debug)]
pub struct RamRegion {
    at: *mut u8,
    len: usize,
    base: GuestAddress,
    written: WrittenPages,
}

// SAFETY: the bytes are read and written as volatile, as those that a guest writes too.
unsafe impl Sync for RamRegion {}

impl RamRegion {
    /// # Safety
    /// `len` bytes, one at least, are at `at`. As long as this lives they stay there, may be read and written, and are read and written by nobody but
    /// a guest and the holders of this. None is past the last address where the first is at `base`.
    pub(crate) unsafe fn new(at: *mut u8, len: usize, base: GuestAddress) -> RamRegion {
        RamRegion { at, len, base, written: WrittenPages::new(len) }
    }

    fn whole(&self) -> VolatileSlice<'_, WrittenSlice<'_>> {
        // SAFETY: the bytes are there as long as this lives, and nobody has a reference to them.
        unsafe { VolatileSlice::with_bitmap(self.at, self.len, self.written.slice_at(0)) }
    }
}

/// Where an address of a region is in its slice. The system has 64 bits.
fn place(addr: MemoryRegionAddress) -> usize {
    usize::try_from(addr.raw_value()).unwrap_or(usize::MAX)
}

impl GuestMemoryRegion for RamRegion {
    type B = WrittenPages;

    fn len(&self) -> GuestUsize {
        self.len as GuestUsize
    }

    fn start_addr(&self) -> GuestAddress {
        self.base
    }

    fn bitmap(&self) -> &WrittenPages {
        &self.written
    }

    fn get_host_address(&self, addr: MemoryRegionAddress) -> Result<*mut u8> {
        let addr = self.check_address(addr).ok_or(Error::InvalidBackendAddress)?;
        Ok(self.at.wrapping_add(place(addr)))
    }

    fn get_slice(&self, offset: MemoryRegionAddress, count: usize) -> Result<VolatileSlice<'_, WrittenSlice<'_>>> {
        Ok(self.whole().subslice(place(offset), count)?)
    }
}

/// As those of all of it.
impl Bytes<MemoryRegionAddress> for RamRegion {
    type E = Error;

    fn write(&self, buf: &[u8], addr: MemoryRegionAddress) -> Result<usize> {
        Ok(self.whole().write(buf, place(addr))?)
    }

    fn read(&self, buf: &mut [u8], addr: MemoryRegionAddress) -> Result<usize> {
        Ok(self.whole().read(buf, place(addr))?)
    }

    fn write_slice(&self, buf: &[u8], addr: MemoryRegionAddress) -> Result<()> {
        Ok(self.whole().write_slice(buf, place(addr))?)
    }

    fn read_slice(&self, buf: &mut [u8], addr: MemoryRegionAddress) -> Result<()> {
        Ok(self.whole().read_slice(buf, place(addr))?)
    }

    fn read_from<F: Read>(&self, addr: MemoryRegionAddress, src: &mut F, count: usize) -> Result<usize> {
        Ok(self.whole().read_from(place(addr), src, count)?)
    }

    fn read_exact_from<F: Read>(&self, addr: MemoryRegionAddress, src: &mut F, count: usize) -> Result<()> {
        Ok(self.whole().read_exact_from(place(addr), src, count)?)
    }

    fn write_to<F: Write>(&self, addr: MemoryRegionAddress, dst: &mut F, count: usize) -> Result<usize> {
        Ok(self.whole().write_to(place(addr), dst, count)?)
    }

    fn write_all_to<F: Write>(&self, addr: MemoryRegionAddress, dst: &mut F, count: usize) -> Result<()> {
        Ok(self.whole().write_all_to(place(addr), dst, count)?)
    }

    fn store<T: AtomicAccess>(&self, val: T, addr: MemoryRegionAddress, order: Ordering) -> Result<()> {
        Ok(self.whole().store(val, place(addr), order)?)
    }

    fn load<T: AtomicAccess>(&self, addr: MemoryRegionAddress, order: Ordering) -> Result<T> {
        Ok(self.whole().load(place(addr), order)?)
    }
}
