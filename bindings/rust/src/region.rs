//! Bytes of the caller that a machine uses: they were allocated here, they are mapped from a file, or the caller names them.

use std::alloc::{Layout, alloc_zeroed, dealloc};
use std::ffi::{c_int, c_void};
use std::fs::File;
use std::io;
use std::os::fd::AsRawFd;
use std::ptr::{self, NonNull};
use std::slice;

/// The size of a page of RAM, and what is allocated begins at a multiple of it.
pub(crate) const PAGE: usize = 4096;

/// Of `<sys/mman.h>`, as Linux has it on all processors with 64 bits but those that nobody builds this library for.
const PROT_READ: c_int = 1;
const PROT_WRITE: c_int = 2;
const MAP_SHARED: c_int = 1;
const MAP_PRIVATE: c_int = 2;
const MS_SYNC: c_int = 4;

unsafe extern "C" {
    fn mmap(at: *mut c_void, len: usize, access: c_int, flags: c_int, file: c_int, offset: i64) -> *mut c_void;
    fn munmap(at: *mut c_void, len: usize) -> c_int;
    fn msync(at: *mut c_void, len: usize, flags: c_int) -> c_int;
    fn posix_fallocate(file: c_int, offset: i64, len: i64) -> c_int;
}

/// What is allocated for so many bytes, which begin at a page in it. Without an alignment of its own the allocator takes many zeros from the
/// system, which has them; with one it writes each.
fn layout(len: usize) -> Option<Layout> {
    Layout::array::<u8>(len.checked_add(PAGE)?).ok()
}

/// Bytes, and how they are let go.
#[derive(Debug)]
pub(crate) struct Region {
    at: NonNull<u8>,
    len: usize,
    owner: Owner,
}

#[derive(Debug)]
enum Owner {
    // What was allocated begins so many bytes before.
    Allocator { before: u16 },
    // The lock that the file holds is given up with it, after the bytes were unmapped.
    Map { _file: File, is_shared: bool },
    Caller,
}

// SAFETY: the bytes are owned, or their owner let go of them for as long as this lives (`from_raw_parts`).
unsafe impl Send for Region {}

// SAFETY: likewise; through a shared reference they are only read.
unsafe impl Sync for Region {}

impl Region {
    /// Zeros, aligned to a page. `None` of no bytes, and where memory is refused.
    pub(crate) fn zeros(len: usize) -> Option<Region> {
        let layout = layout(len).filter(|_| len != 0)?;
        // SAFETY: the layout has bytes.
        let all = NonNull::new(unsafe { alloc_zeroed(layout) })?;
        let before = u16::try_from(all.align_offset(PAGE)).expect("less than a page");
        // SAFETY: it is less than a page, and a page more than the bytes was allocated.
        let at = unsafe { all.add(before.into()) };
        Some(Region { at, len, owner: Owner::Allocator { before } })
    }

    /// The first bytes of a file, all of whose blocks are allocated. They are shared with it.
    ///
    /// # Safety
    /// While they are mapped the file is not cut, and nothing else writes these bytes.
    pub(crate) unsafe fn map(file: File, len: usize) -> io::Result<Region> {
        let size = i64::try_from(len).map_err(|_| io::ErrorKind::FileTooLarge)?;
        // SAFETY: the file is open.
        match unsafe { posix_fallocate(file.as_raw_fd(), 0, size) } {
            // SAFETY: the caller says so.
            0 => unsafe { Region::map_as(file, len, true) },
            number => Err(io::Error::from_raw_os_error(number)),
        }
    }

    /// The first bytes of a file. What is written to them stays in memory, and does not reach it.
    ///
    /// # Safety
    /// As of `map`.
    pub(crate) unsafe fn map_copy(file: File, len: usize) -> io::Result<Region> {
        // SAFETY: the caller says so.
        unsafe { Region::map_as(file, len, false) }
    }

    /// # Safety
    /// As of `map`.
    unsafe fn map_as(file: File, len: usize, is_shared: bool) -> io::Result<Region> {
        let flags = if is_shared { MAP_SHARED } else { MAP_PRIVATE };
        // SAFETY: the system chooses a place where nothing lies.
        let at = unsafe { mmap(ptr::null_mut(), len, PROT_READ | PROT_WRITE, flags, file.as_raw_fd(), 0) };
        match NonNull::new(at.cast::<u8>()) {
            Some(at) if at.as_ptr().addr() != usize::MAX => Ok(Region { at, len, owner: Owner::Map { _file: file, is_shared } }),
            _ => Err(io::Error::last_os_error()),
        }
    }

    /// # Safety
    /// `len` bytes are at `at`, which may be read and written, and are fewer than 2^63. As long as this lives they stay there, and nothing
    /// else reads or writes them.
    pub(crate) unsafe fn from_raw_parts(at: NonNull<u8>, len: usize) -> Region {
        Region { at, len, owner: Owner::Caller }
    }

    /// Where the bytes are, for a call of C that takes them.
    pub(crate) fn as_mut_ptr(&mut self) -> *mut c_void {
        self.at.as_ptr().cast()
    }

    pub(crate) fn len(&self) -> usize {
        self.len
    }

    pub(crate) fn bytes(&self) -> &[u8] {
        // SAFETY: the bytes are there, and are this value's.
        unsafe { slice::from_raw_parts(self.at.as_ptr(), self.len) }
    }

    pub(crate) fn bytes_mut(&mut self) -> &mut [u8] {
        // SAFETY: as in `bytes`, and no other reference to them is in use.
        unsafe { slice::from_raw_parts_mut(self.at.as_ptr(), self.len) }
    }

    /// Brings the bytes to their file, if they are shared with one.
    pub(crate) fn sync(&self) -> io::Result<()> {
        let Owner::Map { is_shared: true, .. } = self.owner else {
            return Ok(());
        };
        // SAFETY: the bytes are mapped, and the call changes none of them.
        match unsafe { msync(self.at.as_ptr().cast(), self.len, MS_SYNC) } {
            0 => Ok(()),
            _ => Err(io::Error::last_os_error()),
        }
    }
}

impl Drop for Region {
    fn drop(&mut self) {
        match self.owner {
            Owner::Allocator { before } => {
                let layout = layout(self.len).expect("the layout with which it was allocated");
                // SAFETY: it was allocated so, and no machine uses it any more.
                unsafe { dealloc(self.at.sub(before.into()).as_ptr(), layout) }
            }
            Owner::Map { .. } => {
                // SAFETY: it was mapped so, and no machine uses it any more.
                let status = unsafe { munmap(self.at.as_ptr().cast(), self.len) };
                debug_assert_eq!(status, 0, "the bytes were mapped");
            }
            Owner::Caller => {}
        }
    }
}
