//! A disk in memory of the caller.

use crate::error::Error;
use crate::raw;
use crate::region::Region;
use std::fs::File;
use std::io;
use std::ops::{Deref, DerefMut};
use std::ptr::NonNull;

/// The bytes of a sector.
const SECTOR: u64 = 512;

/// The most sectors that a disk has. More than 2,097,152 are for a machine that is large.
const MOST_SECTORS: u64 = 4_294_967_295;

/// The sectors of a disk in memory of the caller, as in a file that is mapped. It owns the map.
///
/// A machine takes it ([`MachineBuilder::image`](crate::MachineBuilder::image), [`ArrivalBuilder::image`](crate::ArrivalBuilder::image)), so
/// nothing reads, writes or unmaps it meanwhile. [`Machine::sync`](crate::Machine::sync) brings it to its file, and
/// [`Machine::into_parts`](crate::Machine::into_parts) gives it back.
///
/// ```
/// use vmig::{Device, Image, Machine};
///
/// let mut image = Image::zeros(2)?;
/// image[512..515].copy_from_slice(b"two");
/// let machine = Machine::builder().pages(1).device(Device::disk(image.sectors())).image(image).build()?;
/// let mut sector = [0; 512];
/// assert!(machine.read_sector(0, 1, &mut sector)?);
/// assert_eq!(&sector[..3], b"two");
/// let image = machine.into_parts().images.remove(0);
/// assert_eq!(&image[512..515], b"two");
/// # Ok::<(), Box<dyn std::error::Error>>(())
/// ```
#[derive(Debug)]
pub struct Image {
    region: Region,
}

impl Image {
    /// 1 to 2,097,152 sectors of zeros, without a file; for a machine that is [`MachineBuilder::large`](crate::MachineBuilder::large) up to
    /// 4,294,967,295.
    pub fn zeros(sectors: u64) -> Result<Image, Error> {
        if !(1..=MOST_SECTORS).contains(&sectors) {
            return Err(Error::BadImages);
        }
        let len = usize::try_from(SECTOR * sectors).map_err(|_| Error::NoMemory)?;
        let region = Region::zeros(len).ok_or(Error::NoMemory)?;
        Ok(Image { region })
    }

    /// A file whose length is that of as many sectors, mapped and shared: what the guest writes is there at once, and durable after
    /// [`Machine::sync`](crate::Machine::sync). The file is open for reading and writing. All its blocks are allocated, and it is locked
    /// ([`File::try_lock`]) until the image is dropped: a second image of it, in this process or another one, is refused by
    /// [`io::ErrorKind::WouldBlock`]. (A clone of the [`File`] has the same lock.)
    ///
    /// # Safety
    /// Until the image, or the machine that took it, is dropped no process cuts the file, nor reads or writes it in another way. The lock
    /// keeps out only those that ask for it.
    pub unsafe fn map(file: File) -> io::Result<Image> {
        let len = len_of(&file)?;
        file.try_lock()?;
        // SAFETY: the caller says so.
        let region = unsafe { Region::map(file, len) }?;
        Ok(Image { region })
    }

    /// As [`Image::map`], but what is written stays in memory, and is gone with the image: several machines begin with the sectors of one
    /// file, as of the root of a file system whose device is read-only. The file may be open for reading alone, and its lock is a shared one.
    /// A sync has nothing to do, so what a guest flushes is not durable.
    ///
    /// # Safety
    /// As of [`Image::map`], but that others may read the file.
    pub unsafe fn map_copy(file: File) -> io::Result<Image> {
        let len = len_of(&file)?;
        file.try_lock_shared()?;
        // SAFETY: the caller says so.
        let region = unsafe { Region::map_copy(file, len) }?;
        Ok(Image { region })
    }

    /// Sectors that the caller has. [`Machine::sync`](crate::Machine::sync) does nothing for them: where a file lies behind them the caller
    /// brings them there.
    ///
    /// # Safety
    /// `len` bytes, 512 for each sector and fewer than 2^63, are at `at`, and may be read and written. Until this value, or the machine that took it, is
    /// dropped they stay there, and nothing else reads or writes them. If a file lies behind them all its blocks are allocated, it is not
    /// cut, and no other machine has it.
    #[must_use]
    pub unsafe fn from_raw_parts(at: NonNull<u8>, len: usize) -> Image {
        // SAFETY: the caller says so.
        Image { region: unsafe { Region::from_raw_parts(at, len) } }
    }

    /// How many sectors it has.
    #[must_use]
    pub fn sectors(&self) -> u64 {
        self.region.len() as u64 / SECTOR
    }

    /// Brings the bytes to the file, if they are of one.
    pub(crate) fn sync(&self) -> io::Result<()> {
        self.region.sync()
    }

    /// The same as C has it, for a call that takes it.
    pub(crate) fn slot(&mut self) -> raw::Image {
        raw::Image { at: self.region.as_mut_ptr(), sectors: self.sectors() }
    }
}

/// The length of a file that is a disk.
fn len_of(file: &File) -> io::Result<usize> {
    let len = file.metadata()?.len();
    if len % SECTOR != 0 || !(1..=MOST_SECTORS).contains(&(len / SECTOR)) {
        return Err(io::Error::new(io::ErrorKind::InvalidInput, "not 1 to 4,294,967,295 whole sectors of 512 bytes"));
    }
    usize::try_from(len).map_err(|_| io::ErrorKind::FileTooLarge.into())
}

/// What a call of C takes of these images.
pub(crate) fn slots_of(images: &mut [Image]) -> Vec<raw::Image> {
    images.iter_mut().map(Image::slot).collect()
}

impl Deref for Image {
    type Target = [u8];

    fn deref(&self) -> &[u8] {
        self.region.bytes()
    }
}

impl DerefMut for Image {
    fn deref_mut(&mut self) -> &mut [u8] {
        self.region.bytes_mut()
    }
}
