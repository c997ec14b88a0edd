//! How a machine is made.

use crate::device::{Device, shapes_of};
use crate::error::{Error, Refused, done};
use crate::image::{Image, slots_of};
use crate::machine::{Machine, Parts, first_number, is_linked_right, new_number};
use crate::memory::Memory;
use crate::raw;

/// How a machine is made: in any mixture of RAM, of the caller or of the library, and of disks: zeros, contents or images.
///
/// ```
/// use vmig::{Device, Machine};
///
/// let machine = Machine::builder().pages(16).device(Device::Console).device(Device::disk(8)).build()?;
/// assert_eq!((machine.pages(), machine.devices()?.len(), machine.base()), (16, 2, 0));
/// # Ok::<(), Box<dyn std::error::Error>>(())
/// ```
#[derive(Debug, Default)]
#[must_use = "a machine is made by `build`"]
pub struct MachineBuilder {
    devices: Vec<Device>,
    pages: u32,
    base: u64,
    contents: Box<[u8]>,
    flags: u32,
    block: u32,
    parts: Parts,
}

impl MachineBuilder {
    /// RAM is this number of pages of 4,096 bytes, 1 to 16,384, in memory of the library, all zeros. With [`MachineBuilder::memory`] it need
    /// not be said, and is the number of its pages. More are for a machine that is [`MachineBuilder::large`].
    pub fn pages(self, pages: u32) -> MachineBuilder {
        MachineBuilder { pages, ..self }
    }

    /// RAM is this memory, with the bytes that are there, and can be lent to a guest that runs on it.
    pub fn memory(mut self, memory: Memory) -> MachineBuilder {
        self.parts.memory = Some(memory);
        self
    }

    /// The guest-physical address of RAM's first byte, a multiple of 4,096: 0 where nothing is said. All addresses count from there.
    pub fn base(self, base: u64) -> MachineBuilder {
        MachineBuilder { base, ..self }
    }

    /// One more device, of 1 to 16: they have the numbers 0, 1 and so on.
    pub fn device(mut self, device: Device) -> MachineBuilder {
        self.devices.push(device);
        self
    }

    /// More devices, in this order.
    pub fn devices(mut self, devices: &[Device]) -> MachineBuilder {
        self.devices.extend_from_slice(devices);
        self
    }

    /// The disks' first contents: the sectors of the first block device, then those of the second, and so on. Without contents and images
    /// they are zeros.
    pub fn contents(self, contents: Vec<u8>) -> MachineBuilder {
        MachineBuilder { contents: contents.into_boxed_slice(), ..self }
    }

    /// The disk of the next block device itself, in memory of the caller. There are as many as there are block devices, or none.
    pub fn image(mut self, image: Image) -> MachineBuilder {
        self.parts.images.push(image);
        self
    }

    /// Of disks outside ([`Device::Outside`]): the sectors of the largest block that the caller's storage writes whole, 8 over blocks of 4,096 bytes.
    /// No two calls that are out share such a block. It is 1 where nothing is said.
    pub fn block(self, sectors: u32) -> MachineBuilder {
        MachineBuilder { block: sectors, ..self }
    }

    /// RAM may have up to 4,294,967,295 pages (16 TiB), each disk as many sectors (2 TiB), and a network device frames of 65,535 bytes
    /// ([`Device::LongNetwork`]). Large RAM should be a [`Memory`]: the library fills what it allocates for itself.
    pub fn large(self) -> MachineBuilder {
        MachineBuilder { flags: self.flags | raw::LARGE, ..self }
    }

    /// The pages that the calls of the library write are logged, for [`Machine::hand_out`]: a step then takes some instructions more.
    pub fn log_written(self) -> MachineBuilder {
        MachineBuilder { flags: self.flags | raw::LOG, ..self }
    }

    /// Makes the machine. Refusals, in their order: `BadRam` (not whole pages, none or too many, or `pages` and the memory differ), `BadShape`,
    /// `BadBase`, `BadImages` (contents and images; not one for each disk, or of other lengths), `NoMemory`.
    pub fn build(mut self) -> Result<Machine, Refused<MachineBuilder>> {
        let number = new_number();
        match self.make(number) {
            Ok(held) => Ok(Machine::new(held, self.parts, number)),
            Err(error) => Err(Refused::new(error, self)),
        }
    }

    /// The memory and the images that it was given.
    #[must_use]
    pub fn into_parts(self) -> Parts {
        self.parts
    }

    fn make(&mut self, number: u64) -> Result<raw::Machine, Error> {
        is_linked_right()?;
        let shapes = shapes_of(&self.devices);
        let mut slots = slots_of(&mut self.parts.images);
        let mut held = raw::NONE;
        let mut setup = raw::Setup {
            pages: self.pages,
            shapes: shapes.as_ptr(),
            count: shapes.len(),
            contents: self.contents.as_ptr(),
            len: self.contents.len(),
            images: slots.as_mut_ptr(),
            count_images: slots.len(),
            ram: self.parts.memory.as_mut().map_or(raw::NO_RAM, Memory::slot),
            base: self.base,
            flags: self.flags,
            block: self.block,
            calls_from: first_number(number),
            ..raw::SETUP
        };
        // SAFETY: the slices are valid for the call, and the handle is of no machine. RAM and images are owned by what the machine's owner
        // has beside it, which is dropped after the machine was freed.
        done(unsafe { raw::vmig_make(&mut setup, &mut held) })?;
        Ok(held)
    }
}
