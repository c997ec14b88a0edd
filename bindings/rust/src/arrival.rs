//! A machine that arrives, and what its stream announces.

use crate::device::{Device, devices_of, shapes_of};
use crate::error::{Error, Refused, done};
use crate::image::{Image, slots_of};
use crate::machine::{Machine, Parts, first_number, is_linked_right, new_number};
use crate::memory::Memory;
use crate::raw;

/// What the first bytes of a stream announce.
#[derive(Clone, Debug, PartialEq, Eq, Hash)]
#[non_exhaustive]
pub struct Announced {
    /// The pages of its RAM.
    pub pages: u32,

    /// Its devices, in their order.
    pub devices: Vec<Device>,
}

/// What the machine is whose stream begins with these bytes, before any memory is taken for it. `None` where the header is not whole, which
/// 496 bytes always tell.
pub fn announced(bytes: &[u8]) -> Result<Option<Announced>, Error> {
    let mut found = raw::Description::default();
    // SAFETY: the slice is valid for the call.
    let status = done(unsafe { raw::vmig_stream_describe(bytes.as_ptr(), bytes.len(), &mut found) })?;
    if status == raw::MORE {
        return Ok(None);
    }
    Ok(Some(Announced { pages: found.pages, devices: devices_of(&found)? }))
}

/// Within which limits, and in which memory, a machine will arrive. It allows nothing until it is said what.
///
/// ```
/// use vmig::{Arrival, Device, Error, Machine, Memory};
///
/// let sent = Machine::builder().pages(2).device(Device::Entropy).build()?;
/// let stream = sent.save()?;
///
/// let mut arrival = Arrival::builder().memory(Memory::zeros(2)?).device(Device::Entropy).begin()?;
/// assert!(arrival.feed(&stream)?);
/// let machine = arrival.finish()?;
/// assert_eq!(machine.pages(), 2);
///
/// let mut small = Arrival::builder().most_pages(1).begin()?;
/// assert_eq!(small.feed(&stream), Err(Error::StreamTooLarge));
/// # Ok::<(), Box<dyn std::error::Error>>(())
/// ```
#[derive(Debug, Default)]
#[must_use = "an arrival begins by `begin`"]
pub struct ArrivalBuilder {
    devices: Vec<Device>,
    most_pages: u32,
    most_sectors: u64,
    longest_frame: u16,
    most_outside: u64,
    base: u64,
    flags: u32,
    block: u32,
    parts: Parts,
}

impl ArrivalBuilder {
    /// The most pages of RAM, in memory of the library. A [`Memory`] is its own limit: beside one this is
    /// refused, as `BadRam`.
    pub fn most_pages(self, most_pages: u32) -> ArrivalBuilder {
        ArrivalBuilder { most_pages, ..self }
    }

    /// The most sectors of all disks together, in memory of the library. Images are their own limit, and this is not looked at beside them.
    pub fn most_sectors(self, most_sectors: u64) -> ArrivalBuilder {
        ArrivalBuilder { most_sectors, ..self }
    }

    /// The most bytes of a frame of its network devices, unless devices with longer ones are named: 1,514, or more of a machine that may be
    /// [`large`](Self::large). Where neither is said it is 1,514, and a stream with a [`Device::LongNetwork`] is refused as `StreamBadVersion`.
    pub fn longest_frame(self, longest_frame: u16) -> ArrivalBuilder {
        ArrivalBuilder { longest_frame, ..self }
    }

    /// The most sectors of each disk that is outside ([`Device::Outside`]), unless devices are named. Where neither is said a stream with one is
    /// refused as `StreamBadVersion`.
    pub fn most_outside(self, sectors: u64) -> ArrivalBuilder {
        ArrivalBuilder { most_outside: sectors, ..self }
    }

    /// As [`crate::MachineBuilder::block`].
    pub fn block(self, sectors: u32) -> ArrivalBuilder {
        ArrivalBuilder { block: sectors, ..self }
    }

    /// One more device: the machine of the stream has exactly those that are named. Where none is named it may have any.
    pub fn device(mut self, device: Device) -> ArrivalBuilder {
        self.devices.push(device);
        self
    }

    /// More devices, in this order.
    pub fn devices(mut self, devices: &[Device]) -> ArrivalBuilder {
        self.devices.extend_from_slice(devices);
        self
    }

    /// RAM will be this memory, which is written as pages come. It has as many pages as the stream's.
    pub fn memory(mut self, memory: Memory) -> ArrivalBuilder {
        self.parts.memory = Some(memory);
        self
    }

    /// The next disk will be this image, which is written as sectors come. There is one for each block device of the stream, or none.
    pub fn image(mut self, image: Image) -> ArrivalBuilder {
        self.parts.images.push(image);
        self
    }

    /// The guest-physical address of RAM's first byte: that of the machine that is sent, which the stream does not say.
    pub fn base(self, base: u64) -> ArrivalBuilder {
        ArrivalBuilder { base, ..self }
    }

    /// It may have more than 16,384 pages, and more than 2,097,152 sectors a disk: up to what is allowed, or to the memory and the images that
    /// it is given. Without this such a stream is refused as `StreamBadShape`. Large RAM should be a [`Memory`]: else
    /// [`Arrival::finish`] writes what did not come, and one page can ask for all before it.
    pub fn large(self) -> ArrivalBuilder {
        ArrivalBuilder { flags: self.flags | raw::LARGE, ..self }
    }

    /// The pages that the calls of the library write are logged, for [`Machine::hand_out`], from the arrival's end on. None of those that arrive
    /// is: all of RAM is new then.
    pub fn log_written(self) -> ArrivalBuilder {
        ArrivalBuilder { flags: self.flags | raw::LOG, ..self }
    }

    /// The library does not digest what arrives: the host digests what it feeds, as on a thread of its own ([`Arrival::feed_some`]), and tells the
    /// digest before the last bytes of the stream ([`Arrival::feed_tell`]).
    pub fn told(self) -> ArrivalBuilder {
        ArrivalBuilder { flags: self.flags | raw::TOLD, ..self }
    }

    /// The arrival begins. Refusals, in their order: `NotKnown` (a longest frame of less than 1,514 bytes, or of more and no large machine),
    /// `BadRam` (the memory is not whole pages, or has too many; or `most_pages` beside it), `BadShape`, `BadBase`, `BadImages` (not those of the
    /// devices), `NoMemory`.
    pub fn begin(mut self) -> Result<Arrival, Refused<ArrivalBuilder>> {
        let number = new_number();
        match self.arrive(number) {
            Ok(held) => Ok(Arrival { machine: Machine::new(held, self.parts, number) }),
            Err(error) => Err(Refused::new(error, self)),
        }
    }

    /// The memory and the images that it was given.
    #[must_use]
    pub fn into_parts(self) -> Parts {
        self.parts
    }

    fn arrive(&mut self, number: u64) -> Result<raw::Machine, Error> {
        is_linked_right()?;
        let shapes = shapes_of(&self.devices);
        let mut slots = slots_of(&mut self.parts.images);
        let mut held = raw::NONE;
        let mut arrival = raw::Arrival {
            most_pages: self.most_pages,
            most_sectors: self.most_sectors,
            shapes: shapes.as_ptr(),
            count: shapes.len(),
            images: slots.as_mut_ptr(),
            count_images: slots.len(),
            ram: self.parts.memory.as_mut().map_or(raw::NO_RAM, Memory::slot),
            base: self.base,
            flags: self.flags,
            frame: self.longest_frame.into(),
            most_outside: self.most_outside,
            block: self.block,
            calls_from: first_number(number),
            ..raw::ARRIVAL
        };
        // SAFETY: the slices are valid for the call, and the handle is of no machine. RAM and images are owned by what the machine's owner
        // has beside it, which is dropped after the machine was freed.
        done(unsafe { raw::vmig_arrive(&mut arrival, &mut held) })?;
        Ok(held)
    }
}

/// What became of a piece of a stream whose digest the host tells.
#[derive(Clone, Copy, Debug, PartialEq, Eq, Hash)]
#[must_use = "the digest may be due"]
pub enum Fed {
    /// All of it was taken.
    All,
    /// This many of its bytes were taken, and the record that closes the stream comes next: tell the digest ([`Arrival::feed_tell`]), and feed
    /// the rest.
    Digest(usize),
    /// All of it was taken. The stream has ended, and is right.
    Whole,
}

/// A machine whose stream arrives in pieces of any size.
#[derive(Debug)]
pub struct Arrival {
    machine: Machine,
}

impl Arrival {
    /// Within which limits, and in which memory.
    pub fn builder() -> ArrivalBuilder {
        ArrivalBuilder::default()
    }

    /// The next bytes. Whether the end of the stream has come, and it is right. A fault is answered by the piece that shows it, and the
    /// stream is refused for good: `StreamFailed` from then on. Nothing may follow the stream's last byte. `NotAsked` where the host tells the
    /// digest ([`ArrivalBuilder::told`]).
    pub fn feed(&mut self, piece: &[u8]) -> Result<bool, Error> {
        // SAFETY: the slice is valid for the call, and the handle is of a machine that arrives.
        let status = done(unsafe { raw::vmig_feed(&mut self.machine.held, piece.as_ptr(), piece.len()) })?;
        Ok(status == raw::WHOLE)
    }

    /// The next bytes where the host tells the digest: those before the record that closes the stream are taken. Once the digest was told that
    /// record may come in pieces too; where other bytes come in its place the digest is to be told anew. A record of another digest is
    /// `StreamBadDigest`. Of an arrival that the library digests this is [`Arrival::feed`].
    ///
    /// ```
    /// use vmig::{Arrival, Device, Digest, Fed, Machine};
    ///
    /// # let stream = Machine::builder().pages(2).device(Device::Entropy).build()?.save()?;
    /// let mut arrival = Arrival::builder().most_pages(2).told().begin()?;
    /// let mut digest = Digest::new();
    /// for mut piece in stream.chunks(100) {
    ///     while let Fed::Digest(used) = arrival.feed_some(piece)? {
    ///         digest.add(&piece[..used]);
    ///         arrival.feed_tell(&digest.clone().end())?;
    ///         piece = &piece[used..];
    ///     }
    ///     digest.add(piece);
    /// }
    /// let machine = arrival.finish()?;
    /// # assert_eq!(machine.save()?, stream);
    /// # Ok::<(), Box<dyn std::error::Error>>(())
    /// ```
    pub fn feed_some(&mut self, piece: &[u8]) -> Result<Fed, Error> {
        let mut used = 0;
        // SAFETY: as in `feed`, and the number is valid for the call.
        match done(unsafe { raw::vmig_feed_some(&mut self.machine.held, piece.as_ptr(), piece.len(), &mut used) })? {
            raw::DIGEST => Ok(Fed::Digest(used)),
            raw::WHOLE => Ok(Fed::Whole),
            _ => Ok(Fed::All),
        }
    }

    /// The digest that is due: the SHA-256 of all bytes that were taken, in their order. It is compared with the one in the stream, which says that
    /// all bytes came as they were sent: so never tell what was read in the stream itself.
    ///
    /// `NotAsked` unless it is due ([`Fed::Digest`]), and of a second one; `StreamFailed` after a refusal.
    pub fn feed_tell(&mut self, digest: &[u8; 32]) -> Result<(), Error> {
        // SAFETY: as in `feed`, and the array is valid for the call.
        done(unsafe { raw::vmig_feed_tell(&mut self.machine.held, digest) }).map(drop)
    }

    /// What the stream announced, once its header has come. `None` before, and once it was refused: keep its first 496 bytes for [`announced`]
    /// to say what machine was refused.
    pub fn announced(&self) -> Result<Option<Announced>, Error> {
        let found = self.machine.describe();
        let devices = devices_of(&found)?;
        Ok((found.pages != 0).then_some(Announced { pages: found.pages, devices }))
    }

    /// How many rounds ended in what has arrived.
    #[must_use]
    pub fn rounds(&self) -> u32 {
        self.machine.describe().rounds
    }

    /// Whether the end of the stream has arrived, and nothing was refused.
    #[must_use]
    pub fn is_whole(&self) -> bool {
        self.machine.describe().whole == 1
    }

    /// Why it was refused, and how many bytes came before the piece that was. `None` where it was not.
    #[must_use]
    pub fn fault(&self) -> Option<(Error, u64)> {
        let found = self.machine.describe();
        (found.fault != 0).then(|| (Error::of(found.fault), found.fault_at))
    }

    /// All has arrived: the machine, idle. Bring its disks to their files ([`Machine::sync_all`]), tell the source, and wait for its word; then
    /// read the lines, make the steps that have something to do, and run the guest.
    pub fn finish(mut self) -> Result<Machine, Refused<Arrival>> {
        // SAFETY: as in `feed`.
        match done(unsafe { raw::vmig_finish(&mut self.machine.held) }) {
            Ok(_) => Ok(self.machine),
            Err(error) => Err(Refused::new(error, self)),
        }
    }

    /// Gives the arrival up. The result is the memory and the images that it was given, with what came so far.
    #[must_use = "dropping the arrival gives it up too"]
    pub fn into_parts(self) -> Parts {
        self.machine.into_parts()
    }
}
