//! What a device is made as.

use crate::error::Error;
use crate::raw;

/// What a device is made as.
#[derive(Clone, Copy, Debug, PartialEq, Eq, Hash)]
#[non_exhaustive]
pub enum Device {
    /// A network device with this MAC, for frames of up to 1,514 bytes.
    Network {
        /// The address of its card.
        mac: [u8; 6],
    },

    /// A network device for longer frames, of a large machine. It offers its driver MTU, of 18 bytes less than the longest frame. One whose longest
    /// frame has 1,514 bytes is a [`Device::Network`], and is told as one.
    LongNetwork {
        /// The address of its card.
        mac: [u8; 6],
        /// How many bytes its longest frame has: 1,514, or 1,518 at least.
        longest: u16,
    },

    /// A block device of 1 to 2,097,152 sectors of 512 bytes, of a large machine to 4,294,967,295.
    Block {
        /// Its sectors.
        sectors: u64,
        /// Whether the driver may only read it.
        read_only: bool,
        /// The id that it returns to a driver.
        id: [u8; 20],
    },

    /// A block device whose disk is outside, of 1 to 2^54 sectors of 512 bytes: the caller is asked for them ([`crate::Machine::disk_call`]).
    Outside {
        /// Its sectors.
        sectors: u64,
        /// Whether the driver may only read it.
        read_only: bool,
        /// The id that it returns to a driver.
        id: [u8; 20],
    },

    /// A console.
    Console,

    /// An entropy device.
    Entropy,
}

impl Device {
    /// A block device of this number of sectors, which the driver may write, with an id of zeros.
    #[must_use]
    pub const fn disk(sectors: u64) -> Device {
        Device::Block { sectors, read_only: false, id: [0; 20] }
    }

    /// A block device whose disk is outside, of this number of sectors, which the driver may write, with an id of zeros.
    #[must_use]
    pub const fn outside(sectors: u64) -> Device {
        Device::Outside { sectors, read_only: false, id: [0; 20] }
    }

    /// Whether it has a disk of the machine: in memory of the library, or an image. One that is outside is none.
    #[must_use]
    pub const fn is_disk(&self) -> bool {
        matches!(self, Device::Block { .. })
    }

    pub(crate) fn shape(self) -> raw::Shape {
        let none = raw::Shape::default();
        match self {
            Device::Network { mac } => raw::Shape { kind: raw::NETWORK, mac, ..none },
            Device::LongNetwork { mac, longest } => raw::Shape { kind: raw::NETWORK, mac, frame: longest.into(), ..none },
            Device::Block { sectors, read_only, id } => raw::Shape { kind: raw::BLOCK, sectors, read_only: read_only.into(), id, ..none },
            Device::Outside { sectors, read_only, id } => {
                raw::Shape { kind: raw::BLOCK_OUTSIDE, sectors, read_only: read_only.into(), id, ..none }
            }
            Device::Console => raw::Shape { kind: raw::CONSOLE, ..none },
            Device::Entropy => raw::Shape { kind: raw::ENTROPY, ..none },
        }
    }

    /// `None` of a kind that this crate does not know.
    pub(crate) fn of(shape: &raw::Shape) -> Option<Device> {
        match shape.kind {
            raw::NETWORK if shape.frame == 0 => Some(Device::Network { mac: shape.mac }),
            raw::NETWORK => Some(Device::LongNetwork { mac: shape.mac, longest: u16::try_from(shape.frame).ok()? }),
            raw::BLOCK => Some(Device::Block { sectors: shape.sectors, read_only: shape.read_only != 0, id: shape.id }),
            raw::BLOCK_OUTSIDE => Some(Device::Outside { sectors: shape.sectors, read_only: shape.read_only != 0, id: shape.id }),
            raw::CONSOLE => Some(Device::Console),
            raw::ENTROPY => Some(Device::Entropy),
            _ => None,
        }
    }
}

/// The shapes of devices, as C has them.
pub(crate) fn shapes_of(devices: &[Device]) -> Vec<raw::Shape> {
    devices.iter().map(|device| device.shape()).collect()
}

/// The devices of a description, in their order.
pub(crate) fn devices_of(found: &raw::Description) -> Result<Vec<Device>, Error> {
    let shapes = found.shapes.iter().take(found.count as usize);
    shapes.map(|shape| Device::of(shape).ok_or(Error::NotKnown)).collect()
}

#[cfg(test)]
mod tests {
    use super::*;

    #[test]
    fn a_device_is_its_shape() {
        let disk = Device::Block { sectors: 7, read_only: true, id: *b"abcdefghijklmnopqrst" };
        let long = Device::LongNetwork { mac: [1, 2, 3, 4, 5, 6], longest: 9018 };
        let outside = Device::Outside { sectors: 1 << 54, read_only: true, id: *b"abcdefghijklmnopqrst" };
        assert!(disk.is_disk() && !outside.is_disk());
        for device in [
            Device::Network { mac: [1, 2, 3, 4, 5, 6] },
            long,
            disk,
            Device::disk(9),
            outside,
            Device::outside(9),
            Device::Console,
            Device::Entropy,
        ] {
            assert_eq!(Device::of(&device.shape()), Some(device));
        }
    }

    #[test]
    fn what_a_kind_does_not_need_is_zero() {
        let shape = Device::Console.shape();
        assert_eq!((shape.read_only, shape.mac, shape.sectors, shape.id), (0, [0; 6], 0, [0; 20]));
        assert_eq!((shape.frame, shape.reserved), (0, [0; 2]));
    }

    #[test]
    fn an_unknown_kind_is_no_device() {
        let shape = raw::Shape { kind: 5, ..raw::Shape::default() };
        assert_eq!(Device::of(&shape), None);
        let mut found = raw::Description { count: 2, ..raw::Description::default() };
        found.shapes[0].kind = raw::ENTROPY;
        assert_eq!(devices_of(&found), Err(Error::NotKnown));
        found.count = 1;
        assert_eq!(devices_of(&found), Ok(vec![Device::Entropy]));
    }
}
