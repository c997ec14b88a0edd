//! What the tests share: the part of a driver that sets up its device and writes a split ring (VIRTIO 1.2, 2.7, 3.1 and 4.2.2).
#![allow(dead_code, clippy::cast_possible_truncation)]

use vmig::{Device, Machine, Next, Pick, SENT_MAX, Step};

/// A register by its offset in the table of 4.2.2.
pub const DRIVER_FEATURES: u32 = 0x020;
pub const DRIVER_FEATURES_SEL: u32 = 0x024;
pub const QUEUE_SEL: u32 = 0x030;
pub const QUEUE_NUM: u32 = 0x038;
pub const QUEUE_READY: u32 = 0x044;
pub const QUEUE_NOTIFY: u32 = 0x050;
pub const INTERRUPT_ACK: u32 = 0x064;
pub const STATUS: u32 = 0x070;
pub const QUEUE_DESC: u32 = 0x080;
pub const QUEUE_DRIVER: u32 = 0x090;
pub const QUEUE_DEVICE: u32 = 0x0a0;

/// A network device with an address of the range for local use.
pub const CARD: Device = Device::Network { mac: [2, 0, 0, 0, 0, 1] };

/// A buffer of a chain: its address, its length, and whether the device writes it.
pub type Buffer = (u64, u32, bool);

/// A split ring of 16 entries, in three pages of RAM from `at` on.
pub struct Ring {
    pub dev: u8,
    pub queue: u16,
    at: u64,
    published: u16,
    descriptors: u16,
}

pub fn write(machine: &mut Machine, dev: u8, offset: u32, value: u32) {
    assert_eq!(machine.write_register(dev, offset, 4, value), Ok(None));
}

impl Ring {
    pub fn new(dev: u8, queue: u16, at: u64) -> Ring {
        Ring { dev, queue, at, published: 0, descriptors: 0 }
    }

    /// The addresses of the descriptor table, the driver area and the device area.
    fn areas(&self) -> [(u32, u64); 3] {
        [(QUEUE_DESC, self.at), (QUEUE_DRIVER, self.at + 0x1000), (QUEUE_DEVICE, self.at + 0x2000)]
    }

    /// Publishes a chain, and kicks.
    pub fn publish(&mut self, machine: &mut Machine, chain: &[Buffer]) {
        let head = self.descriptors;
        for (place, (addr, len, is_writable)) in (1..).zip(chain) {
            let is_last = place == chain.len();
            let flags = u16::from(!is_last) | if *is_writable { 2 } else { 0 };
            let mut descriptor = [0; 16];
            descriptor[..8].copy_from_slice(&addr.to_le_bytes());
            descriptor[8..12].copy_from_slice(&len.to_le_bytes());
            descriptor[12..14].copy_from_slice(&flags.to_le_bytes());
            descriptor[14..].copy_from_slice(&((self.descriptors + 1) % 16).to_le_bytes());
            machine.write_ram(self.at + 16 * u64::from(self.descriptors), &descriptor).expect("the table is in RAM");
            self.descriptors = (self.descriptors + 1) % 16;
        }
        self.publish_head(machine, head);
    }

    /// Publishes the number of a descriptor, whatever is there, and kicks.
    pub fn publish_head(&mut self, machine: &mut Machine, head: u16) {
        let entry = self.at + 0x1000 + 4 + 2 * u64::from(self.published % 16);
        machine.write_ram(entry, &head.to_le_bytes()).expect("the driver area is in RAM");
        self.published += 1;
        machine.write_ram(self.at + 0x1002, &self.published.to_le_bytes()).expect("the driver area is in RAM");
        write(machine, self.dev, QUEUE_NOTIFY, self.queue.into());
    }

    /// The used entry of this number: the head of the chain, and how many bytes the device wrote.
    pub fn used(&self, machine: &Machine, number: u16) -> (u32, u32) {
        let mut entry = [0; 8];
        machine.read_ram(self.at + 0x2000 + 4 + 8 * u64::from(number % 16), &mut entry).expect("the device area is in RAM");
        let word = |at: usize| u32::from_le_bytes(entry[at..at + 4].try_into().expect("four bytes"));
        (word(0), word(4))
    }
}

/// A driver accepts `VERSION_1` and these features below bit 32, and readies its queues.
pub fn ready(machine: &mut Machine, features: u32, rings: &[&Ring]) {
    let dev = rings[0].dev;
    for (offset, value) in [(STATUS, 0), (STATUS, 3), (DRIVER_FEATURES_SEL, 0), (DRIVER_FEATURES, features)] {
        write(machine, dev, offset, value);
    }
    for (offset, value) in [(DRIVER_FEATURES_SEL, 1), (DRIVER_FEATURES, 1), (STATUS, 11)] {
        write(machine, dev, offset, value);
    }
    for ring in rings {
        write(machine, dev, QUEUE_SEL, ring.queue.into());
        write(machine, dev, QUEUE_NUM, 16);
        for (offset, at) in ring.areas() {
            write(machine, dev, offset, at as u32);
            write(machine, dev, offset + 4, (at >> 32) as u32);
        }
        write(machine, dev, QUEUE_READY, 1);
    }
    write(machine, dev, STATUS, 15);
    assert_eq!(machine.read_register(dev, STATUS, 4), Ok(15));
}

/// Makes all steps that have something to do; each as it is printed, but those that found a queue empty.
pub fn work(machine: &mut Machine) -> Vec<String> {
    let mut buf = vec![0; SENT_MAX];
    let mut did = Vec::new();
    let mut last = Pick::default();
    loop {
        last = match machine.next(last).expect("it is not stopped") {
            Next::Work(pick) => pick,
            Next::Sync(pick) => {
                did.push("sync".to_owned());
                machine.sync(pick.dev).expect("no file, or one that is there");
                pick
            }
            _ => return did,
        };
        match machine.step(last, &mut buf).expect("it is not stopped") {
            Step::Idle => {}
            step => did.push(format!("{step:?}")),
        }
        assert!(did.len() < 1000, "the guest of a test gives work without end");
    }
}

/// The header of a request of a block device (5.2.6): its type and its sector.
pub fn request(machine: &mut Machine, at: u64, kind: u32, sector: u64) {
    machine.write_ram(at, &kind.to_le_bytes()).expect("the header is in RAM");
    machine.write_ram(at + 4, &[0; 4]).expect("the header is in RAM");
    machine.write_ram(at + 8, &sector.to_le_bytes()).expect("the header is in RAM");
}

pub fn bytes(machine: &Machine, at: u64, len: usize) -> Vec<u8> {
    let mut bytes = vec![0; len];
    machine.read_ram(at, &mut bytes).expect("the bytes are in RAM");
    bytes
}

/// A machine of 16 pages and these devices.
pub fn made(devices: &[Device]) -> Machine {
    Machine::builder().pages(16).devices(devices).build().expect("a machine within the limits")
}

/// Numbers at random, the same in each run.
pub struct Random(pub u32);

impl Random {
    /// A number below this one.
    pub fn below(&mut self, limit: u32) -> u32 {
        self.0 ^= self.0 << 13;
        self.0 ^= self.0 >> 17;
        self.0 ^= self.0 << 5;
        self.0 % limit
    }
}
