//! The guest: a driver of a disk and a console that writes each sector of the disk, one after another, and a dot for each.

use crate::cpu::{ADD, HALT, IF_EQUAL, IF_OTHER, LOAD, RAM, SET, STORE, WAIT, WINDOW, WINDOWS};

pub const PAGES: u32 = 16;
pub const SECTORS: u32 = 256;

/// Where it has its rings, each of three pages, and its buffers.
const DISK_RING: u32 = 0x1000;
const CONSOLE_RING: u32 = 0x4000;
const HEADER: u32 = 0x7000;
const ENDING: u32 = 0x7010;
const TEXT: u32 = 0x7020;
const DATA: u32 = 0x8000;

/// What each register is for.
const RAM_BASE: u8 = 0;
const DISK: u8 = 1;
const CONSOLE: u8 = 2;
const DONE: u8 = 3;
const INDEX: u8 = 4;
const ANY: u8 = 5;
const ALL: u8 = 6;

/// A program that grows.
#[derive(Default)]
struct Program(Vec<u8>);

impl Program {
    fn put(&mut self, number: u8, a: u8, b: u8, word: u32) {
        self.0.extend([number, a, b, 0]);
        self.0.extend(word.to_le_bytes());
    }

    /// Writes registers of a device, each with its value.
    fn set_registers(&mut self, window: u8, values: &[(u32, u32)]) {
        for (offset, value) in values {
            self.put(SET, ANY, 0, *value);
            self.put(STORE, ANY, window, *offset);
        }
    }

    /// The driver accepts `VERSION_1` and readies a queue of four entries (VIRTIO 1.2, 3.1.1 and 4.2.3).
    fn set_up(&mut self, window: u8, queue: u32, ring: u32) {
        self.set_registers(window, &[(0x070, 0), (0x070, 3), (0x024, 1), (0x020, 1), (0x070, 11), (0x030, queue), (0x038, 4)]);
        self.set_registers(window, &[(0x080, RAM + ring), (0x090, RAM + ring + 0x1000), (0x0a0, RAM + ring + 0x2000)]);
        self.set_registers(window, &[(0x044, 1), (0x070, 15)]);
    }

    /// Publishes the chain of the ring once more, kicks, and waits until it is used; then it acknowledges the interrupt.
    fn request(&mut self, window: u8, queue: u32, ring: u32) {
        self.put(STORE, INDEX, RAM_BASE, ring + 0x1000);
        self.set_registers(window, &[(0x050, queue)]);
        let again = self.0.len() as u32;
        self.put(LOAD, ANY, RAM_BASE, ring + 0x2000);
        self.put(IF_EQUAL, ANY, INDEX, again + 4 * 8);
        self.put(WAIT, 0, 0, 0);
        self.put(IF_EQUAL, 0, 0, again);
        self.put(LOAD, ANY, window, 0x060);
        self.put(STORE, ANY, window, 0x064);
    }
}

fn program() -> Vec<u8> {
    let mut program = Program::default();
    for (register, word) in [(RAM_BASE, RAM), (DISK, WINDOWS), (CONSOLE, WINDOWS + WINDOW), (ALL, SECTORS)] {
        program.put(SET, register, 0, word);
    }
    program.set_up(DISK, 0, DISK_RING);
    program.set_up(CONSOLE, 1, CONSOLE_RING);
    let again = program.0.len() as u32;
    program.put(STORE, DONE, RAM_BASE, HEADER + 8);
    program.put(ADD, DONE, 0, 1);
    program.put(STORE, DONE, RAM_BASE, DATA);
    // The available index is the upper half of the first word of the driver area, below it are flags: 0.
    program.put(ADD, INDEX, 0, 1 << 16);
    program.request(DISK, 0, DISK_RING);
    program.request(CONSOLE, 1, CONSOLE_RING);
    program.put(IF_OTHER, DONE, ALL, again);
    program.put(HALT, 0, 0, 0);
    program.0
}

/// A descriptor of a split ring (2.7.5).
fn descriptor(address: u32, len: u32, flags: u16, next: u16) -> Vec<u8> {
    let address = u64::from(RAM + address).to_le_bytes();
    [&address[..], &len.to_le_bytes(), &flags.to_le_bytes(), &next.to_le_bytes()].concat()
}

/// Puts the guest into RAM: its program, and its data, which are two chains, the header of a request and the text.
pub fn load(ram: &mut [u8]) {
    let write = [descriptor(HEADER, 16, 1, 1), descriptor(DATA, 512, 1, 2), descriptor(ENDING, 1, 2, 0)].concat();
    for (place, bytes) in [
        (0, program()),
        (DISK_RING, write),
        (CONSOLE_RING, descriptor(TEXT, 1, 0, 0)),
        (HEADER, 1u32.to_le_bytes().to_vec()),
        (TEXT, b".".to_vec()),
    ] {
        ram[place as usize..][..bytes.len()].copy_from_slice(&bytes);
    }
}
