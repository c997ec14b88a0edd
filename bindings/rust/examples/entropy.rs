//! A driver that reads entropy over a split ring (VIRTIO 1.2, 2.7). Its machine then moves to another one while it runs.

use std::error::Error;
use vmig::{Arrival, Device, Machine, Step, Turn, TurnEnd};

/// Where the driver keeps its queue, and its buffer.
const DESCRIPTORS: u32 = 0x1000;
const AVAILABLE: u32 = 0x2000;
const USED: u32 = 0x3000;
const BUFFER: u32 = 0x4000;

/// The driver readies its queue, of one buffer of 16 bytes that the device writes into, and kicks.
fn set_up(machine: &mut Machine) -> Result<(), vmig::Error> {
    assert_eq!(machine.read_register(0, 0x000, 4)?, 0x7472_6976);
    let features = [(0x070, 0), (0x070, 3), (0x024, 1), (0x020, 1), (0x070, 0xb)];
    let queue = [(0x038, 16), (0x080, DESCRIPTORS), (0x090, AVAILABLE), (0x0a0, USED), (0x044, 1), (0x070, 0xf)];
    for (offset, value) in features.into_iter().chain(queue) {
        machine.write_register(0, offset, 4, value)?;
    }
    let mut descriptor = [0; 16];
    descriptor[..8].copy_from_slice(&u64::from(BUFFER).to_le_bytes());
    descriptor[8..12].copy_from_slice(&16u32.to_le_bytes());
    descriptor[12..14].copy_from_slice(&2u16.to_le_bytes());
    machine.write_ram(DESCRIPTORS.into(), &descriptor)?;
    machine.write_ram(u64::from(AVAILABLE) + 2, &1u16.to_le_bytes())?;
    machine.write_register(0, 0x050, 4, 0).map(drop)
}

/// The host puts entropy in, and the device fills the driver's buffer.
fn serve(machine: &mut Machine) -> Result<[u8; 16], vmig::Error> {
    assert_eq!(machine.input(0, b"sixteen random bytes")?, 20);
    let mut turn = Turn::new(100);
    while let TurnEnd::Answer(_, Step::Completed(len)) = machine.work(&mut turn, &mut [])? {
        println!("entropy: {len} bytes are the driver's, interrupt lines {:#x}", machine.lines());
    }
    let mut bytes = [0; 16];
    machine.read_ram(BUFFER.into(), &mut bytes)?;
    Ok(bytes)
}

/// What waits to be sent goes to the other side, piece by piece.
fn carry(machine: &mut Machine, arrival: &mut Arrival) -> Result<(), vmig::Error> {
    let mut piece = [0; 1000];
    while let got @ 1.. = machine.send_take(&mut piece)? {
        arrival.feed(&piece[..got])?;
    }
    Ok(())
}

fn main() -> Result<(), Box<dyn Error>> {
    let mut machine = Machine::builder().pages(16).device(Device::Entropy).build()?;
    set_up(&mut machine)?;

    let mut arrival = Arrival::builder().most_pages(16).device(Device::Entropy).begin()?;
    machine.send_begin()?;
    while machine.send_some(5)? {
        carry(&mut machine, &mut arrival)?;
    }
    machine.write_ram(0x5000, b"the guest goes on")?;
    println!("entropy: {} page is left", machine.send_left()?.dirty_pages);
    machine.send_stop()?;
    carry(&mut machine, &mut arrival)?;

    let mut arrived = arrival.finish()?;
    assert_eq!(serve(&mut arrived)?, *b"sixteen random b");
    println!("entropy: all as expected");
    Ok(())
}
