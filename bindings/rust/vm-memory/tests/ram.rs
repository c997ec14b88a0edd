//! RAM by the traits of vm-memory: what other crates write there a machine has, and the pages are told that they wrote.
#![allow(missing_docs)]

use std::sync::Arc;
use std::sync::atomic::Ordering;
use vm_memory::bitmap::Bitmap;
use vm_memory::guest_memory::Error;
use vm_memory::{Bytes, GuestAddress, GuestMemory, GuestMemoryRegion, MemoryRegionAddress};
use vmig::{Arrival, Device, Lent, Machine, Memory, Pages};
use vmig_vm_memory::GuestRam;

const BASE: u64 = 0x4000_0000;
const PAGES: u32 = 130;
const LEN: u64 = 4096 * PAGES as u64;

fn at(offset: u64) -> GuestAddress {
    GuestAddress(BASE + offset)
}

fn made() -> Machine {
    let memory = Memory::zeros(PAGES).unwrap();
    Machine::builder().memory(memory).base(BASE).device(Device::Console).build().unwrap()
}

fn lent() -> GuestRam<Lent> {
    GuestRam::of_lent(made().lend().unwrap())
}

fn bytes(machine: &Machine, offset: u64, len: usize) -> Vec<u8> {
    let mut bytes = vec![0; len];
    machine.read_ram(BASE + offset, &mut bytes).unwrap();
    bytes
}

/// As crates do that know the traits alone.
fn load(memory: &impl GuestMemory, kernel: &[u8]) {
    let mut source = kernel;
    memory.read_exact_from(at(0x1ffe), &mut source, kernel.len()).unwrap();
}

#[test]
fn a_loader_fills_memory_before_there_is_a_machine() {
    let ram = GuestRam::of_memory(Memory::zeros(4).unwrap(), at(0)).unwrap();
    load(&ram, b"kernel");
    let (memory, written) = ram.into_parts();
    assert_eq!((&memory[0x1ffe..0x2004], written), (&b"kernel"[..], vec![1, 2]));
    let machine = Machine::builder().memory(memory).base(BASE).device(Device::Console).build().unwrap();
    assert_eq!(bytes(&machine, 0x1ffe, 6), b"kernel");
}

#[test]
fn memory_that_would_pass_the_last_address_is_handed_back() {
    let memory = Memory::zeros(1).unwrap();
    let memory = GuestRam::of_memory(memory, GuestAddress(u64::MAX - 4094)).unwrap_err();
    let ram = GuestRam::of_memory(memory, GuestAddress(u64::MAX - 4095)).unwrap();
    assert_eq!((ram.last_addr(), ram.write_obj(1_u8, GuestAddress(u64::MAX)).is_ok()), (GuestAddress(u64::MAX), true));
    assert_eq!(ram.into_parts().0[4095], 1);
}

#[test]
fn it_is_one_region_from_the_base_on() {
    let ram = lent();
    assert_eq!((ram.num_regions(), ram.iter().count(), ram.last_addr()), (1, 1, at(LEN - 1)));
    assert!(ram.find_region(at(0)).is_some() && ram.find_region(at(LEN - 1)).is_some());
    assert!(ram.find_region(GuestAddress(BASE - 1)).is_none() && ram.find_region(at(LEN)).is_none());
    let region = ram.find_region(at(5)).unwrap();
    assert_eq!((region.start_addr(), region.len(), region.to_region_addr(at(5))), (at(0), LEN, Some(MemoryRegionAddress(5))));
    assert_eq!(ram.get_host_address(at(7)).unwrap(), ram.get_host_address(at(0)).unwrap().wrapping_add(7));
}

#[test]
fn what_is_past_it_is_refused() {
    let ram = lent();
    assert!(matches!(ram.write_obj(1_u8, at(LEN)), Err(Error::InvalidGuestAddress(addr)) if addr == at(LEN)));
    assert!(matches!(ram.write_slice(b"abc", at(LEN - 2)), Err(Error::PartialBuffer { expected: 3, completed: 2 })));
    assert!(ram.read_obj::<u64>(at(LEN - 7)).is_err() && ram.get_slice(at(LEN - 7), 8).is_err());
    assert!(ram.load::<u32>(at(LEN), Ordering::Relaxed).is_err() && ram.get_host_address(at(LEN)).is_err());
    // What was written of it is told.
    assert_eq!(ram.into_parts().1, [PAGES - 1]);
}

#[test]
fn each_way_to_write_tells_its_pages() {
    let ram = lent();
    let (mut few, mut copy) = (&b"few"[..], Vec::new());
    assert_eq!(ram.write(b"one", at(0)).unwrap(), 3);
    ram.write_obj(0x0102_0304_u32, at(2 * 4096 + 4094)).unwrap();
    ram.store(9_u64, at(64 * 4096), Ordering::SeqCst).unwrap();
    assert_eq!(ram.read_from(at(66 * 4096), &mut few, 3).unwrap(), 3);
    ram.get_slice(at(127 * 4096), 3 * 4096).unwrap().subslice(4096, 4097).unwrap().write_slice(&[1; 4097], 0).unwrap();
    // Reading tells none.
    assert_eq!(
        (ram.read_obj::<u32>(at(2 * 4096 + 4094)).unwrap(), ram.load::<u64>(at(64 * 4096), Ordering::SeqCst).unwrap()),
        (0x0102_0304, 9)
    );
    ram.write_all_to(at(66 * 4096), &mut copy, 3).unwrap();
    assert_eq!((copy, ram.read(&mut [0; 3], at(5 * 4096)).unwrap()), (b"few".to_vec(), 3));
    let bitmap = ram.find_region(at(0)).unwrap().bitmap();
    assert!(bitmap.dirty_at(4095) && !bitmap.dirty_at(4096) && !bitmap.dirty_at(usize::MAX) && bitmap.slice_at(4096).dirty_at(4096));
    let (lent, written) = ram.into_parts();
    assert_eq!(written, [0, 2, 3, 64, 66, 128, 129]);
    let machine = lent.give_back(Pages::list(&written)).unwrap();
    assert_eq!((bytes(&machine, 0, 3), bytes(&machine, 2 * 4096 + 4094, 4)), (b"one".to_vec(), vec![4, 3, 2, 1]));
    assert_eq!((bytes(&machine, 128 * 4096, 4096), bytes(&machine, 129 * 4096, 2)), (vec![1; 4096], vec![1, 0]));
}

#[test]
fn what_is_written_through_it_arrives() {
    let mut machine = made();
    machine.send_begin().unwrap();
    while machine.send_some(64).unwrap() {}
    let ram = GuestRam::of_lent(machine.lend().unwrap());
    ram.write_slice(b"late", at(0x2ffe)).unwrap();
    let (lent, written) = ram.into_parts();
    let mut machine = lent.give_back(Pages::list(&written)).unwrap();
    assert_eq!(machine.send_stop(), Ok((2, 0)));
    let mut arrival = Arrival::builder().memory(Memory::zeros(PAGES).unwrap()).base(BASE).begin().unwrap();
    let mut piece = [0; 4096];
    while let got @ 1.. = machine.send_take(&mut piece).unwrap() {
        arrival.feed(&piece[..got]).unwrap();
    }
    assert_eq!(bytes(&arrival.finish().unwrap(), 0x2ffe, 4), b"late");
}

#[test]
fn threads_share_it_until_they_are_done() {
    let ram = Arc::new(lent());
    let writers: Vec<_> = (0..4_u64)
        .map(|page| {
            let ram = Arc::clone(&ram);
            std::thread::spawn(move || ram.write_obj(page + 1, at(page * 4096)).unwrap())
        })
        .collect();
    for writer in writers {
        writer.join().unwrap();
    }
    let (lent, written) = Arc::into_inner(ram).expect("no thread has it any more").into_parts();
    assert_eq!(written, [0, 1, 2, 3]);
    let machine = lent.give_back(Pages::list(&written)).unwrap();
    assert_eq!((bytes(&machine, 0, 1), bytes(&machine, 3 * 4096, 1)), (vec![1], vec![4]));
}

#[test]
fn it_can_be_printed() {
    assert!(format!("{:?}", lent()).starts_with("GuestRam { region: RamRegion"));
}
