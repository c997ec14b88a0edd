//! Who has what: what is refused comes back, what is dropped is freed once, whatever the machine does at the time. Under valgrind these
//! tests show what leaks, or is used after it was freed.

mod common;
use common::{CARD, bytes, made};
use std::ptr::NonNull;
use std::thread;
use vmig::{Arrival, ArrivalBuilder, Call, Device, Error, Image, Lent, Machine, MachineBuilder, Memory, Pages, Refused, SyncError};

/// A machine with RAM and a disk of its caller's, whose first bytes are 7 and 8.
fn over_mine() -> Machine {
    let mut memory = Memory::zeros(4).unwrap();
    let mut image = Image::zeros(2).unwrap();
    (memory[0], image[0]) = (7, 8);
    let builder = Machine::builder().memory(memory).base(0x1_0000).device(Device::disk(2)).image(image);
    builder.device(Device::Console).build().unwrap()
}

#[test]
fn a_refused_setup_gives_back_what_it_was_given() {
    let mut memory = Memory::zeros(1).unwrap();
    let mut image = Image::zeros(2).unwrap();
    (memory[4095], image[1023]) = (1, 2);
    let builder = Machine::builder().memory(memory).device(Device::disk(3)).image(image);
    let refused = builder.build().unwrap_err();
    assert_eq!(refused.error, Error::BadImages);
    let (memory, mut images) = {
        let parts = refused.into_value().into_parts();
        (parts.memory.unwrap(), parts.images)
    };
    assert_eq!((memory[4095], images[0][1023], images[0].sectors()), (1, 2, 2));

    // What came back can be used again.
    let machine = Machine::builder().memory(memory).device(Device::disk(2)).image(images.remove(0)).build().unwrap();
    assert_eq!(machine.into_parts().memory.unwrap()[4095], 1);
}

#[test]
fn a_refused_setup_can_be_mended() {
    let refused = Machine::builder().memory(Memory::zeros(1).unwrap()).build().unwrap_err();
    assert_eq!(refused.error, Error::BadShape);
    assert_eq!(refused.into_value().device(Device::Console).build().unwrap().pages(), 1);
}

#[test]
fn a_refusal_in_a_box_still_has_the_machine() {
    fn lent(machine: Machine) -> Result<Lent, Box<dyn std::error::Error + Send + Sync>> {
        Ok(machine.lend()?)
    }
    let mut machine = made(&[Device::Console]);
    machine.write_ram(0, b"guest").unwrap();
    let error = lent(machine).unwrap_err();
    assert_eq!(error.source().unwrap().downcast_ref::<Error>(), Some(&Error::NotYours));
    let mut refused: Box<Refused<Machine>> = error.downcast().unwrap();
    assert_eq!(bytes(refused.value_mut(), 0, 5), b"guest");
}

/// What a `?` needs of an error, to become one of the crate anyhow or of another thread.
#[test]
fn each_error_is_one_of_all_threads() {
    fn is_error<E: std::error::Error + Send + Sync + 'static>() {}
    is_error::<Error>();
    is_error::<SyncError>();
    is_error::<Refused<Machine>>();
    is_error::<Refused<Lent>>();
    is_error::<Refused<Arrival>>();
    is_error::<Refused<MachineBuilder>>();
    is_error::<Refused<ArrivalBuilder>>();
    is_error::<Refused<Call>>();
    let refused = made(&[Device::Console]).lend().map(drop).unwrap_err();
    let told = thread::spawn(move || refused.to_string()).join().unwrap();
    assert_eq!(told, Error::NotYours.to_string());
}

#[test]
fn a_freed_machine_gives_back_what_was_mine() {
    let mut machine = over_mine();
    machine.write_ram(0x1_0001, &[9]).unwrap();
    assert_eq!((machine.images(), made(&[Device::disk(1)]).images()), (1, 0));
    let parts = machine.into_parts();
    assert_eq!((&parts.memory.unwrap()[..3], &parts.images[0][..2]), (&[7, 9, 0][..], &[8, 0][..]));
    let parts = made(&[Device::disk(1)]).into_parts();
    assert!(parts.memory.is_none() && parts.images.is_empty());
}

#[test]
fn a_machine_is_dropped_while_it_is_idle() {
    drop(over_mine());
    drop(made(&[CARD, Device::disk(1), Device::Console, Device::Entropy]));
}

#[test]
fn a_machine_is_dropped_while_its_ram_is_lent() {
    let mut lent = over_mine().lend().unwrap();
    lent.ram_mut()[0] = 1;
    drop(lent);
}

#[test]
fn a_machine_is_dropped_while_it_is_sent() {
    let mut machine = over_mine();
    machine.send_begin().unwrap();
    assert_eq!(machine.send_some(2), Ok(true));
    drop(machine);
}

#[test]
fn a_machine_is_dropped_while_it_is_sent_and_lent() {
    let mut machine = over_mine();
    machine.send_begin().unwrap();
    let mut lent = machine.lend().unwrap();
    assert_eq!(lent.send_take(&mut [0; 64]), Ok(47));
    drop(lent);
}

#[test]
fn a_machine_is_dropped_after_it_was_stopped() {
    let mut machine = over_mine();
    machine.send_begin().unwrap();
    assert_eq!(machine.send_stop(), Ok((4, 2)));
    let parts = machine.into_parts();
    assert_eq!((parts.memory.unwrap()[0], parts.images[0][0]), (7, 8));
}

/// An arrival into memory of the caller, to which the header of a stream came (16 + 30 + 1 bytes), and its first page.
fn half_arrived() -> Arrival {
    let stream = over_mine().save().unwrap();
    let builder = Arrival::builder().memory(Memory::zeros(4).unwrap()).image(Image::zeros(2).unwrap()).base(0x1_0000);
    let mut arrival = builder.begin().unwrap();
    assert_eq!(arrival.feed(&stream[..47 + 5 + 4096]), Ok(false));
    arrival
}

#[test]
fn a_machine_is_dropped_while_it_arrives() {
    drop(half_arrived());
    drop(Arrival::builder().most_pages(1).begin().unwrap());
}

#[test]
fn an_arrival_that_is_given_up_gives_back_what_was_mine() {
    let parts = half_arrived().into_parts();
    assert_eq!((parts.memory.unwrap()[0], parts.images.len()), (7, 1));
}

#[test]
fn an_arrival_that_failed_is_dropped_or_given_up() {
    for drops in [true, false] {
        let mut arrival = half_arrived();
        assert!(arrival.feed(&[0xff; 5000]).is_err());
        let refused = arrival.finish().unwrap_err();
        if drops {
            drop(refused);
        } else {
            assert_eq!(refused.into_value().into_parts().memory.unwrap()[0], 7);
        }
    }
}

#[test]
fn a_machine_goes_to_other_threads() {
    let machine = over_mine();
    let lent = thread::spawn(move || machine.lend().unwrap()).join().unwrap();
    let mut machine = thread::spawn(move || lent.give_back(Pages::NONE).unwrap()).join().unwrap();
    let memory = thread::spawn(move || {
        machine.write_ram(0x1_0002, b"x").unwrap();
        machine.into_parts().memory.unwrap()
    });
    assert_eq!(&memory.join().unwrap()[..3], b"\x07\0x");
    let arrival = thread::spawn(half_arrived).join().unwrap();
    thread::spawn(move || drop(arrival)).join().unwrap();
}

#[test]
fn a_thread_that_panics_frees_its_machine() {
    let machine = over_mine();
    let ended = thread::spawn(move || {
        let lent = machine.lend().unwrap();
        assert_eq!(lent.ram()[0], 0, "this thread is to panic");
    });
    assert!(ended.join().is_err());
}

#[test]
fn machines_are_swapped_and_replaced() {
    let (mut one, mut two) = (over_mine(), made(&[Device::Console]));
    std::mem::swap(&mut one, &mut two);
    assert_eq!((one.base(), two.base()), (0, 0x1_0000));
    one = over_mine();
    two = std::mem::replace(&mut one, made(&[CARD]));
    assert_eq!((one.base(), two.base()), (0, 0x1_0000));
}

#[test]
fn memory_that_the_caller_named_stays_the_callers() {
    let mut ram = vec![0; 2 * 4096].into_boxed_slice();
    let mut disk = vec![5; 512].into_boxed_slice();
    let (at, len, sectors) = (NonNull::from(&mut ram[..]).cast(), ram.len(), NonNull::from(&mut disk[..]).cast());
    // SAFETY: the bytes outlive the machine, and nothing touches them before it is dropped.
    let (memory, image) = unsafe { (Memory::from_raw_parts(at, len), Image::from_raw_parts(sectors, 512)) };
    let mut machine = Machine::builder().memory(memory).device(Device::disk(1)).image(image).build().unwrap();
    machine.write_ram(4096, b"written").unwrap();
    machine.sync_all().unwrap();
    drop(machine);
    assert_eq!((&ram[4096..4103], disk[511]), (&b"written"[..], 5));
}

#[test]
fn a_guest_writes_through_the_pointer_of_a_loan() {
    let mut lent = over_mine().lend().unwrap();
    let at = lent.as_mut_ptr();
    // SAFETY: RAM is lent and has 4 pages, and no slice of it is in use.
    unsafe { at.add(4096).write(3) };
    let machine = lent.give_back((&[1][..]).into()).unwrap();
    assert_eq!(bytes(&machine, 0x1_1000, 1), [3]);
}

#[test]
fn ram_stays_where_it_lies() {
    let memory = Memory::zeros(2).unwrap();
    let at = memory.as_ptr();
    let mut machine = Machine::builder().memory(memory).device(Device::Console).build().unwrap();
    for _ in 0..2 {
        let mut lent = machine.lend().unwrap();
        assert_eq!((lent.as_mut_ptr().cast_const(), at.addr() % 4096), (at, 0));
        machine = lent.give_back(Pages::NONE).unwrap();
    }
    assert_eq!(machine.into_parts().memory.unwrap().as_ptr(), at);
}

#[test]
fn each_type_can_be_printed() {
    let machine = over_mine();
    let printed = [
        format!("{machine:?}"),
        format!("{:?}", Machine::builder().memory(Memory::zeros(1).unwrap())),
        format!("{:?}", Arrival::builder().image(Image::zeros(1).unwrap())),
        format!("{:?}", half_arrived()),
        format!("{:?}", machine.lend().unwrap()),
        format!("{:?} {:?}", Pages::bitmap_of(1, 2, &[3]), vmig::Next::Idle),
        format!("{:?}", vmig::Parts::default()),
    ];
    assert!(printed.iter().all(|text| text.len() < 2000 && !text.is_empty()), "{printed:?}");
}
