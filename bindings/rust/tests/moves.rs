//! Moves: what is due and dirty, what arrives, and that it continues as the machine that was sent.

mod common;
use common::{CARD, Ring, bytes, made, ready, work};
use vmig::{Arrival, Device, Error, Image, Machine, Memory, Pages, State, UNSEEN};

/// All that waits goes to the other side. Whether the stream is whole.
fn carry(machine: &mut Machine, arrival: &mut Arrival) -> bool {
    let mut piece = [0; 1000];
    loop {
        match machine.send_take(&mut piece).unwrap() {
            0 => return arrival.is_whole(),
            got => assert_eq!(arrival.feed(&piece[..got]), Ok(arrival.is_whole())),
        }
    }
}

#[test]
fn a_machine_is_sent_in_rounds() {
    let mut machine = made(&[Device::disk(3), CARD]);
    let mut arrival = Arrival::builder().most_pages(16).most_sectors(3).begin().unwrap();
    assert_eq!(machine.rounds(), 0);
    machine.send_begin().unwrap();
    let left = machine.send_left().unwrap();
    assert_eq!((left.due_pages, left.due_sectors, left.dirty_pages), (16, 3, 0));
    assert_eq!((machine.send_some(16), machine.send_round(), machine.rounds()), (Ok(true), Ok(false), 1));
    assert_eq!((machine.send_some(3), machine.send_round(), machine.rounds()), (Ok(false), Ok(true), 2));
    assert_eq!(machine.fault(), None);
    machine.write_ram(0x3000, b"a").unwrap();
    machine.write_ram(0x5fff, b"bc").unwrap();
    let left = machine.send_left().unwrap();
    assert_eq!((left.due_pages, left.due_sectors, left.dirty_pages, left.dirty_sectors), (0, 0, 3, 0));
    assert!(!carry(&mut machine, &mut arrival));
    assert_eq!(arrival.rounds(), 1);

    assert_eq!((machine.send_some(1), machine.send_round()), (Ok(false), Ok(true)));
    assert_eq!(machine.send_left().unwrap().due_pages, 3);
    assert_ne!(machine.send_left().unwrap().stop_bytes, 0);
    assert_eq!((machine.send_stop(), machine.send_left().unwrap().stop_bytes), (Ok((3, 0)), 0));
    assert!(carry(&mut machine, &mut arrival));
    assert_eq!((arrival.rounds(), arrival.fault(), arrival.announced().unwrap().unwrap().pages), (2, None, 16));
    let arrived = arrival.finish().unwrap();
    assert_eq!((bytes(&arrived, 0x5fff, 2), arrived.devices()), (b"bc".to_vec(), machine.devices()));
}

#[test]
fn a_machine_that_arrived_is_the_one_that_was_saved() {
    let machine = made(&[Device::Console, Device::Entropy]);
    let stream = machine.save().unwrap();
    assert_eq!(machine.saved_len(), Ok(stream.len()));
    for piece in [1, 3, 4096, stream.len()] {
        let mut arrival = Arrival::builder().most_pages(16).begin().unwrap();
        let ends: Vec<_> = stream.chunks(piece).map(|piece| arrival.feed(piece).unwrap()).collect();
        assert_eq!(ends.iter().position(|is_whole| *is_whole), Some(ends.len() - 1));
        assert!(arrival.finish().unwrap().save().unwrap() == stream);
    }
}

#[test]
fn a_machine_is_saved_into_a_buffer() {
    let mut machine = made(&[Device::Console]);
    let len = machine.saved_len().unwrap();
    // A page of zeros takes 5 bytes of a stream, and another one 4,101.
    machine.write_ram(0x3fff, b"ab").unwrap();
    assert_eq!(machine.saved_len(), Ok(len + 2 * 4096));
    let mut buf = vec![9; len + 2 * 4096 + 1];
    assert_eq!(machine.save_into(&mut buf[..len + 2 * 4096 - 1]), Err(Error::TooSmall));
    assert!(buf.iter().all(|byte| *byte == 9));
    assert_eq!(machine.save_into(&mut buf), Ok(len + 2 * 4096));
    assert_eq!((buf.pop(), machine.save()), (Some(9), Ok(buf)));
    machine.send_begin().unwrap();
    assert_eq!((machine.saved_len(), machine.save_into(&mut [])), (Err(Error::Sending), Err(Error::Sending)));
}

#[test]
fn a_request_is_made_before_a_move_and_served_after_it() {
    let mut machine = made(&[Device::Entropy]);
    let mut ring = Ring::new(0, 0, 0x1000);
    ready(&mut machine, 0, &[&ring]);
    ring.publish(&mut machine, &[(0x8000, 8, true)]);
    let mut arrival = Arrival::builder().most_pages(16).device(Device::Entropy).begin().unwrap();
    machine.send_begin().unwrap();
    machine.send_stop().unwrap();
    assert!(carry(&mut machine, &mut arrival));
    let mut arrived = arrival.finish().unwrap();
    arrived.input(0, b"12345678").unwrap();
    assert_eq!((work(&mut arrived), arrived.lines()), (vec!["Completed(8)".to_owned()], 1));
    assert_eq!((bytes(&arrived, 0x8000, 8), ring.used(&arrived, 0)), (b"12345678".to_vec(), (0, 8)));
}

#[test]
fn a_move_that_is_given_up_leaves_the_machine() {
    let mut machine = made(&[Device::Console]);
    machine.send_begin().unwrap();
    machine.send_stop().unwrap();
    assert_eq!(machine.write_ram(0, b"x"), Err(Error::Stopped));
    machine.send_abort().unwrap();
    assert_eq!((machine.write_ram(0, b"x"), machine.state()), (Ok(()), State::Idle));
    assert_eq!(machine.send_take(&mut [0; 9]), Err(Error::NotSending));
    assert!(machine.send_begin().is_ok());
}

#[test]
fn a_machine_arrives_within_limits_in_memory_and_an_image_of_mine() {
    let base = 0x8000_0000;
    let mut image = Image::zeros(2).unwrap();
    image[1000] = 6;
    let builder = Machine::builder().pages(4).base(base).device(Device::disk(2)).image(image);
    let mut machine = builder.build().unwrap();
    machine.write_ram(base + 0x2000, b"here").unwrap();
    let builder = Arrival::builder().memory(Memory::zeros(4).unwrap()).image(Image::zeros(2).unwrap());
    let mut arrival = builder.base(base).device(Device::disk(2)).begin().unwrap();
    assert_eq!(arrival.feed(&machine.save().unwrap()), Ok(true));
    let mut arrived = arrival.finish().unwrap();
    arrived.sync_all().unwrap();
    assert_eq!((arrived.base(), bytes(&arrived, base + 0x2000, 4)), (base, b"here".to_vec()));
    let parts = arrived.into_parts();
    assert_eq!((&parts.memory.unwrap()[0x2000..0x2004], parts.images[0][1000]), (&b"here"[..], 6));
}

#[test]
fn images_are_their_own_limit_and_disks_of_the_library_are_not() {
    let stream = made(&[Device::disk(2)]).save().unwrap();
    let limits = || Arrival::builder().most_pages(16);
    assert_eq!(limits().most_sectors(1).begin().unwrap().feed(&stream), Err(Error::StreamTooLarge));
    assert_eq!(limits().most_sectors(2).begin().unwrap().feed(&stream), Ok(true));
    assert_eq!(limits().image(Image::zeros(2).unwrap()).begin().unwrap().feed(&stream), Ok(true));
    assert_eq!(limits().image(Image::zeros(1).unwrap()).begin().unwrap().feed(&stream), Err(Error::StreamMismatch));
}

#[test]
fn pages_that_are_named_are_sent_anew() {
    for (pages, dirty) in [
        (Pages::NONE, 0),
        (Pages::list(&[6, 1, 6]), 2),
        (Pages::bitmap(&[1 << 6 | 1]), 2),
        (Pages::bitmap_of(4, 3, &[0b1101]), 2),
        (Pages::bitmap(&[1 << 2]).and_list(&[3, 4]), 3),
        (Pages::ALL, 16),
    ] {
        let mut machine = Machine::builder().memory(Memory::zeros(16).unwrap()).device(CARD).build().unwrap();
        machine.send_begin().unwrap();
        while machine.send_some(5).unwrap() {}
        let machine = machine.lend().unwrap().give_back(pages).unwrap();
        assert_eq!(machine.send_left().unwrap().dirty_pages, dirty, "{pages:?}");
    }
}

#[test]
fn what_a_guest_wrote_in_lent_ram_arrives() {
    let mut machine = Machine::builder().memory(Memory::zeros(16).unwrap()).device(CARD).build().unwrap();
    let mut arrival = Arrival::builder().memory(Memory::zeros(16).unwrap()).begin().unwrap();
    machine.send_begin().unwrap();
    while machine.send_some(4).unwrap() {}
    let mut lent = machine.lend().unwrap();
    lent.ram_mut()[0x6000] = 8;
    assert_eq!((lent.base(), lent.lines(), lent.devices()), (0, 0, Ok(vec![CARD])));
    let mut machine = lent.give_back(Pages::list(&[6])).unwrap();
    assert_eq!(machine.send_stop(), Ok((1, 0)));
    assert!(carry(&mut machine, &mut arrival));
    let arrived = arrival.finish().unwrap().lend().unwrap();
    assert_eq!(arrived.ram()[0x6000], 8);
}

#[test]
fn ram_is_mirrored() {
    let mut machine = made(&[Device::Entropy]);
    let (mut ram, mut seen) = (vec![0; 16 * 4096], vec![UNSEEN; 16]);
    machine.write_ram(0x2000, b"theirs").unwrap();
    assert_eq!((machine.pull(&mut ram, &mut seen), &ram[0x2000..0x2006]), (Ok(16), &b"theirs"[..]));
    assert_eq!(machine.pull(&mut ram, &mut seen), Ok(0));
    ram[0x3000..0x3004].copy_from_slice(b"mine");
    machine.push(Pages::list(&[3]), &ram, &mut seen).unwrap();
    assert_eq!((bytes(&machine, 0x3000, 4), machine.pull(&mut ram, &mut seen)), (b"mine".to_vec(), Ok(0)));
    machine.write_ram(0x4000, b"again").unwrap();
    assert_eq!((machine.pull(&mut ram, &mut seen), &ram[0x4000..0x4005]), (Ok(1), &b"again"[..]));
}
