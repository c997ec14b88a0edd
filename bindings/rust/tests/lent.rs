//! Machines whose RAM is lent: what is done meanwhile, and how the pages are named that the guest or the library wrote.

mod common;
use common::{CARD, INTERRUPT_ACK, QUEUE_SEL, Ring, STATUS, bytes, made, ready, work};
use vmig::{Arrival, Device, Due, Error, Lent, Machine, Memory, Next, Pages, Pick, State};

const DEVICES: [Device; 3] = [Device::Entropy, Device::Console, Device::disk(2)];

/// A machine of 16 pages of this program's, which logs what it writes.
fn logged() -> Machine {
    Machine::builder().memory(Memory::zeros(16).unwrap()).devices(&DEVICES).log_written().build().unwrap()
}

fn back(lent: Lent) -> Machine {
    lent.give_back(Pages::NONE).unwrap()
}

#[test]
fn a_driver_is_served_while_ram_is_lent() {
    let mut machine = logged();
    let mut ring = Ring::new(0, 0, 0x1000);
    ready(&mut machine, 0, &[&ring]);
    ring.publish(&mut machine, &[(0x8000, 8, true)]);
    let mut lent = machine.lend().unwrap();
    assert_eq!(lent.next(Pick::default()), Ok(Next::Idle));
    assert_eq!((lent.input(0, b"12345678"), lent.room(0)), (Ok(8), Ok(4088)));
    assert_eq!(lent.next(Pick::default()), Ok(Next::Work(Pick { dev: 0, pick: 0 })));
    let mut machine = back(lent);
    assert_eq!(work(&mut machine), ["Completed(8)"]);
    let mut lent = machine.lend().unwrap();
    assert_eq!((&lent.ram()[0x8000..0x8008], lent.lines()), (&b"12345678"[..], 1));
    assert_eq!(lent.write_register(0, INTERRUPT_ACK, 4, 1), Ok(None));
    assert_eq!((lent.lines(), lent.read_register(0, STATUS, 4)), (0, Ok(15)));
    assert_eq!((lent.reset(), lent.read_register(0, STATUS, 4), lent.room(0)), (Ok(()), Ok(0), Ok(4096)));
}

#[test]
fn what_is_done_while_ram_is_lent_is_there_afterwards() {
    let mut lent = logged().lend().unwrap();
    assert_eq!((lent.write_register(0, QUEUE_SEL, 4, 3), lent.resize(1, 100, 50)), (Ok(None), Ok(())));
    assert_eq!((lent.input(0, b"lost"), lent.drop_input(0), lent.input(1, b"text")), (Ok(4), Ok(()), Ok(4)));
    assert_eq!((lent.sync(2).is_ok(), lent.is_lost(2), lent.sync_failed(2), lent.is_lost(2)), (true, false, Ok(()), true));
    assert_eq!((lent.pages(), lent.base(), lent.state(), lent.devices()), (16, 0, State::Idle, Ok(DEVICES.to_vec())));
    assert_eq!((lent.message_len(), lent.is_large(), lent.images(), lent.rounds(), lent.fault()), (65_536, false, 0, 0, None));
    let machine = back(lent);
    assert_eq!((machine.room(0), machine.room(1), machine.is_lost(2)), (Ok(4096), Ok(4092), true));
    assert_eq!((machine.read_register(1, 0x100, 2), machine.read_register(1, 0x102, 2)), (Ok(100), Ok(50)));
}

#[test]
fn a_lent_machine_refuses_what_it_would_refuse_otherwise() {
    let mut lent = logged().lend().unwrap();
    assert_eq!((lent.read_register(3, 0, 4), lent.write_register(3, 0, 4, 0)), (Err(Error::NoDevice), Err(Error::NoDevice)));
    assert_eq!(
        (lent.input(2, b"x"), lent.resize(0, 1, 1), lent.drop_input(2)),
        (Err(Error::WrongKind), Err(Error::WrongKind), Err(Error::WrongKind))
    );
    assert_eq!((lent.room(3), lent.sync_failed(0)), (Err(Error::NoDevice), Err(Error::WrongKind)));
    assert_eq!((lent.send_left(), lent.send_take(&mut [0])), (Err(Error::NotSending), Err(Error::NotSending)));
}

#[test]
fn a_round_is_sent_while_ram_is_lent() {
    let mut machine = logged();
    let mut arrival = Arrival::builder().memory(Memory::zeros(16).unwrap()).devices(&DEVICES).most_sectors(2).begin().unwrap();
    assert_eq!(machine.send_next(), Err(Error::NotSending));
    machine.send_begin().unwrap();
    assert_eq!(machine.send_next(), Ok(Due::Page(0)));
    let mut lent = machine.lend().unwrap();
    lent.ram_mut()[0x2ffe..0x3001].copy_from_slice(b"abc");
    let mut page = [9; 4096];
    assert_eq!(
        (lent.send_some(1), lent.send_page(1, &page), lent.send_page(16, &page)),
        (Err(Error::Lent), Err(Error::NotNext), Err(Error::OutOfRam))
    );
    assert_eq!((lent.copy_page(16, &mut page), page), (Err(Error::OutOfRam), [9; 4096]));
    for number in 0..16 {
        assert_eq!(lent.send_next(), Ok(Due::Page(number)));
        lent.copy_page(number, &mut page).unwrap();
        assert_eq!(lent.send_page(number, &page), Ok(()));
    }
    assert_eq!((lent.send_next(), lent.send_round()), (Ok(Due::Sectors), Ok(false)));
    assert_eq!((lent.send_some(1), lent.send_some(5)), (Ok(true), Ok(false)));
    lent.ram_mut()[0x2fff] = b'z';
    assert_eq!((lent.mark(Pages::list(&[2])), lent.send_left().unwrap().dirty_pages), (Ok(()), 1));
    assert_eq!((lent.send_next(), lent.send_round(), lent.send_next()), (Ok(Due::Nothing), Ok(true), Ok(Due::Page(2))));
    lent.copy_page(2, &mut page).unwrap();
    assert_eq!(lent.send_page(2, &page), Ok(()));
    let mut machine = lent.give_back(Pages::list(&[2])).unwrap();
    assert_eq!(machine.send_stop(), Ok((1, 0)));
    let mut stream = vec![0; 1 << 20];
    let len = machine.send_take(&mut stream).unwrap();
    assert_eq!(arrival.feed(&stream[..len]), Ok(true));
    assert_eq!(bytes(&arrival.finish().unwrap(), 0x2ffe, 3), b"azc");
}

#[test]
fn a_move_goes_on_while_ram_is_lent() {
    let mut machine = logged();
    let mut arrival = Arrival::builder().memory(Memory::zeros(16).unwrap()).devices(&DEVICES).most_sectors(2).begin().unwrap();
    machine.send_begin().unwrap();
    while machine.send_some(4).unwrap() {}
    let mut lent = machine.lend().unwrap();
    lent.ram_mut()[0x6000] = 8;
    lent.write_register(0, QUEUE_SEL, 4, 3).unwrap();
    lent.input(1, b"typed").unwrap();
    let mut stream = vec![0; 1 << 20];
    let mut len = lent.send_take(&mut stream).unwrap();
    assert_eq!((lent.state(), lent.send_left().unwrap().dirty_pages, len > 1024), (State::Sending, 0, true));
    assert_eq!(lent.rounds(), 1);
    let mut machine = back(lent);
    assert_eq!(machine.mark(Pages::list(&[6])), Ok(()));
    assert_eq!((machine.send_left().unwrap().dirty_pages, machine.send_stop()), (1, Ok((1, 0))));
    len += machine.send_take(&mut stream[len..]).unwrap();
    assert_eq!(arrival.feed(&stream[..len]), Ok(true));
    let arrived = arrival.finish().unwrap();
    machine.send_abort().unwrap();
    assert!(arrived.save().unwrap() == machine.save().unwrap());
    assert_eq!((bytes(&arrived, 0x6000, 1), arrived.room(1)), (vec![8], Ok(4091)));
}

#[test]
fn pages_that_are_marked_are_sent_anew() {
    for (pages, dirty) in [
        (Pages::NONE, 0),
        (Pages::list(&[6, 1, 6]), 2),
        (Pages::bitmap_of(4, 3, &[0b1101]), 2),
        (Pages::bitmap(&[1 << 2]).and_list(&[3, 4]), 3),
        (Pages::ALL, 16),
    ] {
        let mut machine = made(&[CARD]);
        machine.send_begin().unwrap();
        while machine.send_some(5).unwrap() {}
        assert_eq!(machine.mark(pages), Ok(()));
        assert_eq!(machine.send_left().unwrap().dirty_pages, dirty, "{pages:?}");
    }
}

#[test]
fn marks_that_are_refused_name_nothing() {
    let mut machine = made(&[CARD]);
    machine.send_begin().unwrap();
    while machine.send_some(5).unwrap() {}
    assert_eq!(machine.mark(Pages::list(&[1, 16])), Err(Error::OutOfRam));
    assert_eq!(machine.mark(Pages::bitmap_of(0, 65, &[0])), Err(Error::TooSmall));
    assert_eq!(machine.mark(Pages::bitmap_of(8, 9, &[1])), Err(Error::OutOfRam));
    assert_eq!(machine.send_left().unwrap().dirty_pages, 0);
    machine.send_stop().unwrap();
    assert_eq!(machine.mark(Pages::ALL), Err(Error::Stopped));
}

#[test]
fn pages_that_the_library_wrote_are_handed_out_once() {
    let mut machine = logged();
    let mut ring = Ring::new(0, 0, 0x1000);
    assert_eq!(machine.written(), Ok(vec![]));
    ready(&mut machine, 0, &[&ring]);
    ring.publish(&mut machine, &[(0x8ffc, 8, true)]);
    assert_eq!(machine.written(), Ok(vec![1, 2]));
    machine.input(0, b"12345678").unwrap();
    assert_eq!(work(&mut machine), ["Completed(8)"]);
    machine.mark(Pages::ALL).unwrap();
    let mut lent = machine.lend().unwrap();
    lent.ram_mut()[0] = 1;
    let mut two = [99; 2];
    assert_eq!((lent.hand_out(&mut two), two), (Ok(2), [3, 8]));
    assert_eq!((lent.hand_out(&mut two), two), (Ok(1), [9, 8]));
    assert_eq!((lent.written(), lent.is_logged()), (Ok(vec![]), true));
    assert_eq!(back(lent).written(), Ok(vec![]));
}

#[test]
fn many_pages_are_handed_out() {
    let mut machine = Machine::builder().pages(200).device(CARD).log_written().build().unwrap();
    for page in (0..200).rev().filter(|page| page % 3 != 0) {
        machine.write_ram(4096 * page, &[0]).unwrap();
    }
    let wanted: Vec<u32> = (0..200).filter(|page| page % 3 != 0).collect();
    assert_eq!((machine.written(), machine.written()), (Ok(wanted), Ok(vec![])));
}

#[test]
fn what_arrives_is_in_no_log() {
    let mut machine = logged();
    machine.write_ram(0, b"guest").unwrap();
    let limits = || Arrival::builder().most_pages(16).most_sectors(2);
    for (builder, first, then) in
        [(limits().log_written(), Ok(vec![]), Ok(vec![3])), (limits(), Err(Error::NotKnown), Err(Error::NotKnown))]
    {
        let mut arrival = builder.begin().unwrap();
        assert_eq!(arrival.feed(&machine.save().unwrap()), Ok(true));
        let mut arrived = arrival.finish().unwrap();
        assert_eq!((arrived.written(), arrived.is_logged()), (first.clone(), first.is_ok()));
        arrived.write_ram(0x3000, &[1]).unwrap();
        assert_eq!(arrived.written(), then);
    }
    assert_eq!(made(&[CARD]).hand_out(&mut [0]), Err(Error::NotKnown));
}

/// A host that keeps what it made of each page, as a translator of code does. The pages that it hears of it makes anew.
#[test]
fn a_translation_is_wrong_where_a_page_is_left_out() {
    for left_out in [None, Some(3), Some(8), Some(9)] {
        let mut machine = logged();
        let mut ring = Ring::new(0, 0, 0x1000);
        ready(&mut machine, 0, &[&ring]);
        ring.publish(&mut machine, &[(0x8ffc, 8, true)]);
        machine.written().unwrap();
        let mut made_of: Vec<_> = (0..16).map(|page| bytes(&machine, 4096 * page, 4096)).collect();
        machine.input(0, b"12345678").unwrap();
        work(&mut machine);
        for page in machine.written().unwrap().into_iter().filter(|page| Some(*page) != left_out) {
            made_of[page as usize] = bytes(&machine, 4096 * u64::from(page), 4096);
        }
        let wrong: Vec<_> = (0..16).filter(|page| made_of[*page as usize] != bytes(&machine, 4096 * u64::from(*page), 4096)).collect();
        assert_eq!(wrong, left_out.into_iter().collect::<Vec<_>>());
    }
}
