//! Disks outside: what they are asked, what they answer, and what waits for that. The numbers of requests and features are those of VIRTIO 1.2, 5.2.

mod common;
use common::{QUEUE_READY, Ring, STATUS, bytes, ready, request, work, write};
use vmig::{Arrival, Call, Device, DiskWork, Error, Machine, Memory, Next, Pages, Pick, State, announced};

const FIRST: u64 = 0x1000;
const BUFFER: u64 = 0x8000;
const VERDICT: u64 = BUFFER + 0x4000;
const FLUSH_FEATURE: u32 = 1 << 9;

/// The types of requests.
const IN: u32 = 0;
const OUT: u32 = 1;
const FLUSH: u32 = 4;

/// A machine with one disk outside of 64 sectors, whose driver accepted these features, and its queue.
fn made(features: u32) -> (Machine, Ring) {
    let mut machine = common::made(&[Device::outside(64)]);
    let ring = Ring::new(0, 0, FIRST);
    ready(&mut machine, features, &[&ring]);
    (machine, ring)
}

/// The driver asks for sectors from one on, with the header of its request and its verdict at places of their own.
fn ask(machine: &mut Machine, ring: &mut Ring, kind: u32, sector: u64, count: u32) {
    let header = BUFFER + 0x5000 + 16 * sector;
    request(machine, header, kind, sector);
    machine.write_ram(VERDICT + sector, &[0xff]).unwrap();
    let verdict = (VERDICT + sector, 1, true);
    if count == 0 {
        ring.publish(machine, &[(header, 16, false), verdict]);
    } else {
        ring.publish(machine, &[(header, 16, false), (BUFFER + 512 * sector, 512 * count, kind == IN), verdict]);
    }
    assert_eq!(work(machine), ["Taken"]);
}

fn call(machine: &mut Machine, buf: &mut [u8]) -> Call {
    machine.disk_call(buf).unwrap().expect("a request waits")
}

fn out(machine: &Machine) -> usize {
    machine.calls_out().unwrap().len()
}

#[test]
fn a_read_is_given_its_bytes_in_parts() {
    let (mut machine, mut ring) = made(0);
    let mut buf = [0; 1024];
    ask(&mut machine, &mut ring, IN, 3, 3);
    let first = call(&mut machine, &mut buf);
    assert_eq!((first.dev(), first.what(), first.first(), first.count(), first.len()), (0, DiskWork::Read, 3, 2, 1024));
    assert!(!first.is_durable() && !first.is_empty());
    assert_eq!((machine.calls_out().unwrap(), machine.disk_call(&mut buf).unwrap()), (vec![first], None));
    let first = machine.calls_out().unwrap().remove(0);
    machine.disk_done(first, 1, &[5; 512]).unwrap();
    assert_eq!((out(&machine), work(&mut machine)), (0, vec![]));

    let second = call(&mut machine, &mut buf);
    assert_eq!((second.first(), second.count()), (4, 2));
    machine.disk_done(second, 2, &[6; 1024]).unwrap();
    assert_eq!(work(&mut machine), ["Completed(1537)"]);
    assert_eq!(bytes(&machine, BUFFER + 3 * 512, 1536), [[5; 512], [6; 512], [6; 512]].concat());
    assert_eq!(bytes(&machine, VERDICT + 3, 1), [0]);
}

#[test]
fn a_write_hands_out_its_bytes() {
    for (features, is_durable) in [(0, true), (FLUSH_FEATURE, false)] {
        let (mut machine, mut ring) = made(features);
        let mut buf = [0; 4096];
        machine.write_ram(BUFFER, &[[7; 512], [8; 512]].concat()).unwrap();
        ask(&mut machine, &mut ring, OUT, 0, 2);
        let written = call(&mut machine, &mut buf);
        assert_eq!((written.what(), written.len(), written.is_durable()), (DiskWork::Write, 1024, is_durable));
        assert_eq!(buf[..1024], [[7; 512], [8; 512]].concat());
        machine.disk_done(written, 2, &[]).unwrap();
        assert_eq!((work(&mut machine), bytes(&machine, VERDICT, 1)), (vec!["Completed(1)".to_owned()], vec![0]));
    }
}

#[test]
fn a_flush_has_no_sectors() {
    let (mut machine, mut ring) = made(FLUSH_FEATURE);
    let mut buf = [0; 512];
    ask(&mut machine, &mut ring, FLUSH, 0, 0);
    let flush = call(&mut machine, &mut buf);
    assert_eq!((flush.what(), flush.first(), flush.count(), flush.len(), flush.is_empty()), (DiskWork::Flush, 0, 0, 0, true));
    machine.disk_done(flush, 0, &[]).unwrap();
    assert_eq!(work(&mut machine), ["Completed(1)"]);
}

#[test]
fn a_call_that_failed_is_an_error_of_the_guest() {
    let (mut machine, mut ring) = made(0);
    ask(&mut machine, &mut ring, OUT, 1, 1);
    let failed = call(&mut machine, &mut [0; 512]);
    machine.disk_failed(failed).unwrap();
    assert_eq!((work(&mut machine), bytes(&machine, VERDICT + 1, 1)), (vec!["Completed(1)".to_owned()], vec![1]));
}

#[test]
fn an_answer_that_does_not_fit_hands_the_call_back() {
    let (mut machine, mut ring) = made(0);
    let (mut other, _) = made(0);
    let mut buf = [0; 1024];
    assert_eq!(machine.disk_call(&mut [0; 511]).unwrap_err(), Error::TooSmall);
    ask(&mut machine, &mut ring, IN, 0, 2);
    let mut held = call(&mut machine, &mut buf);
    for (count, len) in [(0, 0), (1, 511), (2, 512), (2, 1025), (3, 1536)] {
        let refused = machine.disk_done(held, count, &vec![1; len]).unwrap_err();
        assert!([Error::TooSmall, Error::TooLong].contains(&refused.error), "{count} sectors, {len} bytes: {}", refused.error);
        held = refused.into_value();
    }
    let mut refused = other.disk_done(held, 2, &buf).unwrap_err();
    assert_eq!((refused.error, refused.value_mut().count()), (Error::NotOut, 2));
    let refused = other.disk_failed(refused.into_value()).unwrap_err();
    assert_eq!((refused.error, out(&machine), bytes(&machine, BUFFER, 4)), (Error::NotOut, 1, vec![0; 4]));
    machine.disk_done(refused.into_value(), 2, &[9; 1024]).unwrap();
    assert_eq!((out(&machine), bytes(&machine, BUFFER + 1020, 4)), (0, vec![9; 4]));
}

#[test]
fn overlapping_calls_wait_for_each_other() {
    let mut machine = Machine::builder().pages(16).device(Device::outside(64)).block(8).build().unwrap();
    let mut ring = Ring::new(0, 0, FIRST);
    ready(&mut machine, 0, &[&ring]);
    let mut buf = [0; 512];
    for sector in [0, 7, 8] {
        ask(&mut machine, &mut ring, OUT, sector, 1);
    }
    let (first, third) = (call(&mut machine, &mut buf), call(&mut machine, &mut buf));
    assert_eq!((first.first(), third.first()), (0, 8));
    assert!(machine.disk_call(&mut buf).unwrap().is_none(), "the second is in a block of the first");
    machine.disk_done(third, 1, &[]).unwrap();
    machine.disk_done(first, 1, &[]).unwrap();
    let second = call(&mut machine, &mut buf);
    assert_eq!(second.first(), 7);
    second.discard();
}

#[test]
fn resets_and_the_stop_wait_for_what_is_out() {
    let (mut machine, mut ring) = made(0);
    let mut buf = [0; 512];
    ask(&mut machine, &mut ring, IN, 0, 1);
    let held = call(&mut machine, &mut buf);
    assert_eq!(machine.write_register(0, STATUS, 4, 0), Err(Error::CallsOut));
    assert_eq!(machine.write_register(0, QUEUE_READY, 4, 0), Err(Error::CallsOut));
    assert_eq!((machine.reset(), machine.read_register(0, STATUS, 4)), (Err(Error::CallsOut), Ok(15)));
    machine.send_begin().unwrap();
    assert_eq!((machine.send_stop(), machine.state()), (Err(Error::CallsOut), State::Sending));
    machine.disk_done(held, 1, &[3; 512]).unwrap();
    machine.send_stop().unwrap();
    assert_eq!(machine.disk_call(&mut buf).unwrap_err(), Error::Stopped);
    machine.send_abort().unwrap();
    write(&mut machine, 0, STATUS, 0);
}

#[test]
fn a_machine_moves_with_requests_and_without_sectors() {
    let (mut machine, mut ring) = made(0);
    let mut buf = [0; 512];
    ask(&mut machine, &mut ring, IN, 5, 2);
    let part = call(&mut machine, &mut buf);
    machine.disk_done(part, 1, &[1; 512]).unwrap();
    let stream = machine.save().unwrap();
    let device = Device::outside(64);
    assert_eq!(announced(&stream).unwrap().expect("a whole header").devices, [device]);

    let mut none = Arrival::builder().most_pages(16).most_sectors(64).begin().unwrap();
    assert_eq!(none.feed(&stream), Err(Error::StreamBadVersion));
    let mut few = Arrival::builder().most_pages(16).most_outside(63).begin().unwrap();
    assert_eq!(few.feed(&stream), Err(Error::StreamTooLarge));
    for builder in [Arrival::builder().most_outside(64), Arrival::builder().device(device)] {
        let mut arrival = builder.most_pages(16).begin().unwrap();
        assert!(arrival.feed(&stream).unwrap());
        let mut moved = arrival.finish().unwrap();
        let rest = call(&mut moved, &mut buf);
        assert_eq!((rest.first(), rest.count()), (6, 1));
        moved.disk_done(rest, 1, &[2; 512]).unwrap();
        assert_eq!(
            (work(&mut moved), bytes(&moved, BUFFER + 5 * 512, 1024)),
            (vec!["Completed(1025)".to_owned()], [[1; 512], [2; 512]].concat())
        );
    }
}

/// A machine over memory, with a read and a write that are out.
fn two_out() -> (Machine, Call, Call) {
    let mut machine = Machine::builder().memory(Memory::zeros(16).unwrap()).device(Device::outside(64)).build().unwrap();
    let mut ring = Ring::new(0, 0, FIRST);
    ready(&mut machine, 0, &[&ring]);
    ask(&mut machine, &mut ring, IN, 0, 1);
    ask(&mut machine, &mut ring, OUT, 4, 1);
    let (read, written) = (call(&mut machine, &mut [0; 512]), call(&mut machine, &mut [0; 512]));
    (machine, read, written)
}

#[test]
fn a_lent_machine_answers_all_but_reads() {
    let (machine, read, written) = two_out();
    let mut lent = machine.lend().unwrap();
    assert_eq!((lent.write_register(0, STATUS, 4, 0), lent.reset()), (Err(Error::CallsOut), Err(Error::CallsOut)));
    let refused = lent.disk_done(read, 1, &[4; 512]).unwrap_err();
    assert_eq!((refused.error, lent.next(Pick::default())), (Error::Lent, Ok(Next::Idle)));
    lent.disk_done(written, 1, &[]).unwrap();
    let mut machine = lent.give_back(Pages::NONE).unwrap();
    machine.disk_done(refused.into_value(), 1, &[4; 512]).unwrap();
    assert_eq!((work(&mut machine).len(), bytes(&machine, BUFFER, 512), bytes(&machine, VERDICT + 4, 1)), (2, vec![4; 512], vec![0]));
}

#[test]
fn a_driver_resets_its_disk_while_ram_is_lent() {
    let (machine, read, written) = two_out();
    let mut lent = machine.lend().unwrap();
    drop((read, written));
    for call in lent.calls_out().unwrap() {
        lent.disk_failed(call).unwrap();
    }
    assert_eq!((lent.write_register(0, STATUS, 4, 0), lent.calls_out().unwrap().len()), (Ok(None), 0));
}

#[test]
fn a_call_that_is_dropped_is_found() {
    let (mut machine, read, written) = two_out();
    let same = format!("{read:?} {written:?}");
    drop(read);
    written.discard();
    let found = machine.calls_out().unwrap();
    assert_eq!(format!("{:?} {:?}", found[0], found[1]), same);
    let twice = machine.calls_out().unwrap();
    for call in found {
        machine.disk_failed(call).unwrap();
    }
    for call in twice {
        assert_eq!(machine.disk_failed(call).unwrap_err().error, Error::NotOut);
    }
    assert_eq!((work(&mut machine).len(), bytes(&machine, VERDICT, 1), bytes(&machine, VERDICT + 4, 1)), (2, vec![1], vec![1]));
}

#[test]
fn what_waits_to_be_asked_is_named() {
    let (mut machine, mut ring) = made(0);
    assert_eq!(machine.next(Pick::default()), Ok(Next::Idle));
    ask(&mut machine, &mut ring, OUT, 3, 1);
    assert_eq!(machine.next(Pick::default()), Ok(Next::Call(0)));
    let first = call(&mut machine, &mut [0; 512]);
    ask(&mut machine, &mut ring, IN, 3, 1);
    assert_eq!(machine.next(Pick::default()), Ok(Next::Idle), "it waits for the answer");
    machine.disk_done(first, 1, &[]).unwrap();
    assert_eq!(work(&mut machine), ["Completed(1)"]);
    assert_eq!(machine.next(Pick::default()), Ok(Next::Call(0)));
}

#[test]
fn of_a_lost_disk_nothing_is_told_durable() {
    for (features, written) in [(0, 1), (FLUSH_FEATURE, 0)] {
        let (mut machine, mut ring) = made(features);
        for (kind, sector, count) in [(IN, 2, 1), (OUT, 5, 1), (FLUSH, 0, 0)] {
            ask(&mut machine, &mut ring, kind, sector, count);
        }
        let calls: Vec<_> = std::iter::from_fn(|| machine.disk_call(&mut [0; 512]).unwrap()).collect();
        machine.sync_failed(0).unwrap();
        for call in calls {
            let (count, read) = (call.count(), if call.what() == DiskWork::Read { 512 } else { 0 });
            machine.disk_done(call, count, &[3; 512][..read]).unwrap();
        }
        assert_eq!((work(&mut machine).len(), machine.is_lost(0)), (3, true));
        let verdicts = [2, 5, 0].map(|sector| bytes(&machine, VERDICT + sector, 1)[0]);
        assert_eq!(verdicts, [0, written, 1]);
    }
}

#[test]
fn it_has_no_disk_of_the_machine() {
    let (mut machine, _) = made(0);
    assert_eq!(machine.read_sector(0, 0, &mut [0; 512]), Err(Error::WrongKind));
    assert_eq!(machine.drop_input(0), Err(Error::WrongKind));
    assert_eq!(machine.input(0, b"bytes"), Err(Error::WrongKind));
    assert!(Machine::builder().pages(1).device(Device::outside(0)).build().is_err());
    assert!(Machine::builder().pages(1).device(Device::outside((1 << 54) + 1)).build().is_err());
    assert!(Machine::builder().pages(1).device(Device::outside(1 << 54)).build().is_ok());
}
