//! A turn of the devices in one call: each of its ends.

mod common;
use common::*;
use vmig::{Device, Error, Machine, Next, Pick, SENT_MAX, Step, Turn, TurnEnd};

/// Where the tests have their rings and buffers.
const FIRST: u64 = 0x1000;
const SECOND: u64 = 0x4000;
const BUFFER: u64 = 0x8000;
const FLUSH: u32 = 1 << 9;

/// The steps of a device.
fn step(dev: u8, pick: u8) -> Pick {
    Pick { dev, pick }
}

/// A console whose guest sends these messages, as the device of this number.
fn say(machine: &mut Machine, dev: u8, messages: &[&[u8]]) {
    let mut ring = Ring::new(dev, 1, SECOND);
    ready(machine, 0, &[&ring]);
    for (at, message) in (BUFFER + 0x800..).step_by(64).zip(messages) {
        machine.write_ram(at, message).unwrap();
        ring.publish(machine, &[(at, u32::try_from(message.len()).unwrap(), false)]);
    }
}

/// A guest that writes a sector of its disk, as device 0.
fn write_sector(machine: &mut Machine, features: u32) -> Ring {
    let mut ring = Ring::new(0, 0, FIRST);
    ready(machine, features, &[&ring]);
    machine.write_ram(BUFFER + 2048, &[0xff]).unwrap();
    request(machine, BUFFER, 1, 0);
    ring.publish(machine, &[(BUFFER, 16, false), (BUFFER + 512, 512, false), (BUFFER + 2048, 1, true)]);
    ring
}

#[test]
fn a_turn_without_work_counts_nothing() {
    let mut machine = made(&[Device::Entropy, Device::disk(1)]);
    let mut turn = Turn::new(7);
    assert_eq!(machine.work(&mut turn, &mut []), Ok(TurnEnd::Idle));
    assert_eq!(turn, Turn { last: Pick::default(), left: 7 });
    assert_eq!(Turn::new(0), Turn::default());
}

#[test]
fn a_message_ends_a_call_and_the_next_goes_on() {
    let mut machine = made(&[Device::Entropy, Device::Console]);
    let (mut turn, mut buf) = (Turn::new(9), vec![0; SENT_MAX]);
    say(&mut machine, 1, &[b"one", b"and two"]);
    assert_eq!(machine.work(&mut turn, &mut buf), Ok(TurnEnd::Answer(step(1, 1), Step::Sent(b"one"))));
    assert_eq!((turn.last, turn.left, machine.lines()), (step(1, 1), 8, 2));
    assert_eq!(machine.work(&mut turn, &mut buf), Ok(TurnEnd::Answer(step(1, 1), Step::Sent(b"and two"))));
    // The queue that is empty is looked at once.
    assert_eq!(machine.work(&mut turn, &mut buf), Ok(TurnEnd::Idle));
    assert_eq!((turn.left, machine.next(turn.last)), (6, Ok(Next::Idle)));
}

#[test]
fn a_turn_ends_with_its_steps_and_the_next_begins_behind_them() {
    let mut machine = made(&[Device::disk(1), Device::Console]);
    let (mut turn, mut buf) = (Turn::new(1), vec![0; SENT_MAX]);
    let ring = write_sector(&mut machine, FLUSH);
    say(&mut machine, 1, &[b"text"]);
    assert_eq!(machine.work(&mut turn, &mut buf), Ok(TurnEnd::Answer(step(1, 1), Step::Sent(b"text"))));
    assert_eq!(machine.work(&mut turn, &mut buf), Ok(TurnEnd::Unfinished));
    assert_eq!((turn, ring.used(&machine, 0)), (Turn { last: step(1, 1), left: 0 }, (0, 0)));
    turn.left = 100;
    assert_eq!(machine.work(&mut turn, &mut buf), Ok(TurnEnd::Idle));
    assert_eq!((ring.used(&machine, 0), bytes(&machine, BUFFER + 2048, 1)), ((0, 1), vec![0]));
}

#[test]
fn an_entropy_device_that_completed_has_room() {
    let mut machine = made(&[Device::Entropy]);
    let mut ring = Ring::new(0, 0, FIRST);
    ready(&mut machine, 0, &[&ring]);
    machine.input(0, &[7; 20]).unwrap();
    ring.publish(&mut machine, &[(BUFFER, 16, true)]);
    assert_eq!(machine.work(&mut Turn::new(9), &mut []), Ok(TurnEnd::Answer(step(0, 0), Step::Completed(16))));
    assert_eq!(machine.room(0), Ok(4096 - 4));
}

#[test]
fn the_end_of_a_write_owes_a_sync_and_is_made_after_it() {
    let mut machine = made(&[Device::disk(1)]);
    let mut turn = Turn::new(9);
    let ring = write_sector(&mut machine, 0);
    assert_eq!(machine.work(&mut turn, &mut []), Ok(TurnEnd::SyncOwed(step(0, 1))));
    assert_eq!((ring.used(&machine, 0), turn.last), ((0, 0), step(0, 1)));
    machine.sync(0).unwrap();
    assert_eq!(machine.step(turn.last, &mut []), Ok(Step::Completed(1)));
    assert_eq!(machine.work(&mut turn, &mut []), Ok(TurnEnd::Idle));
    assert_eq!(ring.used(&machine, 0), (0, 1));
}

/// How the calls of a turn end from where a disk was lost at the first sync that is owed.
fn ends_of_a_lost_disk(machine: &mut Machine) -> Vec<String> {
    let (mut turn, mut ends) = (Turn::new(100), Vec::new());
    loop {
        match machine.work(&mut turn, &mut []).unwrap() {
            TurnEnd::Idle => return ends,
            TurnEnd::SyncOwed(step) => machine.sync_failed(step.dev).unwrap(),
            end => ends.push(format!("{end:?}")),
        }
    }
}

#[test]
fn a_flush_of_a_lost_disk_fails_and_a_write_without_flush_does_not_end() {
    let mut machine = made(&[Device::disk(1)]);
    let mut ring = write_sector(&mut machine, FLUSH);
    request(&mut machine, BUFFER + 1024, 4, 0);
    ring.publish(&mut machine, &[(BUFFER + 1024, 16, false), (BUFFER + 2049, 1, true)]);
    let ends = ends_of_a_lost_disk(&mut machine);
    assert!(ends.len() == 1 && ends[0].ends_with("DiskFailed)"), "{ends:?}");
    assert_eq!(bytes(&machine, BUFFER + 2048, 2), [0, 1]);

    let mut machine = made(&[Device::disk(1)]);
    write_sector(&mut machine, 0);
    assert!(ends_of_a_lost_disk(&mut machine).is_empty());
    assert_eq!(bytes(&machine, BUFFER + 2048, 1), [0xff]);
}

#[test]
fn a_frame_that_is_dropped_and_a_malformed_chain_are_told() {
    let mut machine = made(&[CARD]);
    let (mut turn, mut buf) = (Turn::new(9), vec![0; 1514]);
    let (mut taken, mut sent) = (Ring::new(0, 0, FIRST), Ring::new(0, 1, SECOND));
    ready(&mut machine, 0, &[&taken, &sent]);
    machine.input(0, &[5; 20]).unwrap();
    taken.publish(&mut machine, &[(BUFFER, 31, true)]);
    assert_eq!(machine.work(&mut turn, &mut buf), Ok(TurnEnd::Answer(step(0, 0), Step::Dropped)));
    sent.publish_head(&mut machine, 16);
    assert_eq!(machine.work(&mut turn, &mut buf), Ok(TurnEnd::Answer(step(0, 1), Step::NeedsReset)));
    assert_eq!(machine.work(&mut turn, &mut buf), Ok(TurnEnd::Idle));
}

#[test]
fn a_guest_that_sends_without_end_has_a_turn_that_ends() {
    let mut machine = made(&[Device::Console]);
    let (mut turn, mut buf) = (Turn::new(20), vec![0; SENT_MAX]);
    let mut ring = Ring::new(0, 1, SECOND);
    let mut messages = 0;
    ready(&mut machine, 0, &[&ring]);
    loop {
        ring.publish(&mut machine, &[(BUFFER, 1, false)]);
        match machine.work(&mut turn, &mut buf).unwrap() {
            TurnEnd::Answer(_, Step::Sent(_)) => messages += 1,
            end => break assert_eq!(end, TurnEnd::Unfinished),
        }
    }
    assert_eq!((messages, turn.left), (20, 0));
}

#[test]
fn a_turn_is_refused_as_a_step_is() {
    let mut machine = made(&[CARD]);
    let mut turn = Turn::new(5);
    assert_eq!(machine.work(&mut turn, &mut [0; 1513]), Err(Error::TooSmall));
    assert_eq!(machine.work(&mut turn, &mut [0; 1514]), Ok(TurnEnd::Idle));
    machine.send_begin().unwrap();
    assert_eq!(machine.work(&mut turn, &mut [0; 1514]), Ok(TurnEnd::Idle));
    machine.send_stop().unwrap();
    assert_eq!(machine.work(&mut turn, &mut [0; 1514]), Err(Error::Stopped));
    assert_eq!(turn, Turn::new(5));
}

/// As many single steps as a turn made.
fn make_steps(machine: &mut Machine, last: &mut Pick, count: u32, buf: &mut [u8]) {
    for _ in 0..count {
        let (Next::Work(pick) | Next::Sync(pick)) = machine.next(*last).unwrap() else { panic!("a step that is not named") };
        let _ = machine.step(pick, buf).unwrap();
        *last = pick;
    }
}

#[test]
fn a_turn_makes_the_steps_that_are_named() {
    let devices = [Device::disk(1), Device::Console, Device::Entropy];
    let (mut one, mut other) = (made(&devices), made(&devices));
    for machine in [&mut one, &mut other] {
        write_sector(machine, FLUSH);
        say(machine, 1, &[b"one", b"two", b"three"]);
    }
    let (mut turn, mut last, mut calls) = (Turn::new(100), Pick::default(), 0);
    let mut bufs = [vec![0; SENT_MAX], vec![0; SENT_MAX]];
    loop {
        let before = turn.left;
        let is_idle = one.work(&mut turn, &mut bufs[0]).unwrap() == TurnEnd::Idle;
        make_steps(&mut other, &mut last, before - turn.left, &mut bufs[1]);
        assert_eq!((turn.last, one.save()), (last, other.save()));
        calls += 1;
        if is_idle {
            break;
        }
    }
    assert_eq!((calls, other.next(last)), (4, Ok(Next::Idle)));
}
