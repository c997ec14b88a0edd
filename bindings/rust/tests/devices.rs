//! What each kind of device does for its driver. Values are those of VIRTIO 1.2.

mod common;
use common::*;
use vmig::{Device, Next, Pick, Step};

/// Where the tests have their rings and buffers.
const FIRST: u64 = 0x1000;
const SECOND: u64 = 0x4000;
const BUFFER: u64 = 0x8000;

#[test]
fn each_kind_says_what_it_is() {
    let machine = made(&[CARD, Device::disk(5), Device::Console, Device::Entropy]);
    for (dev, id) in [(0, 1), (1, 2), (2, 3), (3, 4)] {
        assert_eq!(machine.read_register(dev, 0x000, 4), Ok(0x7472_6976));
        assert_eq!(machine.read_register(dev, 0x004, 4), Ok(2));
        assert_eq!(machine.read_register(dev, 0x008, 4), Ok(id));
    }
    assert_eq!(machine.read_register(0, 0x100, 1), Ok(2));
    assert_eq!(machine.read_register(1, 0x100, 4), Ok(5));
    assert_eq!(machine.read_register(0, 0x1f0, 4), Ok(0));
}

#[test]
fn a_machine_tells_how_it_was_made() {
    let disk = Device::Block { sectors: 3, read_only: true, id: [b'x'; 20] };
    let machine = vmig::Machine::builder().pages(16).base(0x8000_0000).device(CARD).device(disk).build().unwrap();
    assert_eq!((machine.pages(), machine.base(), machine.message_len()), (16, 0x8000_0000, 1514));
    assert_eq!(machine.devices(), Ok(vec![CARD, disk]));
    assert_eq!(machine.state(), vmig::State::Idle);
    assert_eq!(made(&[Device::Console]).message_len(), vmig::SENT_MAX);
    assert_eq!(made(&[Device::Entropy]).message_len(), 0);
}

#[test]
fn entropy_fills_a_buffer_and_raises_its_line() {
    let mut machine = made(&[Device::Entropy]);
    let mut ring = Ring::new(0, 0, FIRST);
    ready(&mut machine, 0, &[&ring]);
    ring.publish(&mut machine, &[(BUFFER, 16, true)]);
    assert_eq!(machine.next(Pick::default()), Ok(Next::Idle));
    assert_eq!(machine.input(0, &[7; 20]), Ok(20));
    assert_eq!(machine.room(0), Ok(4096 - 20));
    let pick = Pick { dev: 0, pick: 0 };
    assert_eq!(machine.next(Pick::default()), Ok(Next::Work(pick)));
    assert_eq!(machine.step(pick, &mut []), Ok(Step::Completed(16)));
    assert_eq!((bytes(&machine, BUFFER, 17), ring.used(&machine, 0)), ([vec![7; 16], vec![0]].concat(), (0, 16)));
    assert_eq!(machine.lines(), 1);
    write(&mut machine, 0, INTERRUPT_ACK, 1);
    assert_eq!(machine.lines(), 0);
}

#[test]
fn a_console_sends_and_takes_text() {
    let mut machine = made(&[Device::Entropy, Device::Console]);
    let (mut taken, mut sent) = (Ring::new(1, 0, FIRST), Ring::new(1, 1, SECOND));
    ready(&mut machine, 0, &[&taken, &sent]);
    machine.write_ram(BUFFER, b"hello").unwrap();
    sent.publish(&mut machine, &[(BUFFER, 5, false)]);
    taken.publish(&mut machine, &[(BUFFER + 64, 8, true)]);
    assert_eq!(machine.input(1, b"hi"), Ok(2));
    let did = work(&mut machine);
    assert!(did.contains(&format!("{:?}", Step::Sent(b"hello"))), "{did:?}");
    assert!(did.contains(&format!("{:?}", Step::Completed(2))), "{did:?}");
    assert_eq!(bytes(&machine, BUFFER + 64, 3), b"hi\0");
    assert_eq!(machine.lines(), 2);
}

#[test]
fn a_console_gives_out_an_emergency_byte() {
    let mut machine = made(&[Device::Console]);
    assert_eq!(machine.write_register(0, 0x108, 4, u32::from(b'!')), Ok(Some(b'!')));
    assert_eq!(machine.write_register(0, STATUS, 4, 1), Ok(None));
}

#[test]
fn a_console_has_a_size() {
    let mut machine = made(&[Device::Console]);
    machine.resize(0, 80, 25).unwrap();
    assert_eq!((machine.read_register(0, 0x100, 2), machine.read_register(0, 0x102, 2)), (Ok(80), Ok(25)));
}

#[test]
fn a_network_device_sends_takes_and_drops_frames() {
    let mut machine = made(&[CARD]);
    let (mut taken, mut sent) = (Ring::new(0, 0, FIRST), Ring::new(0, 1, SECOND));
    ready(&mut machine, 0, &[&taken, &sent]);
    machine.write_ram(BUFFER + 12, &[9; 14]).unwrap();
    sent.publish(&mut machine, &[(BUFFER, 26, false)]);
    let did = work(&mut machine);
    assert!(did.contains(&format!("{:?}", Step::Sent(&[9; 14]))), "{did:?}");

    assert_eq!((machine.room(0), machine.input(0, &[5; 20])), (Ok(64), Ok(20)));
    assert_eq!((machine.room(0), machine.input(0, &[6; 15])), (Ok(63), Ok(15)));
    taken.publish(&mut machine, &[(BUFFER + 256, 31, true)]);
    let did = work(&mut machine);
    assert!(did.contains(&"Dropped".to_owned()) && did.contains(&format!("{:?}", Step::Completed(27))), "{did:?}");
    assert_eq!(bytes(&machine, BUFFER + 256 + 12, 15), [6; 15]);
}

#[test]
fn a_disk_is_written_and_read() {
    let mut machine = made(&[Device::disk(4)]);
    let mut ring = Ring::new(0, 0, FIRST);
    ready(&mut machine, 0, &[&ring]);
    machine.write_ram(BUFFER + 512, &[3; 512]).unwrap();
    machine.write_ram(BUFFER + 2048, &[0xff]).unwrap();
    request(&mut machine, BUFFER, 1, 2);
    ring.publish(&mut machine, &[(BUFFER, 16, false), (BUFFER + 512, 512, false), (BUFFER + 2048, 1, true)]);

    // A driver that did not accept FLUSH takes the end of a write for durable (5.2.6.2).
    assert_eq!(work(&mut machine), ["Taken", "Moved", "sync", "Completed(1)"]);
    assert_eq!(bytes(&machine, BUFFER + 2048, 1), [0]);
    let mut sector = [0; 512];
    assert_eq!((machine.read_sector(0, 2, &mut sector), sector), (Ok(true), [3; 512]));

    request(&mut machine, BUFFER, 0, 2);
    ring.publish(&mut machine, &[(BUFFER, 16, false), (BUFFER + 1024, 512, true), (BUFFER + 2048, 1, true)]);
    assert_eq!(work(&mut machine), ["Taken", "Moved", "Completed(513)"]);
    assert_eq!(bytes(&machine, BUFFER + 1024, 512), [3; 512]);
}

#[test]
fn a_flush_asks_for_a_sync_and_a_lost_disk_fails_it() {
    let mut machine = made(&[Device::Console, Device::disk(1)]);
    let mut ring = Ring::new(1, 0, FIRST);
    ready(&mut machine, 1 << 9, &[&ring]);
    request(&mut machine, BUFFER, 4, 0);
    ring.publish(&mut machine, &[(BUFFER, 16, false), (BUFFER + 64, 1, true)]);
    assert_eq!(work(&mut machine), ["Taken", "sync", "Moved", "Completed(1)"]);
    assert_eq!(bytes(&machine, BUFFER + 64, 1), [0]);

    machine.sync_failed(1).unwrap();
    assert!(machine.is_lost(1) && !machine.is_lost(0) && !machine.is_lost(255));
    assert!(matches!(machine.sync(1), Err(vmig::SyncError::Lost)));
    ring.publish(&mut machine, &[(BUFFER, 16, false), (BUFFER + 64, 1, true)]);
    assert_eq!(work(&mut machine), ["Taken", "DiskFailed", "Completed(1)"]);
    assert_eq!(bytes(&machine, BUFFER + 64, 1), [1]);
}

#[test]
fn a_malformed_chain_asks_for_a_reset() {
    let mut machine = made(&[Device::Entropy]);
    let mut ring = Ring::new(0, 0, FIRST);
    ready(&mut machine, 0, &[&ring]);
    machine.input(0, b"bytes").unwrap();
    ring.publish_head(&mut machine, 16);
    assert_eq!(work(&mut machine), ["NeedsReset"]);
    assert_eq!(machine.read_register(0, STATUS, 4), Ok(15 | 64));
}

#[test]
fn a_reboot_resets_devices_and_keeps_ram() {
    let mut machine = made(&[Device::Console, Device::disk(1)]);
    let ring = Ring::new(0, 0, FIRST);
    ready(&mut machine, 0, &[&ring]);
    machine.input(0, b"typed").unwrap();
    machine.write_ram(BUFFER, b"kept").unwrap();
    machine.resize(0, 10, 20).unwrap();
    machine.sync_failed(1).unwrap();
    machine.reset().unwrap();
    assert_eq!((machine.read_register(0, STATUS, 4), machine.room(0), machine.lines()), (Ok(0), Ok(4096), 0));
    assert_eq!((bytes(&machine, BUFFER, 4), machine.is_lost(1)), (b"kept".to_vec(), true));
    assert_eq!(machine.read_register(0, 0x100, 2), Ok(10));
}

#[test]
fn what_was_put_in_is_dropped() {
    let mut machine = made(&[Device::Entropy, CARD]);
    machine.input(0, &[1; 5000]).unwrap();
    machine.input(1, &[1; 14]).unwrap();
    assert_eq!((machine.room(0), machine.room(1)), (Ok(0), Ok(63)));
    machine.drop_input(0).unwrap();
    machine.drop_input(1).unwrap();
    assert_eq!((machine.room(0), machine.room(1)), (Ok(4096), Ok(64)));
}

#[test]
fn contents_are_the_disks_in_their_order() {
    let contents = [[1; 512], [2; 512], [3; 512]].concat();
    let devices = [Device::disk(1), Device::Console, Device::disk(2)];
    let machine = vmig::Machine::builder().pages(1).devices(&devices).contents(contents).build().unwrap();
    let mut sector = [0; 512];
    for (dev, number, byte) in [(0, 0, 1), (2, 0, 2), (2, 1, 3)] {
        assert_eq!((machine.read_sector(dev, number, &mut sector), sector[511]), (Ok(true), byte));
    }
}
