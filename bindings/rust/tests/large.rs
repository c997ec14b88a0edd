//! Machines that are larger than the usual: by `large` alone, and as they arrive within what is allowed.

mod common;
use common::{Ring, bytes, ready, work};
use vmig::{Arrival, Device, Error, Image, Machine, Memory, Pages, Pick, Step, announced};

/// A page more, and a sector more, than without it.
const PAGES: u32 = 16_385;
const SECTORS: u64 = 2_097_153;

/// The last page of RAM and the address of its first byte.
const LAST: u32 = PAGES - 1;
const AT: u64 = 4096 * LAST as u64;

#[test]
fn ram_is_large_where_that_is_asked_for() {
    for builder in [Machine::builder().pages(PAGES), Machine::builder().memory(Memory::zeros(PAGES).unwrap())] {
        let refused = builder.device(Device::Console).build().unwrap_err();
        assert_eq!(refused.error, Error::BadRam);
        let mut machine = refused.into_value().large().build().unwrap();
        assert_eq!((machine.pages(), machine.is_large(), machine.is_logged()), (PAGES, true, false));
        assert_eq!((machine.write_ram(AT + 4095, b"z"), machine.write_ram(AT + 4096, b"z")), (Ok(()), Err(Error::OutOfRam)));
        assert_eq!(bytes(&machine, AT + 4095, 1), b"z");
    }
    let small = Machine::builder().pages(1).device(Device::Console).build().unwrap();
    assert!(!small.is_large());
}

#[test]
fn a_disk_is_large_where_that_is_asked_for() {
    let with_disk = || Machine::builder().pages(1).device(Device::disk(SECTORS)).image(Image::zeros(SECTORS).unwrap());
    let refused = with_disk().build().unwrap_err();
    assert_eq!(refused.error, Error::BadShape);
    let machine = refused.into_value().large().build().unwrap();
    let mut sector = [4; 512];
    assert_eq!((machine.read_sector(0, SECTORS - 1, &mut sector), sector), (Ok(true), [0; 512]));
    assert_eq!(machine.read_sector(0, SECTORS, &mut sector), Err(Error::NoSector));
    let more = Machine::builder().pages(1).device(Device::disk(1 << 32)).large().build().unwrap_err();
    assert_eq!(more.error, Error::BadShape);
}

/// Frames are as long as a device is made for, and arrive where as long ones are allowed.
#[test]
fn long_frames_arrive_where_they_are_allowed() {
    let long = Device::LongNetwork { mac: [2, 0, 0, 0, 0, 1], longest: 9018 };
    let refused = Machine::builder().pages(1).device(long).build().unwrap_err();
    assert_eq!(refused.error, Error::BadShape);
    let mut machine = refused.into_value().large().build().unwrap();
    assert_eq!((machine.room(0), machine.message_len(), machine.devices()), (Ok(10), 9018, Ok(vec![long])));
    let mut tagged = [1; 9019];
    tagged[12..14].copy_from_slice(&[0x81, 0]);
    assert_eq!((machine.input(0, &tagged[..9018]), machine.input(0, &tagged)), (Ok(9018), Err(Error::BadFrame)));
    assert_eq!((machine.input(0, &[1; 9014]), machine.input(0, &[1; 9015])), (Ok(9014), Err(Error::BadFrame)));
    let stream = machine.save().unwrap();
    assert_eq!(announced(&stream).unwrap().unwrap().devices, [long]);
    let usual = || Arrival::builder().most_pages(1);
    assert_eq!(usual().longest_frame(9018).begin().unwrap_err().error, Error::NotKnown);
    assert_eq!(usual().large().longest_frame(1513).begin().unwrap_err().error, Error::NotKnown);
    assert_eq!(usual().device(long).begin().unwrap_err().error, Error::BadShape);
    assert_eq!(usual().large().begin().unwrap().feed(&stream), Err(Error::StreamBadVersion));
    assert_eq!(usual().large().longest_frame(1514).begin().unwrap().feed(&stream), Err(Error::StreamBadVersion));
    assert_eq!(usual().large().device(long).begin().unwrap().feed(&stream), Ok(true));
    assert_eq!(usual().large().longest_frame(9017).begin().unwrap().feed(&stream), Err(Error::StreamTooLarge));
    let mut arrival = usual().large().longest_frame(9018).device(long).begin().unwrap();
    assert_eq!(arrival.feed(&stream), Ok(true));
    assert_eq!(arrival.finish().unwrap().save().unwrap(), stream);
}

/// 1,514 bytes are those of a usual device, also where they are said outright.
#[test]
fn the_usual_frame_may_be_said_outright() {
    let (mac, arrives) = ([2, 0, 0, 0, 0, 1], || Arrival::builder().most_pages(1).longest_frame(1514));
    let machine = Machine::builder().pages(1).device(Device::LongNetwork { mac, longest: 1514 }).build().unwrap();
    assert_eq!((machine.message_len(), machine.devices()), (1514, Ok(vec![Device::Network { mac }])));
    let stream = machine.save().unwrap();
    for device in [Device::Network { mac }, Device::LongNetwork { mac, longest: 1514 }] {
        assert_eq!(arrives().device(device).begin().unwrap().feed(&stream), Ok(true));
        assert_eq!(arrives().large().device(device).begin().unwrap().feed(&stream), Ok(true));
    }
}

/// The stream of a large machine whose device has a queue and a buffer in the last pages, and whose last page was written.
fn stream() -> Vec<u8> {
    let memory = Memory::zeros(PAGES).unwrap();
    let mut machine = Machine::builder().memory(memory).device(Device::Entropy).large().log_written().build().unwrap();
    let mut ring = Ring::new(0, 0, AT - 3 * 4096);
    ready(&mut machine, 0, &[&ring]);
    let mut lent = machine.lend().unwrap();
    lent.ram_mut()[4096 * LAST as usize] = 7;
    let mut machine = lent.give_back(Pages::bitmap_of(LAST, 1, &[1])).unwrap();
    ring.publish(&mut machine, &[(AT + 1, 8, true)]);
    machine.save().unwrap()
}

#[test]
fn it_arrives_within_what_is_allowed() {
    let stream = stream();
    assert_eq!(announced(&stream).unwrap().unwrap().pages, PAGES);
    let usual = || Arrival::builder().most_pages(u32::MAX);
    let mut arrival = usual().begin().unwrap();
    assert_eq!((arrival.feed(&stream[..15]), arrival.feed(&stream[15..16])), (Ok(false), Err(Error::StreamBadShape)));
    for (builder, error) in [
        (usual().large().most_pages(PAGES - 1), Error::StreamTooLarge),
        (Arrival::builder().large().memory(Memory::zeros(PAGES - 1).unwrap()), Error::StreamMismatch),
    ] {
        let mut arrival = builder.begin().unwrap();
        assert_eq!((arrival.feed(&stream[..16]), arrival.feed(&stream[16..])), (Ok(false), Err(error)));
    }
    let refused = Arrival::builder().memory(Memory::zeros(PAGES).unwrap()).begin().unwrap_err();
    assert_eq!(refused.error, Error::BadRam);
    for builder in [refused.into_value().large(), usual().large().most_pages(PAGES)] {
        let mut arrival = builder.log_written().begin().unwrap();
        assert_eq!(arrival.feed(&stream), Ok(true));
        serves_there(arrival.finish().unwrap());
    }
}

/// The request that was made before is served where the machine arrived, and the pages that this writes are logged.
fn serves_there(mut machine: Machine) {
    assert_eq!((machine.is_large(), machine.is_logged(), bytes(&machine, AT, 2)), (true, true, vec![7, 0]));
    assert_eq!(machine.input(0, b"8 bytes!"), Ok(8));
    assert_eq!(machine.step(Pick { dev: 0, pick: 0 }, &mut []), Ok(Step::Completed(8)));
    assert_eq!(bytes(&machine, AT + 1, 8), b"8 bytes!");
    let mut pages = [0; 8];
    assert_eq!((machine.hand_out(&mut pages).unwrap(), &pages[..2]), (2, &[LAST - 1, LAST][..]));
    assert!(work(&mut machine).is_empty());
}
