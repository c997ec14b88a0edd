//! Each refusal that a safe program can meet, and that it changed nothing. Which it is, `vmig.h` says; the bytes of streams are those of
//! docs/stream-format.md.

mod common;
use common::{CARD, made};
use std::fs::File;
use vmig::{Arrival, Device, Error, Image, Machine, Memory, Pages, Pick, State, SyncError, announced};

/// The stream of a new machine of one page and one entropy device, as far as its records: 17 bytes of header, 5 of a page of zeros, 70 of the
/// device, 33 of the end.
fn stream() -> Vec<u8> {
    let machine = Machine::builder().pages(1).device(Device::Entropy).build().unwrap();
    let stream = machine.save().unwrap();
    let begins = [0x56, 0x4d, 0x49, 0x47, 2, 0, 0, 0, 1, 0, 0, 0, 1, 0, 0, 0, 4, 6];
    assert_eq!((stream.len(), &stream[..18]), (125, &begins[..]));
    stream
}

/// Why a stream is refused, as each piece of so many bytes comes, and at which piece.
fn fault_of(stream: &[u8], piece: usize) -> (Error, u64) {
    let mut arrival = Arrival::builder().most_pages(1).most_sectors(0).begin().unwrap();
    let told = stream.chunks(piece).find_map(|piece| arrival.feed(piece).err());
    let fault = arrival.fault().expect("it was refused");
    assert_eq!((told, arrival.is_whole()), (Some(fault.0), false));
    assert_eq!(arrival.feed(b"more"), Err(Error::StreamFailed));
    let mut refused = arrival.finish().unwrap_err();
    assert_eq!((refused.error, refused.value_mut().fault()), (Error::StreamFailed, Some(fault)));
    fault
}

/// Why the stream is refused with other bytes in the place of some.
fn fault_with(place: usize, bytes: &[u8]) -> Error {
    let mut stream = stream();
    stream.splice(place..place + bytes.len(), bytes.iter().copied());
    let (whole, piecewise) = (fault_of(&stream, stream.len()).0, fault_of(&stream, 1));
    assert_eq!(whole, piecewise.0);
    whole
}

#[test]
fn a_header_is_refused() {
    assert_eq!(fault_with(0, b"V1"), Error::StreamBadMagic);
    assert_eq!(fault_with(4, &[3]), Error::StreamBadVersion);
    assert_eq!(fault_with(8, &[0]), Error::StreamBadShape);
    assert_eq!(fault_with(8, &[2]), Error::StreamTooLarge);
    assert_eq!(fault_with(12, &[17]), Error::StreamBadShape);
    assert_eq!(fault_with(16, &[5]), Error::StreamBadShape);
}

#[test]
fn a_record_is_refused() {
    assert_eq!(fault_with(17, &[7]), Error::StreamBadTag);
    assert_eq!(fault_with(18, &[1]), Error::StreamBadPage);
    assert_eq!(fault_with(17, &[2, 0, 0, 0, 0, 0, 1]), Error::StreamBadSector);
    assert_eq!(fault_with(17, &[3, 2]), Error::StreamBadRound);
    assert_eq!(fault_with(23, &[1]), Error::StreamBadDevice);
    assert_eq!(fault_with(28, &[0x10]), Error::StreamBadDevice);
    assert_eq!(fault_with(124, &[stream()[124] ^ 1]), Error::StreamBadDigest);
}

#[test]
fn a_stream_that_lacks_a_page_is_refused() {
    let whole = stream();
    let without = [&whole[..17], &whole[22..]].concat();
    assert_eq!(fault_of(&without, without.len()).0, Error::StreamMissing);
}

#[test]
fn what_follows_a_stream_is_refused() {
    let mut longer = stream();
    longer.push(0);
    assert_eq!(fault_of(&longer, 125), (Error::StreamTrailing, 125));
    assert_eq!(fault_of(&longer, 126), (Error::StreamTrailing, 0));
}

#[test]
fn a_stream_without_its_end_is_refused() {
    let mut arrival = Arrival::builder().most_pages(1).begin().unwrap();
    assert_eq!((arrival.announced(), arrival.feed(&stream()[..124])), (Ok(None), Ok(false)));
    assert_eq!(arrival.announced().unwrap().unwrap().devices, [Device::Entropy]);
    let refused = arrival.finish().unwrap_err();
    assert_eq!(refused.error, Error::StreamTruncated);
    let mut arrival = refused.into_value();
    assert_eq!(arrival.feed(&stream()[124..]), Err(Error::StreamFailed));
}

#[test]
fn another_machine_than_the_one_expected_is_refused() {
    let stream = stream();
    for builder in [
        Arrival::builder().most_pages(1).device(Device::Console),
        Arrival::builder().most_pages(1).devices(&[Device::Entropy, CARD]),
        Arrival::builder().memory(Memory::zeros(2).unwrap()),
        Arrival::builder().most_pages(1).image(Image::zeros(1).unwrap()),
    ] {
        let mut arrival = builder.begin().unwrap();
        assert_eq!(arrival.feed(&stream), Err(Error::StreamMismatch));
        assert_eq!(arrival.fault(), Some((Error::StreamMismatch, 0)));
    }
}

#[test]
fn ram_that_would_reach_past_the_last_address_is_refused() {
    let at_the_end = || Arrival::builder().most_pages(2).base(0xffff_ffff_ffff_f000).begin().unwrap();
    let two = Machine::builder().pages(2).device(Device::Entropy).build().unwrap().save().unwrap();
    assert_eq!(at_the_end().feed(&two), Err(Error::StreamMismatch));
    assert_eq!(at_the_end().feed(&stream()), Ok(true));
}

#[test]
fn an_announcement_is_refused() {
    let stream = stream();
    let told = announced(&stream[..17]).unwrap().expect("the header is whole");
    assert_eq!((told.pages, told.devices, announced(&stream[..16])), (1, vec![Device::Entropy], Ok(None)));
    assert_eq!(announced(b"VMIX"), Err(Error::StreamBadMagic));
    assert_eq!(announced(b"VMIG\x09\0\0\0"), Err(Error::StreamBadVersion));
    assert_eq!(announced(b"VMIG\x02\0\0\0\0\0\0\0\x01\0\0\0\x04"), Err(Error::StreamBadShape));
}

#[test]
fn an_arrival_is_refused() {
    let memory = || Memory::zeros(1).unwrap();
    for (builder, error) in [
        (Arrival::builder().memory(memory()).most_pages(1), Error::BadRam),
        (Arrival::builder().most_pages(1).device(Device::disk(0)), Error::BadShape),
        (Arrival::builder().most_pages(1).base(1), Error::BadBase),
        (Arrival::builder().most_pages(1).device(Device::disk(2)).image(Image::zeros(1).unwrap()), Error::BadImages),
    ] {
        let refused = builder.begin().unwrap_err();
        assert_eq!(refused.error, error);
        let parts = refused.into_value().into_parts();
        assert_eq!(parts.memory.is_some(), error == Error::BadRam);
        assert_eq!(parts.images.len(), usize::from(error == Error::BadImages));
    }
}

#[test]
fn a_setup_is_refused() {
    let image = || Image::zeros(1).unwrap();
    let with_disk = || Machine::builder().pages(1).device(Device::disk(1));
    for (builder, error) in [
        (Machine::builder().device(Device::Console), Error::BadRam),
        (Machine::builder().pages(16_385).device(Device::Console), Error::BadRam),
        (Machine::builder().pages(2).memory(Memory::zeros(1).unwrap()).device(Device::Console), Error::BadRam),
        (Machine::builder().pages(1), Error::BadShape),
        (Machine::builder().pages(1).devices(&[Device::Console; 17]), Error::BadShape),
        (Machine::builder().pages(1).device(Device::disk(2_097_153)), Error::BadShape),
        (Machine::builder().pages(1).device(Device::Console).base(4095), Error::BadBase),
        (Machine::builder().pages(2).device(Device::Console).base(0xffff_ffff_ffff_f000), Error::BadBase),
        (with_disk().contents(vec![0; 511]), Error::BadImages),
        (with_disk().image(image()).image(image()), Error::BadImages),
        (with_disk().image(Image::zeros(2).unwrap()), Error::BadImages),
        (with_disk().image(image()).contents(vec![0; 512]), Error::BadImages),
    ] {
        let refused = builder.build().unwrap_err();
        assert_eq!((refused.error, refused.error.to_string().is_empty()), (error, false));
    }
}

#[test]
fn an_event_is_refused() {
    let mut machine = made(&[CARD, Device::disk(2)]);
    let mut sector = [4; 512];
    assert_eq!(machine.read_register(2, 0, 4), Err(Error::NoDevice));
    assert_eq!(machine.write_register(255, 0, 4, 0), Err(Error::NoDevice));
    assert_eq!(machine.input(0, &[0; 13]), Err(Error::BadFrame));
    assert_eq!(machine.input(0, &[0; 1515]), Err(Error::BadFrame));
    assert_eq!(machine.input(1, b"text"), Err(Error::WrongKind));
    assert_eq!((machine.room(1), machine.drop_input(1)), (Err(Error::WrongKind), Err(Error::WrongKind)));
    assert_eq!((machine.resize(0, 1, 1), machine.sync_failed(0)), (Err(Error::WrongKind), Err(Error::WrongKind)));
    assert_eq!(machine.read_sector(0, 0, &mut sector), Err(Error::WrongKind));
    assert_eq!((machine.read_sector(1, 2, &mut sector), sector), (Err(Error::NoSector), [4; 512]));
    assert_eq!(machine.step(Pick { dev: 0, pick: 1 }, &mut [0; 1513]).unwrap_err(), Error::TooSmall);
    assert_eq!(machine.step(Pick { dev: 2, pick: 0 }, &mut []).unwrap_err(), Error::NoDevice);
}

#[test]
fn an_access_to_ram_is_refused() {
    let mut machine = made(&[Device::Console]);
    let mut buf = vec![4; 4097];
    assert_eq!(machine.read_ram(0, &mut buf), Err(Error::TooLong));
    assert_eq!(machine.read_ram(0xffff, &mut buf[..2]), Err(Error::OutOfRam));
    assert_eq!(machine.write_ram(0xffff, &buf[..2]), Err(Error::OutOfRam));
    assert_eq!(machine.write_ram(u64::MAX, &buf[..1]), Err(Error::OutOfRam));
    assert_eq!(machine.write_ram(0, &buf), Err(Error::TooLong));
    assert!(buf.iter().all(|byte| *byte == 4));
}

#[test]
fn a_sync_is_refused() {
    let mut machine = made(&[Device::Console, Device::disk(1)]);
    assert!(matches!(machine.sync(0), Err(SyncError::Refused(Error::WrongKind))));
    assert!(matches!(machine.sync(2), Err(SyncError::Refused(Error::NoDevice))));
    assert!(machine.sync(1).is_ok() && machine.sync_all().is_ok());
    machine.send_begin().unwrap();
    machine.send_stop().unwrap();
    assert!(matches!(machine.sync(1), Err(SyncError::Refused(Error::Stopped))));
}

#[test]
fn a_move_out_of_order_is_refused() {
    let mut machine = made(&[Device::Console]);
    assert_eq!((machine.send_some(1), machine.send_round()), (Err(Error::NotSending), Err(Error::NotSending)));
    assert_eq!((machine.send_stop(), machine.send_abort()), (Err(Error::NotSending), Err(Error::NotSending)));
    assert_eq!((machine.send_left(), machine.send_take(&mut [])), (Err(Error::NotSending), Err(Error::NotSending)));
    machine.send_begin().unwrap();
    assert_eq!((machine.send_begin(), machine.save()), (Err(Error::Sending), Err(Error::Sending)));
    assert_eq!(machine.state(), State::Sending);
    machine.send_stop().unwrap();
    assert_eq!((machine.state(), machine.send_begin()), (State::Stopped, Err(Error::Stopped)));
    assert_eq!((machine.next(Pick::default()), machine.write_ram(0, &[])), (Err(Error::Stopped), Err(Error::Stopped)));
    assert_eq!((machine.reset(), machine.input(0, b"x")), (Err(Error::Stopped), Err(Error::Stopped)));
    let mut machine = machine.lend().map(|_| ()).unwrap_err().into_value();
    machine.send_abort().unwrap();
    assert_eq!(machine.state(), State::Idle);
}

#[test]
fn a_loan_is_refused() {
    let mut refused = made(&[Device::Console]).lend().unwrap_err();
    assert_eq!((refused.error, refused.value_mut().pages()), (Error::NotYours, 16));

    let machine = Machine::builder().memory(Memory::zeros(65).unwrap()).device(Device::Console).build().unwrap();
    let mut lent = machine.lend().unwrap();
    lent.ram_mut()[9] = 8;
    for (pages, error) in [
        (Pages::list(&[65]), Error::OutOfRam),
        (Pages::bitmap(&[0]), Error::TooSmall),
        (Pages::bitmap_of(65, 1, &[1]), Error::OutOfRam),
        (Pages::bitmap(&[0, 0]).and_list(&[70]), Error::OutOfRam),
    ] {
        let refused = lent.give_back(pages).unwrap_err();
        assert_eq!(refused.error, error);
        lent = refused.into_value();
        assert_eq!((lent.ram()[9], lent.pages()), (8, 65));
    }
    assert!(lent.give_back(Pages::bitmap(&[1, 0])).is_ok());
}

#[test]
fn a_mirror_is_refused() {
    let mut machine = made(&[Device::Console]);
    let (mut ram, mut seen) = (vec![0; 16 * 4096], vec![vmig::UNSEEN; 16]);
    assert_eq!(machine.pull(&mut ram[1..], &mut seen), Err(Error::TooSmall));
    assert_eq!(machine.pull(&mut ram, &mut seen[1..]), Err(Error::TooSmall));
    assert_eq!(machine.push(Pages::list(&[16]), &ram, &mut seen), Err(Error::OutOfRam));
    assert_eq!(machine.push(Pages::ALL, &ram[1..], &mut seen), Err(Error::TooSmall));
    assert!(seen.iter().all(|version| *version == vmig::UNSEEN));
}

#[test]
fn memory_and_images_of_other_sizes_are_refused() {
    assert_eq!(Memory::zeros(0).unwrap_err(), Error::BadRam);
    assert_eq!((Image::zeros(0).unwrap_err(), Image::zeros(1 << 32).unwrap_err()), (Error::BadImages, Error::BadImages));
    let here = File::open(env!("CARGO_MANIFEST_PATH")).unwrap();
    here.metadata().unwrap();
    // SAFETY: it is refused, as its length is not that of whole sectors, or as it is open for reading alone.
    assert!(unsafe { Image::map(here) }.is_err());
}
