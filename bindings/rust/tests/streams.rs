//! Streams that are written here, byte by byte after docs/stream-format.md, with a SHA-256 of this program's own (FIPS 180-4): what no machine
//! of these tests could send.
#![allow(clippy::cast_possible_truncation, clippy::cast_sign_loss)]

mod common;
use common::{Ring, bytes, ready, request, work};
use vmig::{Arrival, Device, Error, Machine};

/// The first 32 bits of the fractional part of a root of each of the first primes.
fn fractions(count: usize, root: impl Fn(f64) -> f64) -> Vec<u32> {
    let primes = (2u32..).filter(|number| (2..*number).all(|divisor| number % divisor != 0));
    // A root below 8 has 50 bits behind the point.
    primes.take(count).map(|prime| (root(prime.into()).fract() * 4_294_967_296.0) as u32).collect()
}

fn sha256(message: &[u8]) -> [u8; 32] {
    let constants = fractions(64, f64::cbrt);
    let mut state = fractions(8, f64::sqrt);
    let mut padded = [message, &[0x80]].concat();
    padded.resize((message.len() + 9).next_multiple_of(64) - 8, 0);
    padded.extend((8 * message.len() as u64).to_be_bytes());
    for block in padded.chunks(64) {
        let mut words: Vec<u32> = block.chunks(4).map(|word| u32::from_be_bytes(word.try_into().unwrap())).collect();
        for t in 16..64 {
            let (w2, w15) = (words[t - 2], words[t - 15]);
            let s1 = w2.rotate_right(17) ^ w2.rotate_right(19) ^ w2 >> 10;
            let s0 = w15.rotate_right(7) ^ w15.rotate_right(18) ^ w15 >> 3;
            words.push(s1.wrapping_add(words[t - 7]).wrapping_add(s0).wrapping_add(words[t - 16]));
        }
        let mut v = state.clone();
        for (word, constant) in words.iter().zip(&constants) {
            let s1 = v[4].rotate_right(6) ^ v[4].rotate_right(11) ^ v[4].rotate_right(25);
            let choice = v[4] & v[5] ^ !v[4] & v[6];
            let one = v[7].wrapping_add(s1).wrapping_add(choice).wrapping_add(*constant).wrapping_add(*word);
            let s0 = v[0].rotate_right(2) ^ v[0].rotate_right(13) ^ v[0].rotate_right(22);
            let two = s0.wrapping_add(v[0] & v[1] ^ v[0] & v[2] ^ v[1] & v[2]);
            v.rotate_right(1);
            v[4] = v[4].wrapping_add(one);
            v[0] = one.wrapping_add(two);
        }
        state.iter_mut().zip(v).for_each(|(sum, word)| *sum = sum.wrapping_add(word));
    }
    let digest: Vec<u8> = state.into_iter().flat_map(u32::to_be_bytes).collect();
    digest.try_into().unwrap()
}

/// A stream of this version, of a machine of `pages` pages and one device, with these records of pages, sectors and rounds.
fn stream(version: u32, pages: u32, device: &[u8], records: &[Vec<u8>]) -> Vec<u8> {
    let mut stream = [b"VMIG", &version.to_le_bytes(), &pages.to_le_bytes(), &[1, 0, 0, 0], device].concat();
    stream.extend(records.concat());
    // The body of a new device: all zeros but the wrap counters; behind its queue a block device has one byte, an entropy device two.
    let mut body = vec![0; if device[0] == 2 { 63 } else { 64 }];
    (body[58], body[61]) = (1, 1);
    stream.extend([&[4, 0][..], &u32::try_from(body.len()).unwrap().to_le_bytes(), &body].concat());
    let digest = sha256(&stream);
    stream.push(5);
    stream.extend(digest);
    stream
}

fn disk(sectors: u8) -> Vec<u8> {
    [&[2, sectors][..], &[0; 28]].concat()
}

fn zero_page(number: u8) -> Vec<u8> {
    vec![6, number, 0, 0, 0]
}

fn arrived(stream: &[u8]) -> Result<Machine, Error> {
    let mut arrival = Arrival::builder().most_pages(16).most_sectors(8).begin().unwrap();
    for piece in stream.chunks(777) {
        arrival.feed(piece)?;
    }
    arrival.finish().map_err(|refused| refused.error)
}

#[test]
fn the_digest_of_this_test_is_sha_256() {
    // The example of one block of FIPS 180-4.
    assert_eq!(sha256(b"abc")[..8], [0xba, 0x78, 0x16, 0xbf, 0x8f, 0x01, 0xcf, 0xea]);
}

#[test]
fn a_stream_of_a_new_machine_is_the_one_of_the_format() {
    let written = stream(2, 1, &[4], &[zero_page(0)]);
    let machine = Machine::builder().pages(1).device(Device::Entropy).build().unwrap();
    assert!(machine.save().unwrap() == written && written.len() == 125);
}

#[test]
fn a_stream_of_version_1_arrives() {
    let page = [&[1, 0, 0, 0, 0][..], &[0; 4096]].concat();
    let old = stream(1, 1, &[4], &[page]);
    assert_eq!(old.len(), 4221);
    assert!(arrived(&old).unwrap().save().unwrap() == stream(2, 1, &[4], &[zero_page(0)]));
}

#[test]
fn the_last_record_of_a_page_counts() {
    let page = [&[1, 0, 0, 0, 0][..], &[9; 4096]].concat();
    let records = [zero_page(0), vec![3, 1, 0, 0, 0], page, vec![3, 2, 0, 0, 0]];
    let machine = arrived(&stream(2, 1, &[4], &records)).unwrap();
    assert_eq!(bytes(&machine, 4095, 1), [9]);
}

#[test]
fn a_record_that_a_version_has_not_is_refused() {
    let zeros = [&[1, 0, 0, 0, 0][..], &[0; 4096]].concat();
    assert_eq!(arrived(&stream(2, 1, &[4], &[zeros])).unwrap_err(), Error::StreamBadPage);
    assert_eq!(arrived(&stream(1, 1, &[4], &[zero_page(0)])).unwrap_err(), Error::StreamBadTag);
}

#[test]
fn a_stream_with_a_right_digest_and_no_page_is_refused() {
    assert_eq!(arrived(&stream(2, 2, &[4], &[zero_page(1)])).unwrap_err(), Error::StreamMissing);
    assert_eq!(arrived(&stream(2, 1, &disk(1), &[zero_page(0)])).unwrap_err(), Error::StreamMissing);
}

#[test]
fn a_bad_sector_has_no_bytes_and_fails_a_read() {
    let good = [&[2, 0, 1, 0, 0, 0, 1][..], &[5; 512]].concat();
    let records: Vec<_> = (0..16).map(zero_page).chain([vec![2, 0, 0, 0, 0, 0, 0], good]).collect();
    let mut machine = arrived(&stream(2, 16, &disk(2), &records)).unwrap();
    let mut sector = [1; 512];
    assert_eq!((machine.read_sector(0, 0, &mut sector), sector), (Ok(false), [1; 512]));
    assert_eq!((machine.read_sector(0, 1, &mut sector), sector), (Ok(true), [5; 512]));

    let mut ring = Ring::new(0, 0, 0x1000);
    ready(&mut machine, 0, &[&ring]);
    request(&mut machine, 0x8000, 0, 0);
    ring.publish(&mut machine, &[(0x8000, 16, false), (0x9000, 512, true), (0xa000, 1, true)]);
    assert_eq!(work(&mut machine)[..2], ["Taken", "BadSector"]);
    // VIRTIO_BLK_S_IOERR of 5.2.6.
    assert_eq!((bytes(&machine, 0xa000, 1), machine.lines()), (vec![1], 1));
}
