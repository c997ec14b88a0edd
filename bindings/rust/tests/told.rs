//! Moves whose digest the host tells. `VMIG_CUTTINGS` names another number of streams that are cut at random.

mod common;
use common::{Random, bytes, made};
use std::fmt::Debug;
use vmig::{Arrival, ArrivalBuilder, Device, Digest, Due, Error, Fed, Machine, Memory, Pages};

/// All that can be taken, in pieces of this length.
fn taken(machine: &mut Machine, length: usize) -> Vec<u8> {
    let (mut all, mut piece) = (Vec::new(), vec![0; length]);
    while let got @ 1.. = machine.send_take(&mut piece).unwrap() {
        all.extend_from_slice(&piece[..got]);
    }
    all
}

/// The text of a stream up to the stop, without the record that closes it.
fn stopped(machine: &mut Machine, length: usize) -> Vec<u8> {
    machine.send_begin_told().unwrap();
    assert_eq!(machine.send_some(2), Ok(true));
    let mut text = taken(machine, length);
    machine.write_ram(0x1ffe, b"written").unwrap();
    assert_eq!(machine.send_tell(&[0; 32]), Err(Error::NotAsked));
    machine.send_stop().unwrap();
    text.extend(taken(machine, length));
    text
}

fn digest_of(text: &[u8]) -> [u8; 32] {
    let mut digest = Digest::new();
    digest.add(text);
    digest.end()
}

#[test]
fn a_digest_is_told_after_the_stop() {
    for length in [1, 33, 5000, 1 << 20] {
        let mut machine = made(&[Device::Console, Device::disk(3)]);
        let mut text = stopped(&mut machine, length);
        assert_eq!(machine.send_tell(&digest_of(&text)), Ok(()));
        assert_eq!(machine.send_tell(&digest_of(&text)), Err(Error::NotAsked));
        let record = taken(&mut machine, length);
        assert_eq!((record.len(), record[0]), (33, 5));
        assert_eq!(record[1..], digest_of(&text));
        text.extend(record);

        let mut arrival = Arrival::builder().most_pages(16).most_sectors(3).begin().unwrap();
        assert_eq!(arrival.feed(&text), Ok(true));
        assert_eq!(bytes(&arrival.finish().unwrap(), 0x1ffe, 7), b"written");
    }
}

#[test]
fn another_digest_is_refused_where_it_arrives_and_the_machine_continues() {
    let mut machine = made(&[Device::Entropy]);
    let mut text = stopped(&mut machine, 100);
    let mut digest = digest_of(&text);
    digest[31] ^= 1;
    machine.send_tell(&digest).unwrap();
    text.extend(taken(&mut machine, 100));
    let mut arrival = Arrival::builder().most_pages(16).begin().unwrap();
    assert_eq!(arrival.feed(&text), Err(Error::StreamBadDigest));

    machine.send_abort().unwrap();
    let mut text = stopped(&mut machine, 4096);
    machine.send_abort().unwrap();
    assert_eq!(machine.send_tell(&digest_of(&text)), Err(Error::NotSending));
    text = stopped(&mut machine, 64);
    machine.send_tell(&digest_of(&text)).unwrap();
    text.extend(taken(&mut machine, 64));
    let mut arrival = Arrival::builder().most_pages(16).begin().unwrap();
    assert_eq!((arrival.feed(&text), arrival.finish().is_ok()), (Ok(true), true));
}

#[test]
fn a_digest_that_the_library_makes_is_not_told() {
    let mut machine = made(&[Device::Entropy]);
    assert_eq!(machine.send_tell(&[0; 32]), Err(Error::NotSending));
    machine.send_begin().unwrap();
    assert_eq!((machine.send_tell(&[0; 32]), machine.send_begin_told()), (Err(Error::NotAsked), Err(Error::Sending)));
    machine.send_stop().unwrap();
    assert_eq!(machine.send_tell(&[0; 32]), Err(Error::NotAsked));
}

const PAGES: u32 = 3;
const CUTTINGS: u32 = 300;
const RECORD: usize = 33;

/// Two machines that make the same calls, and what was taken of each. The digest of the first is told, and is made of what was taken.
struct Twins {
    machines: Vec<Machine>,
    taken: [Vec<u8>; 2],
    digest: Digest,
    random: Random,
}

impl Twins {
    fn new() -> Twins {
        let made = |_| {
            let builder = Machine::builder().memory(Memory::zeros(PAGES).unwrap());
            builder.devices(&[Device::Console, Device::disk(2)]).build().unwrap()
        };
        Twins { machines: (0..2).map(made).collect(), taken: Default::default(), digest: Digest::new(), random: Random(2_463_534_242) }
    }

    /// Takes of one of them, up to a number of bytes at random, or all. How many bytes came.
    fn take(&mut self, which: usize) -> usize {
        let limit = [2, 34, 600, 9000, 1 << 16][self.random.below(5) as usize];
        let mut piece = vec![0; 1 + self.random.below(limit) as usize];
        let got = self.machines[which].send_take(&mut piece).unwrap();
        self.taken[which].extend_from_slice(&piece[..got]);
        if which == 0 {
            self.digest.add(&piece[..got]);
        }
        got
    }

    /// A call of both, which they answer alike; then some of what waits is taken, now and then.
    fn both<T: PartialEq + Debug>(&mut self, call: impl Fn(&mut Machine) -> T) -> T {
        let answers: Vec<T> = self.machines.iter_mut().map(call).collect();
        assert_eq!(answers[0], answers[1]);
        for which in 0..2 {
            if self.random.below(3) == 0 {
                self.take(which);
            }
        }
        answers.into_iter().next().expect("two")
    }

    /// The guest writes while RAM is lent, and the page that is next is handed in, if one is.
    fn loan(&mut self) {
        let (page, at, value) = (self.random.below(PAGES), self.random.below(4096), self.random.below(256));
        let mut lents: Vec<_> = self.machines.drain(..).map(|machine| machine.lend().unwrap()).collect();
        let mut copy = [0; 4096];
        for lent in &mut lents {
            lent.ram_mut()[(page * 4096 + at) as usize] = value.to_le_bytes()[0];
            if let Due::Page(next) = lent.send_next().unwrap() {
                lent.copy_page(next, &mut copy).unwrap();
                lent.send_page(next, &copy).unwrap();
            }
        }
        assert_eq!(lents[0].send_left(), lents[1].send_left());
        self.machines.extend(lents.into_iter().map(|lent| lent.give_back(Pages::list(&[page])).unwrap()));
    }

    /// Sends both up to the stop, and takes all that can be taken.
    fn send(&mut self) {
        self.taken.iter_mut().for_each(Vec::clear);
        self.digest = Digest::new();
        self.machines[0].send_begin_told().unwrap();
        self.machines[1].send_begin().unwrap();
        for _ in 0..self.random.below(8) {
            let (addr, byte, most) = (self.random.below(PAGES * 4096), self.random.below(256), self.random.below(4));
            self.both(|machine| machine.write_ram(addr.into(), &byte.to_le_bytes()[..1])).unwrap();
            if self.random.below(2) == 0 {
                self.loan();
            }
            if !self.both(|machine| machine.send_some(most)).unwrap() {
                assert_eq!(self.both(Machine::send_round), Ok(true));
            }
            assert_eq!(self.machines[0].send_tell(&[0; 32]), Err(Error::NotAsked));
        }
        self.both(Machine::send_stop).unwrap();
        for which in 0..2 {
            while self.take(which) > 0 {}
        }
        let [text, whole] = &self.taken;
        assert_eq!((text.len() + RECORD, text[..] == whole[..text.len()]), (whole.len(), true));
    }

    fn abort(&mut self) {
        self.machines.iter_mut().for_each(|machine| machine.send_abort().unwrap());
    }

    /// The digest is told, and the record comes in pieces. What both took is one stream, and the machine that arrives is this one.
    fn tell(&mut self) {
        let digest = self.digest.end();
        assert_eq!(self.machines[0].send_tell(&digest), Ok(()));
        assert_eq!(self.machines[0].send_tell(&digest), Err(Error::NotAsked));
        while self.take(0) > 0 {}
        assert!(self.taken[0] == self.taken[1]);
        let mut arrival = Arrival::builder().most_pages(PAGES).most_sectors(2).begin().unwrap();
        for piece in self.taken[0].chunks(1 + self.random.below(5000) as usize) {
            arrival.feed(piece).unwrap();
        }
        let arrived = arrival.finish().unwrap().save().unwrap();
        self.abort();
        assert!(self.machines.iter().all(|machine| machine.save().unwrap() == arrived));
    }
}

/// Some moves are given up after the stop, before the digest is told.
#[test]
fn streams_that_are_cut_at_random_are_those_of_a_twin() {
    let cuttings: u32 = std::env::var("VMIG_CUTTINGS").map_or(CUTTINGS, |cuttings| cuttings.parse().expect("a number"));
    let mut twins = Twins::new();
    for _ in 0..cuttings {
        while twins.random.below(4) == 0 {
            twins.send();
            twins.abort();
        }
        twins.send();
        twins.tell();
    }
}

/// Feeds a stream in pieces of this length, and tells the digest of what was taken, with these bits of its last byte changed. What became of the
/// last piece.
fn fed(arrival: &mut Arrival, stream: &[u8], length: usize, changed: u8) -> Result<Fed, Error> {
    let (mut digest, mut at, mut last) = (Digest::new(), 0, Fed::All);
    while at < stream.len() {
        let piece = &stream[at..stream.len().min(at + length)];
        last = arrival.feed_some(piece)?;
        let used = if let Fed::Digest(used) = last { used } else { piece.len() };
        digest.add(&piece[..used]);
        at += used;
        if matches!(last, Fed::Digest(_)) {
            let mut told = digest.clone().end();
            told[31] ^= changed;
            assert_eq!((at, arrival.feed_tell(&told)), (stream.len() - 33, Ok(())));
        }
        assert_eq!((arrival.feed_tell(&[0; 32]), arrival.feed(&[5])), (Err(Error::NotAsked), Err(Error::NotAsked)));
    }
    Ok(last)
}

fn told() -> ArrivalBuilder {
    Arrival::builder().most_sectors(3).told()
}

#[test]
fn a_told_arrival_is_the_machine_that_was_sent() {
    let mut machine = made(&[Device::Console, Device::disk(3)]);
    machine.write_ram(0x1ffe, b"written").unwrap();
    let stream = machine.save().unwrap();
    for length in [1, 33, 5000, stream.len() - 33, stream.len()] {
        let over = told().memory(Memory::zeros(16).unwrap());
        for builder in [told().most_pages(16), over] {
            let mut arrival = builder.begin().unwrap();
            assert_eq!(fed(&mut arrival, &stream, length, 0), Ok(Fed::Whole));
            assert!(arrival.is_whole());
            assert_eq!(arrival.feed_some(&[]), Ok(Fed::Whole));
            assert_eq!(arrival.finish().unwrap().save().unwrap(), stream);
        }
    }
}

#[test]
fn each_damaged_byte_is_refused_as_by_an_arrival_that_digests() {
    let stream = Machine::builder().pages(1).device(Device::Entropy).build().unwrap().save().unwrap();
    for at in 0..stream.len() {
        let mut damaged = stream.clone();
        damaged[at] ^= 1 << (at % 8);
        let mut plain = Arrival::builder().most_pages(1).begin().unwrap();
        let mut arrival = told().most_pages(1).begin().unwrap();
        let wanted = plain.feed(&damaged).and(plain.finish().map_err(|refused| refused.error).map(drop));
        let got = fed(&mut arrival, &damaged, 7, 0).and(arrival.finish().map_err(|refused| refused.error).map(drop));
        assert!(wanted.is_err(), "byte {at}");
        assert_eq!(got, wanted, "byte {at}");
    }
}

#[test]
fn another_digest_is_refused_and_what_came_is_given_back() {
    let mut machine = made(&[Device::Entropy]);
    machine.write_ram(0x1ffe, b"written").unwrap();
    let stream = machine.save().unwrap();
    for length in [1, 100, stream.len()] {
        let mut arrival = told().memory(Memory::zeros(16).unwrap()).begin().unwrap();
        assert_eq!(fed(&mut arrival, &stream, length, 1), Err(Error::StreamBadDigest));
        assert_eq!((arrival.feed_some(&[0]), arrival.feed_tell(&[0; 32])), (Err(Error::StreamFailed), Err(Error::StreamFailed)));
        assert_eq!(arrival.fault().unwrap().0, Error::StreamBadDigest);
        let memory = arrival.into_parts().memory.unwrap();
        assert_eq!(Machine::builder().memory(memory).device(Device::Entropy).build().unwrap().save().unwrap(), stream);
    }
}

#[test]
fn an_arrival_that_digests_is_told_nothing() {
    let stream = made(&[Device::Entropy]).save().unwrap();
    let mut arrival = Arrival::builder().most_pages(16).begin().unwrap();
    assert_eq!((arrival.feed_some(&stream[..50]), arrival.feed_tell(&[0; 32])), (Ok(Fed::All), Err(Error::NotAsked)));
    assert_eq!((arrival.feed_some(&stream[50..]), arrival.feed_tell(&[0; 32])), (Ok(Fed::Whole), Err(Error::NotAsked)));
    assert_eq!(arrival.finish().unwrap().save().unwrap(), stream);
}
