//! A move by three threads. One holds the machine: it copies, and takes what waits. The second digests what was taken, and the third feeds it to
//! the target, as a host would that sends it over a wire. The digest is told after the stop, when all but the last 33 bytes was taken; so the
//! thread that holds the machine digests nothing.

use std::sync::Arc;
use std::sync::mpsc::{Receiver, SyncSender, sync_channel};
use std::thread;
use std::time::{Duration, Instant};
use vmig::{Arrival, Device, Error, Machine};

/// The mebibytes of RAM where no word names them, the bytes of a piece, and how many pieces may wait for a thread.
const MIB: u32 = 4;
const PIECE: usize = 1 << 16;
const WAITING: usize = 64;

/// Why a move failed.
pub type Failure = Box<dyn std::error::Error + Send + Sync>;

/// A SHA-256 (FIPS 180-4) of bytes that come in pieces.
pub trait Sha256: Send + 'static {
    /// Adds bytes.
    fn add(&mut self, bytes: &[u8]);

    /// That of all bytes that were added.
    fn end(self) -> [u8; 32];
}

/// What was taken, for the two threads that need it.
type Piece = Arc<[u8]>;

/// The way of the bytes: to whoever digests them, until the digest is told, and to the target.
struct Ways {
    digester: Option<SyncSender<Piece>>,
    target: SyncSender<Piece>,
}

/// Digests what comes. The digest, and how long it took.
fn digested(mut digest: impl Sha256, pieces: &Receiver<Piece>) -> ([u8; 32], Duration) {
    let mut time = Duration::ZERO;
    for piece in pieces {
        let begun = Instant::now();
        digest.add(&piece);
        time += begun.elapsed();
    }
    (digest.end(), time)
}

/// Feeds what comes to a target, until the stream is whole.
fn arrived(mut arrival: Arrival, pieces: &Receiver<Piece>) -> Result<Machine, Error> {
    for piece in pieces {
        arrival.feed(&piece)?;
    }
    arrival.finish().map_err(|refused| refused.error)
}

/// Takes what waits, and sends it both ways. How long the calls of the machine took.
fn carry(machine: &mut Machine, ways: &Ways) -> Result<Duration, Failure> {
    let (mut buf, mut time) = (vec![0; PIECE], Duration::ZERO);
    loop {
        let begun = Instant::now();
        let got = machine.send_take(&mut buf)?;
        time += begun.elapsed();
        if got == 0 {
            return Ok(time);
        }
        let piece = Piece::from(&buf[..got]);
        for way in ways.digester.iter().chain([&ways.target]) {
            way.send(piece.clone()).map_err(|_| "a thread of the move has ended")?;
        }
    }
}

/// A machine whose RAM has no page of zeros.
fn made(pages: u32) -> Result<Machine, Failure> {
    let mut machine = Machine::builder().pages(pages).device(Device::Console).large().build()?;
    for page in 0..pages {
        let bytes: Vec<u8> = (0..1024).flat_map(|word| (word * 31 + page * 7 + 1).to_le_bytes()).collect();
        machine.write_ram(4096 * u64::from(page), &bytes)?;
    }
    Ok(machine)
}

/// Whether both have the same RAM.
fn is_same(one: &Machine, other: &Machine) -> Result<bool, Failure> {
    let (mut left, mut right) = ([0; 4096], [1; 4096]);
    for page in 0..one.pages() {
        one.read_ram(4096 * u64::from(page), &mut left)?;
        other.read_ram(4096 * u64::from(page), &mut right)?;
        if left != right {
            return Ok(false);
        }
    }
    Ok(one.pages() == other.pages())
}

/// Sends the machine, all but the record that closes the stream. How long its calls took.
fn sent(machine: &mut Machine, ways: &Ways) -> Result<Duration, Failure> {
    let begun = Instant::now();
    machine.send_begin_told()?;
    let mut time = begun.elapsed();
    loop {
        let begun = Instant::now();
        let is_more = machine.send_some(64)?; // the guest runs between these
        time += begun.elapsed() + carry(machine, ways)?;
        if !is_more {
            break;
        }
    }
    machine.write_ram(0x1ffe, b"the guest wrote")?;
    let begun = Instant::now();
    machine.send_stop()?; // and is paused from here on
    Ok(time + begun.elapsed() + carry(machine, ways)?)
}

/// Moves a machine of as many mebibytes as the first word of the program says, with this digest.
pub fn run(name: &str, digest: impl Sha256) -> Result<(), Failure> {
    let mib = std::env::args().nth(1).map_or(Ok(MIB), |word| word.parse())?;
    let pages = mib.checked_mul(256).ok_or("too many mebibytes")?;
    let mut machine = made(pages)?;
    let arrival = Arrival::builder().most_pages(pages).device(Device::Console).large().begin()?;

    let begun = Instant::now();
    let ((digester, to_digest), (target, to_target)) = (sync_channel(WAITING), sync_channel(WAITING));
    let digesting = thread::spawn(move || digested(digest, &to_digest));
    let arriving = thread::spawn(move || arrived(arrival, &to_target));
    let mut ways = Ways { digester: Some(digester), target };
    let source = sent(&mut machine, &ways)?;
    ways.digester = None; // nothing more comes, so that thread ends
    let (digest, digest_time) = digesting.join().map_err(|_| "the digest failed")?;
    machine.send_tell(&digest)?;
    carry(&mut machine, &ways)?;
    drop(ways);
    let arrived = arriving.join().map_err(|_| "the target failed")??;
    let all = begun.elapsed();

    if !is_same(&machine, &arrived)? {
        return Err("what arrived is another machine".into());
    }
    println!("{name}: {mib} MiB in {all:.2?}: calls of the source {source:.2?}, the digest beside them {digest_time:.2?}");
    println!("{name}: all as expected");
    Ok(())
}
