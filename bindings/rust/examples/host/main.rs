//! A whole host over the crate alone: RAM of its own that is lent to the guest, a disk in a file, a console, and a move to another process.
//!
//! `host DISK` runs the guest, which writes each sector of its disk, and a dot for each. `host DISK --listen ADDRESS` waits for one, and says
//! where; `host DISK --connect ADDRESS` runs it and moves it there while it works. `tests/host.rs` tries all of it.
#![allow(clippy::cast_possible_truncation)]

mod cpu;
mod guest;
mod moving;

use cpu::{Cpu, Exit, WINDOW, WINDOWS};
use moving::Sending;
use std::fs::File;
use std::io::Write;
use std::net::TcpStream;
use std::path::Path;
use vmig::{Device, Image, Machine, Memory, Next, Pages, SENT_MAX, Step, SyncError, Turn, TurnEnd};

type Failure = Box<dyn std::error::Error>;

const DEVICES: [Device; 2] = [Device::disk(guest::SECTORS as u64), Device::Console];

/// The disk in a file, which is made where it is not there.
fn new_disk(path: &Path) -> Result<Image, Failure> {
    let file = File::options().read(true).write(true).create(true).truncate(false).open(path)?;
    file.set_len(512 * u64::from(guest::SECTORS))?;
    // SAFETY: the file is this host's, and other hosts ask for its lock.
    Ok(unsafe { Image::map(file) }?)
}

/// A guest, from its first instruction or from where it was when it came.
struct Host {
    cpu: Cpu,
    turn: Turn,
    message: Vec<u8>,
    messages_sent: usize,
}

impl Host {
    /// The guest runs on RAM that is lent to it, and its registers are served meanwhile. RAM comes back where its devices have work, where the
    /// guest waits, after some exits, and where it has ended: whether it has. A loan of this RAM and a list of its pages are never refused.
    fn run_a_while(&mut self, machine: Machine) -> Result<(Machine, bool), Failure> {
        let mut written = Vec::new();
        let mut lent = machine.lend()?;
        let mut has_ended = false;
        for _ in 0..1000 {
            match self.cpu.run(lent.ram_mut(), &mut written) {
                Exit::Halt => {
                    has_ended = true;
                    break;
                }
                Exit::Wait => break,
                Exit::Read(address, register) => {
                    let (dev, offset) = window(address);
                    self.cpu.registers[register] = lent.read_register(dev, offset, 4).unwrap_or(0);
                }
                Exit::Write(address, value) => {
                    let (dev, offset) = window(address);
                    // A device that there is not takes no writes.
                    let byte = lent.write_register(dev, offset, 4, value).unwrap_or(None);
                    std::io::stdout().write_all(byte.as_slice())?;
                    if lent.next(self.turn.last)? != Next::Idle {
                        break;
                    }
                }
            }
        }
        let mut machine = lent.give_back(Pages::list(&written))?;
        self.serve(&mut machine)?;
        Ok((machine, has_ended))
    }

    /// A turn of the devices. It has an end, as a guest can give them work without one.
    fn serve(&mut self, machine: &mut Machine) -> Result<(), Failure> {
        self.turn.left = 1000;
        loop {
            match machine.work(&mut self.turn, &mut self.message)? {
                TurnEnd::Idle | TurnEnd::Unfinished => return Ok(()),
                TurnEnd::Answer(_, Step::Sent(text)) => {
                    std::io::stdout().write_all(text)?;
                    self.messages_sent += 1;
                }
                TurnEnd::Answer(step, answer) => eprintln!("host: device {}: {answer:?}", step.dev),
                TurnEnd::SyncOwed(step) => match machine.sync(step.dev) {
                    Ok(()) => {
                        let _ = machine.step(step, &mut self.message)?;
                    }
                    Err(SyncError::Refused(error)) => return Err(error.into()),
                    // The disk is lost, and the guest will be told. The step is not made.
                    Err(lost) => eprintln!("host: device {}: {lost}", step.dev),
                },
                other => eprintln!("host: {other:?}"),
            }
        }
    }

    /// Runs the guest to its end, or until it has moved: over this line, if there is one, as soon as it has written some sectors. Where the
    /// move fails it goes on here.
    fn run(mut self, mut machine: Machine, mut line: Option<TcpStream>) -> Result<(), Failure> {
        let mut sending = None;
        self.serve(&mut machine)?;
        loop {
            let (back, has_ended) = self.run_a_while(machine)?;
            machine = back;
            if has_ended {
                machine.sync_all()?;
                println!("\nhost: the guest has ended, and its disk is in its file");
                return Ok(());
            }
            if let Some(line) = line.take_if(|_| self.messages_sent == 64) {
                machine.send_begin()?;
                sending = Some(Sending { line, rounds: 0 });
            }
            let Some(moving) = &mut sending else { continue };
            match moving.go_on(&mut machine, &self.cpu) {
                Ok(true) => return Ok(()),
                Ok(false) => {}
                Err(error) => {
                    eprintln!("host: the guest goes on here: {error}");
                    machine.send_abort()?;
                    sending = None;
                }
            }
        }
    }
}

/// The device of an address outside RAM, and the offset in its window. Where none is there its number is one that no device has.
fn window(address: u32) -> (u8, u32) {
    let place = address.wrapping_sub(WINDOWS);
    (u8::try_from(place / WINDOW).unwrap_or(u8::MAX), place % WINDOW)
}

fn new_machine(disk: &Path) -> Result<Machine, Failure> {
    let mut memory = Memory::zeros(guest::PAGES)?;
    guest::load(&mut memory);
    let builder = Machine::builder().memory(memory).base(cpu::RAM.into());
    Ok(builder.devices(&DEVICES).image(new_disk(disk)?).build()?)
}

fn main() -> Result<(), Failure> {
    let words: Vec<String> = std::env::args().skip(1).collect();
    let (machine, cpu, line) = match words.iter().map(String::as_str).collect::<Vec<_>>()[..] {
        [disk] => (new_machine(disk.as_ref())?, Cpu::default(), None),
        [disk, "--connect", address] => (new_machine(disk.as_ref())?, Cpu::default(), Some(TcpStream::connect(address)?)),
        [disk, "--listen", address] => moving::receive(disk.as_ref(), address).map(|(machine, cpu)| (machine, cpu, None))?,
        _ => return Err("usage: host DISK [--listen ADDRESS | --connect ADDRESS]".into()),
    };
    Host { cpu, turn: Turn::default(), message: vec![0; SENT_MAX], messages_sent: 0 }.run(machine, line)
}
