//! A move over a socket. The source sends the stream, and waits for the word that all is there; then it sends the processor, which lets the
//! target run the guest, and is done. Where the line breaks before that word the guest goes on at the source; after it nobody but the target
//! may run the guest.

use crate::cpu::{Cpu, RAM};
use crate::guest::PAGES;
use crate::{DEVICES, Failure, new_disk};
use std::io::{Read, Write};
use std::net::{TcpListener, TcpStream};
use std::path::Path;
use vmig::{Arrival, Machine, Memory};

/// A move that has begun: the machine is sent while its guest runs.
pub struct Sending {
    pub line: TcpStream,
    pub rounds: u32,
}

impl Sending {
    /// A little more of the machine goes out, or where little is left the guest is paused, and all of it. Whether the guest has moved. An error
    /// says that it may go on here.
    pub fn go_on(&mut self, machine: &mut Machine, cpu: &Cpu) -> Result<bool, Failure> {
        let is_round_over = !machine.send_some(4)? && machine.send_round()?;
        self.rounds += u32::from(is_round_over);
        self.carry(machine)?;
        let left = machine.send_left()?;
        if !is_round_over || (left.due_pages + left.due_sectors >= 8 && self.rounds < 10) {
            return Ok(false);
        }
        machine.send_stop()?;
        self.carry(machine)?;
        // The target's word that all is there: a byte. Where none comes it has no processor, and cannot run the guest.
        self.line.set_read_timeout(Some(std::time::Duration::from_secs(10)))?;
        self.line.read_exact(&mut [0])?;
        // From the first of these bytes on the guest may run there, so an error of this write is none for the source.
        match self.line.write_all(&cpu.to_bytes()) {
            Ok(()) => println!("\nhost: the guest has moved"),
            Err(error) => eprintln!("host: {error}: whether the guest runs at the target is not known, so it is not run here"),
        }
        Ok(true)
    }

    fn carry(&mut self, machine: &mut Machine) -> Result<(), Failure> {
        let mut piece = [0; 16_384];
        while let got @ 1.. = machine.send_take(&mut piece)? {
            self.line.write_all(&piece[..got])?;
        }
        Ok(())
    }
}

/// A machine and its processor come to an address, which is printed, into RAM and a disk of this host.
pub fn receive(disk: &Path, address: &str) -> Result<(Machine, Cpu), Failure> {
    let mut arrival = Arrival::builder().devices(&DEVICES).base(RAM.into()).memory(Memory::zeros(PAGES)?).image(new_disk(disk)?).begin()?;
    let listener = TcpListener::bind(address)?;
    println!("{}", listener.local_addr()?);
    let mut line = listener.accept()?.0;
    let mut piece = [0; 16_384];
    while !arrival.is_whole() {
        match line.read(&mut piece)? {
            0 => return Err("the line ended before the stream did".into()),
            got => arrival.feed(&piece[..got])?,
        };
    }
    let mut machine = arrival.finish()?;
    machine.sync_all()?;
    line.write_all(b"R")?;
    let mut bytes = [0; 36];
    line.read_exact(&mut bytes)?;
    Ok((machine, Cpu::from_bytes(&bytes)))
}
