//! A whole host, from its first line to a move: what a hypervisor in Rust has to do for its guest, as code that runs.
//!
//! A host has processors of a guest, which run on RAM and come out where they touch a device. All else is in a [`Machine`](crate::Machine): it has no
//! thread, and nothing happens between two calls. So a host is a loop: run the guest, make its access by one call, and do what the devices have to do.
//!
//! | rule | without it |
//! |---|---|
//! | a turn ([`Machine::work`](crate::Machine::work)) after each register write and each input, of a bounded number of steps | requests wait for ever; a hostile guest stops its host |
//! | every processor is outside while RAM is not lent: the devices write it then | the guest sees half of a step |
//! | hand a message on before the next step | all messages but the last are lost |
//! | tell the interrupt controller the lines that changed, before the guest runs again | the guest misses an interrupt |
//! | sync a disk before the step that owes it, and never again once that failed | a guest is told of durable data that is gone |
//! | in a move name every page that the guest wrote, before a round ends and before the stop | bytes of the guest are lost |
//! | run what arrived after the source's last word, and not before | two guests with one disk |
//!
//! The folder `docs/hosts` of the repository, and of a release, has the reasons, and what a host under KVM has besides: its page `kvm.md`.
//!
//! # RAM that is lent, and a disk in a file
//! The guest runs on memory of the host, which is lent to it, and the devices read and write the same bytes: nothing is copied. `Processor` is what your
//! hypervisor is to the rest.
//!
//! ```
//! use std::{fs::File, path::Path};
//! use vmig::{Device, Error, Image, Machine, Memory, Next, Pages, SENT_MAX, Step, SyncError, Turn, TurnEnd};
//!
//! type Failure = Box<dyn std::error::Error>;
//!
//! const BASE: u64 = 0x8000_0000;       // of RAM, as the guest counts addresses
//!
//! /// Why a processor came out.
//! enum Exit {
//!     Read { dev: u8, offset: u32, width: u8 },
//!     Write { dev: u8, offset: u32, width: u8, value: u32 },
//!     Wait,       // for an interrupt
//!     End,
//! }
//!
//! /// A processor of the guest.
//! trait Processor {
//!     /// Runs on RAM, `len` bytes at `ram`, until it comes out.
//!     fn run(&mut self, ram: *mut u8, len: usize) -> Exit;
//!
//!     /// What the read gives for which it came out.
//!     fn answer(&mut self, value: u32);
//!
//!     /// The interrupt lines, where one changed: bit d is the level of the line of device d.
//!     fn set_lines(&mut self, lines: u32);
//! }
//!
//! /// All that the machine does not have. `message` is what a step fills, and `terminal` what the guest printed.
//! struct Host<P> {
//!     processor: P,
//!     turn: Turn,
//!     message: Vec<u8>,
//!     lines: u32,
//!     terminal: Vec<u8>,
//! }
//!
//! /// A disk in a file, which is made where it is not there. A file that another host has is refused.
//! fn disk(path: &Path, sectors: u64) -> Result<Image, Failure> {
//!     let file = File::options().read(true).write(true).create(true).truncate(false).open(path)?;
//!     file.set_len(512 * sectors)?;
//!     // SAFETY: the file is this host's: no process cuts it, or reads or writes it in another way, and other hosts ask for its lock.
//!     Ok(unsafe { Image::map(file) }?)
//! }
//!
//! /// The machine over its RAM, with a kernel in it, and over its disk: it owns both from here on.
//! fn machine(kernel: &[u8], path: &Path) -> Result<Machine, Failure> {
//!     let (mut memory, disk) = (Memory::zeros(64)?, disk(path, 2048)?);
//!     memory[..kernel.len()].copy_from_slice(kernel);
//!     let devices = [Device::Console, Device::disk(disk.sectors())];
//!     Ok(Machine::builder().memory(memory).base(BASE).devices(&devices).image(disk).build()?)
//! }
//!
//! impl<P: Processor> Host<P> {
//!     /// The guest runs until its devices have work, or it waits; then they get their turn. Whether it has ended.
//!     fn run(&mut self, machine: Machine) -> Result<(Machine, bool), Failure> {
//!         let mut lent = machine.lend()?;
//!         let len = lent.ram().len();
//!         let has_ended = loop {
//!             match self.processor.run(lent.as_mut_ptr(), len) {
//!                 Exit::Read { dev, offset, width } => self.processor.answer(lent.read_register(dev, offset, width).unwrap_or(0)),
//!                 Exit::Write { dev, offset, width, value } => {
//!                     match lent.write_register(dev, offset, width, value) {
//!                         Ok(byte) => self.terminal.extend(byte),
//!                         Err(Error::NoDevice) => {}
//!                         Err(error) => return Err(error.into()),
//!                     }
//!                     self.tell_lines(lent.lines());
//!                     if lent.next(self.turn.last)? != Next::Idle {
//!                         break false;
//!                     }
//!                 }
//!                 Exit::Wait => break false,
//!                 Exit::End => break true,
//!             }
//!         };
//!         // With more processors than one: all of them are outside from here on, until RAM is lent again.
//!         let mut machine = lent.give_back(Pages::NONE)?;
//!         self.serve(&mut machine)?;
//!         Ok((machine, has_ended))
//!     }
//!
//!     /// A turn of the devices, and the lines after it.
//!     fn serve(&mut self, machine: &mut Machine) -> Result<(), Failure> {
//!         self.turn.left = 1000;
//!         loop {
//!             match machine.work(&mut self.turn, &mut self.message)? {
//!                 TurnEnd::Idle | TurnEnd::Unfinished => break,
//!                 TurnEnd::Answer(_, Step::Sent(text)) => self.terminal.extend_from_slice(text),
//!                 TurnEnd::SyncOwed(step) => match machine.sync(step.dev) {
//!                     Ok(()) => drop(machine.step(step, &mut self.message)?),
//!                     Err(SyncError::Refused(error)) => return Err(error.into()),
//!                     Err(lost) => eprintln!("device {}: {lost}", step.dev),        // the guest will read an error
//!                 },
//!                 other => eprintln!("{other:?}"),
//!             }
//!         }
//!         self.tell_lines(machine.lines());
//!         Ok(())
//!     }
//!
//!     fn tell_lines(&mut self, lines: u32) {
//!         if self.lines != lines {
//!             self.lines = lines;
//!             self.processor.set_lines(lines);
//!         }
//!     }
//! }
//! #
//! # /// A driver of the console that prints a text by one descriptor, and waits for its interrupt (VIRTIO 1.2, 2.7 and 3.1).
//! # #[derive(Default)]
//! # struct Driver { step: usize, lines: u32, magic: u32 }
//! #
//! # impl Processor for Driver {
//! #     fn run(&mut self, ram: *mut u8, len: usize) -> Exit {
//! #         let writes = [(0x070, 3), (0x024, 1), (0x020, 1), (0x070, 0xb), (0x030, 1), (0x038, 1), (0x080, 0x8000_1000), (0x090, 0x8000_2000),
//! #                       (0x0a0, 0x8000_3000), (0x044, 1), (0x070, 0xf), (0x050, 1)];
//! #         // SAFETY: RAM is lent, and nobody else has it.
//! #         let ram = unsafe { std::slice::from_raw_parts_mut(ram, len) };
//! #         assert_eq!(&ram[..6], b"kernel");
//! #         ram[0x4000..0x4005].copy_from_slice(b"hello");
//! #         ram[0x1000..0x1010].copy_from_slice(&[0, 0x40, 0, 0x80, 0, 0, 0, 0, 5, 0, 0, 0, 0, 0, 0, 0]);
//! #         ram[0x2002] = 1;
//! #         self.step += 1;
//! #         match (self.step, writes.get(self.step.saturating_sub(2))) {
//! #             (1, _) => Exit::Read { dev: 0, offset: 0, width: 4 },
//! #             (_, Some(&(offset, value))) => Exit::Write { dev: 0, offset, width: 4, value },
//! #             _ if self.lines == 0 => Exit::Wait,
//! #             _ => Exit::End,
//! #         }
//! #     }
//! #     fn answer(&mut self, value: u32) { self.magic = value; }
//! #     fn set_lines(&mut self, lines: u32) { self.lines = lines; }
//! # }
//! #
//! # fn main() -> Result<(), Failure> {
//! #     let path = std::env::temp_dir().join(format!("vmig-guide-{}", std::process::id()));
//! #     let mut host = Host { processor: Driver::default(), turn: Turn::default(), message: vec![0; SENT_MAX], lines: 0, terminal: Vec::new() };
//! #     let (mut machine, mut has_ended) = (machine(b"kernel", &path)?, false);
//! #     assert!(disk(&path, 2048).is_err());
//! #     for _ in 0..10 {
//! #         (machine, has_ended) = host.run(machine)?;
//! #     }
//! #     machine.sync_all()?;
//! #     assert_eq!((has_ended, host.processor.magic, &host.terminal[..]), (true, 0x7472_6976, &b"hello"[..]));
//! #     assert_eq!(machine.into_parts().images[0].sectors(), 2048);
//! #     std::fs::remove_file(path)?;
//! #     Ok(())
//! # }
//! ```
//!
//! - **What the host puts in**, a frame from its tap or what was typed, is [`Lent::input`](crate::Lent::input), then a turn: it may be work for a device.
//! - **More processors**: the machine lies behind a lock, and each makes its accesses under it. RAM goes back once all are outside, for which your
//!   hypervisor has a signal; `docs/hosts/ram.md` says how they do not starve each other.
//! - **Under KVM** the address of [`Lent::as_mut_ptr`](crate::Lent::as_mut_ptr) is that of the memory slot, the same at each loan.
//! - **A guest that is interpreted** needs no loan: [`Machine::read_ram`](crate::Machine::read_ram) and [`Machine::write_ram`](crate::Machine::write_ram)
//!   are its accesses.
//!
//! # Storage on request
//! A disk of any other kind, qcow2, over a network or by `io_uring`, is a [`Device::Outside`](crate::Device::Outside): its machine hands out what it asks of
//! the disk, threads do it while the guest runs, and the answer is a call. Here a file serves, in a thread of its own.
//!
//! ```
//! use std::{fs::File, io, os::unix::fs::FileExt, sync::mpsc::{Receiver, Sender}};
//! use vmig::{Call, DiskWork, Machine};
//!
//! type Failure = Box<dyn std::error::Error>;
//!
//! /// A call with its buffer, on its way to the thread, and back with how it ended.
//! struct Job {
//!     call: Call,
//!     bytes: Vec<u8>,
//!     end: End,
//! }
//!
//! enum End {
//!     Done,
//!     Failed,
//!     Lost,       // a sync failed: what was written before may be gone, and no later sync says so
//! }
//!
//! fn transfer(file: &File, job: &mut Job) -> io::Result<()> {
//!     let (at, len) = (512 * job.call.first(), job.call.len());
//!     match job.call.what() {
//!         DiskWork::Read => file.read_exact_at(&mut job.bytes[..len], at),
//!         DiskWork::Write => file.write_all_at(&job.bytes[..len], at),
//!         DiskWork::Clear => (0..u64::from(job.call.count())).try_for_each(|k| file.write_all_at(&[0; 512], at + 512 * k)),
//!         DiskWork::Flush => Ok(()),
//!         _ => Err(io::ErrorKind::Unsupported.into()),        // of a later version of this crate
//!     }
//! }
//!
//! /// The thread: it ends with the sender of its jobs.
//! fn serve(file: &File, jobs: &Receiver<Job>, ends: &Sender<Job>) {
//!     while let Ok(mut job) = jobs.recv() {
//!         let is_done = transfer(file, &mut job).is_ok();
//!         let owes_sync = job.call.what() == DiskWork::Flush || job.call.is_durable();
//!         job.end = match is_done {
//!             true if owes_sync && file.sync_data().is_err() => End::Lost,
//!             true => End::Done,
//!             false => End::Failed,
//!         };
//!         if ends.send(job).is_err() {
//!             return;
//!         }
//!     }
//! }
//!
//! /// After each turn, and where `next` is `Next::Call`: RAM is not lent, as a write's bytes are read there.
//! fn ask(machine: &mut Machine, jobs: &Sender<Job>) -> Result<(), Failure> {
//!     loop {
//!         let mut bytes = vec![0; 1 << 16];
//!         let Some(call) = machine.disk_call(&mut bytes)? else { return Ok(()) };
//!         jobs.send(Job { call, bytes, end: End::Failed })?;
//!     }
//! }
//!
//! /// Then a turn, which ends what was answered. `Lent::disk_done` and `Lent::disk_failed` do the same while RAM is lent, for all but a read.
//! fn answer(machine: &mut Machine, job: Job) -> Result<(), Failure> {
//!     let Job { call, bytes, end } = job;
//!     if matches!(end, End::Lost) {
//!         machine.sync_failed(call.dev())?;       // before any answer that comes after it
//!     }
//!     if matches!(end, End::Failed) {
//!         return machine.disk_failed(call).map_err(|refused| refused.error.into());
//!     }
//!     let read = if call.what() == DiskWork::Read { call.len() } else { 0 };
//!     let count = call.count();
//!     machine.disk_done(call, count, &bytes[..read]).map_err(|refused| refused.error.into())
//! }
//! #
//! # fn main() -> Result<(), Failure> {
//! #     use std::sync::mpsc::channel;
//! #     use vmig::{Device, Next, Turn, TurnEnd};
//! #     const WRITES: [(u32, u32); 14] = [(0x070, 3), (0x024, 0), (0x020, 1 << 9), (0x024, 1), (0x020, 1), (0x070, 0xb), (0x030, 0), (0x038, 16),
//! #                                       (0x080, 0x1000), (0x090, 0x2000), (0x0a0, 0x3000), (0x044, 1), (0x070, 0xf), (0x050, 0)];
//! #     let path = std::env::temp_dir().join(format!("vmig-guide-storage-{}", std::process::id()));
//! #     let file = File::options().read(true).write(true).create(true).truncate(true).open(&path)?;
//! #     let looked_at = file.try_clone()?;
//! #     let ((jobs, to_do), (ends, done)) = (channel(), channel());
//! #     let thread = std::thread::spawn(move || serve(&file, &to_do, &ends));
//! #     let mut machine = Machine::builder().pages(16).device(Device::outside(8)).build()?;
//! #     // A write of sector 3: a header of type 1, 512 bytes and the verdict (VIRTIO 1.2, 5.2.6).
//! #     machine.write_ram(0x4000, &[1, 0, 0, 0, 0, 0, 0, 0, 3, 0, 0, 0, 0, 0, 0, 0])?;
//! #     machine.write_ram(0x5000, &[7; 512])?;
//! #     machine.write_ram(0x6000, &[0xff])?;
//! #     for (k, (at, len, flags, next)) in [(0x4000_u64, 16_u32, 1_u16, 1_u16), (0x5000, 512, 1, 2), (0x6000, 1, 2, 0)].into_iter().enumerate() {
//! #         let descriptor = [&at.to_le_bytes()[..], &len.to_le_bytes(), &flags.to_le_bytes(), &next.to_le_bytes()].concat();
//! #         machine.write_ram(0x1000 + 16 * k as u64, &descriptor)?;
//! #     }
//! #     machine.write_ram(0x2000, &[0, 0, 1, 0, 0, 0])?;
//! #     for (offset, value) in WRITES {
//! #         machine.write_register(0, offset, 4, value)?;
//! #     }
//! #     let mut turn = Turn::new(100);
//! #     assert_eq!(machine.work(&mut turn, &mut [])?, TurnEnd::Idle);
//! #     assert_eq!(machine.next(turn.last)?, Next::Call(0));
//! #     ask(&mut machine, &jobs)?;
//! #     answer(&mut machine, done.recv()?)?;
//! #     turn.left = 100;
//! #     assert_eq!(machine.work(&mut turn, &mut [])?, TurnEnd::Idle);
//! #     let (mut sector, mut verdict) = ([0; 512], [9]);
//! #     looked_at.read_exact_at(&mut sector, 3 * 512)?;
//! #     machine.read_ram(0x6000, &mut verdict)?;
//! #     assert_eq!((sector, verdict, machine.lines()), ([7; 512], [0], 1));
//! #     drop(jobs);
//! #     thread.join().unwrap();
//! #     std::fs::remove_file(path)?;
//! #     Ok(())
//! # }
//! ```
//!
//! - **An answer comes once nothing of the call can land any more.** A time-out is none: a write that lands later lies over what the guest wrote since.
//! - **Storage that writes more than the sectors it is given**, as clusters or encrypted blocks are, says so by
//!   [`MachineBuilder::block`](crate::MachineBuilder::block): no two calls that are out share such a block.
//! - **`CallsOut`** of [`Lent::write_register`](crate::Lent::write_register), [`Machine::reset`](crate::Machine::reset) and
//!   [`Machine::send_stop`](crate::Machine::send_stop): answer what is out, and make the call again.
//! - **Before the bytes of a save are good** flush the storage: what was answered and not flushed lies in a cache.
//!
//! # A move
//! The machine is sent while its guest runs. Then the guest is paused, the rest goes out, and two words settle who runs it: READY, all is at the target
//! and on its disks, and GO, the source lets go.
//!
//! ```
//! use std::io::{Read, Write};
//! use vmig::{Arrival, Device, Image, Machine, Memory};
//!
//! type Failure = Box<dyn std::error::Error + Send + Sync>;
//!
//! const PAGES: u32 = 64;
//! const DEVICES: [Device; 2] = [Device::Console, Device::disk(8)];
//!
//! /// Who runs the guest once the source has said GO.
//! #[derive(Debug, PartialEq)]
//! enum Runs {
//!     There,
//!     AskOperator,        // the line broke: not here, unless an operator knows that it does not run there
//! }
//!
//! fn carry(machine: &mut Machine, line: &mut impl Write) -> Result<(), Failure> {
//!     let mut piece = [0; 1 << 16];
//!     while let got @ 1.. = machine.send_take(&mut piece)? {
//!         line.write_all(&piece[..got])?;
//!     }
//!     Ok(())
//! }
//!
//! /// `run_guest` lets the guest run for a while, and names the pages that it wrote, by `Lent::give_back` or `Machine::mark`. An error of this function
//! /// came before GO: call `send_abort`, and the guest goes on here.
//! fn send(
//!     machine: &mut Machine,
//!     line: &mut (impl Read + Write),
//!     mut run_guest: impl FnMut(&mut Machine) -> Result<(), Failure>,
//! ) -> Result<Runs, Failure> {
//!     machine.send_begin()?;
//!     for _round in 0..8 {
//!         while machine.send_some(16)? {
//!             carry(machine, line)?;
//!             run_guest(machine)?;
//!         }
//!         carry(machine, line)?;
//!         machine.send_round()?;
//!         let left = machine.send_left()?;
//!         if left.due_pages + left.due_sectors < 16 {
//!             break;
//!         }
//!     }
//!     machine.send_stop()?;       // the guest is paused from here on, and of disks outside nothing is out
//!     carry(machine, line)?;
//!     let mut word = [0];
//!     line.read_exact(&mut word)?;
//!     if word != *b"R" {
//!         return Err("the target is not ready".into());
//!     }
//!     // From here on no error says that the guest may run here.
//!     let is_gone = line.write_all(b"G").and_then(|()| line.read_exact(&mut word)).is_ok();
//!     Ok(if is_gone && word == *b"U" { Runs::There } else { Runs::AskOperator })
//! }
//!
//! /// The machine, once the source has let go: read its lines, give its devices their turn, and run it. The base is said to both hosts.
//! fn receive(line: &mut (impl Read + Write), disk: Image, base: u64) -> Result<Machine, Failure> {
//!     let mut arrival = Arrival::builder().devices(&DEVICES).memory(Memory::zeros(PAGES)?).base(base).image(disk).begin()?;
//!     let mut piece = [0; 1 << 16];
//!     while !arrival.is_whole() {
//!         match line.read(&mut piece)? {
//!             0 => return Err("the line ended before the stream did".into()),
//!             got => arrival.feed(&piece[..got])?,
//!         };
//!     }
//!     let mut machine = arrival.finish()?;
//!     machine.sync_all()?;
//!     line.write_all(b"R")?;
//!     let mut word = [0];
//!     line.read_exact(&mut word)?;        // without GO the guest stays paused, and an operator says whether it runs at the source
//!     if word != *b"G" {
//!         return Err("the source has not let go".into());
//!     }
//!     let _ = line.write_all(b"U");       // the guest runs here, whoever hears it
//!     Ok(machine)
//! }
//! #
//! # fn main() -> Result<(), Failure> {
//! #     use vmig::{Error, State};
//! #     let (mut here, mut there) = std::os::unix::net::UnixStream::pair()?;
//! #     let target = std::thread::spawn(move || receive(&mut there, Image::zeros(8).unwrap(), 0x1000));
//! #     let memory = Memory::zeros(PAGES)?;
//! #     let mut machine = Machine::builder().memory(memory).base(0x1000).devices(&DEVICES).image(Image::zeros(8)?).build()?;
//! #     machine.write_ram(0x3000, b"early")?;
//! #     let mut times = 0_u64;
//! #     let runs = send(&mut machine, &mut here, |machine| {
//! #         times += 1;
//! #         Ok(machine.write_ram(0x4000 + times, b"late")?)
//! #     });
//! #     assert_eq!((runs?, machine.state()), (Runs::There, State::Stopped));
//! #     let arrived = target.join().unwrap()?;
//! #     let (mut early, mut late) = ([0; 5], [0; 4]);
//! #     arrived.read_ram(0x3000, &mut early)?;
//! #     arrived.read_ram(0x4000 + times, &mut late)?;
//! #     assert_eq!((&early, arrived.state()), (b"early", State::Idle));
//! #     assert!(times > 0 && &late == b"late");
//! #     assert_eq!(machine.write_ram(0x1000, b"x"), Err(Error::Stopped));
//! #     Ok(())
//! # }
//! ```
//!
//! - **The processor** goes beside the stream, as the source's last word: without it the target cannot run the guest.
//! - **Disks outside** are in no stream: over storage that both hosts see answer all that is out, stop, flush and close it, and only then say GO. Say
//!   there too which disks are lost ([`Machine::is_lost`](crate::Machine::is_lost)): no stream does.
//! - **How much may arrive** the target says: [`ArrivalBuilder`](crate::ArrivalBuilder) allows nothing else.
//!
//! The example `host` of this crate is all of it in one program over TCP, but for storage on request: `cargo run --example host`. Its guest is
//! interpreted, and moves while it works.
