#![doc = include_str!("../README.md")]
//!
//! # The order of things
//! [`guide`] is a whole host: RAM that is lent, a disk in a file, storage on request, and a move.
//! - [`Machine::builder`] makes a [`Machine`]; [`Arrival::builder`] lets one arrive. RAM lies in memory of the library, or in a [`Memory`];
//!   disks in memory of the library, or in [`Image`]s.
//! - [`Machine::read_register`], [`Machine::write_register`] and [`Machine::input`] hand in what the guest and the host do,
//!   [`Machine::work`] does the devices' work, [`Machine::lines`] are the interrupts. [`Machine::next`] and [`Machine::step`] do the work step by
//!   step.
//! - [`Machine::lend`] gives RAM to a guest that runs on it, [`Lent::give_back`] takes it back for steps; all that needs no byte of RAM is done
//!   by a [`Lent`]. [`Machine::mark`] names pages that the guest wrote, [`Machine::written`] those that the library did.
//! - [`Machine::disk_call`] hands out what a [`Device::Outside`] asks of its disk, [`Machine::disk_done`] and [`Machine::disk_failed`] answer it.
//! - [`Machine::send_begin`] and the calls that begin with `send` move it.
//! - [`Machine::into_parts`] frees it, and gives back what was the caller's.
//! - [`Digest`] is the SHA-256 of what a host sends beside a stream. It needs no machine.
//!
//! # What does not compile
//! A machine that was freed or lent has no calls by its old name:
//! ```compile_fail,E0382
//! # use vmig::{Device, Machine};
//! let machine = Machine::builder().pages(1).device(Device::Console).build().unwrap();
//! let parts = machine.into_parts();
//! machine.lines();
//! ```
//! ```compile_fail,E0382
//! # use vmig::{Device, Machine, Memory};
//! let machine = Machine::builder().memory(Memory::zeros(1).unwrap()).device(Device::Console).build().unwrap();
//! let lent = machine.lend().unwrap();
//! machine.lines();
//! ```
//! One that is lent makes no step, and its RAM is read and written where it lies:
//! ```compile_fail,E0599
//! # use vmig::{Lent, Pick};
//! # fn program(mut lent: Lent) {
//! lent.step(Pick::default(), &mut []).unwrap();
//! # }
//! ```
//! ```compile_fail,E0599
//! # use vmig::{Lent, Turn};
//! # fn program(mut lent: Lent) {
//! lent.work(&mut Turn::new(1), &mut []).unwrap();
//! # }
//! ```
//! ```compile_fail,E0599
//! # use vmig::Lent;
//! # fn program(mut lent: Lent) {
//! lent.write_ram(0, b"bytes").unwrap();
//! # }
//! ```
//! Nor has one that was finished, refused or given back a second life:
//! ```compile_fail,E0382
//! # use vmig::Arrival;
//! let mut arrival = Arrival::builder().most_pages(1).begin().unwrap();
//! let machine = arrival.finish();
//! arrival.feed(b"more").unwrap();
//! ```
//! ```compile_fail,E0382
//! # use vmig::{Lent, Pages};
//! # fn program(lent: Lent) {
//! let machine = lent.give_back(Pages::NONE);
//! lent.lines();
//! # }
//! ```
//! What arrives has no registers before it is whole:
//! ```compile_fail,E0599
//! # use vmig::Arrival;
//! let arrival = Arrival::builder().most_pages(1).begin().unwrap();
//! arrival.read_register(0, 0, 4).unwrap();
//! ```
//! Memory and images are the machine's until they are given back:
//! ```compile_fail,E0382
//! # use vmig::{Device, Machine, Memory};
//! let memory = Memory::zeros(1).unwrap();
//! let machine = Machine::builder().memory(memory).device(Device::Console).build().unwrap();
//! println!("{}", memory[0]);
//! ```
//! ```compile_fail,E0382
//! # use vmig::{Device, Image, Machine};
//! let image = Image::zeros(1).unwrap();
//! let machine = Machine::builder().pages(1).device(Device::disk(1)).image(image).build().unwrap();
//! drop(image);
//! ```
//! ```compile_fail,E0505
//! # use vmig::{Device, Image, Machine};
//! let mut image = Image::zeros(1).unwrap();
//! let bytes = &mut image[..];
//! let machine = Machine::builder().pages(1).device(Device::disk(1)).image(image).build().unwrap();
//! bytes[0] = 1;
//! ```
//! RAM that was lent is not kept past its loan:
//! ```compile_fail,E0505
//! # use vmig::{Lent, Pages};
//! # fn program(mut lent: Lent) {
//! let ram = lent.ram_mut();
//! let machine = lent.give_back(Pages::ALL).unwrap();
//! ram[0] = 1;
//! # }
//! ```
//! A call of a disk is answered once:
//! ```compile_fail,E0382
//! # use vmig::{Call, Machine};
//! # fn program(mut machine: Machine, call: Call) {
//! machine.disk_failed(call).unwrap();
//! machine.disk_failed(call).unwrap();
//! # }
//! ```
//! ```compile_fail,E0599
//! # use vmig::Call;
//! # fn program(call: Call) {
//! let again = call.clone();
//! # }
//! ```
//! A message is handed on before the next step, or the rest of the turn, overwrites it:
//! ```compile_fail,E0499
//! # use vmig::{Machine, Pick, SENT_MAX, Step};
//! # fn program(mut machine: Machine) {
//! let mut buf = vec![0; SENT_MAX];
//! let first = machine.step(Pick::default(), &mut buf).unwrap();
//! let second = machine.step(Pick::default(), &mut buf).unwrap();
//! println!("{first:?}");
//! # }
//! ```
//! ```compile_fail,E0499
//! # use vmig::{Machine, SENT_MAX, Turn};
//! # fn program(mut machine: Machine) {
//! let (mut buf, mut turn) = (vec![0; SENT_MAX], Turn::new(1000));
//! let first = machine.work(&mut turn, &mut buf).unwrap();
//! let second = machine.work(&mut turn, &mut buf).unwrap();
//! println!("{first:?}");
//! # }
//! ```
//! A machine goes to another thread, and two threads do not have one:
//! ```
//! # use vmig::{Device, Machine};
//! let machine = Machine::builder().pages(1).device(Device::Console).build().unwrap();
//! std::thread::spawn(move || machine.lines()).join().unwrap();
//! ```
//! ```compile_fail,E0277
//! # use vmig::{Device, Machine};
//! let machine = Machine::builder().pages(1).device(Device::Console).build().unwrap();
//! std::thread::scope(|scope| {
//!     scope.spawn(|| machine.lines());
//!     machine.lines();
//! });
//! ```
//! ```compile_fail,E0524
//! # use vmig::{Device, Machine};
//! let mut machine = Machine::builder().pages(1).device(Device::Console).build().unwrap();
//! std::thread::scope(|scope| {
//!     let machine = &mut machine;
//!     scope.spawn(|| machine.reset());
//!     scope.spawn(|| machine.reset());
//! });
//! ```
//! What is refused does not become an [`Error`] by itself, which would drop it:
//! ```compile_fail,E0277
//! # use vmig::{Error, Lent, Machine, Pages};
//! fn back(lent: Lent) -> Result<Machine, Error> {
//!     Ok(lent.give_back(Pages::ALL)?)
//! }
//! ```

#[cfg(vmig_absent)]
mod absent;
mod arrival;
mod builder;
mod call;
mod device;
mod digest;
mod error;
pub mod guide;
mod image;
mod lent;
mod machine;
mod memory;
mod migration;
mod pages;
mod region;
mod turn;

pub use arrival::{Announced, Arrival, ArrivalBuilder, Fed, announced};
pub use builder::MachineBuilder;
pub use call::{Call, DiskWork};
pub use device::Device;
pub use digest::Digest;
pub use error::{Error, Refused, SyncError};
pub use image::Image;
pub use lent::Lent;
pub use machine::{Machine, Next, Parts, Pick, State, Step};
pub use memory::Memory;
pub use migration::{Due, Left};
pub use pages::Pages;
pub use turn::{Turn, TurnEnd};

use vmig_sys as raw;

/// The most bytes that a step can put into the buffer of its caller: a console's message.
pub const SENT_MAX: usize = raw::SENT_MAX;

/// The version of a page that the caller of [`Machine::pull`] has not seen.
pub const UNSEEN: u64 = raw::UNSEEN;

/// The version of the library that was linked: the major number from bit 16 on, the minor one from bit 8 on, and the patch.
#[must_use]
pub fn version() -> u32 {
    // SAFETY: the call has no parameters.
    unsafe { raw::vmig_version() }
}
