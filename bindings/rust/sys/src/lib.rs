//! The calls of `vmig.h`, as Rust declares them, and no more: what each does, what its status means and what its caller owes, the header says. A
//! program takes the crate `vmig` over this one, which is safe. This one is for who makes another binding.
//!
//! The names are those of the header without `vmig_` and `VMIG_`, but for the calls. A struct begins with the constant of its name, as [`SETUP`]. RAM
//! or an image that is null and has a length the header refuses for C by a macro; here nothing does, so a pointer is null only where its count is 0.
//!
//! `build.rs` finds `libvmig.a`: where `VMIG_LIB` says, or by pkg-config. It tells crates over this one, as cargo's variables `DEP_VMIG_HEADER` and
//! `DEP_VMIG_ABSENT`, which header lies beside it, and whether it was not found: then a program is not linked.
//!
//! ```no_run
//! use vmig_sys as raw;
//!
//! let shape = raw::Shape { kind: raw::ENTROPY, ..raw::Shape::default() };
//! let mut setup = raw::Setup { pages: 16, shapes: &raw const shape, count: 1, ..raw::SETUP };
//! let (mut machine, mut value) = (raw::NONE, 0);
//! // SAFETY: there is no machine in the handle, and what the pointers name lives until after the calls.
//! unsafe {
//!     assert_eq!(raw::vmig_make(&raw mut setup, &raw mut machine), raw::OK);
//!     assert_eq!(raw::vmig_reg_read(&raw const machine, 0, 0x000, 4, &raw mut value), raw::OK);
//!     raw::vmig_free(&raw mut machine);
//! }
//! assert_eq!(value, 0x7472_6976);
//! ```
#![no_std]

/// A machine, or none: `NONE` before its first use, and then only the calls write it.
#[repr(C)]
#[derive(Debug)]
pub struct Machine {
    /// What the library has for it.
    at: *mut core::ffi::c_void,
}

/// No machine.
pub const NONE: Machine = Machine { at: core::ptr::null_mut() };

/// A device. What its kind does not need is 0.
#[repr(C)]
#[derive(Clone, Copy, Debug, Default)]
pub struct Shape {
    /// The number of its kind.
    pub kind: u8,
    /// Of a disk: whether the driver may only read it.
    pub read_only: u8,
    /// Of a network device.
    pub mac: [u8; 6],
    /// Of a disk.
    pub sectors: u64,
    /// Of a disk: the id that it returns to a driver.
    pub id: [u8; 20],
    /// Of a network device: how many bytes its longest frame has; 0 is 1,514.
    pub frame: u32,
    /// 0.
    pub reserved: [u64; 2],
}

/// The sectors of a disk in the caller's memory.
#[repr(C)]
#[derive(Debug)]
pub struct Image {
    /// The first byte.
    pub at: *mut core::ffi::c_void,
    /// How many sectors.
    pub sectors: u64,
}

// The header says the size of this one, of which descriptions have sixteen.
const _: () = assert!(size_of::<Shape>() == 56 && size_of::<Description>() == 96 + 16 * 56 && size_of::<Call>() == 40);
const _: () = assert!(size_of::<Digest>() == 112 && align_of::<Digest>() == 8);

/// No image.
pub const NO_IMAGE: Image = Image { at: core::ptr::null_mut(), sectors: 0 };

/// Memory of the caller that is the RAM of a machine, or is to be.
#[repr(C)]
#[derive(Debug)]
pub struct Ram {
    /// The first byte.
    pub at: *mut core::ffi::c_void,
    /// How many bytes: whole pages.
    pub len: usize,
}

/// No memory.
pub const NO_RAM: Ram = Ram { at: core::ptr::null_mut(), len: 0 };

/// Pages of RAM: begin with `NO_PAGES`.
#[repr(C)]
#[derive(Debug)]
pub struct Pages {
    /// Numbers of pages.
    pub list: *const u32,
    /// How many.
    pub count: usize,
    /// A bitmap.
    pub words: *const u64,
    /// Its words.
    pub count_words: usize,
    /// The first page of the bitmap.
    pub first: u32,
    /// How many pages it covers; 0 to the end of RAM.
    pub span: u32,
    /// 1: every page.
    pub all: u32,
    /// 0.
    pub zero: u32,
    /// 0.
    pub reserved: [u64; 2],
}

/// No page.
pub const NO_PAGES: Pages = Pages {
    list: core::ptr::null(),
    count: 0,
    words: core::ptr::null(),
    count_words: 0,
    first: 0,
    span: 0,
    all: 0,
    zero: 0,
    reserved: [0; 2],
};

/// How a machine is made: begin with `SETUP`.
#[repr(C)]
#[derive(Debug)]
pub struct Setup {
    /// Of this struct: 1.
    pub version: u32,
    /// Of RAM.
    pub pages: u32,
    /// The devices.
    pub shapes: *const Shape,
    /// How many.
    pub count: usize,
    /// The disks' first contents.
    pub contents: *const u8,
    /// Their bytes.
    pub len: usize,
    /// The disks.
    pub images: *mut Image,
    /// How many.
    pub count_images: usize,
    /// RAM.
    pub ram: Ram,
    /// The guest-physical address of RAM's first byte.
    pub base: u64,
    /// `LARGE`, `LOG`, both, or 0.
    pub flags: u32,
    /// Of disks outside: sectors of the largest block of the caller's storage; 0 is 1.
    pub block: u32,
    /// Of disks outside: the number of the first call.
    pub calls_from: u64,
    /// 0.
    pub reserved: [u64; 3],
}

/// No machine yet: the version of the struct, and else zeros.
pub const SETUP: Setup = Setup {
    version: 1,
    pages: 0,
    shapes: core::ptr::null(),
    count: 0,
    contents: core::ptr::null(),
    len: 0,
    images: core::ptr::null_mut(),
    count_images: 0,
    ram: NO_RAM,
    base: 0,
    flags: 0,
    block: 0,
    calls_from: 0,
    reserved: [0; 3],
};

/// How a machine arrives: begin with `ARRIVAL`, which allows nothing.
#[repr(C)]
#[derive(Debug)]
pub struct Arrival {
    /// Of this struct: 1.
    pub version: u32,
    /// The most pages of RAM in memory of the library.
    pub most_pages: u32,
    /// The most sectors of all disks in memory of the library.
    pub most_sectors: u64,
    /// Exactly these devices.
    pub shapes: *const Shape,
    /// How many; 0: any.
    pub count: usize,
    /// The disks.
    pub images: *mut Image,
    /// How many.
    pub count_images: usize,
    /// RAM.
    pub ram: Ram,
    /// The guest-physical address of RAM's first byte.
    pub base: u64,
    /// `LARGE`, `LOG`, both, or 0.
    pub flags: u32,
    /// How many bytes the longest frame of a network device may have, unless shapes name a longer one; 0 is 1,514.
    pub frame: u32,
    /// The most sectors of each disk outside; 0: none, unless shapes name them.
    pub most_outside: u64,
    /// Of disks outside: sectors of the largest block of the caller's storage; 0 is 1.
    pub block: u32,
    /// 0.
    pub zero: u32,
    /// Of disks outside: the number of the first call.
    pub calls_from: u64,
    /// 0.
    pub reserved: [u64; 1],
}

/// It allows nothing: the version of the struct, and else zeros.
pub const ARRIVAL: Arrival = Arrival {
    version: 1,
    most_pages: 0,
    most_sectors: 0,
    shapes: core::ptr::null(),
    count: 0,
    images: core::ptr::null_mut(),
    count_images: 0,
    ram: NO_RAM,
    base: 0,
    flags: 0,
    frame: 0,
    most_outside: 0,
    block: 0,
    zero: 0,
    calls_from: 0,
    reserved: [0; 1],
};

/// What a handle has, or what a stream announces.
#[repr(C)]
#[derive(Clone, Copy, Debug, Default)]
pub struct Description {
    /// One of those whose names begin with `IS_`.
    pub state: u32,
    /// 1: RAM is out.
    pub lent: u32,
    /// Of RAM.
    pub pages: u32,
    /// Of devices.
    pub count: u32,
    /// Of RAM.
    pub base: u64,
    /// `LARGE`, `LOG`, both, or 0.
    pub flags: u32,
    /// Calls of disks outside that were handed out and not answered.
    pub calls_out: u32,
    /// The round that is open, or how many have ended.
    pub rounds: u32,
    /// The status that was answered first.
    pub fault: u32,
    /// How many bytes came before the piece that was refused.
    pub fault_at: u64,
    /// How many slots a release needs.
    pub images: u32,
    /// Bit d: the disk of device d.
    pub lost: u32,
    /// The size of buffer that is enough for every step.
    pub message: u32,
    /// 1: the stream has ended, and is right.
    pub whole: u32,
    /// 0.
    pub reserved: [u64; 4],
    /// Of the devices.
    pub shapes: [Shape; 16],
}

/// A turn of the devices.
#[repr(C)]
#[derive(Clone, Copy, Debug, Default)]
pub struct Turn {
    /// The device of the step that was made or passed over last.
    pub dev: u8,
    /// Its pick.
    pub pick: u8,
    /// 0.
    pub zero: u16,
    /// How many steps may still be made or passed over.
    pub left: u32,
    /// Of a message its bytes, of a chain that was completed its used length.
    pub len: u32,
    /// 0.
    pub zero2: u32,
    /// 0.
    pub reserved: [u64; 2],
}

/// A call of a disk outside.
#[repr(C)]
#[derive(Clone, Copy, Debug, Default, PartialEq, Eq)]
pub struct Call {
    /// No other call of the machine has it.
    pub number: u64,
    /// The first sector.
    pub first: u64,
    /// How many sectors; 0 of a flush.
    pub count: u32,
    /// The device.
    pub dev: u8,
    /// One of those whose names begin with `DISK_`.
    pub what: u8,
    /// 1: durable before it is answered.
    pub durable: u8,
    /// 0.
    pub zero: u8,
    /// 0.
    pub reserved: [u64; 2],
}

/// A digest of which more may come: `vmig_digest_begin` writes it first, and then only the calls do.
#[repr(C)]
#[derive(Clone, Copy, Debug)]
pub struct Digest {
    /// The library's.
    pub hash: [u32; 8],
    /// The library's.
    pub block: [u8; 64],
    /// The library's.
    pub length: u64,
    /// 0.
    pub reserved: u64,
}

/// One that is not begun.
pub const NO_DIGEST: Digest = Digest { hash: [0; 8], block: [0; 64], length: 0, reserved: 0 };

/// What is left to be sent.
#[repr(C)]
#[derive(Clone, Copy, Debug, Default)]
pub struct Left {
    /// Due in this round.
    pub due_pages: u64,
    /// Due in this round.
    pub due_sectors: u64,
    /// Written since they were sent.
    pub dirty_pages: u64,
    /// Written since they were sent.
    pub dirty_sectors: u64,
    /// A stop would write at most so many bytes; 0 of a stopped machine.
    pub stop_bytes: u64,
    /// 0.
    pub reserved: [u64; 3],
}

/// A flag of a setup and of an arrival: more pages and sectors than the usual are allowed.
pub const LARGE: u32 = 1;
/// A flag of a setup and of an arrival: the pages that calls write are logged.
pub const LOG: u32 = 2;
/// A flag of `vmig_send_begin_as` and of an arrival: the caller tells the digest of the stream, by `vmig_send_tell` and `vmig_feed_tell`.
pub const TOLD: u32 = 4;

/// A network device.
pub const NETWORK: u8 = 1;
/// A block device.
pub const BLOCK: u8 = 2;
/// A console.
pub const CONSOLE: u8 = 3;
/// An entropy device.
pub const ENTROPY: u8 = 4;
/// A block device whose disk is outside.
pub const BLOCK_OUTSIDE: u8 = 130;

/// Sectors are read.
pub const DISK_READ: u8 = 1;
/// Sectors are written.
pub const DISK_WRITE: u8 = 2;
/// Sectors are cleared.
pub const DISK_CLEAR: u8 = 3;
/// What was answered before is made durable.
pub const DISK_FLUSH: u8 = 4;

/// No machine.
pub const IS_NONE: u32 = 0;
/// A machine arrives.
pub const IS_ARRIVING: u32 = 1;
/// What arrived was refused.
pub const IS_FAILED: u32 = 2;
/// A machine that is not being sent.
pub const IS_IDLE: u32 = 3;
/// It is being sent.
pub const IS_SENDING: u32 = 4;
/// Sending it failed.
pub const IS_SEND_FAILED: u32 = 5;
/// It was stopped.
pub const IS_STOPPED: u32 = 6;

/// The most bytes that a step can put into the buffer of its caller.
pub const SENT_MAX: usize = 65536;

/// The version of a page that the caller has not seen.
pub const UNSEEN: u64 = u64::MAX;

/// What a register write gives out where it is no byte of a console.
pub const NO_BYTE: u32 = 256;

/// Done.
pub const OK: u32 = 0;
/// There is no device of this number.
pub const NO_DEVICE: u32 = 1;
/// The access is not all in RAM; of pages: there is no such page.
pub const OUT_OF_RAM: u32 = 2;
/// An access to RAM of more than 4,096 bytes.
pub const TOO_LONG: u32 = 3;
/// A device of this kind has no such call, or no disk.
pub const WRONG_KIND: u32 = 4;
/// A frame of fewer than 14 bytes, or of more than the longest of its device.
pub const BAD_FRAME: u32 = 5;
/// The disk has no such sector.
pub const NO_SECTOR: u32 = 7;
/// The handle has no machine, or one that still arrives.
pub const NO_MACHINE: u32 = 8;
/// The handle has a machine already, or one arrives; feed, finish: it has arrived.
pub const IN_USE: u32 = 9;
/// Out of memory: malloc or realloc failed.
pub const NO_MEMORY: u32 = 10;
/// Your buffer, your slots or your bitmap.
pub const TOO_SMALL: u32 = 11;
/// Not 1 to 16 devices, or one beyond the limits, or of an unknown kind.
pub const BAD_SHAPE: u32 = 12;
/// Contents or images that do not fit the disks; release: a slot that has sectors.
pub const BAD_IMAGES: u32 = 15;
/// The machine is not being sent.
pub const NOT_SENDING: u32 = 17;
/// The machine is being sent.
pub const SENDING: u32 = 18;
/// Out of memory for what waits to be taken: `vmig_send_abort` makes the machine idle again.
pub const SEND_FAILED: u32 = 20;
/// The machine was stopped: its guest is paused, and its stream is closed.
pub const STOPPED: u32 = 21;
/// 4,294,967,294 rounds have ended.
pub const NO_ROUND_LEFT: u32 = 22;
/// RAM is out: give it back before.
pub const LENT: u32 = 23;
/// RAM is in.
pub const NOT_LENT: u32 = 24;
/// RAM is in memory of the library, and is never lent.
pub const NOT_YOURS: u32 = 25;
/// Not 1 to 16,384 whole pages, with `LARGE` to 4,294,967,295, or not as asked for or lent; lend: its len is not 0.
pub const BAD_RAM: u32 = 26;
/// A struct of another version, an unknown flag, or a word that has to be 0 and is not.
pub const NOT_KNOWN: u32 = 27;
/// No call of this number is out.
pub const NOT_OUT: u32 = 28;
/// Calls of disks are out, and have to be answered before.
pub const CALLS_OUT: u32 = 29;
/// Not a multiple of 4,096, or RAM would reach past the last address.
pub const BAD_BASE: u32 = 30;
/// `send_tell`: no `TOLD`, or before the stop, or told already; `feed_tell`: no digest is due; `feed`: of an arrival with `TOLD`.
pub const NOT_ASKED: u32 = 31;
/// `send_page`: another page is next, or none (`send_next`).
pub const NOT_NEXT: u32 = 32;
/// It does not begin with "VMIG".
pub const STREAM_BAD_MAGIC: u32 = 33;
/// A stream whose version is neither 1 nor 2.
pub const STREAM_BAD_VERSION: u32 = 34;
/// The machine that it announces is beyond the limits of any machine.
pub const STREAM_BAD_SHAPE: u32 = 35;
/// At the header: not the shapes, images, pages of RAM or base that the arrival names.
pub const STREAM_MISMATCH: u32 = 36;
/// A tag that may not come there.
pub const STREAM_BAD_TAG: u32 = 37;
/// There is no such page, or its 4,096 bytes are all 0 in version 2.
pub const STREAM_BAD_PAGE: u32 = 38;
/// There is no such sector.
pub const STREAM_BAD_SECTOR: u32 = 39;
/// The end of a round that is not the next.
pub const STREAM_BAD_ROUND: u32 = 40;
/// A device that is not the next, or cannot be.
pub const STREAM_BAD_DEVICE: u32 = 41;
/// The digest is another.
pub const STREAM_BAD_DIGEST: u32 = 42;
/// A page, a sector or a device is missing.
pub const STREAM_MISSING: u32 = 43;
/// Bytes after its end.
pub const STREAM_TRAILING: u32 = 44;
/// Finish: its end has not come.
pub const STREAM_TRUNCATED: u32 = 45;
/// Out of memory for what arrives.
pub const STREAM_NO_MEMORY: u32 = 47;
/// It was refused before.
pub const STREAM_FAILED: u32 = 48;
/// At the header, before memory is taken: more than the arrival allows.
pub const STREAM_TOO_LARGE: u32 = 49;
/// Step: nothing to do; next: no step has anything to do, and no call of a disk outside may be handed out.
pub const IDLE: u32 = 65;
/// A block device took a request.
pub const TAKEN: u32 = 66;
/// One unit of a request is done: a sector, a flush or the id.
pub const MOVED: u32 = 67;
/// The sector is bad: the request will end with an error; `sector_read`: it has no bytes.
pub const BAD_SECTOR: u32 = 68;
/// The disk is lost: the flush failed, and the request will end with an error.
pub const DISK_FAILED: u32 = 69;
/// A chain was given back to the driver; *len is its used length.
pub const COMPLETED: u32 = 70;
/// A message of the guest is at the front of your buffer; *len are its bytes.
pub const SENT: u32 = 71;
/// A frame did not fit into the guest's buffer, and is gone.
pub const DROPPED: u32 = 72;
/// The guest's chain is malformed; the device asks its driver for a reset.
pub const NEEDS_RESET: u32 = 73;
/// `send_some`: nothing is due any more in this round.
pub const ROUND_DONE: u32 = 76;
/// `send_round`: something is still due, and the round stays open.
pub const ROUND_OPEN: u32 = 77;
/// Next: the step that it names has something to do.
pub const WORK: u32 = 78;
/// `stream_describe`: the header is not whole; save: the stream is longer than size.
pub const MORE: u32 = 79;
/// Next: the step that it names needs its disk durable before.
pub const SYNC: u32 = 80;
/// `disk_call`: there is one; next: no step has anything to do, and there is one.
pub const CALL: u32 = 81;
/// Feed: the stream has ended, and is right: call `vmig_finish`.
pub const WHOLE: u32 = 82;
/// `feed_some`: the digest is due: tell it by `vmig_feed_tell`, and feed the rest.
pub const DIGEST: u32 = 83;
/// `send_next`: no page is due any more in this round, and sectors are.
pub const SECTORS: u32 = 84;

unsafe extern "C" {
    /// The version of the library that was linked.
    #[must_use]
    pub fn vmig_version() -> u32;
    /// Makes a machine as the setup says.
    #[must_use]
    pub fn vmig_make(setup: *mut Setup, machine: *mut Machine) -> u32;
    /// Frees whatever the handle has.
    pub fn vmig_free(machine: *mut Machine);
    /// Frees it and hands its images back.
    #[must_use]
    pub fn vmig_release(machine: *mut Machine, slots: *mut Image, count: usize) -> u32;
    /// What the handle has.
    pub fn vmig_describe(machine: *const Machine, out: *mut Description);
    /// The driver reads a register.
    #[must_use]
    pub fn vmig_reg_read(machine: *const Machine, dev: u8, off: u32, width: u8, value: *mut u32) -> u32;
    /// The driver writes a register.
    #[must_use]
    pub fn vmig_reg_write(machine: *mut Machine, dev: u8, off: u32, width: u8, value: u32, byte: *mut u32) -> u32;
    /// The interrupt lines.
    #[must_use]
    pub fn vmig_lines(machine: *const Machine) -> u32;
    /// The host puts bytes in.
    #[must_use]
    pub fn vmig_input(machine: *mut Machine, dev: u8, bytes: *const u8, len: usize, kept: *mut usize) -> u32;
    /// How many bytes, or of a network device frames, an input would keep.
    #[must_use]
    pub fn vmig_room(machine: *const Machine, dev: u8, room: *mut usize) -> u32;
    /// The host sets the size of a console.
    #[must_use]
    pub fn vmig_resize(machine: *mut Machine, dev: u8, cols: u16, rows: u16) -> u32;
    /// Drops what was put in and the guest has not taken.
    #[must_use]
    pub fn vmig_drop(machine: *mut Machine, dev: u8) -> u32;
    /// The guest's reboot.
    #[must_use]
    pub fn vmig_reset(machine: *mut Machine) -> u32;
    /// Names a step that has something to do.
    #[must_use]
    pub fn vmig_next(machine: *const Machine, dev: *mut u8, pick: *mut u8) -> u32;
    /// A device does one piece of its work.
    #[must_use]
    pub fn vmig_step(machine: *mut Machine, dev: u8, pick: u8, buf: *mut u8, size: usize, len: *mut u32) -> u32;
    /// A turn of the devices.
    #[must_use]
    pub fn vmig_work(machine: *mut Machine, turn: *mut Turn, buf: *mut u8, size: usize) -> u32;
    /// The disk of this device is lost: it could not be brought to its file, or its storage may have lost what it answered.
    #[must_use]
    pub fn vmig_sync_failed(machine: *mut Machine, dev: u8) -> u32;
    /// The next call of a disk outside.
    #[must_use]
    pub fn vmig_disk_call(machine: *mut Machine, call: *mut Call, buf: *mut u8, size: usize) -> u32;
    /// Sectors of it were done.
    #[must_use]
    pub fn vmig_disk_done(machine: *mut Machine, number: u64, count: u32, bytes: *const u8, len: usize) -> u32;
    /// It failed.
    #[must_use]
    pub fn vmig_disk_failed(machine: *mut Machine, number: u64) -> u32;
    /// The calls that are out.
    #[must_use]
    pub fn vmig_calls_out(machine: *const Machine, calls: *mut Call, size: usize, count: *mut usize) -> u32;
    /// Reads a sector of a disk.
    #[must_use]
    pub fn vmig_sector_read(machine: *const Machine, dev: u8, sector: u64, buf: *mut [u8; 512]) -> u32;
    /// Reads RAM.
    #[must_use]
    pub fn vmig_ram_read(machine: *const Machine, addr: u64, buf: *mut u8, len: usize) -> u32;
    /// Writes RAM.
    #[must_use]
    pub fn vmig_ram_write(machine: *mut Machine, addr: u64, bytes: *const u8, len: usize) -> u32;
    /// Lends RAM.
    #[must_use]
    pub fn vmig_lend(machine: *mut Machine, ram: *mut Ram) -> u32;
    /// Takes RAM back, with the pages that were written.
    #[must_use]
    pub fn vmig_give_back(machine: *mut Machine, ram: *mut Ram, written: *const Pages) -> u32;
    /// Names pages that were written while RAM was lent.
    #[must_use]
    pub fn vmig_mark(machine: *mut Machine, written: *const Pages) -> u32;
    /// Hands out the pages that calls wrote.
    #[must_use]
    pub fn vmig_written(machine: *mut Machine, pages: *mut u32, size: usize, count: *mut usize) -> u32;
    /// Hands pages in to RAM that is mirrored.
    #[must_use]
    pub fn vmig_push(machine: *mut Machine, written: *const Pages, ram: *const u8, len: usize, seen: *mut u64, count: usize) -> u32;
    /// Hands out the pages that the caller has not seen.
    #[must_use]
    pub fn vmig_pull(machine: *const Machine, ram: *mut u8, len: usize, seen: *mut u64, count: usize, pulled: *mut u32) -> u32;
    /// The machine begins to be sent.
    #[must_use]
    pub fn vmig_send_begin(machine: *mut Machine) -> u32;
    /// The machine begins to be sent, by flags: `TOLD` or 0.
    #[must_use]
    pub fn vmig_send_begin_as(machine: *mut Machine, flags: u32) -> u32;
    /// Copies pages and sectors that are due.
    #[must_use]
    pub fn vmig_send_some(machine: *mut Machine, most: u32) -> u32;
    /// What is sent next: a page, by its number, or sectors.
    #[must_use]
    pub fn vmig_send_next(machine: *const Machine, page: *mut u32) -> u32;
    /// Copies the page that is next, with bytes that the caller copied out of lent RAM.
    #[must_use]
    pub fn vmig_send_page(machine: *mut Machine, page: u32, bytes: *const [u8; 4096]) -> u32;
    /// Ends the round, if nothing is due in it.
    #[must_use]
    pub fn vmig_send_round(machine: *mut Machine) -> u32;
    /// Copies all that is left, and closes the stream.
    #[must_use]
    pub fn vmig_send_stop(machine: *mut Machine, pages: *mut u64, sectors: *mut u64) -> u32;
    /// The machine continues as if it had never been sent.
    #[must_use]
    pub fn vmig_send_abort(machine: *mut Machine) -> u32;
    /// The next bytes of the stream.
    #[must_use]
    pub fn vmig_send_take(machine: *mut Machine, buf: *mut u8, size: usize, got: *mut usize) -> u32;
    /// Tells the digest of a stream that was begun with `TOLD`, after the stop.
    #[must_use]
    pub fn vmig_send_tell(machine: *mut Machine, digest: *const [u8; 32]) -> u32;
    /// What is left to be sent.
    #[must_use]
    pub fn vmig_send_left(machine: *const Machine, left: *mut Left) -> u32;
    /// The whole stream of a machine.
    #[must_use]
    pub fn vmig_save(machine: *const Machine, buf: *mut u8, size: usize, len: *mut usize) -> u32;
    /// A machine will arrive.
    #[must_use]
    pub fn vmig_arrive(arrival: *mut Arrival, machine: *mut Machine) -> u32;
    /// The next bytes of the stream that arrives.
    #[must_use]
    pub fn vmig_feed(machine: *mut Machine, bytes: *const u8, len: usize) -> u32;
    /// The same of an arrival with `TOLD`, before the record that closes the stream.
    #[must_use]
    pub fn vmig_feed_some(machine: *mut Machine, bytes: *const u8, len: usize, used: *mut usize) -> u32;
    /// Tells the digest that is due.
    #[must_use]
    pub fn vmig_feed_tell(machine: *mut Machine, digest: *const [u8; 32]) -> u32;
    /// The handle has the machine that arrived.
    #[must_use]
    pub fn vmig_finish(machine: *mut Machine) -> u32;
    /// What a stream announces.
    #[must_use]
    pub fn vmig_stream_describe(bytes: *const u8, len: usize, out: *mut Description) -> u32;
    /// A digest begins.
    pub fn vmig_digest_begin(digest: *mut Digest);
    /// Adds bytes to it.
    pub fn vmig_digest_add(digest: *mut Digest, bytes: *const u8, len: usize);
    /// The SHA-256 of all that was added. It begins anew.
    pub fn vmig_digest_end(digest: *mut Digest, out: *mut [u8; 32]);
}
