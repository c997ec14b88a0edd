//! Disks in files that are mapped.

mod common;
use common::{Ring, ready, request, work};
use std::fs::{self, File};
use std::io::ErrorKind;
use std::path::PathBuf;
use vmig::{Arrival, Device, Image, Machine};

/// A file of a test, which is removed with it.
struct Scratch(PathBuf);

impl Scratch {
    fn new(name: &str, bytes: &[u8]) -> Scratch {
        let path = std::env::temp_dir().join(format!("vmig-{}-{name}", std::process::id()));
        fs::write(&path, bytes).unwrap();
        Scratch(path)
    }

    fn map(&self) -> std::io::Result<Image> {
        let file = File::options().read(true).write(true).open(&self.0)?;
        // SAFETY: nothing but this test has the file, which it reads after the image was dropped, or never writes beside it.
        unsafe { Image::map(file) }
    }
}

impl Drop for Scratch {
    fn drop(&mut self) {
        let _ = fs::remove_file(&self.0);
    }
}

#[test]
fn what_a_guest_writes_is_in_its_file() {
    let scratch = Scratch::new("written", &[1; 1024]);
    let builder = Machine::builder().pages(16).device(Device::disk(2)).image(scratch.map().unwrap());
    let mut machine = builder.build().unwrap();
    let mut sector = [0; 512];
    assert_eq!((machine.read_sector(0, 1, &mut sector), sector), (Ok(true), [1; 512]));
    let mut ring = Ring::new(0, 0, 0x1000);
    ready(&mut machine, 0, &[&ring]);
    request(&mut machine, 0x8000, 1, 1);
    machine.write_ram(0x9000, &[4; 512]).unwrap();
    ring.publish(&mut machine, &[(0x8000, 16, false), (0x9000, 512, false), (0xa000, 1, true)]);
    assert_eq!(work(&mut machine), ["Taken", "Moved", "sync", "Completed(1)"]);
    drop(machine);
    assert_eq!(fs::read(&scratch.0).unwrap(), [[1; 512], [4; 512]].concat());
}

#[test]
fn a_file_is_one_disk_at_a_time() {
    let scratch = Scratch::new("locked", &[0; 512]);
    let image = scratch.map().unwrap();
    assert_eq!(scratch.map().unwrap_err().kind(), ErrorKind::WouldBlock);
    let machine = Machine::builder().pages(1).device(Device::disk(1)).image(image).build().unwrap();
    assert_eq!(scratch.map().unwrap_err().kind(), ErrorKind::WouldBlock);
    drop(machine);
    assert_eq!(scratch.map().unwrap().sectors(), 1);
}

#[test]
fn a_file_of_another_length_is_no_disk() {
    for len in [0, 511, 513] {
        let scratch = Scratch::new(&format!("length-{len}"), &vec![0; len]);
        assert_eq!(scratch.map().unwrap_err().kind(), ErrorKind::InvalidInput);
    }
}

#[test]
fn a_file_that_cannot_be_written_is_no_disk() {
    let scratch = Scratch::new("read-only", &[0; 512]);
    // SAFETY: it is refused.
    assert!(unsafe { Image::map(File::open(&scratch.0).unwrap()) }.is_err());
}

#[test]
fn several_machines_begin_with_one_file() {
    let scratch = Scratch::new("copies", &[1; 1024]);
    // SAFETY: nothing but this test has the file, which it writes by no image.
    let copy = || unsafe { Image::map_copy(File::open(&scratch.0).unwrap()) };
    let (mut one, two) = (copy().unwrap(), copy().unwrap());
    assert_eq!(scratch.map().unwrap_err().kind(), ErrorKind::WouldBlock);
    one[0] = 2;
    let disk = Device::Block { sectors: 2, read_only: true, id: [0; 20] };
    let mut machines = [one, two].map(|image| Machine::builder().pages(1).device(disk).image(image).build().unwrap());
    let mut sector = [0; 512];
    for (machine, byte) in machines.iter_mut().zip([2, 1]) {
        machine.sync_all().unwrap();
        assert_eq!((machine.read_sector(0, 0, &mut sector), sector[0], sector[1]), (Ok(true), byte, 1));
    }
    drop(machines);
    assert_eq!(fs::read(&scratch.0).unwrap(), [1; 1024]);
    assert!(scratch.map().is_ok());

    let image = scratch.map().unwrap();
    assert_eq!(copy().unwrap_err().kind(), ErrorKind::WouldBlock);
    drop(image);
}

#[test]
fn a_file_with_holes_gets_its_blocks() {
    let scratch = Scratch::new("holes", &[]);
    File::options().write(true).open(&scratch.0).unwrap().set_len(1 << 20).unwrap();
    let image = scratch.map().unwrap();
    assert_eq!((image.sectors(), image.iter().all(|byte| *byte == 0)), (2048, true));
}

#[test]
fn a_disk_moves_from_file_to_file() {
    let (from, to) = (Scratch::new("from", &[7; 1024]), Scratch::new("to", &[0; 1024]));
    let sent = Machine::builder().pages(1).device(Device::disk(2)).image(from.map().unwrap()).build().unwrap();
    let mut arrival = Arrival::builder().most_pages(1).image(to.map().unwrap()).begin().unwrap();
    assert_eq!(arrival.feed(&sent.save().unwrap()), Ok(true));
    let mut arrived = arrival.finish().unwrap();
    arrived.sync_all().unwrap();
    let images = arrived.into_parts().images;
    assert_eq!(images[0][1023], 7);
    drop(images);
    assert_eq!(fs::read(&to.0).unwrap(), [7; 1024]);
}
