//! A disk that the system could not bring to its file. This test is alone in its program, since it unmaps memory below an image.

use std::ffi::{c_int, c_void};
use std::fs::{self, File};
use vmig::{Device, Image, Machine, SyncError};

unsafe extern "C" {
    fn munmap(at: *mut c_void, len: usize) -> c_int;
}

#[test]
fn a_failed_sync_is_for_good() {
    let path = std::env::temp_dir().join(format!("vmig-{}-lost", std::process::id()));
    fs::write(&path, [0; 4096]).unwrap();
    let file = File::options().read(true).write(true).open(&path).unwrap();
    fs::remove_file(&path).unwrap();
    // SAFETY: nothing else has the file.
    let image = unsafe { Image::map(file) }.unwrap();
    let (at, len) = (image.as_ptr().cast_mut().cast(), image.len());
    let mut machine = Machine::builder().pages(1).device(Device::Console).device(Device::disk(8)).image(image).build().unwrap();
    assert!(machine.sync(1).is_ok());

    // SAFETY: it breaks what `Image` promises, so that msync fails. No step of the machine, which reads or writes sectors, follows.
    assert_eq!(unsafe { munmap(at, len) }, 0);
    assert!(matches!(machine.sync(1), Err(SyncError::Failed(_))));
    assert!(machine.is_lost(1));
    assert!(matches!(machine.sync_all(), Err(SyncError::Lost)));
}
