//! The library is linked, and has the structs that are declared. Where there is no archive nothing is linked, and nothing is tried.
#![allow(missing_docs)]

#[cfg(vmig_absent)]
#[test]
fn skipped() {
    use std::io::Write;
    // Not by a macro, whose output a test keeps to itself.
    let _ = writeln!(std::io::stderr(), "vmig-sys: skipped: libvmig.a was not found");
}

#[cfg(not(vmig_absent))]
mod linked {
    use std::ffi::c_void;
    use vmig_sys::{
        CONSOLE, Description, ENTROPY, IN_USE, IS_IDLE, IS_NONE, NO_DEVICE, NONE, OK, Ram, SETUP, Setup, Shape, vmig_describe, vmig_free,
        vmig_lines, vmig_make, vmig_reg_read, vmig_release, vmig_version,
    };

    #[test]
    fn a_machine_is_made_and_freed() {
        let shapes = [ENTROPY, CONSOLE].map(|kind| Shape { kind, ..Shape::default() });
        let mut setup = Setup { pages: 16, shapes: shapes.as_ptr(), count: 2, base: 0x8000_0000, ..SETUP };
        let (mut machine, mut found, mut value) = (NONE, Description::default(), 0);
        // SAFETY: there is no machine in the handle, and what the pointers name lives until after the calls.
        unsafe {
            assert_eq!(vmig_make(&raw mut setup, &raw mut machine), OK);
            assert_eq!(vmig_make(&raw mut setup, &raw mut machine), IN_USE);
            vmig_describe(&raw const machine, &raw mut found);
            // The magic value of VIRTIO 1.2, 4.2.2.
            assert_eq!((vmig_reg_read(&raw const machine, 1, 0, 4, &raw mut value), value), (OK, 0x7472_6976));
            assert_eq!(vmig_reg_read(&raw const machine, 2, 0, 4, &raw mut value), NO_DEVICE);
            assert_eq!(vmig_lines(&raw const machine), 0);
            vmig_free(&raw mut machine);
        }
        assert_eq!((found.state, found.pages, found.count, found.base), (IS_IDLE, 16, 2, 0x8000_0000));
        assert_eq!((found.shapes[0].kind, found.shapes[1].kind, found.shapes[2].kind), (ENTROPY, CONSOLE, 0));
    }

    #[test]
    fn ram_of_the_caller_is_taken() {
        let mut pages = vec![0_u8; 2 * 4096];
        let shape = Shape { kind: ENTROPY, ..Shape::default() };
        let ram = Ram { at: pages.as_mut_ptr().cast::<c_void>(), len: pages.len() };
        let mut setup = Setup { shapes: &raw const shape, count: 1, ram, ..SETUP };
        let (mut machine, mut found) = (NONE, Description::default());
        // SAFETY: as above, and RAM lives until after the release.
        unsafe {
            assert_eq!(vmig_make(&raw mut setup, &raw mut machine), OK);
            assert_eq!(vmig_release(&raw mut machine, std::ptr::null_mut(), 0), OK);
            vmig_describe(&raw const machine, &raw mut found);
        }
        assert_eq!((setup.ram.at.is_null(), setup.ram.len, found.state), (true, 0, IS_NONE));
    }

    #[test]
    fn the_library_is_of_this_version() {
        // SAFETY: the call has no parameters.
        let linked = unsafe { vmig_version() };
        let parts = env!("CARGO_PKG_VERSION").split('.').map(|part| part.parse::<u32>().expect("a number"));
        assert_eq!(linked, parts.fold(0, |number, part| number << 8 | part));
    }
}
