//! Memory that is refused: a malloc of this program's own refuses the large requests, while a call of the library is being made. It is alone in
//! its program, as it is the malloc of all of it.

mod common;
use common::{Ring, ready};
use std::ffi::c_void;
use std::ptr;
use std::sync::atomic::{AtomicUsize, Ordering};
use vmig::{Arrival, Device, Error, Machine, Memory, Pages, Pick, SENT_MAX, State, Step, Turn, TurnEnd, announced};

unsafe extern "C" {
    fn __libc_malloc(size: usize) -> *mut c_void;
    fn __libc_realloc(at: *mut c_void, size: usize) -> *mut c_void;
}

/// Requests of so many bytes and more are refused.
static REFUSED_FROM: AtomicUsize = AtomicUsize::new(usize::MAX);

fn is_refused(size: usize) -> bool {
    size >= REFUSED_FROM.load(Ordering::Relaxed)
}

#[unsafe(no_mangle)]
extern "C" fn malloc(size: usize) -> *mut c_void {
    // SAFETY: it is the C library's own, under the name that it keeps for a program with its own malloc.
    if is_refused(size) { ptr::null_mut() } else { unsafe { __libc_malloc(size) } }
}

#[unsafe(no_mangle)]
unsafe extern "C" fn realloc(at: *mut c_void, size: usize) -> *mut c_void {
    // SAFETY: likewise, and the block is one of `malloc`.
    if is_refused(size) { ptr::null_mut() } else { unsafe { __libc_realloc(at, size) } }
}

/// Makes a call while large requests are refused. The call takes none but the library's.
fn without<T>(refused_from: usize, call: impl FnOnce() -> T) -> T {
    REFUSED_FROM.store(refused_from, Ordering::Relaxed);
    let result = call();
    REFUSED_FROM.store(usize::MAX, Ordering::Relaxed);
    result
}

#[test]
fn memory_that_is_refused_costs_nothing() {
    a_machine_is_not_made();
    a_move_fails_and_another_succeeds();
    an_arrival_fails_and_another_succeeds();
    a_loan_stays();
    a_turn_tells_it_alone();
}

fn a_machine_is_not_made() {
    let builder = Machine::builder().pages(1024).device(Device::Console);
    let refused = without(1 << 16, || builder.build()).unwrap_err();
    assert_eq!(refused.error, Error::NoMemory);
    assert_eq!(refused.into_value().build().unwrap().pages(), 1024);
}

fn a_move_fails_and_another_succeeds() {
    let mut machine = Machine::builder().pages(64).device(Device::Console).build().unwrap();
    for page in 0..64 {
        machine.write_ram(4096 * page, &[1; 4096]).unwrap();
    }
    machine.send_begin().unwrap();
    assert_eq!(without(1 << 14, || machine.send_some(64)), Err(Error::SendFailed));
    assert_eq!(
        (machine.state(), machine.send_round(), machine.send_begin()),
        (State::SendFailed, Err(Error::SendFailed), Err(Error::SendFailed))
    );
    assert_eq!((machine.fault(), machine.rounds()), (Some(Error::SendFailed), 0));
    assert_eq!(machine.write_ram(0, &[2]), Ok(()));
    machine.send_abort().unwrap();
    assert_eq!((machine.state(), machine.fault()), (State::Idle, None));
    machine.send_begin().unwrap();
    assert_eq!(machine.send_stop(), Ok((64, 0)));
    assert_eq!(without(16, || announced(b"VMIG")), Ok(None));
}

fn an_arrival_fails_and_another_succeeds() {
    let stream = Machine::builder().pages(1024).device(Device::Console).build().unwrap().save().unwrap();
    let limits = || Arrival::builder().most_pages(1024).begin().unwrap();
    let mut arrival = limits();
    assert_eq!(without(1 << 16, || arrival.feed(&stream)), Err(Error::StreamNoMemory));
    assert_eq!((arrival.fault(), arrival.feed(&stream)), (Some((Error::StreamNoMemory, 0)), Err(Error::StreamFailed)));
    assert_eq!(arrival.finish().unwrap_err().error, Error::StreamFailed);
    assert_eq!(limits().feed(&stream), Ok(true));
}

fn a_loan_stays() {
    let machine = Machine::builder().memory(Memory::zeros(4096).unwrap()).device(Device::Console).build().unwrap();
    let lent = machine.lend().unwrap();
    let mut refused = without(4096, || lent.give_back(Pages::ALL)).unwrap_err();
    assert_eq!((refused.error, refused.value_mut().pages()), (Error::NoMemory, 4096));
    assert_eq!(refused.into_value().give_back(Pages::list(&[4095])).unwrap().pages(), 4096);
}

/// A console sends more than memory is given for. The step is told where it is the first of a call, and is made once there is memory.
fn a_turn_tells_it_alone() {
    let mut machine = Machine::builder().pages(16).devices(&[Device::Console, Device::Entropy]).build().unwrap();
    let (mut said, mut pool) = (Ring::new(0, 1, 0x1000), Ring::new(1, 0, 0x4000));
    ready(&mut machine, 0, &[&said]);
    ready(&mut machine, 0, &[&pool]);
    said.publish(&mut machine, &[(0x8000, 0x4000, false)]);
    pool.publish(&mut machine, &[(0xc000, 8, true)]);
    machine.input(1, &[1; 64]).unwrap();
    let (mut turn, mut buf) = (Turn::new(9), vec![0; SENT_MAX]);
    let (console, entropy) = (Pick { dev: 0, pick: 1 }, Pick { dev: 1, pick: 0 });

    // The steps after the console's are those of the entropy device: it completes, and then it finds its queue empty.
    assert!(without(1 << 12, || machine.work(&mut turn, &mut buf) == Err(Error::NoMemory)));
    assert_eq!(turn, Turn::new(9));
    turn.last = console;
    assert!(without(1 << 12, || machine.work(&mut turn, &mut buf) == Ok(TurnEnd::Answer(entropy, Step::Completed(8)))));
    turn.last = console;
    assert!(without(1 << 12, || machine.work(&mut turn, &mut buf) == Ok(TurnEnd::Unfinished)));
    assert_eq!(turn, Turn { last: entropy, left: 7 });
    assert!(without(1 << 12, || machine.work(&mut turn, &mut buf) == Err(Error::NoMemory)));
    assert_eq!(machine.work(&mut turn, &mut buf), Ok(TurnEnd::Answer(console, Step::Sent(&[0; 0x4000]))));
    assert_eq!(machine.work(&mut turn, &mut buf), Ok(TurnEnd::Idle));
}
