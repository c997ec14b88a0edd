//! Pages are handed in while a guest writes RAM, on a thread of its own: so some are half written when they are copied, and words of them are torn.
//! Loans have all lengths; sectors are sent, pages named and rounds ended while RAM is lent and while it is not; memory is refused, a move is given
//! up, and the next one begins anew. What arrives is RAM, byte for byte. A host that forgets a page after it has copied it, and not before, is found
//! in each move. `VMIG_MOVES` names another number of moves. It is alone in its program, as it is the malloc of all of it.

mod common;
use common::{Random, Ring, bytes, ready, request, work};
use std::cell::Cell;
use std::ffi::c_void;
use std::ptr;
use std::sync::atomic::{AtomicBool, AtomicU32, AtomicU64, Ordering};
use std::sync::mpsc::{Receiver, Sender, TryRecvError, channel};
use std::thread;
use vmig::{Arrival, Device, Due, Error, Lent, Machine, Memory, Pages};

const PAGES: u32 = 48;
/// The guest's own pages are those from this one on.
const HEAP: u32 = 16;
const WORDS: u32 = 512;
const SECTORS: u64 = 24;
const DEVICES: [Device; 2] = [Device::disk(SECTORS), Device::Entropy];
/// A header of a request, its bytes and its outcome.
const HEADER: u64 = 0x7000;
const BYTES: u64 = 0x8000;
const OUTCOME: u64 = 0x7100;
const MOVES: u32 = 100;
const BROKEN_MOVES: u32 = 15;

unsafe extern "C" {
    fn __libc_malloc(size: usize) -> *mut c_void;
    fn __libc_realloc(at: *mut c_void, size: usize) -> *mut c_void;
}

thread_local! {
    /// Whether this thread is refused memory.
    static IS_REFUSED: Cell<bool> = const { Cell::new(false) };
}

#[unsafe(no_mangle)]
extern "C" fn malloc(size: usize) -> *mut c_void {
    // SAFETY: it is the C library's own, under the name that it keeps for a program with its own malloc.
    if IS_REFUSED.get() { ptr::null_mut() } else { unsafe { __libc_malloc(size) } }
}

#[unsafe(no_mangle)]
unsafe extern "C" fn realloc(at: *mut c_void, size: usize) -> *mut c_void {
    // SAFETY: likewise, and the block is one of `malloc`.
    if IS_REFUSED.get() { ptr::null_mut() } else { unsafe { __libc_realloc(at, size) } }
}

/// What the host tells the guest: to rest, or to run, which is to write at random; or to write a word of a page, or its first half, and then the
/// second, after which the page is logged.
#[derive(Clone, Copy, Debug)]
enum Order {
    Rest,
    Run,
    Word(u32),
    FirstHalf(u32),
    SecondHalf(u32),
}

/// RAM as the guest has it, and the log of the pages that it wrote. A page is logged after its stores: a host that forgets it before one of them
/// hears of it again, and one that forgets it after all of them copies what they wrote.
struct Guest {
    words: *const AtomicU64,
    logged: [AtomicBool; PAGES as usize],
    /// The page that the host copies, which the guest likes to write.
    busy: AtomicU32,
}

// SAFETY: it is read and written as atomics alone, and it outlives the threads of the test.
unsafe impl Sync for Guest {}

impl Guest {
    fn over(ram: *mut u8) -> Guest {
        Guest { words: ram.cast(), logged: [const { AtomicBool::new(false) }; PAGES as usize], busy: AtomicU32::new(PAGES) }
    }

    /// A word of a page becomes another one, one half of it after the other.
    fn change_word(&self, page: u32, word: u32, random: &mut Random) {
        assert!((HEAP..PAGES).contains(&page) && word < WORDS);
        // SAFETY: RAM is lent, and has this word.
        let word = unsafe { &*self.words.add((page * WORDS + word) as usize) };
        let old = word.load(Ordering::Relaxed);
        let half = old ^ u64::from(1 + random.below(1 << 30));
        word.store(half, Ordering::Relaxed);
        word.store(half ^ u64::from(random.below(1 << 30)) << 32, Ordering::Relaxed);
    }

    fn change_words(&self, page: u32, words: std::ops::Range<u32>, random: &mut Random) {
        for word in words {
            self.change_word(page, word, random);
        }
    }

    fn log(&self, page: u32) {
        self.logged[page as usize].store(true, Ordering::SeqCst);
    }

    /// Whether the page was logged, which it is no longer.
    fn forget(&self, page: u32) -> bool {
        self.logged[page as usize].swap(false, Ordering::SeqCst)
    }

    /// A page is written, often the one that is copied.
    fn write_some(&self, random: &mut Random) {
        let (near, any) = (self.busy.load(Ordering::Relaxed), HEAP + random.below(PAGES - HEAP));
        let page = if (HEAP..PAGES).contains(&near) && random.below(2) == 0 { near } else { any };
        let first = random.below(WORDS);
        match random.below(8) {
            0 => self.change_words(page, 0..WORDS, random),
            1 => self.change_words(page, first..WORDS, random),
            _ => self.change_word(page, first, random),
        }
        self.log(page);
    }

    /// Does what it was told, but for whether it runs.
    fn follow(&self, order: Order, random: &mut Random) {
        match order {
            Order::Rest | Order::Run => {}
            Order::Word(page) => {
                let word = random.below(WORDS);
                self.change_word(page, word, random);
                self.log(page);
            }
            Order::FirstHalf(page) => self.change_words(page, 0..WORDS / 2, random),
            Order::SecondHalf(page) => {
                self.change_words(page, WORDS / 2..WORDS, random);
                self.log(page);
            }
        }
    }

    /// The guest's thread, until nobody tells it any more.
    fn live(&self, orders: &Receiver<Order>, done: &Sender<()>) {
        let (mut random, mut runs) = (Random(88_172_645), false);
        loop {
            match if runs { orders.try_recv() } else { orders.recv().map_err(|_| TryRecvError::Disconnected) } {
                Ok(order) => {
                    self.follow(order, &mut random);
                    runs = matches!(order, Order::Run) || runs && !matches!(order, Order::Rest);
                    if done.send(()).is_err() {
                        return;
                    }
                }
                Err(TryRecvError::Empty) => {
                    self.write_some(&mut random);
                    (0..random.below(2000)).for_each(|_| std::hint::spin_loop());
                }
                Err(TryRecvError::Disconnected) => return,
            }
        }
    }
}

/// How a move ended.
#[derive(Clone, Copy, Debug, PartialEq, Eq)]
enum End {
    GivenUp,
    Arrived,
    Lost,
}

/// What happened, to see that all of it did.
#[derive(Debug, Default)]
struct Counts {
    handed: u32,
    halved: u32,
    again: u32,
    sectors: u32,
    marked: u32,
    ended: u32,
    failed: u32,
}

struct Host<'a> {
    guest: &'a Guest,
    orders: Sender<Order>,
    done: Receiver<()>,
    random: Random,
    ring: Ring,
    /// Pages that the guest wrote in earlier loans, and that were not named yet.
    late: [bool; PAGES as usize],
    copy: [u8; 4096],
    stream: Vec<u8>,
    is_broken: bool,
    counts: Counts,
}

impl Host<'_> {
    /// Tells the guest, and waits until it has done so.
    fn tell(&self, order: Order) {
        self.orders.send(order).unwrap();
        self.done.recv().unwrap();
    }

    fn forget(&mut self, page: u32) {
        self.guest.forget(page);
        self.late[page as usize] = false;
    }

    fn copy(&mut self, lent: &Lent, page: u32) {
        self.guest.busy.store(page, Ordering::Relaxed);
        lent.copy_page(page, &mut self.copy).unwrap();
        self.guest.busy.store(PAGES, Ordering::Relaxed);
    }

    /// As a host does: the page is forgotten, and then copied. The guest writes between the two, and during the copy.
    fn forget_and_copy(&mut self, lent: &Lent, page: u32) {
        let asked = if page < HEAP { 0 } else { self.random.below(4) };
        self.forget(page);
        match asked {
            1 => self.tell(Order::Word(page)),
            2 => self.tell(Order::FirstHalf(page)),
            _ => {}
        }
        self.copy(lent, page);
        match asked {
            2 => self.tell(Order::SecondHalf(page)),
            3 => self.tell(Order::Word(page)),
            _ => {}
        }
        self.counts.halved += u32::from(asked == 2);
    }

    /// The wrong way round. What the guest writes between the two is in no copy and in no log.
    fn copy_and_forget(&mut self, lent: &Lent, page: u32) {
        self.copy(lent, page);
        if page >= HEAP {
            self.tell(Order::Word(page));
        }
        self.forget(page);
    }

    /// The page that is next is handed in, or sectors are sent. Whether it was done.
    fn hand_in(&mut self, lent: &mut Lent, is_refused: bool) -> bool {
        let due = lent.send_next().unwrap();
        if let Due::Page(page) = due {
            if self.random.below(8) == 0 {
                self.try_others(lent, page);
            }
            if self.is_broken {
                self.copy_and_forget(lent, page);
            } else {
                self.forget_and_copy(lent, page);
            }
            self.counts.again += u32::from(self.guest.logged[page as usize].load(Ordering::SeqCst));
        }
        let most = self.random.below(5);
        IS_REFUSED.set(is_refused);
        let sent = match due {
            Due::Page(page) => lent.send_page(page, &self.copy),
            Due::Sectors => lent.send_some(most).map(drop),
            Due::Nothing => Ok(()),
        };
        IS_REFUSED.set(false);
        self.counts.handed += u32::from(matches!(due, Due::Page(_)));
        self.counts.sectors += u32::from(due == Due::Sectors);
        assert!(sent.is_ok() || is_refused && sent == Err(Error::SendFailed), "{due:?}: {sent:?}");
        sent.is_ok()
    }

    /// No other page is taken, and none that is not there; nothing changes by it.
    fn try_others(&mut self, lent: &mut Lent, page: u32) {
        let other = self.random.below(PAGES);
        if other != page {
            assert_eq!(lent.send_page(other, &self.copy), Err(Error::NotNext));
        }
        assert_eq!((lent.send_page(PAGES, &self.copy), lent.send_some(1)), (Err(Error::OutOfRam), Err(Error::Lent)));
        assert_eq!(lent.send_next(), Ok(Due::Page(page)));
    }

    /// The pages to name now: all that an earlier loan left, and some of this one, which are named again at its return.
    fn late_pages(&mut self) -> Vec<u32> {
        let named: Vec<u32> = (0..PAGES)
            .filter(|page| {
                let is_logged = self.guest.logged[*page as usize].load(Ordering::SeqCst);
                self.late[*page as usize] || is_logged && self.random.below(2) == 0
            })
            .collect();
        self.late = [false; PAGES as usize];
        named
    }

    /// RAM comes back. Some of the pages that were written are named, the others stay to be named.
    fn give_back(&mut self, lent: Lent) -> Machine {
        let mut named = Vec::new();
        for page in 0..PAGES {
            let is_late = self.guest.forget(page) || self.late[page as usize];
            let is_named = is_late && self.random.below(3) > 0;
            self.late[page as usize] = is_late && !is_named;
            named.extend(is_named.then_some(page));
        }
        lent.give_back(Pages::list(&named)).unwrap()
    }

    fn take_some(&mut self, lent: &mut Lent) {
        let mut piece = vec![0; self.random.below(3 * 4096) as usize];
        let got = lent.send_take(&mut piece).unwrap();
        self.stream.extend_from_slice(&piece[..got]);
    }

    /// A loan, in which the guest runs, and this host sends. Whether the send is good.
    fn loan(&mut self, machine: Machine, is_sent: bool) -> (Machine, bool) {
        let mut lent = machine.lend().unwrap();
        let acts = if self.random.below(4) == 0 { 120 } else { 12 };
        let mut is_good = true;
        self.tell(Order::Run);
        for _ in 0..self.random.below(acts) {
            if !is_sent || !is_good {
                thread::yield_now();
                continue;
            }
            let is_refused = self.random.below(20) == 0;
            is_good = self.hand_in(&mut lent, is_refused);
            if self.random.below(10) == 0 {
                lent.mark(Pages::list(&self.late_pages())).unwrap();
                self.counts.marked += 1;
            }
            if is_good && self.random.below(20) == 0 {
                lent.mark(Pages::list(&self.late_pages())).unwrap();
                self.counts.ended += u32::from(lent.send_round().unwrap());
            }
            self.take_some(&mut lent);
        }
        if !is_good {
            assert_eq!((lent.send_next(), lent.send_page(0, &self.copy)), (Err(Error::SendFailed), Err(Error::SendFailed)));
            self.counts.failed += 1;
        }
        self.tell(Order::Rest);
        (self.give_back(lent), is_good)
    }

    /// The last loan of a move, in which the guest writes only what it is told to, so that nothing that a copy missed is written again. A page of the
    /// guest's own is handed in, at least.
    fn last_loan(&mut self, mut machine: Machine) -> Machine {
        while machine.send_some(1000).unwrap() {}
        let mut named = self.late_pages();
        named.push(HEAP + self.random.below(PAGES - HEAP));
        machine.mark(Pages::list(&named)).unwrap();
        assert_eq!(machine.send_round(), Ok(true));
        let mut lent = machine.lend().unwrap();
        while lent.send_next() != Ok(Due::Nothing) {
            assert!(self.hand_in(&mut lent, false));
        }
        self.give_back(lent)
    }

    /// With RAM in: the guest writes a sector, items are sent, a round ends.
    fn work_here(&mut self, machine: &mut Machine) {
        if self.random.below(3) == 0 {
            let (sector, word) = (u64::from(self.random.below(u32::MAX)) % SECTORS, self.random.below(u32::MAX));
            machine.write_ram(BYTES, &word.to_le_bytes()).unwrap();
            request(machine, HEADER, 1, sector);
            self.ring.publish(machine, &[(HEADER, 16, false), (BYTES, 512, false), (OUTCOME, 1, true)]);
            work(machine);
            assert_eq!(bytes(machine, OUTCOME, 1), [0]);
        }
        if self.random.below(4) == 0 {
            assert_eq!(machine.send_some(1 + self.random.below(9)), machine.send_next().map(|due| due != Due::Nothing));
            machine.mark(Pages::list(&self.late_pages())).unwrap();
            machine.send_round().unwrap();
        }
    }

    /// A move.
    fn carry(&mut self, mut machine: Machine) -> (Machine, End) {
        let mut is_good = true;
        self.stream.clear();
        self.late = [false; PAGES as usize];
        machine.send_begin().unwrap();
        for _ in 0..=self.random.below(12) {
            if is_good {
                self.work_here(&mut machine);
                (machine, is_good) = self.loan(machine, true);
            }
        }
        if !is_good || self.random.below(8) == 0 {
            machine.send_abort().unwrap();
            return (machine, End::GivenUp);
        }
        machine = self.last_loan(machine);
        machine.mark(Pages::list(&self.late_pages())).unwrap();
        machine.send_stop().unwrap();
        let mut rest = vec![0; 1 << 20];
        while let got @ 1.. = machine.send_take(&mut rest).unwrap() {
            self.stream.extend_from_slice(&rest[..got]);
        }
        machine.send_abort().unwrap();
        let end = if self.arrives(&machine) { End::Arrived } else { End::Lost };
        (machine, end)
    }

    /// Whether the machine that arrives has this RAM; then it has all else too.
    fn arrives(&self, machine: &Machine) -> bool {
        let memory = Memory::zeros(PAGES).unwrap();
        let mut arrival = Arrival::builder().memory(memory).devices(&DEVICES).most_sectors(SECTORS).begin().unwrap();
        assert_eq!(arrival.feed(&self.stream), Ok(true));
        let arrived = arrival.finish().unwrap();
        let is_same = (0..u64::from(PAGES)).all(|page| bytes(machine, 4096 * page, 4096) == bytes(&arrived, 4096 * page, 4096));
        assert!(!is_same || machine.save().unwrap() == arrived.save().unwrap());
        is_same
    }

    /// Moves the machine, and tells how many of the moves ended in each way: given up, arrived, and lost.
    fn carry_often(&mut self, mut machine: Machine, moves: u32) -> (Machine, [u32; 3]) {
        let mut ends = [0; 3];
        for _ in 0..moves {
            let end;
            (machine, end) = self.carry(machine);
            ends[end as usize] += 1;
            if self.random.below(3) == 0 {
                (machine, _) = self.loan(machine, false);
            }
        }
        (machine, ends)
    }

    /// The right host loses nothing, and the wrong one something in each move that came to its end.
    fn try_both(&mut self, machine: Machine, moves: u32) {
        let (machine, [given_up, arrived, lost]) = self.carry_often(machine, moves);
        let Counts { handed, halved, again, sectors, marked, ended, failed } = self.counts;
        println!("{arrived} arrived, {given_up} given up, {:?}", self.counts);
        assert_eq!(lost, 0);
        if moves >= MOVES {
            assert!(arrived > 0 && given_up > failed && failed > 0);
            assert!(handed > again && again >= halved && halved > 0 && sectors > 0 && marked > 0 && ended > 0);
        }
        self.is_broken = true;
        let (_, [_, arrived, lost]) = self.carry_often(machine, BROKEN_MOVES);
        assert!(arrived == 0 && lost > 0);
    }
}

#[test]
fn what_arrives_is_what_a_guest_on_its_own_thread_wrote() {
    let moves = std::env::var("VMIG_MOVES").map_or(MOVES, |moves| moves.parse().expect("a number"));
    let mut machine = Machine::builder().memory(Memory::zeros(PAGES).unwrap()).devices(&DEVICES).build().unwrap();
    let ring = Ring::new(0, 0, 0x1000);
    ready(&mut machine, 0, &[&ring]);
    let mut lent = machine.lend().unwrap();
    let guest = Guest::over(lent.as_mut_ptr());
    machine = lent.give_back(Pages::NONE).unwrap();
    let ((orders, ordered), (doing, done)) = (channel(), channel());
    thread::scope(|scope| {
        let guest = &guest;
        scope.spawn(move || guest.live(&ordered, &doing));
        let counts = Counts::default();
        let (late, copy) = ([false; PAGES as usize], [0; 4096]);
        let random = Random(2_463_534_242);
        Host { guest, orders, done, random, ring, late, copy, stream: Vec::new(), is_broken: false, counts }.try_both(machine, moves);
    });
}
