/* vmig 1.1: virtio machines for hypervisors, from C11 and C++11.
 *
 * A machine is guest RAM and 1 to 16 virtio MMIO devices (VIRTIO 1.2, 4.2): network devices, block devices, consoles and entropy
 * devices. Your hypervisor hands it what the guest and the host do, one call for each, and it hands out what is to be done outside:
 * messages, syncs of disks, a stream. It does no I/O, starts no thread, reads no clock, calls nobody back, and nothing happens
 * between two calls. Whatever a guest or a stream holds, each call is defined and ends. What each call does is proved. Link -lvmig.
 *
 * A FIRST PROGRAM:
 *
 *   #include <stdio.h>
 *   #include "vmig.h"
 *
 *   int main(void)
 *   {
 *       vmig_machine machine = VMIG_NONE;
 *       vmig_shape shape = {.kind = VMIG_ENTROPY};
 *       vmig_setup setup = VMIG_SETUP;
 *       uint32_t value = 0;
 *       size_t kept = 0;
 *
 *       setup.pages = 16, setup.shapes = &shape, setup.count = 1;
 *       if (vmig_make(&setup, &machine) != VMIG_OK) return 1;
 *       if (vmig_reg_read(&machine, 0, 0x000, 4, &value) != VMIG_OK) return 1;
 *       printf("0x%08x\n", (unsigned)value);
 *       if (vmig_input(&machine, 0, (const uint8_t *)"random", 6, &kept) != VMIG_OK) return 1;
 *       vmig_free(&machine);
 *       return value == 0x74726976 && kept == 6 ? 0 : 1;
 *   }
 *
 * In C++ begin a shape by `vmig_shape shape = {}; shape.kind = VMIG_ENTROPY;`: some compilers warn where fields are left out.
 *
 * RULES, which nothing checks:
 * - A vmig_machine is VMIG_NONE (all zeros) before its first use, and only these calls write it. It may be moved, as by memcpy, but
 *   a copy must not be used beside it.
 * - A pointer whose count is 0 may be null, and no other: each out-parameter is written somewhere. A pointer and a count n name n
 *   items, which the call may read, and may also write unless the pointer is to const. Pointers are aligned as their types are;
 *   RAM and images have any alignment. gcc and clang warn of a null, of a null with a count, and of a buffer that is smaller than
 *   its count, where they see it.
 * - These are refused all the same: RAM or an image that is null and has a length, as BAD_RAM or BAD_IMAGES, by vmig_make,
 *   vmig_arrive and vmig_give_back; and pages whose list or bitmap is null and has a count, or whose bitmap has none, as
 *   TOO_SMALL, by vmig_give_back, vmig_mark and vmig_push. The library cannot see it: the inline functions at the end of this
 *   header do, which macros of these five names call. (vmig_make)(..), and the address of vmig_make, are the library's own call,
 *   which takes such a pointer at its word.
 * - What a call may write overlaps with nothing else that the call is given, no pointer points into a vmig_machine, and no image
 *   overlaps another one or RAM.
 * - One call at a time for each machine, also of calls that take it as const, and for each vmig_digest. Calls from several threads
 *   are ordered by a lock, or by a thread's start or join. Calls on different machines, or digests, need no order.
 * - No call from a signal handler, or in the forked child of a process with threads. No call is left by longjmp, and no thread is
 *   cancelled within one.
 * - malloc, realloc and free belong to one allocator, and what they return is aligned to each power of two up to 16 that divides
 *   its size. These three, memcpy, memmove and memset are all that the library calls of the C library.
 * - The thread that calls has 16 KiB of stack left: no call needs more (measured).
 *
 * WHO OWNS WHAT: a machine lives from vmig_make or vmig_arrive until vmig_free or vmig_release; a handle that is dropped without
 * one of these leaks. What you pass is copied. The library keeps no pointer of yours after a call, but to the RAM and the images
 * that a vmig_setup or a vmig_arrival names: VMIG_OK takes these, and any other status of the call leaves them as they are.
 *
 * STATUSES. VMIG_OK is 0. A call that is refused returns 1 to 63, and then NOTHING has changed: not the machine, and not what the
 * call could have written. There are two exceptions, and each is a state of its own: after VMIG_SEND_FAILED the send can only be
 * aborted, and after a VMIG_STREAM status of vmig_feed or vmig_finish the arrival is over (vmig_describe reports both). A call that
 * was done returns VMIG_OK, or, if its comment names it, a status from 64 on, which says what was done. So `vmig_refused(status)`
 * is the test for a refusal, and of a call whose comment names no status from 64 on `status != VMIG_OK` is too.
 *     The order of refusals is one for all calls: by the state (the table below), NOT_KNOWN, NO_DEVICE, WRONG_KIND, then what the
 * comment names, in its order, and NO_MEMORY last. Of each call all refusals are those of the table and those that its comment
 * names, by their names without VMIG_. NOT_KNOWN is a struct of another version, an unknown flag, or a word that has to be 0 and is
 * not; in a vmig_shape such a word is BAD_SHAPE. What the table says of a state holds whatever else could be refused.
 *
 * STATES. What each call answers in each of them; a dot is 'done, or what its comment names'.
 *
 *     of a handle that is      none        arriving, failed  idle         sending (1)  stopped      lent (2)
 *     make, arrive             .           IN_USE            IN_USE       IN_USE       IN_USE       IN_USE
 *     feed, feed_some,
 *       feed_tell, finish      NO_MACHINE  . (3)             IN_USE       IN_USE       IN_USE       IN_USE
 *     describe, free           .           .                 .            .            .            .
 *     release                  NO_MACHINE  .                 .            .            .            LENT
 *     reg_read, reg_write,
 *       input, resize, drop,
 *       reset, next,
 *       sync_failed,
 *       disk_failed            NO_MACHINE  NO_MACHINE        .            .            STOPPED      .
 *     disk_done                NO_MACHINE  NO_MACHINE        .            .            STOPPED      . (4)
 *     room, calls_out          NO_MACHINE  NO_MACHINE        .            .            .            .
 *     step, work, ram_write,
 *       push, lend, disk_call  NO_MACHINE  NO_MACHINE        .            .            STOPPED      LENT
 *     mark                     NO_MACHINE  NO_MACHINE        .            .            STOPPED      .
 *     ram_read, pull           NO_MACHINE  NO_MACHINE        .            .            .            LENT
 *     lines                    0           0                 .            .            .            .
 *     written                  NO_MACHINE  NO_MACHINE        .            .            .            .
 *     give_back                NO_MACHINE  NO_MACHINE        NOT_LENT     NOT_LENT     NOT_LENT     .
 *     sector_read, save        NO_MACHINE  NO_MACHINE        .            SENDING      SENDING      LENT
 *     send_begin,
 *       send_begin_as          NO_MACHINE  NO_MACHINE        .            SENDING      STOPPED      LENT
 *     send_some, send_next,
 *       send_round             NO_MACHINE  NO_MACHINE        NOT_SENDING  .            STOPPED      (5)
 *     send_stop                NO_MACHINE  NO_MACHINE        NOT_SENDING  .            STOPPED      LENT
 *     send_page                NO_MACHINE  NO_MACHINE        NOT_SENDING  NOT_LENT     STOPPED      . (6)
 *     send_tell                NO_MACHINE  NO_MACHINE        NOT_SENDING  NOT_ASKED    .            LENT
 *     send_abort               NO_MACHINE  NO_MACHINE        NOT_SENDING  .            .            LENT
 *     send_left, send_take     NO_MACHINE  NO_MACHINE        NOT_SENDING  .            .            (5)
 *
 *     (1) After VMIG_SEND_FAILED too, where send_begin, send_begin_as, send_some, send_next, send_round and send_stop are
 *         SEND_FAILED (send_stop CALLS_OUT, if any call is out).
 *     (2) A machine that is idle or sending, and whose RAM is out.
 *     (3) Of an arrival that has failed they are STREAM_FAILED.
 *     (4) LENT of a read that is out.
 *     (5) As if not lent: see the other columns.
 *     (6) NOT_SENDING of one that is idle, and SEND_FAILED of one whose send has failed.
 *
 * A machine is sending from vmig_send_begin or vmig_send_begin_as on, and stopped after vmig_send_stop: its guest is paused then.
 * vmig_send_abort makes it idle again.
 *
 * STEPS. The work of the devices is made of steps. A step names a device and a `pick`, the number of the piece of work:
 * - a block device: 0 takes the next request (none while 8 are outstanding), and k, from 1 to 8, brings the k-th request that it
 *   has taken one unit on (a sector, a flush or the id), or ends it.
 * - an entropy device: 0 fills the next buffer.
 * - a network device and a console: 0 fills the next receive buffer, and 1 takes the next message to be sent.
 *     vmig_next names the steps that have something to do, and vmig_step makes one; vmig_work does both, until a step needs you. A
 * step that is named is not VMIG_IDLE, or it finds a queue empty, and then that queue has nothing to do until its driver notifies
 * the device anew (a kick: a write to QueueNotify). What a step may send has to fit your buffer: the longest frame is enough for a
 * network device, 65,536 bytes for a console, and 0 for a block or entropy device and for each pick but 1.
 *     A step is VMIG_SYNC where the guest takes what it wrote to this disk for durable by it: it makes a flush, or it ends a write
 * whose driver did not accept the feature FLUSH (VIRTIO 1.2, 5.2.6.2). Bring the image to its file before you make the step, or
 * call vmig_sync_failed in its place. Of a disk in memory of the library, and of an image behind which no file lies, the answer is
 * the same, and nothing is to be brought: make the step.
 *     vmig_next is VMIG_CALL where no step of any device has anything to do, and vmig_disk_call would hand out a call, whatever
 * the size of its buffer, 512 bytes at least. It is VMIG_IDLE where neither is so: what waits may not be handed out whole until a
 * call that is out is answered, or numbers are used up.
 *
 * A TURN OF THE DEVICES, after each register write and each vmig_input, before the guest runs again. With RAM that is not lent:
 *
 *     static vmig_turn turn = VMIG_TURN;                     of this machine: it stays from turn to turn
 *
 *     static vmig_status do_work(vmig_machine *m)            VMIG_IDLE: nothing is left to do. VMIG_WORK: there is more
 *     {
 *         static uint8_t buf[VMIG_SENT_MAX];
 *         uint32_t len = 0;
 *         vmig_status s;
 *
 *         turn.left = 1000;                                  a guest can give its devices work without end: bound the turn
 *         do {
 *             s = vmig_work(m, &turn, buf, sizeof buf);
 *             if (s == VMIG_SENT) hand_on(turn.dev, buf, turn.len);        before the next call, which overwrites it
 *             if (s == VMIG_COMPLETED) put_in_as_many_random_bytes(turn.dev, turn.len);
 *             if (s == VMIG_SYNC && !bring_to_its_file(turn.dev)) s = vmig_sync_failed(m, turn.dev);     for good: see there
 *             else if (s == VMIG_SYNC) s = vmig_step(m, turn.dev, turn.pick, buf, sizeof buf, &len);
 *         } while (s != VMIG_IDLE && s != VMIG_WORK && !vmig_refused(s));
 *         tell_the_controller(vmig_lines(m));                of what changed, and of nothing else
 *         if (s == VMIG_NO_MEMORY) s = vmig_next(m, &turn.dev, &turn.pick);     nothing changed: the next turn lets others go first
 *         return s;                                          so after NO_MEMORY it may be VMIG_SYNC or VMIG_CALL: work is left too
 *     }
 *
 * It ends whatever the guest and the disks do, as each step counts, also one that is passed over; and no device keeps the others
 * from their work, as the next turn begins after the last step of this one. A step raises lines and lowers none, so one look at
 * them after the turn, before the guest runs, is as good as one after each step. Do a console's steps before the register write
 * returns to the guest: Linux waits for them with interrupts off. A host that holds a device back, as for a rate, makes its steps
 * singly, by vmig_next and vmig_step.
 *
 * WHAT YOU PUT IN, by vmig_input, waits in its device until the guest takes it. Entropy devices and consoles hold 4,096 bytes.
 * Network devices hold 64 frames, or, where the longest has more than 1,514 bytes, 96,896 / longest: 63 of 1,518, 10 of 9,018, one
 * of 65,535, and no more of short ones. Put in entropy before the guest runs, and as it is taken: at an empty pool a request
 * waits, and no step is named for it. A network device whose shape names its longest frame offers its driver MTU, which is 18
 * bytes less: an Ethernet header and a VLAN tag. Of more than MTU + 14 bytes put in frames with a VLAN tag alone (VIRTIO 1.2,
 * 5.1.4.1).
 *
 * DISKS IN YOUR MEMORY, as in a file that you mapped: a vmig_image says where the sectors of a disk are. What the guest writes is
 * there at once. From vmig_make or vmig_arrive until vmig_free or vmig_release the bytes are the machine's: nothing else reads or
 * writes them, and they stay mapped, at their address. A guest's flush does not reach the file: that is an msync of yours, before
 * each step of which vmig_next or vmig_work says VMIG_SYNC.
 * - Each image is a map of its own, MAP_SHARED, whose first byte is at a multiple of the system's page. Every block of the file is
 *   allocated before it is mapped (posix_fallocate), and the file is not cut: a store into a hole of a full file system, or past
 *   the end of the file, ends your process by SIGBUS, and a guest's write is such a store.
 * - No two machines, of one host or of two, ever have one mapped file that one of them may write. What arrives writes its file.
 * - Where msync fails call vmig_sync_failed, and never msync again in the hope that it will do: a failed sync is for good.
 * - A machine that arrived may have a guest that was told of a flush long ago. After vmig_finish call msync for each image, and
 *   fsync for the folder of a file that is new, before the source is told that all is there. Where it fails, also where one between
 *   two rounds failed, the machine does not run here: free it, and the source continues.
 *
 * DISKS OUTSIDE: a device of the kind VMIG_BLOCK_OUTSIDE is a block device whose sectors are where you like: in a qcow2 image,
 * behind a network, encrypted, in a file that your threads read and write. Of it the machine has requests, and no sector. It asks
 * for what they need, you do it while the guest runs, and answer, in any order:
 *
 *     while (vmig_disk_call(m, &call, slot->bytes, sizeof slot->bytes) == VMIG_CALL) submit(slot, call);      after each turn, as
 *     ...                                                                                    its steps take requests; until IDLE
 *     for each call that is over:                               under the lock of the machine; of a read with RAM that is not lent
 *         if (failed) status = vmig_disk_failed(m, call.number);
 *         else status = vmig_disk_done(m, call.number, count, bytes, len);
 *     do_work(m);                                                                               a turn: it ends what was answered
 *
 * - A call is answered, also as failed, once nothing of it can land any more. A time-out is no answer: a write that lands after its
 *   vmig_disk_failed lies over what the guest wrote since. Storage that hangs is not answered: the guest waits.
 * - No two calls that are out share a sector of a disk, nor, where setup.block says so, a block of your storage: so calls may be
 *   done at once, and in any order. Say the largest block that you write whole: 8 over storage of 4,096 bytes, or of clusters or
 *   encrypted blocks of that size.
 * - A write, or a clearing, that is `durable` is on storage before it is answered. A flush makes durable the writes and clearings
 *   of its disk that were answered before vmig_disk_call handed it out, and no others.
 * - Storage that may have lost writes that it answered counts as storage whose sync failed, whatever showed it: an fdatasync that
 *   failed, a connection that broke, a server that restarted, a cache that was dropped. Call vmig_sync_failed before any answer
 *   that comes after it: from then on no flush and no durable call of that disk is told done, whatever you answer, also none that
 *   is out. Reads may give what lay there before a write that was answered: a host that does not write anew all that was answered
 *   and not flushed stops its guest.
 * - One sync at a time for each open file: of syncs that are out together a system reports an error to one, and 0 to the others.
 *   Of a write with a linked sync, as io_uring has it, a short write breaks the link: the ECANCELED of its sync is no failed sync.
 * - The numbers of calls begin at setup.calls_from. Let each machine of a process have numbers of its own: else an answer that
 *   comes late, of a machine that was freed, or to the wrong machine, is taken for one of this machine.
 * - Nothing waits unseen: vmig_next is VMIG_CALL where no step has work and a call waits to be asked, as after vmig_finish, after
 *   vmig_send_abort, and after answers without a turn. Where what waits has to wait for an answer it is VMIG_IDLE.
 * - While a call is out nothing is done that would drop its request, or have another host ask for it: vmig_reg_write, vmig_reset
 *   and vmig_send_stop are VMIG_CALLS_OUT, and nothing changed. Answer what is out, and make the call again; a processor of the
 *   guest waits in its access meanwhile. All other calls are as before. While RAM is lent vmig_disk_failed is done, and
 *   vmig_disk_done of all but a read, so a driver's reset needs no return of RAM, and no other processor outside: of a read that
 *   is over its driver wants no answer, so let it fail. What is saved asks anew for what is out; what is out of a machine that is
 *   freed is yours to end.
 * - In no stream is a sector of it, nor that a disk is lost. Before the bytes of a save are good flush the storage. To move a guest
 *   over storage that both hosts see: pause the guest, answer all that is out, vmig_send_stop, flush and close the storage, and
 *   only then tell the target, and which of its disks are lost. It opens the storage, calls vmig_sync_failed for each that is lost,
 *   after vmig_finish, and then runs the guest.
 *
 * A DISK THAT IS LOST, by vmig_sync_failed, could not be brought to its file; or it is outside, and its storage may have lost
 * writes that it answered. That is for good: the system reports bytes that did not reach the storage once, and the next sync
 * answers 0 though they are gone. The disk stays lost until the machine is freed, through vmig_reset and a driver's reset too, and
 * in no stream. vmig_sync_failed is the call also for a sync of your own that failed without a step.
 * - Of a disk in the machine each step that makes a flush is made as one whose disk failed (DISK_FAILED), so the guest reads an
 *   error. A step that would end a write of a driver that did not accept FLUSH is named and made no more (vmig_next and vmig_work
 *   pass it over, vmig_step is IDLE), so the guest reads no success. VMIG_SYNC is no longer reported for this disk; every other
 *   step is as ever. End the guest soon, or move it: a move sends what the page cache still has, and what arrives lies in another
 *   file. Make no machine over that file again: who opens it later gets no report.
 * - Of a disk outside no answer of a flush, or of a write or clearing that is durable, counts as done any more, also of one that
 *   is out: its request ends with an error, whatever vmig_disk_done was told. Calls are asked for as ever, and reads, and writes
 *   and clearings that are not durable, are served as ever. What was durable when it was answered stays so. A machine that arrives
 *   lies over the same storage: its host is told by yours, and makes this call after vmig_finish, before the guest runs.
 *
 * RAM OF YOURS, as under hardware virtualization: the guest runs on memory of yours, and its devices read and write the same bytes:
 * nothing is copied. vmig_lend lends RAM to you, and you run the guest; registers are served while it is lent, and so is what you
 * put in; vmig_give_back takes RAM back for the devices' work:
 *
 *     vmig_ram ram = VMIG_NO_RAM;
 *     for (;;) {
 *         vmig_pages none = VMIG_NO_PAGES;
 *         if (vmig_lend(m, &ram) != VMIG_OK) return;
 *         while (!has_work(m)) {                             vmig_next is not VMIG_IDLE, for a register write kicked a queue
 *             run_guest(ram.at, ram.len);                    until one of its vCPUs touches a device
 *             access_register(m);                            by vmig_reg_write or vmig_reg_read; the others go on running
 *         }
 *         bring_all_vcpus_out();
 *         if (vmig_give_back(m, &ram, &none) != VMIG_OK) return;
 *         do_work(m);                                        and vmig_disk_call until VMIG_IDLE, where a disk is outside
 *     }
 *
 * Every vCPU, a processor of the guest, is outside while RAM is not lent, for the devices write into it then: for steps, the begin
 * and the stop of a send and RAM's own calls, and for nothing else (pages are sent while it is lent: see below). The devices see
 * what was written at once, but a page is sent anew only once it is named: at a return, or by vmig_mark, by a list (vmig_list) or
 * a dirty bitmap as it is (vmig_bitmap). None needs a name before vmig_send_begin, but for vmig_pull; each that was written in a
 * loan before needs one before vmig_send_round, and before vmig_send_stop, unless it was handed in since. A list takes no memory,
 * and time for its pages alone; a bitmap one look for each word and each page that is marked. vmig_send_left counts what was
 * named: so mark, then ask what is left, then decide. Who may touch the bytes, to read or to write them:
 *
 *                         before make, arrive  idle, sending  lent  stopped  arriving, failed  after free, release
 *     you and the guest   yes                  no             yes   no       no                yes
 *     the calls           no                   yes            no    yes      yes               no
 *
 * The memory stays mapped until vmig_free or vmig_release, in any state. Then it is yours again, where it lay: no vmig_ram comes
 * back, so keep its address. PAGES have the numbers 0, 1 and so on from RAM's first byte, whatever its base: the page of a
 * guest-physical address is (address - base) / 4096.
 *
 * RAM OF YOURS THAT CANNOT BE LENT, as it lies in several places or in another process, is mirrored: the machine has RAM of its own
 * beside it. You have uint8_t ram[4096 * pages], and uint64_t seen[pages], which notes for each page the version at which you had
 * it; begin with VMIG_UNSEEN in each. Where the machine's RAM is the one to begin with, as after vmig_finish, let vmig_pull fill
 * yours; where yours is, hand in every page by vmig_push. From then on, with the guest paused from the first to the last of these:
 * hand in EVERY page that the guest has written since, also one that only a device will write; make its register writes; do the
 * devices' work; and let vmig_pull bring what they wrote. Then ram is the machine's RAM, byte for byte. A page that the guest wrote
 * and you did not hand in is not seen by the devices, is lost once one writes into it, and is not sent: hand in all of them also
 * before vmig_send_round and vmig_send_stop.
 *
 * A MACHINE IS SENT WHILE IT RUNS: vmig_send_begin, then vmig_send_some until VMIG_ROUND_DONE and vmig_send_round, as often as you
 * like, then vmig_send_stop. The guest is served as before between these. The bytes of the stream are buffered until
 * vmig_send_take drains them; after vmig_send_stop the bytes taken, in their order, are one stream. From then on the guest is
 * paused, until vmig_send_abort or vmig_free. vmig_send_abort says when the guest may run here again. The machine that arrives may
 * run once the source has said so, and not before: else two hosts run one guest. A host whose protocol has no such word has let go
 * of the guest with the last byte of the stream.
 *     RAM of yours is sent while it is lent and the guest runs: you copy each page out of it, and hand the copy in. On a thread of
 * its own, under the lock of the machine, which is free for registers between two pages:
 *
 *     while ((s = vmig_send_next(m, &page)) == VMIG_OK || s == VMIG_SECTORS) {
 *         if (s == VMIG_SECTORS) s = vmig_send_some(m, 16);                  sectors do not lie in RAM
 *         else {
 *             forget(page);                                                 in your log of the pages that were written
 *             vmig_copy_page((const uint8_t *)ram.at + (size_t)4096 * page, bytes);
 *             s = vmig_send_page(m, page, bytes);                           a mixture of old and new bytes, where the guest wrote
 *         }
 *         if (vmig_refused(s)) break;
 *     }
 *
 * Forget the page's bit in your log, then copy its bytes, then hand them in; a page whose bytes may have changed since you began to
 * copy is named at the return, or by a mark. Forgetting after the copy loses a page, and nothing sees it. Other writers count as the
 * guest. `bytes` never points into RAM. Pages are named by vmig_mark, and rounds ended, while RAM is lent too: so a move holds the
 * guest for its begin and its stop alone.
 *     The library digests the stream, by some 7 ns a byte, within these calls. After vmig_send_begin_as with VMIG_TOLD it does not:
 * you digest what you take (SHA-256), as on a thread of its own, and tell the digest by vmig_send_tell after the stop; the last 33
 * bytes of the stream, which hold it, can be taken only then.
 *
 * A MACHINE ARRIVES: vmig_arrive, with the most that you allow, then vmig_feed with the bytes of the stream in any pieces, as they
 * come over the wire, until VMIG_WHOLE, and vmig_finish. Before its guest runs read the lines, do the devices' work, and ask for
 * calls of disks outside: a kick, an interrupt and a request that were not served come with the machine. The digest of the stream
 * is computed as the bytes come, by some 7 ns a byte. With VMIG_TOLD it is not: you digest what you feed (SHA-256), as on a thread
 * of its own, vmig_feed_some tells when that digest is due, and vmig_feed_tell hands it in, to be compared with the stream's own:
 *
 *     while (len > 0) {
 *         status = vmig_feed_some(m, bytes, len, &used);
 *         if (vmig_refused(status)) return status;
 *         digest_later(bytes, used);                         by your thread; bytes += used, len -= used
 *         if (status == VMIG_DIGEST) vmig_feed_tell(m, digest_of_all());
 *     }                                                      until VMIG_WHOLE
 *
 * WHAT TAKES MEMORY from malloc: vmig_make, for devices, for RAM and disks where they are not yours, for a bit for each sector of
 * an image, and for 8 bytes for each page; vmig_arrive, for lists of the images and shapes, and for 8 bytes for each page of RAM
 * that is yours; both for 5 KiB, in which calls of disks outside are kept, and for a log, where VMIG_LOG asks for it; vmig_feed and
 * vmig_feed_some, for the first bytes until the header is whole, fewer than 1,024, for a buffer of 128 KiB, in which the front of a
 * record waits for the rest, and, as soon as the header is whole and within the limits, for what vmig_make takes;
 * vmig_stream_describe, for a list of sixteen shapes, for the time of the call; vmig_save, for the whole stream, for the time of the
 * call; vmig_step and vmig_work, for a chain of more than four descriptors, or a message longer than those before it;
 * vmig_give_back, vmig_mark and vmig_push with a bitmap or with all pages, for 4 bytes for each page that they name, which are kept
 * for the next such call; vmig_send_begin and vmig_send_begin_as, for two bits for each page and sector; and these two,
 * vmig_send_some, vmig_send_page, vmig_send_round and vmig_send_stop for what they write, which waits until it is taken: a stop of
 * a machine of which nothing was copied before writes the whole machine. No other call does. */
#ifndef VMIG_H
#define VMIG_H

#include <stddef.h>
#include <stdint.h>

#ifdef __cplusplus
extern "C" {
#define VMIG_NULL_ nullptr
#define VMIG_AS_(type, at) static_cast<type>(at)
#else
#define VMIG_NULL_ 0
#define VMIG_AS_(type, at) ((type)(at))
#endif

/* A status that nobody looks at is a mistake, and so is a null for one of the parameters of these numbers. So is a null with a
 * count, and a buffer of fewer items than its count says: the at-th parameter is read or written, and the count-th is its count. */
#if defined(__GNUC__)
#define VMIG_CHECKED_(...) __attribute__((warn_unused_result, nonnull(__VA_ARGS__)))
#define VMIG_NONNULL_(...) __attribute__((nonnull(__VA_ARGS__)))
#else
#define VMIG_CHECKED_(...)
#define VMIG_NONNULL_(...)
#endif

#if defined(__has_attribute)
#if __has_attribute(access)
#define VMIG_READS_(at, count, bytes, len) __attribute__((access(read_only, at, count)))
#define VMIG_WRITES_(at, count, buf, size) __attribute__((access(write_only, at, count)))
#define VMIG_CHANGES_(at, count, buf, size) __attribute__((access(read_write, at, count)))
#define VMIG_HOLDS_(buf, size)
#elif __has_attribute(diagnose_if)
#pragma clang diagnostic push
#pragma clang diagnostic ignored "-Wgcc-compat"
#define VMIG_WARNS_(when, what) __attribute__((diagnose_if(when, what, "warning")))
#define VMIG_FITS_(at, count) VMIG_WARNS_((at) == VMIG_NULL_ && (count) > 0, "a null pointer with a count") \
    VMIG_WARNS_(__builtin_object_size(at, 0) / sizeof *(at) < (count), "a buffer of fewer items than its count says")
#define VMIG_READS_(at, count, bytes, len) VMIG_FITS_(bytes, len)
#define VMIG_WRITES_(at, count, buf, size) VMIG_FITS_(buf, size)
#define VMIG_CHANGES_(at, count, buf, size) VMIG_FITS_(buf, size)
#define VMIG_HOLDS_(buf, size) VMIG_WARNS_(__builtin_object_size(buf, 0) < (size), "a buffer of fewer bytes than are written")
#endif
#endif
#ifndef VMIG_READS_
#define VMIG_READS_(at, count, bytes, len)
#define VMIG_WRITES_(at, count, buf, size)
#define VMIG_CHANGES_(at, count, buf, size)
#define VMIG_HOLDS_(buf, size)
#endif

/* The version of this library. It reads streams of versions 1 to 3. It writes version 3 where a device is for frames of more than
 * 1,514 bytes, or has its disk outside, and else version 2. */
#define VMIG_VERSION "1.1.0"
#define VMIG_VERSION_MAJOR 1
#define VMIG_VERSION_MINOR 1
#define VMIG_VERSION_PATCH 0

/* The same as one number. One major number is one ABI, which only grows. */
#define VMIG_VERSION_NUMBER (VMIG_VERSION_MAJOR * 0x10000u + VMIG_VERSION_MINOR * 0x100u + VMIG_VERSION_PATCH)

typedef uint32_t vmig_status;

/* A machine, or none. */
typedef struct vmig_machine {
    void *at;
} vmig_machine;

#define VMIG_NONE {VMIG_NULL_}          /* an initializer; in C an assignment is `m = (vmig_machine)VMIG_NONE` */

/* ---- statuses ---------------------------------------------------------------------------------------------------------------- */
enum {
    VMIG_OK = 0,

    /* Refused: the event, by the numbers of the machine's own replies. */
    VMIG_NO_DEVICE = 1,                 /* there is no device of this number */
    VMIG_OUT_OF_RAM = 2,                /* the access is not all in RAM; of pages: there is no such page */
    VMIG_TOO_LONG = 3,                  /* an access to RAM of more than 4,096 bytes; disk_done: another count, or other bytes */
    VMIG_WRONG_KIND = 4,                /* a device of this kind has no such call, or no disk in the machine */
    VMIG_BAD_FRAME = 5,                 /* a frame of fewer than 14 bytes, or of more than the longest of its device, or
                                         * than MTU + 14 without a VLAN tag where it offers an MTU (5.1.4.1) */

    /* Refused: the call. */
    VMIG_NO_SECTOR = 7,                 /* the disk has no such sector */
    VMIG_NO_MACHINE = 8,                /* the handle has no machine, or one that still arrives */
    VMIG_IN_USE = 9,                    /* the handle has a machine already, or one arrives; feed, finish: it has arrived */
    VMIG_NO_MEMORY = 10,                /* out of memory: malloc or realloc failed */
    VMIG_TOO_SMALL = 11,                /* your buffer, your slots or your bitmap; of pages: a null with a count, or a bitmap
                                         * without one */
    VMIG_BAD_SHAPE = 12,                /* not 1 to 16 devices, or one beyond the limits (VMIG_LARGE), or of an unknown kind */
    VMIG_BAD_IMAGES = 15,               /* contents or images that do not fit the disks; release: a slot that has sectors */
    VMIG_NOT_SENDING = 17,              /* the machine is not being sent */
    VMIG_SENDING = 18,                  /* the machine is being sent */
    VMIG_SEND_FAILED = 20,              /* out of memory for what waits to be taken: vmig_send_abort makes the machine idle again */
    VMIG_STOPPED = 21,                  /* the machine was stopped: its guest is paused, and its stream is closed */
    VMIG_NO_ROUND_LEFT = 22,            /* 4,294,967,294 rounds have ended */
    VMIG_LENT = 23,                     /* RAM is out: give it back before */
    VMIG_NOT_LENT = 24,                 /* RAM is in */
    VMIG_NOT_YOURS = 25,                /* RAM is in memory of the library, and is never lent */
    VMIG_BAD_RAM = 26,                  /* not whole pages, none, or more than 16,384 without VMIG_LARGE; not as asked for or lent;
                                         * lend: its len is not 0 */
    VMIG_NOT_KNOWN = 27,                /* a struct of another version, an unknown flag, or a word that has to be 0 and is not;
                                         * arrive: no such longest frame; written: no VMIG_LOG */
    VMIG_NOT_OUT = 28,                  /* no call of a disk outside with this number is out */
    VMIG_CALLS_OUT = 29,                /* calls of disks outside are out, and have to be answered before */
    VMIG_BAD_BASE = 30,                 /* not a multiple of 4,096, or RAM would reach past the last address */
    VMIG_NOT_ASKED = 31,                /* send_tell: no VMIG_TOLD, or before the stop, or told already; feed_tell: no digest is
                                         * due (VMIG_DIGEST); feed: of an arrival with VMIG_TOLD, which vmig_feed_some feeds */
    VMIG_NOT_NEXT = 32,                 /* send_page: another page is next, or none (vmig_send_next) */

    /* Refused: what arrives. The arrival is over, and the handle waits for vmig_free or vmig_release. */
    VMIG_STREAM_BAD_MAGIC = 33,         /* it does not begin with "VMIG" */
    VMIG_STREAM_BAD_VERSION = 34,       /* a version after 3; or version 3, to an arrival that allows neither longer frames nor
                                         * disks outside, or, at the header's end, of a machine without any */
    VMIG_STREAM_BAD_SHAPE = 35,         /* it announces what no machine can be, or, to an arrival without VMIG_LARGE, what none
                                         * without this flag can be, but for longer frames */
    VMIG_STREAM_MISMATCH = 36,          /* at the header: not the shapes, images or pages of RAM that the arrival names; or RAM
                                         * from its base on would pass the last address */
    VMIG_STREAM_BAD_TAG = 37,           /* a tag that may not come there */
    VMIG_STREAM_BAD_PAGE = 38,          /* there is no such page, or, since version 2, its 4,096 bytes are all 0 */
    VMIG_STREAM_BAD_SECTOR = 39,        /* there is no such sector */
    VMIG_STREAM_BAD_ROUND = 40,         /* the end of a round that is not the next */
    VMIG_STREAM_BAD_DEVICE = 41,        /* an out-of-order device record, or an invalid device body: so it is of most arrivals whose
                                         * base is not that of the machine that was sent */
    VMIG_STREAM_BAD_DIGEST = 42,        /* the digest is another */
    VMIG_STREAM_MISSING = 43,           /* a page, a sector or a device is missing */
    VMIG_STREAM_TRAILING = 44,          /* bytes after its end */
    VMIG_STREAM_TRUNCATED = 45,         /* finish: its end has not come */
    VMIG_STREAM_NO_MEMORY = 47,         /* out of memory for what arrives */
    VMIG_STREAM_FAILED = 48,            /* it was refused before */
    VMIG_STREAM_TOO_LARGE = 49,         /* at the header, before memory is taken: more than the arrival allows */

    /* Done, and this was done. */
    VMIG_IDLE = 65,                     /* step: nothing to do; work: no step has anything to do; disk_call: there is none; next:
                                         * neither */
    VMIG_TAKEN = 66,                    /* a block device took a request */
    VMIG_MOVED = 67,                    /* one unit of a request is done: a sector, a flush or the id */
    VMIG_BAD_SECTOR = 68,               /* the sector is bad: the request will end with an error; sector_read: it has no bytes */
    VMIG_DISK_FAILED = 69,              /* the disk is lost: the flush failed, and the request will end with an error */
    VMIG_COMPLETED = 70,                /* a chain was given back to the driver; *len is its used length */
    VMIG_SENT = 71,                     /* a message of the guest is at the front of your buffer; *len are its bytes */
    VMIG_DROPPED = 72,                  /* a frame did not fit into the guest's buffer, and is gone */
    VMIG_NEEDS_RESET = 73,              /* the guest's chain is malformed; the device asks its driver for a reset */
    VMIG_ROUND_DONE = 76,               /* send_some, send_next: nothing is due any more in this round */
    VMIG_ROUND_OPEN = 77,               /* send_round: something is still due, and the round stays open */
    VMIG_WORK = 78,                     /* next: the step that it names has something to do; work: there is more to do */
    VMIG_MORE = 79,                     /* stream_describe: the header is not whole; save: the stream is longer than size */
    VMIG_SYNC = 80,                     /* next, work: the step that it names needs its disk durable before */
    VMIG_CALL = 81,                     /* disk_call: there is one; next: no step has anything to do, and there is one */
    VMIG_WHOLE = 82,                    /* feed, feed_some: the stream has ended, and is right: call vmig_finish */
    VMIG_DIGEST = 83,                   /* feed_some: the digest is due: tell it by vmig_feed_tell, and feed the rest */
    VMIG_SECTORS = 84                   /* send_next: no page is due any more in this round, and sectors are */
};

/* Whether a call was refused: 1 or 0. */
static inline int vmig_refused(vmig_status status) { return status - 1u < 63u; }

/* The name of a status as it stands above, such as "VMIG_NO_DEVICE", for messages; "unknown status" for any other number. */
static inline const char *vmig_status_name(vmig_status status);

/* ---- structs: each has a size for ever, and words that are 0 until a later version gives them a meaning ---------------------- */

/* Kinds of devices, by the numbers of the standard; and a block device whose disk is outside. */
enum {
    VMIG_NETWORK = 1,
    VMIG_BLOCK = 2,
    VMIG_CONSOLE = 3,
    VMIG_ENTROPY = 4,
    VMIG_BLOCK_OUTSIDE = 130
};

/* The most bytes that a step can put into your buffer: a console's message. */
#define VMIG_SENT_MAX 65536

/* The entry of seen for a page that you have not seen. */
#define VMIG_UNSEEN UINT64_MAX

/* What vmig_reg_write gives out where no console gives out a byte. */
#define VMIG_NO_BYTE 256

/* A device. What its kind does not need is 0, else VMIG_BAD_SHAPE. */
typedef struct vmig_shape {
    uint8_t kind;
    uint8_t read_only;                  /* of a disk: whether the driver may only read it, 0 or 1 */
    uint8_t mac[6];                     /* of a network device */
    uint64_t sectors;                   /* of a disk: 1 to 2,097,152 sectors of 512 bytes, to 4,294,967,295 with VMIG_LARGE; of a
                                         * disk outside to 2^54, with and without it */
    uint8_t id[20];                     /* of a disk: the id that it returns to a driver */
    uint32_t frame;                     /* of a network device: how many bytes its longest frame has: 1,514, or with VMIG_LARGE
                                         * 1,518 to 65,535; 0 is 1,514. A device of 1,514 offers no MTU, and is described by 0 */
    uint64_t reserved[2];               /* 0 */
} vmig_shape;                           /* 56 bytes, no padding */

/* A disk in memory of yours, as a file that you mapped: 512 * sectors bytes at at, fewer than 2^63, which may be read. They may be
 * written too, unless the machine is made and its shape is read_only: what arrives is written in any case. An image of no sectors
 * has no bytes, and its pointer may be null. Of the slots of vmig_release `sectors` alone is looked at. */
typedef struct vmig_image {
    void *at;
    uint64_t sectors;
} vmig_image;

/* RAM in memory of yours: len bytes at at, whole pages, fewer than 2^63, which may be read and written. They have values before the
 * call: mmap and calloc give them, and malloc does not. If a file lies behind them it is not cut. */
typedef struct vmig_ram {
    void *at;
    size_t len;
} vmig_ram;

#define VMIG_NO_IMAGE {VMIG_NULL_, 0}
#define VMIG_NO_RAM {VMIG_NULL_, 0}

/* Pages of RAM: those of a list, those of a bitmap as KVM_GET_DIRTY_LOG fills it, both, or all. Begin with vmig_list, vmig_bitmap,
 * VMIG_NO_PAGES or VMIG_ALL_PAGES, and not field by field: a list whose count was forgotten names nothing, and its pages are lost
 * at the target. A bitmap without a count, and a null with one, are VMIG_TOO_SMALL. The pages of a list come in any order, and one
 * may come twice. */
typedef struct vmig_pages {
    const uint32_t *list;
    size_t count;
    const uint64_t *words;              /* bit k of words[n], the lowest being bit 0, is page first + 64 * n + k */
    size_t count_words;                 /* at least one for each 64 pages of span, else VMIG_TOO_SMALL; 0: no bitmap,
                                         * and words is null then */
    uint32_t first, span;               /* the pages that the bitmap covers, as a memory slot has them. A span of 0 reaches from
                                         * first to RAM's end, and one that reaches past it is VMIG_OUT_OF_RAM. Bits past the
                                         * span are not looked at */
    uint32_t all;                       /* 1: every page; else 0 */
    uint32_t zero;                      /* 0 */
    uint64_t reserved[2];               /* 0 */
} vmig_pages;

#define VMIG_NO_PAGES {VMIG_NULL_, 0, VMIG_NULL_, 0, 0, 0, 0, 0, {0, 0}}
#define VMIG_ALL_PAGES {VMIG_NULL_, 0, VMIG_NULL_, 0, 0, 0, 1, 0, {0, 0}}

/* The pages of a bitmap of count_words words, from RAM's first page on to its end. Set `first` and `span` where it is of a slot. */
static inline vmig_pages vmig_bitmap(const uint64_t *words, size_t count_words)
{
    vmig_pages pages = VMIG_NO_PAGES;
    pages.words = words;
    pages.count_words = count_words;
    return pages;
}

/* The pages of a list of count numbers. */
static inline vmig_pages vmig_list(const uint32_t *list, size_t count)
{
    vmig_pages pages = VMIG_NO_PAGES;
    pages.list = list;
    pages.count = count;
    return pages;
}

/* A machine that is made. Begin with VMIG_SETUP, and set pages or ram, shapes and count, and what else you want. VMIG_OK takes RAM
 * and images: ram is VMIG_NO_RAM and each image VMIG_NO_IMAGE then. The rest of the struct is as it was in any case. */
typedef struct vmig_setup {
    uint32_t version;                   /* of this struct: 1 */
    uint32_t pages;                     /* of RAM, 4,096 bytes each, 1 to 16,384, or any number but 0 with VMIG_LARGE; with ram of
                                         * yours 0, or as many as it has */
    const vmig_shape *shapes;           /* the devices, 1 to 16: they have the numbers 0, 1 and so on, in this order */
    size_t count;
    const uint8_t *contents;            /* len bytes, the disks' first contents: the sectors of the first block device, from
                                         * sector 0 on, then those of the second, and so on. len is 512 times the sectors of all
                                         * of them, or 0 */
    size_t len;
    vmig_image *images;                 /* or the disks themselves, one for each block device, in their order, of as many sectors;
                                         * or count_images is 0. With neither contents nor images the disks are zeros */
    size_t count_images;
    vmig_ram ram;                       /* RAM with the bytes that are there, such as a kernel that you put there; or VMIG_NO_RAM:
                                         * zeros, in memory of the library */
    uint64_t base;                      /* the guest-physical address of RAM's first byte: a multiple of 4,096, and no byte of RAM
                                         * is past the last address. All addresses of the guest count from there: those that a
                                         * driver writes into registers and descriptors, and those of vmig_ram_read and
                                         * vmig_ram_write */
    uint32_t flags;                     /* any of VMIG_LARGE and VMIG_LOG, or 0 */
    uint32_t block;                     /* of disks outside: how many sectors the largest block of your storage has, as 8 for 4,096
                                         * bytes: 1 to 2^32 - 1, and 0 is 1. Without a disk outside it is not looked at */
    uint64_t calls_from;                /* of disks outside: the number of the first call. Numbers count up from there, and at
                                         * 2^64 - 1 no call is handed out. Where no two machines of a process have one in common,
                                         * an answer of another machine, or of one that was freed, is VMIG_NOT_OUT: so let each
                                         * have 2^40 of its own, `(uint64_t)machines++ << 40` by a counter in the process */
    uint64_t reserved[3];               /* 0 */
} vmig_setup;

#define VMIG_SETUP {1, 0, VMIG_NULL_, 0, VMIG_NULL_, 0, VMIG_NULL_, 0, VMIG_NO_RAM, 0, 0, 0, 0, {0, 0, 0}}

/* Flags. VMIG_LARGE: the machine may be as large as its stream can tell, with 4,294,967,295 pages (16 TiB), as many sectors
 * (2 TiB) of each disk, and frames of 65,535 bytes. Without it a machine of more than 16,384 pages (64 MiB), of a disk of more than
 * 2,097,152 sectors (1 GiB), or of a device for frames of more than 1,514 bytes is refused, made or arriving. Let large RAM be
 * yours: the library fills its own with zeros when it makes a machine, and at vmig_finish the pages that did not come, while the
 * guest stands. vmig_save, and a stop before which nothing was copied, hold the whole stream in memory. */
#define VMIG_LARGE 1u

/* VMIG_LOG: the pages that calls write are logged, for vmig_written. It takes some instructions more a step, and a bit for each
 * page that RAM has, or may have where it arrives, and at least 2 KiB. */
#define VMIG_LOG 2u

/* VMIG_TOLD, of vmig_send_begin_as and of vmig_arrive: the library does not digest the stream. You do, and tell the digest by
 * vmig_send_tell, and by vmig_feed_tell. A machine is not made with it. */
#define VMIG_TOLD 4u

/* A machine that arrives. Begin with VMIG_ARRIVAL: it allows nothing until you say what. VMIG_OK takes RAM and images, as above. */
typedef struct vmig_arrival {
    uint32_t version;                   /* of this struct: 1 */
    uint32_t most_pages;                /* of RAM, 4,096 bytes each, in memory of the library. RAM of yours is its own limit: 0 here
                                         * then, else VMIG_BAD_RAM */
    uint64_t most_sectors;              /* of all disks in memory of the library together. Images are their own limit: beside them
                                         * this is not looked at. Disks outside take no memory, and are not counted */
    const vmig_shape *shapes;           /* exactly these devices, else VMIG_STREAM_MISMATCH; or count is 0: any within the limits */
    size_t count;
    vmig_image *images;                 /* the disks, in memory of yours: one for each block device of the stream, in their order,
                                         * of as many sectors, else VMIG_STREAM_MISMATCH; or count_images is 0: in memory of the
                                         * library */
    size_t count_images;
    vmig_ram ram;                       /* RAM, in memory of yours, written as pages come: of as many pages as the stream's, else
                                         * VMIG_STREAM_MISMATCH; or VMIG_NO_RAM: in memory of the library */
    uint64_t base;                      /* the guest-physical address of RAM's first byte: that of the machine that is sent, which
                                         * the stream does not say. With another one the addresses in it can be out of RAM: then it
                                         * is refused, else the driver finds its rings at other bytes. A multiple of 4,096. RAM of
                                         * the library that would reach past the last address is VMIG_STREAM_MISMATCH */
    uint32_t flags;                     /* any of VMIG_LARGE, VMIG_LOG and VMIG_TOLD, or 0 */
    uint32_t frame;                     /* how many bytes the longest frame of each network device may have: 1,514, or with
                                         * VMIG_LARGE to 65,535, else VMIG_NOT_KNOWN; 0 is 1,514. Where shapes name a longer one as
                                         * many as that; more are VMIG_STREAM_TOO_LARGE */
    uint64_t most_outside;              /* how many sectors each disk outside may have, and where shapes name a larger one as many
                                         * as that; more are VMIG_STREAM_TOO_LARGE. 0, and none in shapes: no disk is outside. Where
                                         * this is so, and no frame may have more than 1,514 bytes, version 3 of the stream is
                                         * VMIG_STREAM_BAD_VERSION */
    uint32_t block;                     /* as of vmig_setup */
    uint32_t zero;                      /* 0 */
    uint64_t calls_from;                /* as of vmig_setup */
    uint64_t reserved[1];               /* 0 */
} vmig_arrival;

#define VMIG_ARRIVAL {1, 0, 0, VMIG_NULL_, 0, VMIG_NULL_, 0, VMIG_NO_RAM, 0, 0, 0, 0, 0, 0, 0, {0}}

/* What a handle has; or what a stream announces. What is not known yet, or is not of this state, is 0: an arrival that has failed
 * has its flags, fault, fault_at and images, and no base. */
typedef struct vmig_description {
    uint32_t state;                     /* VMIG_IS_NONE and the others below */
    uint32_t lent;                      /* 1: RAM is out */
    uint32_t pages;                     /* of RAM; of what arrives from its header on, and 0 once it has failed */
    uint32_t count;                     /* of devices; likewise */
    uint64_t base;                      /* of RAM; of a stream 0, which does not say it */
    uint32_t flags;                     /* those that it was made, or let arrive, with; VMIG_TOLD while it arrives */
    uint32_t calls_out;                 /* how many calls of disks outside were handed out and are not answered */
    uint32_t rounds;                    /* sending: the number of the round that is open; arriving: how many have ended */
    uint32_t fault;                     /* failed, send failed: the status that was answered first */
    uint64_t fault_at;                  /* failed: how many bytes of the stream came before the piece that was refused */
    uint32_t images;                    /* how many slots vmig_release needs */
    uint32_t lost;                      /* bit d: the disk of device d, in the machine or outside, by vmig_sync_failed */
    uint32_t message;                   /* the size of buffer that is enough for every step. Of what arrives, also once it is whole,
                                         * 0: until vmig_finish vmig_stream_describe says it of its first bytes */
    uint32_t whole;                     /* arriving: 1 after VMIG_WHOLE */
    uint64_t reserved[4];               /* 0 */
    vmig_shape shapes[16];              /* of the devices 0, 1 and so on */
} vmig_description;

enum {
    VMIG_IS_NONE = 0,
    VMIG_IS_ARRIVING = 1,
    VMIG_IS_FAILED = 2,                 /* what arrived was refused */
    VMIG_IS_IDLE = 3,
    VMIG_IS_SENDING = 4,
    VMIG_IS_SEND_FAILED = 5,
    VMIG_IS_STOPPED = 6
};

/* ---- a machine's life -------------------------------------------------------------------------------------------------------- */

/* The version of the library that was linked. Its major number has to be that of VMIG_VERSION_NUMBER, and it is at least that
 * number: an older library lacks calls. */
uint32_t vmig_version(void);

/* Makes a machine as the setup says, in any mixture of RAM, of yours or of the library, and of disks: zeros, your contents, or
 * images. VMIG_OK takes RAM and images: ram of the setup is VMIG_NO_RAM then, and each image VMIG_NO_IMAGE.
 * NOT_KNOWN, BAD_RAM (not whole pages, none or too many; pages and ram differ; null), BAD_SHAPE, BAD_BASE, BAD_IMAGES (contents
 * and images; counts, lengths or sectors that are not those of the disks; null), NO_MEMORY. */
vmig_status vmig_make(vmig_setup *setup, vmig_machine *m) VMIG_CHECKED_(1, 2);

/* Frees whatever the handle has, also while RAM is lent; it is VMIG_NONE then. RAM and images of yours are yours again, where they
 * lay. What images hold is promised by vmig_release, which frees the machine too. */
void vmig_free(vmig_machine *m) VMIG_NONNULL_(1);

/* Frees it and hands its images back, in the order of the devices: the first slots become them, and the others stay VMIG_NO_IMAGE.
 * They hold what the guest left there; a sector that is VMIG_BAD_SECTOR may hold anything. Of what arrives, refused or not, they
 * hold what they held, and in part the sectors of the stream. Without images no slot is needed. RAM of yours is yours again too,
 * where it lay.
 * BAD_IMAGES (a slot whose sectors are not 0), TOO_SMALL (slots). */
vmig_status vmig_release(vmig_machine *m, vmig_image *slots, size_t count) VMIG_CHECKED_(1) VMIG_CHANGES_(2, 3, slots, count);

/* What the handle has. Never refused: of no machine the state is VMIG_IS_NONE, and the rest 0. */
void vmig_describe(const vmig_machine *m, vmig_description *out) VMIG_NONNULL_(1, 2);

/* ---- what the guest and the host do: none of it touches RAM ------------------------------------------------------------------ */

/* The driver reads a register: 1, 2 or 4 bytes (width) at an offset in the device's window, which has 0x200 bytes. The registers
 * are those of VIRTIO 1.2, 4.2.2, 4 bytes each, and from 0x100 on lies the device's configuration (docs/hosts/devices.md has a table).
 * Each offset and width has an answer: an offset without a register, and a register by another width, reads 0. An access of 8 bytes
 * is two of 4. NO_DEVICE. */
vmig_status vmig_reg_read(const vmig_machine *m, uint8_t dev, uint32_t off, uint8_t width, uint32_t *value) VMIG_CHECKED_(1, 5);

/* The driver writes a register. The status does not show whether the device takes the value: where there is no register, or one of
 * another width, a write is VMIG_OK and does nothing. *byte becomes the byte that a console gives out where its driver writes its
 * emergency register (VIRTIO 1.2, 5.3.5): print it. Else it becomes VMIG_NO_BYTE. After a write at 0x050 (QueueNotify) the device
 * may have work.
 * NO_DEVICE, CALLS_OUT (it would drop requests of a disk outside, by 0 at Status, 0x070, or at QueueReady, 0x044, and a call of
 * this disk is out: answer it, and hand the write in again). */
vmig_status vmig_reg_write(vmig_machine *m, uint8_t dev, uint32_t off, uint8_t width, uint32_t value, uint32_t *byte)
    VMIG_CHECKED_(1, 6);

/* The interrupt lines, level triggered: bit d is set while device d has an interrupt that its driver has not acknowledged; 0 of no
 * machine. No status. Read them after each call that may change them: a register write, a step, a resize, a reset. Tell a
 * controller of changes alone: some take a level that is told again for another interrupt. */
uint32_t vmig_lines(const vmig_machine *m) VMIG_NONNULL_(1);

/* The host puts bytes in: entropy, text for a console, or one frame, of 14 bytes to the longest of its device. *kept of its bytes
 * were kept: the first ones, a frame whole or not at all. The rest is still yours. An entropy device and a console hold 4,096
 * bytes, a network device 64 frames, or fewer of longer ones (WHAT YOU PUT IN, above). The device may have work then: make a turn.
 * NO_DEVICE, WRONG_KIND (a block device), BAD_FRAME. */
vmig_status vmig_input(vmig_machine *m, uint8_t dev, const uint8_t *bytes, size_t len, size_t *kept)
    VMIG_CHECKED_(1, 5) VMIG_READS_(3, 4, bytes, len);

/* *room becomes how many bytes (of a network device: frames) vmig_input would keep. NO_DEVICE, WRONG_KIND (a block device). */
vmig_status vmig_room(const vmig_machine *m, uint8_t dev, size_t *room) VMIG_CHECKED_(1, 3);

/* The host sets the size of a console, in characters. NO_DEVICE, WRONG_KIND. */
vmig_status vmig_resize(vmig_machine *m, uint8_t dev, uint16_t cols, uint16_t rows) VMIG_CHECKED_(1);

/* Drops what was put in and the guest has not taken: before a snapshot that may run twice, so that two guests do not take the same
 * bytes out of a pool. (What the guest's own generator holds lies in its RAM, and is saved with it.) NO_DEVICE, WRONG_KIND (a block
 * device). */
vmig_status vmig_drop(vmig_machine *m, uint8_t dev) VMIG_CHECKED_(1);

/* The guest's reboot: of each device in order, what its driver's reset does (0 into Status, at 0x070), and vmig_drop where it has
 * it. RAM, disks, bad sectors, lost disks and a console's size stay. A machine that is being sent is sent on. Read the lines.
 * CALLS_OUT (of a disk outside that has requests: answer these, and call again). */
vmig_status vmig_reset(vmig_machine *m) VMIG_CHECKED_(1);

/* ---- work: steps of the devices, which read and write RAM -------------------------------------------------------------------- */

/* Names a step that has something to do: *dev and *pick become its numbers. Round robin: all picks of one device, then the next
 * device, wrapping around, from the step on that comes after the one that they name before the call. Begin with 0 and 0, and leave
 * them to the next call. It reads no RAM. VMIG_WORK: make the step. VMIG_SYNC: bring the device's disk to its file first, since
 * the guest takes what it wrote for durable by this step; or call vmig_sync_failed in its place. VMIG_CALL: no step has anything
 * to do, and vmig_disk_call would hand out a call; *dev becomes its device, *pick is as it was. VMIG_IDLE: neither is so; both are
 * as they were. */
vmig_status vmig_next(const vmig_machine *m, uint8_t *dev, uint8_t *pick) VMIG_CHECKED_(1, 2, 3);

/* A device does one piece of its work. Of a block device pick 0 takes the next request, and k, 1 to 8, brings the k-th that it has
 * taken one unit on, or ends it. Of the others 0 fills the next buffer, and of a network device and a console 1 takes the next
 * message to be sent, to the front of buf, whose other bytes stay. *len becomes its length (SENT), or the used length (COMPLETED),
 * or stays.
 * IDLE (nothing to do, or no such pick), TAKEN, MOVED, BAD_SECTOR, DISK_FAILED, COMPLETED, SENT, DROPPED, NEEDS_RESET. NO_DEVICE,
 * TOO_SMALL (it may send more than size: pick 1 alone sends, a longest frame, or 65,536 bytes of a console), NO_MEMORY. */
vmig_status vmig_step(vmig_machine *m, uint8_t dev, uint8_t pick, uint8_t *buf, size_t size, uint32_t *len)
    VMIG_CHECKED_(1, 6) VMIG_WRITES_(4, 5, buf, size);

/* A turn of the devices. Begin with VMIG_TURN, keep it with the machine, and set `left` before each turn. */
typedef struct vmig_turn {
    uint8_t dev, pick;                  /* the step that was made or passed over last; the next one in turn comes after it */
    uint16_t zero;
    uint32_t left;                      /* how many steps may still be made or passed over; each of them counts it down */
    uint32_t len;                       /* of SENT and COMPLETED: as vmig_step's *len */
    uint32_t zero2;
    uint64_t reserved[2];
} vmig_turn;

#define VMIG_TURN {0, 0, 0, 0, 0, 0, {0, 0}}

/* Makes the steps that vmig_next names, until one of these comes; call it again to go on. VMIG_IDLE: no step has anything to do (a
 * call of a disk outside may wait). VMIG_WORK: there is more; `left` is 0, or memory was refused to a later step, which the next
 * call makes. VMIG_SYNC: `dev`, `pick` was passed over: bring its disk to its file, and make it by vmig_step, or call
 * vmig_sync_failed. SENT, DROPPED, NEEDS_RESET, BAD_SECTOR, DISK_FAILED, COMPLETED (an entropy device, with room now): `dev`,
 * `pick` was made last. NOT_KNOWN (of the turn), TOO_SMALL (size is less than vmig_describe's message), NO_MEMORY (of the first
 * step: nothing has changed; to let others go first, let vmig_next set dev and pick). */
vmig_status vmig_work(vmig_machine *m, vmig_turn *turn, uint8_t *buf, size_t size)
    VMIG_CHECKED_(1, 2) VMIG_WRITES_(3, 4, buf, size);

/* The disk of this device is lost, for good: it could not be brought to its file, or it is outside and its storage may have lost
 * writes that it answered. Call it also for a sync of your own that failed. From then on no flush of it is told done, nor a write
 * or clearing that has to be durable: a flush ends with an error (A DISK THAT IS LOST, above, says which requests wait). VMIG_SYNC
 * is no longer reported for this disk; other steps are unaffected. It stays lost through each reset, until the machine is freed,
 * and in no stream.
 * NO_DEVICE, WRONG_KIND (it has no disk). */
vmig_status vmig_sync_failed(vmig_machine *m, uint8_t dev) VMIG_CHECKED_(1);

/* ---- disks outside: yours, on request ---------------------------------------------------------------------------------------- */

/* What a call asks for. */
enum {
    VMIG_DISK_READ = 1,                 /* to read sectors */
    VMIG_DISK_WRITE = 2,                /* to write sectors */
    VMIG_DISK_CLEAR = 3,                /* to fill sectors with zeros */
    VMIG_DISK_FLUSH = 4                 /* to make durable what was written and cleared */
};

typedef struct vmig_call {
    uint64_t number;                    /* names the call until it is answered; no other call of this machine ever has it */
    uint64_t first;                     /* the first sector; 0 of a flush */
    uint32_t count;                     /* how many sectors of 512 bytes, none past the disk's last; 0 of a flush */
    uint8_t dev;                        /* the device */
    uint8_t what;                       /* one of VMIG_DISK_ */
    uint8_t durable;                    /* of a write or a clearing 1, if it has to be durable before it is answered, for the driver
                                         * did not accept the feature FLUSH; else 0 */
    uint8_t zero;                       /* 0 */
    uint64_t reserved[2];               /* 0 */
} vmig_call;

/* Hands out the next call: VMIG_CALL, and *call becomes it; or VMIG_IDLE, where no device waits for one that may be handed out. Of
 * a write its bytes, 512 * count, go to the front of buf, as they lie in RAM then. A call has at most size / 512 sectors, of each
 * kind: what is left of its request is asked for by another call. No sector is written or cleared of a disk that its driver may
 * only read. At most 8 calls of a device are out, and devices take turns. Call it until VMIG_IDLE after each turn, and after each
 * answer; or where vmig_next says VMIG_CALL.
 * TOO_SMALL (size is less than 512). */
vmig_status vmig_disk_call(vmig_machine *m, vmig_call *call, uint8_t *buf, size_t size)
    VMIG_CHECKED_(1, 2) VMIG_WRITES_(3, 4, buf, size);

/* `count` sectors of the call with this number were done, from its first one on: one at least, and no more than it has; of a flush
 * 0. bytes are those that were read, 512 * count; of other calls none. What it lacks is asked for anew, under another number.
 * VMIG_OK also where nothing waits for it any more, as its device asked for a reset meanwhile; and where its disk is lost and it
 * says that something is durable: that counts as failed. It is done while RAM is lent too, but for a read. After a refusal the call
 * is still out.
 * NOT_OUT, LENT (of a read), TOO_LONG (another count, or another number of bytes). */
vmig_status vmig_disk_done(vmig_machine *m, uint64_t number, uint32_t count, const uint8_t *bytes, size_t len)
    VMIG_CHECKED_(1) VMIG_READS_(4, 5, bytes, len);

/* The call with this number failed, and nothing of it can land any more: its request will end with an error. VMIG_OK also where
 * nothing waits for it any more. It is done while RAM is lent too. NOT_OUT. */
vmig_status vmig_disk_failed(vmig_machine *m, uint64_t number) VMIG_CHECKED_(1);

/* The calls that are out: *count becomes how many, and the oldest of them, size at most, are at the front of calls, as they were
 * handed out, oldest first; what is after them is as it was. Room for 8 of each device is enough. For a host that lost the number
 * of a call, and lets it fail, or that counts the calls of a device. */
vmig_status vmig_calls_out(const vmig_machine *m, vmig_call *calls, size_t size, size_t *count)
    VMIG_CHECKED_(1, 4) VMIG_WRITES_(2, 3, calls, size);

/* ---- a look from outside ----------------------------------------------------------------------------------------------------- */

/* A sector of the disk of a device, numbered from 0: VMIG_OK, and buf becomes its 512 bytes; or VMIG_BAD_SECTOR: it has none, and
 * buf is as it was. Nothing but the guest writes a disk. NO_DEVICE, WRONG_KIND (it has no disk), NO_SECTOR. */
vmig_status vmig_sector_read(const vmig_machine *m, uint8_t dev, uint64_t sector, uint8_t buf[512])
    VMIG_CHECKED_(1, 4) VMIG_HOLDS_(buf, 512);

/* ---- RAM --------------------------------------------------------------------------------------------------------------------- */

/* An access of an interpreted guest, of up to 4,096 bytes, from a guest-physical address on. TOO_LONG, OUT_OF_RAM. */
vmig_status vmig_ram_read(const vmig_machine *m, uint64_t addr, uint8_t *buf, size_t len)
    VMIG_CHECKED_(1) VMIG_WRITES_(3, 4, buf, len);
vmig_status vmig_ram_write(vmig_machine *m, uint64_t addr, const uint8_t *bytes, size_t len)
    VMIG_CHECKED_(1) VMIG_READS_(3, 4, bytes, len);

/* Lends RAM of yours to you and the guest: *ram, whose len is 0 before, becomes it. Until it is given back you and your guest may
 * read and write these bytes, and no call does. It allocates nothing, and takes constant time.
 * BAD_RAM (its len is not 0), NOT_YOURS. */
vmig_status vmig_lend(vmig_machine *m, vmig_ram *ram) VMIG_CHECKED_(1, 2);

/* Takes RAM back, with all vCPUs outside; *ram is VMIG_NO_RAM then. Its address may be another, if the bytes moved there: RAM lies
 * there from then on. `written` names the pages that were written meanwhile, or since they were handed in: each counts as written
 * whole, and is sent anew. A page that was written and is named neither here, nor at a later return, nor by vmig_mark, before the
 * next vmig_send_round or vmig_send_stop, is lost at the target: nothing checks it. After a refusal RAM is still lent.
 * NOT_KNOWN, BAD_RAM (another length than what was lent; null), TOO_SMALL, OUT_OF_RAM (no such page), NO_MEMORY (a bitmap, or
 * all). */
vmig_status vmig_give_back(vmig_machine *m, vmig_ram *ram, const vmig_pages *written) VMIG_CHECKED_(1, 2, 3);

/* Names pages that were written while RAM was lent, and not named when it came back, as vmig_give_back does: each is taken for
 * written whole, with the bytes that lie there. Pages may be named in pieces, and more of them than were written. While RAM is
 * lent they become dirty, and so are due after vmig_send_round; the return names them all the same, unless they were handed in
 * since. Of a machine that is not being sent nothing changes then.
 * NOT_KNOWN, TOO_SMALL, OUT_OF_RAM (no such page), NO_MEMORY (a bitmap, or all). */
vmig_status vmig_mark(vmig_machine *m, const vmig_pages *written) VMIG_CHECKED_(1, 2);

/* Hands out the numbers of the pages that vmig_step, vmig_work, vmig_ram_write, vmig_push and vmig_disk_done wrote, also with the
 * same bytes, and that were not handed out yet: ascending, at most size of them, and it forgets these. *count of them are at the
 * front of pages, and what is after them is as it was; where *count is less than size, they were all. Exactly these: none that
 * vmig_give_back or vmig_mark named, and none that arrived. For a host that translates code, keeps a dirty log of its own, or shows
 * a frame buffer. It takes no memory.
 * NOT_KNOWN (it was made, or let arrive, without VMIG_LOG). */
vmig_status vmig_written(vmig_machine *m, uint32_t *pages, size_t size, size_t *count)
    VMIG_CHECKED_(1, 4) VMIG_WRITES_(2, 3, pages, size);

/* RAM that is mirrored: the machine's page n becomes the 4,096 bytes at ram + 4096 * n, for each page that is named, as if the
 * guest wrote it whole, so a machine that is being sent sends it anew; and seen[n] becomes its version. ram has len bytes and seen
 * has count entries, at least as many as RAM has bytes and pages, else TOO_SMALL. Only this call and vmig_pull write seen.
 * NOT_KNOWN, TOO_SMALL, OUT_OF_RAM (no such page), NO_MEMORY (a bitmap, or all). */
vmig_status vmig_push(vmig_machine *m, const vmig_pages *written, const uint8_t *ram, size_t len, uint64_t *seen, size_t count)
    VMIG_CHECKED_(1, 2) VMIG_READS_(3, 4, ram, len) VMIG_WRITES_(5, 6, seen, count);

/* Hands out each page whose version is not seen[n], and each whose version is the greatest, UINT64_MAX, at which the version stops
 * counting: it goes to ram + 4096 * n, and seen[n] becomes its version. All else of ram and seen is as it was. *pulled becomes the
 * number of pages handed out. Sizes are as for vmig_push. TOO_SMALL. */
vmig_status vmig_pull(const vmig_machine *m, uint8_t *ram, size_t len, uint64_t *seen, size_t count, uint32_t *pulled)
    VMIG_CHECKED_(1, 6) VMIG_WRITES_(2, 3, ram, len) VMIG_CHANGES_(4, 5, seen, count);

/* ---- a machine is sent ------------------------------------------------------------------------------------------------------- */

/* The machine begins to be sent: the head of its stream is written, and every page and sector is due, which is to be sent, in
 * round 1. It writes two bits for each of them, with the guest outside where RAM is yours: some 17 ms for 64 GiB of disks, 310 ms
 * for 1 TiB. NO_MEMORY. */
vmig_status vmig_send_begin(vmig_machine *m) VMIG_CHECKED_(1);

/* As vmig_send_begin, by flags: VMIG_TOLD, or 0. NOT_KNOWN (another flag), NO_MEMORY. */
vmig_status vmig_send_begin_as(vmig_machine *m, uint32_t flags) VMIG_CHECKED_(1);

/* Copies up to `most` pages and sectors that are due, those with the least numbers first and pages before sectors: their bytes wait
 * to be taken. VMIG_OK, or VMIG_ROUND_DONE: nothing is due after it. While RAM is lent it copies sectors; pages are handed in.
 * LENT (RAM is lent, and a page is next), SEND_FAILED, and a part may wait. */
vmig_status vmig_send_some(vmig_machine *m, uint32_t most) VMIG_CHECKED_(1);

/* What is sent next: VMIG_OK: the page *page, the least that is due; VMIG_SECTORS: no page is due, and sectors are: vmig_send_some
 * copies them, while RAM is lent too; or VMIG_ROUND_DONE: nothing is due. Unless it is VMIG_OK *page is as it was. */
vmig_status vmig_send_next(const vmig_machine *m, uint32_t *page) VMIG_CHECKED_(1, 2);

#if defined(__GNUC__)
typedef uint64_t vmig_word_ __attribute__((may_alias, aligned(1)));
#else
typedef uint8_t vmig_word_;
#endif

/* Copies the 4,096 bytes of a page out of lent RAM, which the guest may write meanwhile: each is loaded once, in loads of 8 bytes
 * (of one without gcc or clang), and the compiler assumes nothing of what it reads. For vmig_send_page. */
static inline void vmig_copy_page(const void *page, uint8_t bytes[4096])
{
    const volatile vmig_word_ *from = VMIG_AS_(const volatile vmig_word_ *, page);
    void *at = bytes;
    vmig_word_ *to = VMIG_AS_(vmig_word_ *, at);

    for (size_t i = 0; i < 4096 / sizeof *to; i++) to[i] = from[i];
}

/* Sends a page while RAM is lent and the guest runs: the 4,096 bytes at `bytes`, which you copied out of RAM after you had forgotten
 * its bit (A MACHINE IS SENT WHILE IT RUNS, above), whatever the guest wrote meanwhile. It has to be the page that vmig_send_next
 * names. It is due and dirty no longer; what an earlier loan left to be named of it need not be. Its version does not rise: for
 * vmig_pull name it at the return all the same.
 * OUT_OF_RAM (no such page), NOT_NEXT (another page is next, or none), SEND_FAILED, and a part may wait. */
vmig_status vmig_send_page(vmig_machine *m, uint32_t page, const uint8_t bytes[4096]) VMIG_CHECKED_(1, 3);

/* Ends the round, if nothing is due in it: what the guest and the devices wrote since it was sent is due in the next. VMIG_OK, or
 * VMIG_ROUND_OPEN: something is still due, and nothing changed. While RAM is lent, too: then what was written in this loan
 * counts as written after it, and what an earlier one left has to be named before. NO_ROUND_LEFT, SEND_FAILED. */
vmig_status vmig_send_round(vmig_machine *m) VMIG_CHECKED_(1);

/* Copies all that is due or was written since it was sent, then the devices, and closes the stream. *pages and *sectors become the
 * numbers that it copied. The guest is paused from here on, until vmig_send_abort. Take what waits before it: what was not taken is
 * digested in this call, while the guest stands, unless with VMIG_TOLD. CALLS_OUT (of any disk outside: answer them, and ask for no
 * more), SEND_FAILED. */
vmig_status vmig_send_stop(vmig_machine *m, uint64_t *pages, uint64_t *sectors) VMIG_CHECKED_(1, 2, 3);

/* The machine continues as if it had never been sent; what waits is lost. After a stop that was done: only where nobody runs what
 * was sent, and nobody will: a target that you have not told to run it, though it may have finished, or a snapshot in a file. Once
 * the word is out only an operator who knows that the other side does not run may allow it. */
vmig_status vmig_send_abort(vmig_machine *m) VMIG_CHECKED_(1);

/* The next bytes of the stream go to the front of buf, *got of them; 0, where size is not 0, says that none waits. After
 * vmig_send_stop and a 0 the stream is whole, or, with VMIG_TOLD and until the digest is told, all of it but the last 33 bytes was
 * taken. Its cost is proportional to the bytes that it returns, so buf may be of any size. After VMIG_SEND_FAILED the bytes that
 * wait may end within a record. */
vmig_status vmig_send_take(vmig_machine *m, uint8_t *buf, size_t size, size_t *got)
    VMIG_CHECKED_(1, 4) VMIG_WRITES_(2, 3, buf, size);

/* The digest of a stream that was begun with VMIG_TOLD: the SHA-256 of all its bytes but the last 33, in their order, which can be
 * taken after it. Nobody compares it here: whoever receives the stream refuses another one (STREAM_BAD_DIGEST), and the machine is
 * still here. NOT_ASKED. */
vmig_status vmig_send_tell(vmig_machine *m, const uint8_t digest[32]) VMIG_CHECKED_(1, 2);

/* What is left to be sent. */
typedef struct vmig_left {
    uint64_t due_pages, due_sectors;    /* in this round */
    uint64_t dirty_pages, dirty_sectors; /* written since they were sent, or since vmig_send_begin; of lent RAM, as far as named */
    uint64_t stop_bytes;                /* the most bytes that a stop would still write: 4,101 for each page and 519 for each sector
                                         * of these, the devices, and 33. A stop writes less where a page is of zeros (5 bytes), a
                                         * sector is bad (7), or an item is both due and dirty (once). 0 of a stopped machine */
    uint64_t reserved[3];               /* 0 */
} vmig_left;

/* What is left. It counts bits of all pages and sectors: 0.6 us for 64 MiB of RAM, 11 us for 1 GiB, 160 us for 16 GiB. */
vmig_status vmig_send_left(const vmig_machine *m, vmig_left *left) VMIG_CHECKED_(1, 2);

/* The whole stream of a machine goes to the front of buf. *len becomes its length: VMIG_OK; or VMIG_MORE, where size is less, and
 * buf is as it was: ask with size 0, which makes no stream and takes no memory. It looks at each page of RAM once, since a page of
 * zeros takes 5 bytes of a stream and another one 4,101. The machine continues. Flush the storage of its disks outside before the
 * saved bytes are good: what was answered and not flushed lies in a cache, and no guest will write it again. NO_MEMORY. */
vmig_status vmig_save(const vmig_machine *m, uint8_t *buf, size_t size, size_t *len)
    VMIG_CHECKED_(1, 4) VMIG_WRITES_(2, 3, buf, size);

/* ---- a machine arrives ------------------------------------------------------------------------------------------------------- */

/* A machine will arrive within the limits and in the memory that the arrival names: the only way in. RAM and disks that are not
 * yours are taken as soon as the header of the stream has come and fits.
 * NOT_KNOWN, BAD_RAM (not whole pages, or too many; most_pages beside it; null), BAD_SHAPE (of shapes), BAD_BASE, BAD_IMAGES (not
 * those of shapes; null), NO_MEMORY. */
vmig_status vmig_arrive(vmig_arrival *arrival, vmig_machine *m) VMIG_CHECKED_(1, 2);

/* The next bytes of the stream, in pieces of any size. VMIG_OK: they have no fault so far. VMIG_WHOLE: the stream has ended, and is
 * right; also for no bytes after it. A piece that brings a fault is refused by a VMIG_STREAM status, the first that the bytes show;
 * at the header STREAM_TOO_LARGE comes before STREAM_MISMATCH, and nothing was written then. From then on each call is
 * VMIG_STREAM_FAILED, until vmig_free or vmig_release: what a peer sends on is looked at no more. Nothing may follow the stream's
 * last byte (STREAM_TRAILING): a source that waits for your word then needs to send no length. */
vmig_status vmig_feed(vmig_machine *m, const uint8_t *bytes, size_t len) VMIG_CHECKED_(1) VMIG_READS_(2, 3, bytes, len);

/* As vmig_feed, for an arrival with VMIG_TOLD: the bytes before the record that closes the stream are taken, *used of them.
 * VMIG_OK and VMIG_WHOLE: all were. VMIG_DIGEST: that record comes next: tell the digest of all bytes that were taken, and feed
 * the rest; the record may come in pieces then, each of which is taken whole. If other bytes come in its place the digest is to be
 * told anew. A record of another digest is STREAM_BAD_DIGEST. Unless the piece is refused *used is set, else it is as it was. Of an
 * arrival without VMIG_TOLD this is vmig_feed, and all is taken. */
vmig_status vmig_feed_some(vmig_machine *m, const uint8_t *bytes, size_t len, size_t *used)
    VMIG_CHECKED_(1, 4) VMIG_READS_(2, 3, bytes, len);

/* The digest that is due: the SHA-256 of all bytes that vmig_feed_some has taken, in their order. It is compared with the one in
 * the stream, which says that all bytes came as they were sent: so never tell what you read in the stream itself, since then
 * nothing is compared. After another digest the stream is refused; who tells one wrongly and has it accepted gets a machine from
 * bytes that nothing has checked. NOT_ASKED. */
vmig_status vmig_feed_tell(vmig_machine *m, const uint8_t digest[32]) VMIG_CHECKED_(1, 2);

/* The handle has the machine, idle. Sync its images (where that fails free it, and the source continues), then tell the source, and
 * wait for its word; then call vmig_sync_failed for each disk outside that is lost, read the lines, do its work, ask for calls of
 * disks outside, and run it. It takes no memory. STREAM_TRUNCATED (no VMIG_WHOLE yet: the arrival is over), STREAM_FAILED. */
vmig_status vmig_finish(vmig_machine *m) VMIG_CHECKED_(1);

/* What a stream announces that begins with these bytes, before any memory is taken for it: VMIG_OK says that its header is whole
 * and within the limits of any machine, and nothing of what follows it. VMIG_MORE: hand in more of its first bytes; 496 always
 * tell, often 17 do, and *out is as it was. An arrival that has failed describes no pages and no devices: a host that will say what
 * machine it refused, as after STREAM_TOO_LARGE or STREAM_BAD_DEVICE, keeps the first 496 bytes for this call.
 * STREAM_BAD_MAGIC, STREAM_BAD_VERSION, STREAM_BAD_SHAPE, NO_MEMORY. */
vmig_status vmig_stream_describe(const uint8_t *bytes, size_t len, vmig_description *out)
    VMIG_CHECKED_(3) VMIG_READS_(1, 2, bytes, len);

/* ---- digests ----------------------------------------------------------------------------------------------------------------- */

/* SHA-256 (FIPS 180-4) of bytes that come in pieces: for what a host sends beside a stream, which has one of its own at its end. Its
 * calls are pure: of no machine, from any thread, and never refused. Only they write it, from vmig_digest_begin on. A copy of it,
 * by assignment or memcpy, is a digest too, which continues by itself: end a copy for the digest so far. */
typedef struct vmig_digest {
    uint32_t hash[8];
    uint8_t block[64];
    uint64_t length;
    uint64_t reserved;
} vmig_digest;                          /* 112 bytes, no padding */

/* A digest begins: nothing was added to it. */
void vmig_digest_begin(vmig_digest *digest) VMIG_NONNULL_(1);

/* Adds bytes, in pieces of any size: the digest is that of all pieces, one after another. */
void vmig_digest_add(vmig_digest *digest, const uint8_t *bytes, size_t len) VMIG_NONNULL_(1) VMIG_READS_(2, 3, bytes, len);

/* out becomes the SHA-256 of all that was added since it began. The digest begins anew. */
void vmig_digest_end(vmig_digest *digest, uint8_t out[32]) VMIG_NONNULL_(1, 2) VMIG_HOLDS_(out, 32);

static inline const char *vmig_status_name(vmig_status status)
{
#define VMIG_NAMED_(name) case name: return #name;
    switch (status) {
    VMIG_NAMED_(VMIG_OK) VMIG_NAMED_(VMIG_NO_DEVICE) VMIG_NAMED_(VMIG_OUT_OF_RAM) VMIG_NAMED_(VMIG_TOO_LONG)
    VMIG_NAMED_(VMIG_WRONG_KIND) VMIG_NAMED_(VMIG_BAD_FRAME) VMIG_NAMED_(VMIG_NO_SECTOR) VMIG_NAMED_(VMIG_NO_MACHINE)
    VMIG_NAMED_(VMIG_IN_USE) VMIG_NAMED_(VMIG_NO_MEMORY) VMIG_NAMED_(VMIG_TOO_SMALL) VMIG_NAMED_(VMIG_BAD_SHAPE)
    VMIG_NAMED_(VMIG_BAD_IMAGES) VMIG_NAMED_(VMIG_NOT_SENDING) VMIG_NAMED_(VMIG_SENDING) VMIG_NAMED_(VMIG_SEND_FAILED)
    VMIG_NAMED_(VMIG_STOPPED) VMIG_NAMED_(VMIG_NO_ROUND_LEFT) VMIG_NAMED_(VMIG_LENT) VMIG_NAMED_(VMIG_NOT_LENT)
    VMIG_NAMED_(VMIG_NOT_YOURS) VMIG_NAMED_(VMIG_BAD_RAM) VMIG_NAMED_(VMIG_NOT_KNOWN) VMIG_NAMED_(VMIG_NOT_OUT)
    VMIG_NAMED_(VMIG_CALLS_OUT) VMIG_NAMED_(VMIG_BAD_BASE) VMIG_NAMED_(VMIG_NOT_ASKED)
    VMIG_NAMED_(VMIG_NOT_NEXT)
    VMIG_NAMED_(VMIG_STREAM_BAD_MAGIC) VMIG_NAMED_(VMIG_STREAM_BAD_VERSION) VMIG_NAMED_(VMIG_STREAM_BAD_SHAPE)
    VMIG_NAMED_(VMIG_STREAM_MISMATCH) VMIG_NAMED_(VMIG_STREAM_BAD_TAG) VMIG_NAMED_(VMIG_STREAM_BAD_PAGE)
    VMIG_NAMED_(VMIG_STREAM_BAD_SECTOR) VMIG_NAMED_(VMIG_STREAM_BAD_ROUND) VMIG_NAMED_(VMIG_STREAM_BAD_DEVICE)
    VMIG_NAMED_(VMIG_STREAM_BAD_DIGEST) VMIG_NAMED_(VMIG_STREAM_MISSING) VMIG_NAMED_(VMIG_STREAM_TRAILING)
    VMIG_NAMED_(VMIG_STREAM_TRUNCATED) VMIG_NAMED_(VMIG_STREAM_NO_MEMORY) VMIG_NAMED_(VMIG_STREAM_FAILED)
    VMIG_NAMED_(VMIG_STREAM_TOO_LARGE) VMIG_NAMED_(VMIG_IDLE) VMIG_NAMED_(VMIG_TAKEN) VMIG_NAMED_(VMIG_MOVED)
    VMIG_NAMED_(VMIG_BAD_SECTOR) VMIG_NAMED_(VMIG_DISK_FAILED) VMIG_NAMED_(VMIG_COMPLETED) VMIG_NAMED_(VMIG_SENT)
    VMIG_NAMED_(VMIG_DROPPED) VMIG_NAMED_(VMIG_NEEDS_RESET) VMIG_NAMED_(VMIG_ROUND_DONE) VMIG_NAMED_(VMIG_ROUND_OPEN)
    VMIG_NAMED_(VMIG_WORK) VMIG_NAMED_(VMIG_MORE) VMIG_NAMED_(VMIG_SYNC) VMIG_NAMED_(VMIG_CALL)
    VMIG_NAMED_(VMIG_WHOLE) VMIG_NAMED_(VMIG_DIGEST) VMIG_NAMED_(VMIG_SECTORS)
    default: return "unknown status";
    }
#undef VMIG_NAMED_
}

/* ---- RAM, images and pages that are null and have a length ------------------------------------------------------------------- */

static inline int vmig_is_null_ram_(const vmig_ram *ram) { return ram->at == VMIG_NULL_ && ram->len != 0; }

static inline int vmig_is_null_image_(const vmig_image *images, size_t count)
{
    for (size_t i = 0; i < count; i++)
        if (images[i].at == VMIG_NULL_ && images[i].sectors != 0) return 1;
    return 0;
}

/* Each hands a copy on where something is null: with RAM of one byte, which is no RAM, and one image of no sectors, which is no
 * disk's. So what is refused before is refused before, and nothing else is ever taken of the copy. */
VMIG_CHECKED_(1, 2) static inline vmig_status vmig_make_or_null_(vmig_setup *setup, vmig_machine *m)
{
    int is_ram = setup->version == 1 && vmig_is_null_ram_(&setup->ram);
    int is_image = setup->version == 1 && vmig_is_null_image_(setup->images, setup->count_images);
    vmig_setup copy = *setup;
    vmig_image none = VMIG_NO_IMAGE;
    uint8_t byte = 0;

    if (!is_ram && !is_image) return (vmig_make)(setup, m);
    if (is_ram) copy.ram.at = &byte, copy.ram.len = 1;
    if (is_image) copy.images = &none, copy.count_images = 1;
    return (vmig_make)(&copy, m);
}

/* An arrival that names no devices takes any images: this copy names one without a disk. */
VMIG_CHECKED_(1, 2) static inline vmig_status vmig_arrive_or_null_(vmig_arrival *arrival, vmig_machine *m)
{
    int is_ram = arrival->version == 1 && vmig_is_null_ram_(&arrival->ram);
    int is_image = arrival->version == 1 && vmig_is_null_image_(arrival->images, arrival->count_images);
    vmig_arrival copy = *arrival;
    vmig_image none = VMIG_NO_IMAGE;
    vmig_shape entropy = {VMIG_ENTROPY, 0, {0}, 0, {0}, 0, {0, 0}};
    uint8_t byte = 0;

    if (!is_ram && !is_image) return (vmig_arrive)(arrival, m);
    if (is_ram) copy.ram.at = &byte, copy.ram.len = 1;
    if (is_image) copy.images = &none, copy.count_images = 1;
    if (is_image && copy.count == 0) copy.shapes = &entropy, copy.count = 1;
    return (vmig_arrive)(&copy, m);
}

/* Pages whose list or bitmap is null and has a count, or whose bitmap has none and would name nothing: a copy with a bitmap that is
 * too small for its span. */
VMIG_NONNULL_(1) static inline vmig_pages vmig_pages_or_few_(const vmig_pages *written)
{
    static const uint64_t word = 0;
    int is_list = written->list == VMIG_NULL_ && written->count != 0;
    int is_bitmap = (written->words == VMIG_NULL_) != (written->count_words == 0);
    vmig_pages copy = *written;

    if (!is_list && !is_bitmap) return copy;
    copy.list = VMIG_NULL_, copy.count = 0;
    copy.words = &word, copy.count_words = 1, copy.first = 0, copy.span = UINT32_MAX;
    return copy;
}

VMIG_CHECKED_(1, 2, 3) static inline vmig_status vmig_give_back_or_null_(vmig_machine *m, vmig_ram *ram, const vmig_pages *written)
{
    vmig_pages pages = vmig_pages_or_few_(written);
    uint8_t byte = 0;
    vmig_ram none = {&byte, 1};

    return (vmig_give_back)(m, vmig_is_null_ram_(ram) ? &none : ram, &pages);
}

VMIG_CHECKED_(1, 2) static inline vmig_status vmig_mark_or_null_(vmig_machine *m, const vmig_pages *written)
{
    vmig_pages pages = vmig_pages_or_few_(written);

    return (vmig_mark)(m, &pages);
}

static inline vmig_status vmig_push_or_null_(vmig_machine *m, const vmig_pages *written, const uint8_t *ram, size_t len,
    uint64_t *seen, size_t count) VMIG_CHECKED_(1, 2) VMIG_READS_(3, 4, ram, len) VMIG_WRITES_(5, 6, seen, count);

static inline vmig_status vmig_push_or_null_(vmig_machine *m, const vmig_pages *written, const uint8_t *ram, size_t len,
    uint64_t *seen, size_t count)
{
    vmig_pages pages = vmig_pages_or_few_(written);

    return (vmig_push)(m, &pages, ram, len, seen, count);
}

#define vmig_make(...) vmig_make_or_null_(__VA_ARGS__)
#define vmig_arrive(...) vmig_arrive_or_null_(__VA_ARGS__)
#define vmig_give_back(...) vmig_give_back_or_null_(__VA_ARGS__)
#define vmig_mark(...) vmig_mark_or_null_(__VA_ARGS__)
#define vmig_push(...) vmig_push_or_null_(__VA_ARGS__)

#undef VMIG_AS_
#undef VMIG_CHECKED_
#undef VMIG_NONNULL_
#undef VMIG_READS_
#undef VMIG_WRITES_
#undef VMIG_CHANGES_
#undef VMIG_HOLDS_
#ifdef VMIG_FITS_
#undef VMIG_FITS_
#undef VMIG_WARNS_
#pragma clang diagnostic pop
#endif

#ifdef __cplusplus
}
#endif

#endif
