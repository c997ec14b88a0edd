"""The cases that `run` of both hypervisors has. `run` is a Run of hosts.py."""

import hashlib
import os
import re
import resource
import shutil
import signal
import time

from hosts import SHARED, outcome_of

CONTINUES = "the guest continues here"
CHANGED = "what came is not what was sent"

# How many descriptors one of both may have, and which of its threads fails.
FEW_FILES = range(3, 13)


def unmoved(run):
    with run.new_case("unmoved"):
        run.ends_well(run.begin_source())


def broken(run, where):
    """The line breaks at a place before the source has let go: the guest continues there, and the target drops
    what it has."""
    with run.new_case(f"the line breaks at {where}"):
        source, target = run.begin_both(where)
        source.wait_for(CONTINUES)
        target.ends_with(1)
        if not target.says("no guest is here, and the source has it"):
            run.wrong("the target does not say who has the guest")
        run.ends_well(source)


def spoiled(run, what, reason):
    """What comes is not what was sent, in byte N of each frame of a type, TYPE:N. The target refuses it, and
    the guest continues at the source."""
    with run.new_case(f"spoiled: {what}"):
        source, target = run.begin_both(f"spoil={what}")
        source.wait_for(f"the target refuses: {reason}")
        source.wait_for(CONTINUES)
        target.ends_with(1)
        if what.startswith("hello:") and target.says("round 1 is here"):
            run.wrong("pages came before it was refused")
        run.ends_well(source)


def turned(run, what, reason, **how):
    """One bit of the line turns, TYPE:N, bit N of each frame of a type. The target refuses it before it says that
    all is here, and the guest continues at the source."""
    with run.new_case(f"a bit that turns: {what}"):
        if how:
            run.make_disk(how["disk"])
        options = ["--shared"] if how else []
        source, target = run.begin_both(f"turn={what}", target_options=options, source_options=options, target_how=how,
                                        source_how=how)
        source.wait_for(f"{reason}.*: {CONTINUES}")
        target.ends_with(1)
        if target.says("all is here"):
            run.wrong("the target took it")
        run.ends_well(source)


def all_turned(run, hello, hello_reason, state):
    """A bit of each kind of frame: within HELLO and STATE as these say; in a piece of the stream; in END, in what it
    has of a shared disk, and in its digest; in the length of a piece, of STATE and of END; and of the last words,
    none of which becomes another one."""
    refuses = "the target refuses: "
    turned(run, hello, refuses + hello_reason)
    turned(run, "welcome:70", "what listens there has another --word")
    turned(run, "stream:24000", f"{refuses}VMIG_STREAM_")
    turned(run, state, refuses + CHANGED)
    turned(run, "end:66", refuses + CHANGED, **SHARED)
    turned(run, "end:300", refuses + CHANGED)
    turned(run, "end:32", "")
    without_ready(run, "turn=ready:0")
    without_go(run, "turn=go:0", True)
    without_runs(run, "turn=runs:0")


def without_ready(run, where):
    """The word of the target is lost, or is none: the guest continues at the source. The target is told so, or
    cannot know, and waits for its operator."""
    with run.new_case(f"the line breaks at {where}"):
        source, target = run.begin_both(where)
        source.wait_for(CONTINUES)
        target.wait_for("does not run|no guest is here")
        target.signal(signal.SIGTERM)
        target.ends_with(1)
        run.ends_well(source)


def without_go(run, where, starts_at_source):
    """The source's last word is lost, or is none: neither runs the guest, and both say so. The operator's word
    starts one of them."""
    with run.new_case(f"the line breaks at {where}, and the operator starts it at the"
                      f" {'source' if starts_at_source else 'target'}"):
        source, target = run.begin_both(where)
        source.wait_for("the guest is paused here")
        target.wait_for("does not run")
        for host in (source, target):
            host.type(b"e")
        time.sleep(0.2)
        if run.count_sums():
            run.wrong("one runs without a word of the operator")
        one, other = (source, target) if starts_at_source else (target, source)
        one.signal(signal.SIGUSR2)
        one.wait_for(CONTINUES if starts_at_source else "by the word of the operator the guest runs here")
        other.signal(signal.SIGTERM)
        other.ends_with(1)
        run.ends_well(one)


def without_runs(run, where):
    """The answer to the last word is lost, or is none: the guest runs at the target. The source cannot know, and
    waits for its operator."""
    with run.new_case(f"the line breaks at {where}"):
        source, target = run.begin_both(where)
        source.wait_for(f"the guest is paused here|{CONTINUES}")
        target.wait_for("the guest runs here")
        run.ends_well(target)
        source.signal(signal.SIGTERM)
        source.ends_with(1)


def untaken(run, reason, spoil, **how):
    """What the target takes once the source has let go cannot be taken: `spoil` is done to the folder of its
    wire once it listens. It says so and drops the guest, which continues at the source."""
    folder = run.work / "wires"
    with run.new_case(f"the wire cannot be taken over: {reason}"):
        folder.mkdir()
        target = run.begin_target(net=f"{folder}/own,{run.work}/peer", **how)
        spoil(folder)
        source = run.begin_source(*run.to(target))
        source.move()
        source.wait_for(f"the target refuses: .*wires/own: {reason}")
        source.wait_for(CONTINUES)
        target.wait_for("the guest does not run here")
        target.ends_with(1)
        run.ends_well(source)
    shutil.rmtree(folder, ignore_errors=True)


def all_untaken(run):
    untaken(run, "No such file or directory", shutil.rmtree)
    untaken(run, "File exists", lambda folder: (folder / "own").mkdir())
    # The target has no right to give its wire the name. Root has none either, without its capabilities.
    probe = run.work / "no-right"
    probe.mkdir(mode=0o555, exist_ok=True)
    before = ["setpriv", "--bounding-set=-all"] if os.geteuid() == 0 else []
    can_be = (not before or shutil.which(before[0])) and outcome_of(*before, "true").returncode == 0
    if not can_be or outcome_of(*before, "mkdir", probe / "own").returncode == 0:
        run.skipped("there is no way to have no right")
        return
    untaken(run, "Permission denied", lambda folder: folder.chmod(0o555), before=before)


def listens_or_ends(run, target):
    """Whether the target listens. It has ended where it does not."""
    run.until(lambda: target.says("listening at") or not target.lives())
    found = re.search(r"listening at [^:]*:(\d+)", target.err.read_text(errors="replace"))
    target.port = found and found[1]
    return bool(found)


def begins_not(run, host):
    """It ended before it began, and said why, or the loader did."""
    run.until(lambda: not host.lives())
    host.kill()
    if host.process.returncode == 0:
        run.wrong(f"the {host.name} ended with 0")
    if not host.err.read_text(errors="replace"):
        run.wrong(f"the {host.name} does not say why it does not begin")


def short(run, what, source_how, target_how):
    """One of both lacks something from its begin on. It does not begin, and says why, or the guest is moved or
    continues at the source: in each case it prints its sum once."""
    with run.new_case(f"short: {what}"):
        run.make_disk("shared.disk")
        target = run.begin("target", "--listen", "0", "--shared", **SHARED, **target_how)
        if not listens_or_ends(run, target):
            begins_not(run, target)
            return
        source = run.begin_silent("--shared", *run.to(target), **SHARED, **source_how)
        run.until(lambda: source.says("guest: works", "out") or not source.lives())
        if not source.says("guest: works", "out"):
            begins_not(run, source)
            target.signal(signal.SIGTERM)
            target.ends_with(1)
            return
        source.move()
        source.wait_for(f"the guest runs at|{CONTINUES}")
        if source.says("the guest runs at"):
            source.ends_with(0)
            run.ends_well(target)
            return
        # A source that lacks what it connects with leaves the target waiting.
        target.signal(signal.SIGTERM)
        target.ends_with(1)
        run.ends_well(source)


def all_short(run, failing, threads):
    """Descriptors, and threads, in the program that fails on purpose."""
    for number in FEW_FILES:
        # A compiler's check for leaks needs files of its own.
        few = {"limits": {resource.RLIMIT_NOFILE: number}, "environment": {"LSAN_OPTIONS": "detect_leaks=0"}}
        short(run, f"{number} files at the target", {}, few)
        short(run, f"{number} files at the source", few, {})
    for number in threads:
        fails = {"program": failing, "environment": {"THREAD_FAILS": str(number)}}
        short(run, f"thread {number} at the target", {"program": failing}, fails)
        short(run, f"thread {number} at the source", fails, {"program": failing})


def one_byte(run):
    """One byte of the target, of a frame that does not come, holds neither the guest nor its move."""
    with run.new_case("one byte of the target"):
        source, target = run.begin_both("byte")
        source.wait_for("round 2 sent")
        source.wait_for(CONTINUES)
        target.ends_with(1)
        run.ends_well(source)


def ended_at(run, place):
    """Both ends of a move stand, since the line is silent from a frame on, and are told to end."""
    with run.new_case(f"told to end: the line is silent from '{place}' on"):
        target = run.begin_target()
        cut = run.begin_cut(target, f"hold={place}")
        source = run.begin_source(*run.to(cut))
        source.move()
        cut.wait_for("silent")
        source.ends_soon()
        target.ends_soon()


def cancelled(run):
    """The operator cancels a move over a slow line, which both ends say."""
    with run.new_case("cancelled"):
        source, target = run.begin_both("slow")
        source.wait_for("round 1 sent")
        source.signal(signal.SIGUSR2)
        source.wait_for(f"its operator cancels it: {CONTINUES}")
        target.ends_with(1)
        if not target.says("no guest is here"):
            run.wrong("the target does not say that no guest is there")
        run.ends_well(source)


def save(run, *options, **how):
    """A guest is saved in `guest.saved`, and its program ends."""
    saved = run.work / "guest.saved"
    saved.unlink(missing_ok=True)
    source = run.begin_source("--save", saved, *options, **how)
    source.move()
    source.wait_for("the guest is saved in")
    source.ends_with(0)
    if saved.stat().st_mode & 0o777 != 0o600:
        run.wrong("others may read the file")
    return saved


def restore(run, saved, *options, **how):
    """Begins with the guest of a file, with an empty disk if it is mapped."""
    if "disk" not in how:
        (run.work / "target.disk").write_bytes(b"")
        os.truncate(run.work / "target.disk", 65536)
    return run.begin("target", "--restore", saved, *options, **how)


def with_digest(frames):
    """A file ends with the SHA-256 of all before it."""
    return frames + hashlib.sha256(frames).digest()


def has_digest(whole):
    return with_digest(whole[:-32]) == whole


def frames_of(whole):
    """The frames of a file, each with its type and its bytes."""
    at = 0
    while at < len(whole):
        kind, length = (int.from_bytes(whole[at + part : at + part + 4], "little") for part in (0, 4))
        yield kind, whole[at + 8 : at + 8 + length]
        at += 8 + length


def saved_and_continued(run):
    """Twice, as the disk that is mapped is in the file; once with a disk that is asked, which is in no file."""
    with run.new_case("saved"):
        saved = save(run)
        if not has_digest(saved.read_bytes()):
            run.wrong("the digest of the file is another one")
        for _ in range(2):
            run.drop()
            run.ends_well(restore(run, saved))
    with run.new_case("saved with a disk that is asked, and not shared"):
        run.make_disk("shared.disk")
        source = run.begin_source("--save", run.work / "guest.saved", **SHARED)
        source.move()
        source.wait_for(f"it moves with --shared alone: {CONTINUES}")
        run.ends_well(source)
    with run.new_case("saved with a disk that is asked"):
        run.make_disk("shared.disk")
        saved = save(run, "--shared", **SHARED)
        run.ends_well(restore(run, saved, "--shared", **SHARED))
        if saved.exists():
            run.wrong("the file is still there, and its disk went on")


def unsaved(run, reason, saved, *options, **how):
    """A guest cannot be saved, and runs on. Nothing of a file is left."""
    with run.new_case(f"not saved: {reason}"):
        (run.work / "guest.saved").unlink(missing_ok=True)
        source = run.begin_source("--save", saved, *options, **how)
        source.move()
        source.wait_for(f"{reason}: {CONTINUES}")
        left = [found.name for found in run.work.glob("guest.saved*")]
        if left:
            run.wrong(f"this is left: {left}")
        run.ends_well(source)


def all_unsaved(run, failing):
    """There is no folder, no room, and a sync fails: that of the file, or that of its folder."""
    saved = run.work / "guest.saved"
    unsaved(run, "No such file or directory", run.work / "none/guest.saved")
    unsaved(run, "File too large", saved, limits={resource.RLIMIT_FSIZE: 65536})
    for number in ("1", "2"):
        run.make_disk("shared.disk")
        fails = {"program": failing, "environment": {"FSYNC_FAILS": number}}
        unsaved(run, "Input/output error", saved, "--shared", **fails, **SHARED)


def not_restored(run, reason, saved, *options):
    """A file is refused, and nothing runs or is written."""
    run.case = f"not restored: {reason}"
    target = restore(run, saved, *options)
    target.ends_with(1)
    if not target.says(f"{reason}.*: no guest is here"):
        run.wrong("it does not say why")
    if target.out.read_bytes():
        run.wrong("a guest ran")
    if any((run.work / "target.disk").read_bytes()):
        run.wrong("its disk was written")


def all_not_restored(run):
    """Cut, changed, longer, no file, and of another machine. The last bytes are those of STATE, and of END: 8, 4
    and 32."""
    with run.new_case("a file that is spoiled"):
        whole = save(run).read_bytes()
        spoiled_file, size = run.work / "spoiled.saved", len(whole)
        for at in (0, 7, 100, size // 2, size - 44, size - 1):
            spoiled_file.write_bytes(whole[:at])
            not_restored(run, "it is cut or changed", spoiled_file)
        for at in (0, 4, 20, 104, size // 2, size - 100, size - 45, size - 44, size - 36, size - 1):
            spoiled_file.write_bytes(whole[:at] + bytes([whole[at] ^ 1]) + whole[at + 1 :])
            not_restored(run, "it is cut or changed", spoiled_file)
        spoiled_file.write_bytes(with_digest(whole[:20] + bytes([whole[20] ^ 1]) + whole[21:-32]))
        not_restored(run, "a hypervisor for another processor", spoiled_file)
        spoiled_file.write_bytes(whole + b"x")
        not_restored(run, "it is cut or changed", spoiled_file)
        not_restored(run, "it is no file", "/dev/null")
        not_restored(run, "No such file", run.work / "none")
        not_restored(run, "another size of RAM", run.work / "guest.saved", "--mem", str(run.mib + 1))
        (run.work / "more.disk").write_bytes(bytes(512))
        not_restored(run, "it has other devices", run.work / "guest.saved", "--mapped", run.work / "more.disk")


def standing(run, where, cancels=False):
    """The target stands, from when it says this. The guest runs, or is paused for no longer than it may be. The
    operator cancels the move where there is more in a round than the line holds. A target that stands before it
    has answered the source's first frame has it say, while the guest runs, that the line is broken."""
    with run.new_case(f"a target that stands once it says '{where}'"):
        target = run.begin_target(pause=500)
        cut = run.begin_cut(target, "slow")
        source = run.begin_source(*run.to(cut), pause=500)
        if where == "listening":
            target.signal(signal.SIGSTOP)
        source.move()
        target.wait_for(where)
        target.signal(signal.SIGSTOP)
        reason = "the pause would last longer than --pause-ms"
        if cancels or where == "listening":
            time.sleep(1)
            source.signal(signal.SIGUSR2)
            reason = f"({reason}|its operator cancels it)" if cancels else "its operator cancels it"
        elif where == "a guest comes from":
            reason = f"({reason}|the line is broken)"
        source.wait_for(f"{reason}: {CONTINUES}")
        run.ends_well(source)
        target.signal(signal.SIGCONT)
        target.signal(signal.SIGTERM)
        target.ends_with(1)

