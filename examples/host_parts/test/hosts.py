"""What `run` of both hypervisors shares: the programs that it builds, the processes that it begins and ends, and
what it says of a case that is not as it should be. What a case begins ends with it, by its number.

With TIMES in the environment it says how long each case took, and with FIRST it ends at the first thing that is
wrong. SLOW=n has it wait n times as long, as for programs with the checks of a compiler."""

import concurrent.futures
import contextlib
import importlib.machinery
import importlib.util
import os
import pathlib
import random
import re
import resource
import shlex
import shutil
import signal
import subprocess
import sys
import tempfile
import time

PARTS = pathlib.Path(__file__).resolve().parent.parent
EXAMPLES = PARTS.parent
INCLUDE = EXAMPLES.parent / "bindings/include"

# How long a loaded machine may take; how long one that is told to end may take, which is a second where the machine
# is free; and how often to look.
SLOW = float(os.environ.get("SLOW") or 1)
WAIT_SECONDS, SOON_SECONDS, LOOK_SECONDS, TYPE_SECONDS = 120 * SLOW, 2 * SLOW, 0.02, 0.5

DISK_SIZE = 65536
SHARED = {"form": "--disk", "disk": "shared.disk"}


def outcome_of(*words, check=False, **how):
    """A command that has ended, with what it said."""
    words = [str(word) for word in words]
    how = {"stdin": subprocess.DEVNULL, "capture_output": True, "text": True, "errors": "replace", **how}
    return subprocess.run(words, check=check, **how)


def load(path):
    """A script, as a module."""
    loader = importlib.machinery.SourceFileLoader(path.name, str(path))
    module = importlib.util.module_from_spec(importlib.util.spec_from_loader(path.name, loader))
    loader.exec_module(module)
    return module


class Over(Exception):
    """A case cannot continue. What is wrong was said."""


def openssl():
    """The options by which a program digests with OpenSSL, for its compiler and its linker. None where it is not there."""
    if not shutil.which("pkg-config"):
        return None
    found = outcome_of("pkg-config", "--cflags", "libcrypto"), outcome_of("pkg-config", "--libs", "libcrypto")
    if any(one.returncode != 0 for one in found):
        return None
    return ["-DWITH_OPENSSL", *found[0].stdout.split()], found[1].stdout.split()


def archives_of(words):
    """The library: what was named, or the one of a release that this is a part of, or that of this repository,
    built where a source has changed."""
    if words:
        return words
    if not (EXAMPLES / "library").exists():
        return [str(EXAMPLES.parent.parent.parent / "lib/libvmig.a")]
    said = subprocess.run([EXAMPLES / "library"], stdout=subprocess.PIPE, text=True, check=False)
    if said.returncode != 0:
        sys.exit(1)
    return said.stdout.split()


class Host:
    """A process. What it prints is in the files `out` and `err`, and what it reads is typed."""

    def __init__(self, run, name, words, *, environment=None, limits=None, out=None):
        self.run, self.name, self.port = run, name, None
        self.out, self.err = run.work / f"{name}.out", run.work / f"{name}.err"

        def limit():
            for which, most in limits.items():
                resource.setrlimit(which, (most, most))

        with open(out or self.out, "wb") as stdout, open(self.err, "wb") as stderr:
            self.process = subprocess.Popen(
                [str(word) for word in words], stdin=subprocess.PIPE, stdout=stdout, stderr=stderr, bufsize=0,
                preexec_fn=limit if limits else None, env={**os.environ, **(environment or {})})

    def says(self, text, where="err"):
        """Whether it printed what a regular expression finds."""
        kept = self.out if where == "out" else self.err
        return bool(re.search(text, kept.read_text(errors="replace")))

    def lives(self):
        return self.process.poll() is None

    def wait_for(self, text, where="err"):
        """Waits until it printed this."""
        self.run.until(lambda: self.says(text, where) or not self.lives())
        if not self.says(text, where):
            self.run.wrong(f"there is no '{text}' of the {self.name}, in {where}")
            raise Over

    def signal(self, number):
        with contextlib.suppress(ProcessLookupError):
            self.process.send_signal(number)

    def move(self):
        self.signal(signal.SIGUSR1)

    def type(self, text):
        with contextlib.suppress(OSError, ValueError):
            self.process.stdin.write(text)

    def kill(self):
        if self.lives():
            self.signal(signal.SIGKILL)
        self.process.wait()
        with contextlib.suppress(OSError):
            self.process.stdin.close()

    def ends_with(self, status):
        """It ends with a status. One that does not end is killed."""
        self.run.until(lambda: not self.lives())
        self.kill()
        self.expect_status(status)

    def expect_status(self, status):
        found = self.process.returncode
        if found != status:
            self.run.wrong(f"the {self.name} ended with {found}, not with {status}")

    def ends_soon(self):
        """It is told to end, and has ended within a second, or two on a loaded machine."""
        if not self.lives():
            self.run.wrong(f"the {self.name} ended by itself")
        self.signal(signal.SIGTERM)
        self.run.until(lambda: not self.lives(), SOON_SECONDS)
        self.kill()
        self.expect_status(1)


class Run:
    """A run of all cases: its folder, its programs, and what was wrong."""

    def __init__(self, name, here, mib):
        self.name, self.here, self.mib = name, pathlib.Path(here), mib
        self.work = pathlib.Path(tempfile.mkdtemp())
        self.failures, self.case, self.hosts, self.program, self.echo = 0, "build", [], self.work / "hypervisor", None
        self.kernel, self.sum, self.looks_at_storage = self.here / "guest/guest.bin", None, False
        self.objects, self.changed = {}, {}  # of a source the object, and the source that is taken in its place
        self.openssl = openssl()
        (self.work / "first.disk").write_bytes(random.Random(1).randbytes(DISK_SIZE))
        for number in (signal.SIGTERM, signal.SIGHUP):
            signal.signal(number, lambda number, _: sys.exit(128 + number))

    def say(self, text):
        print(f"{self.name}: {text}", flush=True)

    def skipped(self, why):
        self.say(f"skipped: {why}")

    def wrong(self, what):
        print(f"{self.name}: {self.case}: {what}", file=sys.stderr)
        for host in self.hosts:
            for kept in (host.err, host.out):
                if kept.exists():
                    last = kept.read_text(errors="replace").splitlines()[-5:]
                    print(f"  {kept.name}: {' | '.join(last)}", file=sys.stderr, flush=True)
        self.failures += 1
        if "FIRST" in os.environ:
            sys.exit(1)

    def until(self, is_so, seconds=WAIT_SECONDS):
        """Waits until this is so. Whether it was."""
        end = time.monotonic() + seconds
        while not is_so():
            if time.monotonic() > end:
                return False
            time.sleep(LOOK_SECONDS)
        return True

    def end(self):
        """All is over. What is left of it ends."""
        self.drop()
        if self.echo:
            self.echo.kill()
        shutil.rmtree(self.work, ignore_errors=True)

    def status(self):
        if self.failures == 0:
            self.say("all as expected")
        return int(self.failures != 0)

    def drop(self):
        for host in self.hosts:
            host.signal(signal.SIGCONT)
            host.kill()
        self.hosts = []

    @contextlib.contextmanager
    def new_case(self, name):
        """What is tried next. All that it begins ends with it."""
        began = time.monotonic()
        self.case, self.hosts = name, []
        try:
            yield
        except Over:
            pass
        except (OSError, subprocess.SubprocessError) as why:
            self.wrong(f"{type(why).__name__}: {why}")
        finally:
            self.drop()
            self.look_at_checks()
            if "TIMES" in os.environ:
                self.say(f"{time.monotonic() - began:.1f} s: {name}")
            for kept in (*self.work.glob("*.out"), *self.work.glob("*.err")):
                kept.unlink()

    def look_at_checks(self):
        """What the checks of a compiler, where CFLAGS asks for them, found in a program."""
        for kept in self.work.glob("*.err"):
            said = kept.read_text(errors="replace")
            found = re.search("runtime error: .*|(ERROR|WARNING): [A-Z][a-z]*Sanitizer.*", said)
            if found:
                self.wrong(found[0])

    def compile(self, name, *words):
        """Compiles a program with the compiler and its options as CC and CFLAGS have them. Sources whose
        objects are there are not compiled again."""
        options = ["-std=c11", "-pthread", "-Wall", "-Wextra", "-Werror"]
        options += shlex.split(os.environ.get("CFLAGS") or "-O2")
        options += [f"-I{folder}" for folder in (INCLUDE, self.here, PARTS)]
        words = [self.objects.get(word) or self.changed.get(word, word) for word in words]
        with_openssl, libraries = self.openssl or ([], [])
        libraries = [] if "-c" in words else libraries
        command = [os.environ.get("CC") or "cc", *options, *with_openssl, *words, "-o", self.work / name, *libraries]
        if subprocess.run([str(word) for word in command], check=False).returncode != 0:
            sys.exit(1)
        return self.work / name

    def compile_once(self, sources):
        """Compiles the sources that several programs have."""
        folder = self.work / "objects"
        folder.mkdir()

        def compile_one(source):
            self.compile(f"objects/{source.parent.name}-{source.stem}.o", "-c", source)
            return source, folder / f"{source.parent.name}-{source.stem}.o"

        with concurrent.futures.ThreadPoolExecutor(len(os.sched_getaffinity(0))) as pool:
            self.objects = dict(pool.map(compile_one, sources))

    def begin_echo(self):
        """The other end of the guest's wire."""
        announced = self.work / "announced"
        self.echo = Host(self, "echo", [self.work / "echo", f"{self.work}/peer,{self.work}/own"], out=announced)
        self.echo.out = announced

    def compute_sum(self):
        self.sum = outcome_of(self.here / "test/expected-sum", self.work / "first.disk", check=True).stdout.strip()

    def compare_guest(self):
        """The guest's bytes are those of its source, where the compiler that made them is there."""
        self.case = "the bytes of the guest"
        if not shutil.which("clang") or not shutil.which("ld.lld"):
            return
        version = subprocess.run(["clang", "--version"], stdout=subprocess.PIPE, text=True, check=True).stdout
        if (self.here / "guest/made-with").read_text().strip() not in version:
            return
        subprocess.run([self.here / "guest/build", self.work / "guest.bin"], check=True)
        if (self.work / "guest.bin").read_bytes() != self.kernel.read_bytes():
            self.wrong("they are not those of guest.c")

    def keep(self, host):
        self.hosts.append(host)
        return host

    def begin(self, name, *options, program=None, form="--mapped", disk=None, net=None, pause=60000, before=(), **how):
        """Begins a hypervisor, with the disk of this name."""
        words = [*before, program or self.program, "--mem", self.mib, form, self.work / (disk or f"{name}.disk")]
        words += ["--net", net or f"{self.work}/own,{self.work}/peer"]
        words += ["--few", "0", "--rounds", "3", "--pause-ms", pause]
        return self.keep(Host(self, name, [*words, *options], **how))

    def make_disk(self, name):
        """A file with the first bytes of the guest's disk."""
        shutil.copyfile(self.work / "first.disk", self.work / name)

    def begin_silent(self, *options, kernel=None, **how):
        """A source that is not waited for."""
        if how.get("disk") is None:
            self.make_disk("source.disk")
        return self.begin("source", "--kernel", kernel or self.kernel, *options, **how)

    def begin_source(self, *options, **how):
        source = self.begin_silent(*options, **how)
        source.wait_for("guest: works", "out")
        return source

    def begin_target(self, *options, name="target", **how):
        """A target, which listens at its `port`."""
        if how.get("disk") is None:
            (self.work / f"{name}.disk").write_bytes(b"")
            os.truncate(self.work / f"{name}.disk", DISK_SIZE)
        target = self.begin(name, "--listen", "0", *options, **how)
        target.wait_for("listening at")
        target.port = re.search(r"listening at [^:]*:(\d+)", target.err.read_text())[1]
        if self.looks_at_storage and "form" not in how:
            self.has_storage(self.work / f"{name}.disk")
        return target

    def has_storage(self, path):
        """The file was sparse, and has storage for each of its bytes once a hypervisor has opened it."""
        found = path.stat()
        if found.st_blocks * 512 < found.st_size:
            self.wrong(f"{path.name} has {found.st_blocks} blocks of 512 bytes")

    def begin_cut(self, target, where):
        """A line to the target that breaks, or spoils what comes. Its `port` is the one to connect to."""
        cut = self.keep(Host(self, "cut", [self.work / "cut", target.port, where]))
        cut.wait_for(r"\d+\n", "out")
        cut.port = cut.out.read_text().strip()
        return cut

    def to(self, other):
        """The options by which a source is moved there."""
        return "--connect", f"127.0.0.1:{other.port}"

    def begin_both(self, where=None, *, target_options=(), source_options=(), target_how=None, source_how=None):
        """A target, a source that is to be moved there, over a line that is cut at a place, and the move."""
        target = self.begin_target(*target_options, **(target_how or {}))
        cut = self.begin_cut(target, where) if where else None
        source = self.begin_source(*source_options, *self.to(cut or target), **(source_how or {}))
        source.move()
        return source, target

    def count_sums(self):
        printed = {host.out for host in self.hosts if host.out.exists()}
        return sum(kept.read_text(errors="replace").count("guest: sum") for kept in printed)

    def has_sum(self, host):
        """The sum was printed once, by this one, and is the right one."""
        host.wait_for(f"guest: sum {self.sum}", "out")
        if self.count_sums() != 1:
            self.wrong("both ran")

    def ends_well(self, host):
        """The byte that the guest waits for is typed at all hosts, and this one prints the sum, and no
        other does. It is typed again where nothing comes of it: a guest resets its console now and then,
        and loses what it was given just before."""
        end = time.monotonic() + WAIT_SECONDS
        typed = 0
        while host.lives() and time.monotonic() < end:
            if time.monotonic() - typed > TYPE_SECONDS:
                typed = time.monotonic()
                for each in self.hosts:
                    each.type(b"e")
            time.sleep(LOOK_SECONDS)
        host.ends_with(0)
        self.has_sum(host)

    def same_bytes(self, one, other, what):
        if (self.work / one).read_bytes() != (self.work / other).read_bytes():
            self.wrong(what)

    def misused(self, reason, *options):
        """The options or the kernel are wrong, which is said."""
        self.case = f"misused: {reason}"
        ended = outcome_of(self.work / "hypervisor", *options, timeout=WAIT_SECONDS)
        if ended.returncode == 0 or not re.search(reason, ended.stdout + ended.stderr):
            self.wrong(f"it ended with {ended.returncode}, and said: {(ended.stdout + ended.stderr)[-300:]}")
