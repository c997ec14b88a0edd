"""Where the repository and the toolchain are, the toolchain's own module rtlib, and the toolchain with another clang."""

import pathlib
import subprocess
import sys

TOP = pathlib.Path(__file__).resolve().parent.parent.parent
try:
    KIT = pathlib.Path(subprocess.run(["rt", "doc"], capture_output=True, text=True, check=True).stdout.strip()).parent
    sys.path.insert(0, str(KIT / "bin"))
    import rtlib  # beside the command rt
except (OSError, subprocess.CalledProcessError, ImportError):
    KIT = rtlib = None

TARGET = "x86_64-unknown-linux-gnu"


def clang():
    return f"{KIT}/toolchain/bin/clang"


def crate_named(name):
    """A crate of the repository, or None. The current folder has to be the repository's."""
    return next((crate for crate in rtlib.crates_below(str(TOP)) if crate.name == name), None)


def toolchain_with(script, room):
    """A folder of links to the toolchain in this room, with a script in place of its clang. The compiler runs that with no environment."""
    tools = room / "toolchain/bin"
    tools.mkdir(parents=True)
    (room / "toolchain/lib").symlink_to(KIT / "toolchain/lib")
    for tool in (KIT / "toolchain/bin").iterdir():
        if tool.name != "clang":
            (tools / tool.name).symlink_to(tool)
    (tools / "clang").write_text(script, encoding="utf-8")
    (tools / "clang").chmod(0o755)
    return room / "toolchain"
