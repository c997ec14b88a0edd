"""Checks of texts that are in the sources: laws that are handed on, the table of records, statuses that programs meet, comments of calls, and
drops."""

import collections
import re

from texts import TOP, place_of, read


def check_laws(differences):
    """The laws that the crate vmig hands on are all that those crates have."""
    count = 0
    handed_on = collections.defaultdict(set)
    for crate, names in re.findall(r"^pub use (\w+)::laws::(\w+|\{[^}]*\});", read(TOP / "crates/vmig/src/laws.rt"), flags=re.M):
        handed_on[crate].update(re.findall(r"\w+", names))
    for crate, handed in handed_on.items():
        folder = TOP / f"crates/{crate}/src"
        there = set()
        for path in [folder / "laws.rt", *sorted(folder.glob("laws/*.rt"))]:
            there |= set(re.findall(r"^pub fn (\w+)", read(path), flags=re.M))
        count += len(there)
        for name in sorted(there ^ handed):
            differences.append(f"crates/vmig/src/laws.rt: {crate}::laws::{name} is " + ("not handed on" if name in there else "not there"))
    return f"{count} laws are handed on"


# The records in the order of both tables: how their constants begin, and the one with the (greatest) length of the body.
RECORDS = [("PAGE", "PAGE_SIZE"), ("SECTOR", "SECTOR_SIZE"), ("SECTOR", None), ("ROUND_END", None), ("DEVICE", "BODY_MAX"), ("COMMIT", "DIGEST_LEN"), ("ZERO_PAGE", None)]


def record_rows(text, start):
    """Tag, length of the fields, length of the head and of the body, of each row of the table whose lines begin so."""
    rows = re.findall(rf"^{start}\| [^|]+ \| *(\d+) *\|([^|]+)\| *(\d+) *\| *([\d,]*)", text, flags=re.M)
    for tag, fields, head, body in rows:
        widths = [int(bits) // 8 for bits in re.findall(r"\bu(\d+)\b", fields)] or [int(width) for width in re.findall(r": (\d+)", fields)]
        yield int(tag), sum(widths), int(head), int(body.replace(",", "") or 0)


def check_records(differences):
    """The table of the records is that of the source, and both have the values of its constants."""
    source = read(TOP / "crates/wire/src/record_head.rt")
    texts = source + read(TOP / "crates/guestmem/src/limits.rt") + read(TOP / "crates/blk/src/disk.rt")
    values = {name: int(value) for name, value in re.findall(r"^pub const (\w+): \w+ = ([\d_]+);", texts, flags=re.M)}
    wanted = [(values[f"{name}_TAG"], values[f"{name}_HEAD"] - 1, values[f"{name}_HEAD"], values.get(body, 0)) for name, body in RECORDS]
    tables = {"docs/stream-format.md": record_rows(read(TOP / "docs/stream-format.md"), ""), "crates/wire/src/record_head.rt": record_rows(source, "//! ")}
    for name, rows in tables.items():
        found = list(rows)
        if found != wanted:
            differences.append(f"{name}: its records have the tags and lengths {found}, those of the constants are {wanted}")
    return f"{len(wanted)} records are those of the source"


def check_statuses(differences):
    """Each enumerator of the header is named by a program, and where none can meet it, by a line of statuses.c that says why."""
    names = re.findall(r"^ +(VMIG_\w+) = \d+", read(TOP / "bindings/include/vmig.h"), flags=re.M)
    programs = "\n".join(read(path) for folder in ("examples", "tests", "measures") for path in sorted(TOP.glob(f"{folder}/c/*.[ch]")))
    for name in names:
        if not re.search(rf"\b{name}\b", programs):
            differences.append(f"tests/c: no program in C meets {name}")
    return f"{len(names)} statuses are met"


# How many lines a comment before a call has at the most: what is longer stands in the introduction.
COMMENT_LINES = 6


def check_comments(differences):
    """Each call of vmig.h has a comment right before it, or before the call with which it shares one, that is short enough to be read alone."""
    text = read(TOP / "bindings/include/vmig.h")
    comments = re.findall(r"^(/\*(?:(?!\*/).)*\*/)\n(?:vmig_status|void|uint32_t) (vmig_\w+)\(", text, flags=re.M | re.S)
    for comment, name in comments:
        lines = comment.count("\n") + 1
        if lines > COMMENT_LINES:
            differences.append(f"vmig.h: the comment of {name} has {lines} lines, more than {COMMENT_LINES}")
    if len(comments) < 41:
        differences.append(f"vmig.h: only {len(comments)} calls have a comment right before them")
    return f"{len(comments)} comments of calls are short"


# What runs, or does not run, as a value is let go, and the files that may have it. No contract of a caller speaks of these.
DROPS = [
    (r"impl\b[^{;]*\bDrop for\b", ("crates/region/src/kept_region.rt",), "a drop that is written by hand"),
    (r"\bmem::(\{[^}]*)?\bforget\b|\bManuallyDrop\b|\bleak\(|\binto_raw(_with_allocator)?\(", ("crates/raw_box/src/open_box.rt",), "a value that is forgotten"),
]


def check_drops(differences):
    """Of all drops only that of a region that RAM or a disk keeps is written by hand, and nothing is forgotten but what raw_box takes
    apart."""
    paths = sorted(TOP.glob("crates/*/src/**/*.rt"))
    for path in paths:
        for pattern, places, what in DROPS:
            if place_of(path) not in places and re.search(pattern, read(path)):
                differences.append(f"{place_of(path)}: {what}")
    return f"{len(paths)} sources let go of values by derived drops"


CHECKS = check_laws, check_records, check_statuses, check_comments, check_drops
