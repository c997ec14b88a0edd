"""Checks of docs/definitions.md and of specs/: which files a reader finds named, how much there is to read before a contract can be
trusted, which files are for inner functions alone, and that what proofs alone name stands with them."""

import collections
import functools
import pathlib
import re

import contracts
from texts import TOP, read

PAGE = "docs/definitions.md"
# A table of files in this page: the crates that its heading names, the names of the files of a row, and what is said of them.
Row = collections.namedtuple("Row", "crates names says")
# In these crates no item of specs/ is named by proofs alone.
CRATES_WITHOUT_LEMMAS = ("chains", "guestmem", "dirtylog")


@functools.cache
def files():
    """The files of definitions by name: CRATE.specs.FILE -> path."""
    paths = sorted(TOP.glob("crates/*/specs/*.antt"))
    return {f"{path.parent.parent.name}.specs.{path.stem}": path for path in paths if path.name != "Lib.antt"}


@functools.cache
def imported():
    """The files of definitions that each of them imports."""
    found = {}
    for name, path in files().items():
        paths = contracts.imports(read(path)).values()
        found[name] = {owner for owner in (".".join(path.split(".")[:3]) for path in paths) if owner in files()}
    return found


@functools.cache
def items():
    """Each item of each file of definitions, by its whole name, and its text with whole names."""
    return {f"{name}.{word}": text for name, path in files().items() for word, text in contracts.definitions(read(path)).items()}


def rows():
    """The rows of the tables of files, in the sections whose headings name their crate's specs."""
    for section in re.split(r"^## ", read(TOP / PAGE), flags=re.M):
        heading, _, text = section.partition("\n")
        crates = re.findall(r"`(\w+)/specs`", heading)
        for cell, says in re.findall(r"^\| ([^|]+) \|(.*)\|$", text, flags=re.M) if crates else []:
            yield Row(crates, re.findall(r"`(\w+)`", cell), says)


def check_named(differences):
    """Every file of definitions is named, and every name is that of a file."""
    named = {f"{crate}.specs.{name}" for row in rows() for crate in row.crates for name in row.names}
    for name in sorted(files().keys() - named):
        differences.append(f"{PAGE}: {name} is not named")
    stems = {name.rpartition(".")[2] for name in files()}
    for name in sorted(named - files().keys()):
        if name.rpartition(".")[2] not in stems:
            differences.append(f"{PAGE}: there is no {name}")
    return f"{len(files())} files of definitions are named"


def closure(begin, cut=None):
    """The files that these import, directly or not, and these. `cut` is a pair of files whose import is left out."""
    found, wanted = set(), set(begin)
    while wanted:
        name = wanted.pop()
        found.add(name)
        wanted |= {it for it in imported().get(name, set()) if (name, it) != cut} - found
    return found


def lines_of(names):
    return sum(len(read(files()[name]).splitlines()) for name in names if name in files())


def order_rows():
    """The rows of the table 'in which order to read', as they are in the page and as they have to be, and with which files they begin. `lines` are
    all lines of the files that these import, directly or not, and of these, to the nearest ten."""
    for row in re.findall(r"^\| [^|]+ \| [^|]*`\w+/specs/\w+`[^|]*\| [\d,]+ \| \d+ \|$", read(TOP / PAGE), flags=re.M):
        what, begin, _, _ = (cell.strip() for cell in row.strip("| ").split("|"))
        crate, named = None, set()
        for place, name in re.findall(r"`(?:(\w+)/specs/)?(\w+)`", begin):
            crate = place or crate
            named.add(f"{crate}.specs.{name}")
        found = closure(named)
        yield row, f"| {what} | {begin} | {round(lines_of(found), -1):,} | {len(found)} |", named


def dearest(named):
    """The import, of all below these files, without which there would be the fewest lines to read, and how many fewer."""
    whole = closure(named)
    cuts = [(name, it) for name in sorted(whole) for it in sorted(imported().get(name, set()))]
    lines, cut = min((lines_of(closure(named, cut)), cut) for cut in cuts)
    return f"{cut[0]} imports {cut[1]}: {lines_of(whole) - lines:,} lines"


def check_order(differences):
    """The table says how much there is to read."""
    count = 0
    for row, right, named in order_rows():
        count += 1
        for name in sorted(named - files().keys()):
            differences.append(f"{PAGE}: there is no {name}, with which a row begins")
        if row != right:
            differences.append(f"{PAGE}: a row has to be: {right}")
    if not count:
        differences.append(f"{PAGE}: the table in which order to read has no rows")
    return f"{count} rows say how much there is to read"


def inner_files():
    """The files that the page calls inner: those with which such a sentence begins, or else all of its row."""
    for row in rows():
        for sentence in re.split(r"(?<=[.:;]) ", row.says):
            if "inner functions" in sentence:
                begins = re.match(r"\s*((?:`\w+`(?:, | and |\s))+)(?:is|are) for inner", sentence)
                for name in re.findall(r"`(\w+)`", begins[1]) if begins else row.names:
                    yield from (f"{crate}.specs.{name}" for crate in row.crates)


def public_promises(crate):
    """The promises of a crate that another one meets: of what its root hands on or declares, and of its laws. The invariant of a
    type speaks of fields that nobody else sees."""
    root = read(crate / "src/lib.rt") if (crate / "src/lib.rt").is_file() else ""
    handed = set()
    for names in re.findall(r"^pub use [\w:]+::(\w+|\{[^}]*\})", root, flags=re.M):
        handed |= set(re.findall(r"\w+", names))
    for path in sorted(crate.glob("src/**/*.rt")):
        file = path.relative_to(crate / "src").as_posix()
        for promise in contracts.promises(read(path)):
            if not promise.public or promise.name == "ghost invariant":
                continue
            owner = contracts.type_of(promise.block)[0] if promise.block else promise.name.rpartition(" ")[2]
            if owner in handed or file == "lib.rt" or file.startswith("laws"):
                yield path, promise


def check_inner(differences):
    """No public contract names what a file holds that the page calls inner."""
    inner = {name for name in inner_files() if name in files()}
    for crate in sorted(TOP.glob("crates/*")):
        for path, promise in public_promises(crate):
            for name in sorted({".".join(word.split(".")[:3]) for word in re.findall(r"\w+\.specs\.\w+\.", promise.text)} & inner):
                place = f"{path.relative_to(TOP)}: {promise.block} {promise.name}".replace(":  ", ": ")
                differences.append(f"{place} names {name}, which {PAGE} calls inner")
    return f"{len(inner)} inner files are named by no public contract"


def named_in(text):
    """The items whose whole names are in a text. A name may be that of a part of an item, as a variant's is."""
    for word in re.findall(r"\b\w+\.specs\.\w+\.[^\s{}()\[\],;:|]+", text):
        yield ".".join(word.rstrip(".").split(".")[:4])


def check_lemmas(differences):
    """Each item is named by a source, by definitions of another crate, or by an item of which this is so."""
    own = {name for name in items() if name.split(".")[0] in CRATES_WITHOUT_LEMMAS}
    wanted = set()
    for path in TOP.glob("crates/*/src/**/*.rt"):
        wanted |= {".".join(word.split(".")[:4]) for word in contracts.imports(read(path)).values()}
    for path in [path for name, path in files().items() if name.split(".")[0] not in CRATES_WITHOUT_LEMMAS]:
        wanted |= {".".join(word.split(".")[:4]) for word in contracts.imports(read(path)).values()}
    wanted &= own
    found = set()
    while wanted:
        name = wanted.pop()
        found.add(name)
        file = name.rpartition(".")[0]
        text = items()[name]
        near = {f"{file}.{word}" for word in re.findall(r"(?<![\w.'-])[^\s{}()\[\],;:|.]+", text)}
        wanted |= ((near | set(named_in(text))) & own) - found
    alone = own - found
    for name in sorted(alone):
        differences.append(f"crates/{name.replace('.', '/', 2).replace('.', '.antt: ', 1)} is named by proofs alone, and stands in specs")
    return f"{len(own)} items of {', '.join(CRATES_WITHOUT_LEMMAS)} are named by more than proofs"


CHECKS = check_named, check_order, check_inner, check_lemmas
