#!/usr/bin/env python3
"""The edits that make a crate mean something else, which the checker must refuse: how they are written, read, made and split into
files. `crates/NAME/must-fail` holds those of the gate, a file each, and `crates/NAME/edits.txt` all others. There an entry is

    edit: NAME
    clause: FUNCTION GOAL
    file: src/FILE.rt
    old: TEXT
    new: TEXT

and an empty line ends it. NAME would be the name of its file. A `file:` line may come again, and each file has one pair or more of
an old text, which stands once in the file as the pairs before have made it, and the new text. A line that begins with `#` says
something to a reader. In a file of the gate no line names the edit, and the clause is a line `# clause: FUNCTION GOAL`.

The clause is the one that is false of the new text, and `.ci/compare-edits` compares it with what the checker reports. FUNCTION is
named as the folder of its proof, FILE/TYPE/FUNCTION, or by the last parts of that. GOAL is `returns-clause-NAME` for what the
function ensures under that name, `returns` where it ensures one thing, and else as the checker names it: `invariant_of-self`,
`LOOP-preserved`, `CALL-requires-clause-NAME`. An edit whose clause has not been written yet has no such line.

The clause has to be what fails first, and be false: an answer that no longer fits its goal shows nothing of the contract. So an edit
changes one value, and no call, arm or name. Where the answer of another goal, which is true, goes with that value, a pair of the edit
changes it too: `file: proofs/FILE/FUNCTION/Answers.antt`, as that of mapped_disk's `disk_writes_another_sector`.

As a command, `.ci/edits.py split TOP` makes the entries of each edits.txt below TOP files of the gate, in its place."""

import collections
import dataclasses
import pathlib
import sys

if __name__ == "__main__":
    sys.dont_write_bytecode = True

from texts import TOP, read


class BadEdit(Exception):
    """An edit that cannot be read or made, and why."""


@dataclasses.dataclass
class Edit:
    """An edit, and the crate, file and line in which it stands. `lines` are those of its texts, as they are written."""

    crate: str
    name: str
    path: pathlib.Path
    line: int
    clause: str = None
    lines: list = dataclasses.field(default_factory=list)

    @property
    def place(self):
        return f"{place_of(self.path)}:{self.line}"

    def pairs(self):
        """File, old text and new text of each pair in turn."""
        file = old = None
        for line in self.lines:
            word, colon, rest = line.partition(":")
            rest = rest.removeprefix(" ")
            if not colon or word not in ("file", "old", "new"):
                raise BadEdit(f"the line '{line}' begins with no word of an edit")
            if word == "file":
                file = rest.strip()
            elif word == "old":
                old = rest
            elif file is None or old is None:
                raise BadEdit(f"no old text stands before '{line}'")
            else:
                yield file, old, rest
                old = None
        if old is not None:
            raise BadEdit(f"no new text follows '{old.strip()}'")

    def made(self, folder):
        """The files of the crate in this folder that the edit changes, each with its new text."""
        texts = {}
        for file, old, new in self.pairs():
            if file not in texts:
                if not (folder / file).is_file():
                    raise BadEdit(f"there is no file {file}")
                texts[file] = read(folder / file)
            count = texts[file].count(old)
            if count != 1:
                raise BadEdit(f"the text '{old.strip()}' is {count} times in {file}, not once")
            texts[file] = texts[file].replace(old, new)
        if not texts:
            raise BadEdit("it has no pair of texts")
        return texts

    def as_file(self):
        """The text of this edit as a file of the gate."""
        clause = [f"# clause: {self.clause}"] if self.clause else []
        return "".join(f"{line}\n" for line in [*clause, *self.lines])


def place_of(path):
    """The path from the folder `crates` on, the last of this name."""
    return "crates/" + str(path).rpartition("/crates/")[2]


def of_file(path, crate):
    """The edit in this file of the gate."""
    edit = Edit(crate, path.stem, path, 1)
    for line in read(path).splitlines():
        if line.startswith("# clause: "):
            edit.clause = line.removeprefix("# clause: ").strip()
        elif line and not line.startswith("#"):
            edit.lines.append(line)
    return edit


def of_list(path, crate):
    """The edits of an edits.txt, in its order."""
    edits = []
    edit = None
    for number, line in enumerate(read(path).splitlines(), 1):
        if not line:
            edit = None
        elif line.startswith("edit: "):
            edit = Edit(crate, line.removeprefix("edit: ").strip(), path, number)
            edits.append(edit)
        elif line.startswith("#"):
            continue
        elif edit is None:
            raise BadEdit(f"{place_of(path)}:{number}: no line names the edit")
        elif line.startswith("clause: "):
            edit.clause = line.removeprefix("clause: ").strip()
        else:
            edit.lines.append(line)
    return edits


def of_gate(folder):
    """The edits of the gate in the crate in this folder."""
    return [of_file(path, folder.name) for path in sorted(folder.glob("must-fail/*.edit"))]


def of_crate(folder):
    """All edits of the crate in this folder: those of the gate, and then those of its list."""
    listed = folder / "edits.txt"
    return of_gate(folder) + (of_list(listed, folder.name) if listed.is_file() else [])


def crates(top):
    """The folders of crates that have edits."""
    return sorted({path.parent for path in top.glob("crates/*/edits.txt")} | {path.parent for path in top.glob("crates/*/must-fail")})


def split(top):
    """Makes the entries of each edits.txt below this folder files of the gate, in its place."""
    for path in sorted(top.glob("crates/*/edits.txt")):
        folder = path.parent / "must-fail"
        folder.mkdir(exist_ok=True)
        for edit in of_list(path, path.parent.name):
            file = folder / f"{edit.name}.edit"
            if file.exists():
                raise BadEdit(f"{edit.place}: there are two edits {edit.name}")
            with open(file, "w", encoding="utf-8", newline="") as it:
                it.write(edit.as_file())
        path.unlink()


def check_edits(differences):
    """Each edit can be made, and no crate has two of one name."""
    count, without = 0, collections.Counter()
    for folder in crates(TOP):
        try:
            found = of_crate(folder)
        except BadEdit as why:
            differences.append(str(why))
            continue
        count += len(found)
        without[folder.name] = sum(1 for edit in found if not edit.clause)
        for name, times in collections.Counter(edit.name for edit in found).items():
            if times > 1:
                differences.append(f"crates/{folder.name}: {times} edits have the name {name}")
        for edit in found:
            try:
                edit.made(folder)
            except BadEdit as why:
                differences.append(f"{edit.place}: {edit.name}: {why}")
    rest = ", ".join(f"{crate} {number}" for crate, number in sorted(without.items()) if number)
    return f"{count} edits apply; {sum(without.values())} name no clause" + (f" ({rest})" if rest else "")


CHECKS = (check_edits,)


if __name__ == "__main__":
    if len(sys.argv) != 3 or sys.argv[1] != "split":
        sys.exit("edits: usage: .ci/edits.py split TOP")
    try:
        split(pathlib.Path(sys.argv[2]))
    except BadEdit as why:
        sys.exit(f"edits: {why}")
