#!/usr/bin/env python3
"""Checks of links and of quoted code. As a command, for a release: `.ci/links.py release FOLDER` changes the links of the texts below
this folder, which lie there as in the repository: what is not released is named without a link.
`.ci/links.py check FOLDER` looks that each link there leads somewhere, and that each trace that a text names is there."""

import os
import pathlib
import re
import sys

if __name__ == "__main__":
    sys.dont_write_bytecode = True

from texts import TOP, place_of, read

# Documents that quote code, and where the code of each kind stands.
QUOTING = "README.md", "docs/rattle.md", "docs/hosts/*.md"
QUOTED = {"rust": ("crates/small_host/src/*.rt",), "c": ("examples/*/*.c", "tests/c/*.c", "tests/pages/*.c")}


def documents(folder):
    """The Markdown files below a folder, but those of builds."""
    return [path for path in sorted(folder.rglob("*.md")) if not {"out", "target"} & set(path.relative_to(folder).parts)]


def anchors(path):
    """The names by which a link finds the headings of a document."""
    headings = re.findall(r"^#+ (.*)$", re.sub(r"^```.*?^```$", "", read(path), flags=re.M | re.S), flags=re.M)
    return {re.sub(r"[^\w\- ]", "", heading.lower()).replace(" ", "-") for heading in headings}


def dead_links(folder):
    """The links below a folder that lead nowhere, each with its document, and the number of all."""
    dead, count = [], 0
    for path in documents(folder):
        for target in re.findall(r"\]\(([^)\s]+)\)", read(path)):
            if "://" in target or target.startswith("mailto:"):
                continue
            count += 1
            name, _, anchor = target.partition("#")
            place = path.parent / name if name else path
            if not place.exists() or anchor and place.suffix == ".md" and anchor not in anchors(place):
                dead.append(f"{path.relative_to(folder)}: {target} leads nowhere")
    return dead, count


def check_links(differences):
    dead, count = dead_links(TOP)
    differences += dead
    return f"{count} links lead somewhere"


def check_blocks(differences):
    """What begins or ends a block of code is a line of its own."""
    count = 0
    for path in documents(TOP):
        fences = re.findall(r"^```.*$", read(path), flags=re.M)
        count += len(fences) // 2
        if len(fences) % 2 or not all(re.fullmatch(r"```\w*", fence) for fence in fences):
            differences.append(f"{path.relative_to(TOP)}: a block of code does not begin and end with a line of its own")
    return f"{count} blocks of code begin and end"


def check_quotes(differences):
    """Code that documents quote is that of the small host, of the examples and of the tests in C, word for word, and the program at the head of vmig.h is
    the first example."""
    program = read(TOP / "examples/c/first.c")
    program = program[program.index("#include") :].rstrip("\n").splitlines()
    if "".join(f" *   {line}".rstrip() + "\n" for line in program) not in read(TOP / "bindings/include/vmig.h"):
        differences.append("vmig.h: the program at its head is not examples/c/first.c")
    texts = {kind: [read(path) for pattern in patterns for path in sorted(TOP.glob(pattern))] for kind, patterns in QUOTED.items()}
    count = 0
    for path in (path for pattern in QUOTING for path in sorted(TOP.glob(pattern))):
        for kind, quote in re.findall(r"^```(rust|c)\n(.*?)^```$", read(path), flags=re.M | re.S):
            count += 1
            if not any(quote in text for text in texts[kind]):
                first = quote.splitlines()[0].strip()
                differences.append(f"{place_of(path)}: the code that begins with '{first}' is not in {' or '.join(QUOTED[kind])}")
    return f"{count} quotes are those of the code"


CHECKS = check_links, check_blocks, check_quotes

# What of the repository is not in a release.
NOT_RELEASED = "examples/library", "examples/move-recorded", "bindings/README.md", "bindings/package", "tests", "measures", ".ci", "crates"


def release(folder):
    """Changes the links of the texts below this folder to what they find in a release."""
    for path in documents(folder):

        def changed(match):
            text, target = match.groups()
            if "://" in target or target.startswith("#"):
                return match[0]
            name = os.path.normpath((path.parent / target.partition("#")[0]).relative_to(folder))
            if any(name == left or name.startswith(f"{left}/") for left in NOT_RELEASED):
                return text
            return match[0]

        path.write_text(re.sub(r"\[([^\]]*)\]\(([^)\s]+)\)", changed, path.read_text(encoding="utf-8")), encoding="utf-8")


def missing_traces(folder):
    """The traces that the texts below a folder name and that are not there."""
    named = {(path, name) for path in documents(folder) for name in re.findall(r"\bexamples/[\w-]+\.(?:trace|replies)\b", read(path))}
    return [f"{path.relative_to(folder)}: there is no {name}" for path, name in sorted(named) if not (folder / name).is_file()]


def main(words):
    if len(words) != 2 or words[0] not in ("release", "check"):
        print("links: usage: .ci/links.py release|check FOLDER", file=sys.stderr)
        return 2
    folder = pathlib.Path(words[1])
    if words[0] == "release":
        release(folder)
        return 0
    dead, count = dead_links(folder)
    dead += missing_traces(folder)
    for link in dead:
        print(f"links: {link}", file=sys.stderr)
    if not dead:
        print(f"links: {count} lead somewhere, and each trace that is named is there")
    return 1 if dead else 0


if __name__ == "__main__":
    sys.exit(main(sys.argv[1:]))
