"""Contracts and definitions as texts: what each function requires and ensures, what each type says, and the items of specs/ and
proofs/, with each name as the whole path that its import gives it."""

import collections
import re

# A name in a file of definitions, and before it what may say how it is unfolded.
ITEM = r"(?:(?:pub|abbrev|unfoldable|opaque|data|record|syntax|inductive)\s+)"


def without_comments(text, mark):
    """The text without comments; `mark` begins one. What is within quotes stays."""
    return re.sub(rf'("(?:\\.|[^"\\\n])*")|{mark}[^\n]*', lambda m: m[1] or "", text)


def imports(text):
    """The name of each word that a (ghost) use brings in -> its whole path. A glob or a module brings in the module's name."""
    found = {}
    for item in re.findall(r"(?:^|(?<=[\s;{]))(?:pub\s+)?(?:ghost\s+)?use\s+Rattle\.([^;{\n]*(?:\{[^}]*\})?[^;\n]*)", text):
        item = item.strip().rstrip(";")
        head, brace, rest = item.partition("{")
        if brace:
            for part in rest.rstrip("} ").split(","):
                words = part.split(" as ")
                if words[0].strip():
                    found[words[-1].strip()] = head.strip() + words[0].strip()
        else:
            words = item.split(" as ")
            found[words[-1].strip().rpartition(".")[2]] = words[0].strip()
    return found


def spelled(text, names):
    """The text with each imported word as its whole path, and all layout as one space."""
    # (a clause's own name is no word of it)
    text = re.sub(
        r"\b((?:requires|ensures)\*?\s+[\w'-]+)|(?<![\w.'-])[A-Za-z_][\w'-]*(?![\w'-]*[!])",
        lambda m: m[1] or names.get(m[0], m[0]),
        text,
    )
    return " ".join(text.split())


def type_of(header):
    """The type of an impl or a trait that begins so, and the trait that it is an impl of, or an empty text."""
    header = header.replace("->", "")
    while "<" in header:
        shorter = re.sub(r"<[^<>]*>", "", header)
        if shorter == header:
            break
        header = shorter
    trait, name = re.search(r"\b(?:impl|trait)\s+(?:([\w:]+) for )?&?(?:mut )?([\w:]+)", header).groups()
    return name.split("::")[-1], (trait or "").split("::")[-1]


def end_of_block(text, at):
    """The place after the brace that closes the one at `at`."""
    depth = 0
    for place in range(at, len(text)):
        depth += {"{": 1, "}": -1}.get(text[place], 0)
        if not depth:
            return place + 1
    return len(text)


def end_of_header(text, start, at):
    """Where the header of a function ends that begins at `start`, with its name before `at`: before the brace of its body, which is
    one that follows neither requires nor ensures, nor their names; or where it has none."""
    while at < len(text):
        before = text[start:at]
        if text[at] == "{":
            if not re.search(r"\b((requires|ensures)\*?(\s+[\w'-]+)?|ghost\s+\w+:|by)\s*$", before) and before.count("(") <= before.count(")"):
                return at
            at = end_of_block(text, at)
        elif text[at] == ";" and before.count("(") == before.count(")") and before.count("[") == before.count("]"):
            return at
        else:
            at += 1
    return at


# What promises something in a source: the block it stands in, its name (`fn NAME`, `ghost NAME`, or a type's or constant's), whether
# it is public, and its text.
Promise = collections.namedtuple("Promise", "block name public text")


def promises(text):
    """The promises of a source: what each impl of Model says, each public type and constant, and each function's header."""
    text = without_comments(text, "//")
    names = imports(text)
    blocks = [
        (m.start(), end_of_block(text, text.index("{", m.end())), " ".join(m[0].split()))
        for m in re.finditer(r"^(?:pub )?(?:unsafe )?(?:impl|trait)\b[^{;]*", text, flags=re.M)
    ]
    for start, end, block in blocks:
        for ghost in re.finditer(r"\bghost\s+(?!use\b)(\w+)\s*=\s*(?=\{)", text[start:end]):
            at = start + ghost.end()
            yield Promise(block, f"ghost {ghost[1]}", True, spelled(text[at : end_of_block(text, at)], names))
    for item in re.finditer(r"^pub (?:struct|enum|const|type|static) (\w+)[^{;=]*", text, flags=re.M):
        at = item.end()
        at = end_of_block(text, at) if text[at] == "{" else text.index(";", at)
        # (an attribute, as the text of an error, promises nothing)
        said = re.sub(r'#\[(?:"(?:\\.|[^"\\])*"|[^\]"])*\]', "", text[item.start() : at])
        yield Promise("", item[1], True, spelled(said, names))
    for match in re.finditer(r"^[ \t]*((?:pub(?:\([a-z]+\))? )?(?:const )?(?:unsafe )?(?:extern \"C\" )?fn (\w+))", text, flags=re.M):
        inside = [block for start, end, block in blocks if start < match.start() < end]
        header = text[match.start() : end_of_header(text, match.start(), match.end())]
        of_trait = bool(inside) and (inside[-1].startswith(("trait", "pub trait")) or " for " in inside[-1])
        yield Promise(inside[-1] if inside else "", f"fn {match[2]}", of_trait or match[1].startswith("pub "), spelled(header, names))


def definitions(text):
    """The items of a file of definitions or lemmas, by name: each is a block of lines that begins in the first column with its name."""
    text = without_comments(text, "--")
    names = imports(text)
    text = re.sub(r"^(?:pub )?(?:unfoldable )?use [^\n]*(?:\n[ \t}][^\n]*)*", "", text, flags=re.M)
    item = None
    items = collections.OrderedDict()
    for line in text.splitlines():
        begins = re.match(rf"{ITEM}*([^\s:(){{}},]+)", line)
        if line and not line[0].isspace() and begins and line[0] not in "})":
            word = begins[1]
            if word == "unfolding":
                continue
            item = word if word in items or re.match(rf"{ITEM}|[^=]*\s:\s", line) or item is None else item
        if line.strip() and item:
            items[item] = items.get(item, "") + line + "\n"
    return {word: spelled(said, names) for word, said in items.items()}
