"""Where the repository is, and its texts."""

import functools
import pathlib

TOP = pathlib.Path(__file__).resolve().parent.parent


@functools.cache
def read(path):
    return path.read_text(encoding="utf-8")


def place_of(path):
    return path.relative_to(TOP).as_posix()
