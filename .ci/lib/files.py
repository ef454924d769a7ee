"""The repository's files, and its crates as crates.txt lists them."""
import functools
import os
import re
import subprocess
from typing import NamedTuple

TOP = os.path.dirname(os.path.dirname(os.path.dirname(os.path.abspath(__file__))))


class Crate(NamedTuple):
    name: str
    layer: str
    needs: list[str]


def at(path: str) -> str:
    """Where a path from the top of the repository lies."""
    return os.path.join(TOP, path)


@functools.cache
def text(path: str) -> str:
    with open(at(path), encoding="utf-8") as file:
        return file.read()


@functools.cache
def tracked() -> list[str]:
    """The paths of the repository's files that git knows or would add, and that are texts of this checkout."""
    command = ["git", "ls-files", "-z", "--cached", "--others", "--exclude-standard"]
    names = subprocess.run(command, cwd=TOP, capture_output=True, check=True).stdout.decode().split("\0")
    return sorted({name for name in names if name and os.path.isfile(at(name)) and is_text(name)})


def is_text(path: str) -> bool:
    try:
        text(path)
    except UnicodeDecodeError:
        return False
    return True


@functools.cache
def crates() -> list[Crate]:
    """The crates in the order of crates.txt; a comment line before them names their layer."""
    found, layer = [], ""
    for line in text("crates.txt").splitlines():
        if line.startswith("#"):
            layer = line.strip("# ")
        head, colon, needs = line.split("#")[0].partition(":")
        if colon:
            found.append(Crate(head.split()[0], layer, needs.split()))
    return found


def sources(crate: str, *folders: str, endings: tuple[str, ...] = (".rt", ".antt")) -> list[str]:
    """The paths of a crate's sources in these folders, or in all three, in the order of their names."""
    found = []
    for folder in folders or ("src", "specs", "proofs"):
        for place, below, names in os.walk(at(f"crates/{crate}/{folder}")):
            below.sort()
            paths = [os.path.join(place, name) for name in sorted(names) if name.endswith(endings)]
            found += [os.path.relpath(path, TOP) for path in paths]
    return found


def section(page: str, heading: str) -> str:
    """What stands in a page under a heading, up to the next one as high."""
    found = re.search(rf"^(#+) {re.escape(heading)}\n(.*?)(?=^#{{1,2}} |\Z)", page, re.MULTILINE | re.DOTALL)
    return found.group(2) if found else ""


class Table(NamedTuple):
    head: list[str]
    rows: list[list[str]]


def tables(markdown: str) -> list[Table]:
    """The tables of a piece of a page."""
    found: list[Table] = []
    last = ""
    for line in markdown.splitlines():
        if line.startswith("|") and not last.startswith("|"):
            found.append(Table(cells(line), []))
        elif line.startswith("|") and not re.fullmatch(r"[|\s:-]+", line):
            found[-1].rows.append(cells(line))
        last = line
    return found


def cells(line: str) -> list[str]:
    return [cell.strip() for cell in re.split(r"(?<!\\)\|", line.strip().strip("|"))]
