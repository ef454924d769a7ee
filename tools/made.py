"""Files of the repository that a script makes from others: written, or compared with what is stored."""
from __future__ import annotations

import glob
import os

TOP = os.path.dirname(os.path.dirname(os.path.realpath(__file__)))


def paths(pattern: str) -> list[str]:
    """The files of the repository whose paths from the top are like this, in order."""
    return sorted(os.path.relpath(path, TOP) for path in glob.glob(os.path.join(TOP, pattern)))


def read(path: str) -> str:
    """A file of the repository, by its path from the top; empty where it isn't there."""
    try:
        with open(os.path.join(TOP, path), encoding="utf-8", newline="") as file:
            return file.read()
    except FileNotFoundError:
        return ""


def write(path: str, text: str) -> None:
    """Writes a file of the repository."""
    place = os.path.join(TOP, path)
    os.makedirs(os.path.dirname(place), exist_ok=True)
    with open(place, "w", encoding="utf-8", newline="") as file:
        file.write(text)


def first_difference(stored: str, text: str) -> int:
    """The first line in which two texts differ, counted from 1."""
    pairs = list(zip(stored.splitlines(), text.splitlines()))
    return next((nr for nr, (old, new) in enumerate(pairs, 1) if old != new), len(pairs) + 1)


def keep(texts: dict[str, str], check: bool, remedy: str) -> int:
    """Writes texts into their files, or prints file, line and remedy of each that differs. Answers the exit status."""
    status = 0
    for path, text in texts.items():
        if not check:
            write(path, text)
        elif read(path) != text:
            print(f"{path}:{first_difference(read(path), text)}: {remedy}")
            status = 1
    return status
