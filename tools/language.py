"""The language of jobs, by docs/JOBS.md: what a text says, or its first fault. A part of the model (tools/model.py).

  1. values, forms of lines, limits, faults
  2. requests: sectors, pages, what a write puts
  3. the items of a job, and the reader

To grow it: a line of the language is a row of FORMS, its values are rows of VALUES, and what it says is a method of
Reader; a limit is a row of LIMITS.
"""
from __future__ import annotations

import re
from dataclasses import dataclass, field
from functools import lru_cache
from typing import Any, Callable, NamedTuple, Optional, Union

SECTOR = 512
SECTORS = 8  # of a page
WORDS = SECTOR // 8
MOST_BYTES = 16_777_216
MOST_ACTORS = 64
LIMITS = {
    "phases": 1_000,
    "operations": 1_000_000,
    "pieces": 1_048_576,
    "sectors to read": 262_144,
    "turns": 16_777_216,
    "pages to scan": 16_777_216,
}


# ---- 1. values, forms of lines, limits, faults

class Fault(Exception):
    """The first faulty line of a text, the first of the causes that it has, and what is wrong in words."""

    def __init__(self, line: int, cause: str, why: str) -> None:
        super().__init__(f"{line}: {cause}: {why}")
        self.line, self.cause, self.why = line, cause, why


class Turns(NamedTuple):
    """What one word of a schedule gives: so many turns to an actor."""
    actor: int
    times: int


def number(word: str) -> int:
    """One or more decimal digits. More than 20 of them are above every value that is allowed, whatever they are."""
    if not re.fullmatch("[0-9]+", word):
        raise ValueError(f"{word[:40]!r} is no number")
    digits = word.lstrip("0") or "0"
    return int(digits) if len(digits) <= 20 else 10 ** 20


def size(word: str) -> int:
    """A number of bytes, perhaps with a letter for a factor; in pages, rounded up."""
    factor = {"k": 2 ** 10, "m": 2 ** 20, "g": 2 ** 30}.get(word[-1].lower())
    total = number(word[:-1]) * factor if factor else number(word)
    return (total + SECTOR * SECTORS - 1) // (SECTOR * SECTORS)


def word64(word: str) -> int:
    """One to sixteen hexadecimal digits."""
    if not re.fullmatch("[0-9a-fA-F]{1,16}", word):
        raise ValueError(f"{word[:40]!r} isn't 1 to 16 hexadecimal digits")
    return int(word, 16)


def digits(word: str) -> str:
    """Hexadecimal digits, as they are."""
    if not re.fullmatch("[0-9a-fA-F]+", word):
        raise ValueError(f"{word[:40]!r} has more than hexadecimal digits")
    return word


def turns(word: str) -> Turns:
    """`N` or `N*K`."""
    actor, star, times = word.partition("*")
    return Turns(number(actor), number(times) if star else 1)


def any_value(value: Any) -> bool:
    """Said of values that are all allowed."""
    return True


class Value(NamedTuple):
    """A word of a line: how it is read, which values are allowed, and those in words."""
    read: Callable[[str], Any]
    is_allowed: Callable[[Any], bool]
    allowed: str


VALUES = {
    "SIZE": Value(size, lambda pages: 1 <= pages <= 262_144, "1 to 262,144 pages"),
    "LIMIT": Value(size, lambda pages: pages <= 2 ** 28, "at most 2^28 pages"),
    "BLOCKS": Value(number, lambda blocks: 1 <= blocks <= 65_536, "1 to 65,536 blocks"),
    "NUMBER": Value(number, lambda value: value == 0, "0"),
    "UNITS": Value(number, lambda units: units <= 2 ** 32, "at most 2^32 writes"),
    "SWITCH": Value(number, lambda value: value <= 1, "0 or 1"),
    "TIME": Value(number, lambda seconds: seconds < 2 ** 64, "below 2^64"),
    "AGE": Value(number, lambda seconds: seconds < 2 ** 64, "below 2^64"),
    "START": Value(number, lambda sector: sector < 2 ** 32, "a sector below 2^32"),
    "COUNT": Value(number, lambda count: 1 <= count <= 2_048, "1 to 2,048 sectors"),
    "WORD64": Value(word64, any_value, ""),
    "BASE": Value(word64, any_value, ""),
    "STEP": Value(word64, any_value, ""),
    "DIGITS": Value(digits, any_value, ""),
    "TURN": Value(turns, lambda turn: 1 <= turn.times <= 16_777_216, "1 to 16,777,216 turns"),
}

# The lines of the language: fixed words in lower case, values in upper case, `..` after a value that may be repeated.
FORMS = [form.split() for form in (
    "disksize SIZE",
    "mem_limit LIMIT",
    "backing BLOCKS",
    "writeback_limit UNITS",
    "writeback_limit_enable SWITCH",
    "mem_used_max NUMBER",
    "clock TIME",
    "mm_stat",
    "io_stat",
    "bd_stat",
    "states",
    "classes",
    "actor",
    "write START COUNT fill WORD64",
    "write START COUNT seq BASE STEP",
    "write START COUNT hex DIGITS..",
    "read START COUNT",
    "discard START COUNT",
    "idle all",
    "idle AGE",
    "writeback idle",
    "writeback huge",
    "writeback huge_idle",
    "compact",
    "schedule TURN..",
    "run",
)]
OPERATIONS = ("write", "read", "discard", "idle", "writeback", "compact")
NO_REQUESTS = ("idle", "writeback", "compact")  # operations without sectors
REPORTS = ("mm_stat", "io_stat", "bd_stat", "states", "classes")


def words_of(line: str) -> list[str]:
    """The words of a line: one 0d at its end is dropped, then a comment, and blanks are space and tab."""
    if line.endswith("\r"):
        line = line[:-1]
    return [word for word in re.split("[ \t]", line.partition("#")[0]) if word]


def has_form(words: list[str], form: list[str]) -> bool:
    """Whether words are as many as a form wants, with its fixed words."""
    if form[-1].endswith("..") and len(words) > len(form):
        form = form + form[-1:] * (len(words) - len(form))
    return len(words) == len(form) and all(name == word for name, word in zip(form, words) if name.islower())


def form_of(words: list[str]) -> list[str]:
    """The form that words have."""
    forms = [form for form in FORMS if form[0] == words[0]]
    if not forms:
        raise ValueError(f"no line begins with {words[0][:40]!r}")
    for form in forms:
        if has_form(words, form):
            return form
    raise ValueError("the line is " + ", or ".join(f"`{' '.join(form)}`" for form in forms))


def values_of(words: list[str], form: list[str]) -> dict[str, list[Any]]:
    """What the words of a form stand for, by their names there. A value that is not allowed is one all the same."""
    values: dict[str, list[Any]] = {}
    for place, word in enumerate(words):
        name = form[min(place, len(form) - 1)].rstrip(".")
        if name in VALUES:
            values.setdefault(name, []).append(VALUES[name].read(word))
    if "DIGITS" in values:
        count = values["COUNT"][0]
        values["DIGITS"] = ["".join(values["DIGITS"])]
        if VALUES["COUNT"].is_allowed(count) and len(values["DIGITS"][0]) != 2 * SECTOR * count:
            raise ValueError(f"COUNT {count} needs {2 * SECTOR * count:,} digits, not {len(values['DIGITS'][0]):,}")
    return values


# ---- 2. requests

@lru_cache(maxsize=4096)
def fill_sector(word: int) -> bytes:
    """A sector of one word."""
    return word.to_bytes(8, "little") * WORDS


ZEROS = fill_sector(0)


def seq_sector(base: int, step: int, index: int) -> bytes:
    """Sector `index` of a request whose word `k` is `base + k * step`."""
    words = range(index * WORDS, (index + 1) * WORDS)
    return b"".join(((base + k * step) % 2 ** 64).to_bytes(8, "little") for k in words)


@dataclass(frozen=True)
class Op:
    """An operation: its word, its request, the bytes that it puts into each sector of the request, its line, the age of
    `idle`, if it has one, and the mode of `writeback`. `idle`, `writeback` and `compact` are no requests: they have no
    sectors."""
    word: str
    start: int
    count: int
    sector: Callable[[int], bytes]
    text: str
    age: Optional[int] = None
    mode: str = ""

    def is_request(self) -> bool:
        """Whether it has sectors."""
        return self.word not in NO_REQUESTS

    def pages(self) -> range:
        """The pages on which the request has sectors."""
        return range(self.start // SECTORS, (self.start + self.count - 1) // SECTORS + 1)


def request_of(values: dict[str, list[Any]]) -> tuple[int, int]:
    """The first sector of a request and how many it has."""
    return (values["START"][0], values["COUNT"][0]) if "START" in values else (0, 0)


def stuff_of(values: dict[str, list[Any]]) -> Callable[[int], bytes]:
    """The bytes that a write puts into each sector of its request; zeros for other operations."""
    if "WORD64" in values:
        word = values["WORD64"][0]
        return lambda index: fill_sector(word)
    if "BASE" in values:
        base, step = values["BASE"][0], values["STEP"][0]
        return lambda index: seq_sector(base, step, index)
    if "DIGITS" in values:
        data = bytes.fromhex(values["DIGITS"][0])
        return lambda index: data[index * SECTOR:(index + 1) * SECTOR]
    return lambda index: ZEROS


# ---- 3. the items of a job, and the reader

class Size(NamedTuple):
    """An item of a job: the disk has so many pages."""
    pages: int


class Limit(NamedTuple):
    """An item of a job: so many frames may be charged; 0 means no limit."""
    frames: int


class Backing(NamedTuple):
    """An item of a job: so many blocks of the backing device are used."""
    blocks: int


class Budget(NamedTuple):
    """An item of a job: so many writes to the backing device are allowed from now on, where the limit is enabled."""
    units: int


class EnableBudget(NamedTuple):
    """An item of a job: the limit on writes to the backing device acts from now on, or doesn't."""
    is_on: bool


class LowerMax(NamedTuple):
    """An item of a job: the greatest number of frames charged is from now on what is charged now."""


class Clock(NamedTuple):
    """An item of a job: the time is this from now on, in seconds."""
    seconds: int


class Report(NamedTuple):
    """An item of a job: a report is printed."""
    name: str


@dataclass
class Phase:
    """An item of a job: the operations of each actor, and the schedule. It begins at line `first`."""
    first: int
    actors: list[list[Op]] = field(default_factory=list)
    schedule: list[Turns] = field(default_factory=list)


Item = Union[Size, Limit, Backing, Budget, EnableBudget, LowerMax, Clock, Report, Phase]
AFTER_SCHEDULE = "after a `schedule` come only more of it and `run`"


class Reader:
    """A job as far as its lines have been read, with what of its limits is used."""

    def __init__(self) -> None:
        self.items: list[Item] = []
        self.phase: Optional[Phase] = None
        self.has_disk = False
        self.pages = 0  # of the first size of the disk
        self.clock = 0
        self.used = dict.fromkeys(LIMITS, 0)
        self.line = 0

    def read(self, line: int, words: list[str]) -> None:
        """Reads a line with words. Its causes stand in their order: word, number, range, order, nodisk, toomany."""
        self.line = line
        cause = "word"
        try:
            form = form_of(words)
            cause = "number"
            values = values_of(words, form)
        except ValueError as error:
            raise Fault(line, cause, str(error)) from None
        for name, those in values.items():
            self.want(all(map(VALUES[name].is_allowed, those)), "range", f"{name} must be {VALUES[name].allowed}")
        name = "operation" if form[0] in OPERATIONS else "report" if form[0] in REPORTS else form[0]
        getattr(self, "says_" + name)(values, words)

    def want(self, condition: bool, cause: str, why: str) -> None:
        """Refuses the line for a cause where the condition doesn't hold."""
        if not condition:
            raise Fault(self.line, cause, why)

    def use(self, what: str, amount: int) -> None:
        """Uses so much of a limit."""
        self.used[what] += amount
        self.want(self.used[what] <= LIMITS[what], "toomany", f"a job has at most {LIMITS[what]:,} {what}")

    def begin(self) -> Phase:
        """The phase begins at this line."""
        self.use("phases", 1)
        return Phase(self.line)

    def says_disksize(self, values: dict[str, list[Any]], words: list[str]) -> None:
        """`disksize SIZE`: any time outside a phase. A second one is answered when the job runs."""
        self.want(self.phase is None, "order", "`disksize` stands outside a phase")
        self.pages = self.pages if self.has_disk else values["SIZE"][0]
        self.has_disk = True
        self.items.append(Size(values["SIZE"][0]))

    def says_mem_limit(self, values: dict[str, list[Any]], words: list[str]) -> None:
        """`mem_limit LIMIT`: any time outside a phase, before and after the disk's size."""
        self.want(self.phase is None, "order", "`mem_limit` stands outside a phase")
        self.items.append(Limit(values["LIMIT"][0]))

    def says_backing(self, values: dict[str, list[Any]], words: list[str]) -> None:
        """`backing BLOCKS`: any time outside a phase. One after the disk's size is answered when the job runs."""
        self.want(self.phase is None, "order", "`backing` stands outside a phase")
        self.items.append(Backing(values["BLOCKS"][0]))

    def says_writeback_limit(self, values: dict[str, list[Any]], words: list[str]) -> None:
        """`writeback_limit UNITS`: any time outside a phase, before and after a backing and the disk's size."""
        self.want(self.phase is None, "order", "`writeback_limit` stands outside a phase")
        self.items.append(Budget(values["UNITS"][0]))

    def says_writeback_limit_enable(self, values: dict[str, list[Any]], words: list[str]) -> None:
        """`writeback_limit_enable SWITCH`: any time outside a phase, before and after a backing and the disk's size."""
        self.want(self.phase is None, "order", "`writeback_limit_enable` stands outside a phase")
        self.items.append(EnableBudget(values["SWITCH"][0] == 1))

    def says_mem_used_max(self, values: dict[str, list[Any]], words: list[str]) -> None:
        """`mem_used_max 0`: any time outside a phase, before and after the disk's size."""
        self.want(self.phase is None, "order", "`mem_used_max` stands outside a phase")
        self.items.append(LowerMax())

    def says_clock(self, values: dict[str, list[Any]], words: list[str]) -> None:
        """`clock TIME`: any time outside a phase; the time doesn't fall."""
        seconds = values["TIME"][0]
        self.want(seconds >= self.clock, "range", f"the clock is at {self.clock} and doesn't fall")
        self.want(self.phase is None, "order", "`clock` stands outside a phase")
        self.clock = seconds
        self.items.append(Clock(seconds))

    def says_report(self, values: dict[str, list[Any]], words: list[str]) -> None:
        """`mm_stat`, `io_stat`, `bd_stat`, `states`, `classes`: any time outside a phase."""
        self.want(self.phase is None, "order", f"`{words[0]}` stands outside a phase")
        self.items.append(Report(words[0]))

    def says_actor(self, values: dict[str, list[Any]], words: list[str]) -> None:
        """`actor`: the first one begins the phase."""
        self.want(self.phase is None or not self.phase.schedule, "order", AFTER_SCHEDULE)
        self.want(self.has_disk, "nodisk", "`disksize` comes first")
        if self.phase is None:
            self.phase = self.begin()
        self.want(len(self.phase.actors) < MOST_ACTORS, "toomany", f"a phase has at most {MOST_ACTORS} actors")
        self.phase.actors.append([])

    def says_operation(self, values: dict[str, list[Any]], words: list[str]) -> None:
        """`write`, `read`, `discard`, `idle`, `writeback`, `compact`: of the last actor."""
        self.want(self.phase is not None, "order", "an operation stands after an `actor`")
        assert self.phase is not None
        self.want(not self.phase.schedule, "order", AFTER_SCHEDULE)
        text = " ".join(words[:4] + [".."] if words[3:4] == ["hex"] else words)
        mode = words[1] if words[0] == "writeback" else ""
        op = Op(words[0], *request_of(values), stuff_of(values), text, values.get("AGE", [None])[0], mode)
        self.use("operations", 1)
        self.use("pieces", len(op.pages()))
        self.use("sectors to read", op.count if op.word == "read" else 0)
        self.use("pages to scan", self.pages if op.word in ("idle", "writeback") else 0)
        self.phase.actors[-1].append(op)

    def says_schedule(self, values: dict[str, list[Any]], words: list[str]) -> None:
        """`schedule TURN..`: turns of actors that have begun."""
        actors = len(self.phase.actors) if self.phase else 0
        given = values["TURN"]
        self.want(all(turn.actor < actors for turn in given), "range", f"the phase has {actors} actors, counted from 0")
        assert self.phase is not None
        self.use("turns", sum(turn.times for turn in given))
        self.phase.schedule += given

    def says_run(self, values: dict[str, list[Any]], words: list[str]) -> None:
        """`run`: ends the phase; one with no actor is empty."""
        self.items.append(self.phase or self.begin())
        self.phase = None

    def end(self) -> list[Item]:
        """The items of the job, at the text's end."""
        if self.phase is not None:
            raise Fault(self.phase.first, "order", "the phase that begins here has no `run`")
        return self.items


def read_job(text: bytes) -> list[Item]:
    """The items of the job that a text is; else its first fault is raised."""
    if len(text) > MOST_BYTES:
        raise Fault(0, "toomany", f"a text has at most {MOST_BYTES:,} bytes")
    reader = Reader()
    for line, content in enumerate(text.decode("latin-1").split("\n"), 1):
        words = words_of(content)
        if words:
            reader.read(line, words)
    return reader.end()
