"""Random jobs, valid and faulty, of every line of docs/JOBS.md: what tools/generate and tools/compare share.

The jobs are weighted to where programs go wrong: disks of few pages, requests that begin or end at the edge of a page
or of the disk, several actors on one page, and schedules that stop an actor half way. Each builder draws its choices
from one source of chance, so a seed gives one text.
"""
from __future__ import annotations

from random import Random
from typing import Callable

EDGES = (0, 1, 7, 8, 9, 15, 16)
COUNTS = (1, 1, 2, 3, 4, 7, 8, 8, 8, 9, 16, 16, 24)
LIMITS = ("0", "1", "4K", "4k", "8K", "8K", "12K", "16K", "20K", "24K", "1M", "1G", "1099511627776", "0G")
AGES = ("all", "all", "all", "0", "1", "4", "5", "05", "9", "18446744073709551615")
MODES = ("idle", "idle", "huge", "huge_idle")
REPORTS = ("mm_stat", "io_stat", "bd_stat", "states", "classes")
# Blocks of the backing device that are used: few, so that none is free at times, up to those that it has, or more.
BLOCKS = ("1", "1", "1", "2", "2", "3", "7", "0016", "100", "4095", "4096", "4096", "4097", "65536")
# How many writes to the device are allowed, and whether that counts.
BUDGETS = ("writeback_limit 0", "writeback_limit 1", "writeback_limit 1", "writeback_limit 2", "writeback_limit 03",
           "writeback_limit 4294967296", "writeback_limit_enable 0", "writeback_limit_enable 1",
           "writeback_limit_enable 1", "writeback_limit_enable 1")
# What writes put so that pages are huge or packed in many sizes, beside the words and steps below.
KEPT = (
    "seq 0 9e3779b97f4a7c15", "seq 0 9e3779b97f4a7c15", "seq f4240 1", "seq f4240 1000000", "seq f4240 100",
    "seq 0 15000000", "seq 000f4240000f4240 0000000100000001", "fill 0",
)
# What pages are written by that a compaction is to find, so that a zspage has three cells, or seven; with the turns by
# which a compaction comes to their class.
SCATTERED = {"seq f4240 1000000": 130, "seq f4240 1": 106}
WORDS = ("0", "1", "ab", "FF", "1a2b3c4d", "ffffffffffffffff", "0000000000000001", "DeadBeef")
STEPS = ("0", "1", "ff", "100000000", "ffffffffffffffff", "9e3779b97f4a7c15")

# What pages are written by that are to be written back: huge ones and packed ones, and one in a while same-filled.
WRITTEN = ("seq 0 9e3779b97f4a7c15", "seq 0 9e3779b97f4a7c15", "seq 5 9e3779b97f4a7c15", "seq f4240 1", "seq f4240 1",
           "seq f4240 1000000", "seq 7 15000000", "fill 3")

# Words that are wrong, or wrong in most places.
STRANGE = (
    "", "x", "-1", "+1", "1.5", "0x1", "0", "00", "007", "2048", "2049", "4294967295", "4294967296",
    "18446744073709551616", "123456789012345678901234567890", "1K", "1k", "K", "4M", "1G", "1T", "262145", "0*1", "1*0",
    "*", "0*", "*1", "0*1*1", "0*16777217", "0*16777216", "63", "64", "99999999999999999", "00000000000000001", "fill",
    "seq", "hex", "mem_limit", "backing", "mem_used_max", "mm_stat", "bd_stat", "classes", "4096", "65536", "65537", "1048576M", "1048577M", "FILL", "read", "write", "discard", "compact", "run", "RUN", "actor", "disksize", "schedule", "idle", "all", "clock",
    "writeback", "huge", "huge_idle", "HUGE",
    "\x0b", "\x0c", "\xa0", "\r", "\0", "\xff", "#", "run#", "a" * 60,
)
# Whole lines that are wrong in most places.
STRANGE_LINES = (
    "run", "actor", "disksize 8K", "disksize 0", "disksize 1G1", "schedule 0", "schedule 3", "schedule", "read 0 1",
    "write 0 1 fill 1", "write 0 1 hex 00", "write 4294967296 1 hex 00", "write 0 2049 hex 00", "discard 0 8", "idle 5", "idle", "idle all 1",
    "idle alls", "idle 18446744073709551616", "clock 0", "clock 3", "clock", "clock 1K", "clock 18446744073709551616",
    "mem_limit 4K", "mem_limit", "mem_limit 1T", "mem_limit 1048577M", "mem_limit 18446744073709551616", "mm_stat",
    "backing 1", "backing 4097", "backing 0", "backing 65537", "backing 18446744073709551616", "backing 1K", "backing",
    "backing 1 1", "bd_stat", "bd_stat 0",
    "mem_used_max 0", "mem_used_max 00", "mem_used_max 1", "mem_used_max 0K", "mem_used_max",
    "io_stat", "states", "classes", "mm_stat 1", "io_stat mm_stat", "classes all", "compact", "compact 0",
    "writeback idle", "writeback huge", "writeback huge_idle", "writeback", "writeback all", "writeback idle huge",
    "writeback 5", "read 4294967295 2048", "read 0 0", "write 0 1 seq 1", "write 0 1 fill 1 2", "run run",
)


class Maker:
    """A random job in the making."""

    def __init__(self, seed: str) -> None:
        self.chance = Random(seed)
        self.sectors = 8
        self.clock = 0
        self.alike, self.kept = "seq f4240 1", [0]  # how pages were last scattered, and which are left

    def one_in(self, times: int) -> bool:
        """True once in so many times."""
        return self.chance.randrange(times) == 0

    def pages(self) -> int:
        """How many pages a disk has, mostly one to three."""
        return self.chance.randrange(1, 4) if not self.one_in(8) else self.chance.randrange(4, 40)

    def disk(self, pages: int) -> str:
        """A disk of so many pages."""
        self.sectors = 8 * pages
        bytes_ = 4096 * pages
        less = bytes_ - self.chance.randrange(4096)
        forms = (f"{4 * pages}K", f"{4 * pages}k", f"{bytes_}", f"{less}", f"0{bytes_}")
        return f"disksize {self.chance.choice(forms)}"

    def request(self) -> tuple[int, int]:
        """A first sector and a count, mostly on the disk and at edges."""
        start = self.chance.choice(EDGES) if not self.one_in(4) else self.chance.randrange(self.sectors + 2)
        count = self.chance.choice(COUNTS)
        if start + count > self.sectors and not self.one_in(6):
            start = start % self.sectors
            count = min(count, self.sectors - start)
        return start, count

    def operation(self) -> str:
        """A read, a write, a discard, a compaction, or one that marks pages or writes them back."""
        if self.one_in(12):
            return "compact"
        if self.one_in(10):
            return f"idle {self.chance.choice(AGES)}"
        if self.one_in(10):
            return self.writeback()
        start, count = self.request()
        word = self.chance.choice(("write", "write", "write", "read", "read", "discard"))
        return f"{word} {start} {count}" + (f" {self.stuff(count)}" if word == "write" else "")

    def writeback(self) -> str:
        """A writeback."""
        return f"writeback {self.chance.choice(MODES)}"

    def stuff(self, count: int) -> str:
        """What a write puts."""
        kind = self.chance.randrange(12)
        if kind == 0 and count <= 4:
            return "hex " + self.digits(count)
        if kind <= 5:
            return self.chance.choice(KEPT)
        if kind <= 7:
            return f"seq {self.chance.choice(WORDS)} {self.chance.choice(STEPS)}"
        return f"fill {self.chance.choice(WORDS)}"

    def digits(self, count: int) -> str:
        """The digits of so many sectors, in one or more words; often of a sector whose words are equal."""
        text = "".join(f"{self.chance.getrandbits(64):016x}" * (64 if self.one_in(2) else 1) for _ in range(64 * count))
        text = text[:1024 * count]
        cut = self.chance.randrange(1, len(text))
        return text if self.one_in(2) else text[:cut] + " " + text[cut:].upper()

    def schedule(self, actors: int) -> list[str]:
        """Lines of turns, which often leave an actor half way."""
        lines = []
        for _ in range(2 if self.one_in(6) else 1):
            turns = []
            for _ in range(self.chance.randrange(1, 9)):
                times = self.chance.randrange(1, 5) if not self.one_in(3) else self.chance.randrange(5, 13)
                turns.append(f"{self.chance.randrange(actors)}" + (f"*{times}" if times > 1 or self.one_in(9) else ""))
            if self.one_in(10):
                turns.insert(0, f"{self.chance.randrange(actors)}*{self.chance.randrange(20, 160)}")
            if self.one_in(20):
                turns.append(f"{self.chance.randrange(actors)}*{10 ** self.chance.randrange(7)}")
            lines.append("schedule " + " ".join(turns))
        return lines

    def phase(self) -> list[str]:
        """A phase, mostly of two or three actors."""
        if self.one_in(15):
            return ["run"]
        lines = []
        actors = 1 + self.chance.randrange(3) if not self.one_in(12) else self.chance.randrange(4, 9)
        for _ in range(actors):
            lines.append("actor")
            lines.extend(self.operation() for _ in range(self.chance.randrange(4)))
        if not self.one_in(4):
            lines.extend(self.schedule(actors))
        return lines + ["run"]

    def scattered(self) -> list[str]:
        """A phase that writes pages which are packed alike, and discards some of them: zspages are left half empty."""
        pages = range(self.sectors // 8)
        self.alike = self.chance.choice(list(SCATTERED))
        self.kept = sorted(self.chance.sample(pages, self.chance.randrange(1, len(pages))))
        lines = ["actor"] + [f"write {8 * page} 8 {self.alike}" for page in pages]
        lines += [f"discard {8 * page} 8" for page in pages if page not in self.kept]
        return lines + ["compact"] * self.one_in(6) + ["run"]

    def compacting(self) -> list[str]:
        """A phase in which one actor compacts while others are at the pages, mostly those of one class."""
        lines = ["actor", "compact"] + [self.operation() for _ in range(self.chance.randrange(3))]
        actors = self.chance.choice((1, 2, 3, 3, 4))
        for _ in range(1, actors):
            lines += ["actor"] + [self.operation() if self.one_in(4) else self.page_call() for _ in range(3)]
        if actors > 1 and not self.one_in(4):
            lines += self.meeting(actors)
        return lines + ["run"]

    def filled(self) -> list[str]:
        """A phase that writes most pages, so that they are in the pool, and marks them."""
        pages = [page for page in range(self.sectors // 8) if not self.one_in(6)]
        lines = ["actor"] + [f"write {8 * page} 8 {self.chance.choice(WRITTEN)}" for page in pages]
        return lines + ["idle all"] * (not self.one_in(6)) + ["run"]

    def writing_back(self) -> list[str]:
        """A phase in which an actor writes pages back while others are at them, by turns that stop it at its visits: a
        page takes it eight turns up to its mark, two for the device, and then eight or four."""
        lines = ["actor"] + [self.writeback() for _ in range(self.chance.choice((1, 1, 2)))]
        actors = self.chance.choice((1, 2, 2, 2, 3, 3, 4))
        for _ in range(1, actors):
            lines += ["actor"] + [self.visit() for _ in range(self.chance.randrange(1, 5))]
        if actors > 1 and not self.one_in(6):
            turns = [f"0*{self.chance.choice((3, 7, 8, 8, 8, 8, 9, 9, 10, 10, 11, 18, 26, 28))}"]
            for _ in range(self.chance.randrange(2, 16)):
                actor = self.chance.randrange(actors)
                turns.append(f"{actor}*{self.chance.choice((1, 2, 2, 4, 6, 8, 8, 10, 12))}")
            lines.append("schedule " + " ".join(turns))
        return lines + ["run"]

    def visit(self) -> str:
        """What an actor does on pages while another one writes them back: it reads, writes or discards one, marks all,
        or writes back itself."""
        if self.one_in(6):
            return f"idle {self.chance.choice(AGES)}"
        if self.one_in(5):
            return self.writeback()
        page, count = self.chance.randrange(self.sectors // 8), self.chance.choice((1, 3, 8, 8, 8))
        word = self.chance.choice(("read", "write", "write", "write", "discard"))
        count = 8 if word == "discard" else count
        return f"{word} {8 * page} {count}" + (f" {self.chance.choice(WRITTEN)}" if word == "write" else "")

    def page_call(self) -> str:
        """A read, a write or a discard of a page, mostly of one that is left. A read and a write of a part pin it."""
        page = self.chance.choice(self.kept) if not self.one_in(4) else self.chance.randrange(self.sectors // 8)
        word = self.chance.choice(("read", "read", "read", "write", "discard"))
        count = 8 if word == "discard" or self.one_in(3) else 1
        return f"{word} {8 * page} {count}" + (f" {self.alike}" if word == "write" else "")

    def meeting(self, actors: int) -> list[str]:
        """Turns by which actor 0 comes to the class of these pages, while the others begin their calls."""
        others = [f"{actor}*{self.chance.choice((2, 3, 3, 3, 3, 4, 6))}" for actor in range(1, actors)]
        own = [f"0*{SCATTERED[self.alike] + self.chance.randrange(9)}"]
        turns = others + own if not self.one_in(4) else own + others
        for _ in range(self.chance.randrange(20)):
            turns.append(f"{self.chance.randrange(actors)}*{self.chance.randrange(1, 4)}")
        return ["schedule " + " ".join(turns)]

    def threshold(self) -> list[str]:
        """A phase that packs the first page in 3,256 bytes, or makes it huge by a byte more."""
        last = ["write 5 1 seq f4240 1000000", "write 6 1 seq f4240 1", "write 7 1 seq f4240 100"]
        if self.one_in(2):
            last = ["write 5 1 seq 0 15000000", "write 6 1 seq 000f4240000f4240 0000000100000001"]
        return ["actor", "write 0 5 seq 0 9e3779b97f4a7c15"] + last + ["run"]

    def between(self) -> list[str]:
        """What stands between phases, and before the disk: limits, mostly small ones, lowered maxima, and reports."""
        lines = [f"mem_limit {self.chance.choice(LIMITS)}"] if self.one_in(3) else []
        lines += ["mem_used_max 0", "mm_stat"] if self.one_in(6) else []
        lines += [self.chance.choice(BUDGETS) for _ in range(2)] if self.one_in(4) else []
        if self.one_in(2):
            self.clock += self.chance.choice((0, 1, 1, 4, 5, 6, 10))
            lines += [f"clock {self.clock}"]
        return lines + [self.chance.choice(REPORTS) for _ in range(self.chance.randrange(4) if self.one_in(2) else 0)]

    def first(self, pages: int) -> list[str]:
        """A disk of so many pages, and before it mostly some blocks of the backing device, or several times."""
        times = self.chance.choice((0, 1, 1, 1, 2, 3))
        return [f"backing {self.chance.choice(BLOCKS)}" for _ in range(times)] + [self.disk(pages)]

    def later(self) -> list[str]:
        """What stands between phases; once in a while a second size of the disk, or a backing after it."""
        late = f"disksize {4 * self.pages()}K" if self.one_in(2) else f"backing {self.chance.choice(BLOCKS)}"
        return [late] * self.one_in(16) + self.between()

    def read_back(self) -> list[str]:
        """A phase that reads the whole of a small disk."""
        return ["actor", f"read 0 {min(self.sectors, 64)}", "run"]

    def valid(self) -> list[str]:
        """The lines of a job."""
        if self.one_in(3):
            return self.compacted()
        if self.one_in(2):
            return self.written_back()
        lines = self.between() + self.first(self.pages())
        for _ in range(self.chance.randrange(1, 4)):
            lines += self.later() + (self.threshold() if self.one_in(12) else self.phase())
        lines += self.read_back() if not self.one_in(3) else []
        return lines + (list(REPORTS) if not self.one_in(3) else [])

    def compacted(self) -> list[str]:
        """The lines of a job with compactions of pages that lie scattered, and with reports."""
        lines = self.first(self.chance.randrange(6, 25)) + self.scattered() + self.later()
        for _ in range(self.chance.randrange(2, 5)):
            lines += (self.scattered() if self.one_in(2) else []) + self.compacting() + self.later()
        return lines + self.read_back() + list(REPORTS)

    def written_back(self) -> list[str]:
        """The lines of a job with writebacks of pages to which others come meanwhile, and with reports. The backing has
        few blocks, or as many as there are pages."""
        pages = self.chance.choice((1, 1, 2, 2, 3, 4, 5, 9))
        blocks = self.chance.choice((1, max(pages - 1, 1), pages, 2 * pages))
        lines = [f"backing {blocks}", self.disk(pages)] + self.filled() + self.later()
        for _ in range(self.chance.randrange(2, 5)):
            lines += (self.filled() if self.one_in(2) else []) + self.writing_back() + self.later()
        return lines + self.read_back() + list(REPORTS)

    def dressed(self, line: str) -> str:
        """A line that says the same, with blanks, comments and the byte 0d."""
        line = line.replace(" ", self.chance.choice((" ", "\t", "  ", " \t "))) if self.one_in(4) else line
        tail = self.chance.choice(("", " ", "\t", " # schedule 0", "#", "\r", "\t\r", " # run\r"))
        line = self.chance.choice(("", " ", "\t")) + line + tail
        return line + self.chance.choice(("", "\n", "\n# actor\n \t", "\n\r"))

    def spoil(self, lines: list[str]) -> None:
        """Changes one place of a job; it may still be one."""
        place = self.chance.randrange(len(lines))
        changes: tuple[Callable[[list[str], int], None], ...] = (
            self.drop, self.repeat, self.insert, self.insert, self.replace_word, self.replace_word, self.replace_word,
            self.drop_word, self.swap, self.pass_limit)
        self.chance.choice(changes)(lines, place)

    def drop(self, lines: list[str], place: int) -> None:
        """Leaves a line out."""
        del lines[place]
        lines.append("")

    def repeat(self, lines: list[str], place: int) -> None:
        """Says a line twice."""
        lines.insert(place, lines[place])

    def insert(self, lines: list[str], place: int) -> None:
        """Puts a strange line in."""
        lines.insert(place, self.chance.choice(STRANGE_LINES))

    def replace_word(self, lines: list[str], place: int) -> None:
        """Puts a strange word in place of one."""
        words = lines[place].split(" ")
        words[min(self.chance.randrange(1, 8), len(words) - 1)] = self.chance.choice(STRANGE)
        lines[place] = " ".join(words)

    def drop_word(self, lines: list[str], place: int) -> None:
        """Leaves a word out."""
        words = lines[place].split(" ")
        del words[self.chance.randrange(len(words))]
        lines[place] = " ".join(words)

    def pass_limit(self, lines: list[str], place: int) -> None:
        """Puts lines in that come up to a limit, or pass it."""
        lines[place:place] = self.chance.choice((
            ["actor"] * 62, ["run"] * 997, ["schedule 0*16777216"], ["actor"] + ["read 0 2048"] * 128))

    def swap(self, lines: list[str], place: int) -> None:
        """Exchanges two lines."""
        other = self.chance.randrange(len(lines))
        lines[place], lines[other] = lines[other], lines[place]


def random_job(seed: str) -> bytes:
    """The job of a seed. Two in three are written as valid ones, and half of all are dressed."""
    maker = Maker(seed)
    lines = maker.valid()
    if maker.one_in(3):
        for _ in range(maker.chance.randrange(1, 3)):
            maker.spoil(lines)
    if maker.one_in(2):
        lines = [maker.dressed(line) for line in lines]
    text = "\n".join(lines) + maker.chance.choice(("\n", "\n", "\n", "", "\r", "\n\n"))
    return text.encode("latin-1")
