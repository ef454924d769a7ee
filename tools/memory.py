"""How pages are kept, by docs/PAGES.md: forms, size classes, pools, the account, the backing device. A part of the
model (tools/model.py).

  1. packing: lines, pages, and back
  2. kept forms
  3. size classes
  4. pools: zspages, objects, moves
  5. the account
  6. the blocks and the backing device

All values are plain data that no function changes: what an event puts in a value's place is a new value.
"""
from __future__ import annotations

from functools import lru_cache
from typing import NamedTuple, Optional, Tuple, Union

from language import SECTOR, SECTORS, ZEROS

FRAME = 4096  # bytes, of a page too
LINE = 64
THRESHOLD = 3256  # a page whose packing is longer is huge
CHAIN_LIMIT = 4  # frames of a zspage, at most
HEADER = 8  # bytes in front of an object
LAST_CLASS = 254  # that of huge pages, without a header
GROUPS = 11

Page = Tuple[bytes, ...]
ZERO_PAGE: Page = (ZEROS,) * SECTORS


# ---- 1. packing: lines, pages, and back

class Code(NamedTuple):
    """How a line is packed: the code's number, the bytes of a packed line, and the widths of a value and of a delta."""
    number: int
    size: int
    width: int = 0
    delta: int = 0


ZEROS_CODE, REPEATED, RAW = 0, 1, 8
# A line has the least of the codes that fit it; on a tie that of the lower number.
CODES = sorted([Code(ZEROS_CODE, 0), Code(REPEATED, 8), Code(2, 17, 8, 1), Code(3, 25, 8, 2), Code(4, 41, 8, 4),
                Code(5, 22, 4, 1), Code(6, 38, 4, 2), Code(7, 38, 2, 1), Code(RAW, LINE)],
               key=lambda code: (code.size, code.number))
BY_NUMBER = {code.number: code for code in CODES}


def signed(value: int, width: int) -> int:
    """A value of so many bytes, read as a signed number."""
    return value - 256 ** width if value >= 256 ** width // 2 else value


def values_in(data: bytes, width: int) -> list[int]:
    """Little endian values of so many bytes."""
    return [int.from_bytes(data[place:place + width], "little") for place in range(0, len(data), width)]


def payload(line: bytes, code: Code) -> Optional[bytes]:
    """A line's bytes by a code; none where the code doesn't fit. For codes with deltas they are the mask (a bit for
    each value that isn't small), the base (the first such value, or 0), and for each value its difference: that of a
    small one from 0, that of another from the base."""
    if code.number == RAW:
        return line
    if code.number == ZEROS_CODE:
        return b"" if line == bytes(LINE) else None
    if code.number == REPEATED:
        return line[:8] if line == line[:8] * 8 else None
    bound = 256 ** code.delta // 2
    values = values_in(line, code.width)
    large = [not -bound <= signed(value, code.width) < bound for value in values]
    base = next((value for value, is_large in zip(values, large) if is_large), 0)
    deltas = []
    for value, is_large in zip(values, large):
        difference = signed((value - base * is_large) % 256 ** code.width, code.width)
        if not -bound <= difference < bound:
            return None
        deltas.append((difference % 256 ** code.delta).to_bytes(code.delta, "little"))
    mask = sum(is_large << place for place, is_large in enumerate(large))
    return mask.to_bytes(len(values) // 8, "little") + base.to_bytes(code.width, "little") + b"".join(deltas)


@lru_cache(maxsize=65536)
def packed_line(line: bytes) -> tuple[int, bytes]:
    """A line's code and payload."""
    for code in CODES:
        data = payload(line, code)
        if data is not None:
            return code.number, data
    raise AssertionError("every line fits the last code")


@lru_cache(maxsize=65536)
def unpacked_line(number: int, data: bytes) -> bytes:
    """The line that has this code and payload."""
    code = BY_NUMBER[number]
    if number in (ZEROS_CODE, REPEATED, RAW):
        return {ZEROS_CODE: bytes(LINE), REPEATED: data * 8, RAW: data}[number]
    places = LINE // code.width
    mask = int.from_bytes(data[:places // 8], "little")
    base = int.from_bytes(data[places // 8:places // 8 + code.width], "little")
    deltas = values_in(data[places // 8 + code.width:], code.delta)
    values = [signed(delta, code.delta) + base * (mask >> place & 1) for place, delta in enumerate(deltas)]
    return b"".join((value % 256 ** code.width).to_bytes(code.width, "little") for value in values)


@lru_cache(maxsize=4096)
def packed(page: Page) -> bytes:
    """A page's packing: the codes of its 64 lines, two in a byte, the first in the low half, and the payloads."""
    data = b"".join(page)
    lines = [packed_line(data[place:place + LINE]) for place in range(0, FRAME, LINE)]
    codes = bytes(one[0] + 16 * other[0] for one, other in zip(lines[::2], lines[1::2]))
    return codes + b"".join(line[1] for line in lines)


@lru_cache(maxsize=4096)
def unpacked(data: bytes) -> Page:
    """The page that has this packing."""
    numbers = [number for byte in data[:FRAME // LINE // 2] for number in (byte % 16, byte // 16)]
    lines, place = [], len(numbers) // 2
    for number in numbers:
        size = BY_NUMBER[number].size
        lines.append(unpacked_line(number, data[place:place + size]))
        place += size
    return sectors_of(b"".join(lines))


def sectors_of(data: bytes) -> Page:
    """The sectors of a page's bytes."""
    return tuple(data[place:place + SECTOR] for place in range(0, FRAME, SECTOR))


# ---- 2. kept forms

class Same(NamedTuple):
    """Kept as the word that all words of the page equal."""
    word: int


class Stored(NamedTuple):
    """Kept as an object of a pool: its class, its handle, its bytes without the header, and whether it is huge."""
    number: int
    handle: int
    length: int
    is_huge: bool


class OnDevice(NamedTuple):
    """Kept in a block of the backing device."""
    block: int


Kept = Union[None, Same, Stored, OnDevice]  # none: never written, or discarded


class Pooled(NamedTuple):
    """The form of a page that is to be an object: its class, the object's bytes, and whether it is huge."""
    number: int
    data: bytes
    is_huge: bool


Form = Union[None, Same, Pooled]


@lru_cache(maxsize=4096)
def form_of(page: Page) -> Form:
    """The form in which a page that was written is kept: same-filled where it is, else packed where that is short
    enough, else huge."""
    word = page[0][:8]
    if all(sector == word * (SECTOR // 8) for sector in page):
        return Same(int.from_bytes(word, "little"))
    data = packed(page)
    if len(data) <= THRESHOLD:
        return Pooled(class_for(len(data)), data, False)
    return Pooled(LAST_CLASS, b"".join(page), True)


# ---- 3. size classes

def size_of(number: int) -> int:
    """The bytes of a cell."""
    return 32 + 16 * number


def chain_of(number: int) -> int:
    """The frames of a zspage: as many as leave the least over, and of such the fewest."""
    return min(range(1, CHAIN_LIMIT + 1), key=lambda frames: (frames * FRAME % size_of(number), frames))


def per(number: int) -> int:
    """The cells of a zspage."""
    return chain_of(number) * FRAME // size_of(number)


@lru_cache(maxsize=None)
def stands_as(number: int) -> int:
    """The class whose pool serves a class: the greatest of those after it in a row of equal chains and cells."""
    following = number + 1
    if number < LAST_CLASS and (chain_of(number), per(number)) == (chain_of(following), per(following)):
        return stands_as(following)
    return number


def class_for(length: int) -> int:
    """The class of a packing of so many bytes: the least in whose cell it fits with its header, or that for which
    this one stands."""
    return stands_as(next(number for number in range(LAST_CLASS) if length + HEADER <= size_of(number)))


# ---- 4. pools: zspages, objects, moves

class Object(NamedTuple):
    """An object in its cell: its handle, its bytes, and whether the cell is out, for who has it pinned."""
    handle: int
    data: bytes
    is_out: bool = False


class Zspage(NamedTuple):
    """A chain of frames, cut into cells; one that is free has no object."""
    id: int
    cells: Tuple[Optional[Object], ...]

    def used(self) -> int:
        """How many of its cells have an object."""
        return sum(cell is not None for cell in self.cells)

    def lowest_home(self) -> Optional[int]:
        """The lowest place of an object whose cell isn't out; none where it has no such object."""
        return next((place for place, cell in enumerate(self.cells) if cell is not None and not cell.is_out), None)

    def with_cell(self, place: int, cell: Optional[Object]) -> Zspage:
        """The zspage with another cell at a place."""
        return self._replace(cells=self.cells[:place] + (cell,) + self.cells[place + 1:])


def least_without(numbers: set[int]) -> int:
    """The least number that isn't among these."""
    return next(number for number in range(len(numbers) + 1) if number not in numbers)


class Pool(NamedTuple):
    """The pool of a class, with its zspages by rising ids."""
    number: int
    zspages: Tuple[Zspage, ...] = ()

    def frames(self) -> int:
        """The frames of its zspages."""
        return chain_of(self.number) * len(self.zspages)

    def need(self) -> int:
        """The frames that one more object needs."""
        has_room = any(zspage.used() < per(self.number) for zspage in self.zspages)
        return 0 if has_room else chain_of(self.number)

    def objects(self) -> dict[int, Object]:
        """The live objects by their handles."""
        return {cell.handle: cell for zspage in self.zspages for cell in zspage.cells if cell is not None}

    def put(self, zspage: Zspage) -> Pool:
        """The pool with this zspage in place of the one of its id; without it, where no cell of it is used."""
        others = [other for other in self.zspages if other.id != zspage.id]
        return self._replace(zspages=tuple(sorted(others + [zspage] * (zspage.used() > 0))))

    def stored(self, data: bytes) -> tuple[Pool, int]:
        """The pool with one more object, and its handle. It goes into the fullest zspage that has room, on a tie that
        of the least id, and into the lowest free cell there; where none has room, into a new zspage, of the least id
        that is free. Which handle it gets is left open; here it is the least that is free."""
        cells = per(self.number)
        rooms = [zspage for zspage in self.zspages if zspage.used() < cells]
        zspage = min(rooms, key=lambda room: (-room.used(), room.id), default=None)
        if zspage is None:
            zspage = Zspage(least_without({other.id for other in self.zspages}), (None,) * cells)
        handle = least_without(set(self.objects()))
        return self.put(zspage.with_cell(zspage.cells.index(None), Object(handle, data))), handle

    def with_object(self, handle: int, cell: Optional[Object]) -> Pool:
        """The pool with another cell in place of that of an object. Without locks the object may not be there."""
        for zspage in self.zspages:
            for place, there in enumerate(zspage.cells):
                if there is not None and there.handle == handle:
                    return self.put(zspage.with_cell(place, cell))
        return self

    def lent(self, handle: int, is_out: bool) -> Pool:
        """The pool with an object's cell out, or at home again."""
        there = self.objects().get(handle)
        return self if there is None else self.with_object(handle, there._replace(is_out=is_out))

    def freed(self, handle: int) -> tuple[Pool, int]:
        """The pool without an object, and the frames that are free by it: those of a zspage whose last one it was."""
        pool = self.with_object(handle, None)
        return pool, self.frames() - pool.frames()

    def plan(self) -> Optional[tuple[Zspage, Zspage]]:
        """Between which zspages a compaction moves an object: from the emptiest of those with a free cell and an object
        at home, on a tie that of the greatest id, to the fullest with a free cell, on a tie that of the least id. None
        where there aren't two such."""
        partial = [zspage for zspage in self.zspages if zspage.used() < per(self.number)]
        target = min(partial, key=lambda zspage: (-zspage.used(), zspage.id), default=None)
        sources = [zspage for zspage in partial if zspage != target and zspage.lowest_home() is not None]
        source = min(sources, key=lambda zspage: (zspage.used(), -zspage.id), default=None)
        return (source, target) if source is not None and target is not None else None

    def moved(self) -> Optional[tuple[Pool, int]]:
        """The pool after a move by the plan, and the frames that are free by it; none where there is no plan. The
        lowest object at home goes into the lowest free cell, with its handle."""
        plan = self.plan()
        if plan is None:
            return None
        source, target = plan
        place = source.lowest_home()
        assert place is not None
        pool = self.put(target.with_cell(target.cells.index(None), source.cells[place]))
        pool = pool.put(source.with_cell(place, None))
        return pool, self.frames() - pool.frames()

    def is_tight(self) -> bool:
        """Whether at most one zspage has a free cell."""
        return sum(zspage.used() < per(self.number) for zspage in self.zspages) <= 1

    def page(self, kept: Stored) -> Page:
        """The page that is kept as an object. Without locks the object may not be there."""
        there = self.objects().get(kept.handle)
        if there is None:
            return ZERO_PAGE
        return sectors_of(there.data) if kept.is_huge else unpacked(there.data)

    def groups(self) -> list[int]:
        """How many zspages are of each fullness group: 1 to 10 by tenths of the used cells, 11 where all are used."""
        counts = [0] * GROUPS
        for zspage in self.zspages:
            used = zspage.used()
            group = GROUPS if used == per(self.number) else 100 * used // per(self.number) // 10 + 1
            counts[group - 1] += 1
        return counts


# ---- 5. the account

class Account(NamedTuple):
    """The frames charged, the limit, their greatest number since it was lowered, and the counters. The first four of these
    are of the pages as they are, the others of what has happened."""
    frames: int = 0
    limit: int = 0
    most: int = 0
    pages: int = 0
    bytes: int = 0
    same: int = 0
    huge: int = 0
    huge_since: int = 0
    compacted: int = 0
    failed_reads: int = 0
    failed_writes: int = 0
    invalid_io: int = 0
    notify_free: int = 0

    def is_past_limit(self, need: int) -> bool:
        """Whether a charge of so many frames is refused."""
        return 0 < self.limit < self.frames + need

    def charged(self, need: int) -> Account:
        """With so many frames more."""
        frames = self.frames + need
        return self._replace(frames=frames, most=max(self.most, frames))

    def lowered(self) -> Account:
        """With the frames that are charged as their greatest number."""
        return self._replace(most=self.frames)

    def counted(self, counter: str, by: int = 1) -> Account:
        """With a counter raised."""
        return self._replace(**{counter: getattr(self, counter) + by})

    def with_page(self, kept: Kept, by: int = 1) -> Account:
        """With a page more in the counters of pages as they are; by -1, with one less."""
        account = self.counted("pages", by * (kept is not None)).counted("same", by * isinstance(kept, Same))
        if isinstance(kept, Stored):
            account = account.counted("bytes", by * kept.length).counted("huge", by * kept.is_huge)
        return account

    def mm_stat(self) -> list[int]:
        """The fields of `mm_stat`."""
        return [FRAME * self.pages, self.bytes, FRAME * self.frames, FRAME * self.limit, FRAME * self.most, self.same,
                self.compacted, self.huge, self.huge_since]

    def io_stat(self) -> list[int]:
        """The fields of `io_stat`."""
        return [self.failed_reads, self.failed_writes, self.invalid_io, self.notify_free]


# ---- 6. the blocks and the backing device

FREE, HELD, OWNED = "free", "held", "owned"  # a block may be held by a writeback, or owned by a page


class Blocks(NamedTuple):
    """The blocks of the backing device that are used, each with its state: without any, the disk has no backing. And
    the limit on writes to the device: whether it acts, and how many more it allows."""
    states: Tuple[str, ...] = ()
    has_limit: bool = False
    budget: int = 0

    def with_blocks(self, number: int) -> Blocks:
        """With so many blocks, all free; the limit on writes stays."""
        return self._replace(states=(FREE,) * number)

    def is_spent(self) -> bool:
        """Whether the limit on writes allows no other one."""
        return self.has_limit and self.budget == 0

    def least_free(self) -> Optional[int]:
        """The least block that is free; none where none is."""
        return self.states.index(FREE) if FREE in self.states else None

    def reserved(self, block: int) -> Blocks:
        """With a free block held: that is one write more, of which no limit gives any back."""
        return self.with_state(block, HELD)._replace(budget=self.budget - self.has_limit)

    def with_state(self, block: int, state: str) -> Blocks:
        """With another state of a block."""
        return self._replace(states=self.states[:block] + (state,) + self.states[block + 1:])


class Device(NamedTuple):
    """The backing device: the pages in its blocks up to the last one that was written, how many reads and writes
    succeeded, how many calls failed, and which of the following reads and writes will fail, by their numbers from 1."""
    pages: Tuple[Page, ...] = ()
    reads: int = 0
    writes: int = 0
    faults: int = 0
    bad_reads: Tuple[int, ...] = ()
    bad_writes: Tuple[int, ...] = ()

    def page(self, block: int) -> Page:
        """The page in a block."""
        return self.pages[block] if block < len(self.pages) else ZERO_PAGE

    def read(self) -> tuple[Device, bool]:
        """The device after a read, and whether it succeeded."""
        is_bad, later = called(self.bad_reads)
        return self._replace(bad_reads=later, reads=self.reads + 1 - is_bad, faults=self.faults + is_bad), not is_bad

    def written(self, block: int, page: Page) -> tuple[Device, bool]:
        """The device after a write, and whether it succeeded. What a block has after a write that failed is left open;
        here it is bytes ff."""
        is_bad, later = called(self.bad_writes)
        pages = self.pages + (ZERO_PAGE,) * (block + 1 - len(self.pages))
        put = (b"\xff" * SECTOR,) * SECTORS if is_bad else page
        device = self._replace(bad_writes=later, pages=pages[:block] + (put,) + pages[block + 1:])
        return device._replace(writes=self.writes + 1 - is_bad, faults=self.faults + is_bad), not is_bad


def called(bad: Tuple[int, ...]) -> tuple[bool, Tuple[int, ...]]:
    """Whether the next call is one of those that fail, and those that fail after it, counted from there."""
    return 1 in bad, tuple(number - 1 for number in bad if number > 1)
