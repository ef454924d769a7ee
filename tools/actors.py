"""The actors of a phase and the locks of the disk, by docs/MACHINE.md. A part of the model (tools/model.py).

  1. pieces of requests
  2. locks, and what they guard
  3. actors

To grow it: a kind of lock is a value of the row, which no function changes in its place.
"""
from __future__ import annotations

from dataclasses import dataclass, field
from typing import Callable, Dict, Iterator, NamedTuple, Optional, Tuple, Union

from language import SECTORS, Op, fill_sector
from memory import (ZERO_PAGE, Account, Blocks, Device, Form, Kept, OnDevice, Page, Pool, Pooled, Same, Stored, form_of)


# ---- 1. pieces of requests

class Tag(NamedTuple):
    """An operation by its actor and its number there."""
    actor: int
    op: int

    def __str__(self) -> str:
        return f"{self.actor}:{self.op}"


NO_PAGE = -1
OVER = "over"  # the stage of a piece that has no event left


class Piece(NamedTuple):
    """What an operation has on one page: sectors `first` to `first + count - 1` of it. A request beyond the disk and
    what is no request have one piece, on no page."""
    tag: Tag
    op: Op
    page: int
    first: int
    count: int
    is_beyond: bool = False

    def has_page(self) -> bool:
        """Whether it is on a page."""
        return self.page != NO_PAGE

    def is_compaction(self) -> bool:
        """Whether it is a compaction's."""
        return self.op.word == "compact"

    def is_scan(self) -> bool:
        """Whether it marks pages."""
        return self.op.word == "idle"

    def is_writeback(self) -> bool:
        """Whether it writes pages back."""
        return self.op.word == "writeback"

    def is_whole(self) -> bool:
        """Whether it has all sectors of its page."""
        return self.count == SECTORS

    def before(self) -> int:
        """How many pieces of its request come before it."""
        return self.page - self.op.pages()[0]

    def copied_from(self, page: Page) -> list[bytes]:
        """Its sectors of a page."""
        return list(page[self.first:self.first + self.count])

    def put_on(self, page: Page) -> Page:
        """The page with its sectors put: those of a write, or the zeros of a discard."""
        index = self.page * SECTORS + self.first - self.op.start
        put = tuple(self.op.sector(index + k) for k in range(self.count))
        return page[:self.first] + put + page[self.first + self.count:]


def pieces_of(tag: Tag, op: Op, pages: int, is_backed: bool) -> Iterator[Piece]:
    """The pieces of an operation on a disk of so many pages. A discard has one on each page that it has whole; a
    writeback has none where the disk has no backing."""
    is_beyond = op.start + op.count > pages * SECTORS
    if is_beyond or not op.is_request():
        if op.word != "writeback" or is_backed:
            yield Piece(tag, op, NO_PAGE, 0, 0, is_beyond)
        return
    for page in op.pages():
        first = max(op.start - page * SECTORS, 0)
        piece = Piece(tag, op, page, first, min(op.start + op.count - page * SECTORS, SECTORS) - first)
        if op.word != "discard" or piece.is_whole():
            yield piece


# ---- 2. locks, and what they guard

class Lock(NamedTuple):
    """A lock of the row: a page's slot, a class, the account, the blocks, or the device."""
    kind: str
    number: int = 0

    def __str__(self) -> str:
        return f"{self.kind} {self.number}" if self.kind in ("slot", "class") else f"the {self.kind}"


class Entry(NamedTuple):
    """What a slot guards: the kept form of a page, the page's order in this phase, when a call last came to it, whether
    it is marked idle, and the block of the writeback that has marked it."""
    kept: Kept = None
    order: Tuple[Tag, ...] = ()
    touched: int = 0
    is_idle: bool = False
    under: Optional[int] = None

    def noted(self, tag: Tag, kept: Kept, clock: int) -> Entry:
        """The entry after a call, which removes both marks."""
        return Entry(kept, self.order + (tag,), clock)

    def may_mark(self, clock: int, age: Optional[int]) -> bool:
        """Whether it may be marked idle: its page is in the pool and isn't under writeback, and the last call came more
        than `age` seconds ago."""
        may = isinstance(self.kept, Stored) and self.under is None
        return may and (age is None or clock - self.touched > age)

    def is_eligible(self, mode: str) -> bool:
        """Whether a writeback of this mode takes its page: it is in the pool, isn't under writeback, and is idle, huge,
        or both."""
        if not isinstance(self.kept, Stored) or self.under is not None:
            return False
        return {"idle": self.is_idle, "huge": self.kept.is_huge, "huge_idle": self.kept.is_huge and self.is_idle}[mode]

    def letters(self) -> str:
        """How its page is printed."""
        is_huge = isinstance(self.kept, Stored) and self.kept.is_huge
        marks = ((isinstance(self.kept, Same), "s"), (isinstance(self.kept, OnDevice), "w"), (is_huge, "h"),
                 (self.is_idle, "i"))
        return "".join(letter if mark else "." for mark, letter in marks)


Value = Union[Entry, Pool, Account, Blocks, Device]
Row = Dict[Lock, Value]  # what each lock guards; one that isn't there guards what it did at first
ACCOUNT, BLOCKS, DEVICE = Lock("account"), Lock("blocks"), Lock("device")
FIRST: Dict[str, Callable[[int], Value]] = {
    "slot": lambda number: Entry(),
    "class": Pool,
    "account": lambda number: Account(),
    "blocks": lambda number: Blocks(),
    "device": lambda number: Device(),
}


def value_at(row: Row, lock: Lock) -> Value:
    """What a lock guards."""
    return row[lock] if lock in row else FIRST[lock.kind](lock.number)


def entry_at(row: Row, page: int) -> Entry:
    """The entry of a page."""
    entry = value_at(row, Lock("slot", page))
    assert isinstance(entry, Entry)
    return entry


def account_at(row: Row) -> Account:
    """The account."""
    account = value_at(row, ACCOUNT)
    assert isinstance(account, Account)
    return account


def blocks_at(row: Row) -> Blocks:
    """The blocks."""
    blocks = value_at(row, BLOCKS)
    assert isinstance(blocks, Blocks)
    return blocks


def device_at(row: Row) -> Device:
    """The device."""
    device = value_at(row, DEVICE)
    assert isinstance(device, Device)
    return device


def plain_page(kept: Kept) -> Page:
    """The page of an entry without an object and without a block. That of an object is read from its cell, that of a
    block from the device, and both are taken as zeros here: a write of a whole page doesn't look at it."""
    return (fill_sector(kept.word),) * SECTORS if isinstance(kept, Same) else ZERO_PAGE


# ---- 3. actors

class Compaction(NamedTuple):
    """Where a compaction stands: the class that it is at, how many objects it may still move there (none before it has
    given the class for the first time), how many it has moved so far, and the frames that it has given back."""
    number: int = 0
    budget: Optional[int] = None
    moves: int = 0
    frames: int = 0


class Scan(NamedTuple):
    """Where a scan that marks pages stands: the page that it is at, and how many marks are new so far."""
    page: int = 0
    marked: int = 0


class Trip(NamedTuple):
    """Where a writeback stands: the page that it visits, how many pages it has left on the device so far and how many
    it has written in vain, and the block that it has reserved."""
    page: int = 0
    wrote: int = 0
    lost: int = 0
    block: Optional[int] = None

    def numbers(self) -> str:
        """How a writeback's end tells them."""
        return f"wrote {self.wrote} lost {self.lost}"


class Carried(NamedTuple):
    """What an actor carries from stage to stage of a piece: the page that it has read from a cell or from the device,
    its new object, the frames that it has freed and not yet given back, the refusal that ends the piece, where its
    compaction stands, where its scan does, and where its writeback does."""
    page: Optional[Page] = None
    made: Optional[Stored] = None
    owed: int = 0
    refusal: str = ""
    compaction: Compaction = Compaction()
    scan: Scan = Scan()
    trip: Trip = Trip()


@dataclass
class Local:
    """An actor: its operations and pieces, how each operation has ended and which sectors it has read; which piece it
    is at, in which stage, the values that it holds by the kind of their lock, and what it carries; the pages of the
    disk, and the time of its phase."""
    ops: list[Op]
    todo: list[Piece]
    ends: list[str]
    reads: list[list[bytes]]
    at: int = 0
    stage: str = "Start"
    held: Dict[str, Value] = field(default_factory=dict)
    carried: Carried = Carried()
    pages: int = 0
    clock: int = 0

    def piece(self) -> Optional[Piece]:
        """The piece that it is at; none where the actor is finished."""
        return self.todo[self.at] if self.at < len(self.todo) else None

    def entry(self) -> Entry:
        """The entry that it holds."""
        entry = self.held["slot"]
        assert isinstance(entry, Entry)
        return entry

    def old(self) -> Stored:
        """The object that the entry in its hand names."""
        kept = self.entry().kept
        assert isinstance(kept, Stored)
        return kept

    def old_block(self) -> int:
        """The block that the entry in its hand names."""
        kept = self.entry().kept
        assert isinstance(kept, OnDevice)
        return kept.block

    def own_block(self) -> int:
        """The block that its writeback has reserved."""
        block = self.carried.trip.block
        assert block is not None
        return block

    def seen(self) -> Page:
        """The page as it was, as far as the piece has to know it."""
        return plain_page(self.entry().kept) if self.carried.page is None else self.carried.page

    def form(self, piece: Piece) -> Form:
        """The form in which the page has to be kept after the piece, a write or a discard."""
        return None if piece.op.word == "discard" else form_of(piece.put_on(self.seen()))

    def pooled(self, piece: Piece) -> Pooled:
        """The same, where that is an object."""
        form = self.form(piece)
        assert isinstance(form, Pooled)
        return form

    def next_kept(self, piece: Piece) -> Kept:
        """What the piece will put into its entry."""
        form = self.form(piece)
        return self.carried.made if isinstance(form, Pooled) else form

    def carry(self, **what: object) -> None:
        """Carries something on."""
        self.carried = self.carried._replace(**what)

    def enter(self, stage: str) -> None:
        """Its next stage; where that is OVER, the start of the next piece. An operation that was refused is over."""
        if stage == OVER:
            tag = self.todo[self.at].tag
            self.at, stage, self.carried = self.at + 1, "Start", Carried()
            while self.ends[tag.op] != "ok" and self.at < len(self.todo) and self.todo[self.at].tag == tag:
                self.at += 1
        self.stage = stage


def new_local(actor: int, ops: list[Op], pages: int, clock: int, is_backed: bool) -> Local:
    """An actor before its first turn. A writeback without a backing has ended already."""
    todo = [piece for nr, op in enumerate(ops) for piece in pieces_of(Tag(actor, nr), op, pages, is_backed)]
    ends = ["ok" if op.word != "writeback" or is_backed else "nobacking" for op in ops]
    return Local(ops, todo, ends, [[] for _ in ops], pages=pages, clock=clock)
