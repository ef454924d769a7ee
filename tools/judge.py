"""The plain disk: what an output promises, judged without the machine. A part of the model (tools/model.py).

  1. pages and their orders
  2. the account and the pools, by the pages and by the ends of operations
  3. compactions
  4. the backing device
  5. marks and writebacks
"""
from __future__ import annotations

from collections import Counter
from itertools import groupby
from typing import Iterable, Iterator, Optional, Tuple

from actors import (Entry, Local, Lock, Piece, Row, Tag, account_at, blocks_at, device_at, entry_at, plain_page,
                    value_at)
from memory import CHAIN_LIMIT, FREE, OWNED, Account, Form, Kept, OnDevice, Page, Pool, Pooled, Stored, form_of, per
from model import Machine, is_compacted, sector_text


def breaches(machine: Machine) -> Iterator[str]:
    """Where a phase that has been run breaks what an output promises: of its pages and their marks, and of its
    reports."""
    yield from page_breaches(machine)
    yield from mark_breaches(machine)
    yield from report_breaches(machine)
    yield from compaction_breaches(machine)
    yield from device_breaches(machine)


# ---- 1. pages and their orders

def page_in(row: Row, kept: Kept) -> Page:
    """The page that is kept in a form."""
    if isinstance(kept, OnDevice):
        return device_at(row).page(kept.block)
    if not isinstance(kept, Stored):
        return plain_page(kept)
    pool = value_at(row, Lock("class", kept.number))
    assert isinstance(pool, Pool)
    return pool.page(kept)


def replayed(order: Iterable[Tag], page: Page, pieces: dict[Tag, Piece]) -> tuple[Page, dict[Tag, list[bytes]]]:
    """What the calls of an order leave on a page, and what each read among them has to print."""
    prints = {}
    for tag in order:
        piece = pieces[tag]
        if piece.op.word == "read":
            prints[tag] = piece.copied_from(page)
        else:
            page = piece.put_on(page)
    return page, prints


def printed_by(machine: Machine) -> dict[tuple[int, Tag], list[bytes]]:
    """The sectors that each read prints of each page."""
    prints = {}
    for local in machine.locals:
        taken = [0] * len(local.ops)
        for piece in local.todo:
            if piece.op.word == "read":
                begin = taken[piece.tag.op]
                taken[piece.tag.op] += piece.count
                prints[piece.page, piece.tag] = local.reads[piece.tag.op][begin:begin + piece.count]
    return prints


def carried_out(local: Local) -> Iterator[Piece]:
    """The pieces of an actor that stand in orders: all of an operation that ended `ok`, the first ones of a request
    that ended at the limit or by the device, with the one of a read by which it ended, and none of a request beyond the
    disk or of what is no request."""
    for piece in local.todo:
        end = local.ends[piece.tag.op].split()
        if end[0] == "ok" or end[-2:-1] == ["done"] and piece.before() < int(end[-1]) or has_failed(local, piece):
            yield piece


def has_failed(local: Local, piece: Piece) -> bool:
    """Whether it is the piece of a read whose page couldn't be read from the device: it stands in its page's order, and
    prints nothing."""
    end = local.ends[piece.tag.op].split()
    return piece.op.word == "read" and end[0] == "eio" and piece.before() == int(end[-1])


def page_breaches(machine: Machine) -> Iterator[str]:
    """Where an order doesn't list its page's calls, each actor's in turn; a read doesn't print what the calls before it
    left; a page doesn't hold what all of them leave, or isn't in its form."""
    pieces: dict[int, dict[Tag, Piece]] = {page: {} for page in shown_pages(machine)}
    for local in machine.locals:
        for piece in carried_out(local):
            pieces[piece.page][piece.tag] = piece
    prints = printed_by(machine)
    for page in pieces:
        entry, before = machine.entry(page), entry_at(machine.before, page)
        yield from order_breaches(page, entry.order, list(pieces[page]))
        left, wanted = replayed(entry.order, page_in(machine.before, before.kept), pieces[page])
        for tag, sectors in wanted.items():
            what, piece = f"the read {tag} of page {page}", pieces[page][tag]
            if not has_failed(machine.locals[tag.actor], piece):
                yield from differences(what, piece.first, prints[page, tag], sectors)
        there = page_in(machine.row, entry.kept)
        yield from differences(f"page {page} at the end", 0, list(there), list(left))
        changes = [pieces[page][tag].op.word for tag in entry.order if pieces[page][tag].op.word != "read"]
        is_blank = changes[-1] == "discard" if changes else before.kept is None
        if not has_form(entry.kept, None if is_blank else form_of(there)):
            yield f"page {page} at the end: it is kept in another form than its bytes ask for"
        yield from place_breaches(machine, page, bool(changes))


def shown_pages(machine: Machine) -> list[int]:
    """The pages of the disk that a call of the phase may come to, and those that aren't empty."""
    kept = {page for page in range(machine.pages) if entry_at(machine.before, page).kept or machine.entry(page).kept}
    return sorted(kept.union(machine.called))


def place_breaches(machine: Machine, page: int, is_changed: bool) -> Iterator[str]:
    """Where a page isn't on the device that was there and has no write or discard; or is there, and nothing was written
    back."""
    was, now = (isinstance(entry.kept, OnDevice) for entry in (entry_at(machine.before, page), machine.entry(page)))
    stays = was and not is_changed
    if stays and not now:
        yield f"page {page} was on the device and had no write or discard, and isn't there"
    if now and not stays and not may_write(machine):
        yield f"page {page} is on the device, and nothing was written back"


def may_write(machine: Machine) -> bool:
    """Whether pages may be written back: the disk has a backing, and some operation writes back."""
    writes = any(op.word == "writeback" for local in machine.locals for op in local.ops)
    return writes and bool(blocks_at(machine.row).states)


def order_breaches(page: int, order: Tuple[Tag, ...], calls: list[Tag]) -> Iterator[str]:
    """Where an order doesn't list the calls on its page, each once and each actor's in turn."""
    if sorted(order) != sorted(calls):
        yield f"page {page}: the order doesn't list its calls, each once"
    if sorted(order, key=lambda tag: tag.actor) != sorted(order):
        yield f"page {page}: the order doesn't list each actor's calls in turn"


def differences(what: str, first: int, got: list[bytes], wanted: list[bytes]) -> Iterator[str]:
    """The sectors of a page that aren't as an order wants them, those in a row that are equal as one."""
    for (is_so, should), places in groupby(range(len(got)), lambda place: (got[place], wanted[place])):
        if is_so != should:
            those = [first + place for place in places]
            yield f"{what}: {span(those)} {short(is_so)}, but the order says {short(should)}"


def span(places: list[int]) -> str:
    """Sectors in a row, in words."""
    return f"sector {places[0]} is" if len(places) == 1 else f"sectors {places[0]} to {places[-1]} are"


def short(sector: bytes) -> str:
    """A sector in few letters: its text without the zeros in front of a word, or its first bytes."""
    kind, text = sector_text(sector).split()
    return f"{kind} {text.lstrip('0') or '0'}" if kind == "fill" else f"{kind} {text[:16]}.."


def has_form(kept: Kept, form: Form) -> bool:
    """Whether what is kept has a form. A page that is on the device has one of the pool, as its block shows."""
    if isinstance(form, Pooled):
        if isinstance(kept, OnDevice):
            return True
        return isinstance(kept, Stored) and kept[0] == form.number and kept[2:] == (len(form.data), form.is_huge)
    return kept == form


# ---- 2. the account and the pools

def report_breaches(machine: Machine) -> Iterator[str]:
    """Where the account and the pools aren't those of the pages, and of what the phase's calls and ends say."""
    account, before = account_at(machine.row), account_at(machine.before)
    kept = [value.kept for value in machine.row.values() if isinstance(value, Entry)]
    pools = pools_of(machine.row)
    wanted = Account()
    for each in kept:
        wanted = wanted.with_page(each)
    for name in ("pages", "bytes", "same", "huge"):
        yield from unequal(f"the account's {name}", getattr(account, name), getattr(wanted, name))
    yield from unequal("the account's frames", account.frames, sum(pool.frames() for pool in pools))
    owned = Counter((each.number, each.handle) for each in kept if isinstance(each, Stored))
    objects = Counter((pool.number, handle) for pool in pools for handle in pool.objects())
    yield from unequal("the objects that no page has", len(objects - owned), 0)
    yield from unequal("the pages whose object isn't their own", sum((owned - objects).values()), 0)
    yield from unequal("the cells that are out", sum(one.is_out for pool in pools for one in pool.objects().values()), 0)
    ends = [(op.word, end.split()[0]) for local in machine.locals for op, end in zip(local.ops, local.ends)]
    failed = ends.count(("write", "limit")) + ends.count(("write", "eio"))
    yield from unequal("the failed reads", account.failed_reads, before.failed_reads + ends.count(("read", "eio")))
    yield from unequal("the failed writes", account.failed_writes, before.failed_writes + failed)
    beyond = sum(end == "range" for _, end in ends)
    yield from unequal("the requests beyond the disk", account.invalid_io, before.invalid_io + beyond)
    told = sum(frames for _, frames in compactions_in(machine))
    yield from unequal("the frames that compactions freed", account.compacted, before.compacted + told)
    if account.most < account.frames or 0 < account.limit < account.most != before.most:
        yield f"the account's greatest number of frames is {account.most}, at {account.frames} frames and its limit"


def pools_of(row: Row) -> list[Pool]:
    """The pools."""
    return [value for value in row.values() if isinstance(value, Pool)]


def compactions_in(machine: Machine) -> list[tuple[int, int]]:
    """The moves and the frames of the compactions that have ended."""
    return [moves_and_frames(end) for local in machine.locals for end in local.ends if is_compacted(end)]


def moves_and_frames(end: str) -> tuple[int, int]:
    """The numbers of a compaction's end."""
    _, moves, frames = end.split()
    return int(moves), int(frames)


def unequal(what: str, got: int, wanted: int) -> Iterator[str]:
    """A number that isn't as it should be."""
    if got != wanted:
        yield f"{what}: {got}, and not {wanted}"


# ---- 3. compactions

def compaction_breaches(machine: Machine) -> Iterator[str]:
    """Where a compaction has freed more frames than its moves can; and where those of a phase's only actor do less or
    more than they have to."""
    for moves, frames in compactions_in(machine):
        if frames > CHAIN_LIMIT * moves:
            yield f"a compaction of {moves} moves has freed {frames} frames, more than {CHAIN_LIMIT} with each"
    if len(machine.locals) == 1:
        yield from lone_breaches(machine, machine.locals[0])


def lone_breaches(machine: Machine, local: Local) -> Iterator[str]:
    """Where a phase's only actor leaves more zspages than it has to after its last compaction, if no write or discard
    follows it; where that has moved more objects than there are; and where one moves what was compacted already."""
    tight, moves = are_tight(machine.before), 0
    for op, end in zip(local.ops, local.ends):
        if is_compacted(end):
            if tight and end != "compacted 0 0":
                yield f"a compaction after another: {end}"
            tight, moves = True, max(moves, moves_and_frames(end)[0])
        elif op.word != "read":
            tight, moves = False, 0
    pools = pools_of(machine.row)
    if tight:
        for pool in pools:
            least = -(-len(pool.objects()) // per(pool.number))
            yield from unequal(f"the zspages of class {pool.number}", len(pool.zspages), least)
    if moves > sum(len(pool.objects()) for pool in pools):
        yield f"a compaction has moved {moves} objects, and there are fewer"


def are_tight(row: Row) -> bool:
    """Whether each class has at most one zspage with a free cell."""
    return all(pool.is_tight() for pool in pools_of(row))


# ---- 4. the backing device

def device_breaches(machine: Machine) -> Iterator[str]:
    """Where the blocks that are taken aren't those of the pages, each of one; or the device was written or read more
    often than the operations tell, or failed more often; or more pages are new there than were written back."""
    blocks = Counter(entry.kept.block for _, entry in entries_of(machine) if isinstance(entry.kept, OnDevice))
    states = blocks_at(machine.row).states
    owned = [block for block, state in enumerate(states) if state == OWNED]
    yield from unequal("the blocks that aren't a page's own", sum((Counter(owned) - blocks).values()), 0)
    yield from unequal("the pages that have no block of their own", sum((blocks - Counter(owned)).values()), 0)
    yield from unequal("the blocks that are held", len(states) - states.count(FREE) - states.count(OWNED), 0)
    yield from unequal("the pages under writeback", sum(entry.under is not None for _, entry in entries_of(machine)), 0)
    told = [trip_of(end) for local in machine.locals for end in local.ends if trip_of(end)]
    device, before = device_at(machine.row), device_at(machine.before)
    yield from unequal("the writes of the device", device.writes, before.writes + sum(map(sum, told)))
    failed = [end for local in machine.locals for end in local.ends if end.startswith("eio ")]
    yield from unequal("the calls of the device that failed", device.faults, before.faults + len(failed))
    if device.reads > before.reads + most_reads(machine):
        yield f"the device was read {device.reads - before.reads} times, more often than there were reads and writes"
    new = [page for page, entry in entries_of(machine) if is_new_there(machine, page, entry)]
    if len(new) > sum(wrote for wrote, _ in told):
        yield f"{len(new)} pages are new on the device, and fewer were written back"


def entries_of(machine: Machine) -> list[tuple[int, Entry]]:
    """The pages with their entries."""
    return [(lock.number, value) for lock, value in machine.row.items() if isinstance(value, Entry)]


def trip_of(end: str) -> tuple[int, ...]:
    """How many pages a writeback has left on the device and how many it has written in vain; nothing of another end."""
    words = end.split()
    return (int(words[-3]), int(words[-1])) if words[-2:-1] == ["lost"] else ()


def most_reads(machine: Machine) -> int:
    """The most reads of the device: one for each read and write in an order, and for each write that was refused at the
    limit."""
    calls = [piece for local in machine.locals for piece in carried_out(local) if piece.op.word != "discard"]
    return len(calls) + sum(end.startswith("limit ") for local in machine.locals for end in local.ends)


def is_new_there(machine: Machine, page: int, entry: Entry) -> bool:
    """Whether a page is on the device and wasn't, or was changed since."""
    if not isinstance(entry.kept, OnDevice):
        return False
    words = {tag: piece.op.word for local in machine.locals for piece in local.todo if piece.page == page
             for tag in [piece.tag]}
    has_reads = all(words[tag] == "read" for tag in entry.order)
    return not (isinstance(entry_at(machine.before, page).kept, OnDevice) and has_reads)


# ---- 5. marks and writebacks

def mark_breaches(machine: Machine) -> Iterator[str]:
    """Where a page is idle that isn't in the pool, or one that was idle, had no call and isn't on the device isn't;
    where without an operation that marks another page is idle; and where the operations of a phase's only actor mark,
    count or write back other pages than they have to."""
    marks = any(op.word == "idle" for local in machine.locals for op in local.ops)
    for page in range(machine.pages):
        entry, before = machine.entry(page), entry_at(machine.before, page)
        has_call = page in machine.called and entry.order
        if entry.is_idle and not isinstance(entry.kept, Stored):
            yield f"page {page} is idle and isn't in the pool"
        if before.is_idle and not has_call and not entry.is_idle and not isinstance(entry.kept, OnDevice):
            yield f"page {page} was idle and had no call, and isn't idle any more"
        if not marks and entry.is_idle and (has_call or not before.is_idle):
            yield f"page {page} is idle, and no operation marks"
    if len(machine.locals) == 1:
        yield from Lone(machine).breaches()


class Lone:
    """The pages of a phase's only actor, operation by operation: the bytes of each, whether it is blank, when it was
    touched, whether it is idle, and whether it is on the device."""

    def __init__(self, machine: Machine) -> None:
        self.machine, self.local = machine, machine.locals[0]
        before = {page: entry_at(machine.before, page) for page in range(machine.pages)}
        self.bytes = {page: page_in(machine.before, entry.kept) for page, entry in before.items()}
        self.blank = {page: entry.kept is None for page, entry in before.items()}
        self.touched = {page: entry.touched for page, entry in before.items()}
        self.idle = {page: entry.is_idle for page, entry in before.items()}
        self.back = {page: isinstance(entry.kept, OnDevice) for page, entry in before.items()}
        blocks = blocks_at(machine.before)
        self.blocks, self.budget = len(blocks.states), blocks.budget if blocks.has_limit else None

    def breaches(self) -> Iterator[str]:
        """Where the ends or the marks and places at the end aren't those of the operations, one after the other."""
        done = list(carried_out(self.local))
        for nr, (op, end) in enumerate(zip(self.local.ops, self.local.ends)):
            if op.word == "writeback" and end.startswith("eio "):
                return  # the pages are no longer known
            wanted = self.marked(op.age) if op.word == "idle" else end
            wanted = self.written(op.mode) if op.word == "writeback" else wanted
            if end != wanted:
                yield f"operation {nr} ended `{end}`, and not `{wanted}`"
            for piece in (piece for piece in done if piece.tag.op == nr):
                self.call(piece)
        for page in range(self.machine.pages):
            entry = self.machine.entry(page)
            yield from unequal(f"whether page {page} is idle at the end", entry.is_idle, self.idle[page])
            is_back = isinstance(entry.kept, OnDevice)
            yield from unequal(f"whether page {page} is on the device at the end", is_back, self.back[page])

    def form(self, page: int) -> Form:
        """The form of a page; none where it is blank or on the device."""
        return None if self.blank[page] or self.back[page] else form_of(self.bytes[page])

    def marked(self, age: Optional[int]) -> str:
        """The end of an `idle`: the marks that are new."""
        clock = self.machine.clock
        old = [page for page in self.idle if age is None or clock - self.touched[page] > age]
        new = [page for page in old if isinstance(self.form(page), Pooled) and not self.idle[page]]
        self.idle.update(dict.fromkeys(new, True))
        return f"marked {len(new)}"

    def written(self, mode: str) -> str:
        """The end of a writeback: the pages that it takes, as long as there are blocks and the limit allows it."""
        if not self.blocks:
            return "nobacking"
        wrote = 0
        for page in self.idle:
            if not self.is_taken(page, mode):
                continue
            if self.budget == 0 or sum(self.back.values()) == self.blocks:
                return f"{'budget' if self.budget == 0 else 'noblock'} wrote {wrote} lost 0"
            wrote += 1
            self.budget = None if self.budget is None else self.budget - 1
            self.back[page], self.idle[page] = True, False
        return f"wrote {wrote} lost 0"

    def is_taken(self, page: int, mode: str) -> bool:
        """Whether a writeback of this mode takes a page."""
        form = self.form(page)
        if not isinstance(form, Pooled):
            return False
        return (self.idle[page] or mode == "huge") and (form.is_huge or mode == "idle")

    def call(self, piece: Piece) -> None:
        """A call that stands in its page's order."""
        page = piece.page
        self.touched[page], self.idle[page] = self.machine.clock, False
        if piece.op.word != "read":
            self.bytes[page] = piece.put_on(self.bytes[page])
            self.blank[page], self.back[page] = piece.op.word == "discard", False
