"""The stages of a piece, with the event and the work of each, by docs/MACHINE.md. A part of the model (tools/model.py).

Those of a writeback's visits stand in tools/visits.py. To grow it: an event is a row of the table of stages.
"""
from __future__ import annotations

from typing import Callable, NamedTuple

from actors import ACCOUNT, BLOCKS, DEVICE, OVER, Entry, Local, Lock, Piece, Scan, Value
from memory import FREE, LAST_CLASS, Account, Blocks, Device, OnDevice, Pool, Pooled, Stored, stands_as

TAKE, GIVE = "takes", "gives"


class Stage(NamedTuple):
    """A row of the table of steps: the event of an actor in a stage, its lock, the stage after it, and the work of a
    giving: what is given, by what was taken."""
    event: str
    lock: Callable[[Local, Piece], Lock]
    after: Callable[[Local, Piece], str]
    work: Callable[[Local, Piece, Value], Value] = lambda local, piece, value: value


# The locks.

def slot(local: Local, piece: Piece) -> Lock:
    """The slot of a piece's page."""
    return Lock("slot", piece.page)


def the_account(local: Local, piece: Piece) -> Lock:
    """The account."""
    return ACCOUNT


def the_blocks(local: Local, piece: Piece) -> Lock:
    """The blocks."""
    return BLOCKS


def the_device(local: Local, piece: Piece) -> Lock:
    """The device."""
    return DEVICE


def visited_slot(local: Local, piece: Piece) -> Lock:
    """The slot of the page that a writeback is at."""
    return Lock("slot", local.carried.trip.page)


def swept_class(local: Local, piece: Piece) -> Lock:
    """The class that a compaction is at."""
    return Lock("class", local.carried.compaction.number)


def scanned_slot(local: Local, piece: Piece) -> Lock:
    """The slot of the page that a scan is at."""
    return Lock("slot", local.carried.scan.page)


def first_lock(local: Local, piece: Piece) -> Lock:
    """The slot, the account for a request beyond the disk, the first page's slot for a scan or a writeback, or the
    first class for a compaction."""
    if piece.is_compaction():
        return swept_class(local, piece)
    if piece.is_scan():
        return scanned_slot(local, piece)
    if piece.is_writeback():
        return visited_slot(local, piece)
    return ACCOUNT if piece.is_beyond else slot(local, piece)


def old_class(local: Local, piece: Piece) -> Lock:
    """The class of the object that the entry in hand names."""
    return Lock("class", local.old().number)


def new_class(local: Local, piece: Piece) -> Lock:
    """The class of the object that is to be made."""
    return Lock("class", local.pooled(piece).number)


# The stages after an event that have more than one.

def then(stage: str) -> Callable[[Local, Piece], str]:
    """One stage, always."""
    return lambda local, piece: stage


def settle(local: Local, piece: Piece) -> str:
    """What the entry names has to be given up, if it is an object or a block."""
    kept = local.entry().kept
    return "Old" if isinstance(kept, Stored) else "Backed" if isinstance(kept, OnDevice) else "Owing"


def make(local: Local, piece: Piece) -> str:
    """The page to be put is known: an object for it has to be made, if it is to be one."""
    return "Wanting" if isinstance(local.form(piece), Pooled) else settle(local, piece)


def after_start(local: Local, piece: Piece) -> str:
    """The piece has its first lock."""
    if piece.is_compaction():
        return "Moving"
    if piece.is_scan():
        return "Marking"
    if piece.is_writeback():
        return after_arrival(local, piece)
    if piece.is_beyond:
        return "Refusing"
    kept = local.entry().kept
    if piece.op.word == "discard":
        return "Ready" if kept is None else settle(local, piece)
    if isinstance(kept, (Stored, OnDevice)) and (piece.op.word == "read" or not piece.is_whole()):
        return "Seen" if isinstance(kept, Stored) else "Away"
    return "Leaving" if piece.op.word == "read" else make(local, piece)


def after_pin(local: Local, piece: Piece) -> str:
    """The page was read from its cell."""
    return "Pinned" if piece.op.word == "read" else make(local, piece)


def after_fetch(local: Local, piece: Piece) -> str:
    """The page was read from the device, or that has failed."""
    if local.carried.refusal:
        return "Failing"
    return "Leaving" if piece.op.word == "read" else make(local, piece)


def after_made(local: Local, piece: Piece) -> str:
    """The new object was made, or the piece is refused."""
    if local.carried.refusal:
        is_pinned = isinstance(local.entry().kept, Stored) and local.carried.page is not None
        return "Pinned" if is_pinned else "Leaving"
    return settle(local, piece)


def after_mark(local: Local, piece: Piece) -> str:
    """A scan has marked its page or not; after the last page it has ended."""
    return OVER if local.ends[piece.tag.op] != "ok" else "Scanning"


def after_arrival(local: Local, piece: Piece) -> str:
    """A writeback has taken a page's slot: the page is to be written back, or not."""
    return f"Visiting {'Asking' if local.entry().is_eligible(piece.op.mode) else 'Passing'}"


def after_move(local: Local, piece: Piece) -> str:
    """A compaction has moved an object or none; in the last class it may have ended."""
    if local.ends[piece.tag.op] != "ok":
        return OVER
    return "Shrunk" if local.carried.owed else "Sweeping"


# The work of givings.

def count_beyond(local: Local, piece: Piece, account: Account) -> Account:
    """A request beyond the disk ends."""
    local.ends[piece.tag.op] = "range"
    return account.counted("invalid_io")


def pin(local: Local, piece: Piece, pool: Pool) -> Pool:
    """The object's cell is out, and the page is read from it."""
    local.carry(page=pool.page(local.old()))
    return pool.lent(local.old().handle, True)


def unpin(local: Local, piece: Piece, pool: Pool) -> Pool:
    """The object's cell is at home again."""
    return pool.lent(local.old().handle, False)


def leave(local: Local, piece: Piece, entry: Entry) -> Entry:
    """A read is carried out, and noted; a refused write leaves all as it was."""
    if local.carried.refusal:
        local.ends[piece.tag.op] = local.carried.refusal
        return entry
    local.reads[piece.tag.op] += piece.copied_from(local.seen())
    return entry.noted(piece.tag, entry.kept, local.clock)


def fetch(local: Local, piece: Piece, device: Device) -> Device:
    """The page's block is read; or the device fails."""
    device, is_read = device.read()
    if is_read:
        local.carry(page=device.page(local.old_block()))
    else:
        local.carry(refusal=f"eio {device.faults} done {piece.before()}")
    return device


def count_fault(local: Local, piece: Piece, account: Account) -> Account:
    """The account counts that the device has failed."""
    return account.counted("failed_reads" if piece.op.word == "read" else "failed_writes")


def miss(local: Local, piece: Piece, entry: Entry) -> Entry:
    """A read that has failed is noted, and has no sectors; a write leaves all as it was."""
    local.ends[piece.tag.op] = local.carried.refusal
    return entry.noted(piece.tag, entry.kept, local.clock) if piece.op.word == "read" else entry


def charge(local: Local, piece: Piece, account: Account) -> Account:
    """The frames that the new object needs are charged and the object is made, in the pool in hand; or the piece is
    refused, and the account counts that alone."""
    pool, form = local.held["class"], local.pooled(piece)
    assert isinstance(pool, Pool)
    need = pool.need()
    if account.is_past_limit(need):
        local.carry(refusal=f"limit {account.frames} {need} {account.limit} done {piece.before()}")
        return account.counted("failed_writes")
    local.held["class"], handle = pool.stored(form.data)
    local.carry(made=Stored(form.number, handle, len(form.data), form.is_huge))
    return account.charged(need)


def free(local: Local, piece: Piece, pool: Pool) -> Pool:
    """The old object is unpinned where it was pinned, and freed."""
    pool, frames = pool.freed(local.old().handle)
    local.carry(owed=frames)
    return pool


def release(local: Local, piece: Piece, blocks: Blocks) -> Blocks:
    """The page's block is free."""
    return blocks.with_state(local.old_block(), FREE)


def count(local: Local, piece: Piece, account: Account) -> Account:
    """The freed frames are given back, and the page is counted by its new form in place of its old one."""
    kept = local.next_kept(piece)
    account = account._replace(frames=account.frames - local.carried.owed)
    account = account.with_page(local.entry().kept, -1).with_page(kept)
    if isinstance(kept, Stored) and kept.is_huge:
        account = account.counted("huge_since")
    return account.counted("notify_free") if piece.op.word == "discard" else account


def put(local: Local, piece: Piece, entry: Entry) -> Entry:
    """A write or a discard is carried out, and noted."""
    return entry.noted(piece.tag, local.next_kept(piece), local.clock)


def mark(local: Local, piece: Piece, entry: Entry) -> Entry:
    """A scan marks the page where it may be marked, and goes on to the next one, or ends."""
    may = entry.may_mark(local.clock, piece.op.age)
    at = local.carried.scan
    scan = Scan(at.page + 1, at.marked + (may and not entry.is_idle))
    if scan.page == local.pages:
        local.ends[piece.tag.op] = f"marked {scan.marked}"
    local.carry(scan=scan)
    return entry._replace(is_idle=entry.is_idle or may)


def move(local: Local, piece: Piece, pool: Pool) -> Pool:
    """A compaction moves one object. In each class it may move as many as there were when it first came; where it may
    move no more, or there is no plan, it goes on to the next class."""
    at = local.carried.compaction
    budget = len(pool.objects()) if at.budget is None else at.budget
    moved = pool.moved() if budget > 0 else None
    if moved is None:
        rest(local, piece)
        return pool
    pool, frames = moved
    local.carry(compaction=at._replace(budget=budget - 1, moves=at.moves + 1), owed=frames)
    return pool


def rest(local: Local, piece: Piece) -> None:
    """A compaction has nothing more to move in a class: it goes on to the next one that stands as itself, or ends."""
    at = local.carried.compaction
    if at.number == LAST_CLASS:
        local.ends[piece.tag.op] = f"compacted {at.moves} {at.frames}"
    else:
        local.carry(compaction=at._replace(number=stands_as(at.number + 1), budget=None))


def shrink(local: Local, piece: Piece, account: Account) -> Account:
    """The frames that a move freed are given back, and counted."""
    at, frames = local.carried.compaction, local.carried.owed
    local.carry(compaction=at._replace(frames=at.frames + frames), owed=0)
    return account._replace(frames=account.frames - frames).counted("compacted", frames)


# The table of the stages of a piece, in docs/MACHINE.md.
STAGES = {
    "Start": Stage(TAKE, first_lock, after_start),
    "Refusing": Stage(GIVE, the_account, then(OVER), count_beyond),
    "Seen": Stage(TAKE, old_class, then("Pinning")),
    "Pinning": Stage(GIVE, old_class, after_pin, pin),
    "Pinned": Stage(TAKE, old_class, then("Unpinning")),
    "Unpinning": Stage(GIVE, old_class, then("Leaving"), unpin),
    "Leaving": Stage(GIVE, slot, then(OVER), leave),
    "Away": Stage(TAKE, the_device, then("Fetching")),
    "Fetching": Stage(GIVE, the_device, after_fetch, fetch),
    "Failing": Stage(TAKE, the_account, then("Counting")),
    "Counting": Stage(GIVE, the_account, then("Missed"), count_fault),
    "Missed": Stage(GIVE, slot, then(OVER), miss),
    "Wanting": Stage(TAKE, new_class, then("Inside")),
    "Inside": Stage(TAKE, the_account, then("Both")),
    "Both": Stage(GIVE, the_account, then("Made"), charge),
    "Made": Stage(GIVE, new_class, after_made),
    "Old": Stage(TAKE, old_class, then("Freeing")),
    "Freeing": Stage(GIVE, old_class, then("Owing"), free),
    "Backed": Stage(TAKE, the_blocks, then("Releasing")),
    "Releasing": Stage(GIVE, the_blocks, then("Owing"), release),
    "Owing": Stage(TAKE, the_account, then("Giving")),
    "Giving": Stage(GIVE, the_account, then("Ready"), count),
    "Ready": Stage(GIVE, slot, then(OVER), put),
    "Scanning": Stage(TAKE, scanned_slot, then("Marking")),
    "Marking": Stage(GIVE, scanned_slot, after_mark, mark),
    "Sweeping": Stage(TAKE, swept_class, then("Moving")),
    "Moving": Stage(GIVE, swept_class, after_move, move),
    "Shrunk": Stage(TAKE, the_account, then("Shrinking")),
    "Shrinking": Stage(GIVE, the_account, then("Sweeping"), shrink),
}
