"""A writeback's visits of pages, with the event and the work of each stage, by docs/MACHINE.md. A part of the model
(tools/model.py).

A page is taken; where it is to be written back, a block is reserved, the page is copied, its slot is marked with the
block and given, the block is written, and the slot is taken again. Where the mark still stands, no call has come to the
page meanwhile.
"""
from __future__ import annotations

from actors import OVER, Carried, Entry, Local, Piece, Trip
from memory import FREE, OWNED, Account, Blocks, Device, OnDevice, Stored
from stages import (GIVE, TAKE, Stage, after_arrival, free, old_class, pin, the_account, the_blocks, the_device, then,
                    unpin, visited_slot)


# The stages after an event that have more than one.

def after_visit(local: Local, piece: Piece) -> str:
    """A writeback is over with a page; after the last page, or by a refusal, it has ended."""
    return OVER if local.ends[piece.tag.op] != "ok" else "Visiting Arriving"


def after_reserving(local: Local, piece: Piece) -> str:
    """A block was reserved, or none."""
    return "Visiting Quitting" if local.carried.refusal else "Visiting Seen"


def after_landing(local: Local, piece: Piece) -> str:
    """A writeback has taken the page's slot again: where the device hasn't failed and its own mark still stands, no
    call has come to the page meanwhile."""
    return after_mark_is(local, local.entry().under == local.carried.trip.block)


def after_mark_is(local: Local, is_own: bool) -> str:
    """The same, where a mark is taken for its own or not. Without locks a page may be marked that isn't in the pool."""
    is_kept = is_own and isinstance(local.entry().kept, Stored) and not local.carried.refusal
    return "Visiting Won" if is_kept else "Visiting Losing"


# The work of givings.

def go_on(local: Local, piece: Piece, wrote: int = 0, lost: int = 0) -> None:
    """A writeback goes on to the next page, with so many pages more that it has written, or ends."""
    at = local.carried.trip
    trip = Trip(at.page + 1, at.wrote + wrote, at.lost + lost)
    if trip.page == local.pages:
        local.ends[piece.tag.op] = trip.numbers()
    local.carried = Carried(trip=trip)


def pass_by(local: Local, piece: Piece, entry: Entry) -> Entry:
    """The page isn't written back."""
    go_on(local, piece)
    return entry


def reserve(local: Local, piece: Piece, blocks: Blocks) -> Blocks:
    """The least free block is reserved; none, where the limit on writes allows no other, or no block is free."""
    trip, block = local.carried.trip, blocks.least_free()
    if blocks.is_spent() or block is None:
        local.carry(refusal=f"{'budget' if blocks.is_spent() else 'noblock'} {trip.numbers()}")
        return blocks
    local.carry(trip=trip._replace(block=block))
    return blocks.reserved(block)


def quit(local: Local, piece: Piece, entry: Entry) -> Entry:
    """A writeback ends without a block."""
    local.ends[piece.tag.op] = local.carried.refusal
    return entry


def mark_under(local: Local, piece: Piece, entry: Entry) -> Entry:
    """The page is marked with the block that is to have it."""
    return entry._replace(under=local.own_block())


def store(local: Local, piece: Piece, device: Device) -> Device:
    """The page is written to its block; or the device fails."""
    assert local.carried.page is not None
    device, is_written = device.written(local.own_block(), local.carried.page)
    if not is_written:
        local.carry(refusal=f"eio {device.faults} {local.carried.trip.numbers()}")
    return device


def commit(local: Local, piece: Piece, blocks: Blocks) -> Blocks:
    """The block is the page's."""
    return blocks.with_state(local.own_block(), OWNED)


def pay(local: Local, piece: Piece, account: Account) -> Account:
    """The freed frames are given back, and the page is counted as one on the device."""
    account = account._replace(frames=account.frames - local.carried.owed)
    return account.with_page(local.entry().kept, -1).with_page(OnDevice(local.own_block()))


def put_back(local: Local, piece: Piece, entry: Entry) -> Entry:
    """The page is kept in its block, without marks; it was touched when it was."""
    kept = OnDevice(local.own_block())
    go_on(local, piece, wrote=1)
    return entry._replace(kept=kept, is_idle=False, under=None)


def lose(local: Local, piece: Piece, entry: Entry) -> Entry:
    """The page stays as it is, without the mark of this writeback."""
    return entry._replace(under=None) if entry.under == local.carried.trip.block else entry


def undo(local: Local, piece: Piece, blocks: Blocks) -> Blocks:
    """The block is free again: the page was written in vain, or the writeback ends, as the device has failed."""
    blocks = blocks.with_state(local.own_block(), FREE)
    if local.carried.refusal:
        local.ends[piece.tag.op] = local.carried.refusal
    else:
        go_on(local, piece, lost=1)
    return blocks


# The table of the steps of a visit, in docs/MACHINE.md. Some have the name of a stage of a page, so all begin with another
# word here.
VISITS = {
    "Visiting Arriving": Stage(TAKE, visited_slot, after_arrival),
    "Visiting Passing": Stage(GIVE, visited_slot, after_visit, pass_by),
    "Visiting Asking": Stage(TAKE, the_blocks, then("Visiting Reserving")),
    "Visiting Reserving": Stage(GIVE, the_blocks, after_reserving, reserve),
    "Visiting Quitting": Stage(GIVE, visited_slot, then(OVER), quit),
    "Visiting Seen": Stage(TAKE, old_class, then("Visiting Pinning")),
    "Visiting Pinning": Stage(GIVE, old_class, then("Visiting Pinned"), pin),
    "Visiting Pinned": Stage(TAKE, old_class, then("Visiting Unpinning")),
    "Visiting Unpinning": Stage(GIVE, old_class, then("Visiting Marking"), unpin),
    "Visiting Marking": Stage(GIVE, visited_slot, then("Visiting Flying"), mark_under),
    "Visiting Flying": Stage(TAKE, the_device, then("Visiting Storing")),
    "Visiting Storing": Stage(GIVE, the_device, then("Visiting Landing"), store),
    "Visiting Landing": Stage(TAKE, visited_slot, after_landing),
    "Visiting Won": Stage(TAKE, old_class, then("Visiting Freeing")),
    "Visiting Freeing": Stage(GIVE, old_class, then("Visiting Backing"), free),
    "Visiting Backing": Stage(TAKE, the_blocks, then("Visiting Committing")),
    "Visiting Committing": Stage(GIVE, the_blocks, then("Visiting Owing"), commit),
    "Visiting Owing": Stage(TAKE, the_account, then("Visiting Paying")),
    "Visiting Paying": Stage(GIVE, the_account, then("Visiting Putting"), pay),
    "Visiting Putting": Stage(GIVE, visited_slot, after_visit, put_back),
    "Visiting Losing": Stage(GIVE, visited_slot, then("Visiting Undoing"), lose),
    "Visiting Undoing": Stage(TAKE, the_blocks, then("Visiting Releasing")),
    "Visiting Releasing": Stage(GIVE, the_blocks, after_visit, undo),
}
