"""The turns of a run in words, and jobs read from files: what tools/explain and the other tools share."""
from __future__ import annotations

import sys
from itertools import groupby
from typing import Iterable, Iterator, NamedTuple, NoReturn, Sequence

from actors import Entry, Local, Piece, Tag
from judge import short
from language import Fault, Item, Phase, Turns, read_job
from memory import FREE, HELD, OWNED, Account, Blocks, Device, Kept, OnDevice, Page, Pool, Same
from model import EVENT, MISS, Machine, Turn


def fail(tool: str, message: str) -> NoReturn:
    """Ends a tool with a message, and the status of a refusal."""
    print(f"{tool}: {message}", file=sys.stderr)
    sys.exit(1)


def job_in(tool: str, path: str) -> list[Item]:
    """The items of the job in a file. A file that is no job ends the tool with its line, cause and reason."""
    try:
        with open(path, "rb") as file:
            return read_job(file.read())
    except OSError as error:
        fail(tool, f"{path}: {error.strerror}")
    except Fault as fault:
        fail(tool, f"{path}:{fault.line}: {fault.cause}: {fault.why}")


def count(number: int, what: str) -> str:
    """A number of things."""
    return f"{number:,} {what}{'' if number == 1 else 's'}"


def phases_in(items: Iterable[Item]) -> list[Phase]:
    """The phases of a job."""
    return [item for item in items if isinstance(item, Phase)]


def schedule_text(turns: Iterable[Turns]) -> str:
    """Turns as the words of a `schedule` line."""
    return " ".join(f"{turn.actor}*{turn.times}" if turn.times > 1 else str(turn.actor) for turn in turns)


def joined(actors: Iterable[int]) -> list[Turns]:
    """Turns, one after the other, with those of one actor in a row as one word."""
    return [Turns(actor, len(list(those))) for actor, those in groupby(actors)]


def span(first: int, last: int) -> str:
    """A run of sectors in words."""
    return f"sector {first}" if first == last else f"sectors {first} to {last}"


def order_text(order: Sequence[Tag]) -> str:
    """An order, as its line has it."""
    return " ".join(map(str, order)) or "empty"


def page_text(page: Page) -> str:
    """A page, with sectors in a row that are equal as one."""
    parts = []
    for sector, places in groupby(range(len(page)), lambda place: page[place]):
        those = list(places)
        parts.append(f"{span(those[0], those[-1])}: {short(sector)}")
    return ", ".join(parts)


def kept_text(kept: Kept) -> str:
    """A kept form in words."""
    if kept is None:
        return "empty"
    if isinstance(kept, Same):
        return "same-filled"
    if isinstance(kept, OnDevice):
        return f"on the device, in block {kept.block}"
    return f"{'huge' if kept.is_huge else f'packed in {kept.length:,} bytes'}, class {kept.number}"


def marks_text(entry: Entry) -> str:
    """The marks of an entry, each after a comma; nothing, where it has none."""
    return (", idle" if entry.is_idle else "") + (f", under writeback to block {entry.under}" if entry.under is not None
                                                  else "")


def work_text(piece: Piece) -> str:
    """What an operation does on its piece's sectors."""
    verb = {"read": "copies", "write": "puts", "discard": "clears"}[piece.op.word]
    return f"{verb} {span(piece.first, piece.first + piece.count - 1)}"


def entry_text(turn: Turn, taken: Entry, given: Entry) -> str:
    """What a giving has made of an entry."""
    if given.is_idle and not taken.is_idle:
        return "marks the page idle"
    if given.under is not None and taken.under is None:
        return f"marks the page with block {given.under}"
    if isinstance(given.kept, OnDevice) and given.kept != taken.kept:
        return f"keeps the page in block {given.kept.block}"
    if len(given.order) > len(taken.order) and turn.piece is not None:
        return "notes the read" if turn.stage == "Missed" else work_text(turn.piece)
    if turn.stage == "Visiting Losing":
        if given.under is not None:
            return f"finds the mark of block {given.under}"
        return "finds its mark gone" if taken.under is None else "removes its mark"
    return "leaves the page"


def blocks_text(taken: Blocks, given: Blocks) -> str:
    """What a giving has made of the blocks."""
    changed = [block for block, state in enumerate(given.states) if taken.states[block] != state]
    if not changed:
        return "finds the limit spent" if taken.is_spent() else "finds no free block"
    block = changed[0]
    texts = {HELD: f"reserves block {block}", OWNED: f"makes block {block} the page's", FREE: f"frees block {block}"}
    return texts[given.states[block]]


def device_text(local: Local, turn: Turn, has_failed: bool) -> str:
    """What an actor has done with the device."""
    is_read = turn.stage == "Fetching"
    call, block = ("read", local.old_block()) if is_read else ("write", local.own_block())
    return f"fails to {call} block {block}" if has_failed else f"{call}s block {block}"


def account_text(stage: str, taken: Account, given: Account) -> str:
    """What a giving has made of the account."""
    if stage == "Refusing":
        return "counts a request beyond the disk"
    if stage == "Counting":
        return "counts that the device failed"
    if stage == "Both" and given.failed_writes > taken.failed_writes:
        return "is refused at the limit"
    if stage == "Both":
        frames = given.frames - taken.frames
        return f"charges {count(frames, 'frame')}, stores the page" if frames else "stores the page"
    frames = taken.frames - given.frames
    if stage == "Shrinking":
        return f"gives {count(frames, 'frame')} back, counts them"
    return f"gives {count(frames, 'frame')} back, counts the page" if frames else "counts the page"


def move_text(taken: Pool, given: Pool) -> str:
    """What a compaction has made of a pool."""
    before, after = ({zspage.id: zspage.used() for zspage in pool.zspages} for pool in (taken, given))
    changed = [number for number in before if before[number] != after.get(number, 0)]
    if not changed:
        return "moves nothing"
    source, target = sorted(changed, key=lambda number: after.get(number, 0) - before[number])
    return f"moves {'an' if source in after else 'the last'} object of zspage {source} to zspage {target}"


GIVINGS = {
    "Pinning": "pins the object",
    "Unpinning": "unpins the object",
    "Freeing": "frees the old object",
    "Visiting Pinning": "pins the object",
    "Visiting Unpinning": "unpins the object",
    "Visiting Freeing": "frees the object",
}


def giving_text(machine: Machine, turn: Turn) -> str:
    """What was done with a value before it was given, in a turn that was just made; nothing, where that was done
    earlier."""
    assert turn.piece is not None
    if isinstance(turn.taken, Account) and isinstance(turn.given, Account):
        return account_text(turn.stage, turn.taken, turn.given)
    if turn.stage == "Moving" and isinstance(turn.taken, Pool) and isinstance(turn.given, Pool):
        return move_text(turn.taken, turn.given)
    if isinstance(turn.taken, Entry) and isinstance(turn.given, Entry):
        return entry_text(turn, turn.taken, turn.given)
    if isinstance(turn.taken, Blocks) and isinstance(turn.given, Blocks):
        return blocks_text(turn.taken, turn.given)
    if isinstance(turn.taken, Device) and isinstance(turn.given, Device):
        return device_text(machine.locals[turn.actor], turn, turn.given.faults > turn.taken.faults)
    return GIVINGS.get(turn.stage, "")


def event_text(machine: Machine, turn: Turn) -> str:
    """What happened in a turn of a machine."""
    if turn.kind == MISS:
        return f"misses {turn.lock}, which actor {turn.holder} has"
    if turn.kind != EVENT:
        return "nothing: it is finished"
    if turn.given is None:
        return f"{machine.takes} {turn.lock}"
    done = giving_text(machine, turn)
    return f"{done}, {machine.gives} {turn.lock}" if done else f"{machine.gives} {turn.lock}"


class Row(NamedTuple):
    """A row of a run that is shown: the number of its turn (the last one's, where it is of several), the turn, and what
    happened."""
    nr: int
    turn: Turn
    text: str


def is_empty_class(machine: Machine, turn: Turn) -> bool:
    """Whether a turn that was just made is a compaction's in a class without zspages."""
    if turn.kind != EVENT or turn.piece is None or not turn.piece.is_compaction() or turn.lock.kind != "class":
        return False
    pool = machine.locals[turn.actor].held["class"] if turn.given is None else turn.taken
    return isinstance(pool, Pool) and not pool.zspages


def rows_of(machine: Machine, turns: Iterable[Turn]) -> Iterator[Row]:
    """The turns of a run, as they are made. Those in which a compaction takes and gives classes without zspages, one
    after the other, come as one row, before the turn after them."""
    empty: list[Row] = []
    for nr, turn in enumerate(turns, 1):
        row = Row(nr, turn, event_text(machine, turn))
        is_empty = is_empty_class(machine, turn)
        if empty and not (is_empty and turn.actor == empty[0].turn.actor):
            yield from swept(empty)
            empty = []
        if is_empty:
            empty.append(row)
        else:
            yield row
    yield from swept(empty)


def swept(rows: list[Row]) -> Iterator[Row]:
    """Turns of a compaction in classes without zspages: those of classes that are taken and given in them as one."""
    begin = 1 if rows and rows[0].turn.given is not None else 0
    end = len(rows) - (1 if len(rows) > begin and rows[-1].turn.given is None else 0)
    if end - begin <= 2:
        begin = end = len(rows)
    yield from rows[:begin]
    if begin < end:
        first, last = rows[begin].turn.lock.number, rows[end - 1]
        classes = f"{(end - begin) // 2} classes, {first} to {last.turn.lock.number}"
        yield last._replace(text=f"finds no zspage in {classes}")
    yield from rows[end:]


def columns(machine: Machine) -> Iterator[str]:
    """A run drawn as time lines: a row for each turn, a column for each actor. The machine is run by it."""
    rows = [["turn"] + [f"actor {actor}" for actor in range(len(machine.locals))]]
    for nr, turn, text in rows_of(machine, machine.turns()):
        row = [str(nr)] + ["|"] * len(machine.locals)
        row[turn.actor + 1] = text
        rows.append(row)
    widths = [max(map(len, column)) for column in zip(*rows)]
    for row in rows:
        cells = [row[0].rjust(widths[0])] + [cell.ljust(width) for cell, width in zip(row[1:], widths[1:])]
        yield "  ".join(cells).rstrip()
