#!/usr/bin/env python3
"""A reference model of `zramsim run`, written from docs/JOBS.md, docs/PAGES.md, docs/MACHINE.md and docs/OUTPUT.md alone.

    tools/model.py [JOB]

prints what `zramsim run < JOB` prints, and ends with its status. It is a second reading of those pages, to be read
beside them, and nothing in it is proved. Words on the command line, streams that fail and lack of memory are left out.
The text of a job stands in tools/language.py, how pages are kept in tools/memory.py, the actors of a phase and its
locks in tools/actors.py, their stages in tools/stages.py and tools/visits.py. Here stand:

  1. the machine: turns and runs
  2. the output and the status

What an output promises is judged without the machine in tools/judge.py.
"""
from __future__ import annotations

import argparse
import sys
from typing import Iterable, Iterator, NamedTuple, Optional, Type, Union

from actors import (ACCOUNT, BLOCKS, DEVICE, Entry, Lock, Piece, Row, Value, account_at, blocks_at, device_at, entry_at,
                    new_local, value_at)
from language import (MOST_BYTES, WORDS, Backing, Budget, Clock, EnableBudget, Fault, Item, Limit, LowerMax, Phase,
                      Report, Size, read_job)
from memory import OWNED, Device, Pool, chain_of, per, size_of
from stages import GIVE, STAGES, TAKE
from visits import VISITS

REFUSED, NO_JOB = 1, 3  # statuses
DEVICE_BLOCKS = 4_096  # of the backing device


# ---- 1. the machine: turns and runs

EVENT, MISS, NOTHING = "event", "miss", "nothing"


class Turn(NamedTuple):
    """What a turn of an actor was: the stage that it began in, the lock that it took or missed or gave, which actor
    has the lock that it missed, and the value that it gave with the one that it had taken."""
    actor: int
    kind: str
    piece: Optional[Piece] = None
    stage: str = ""
    lock: Lock = ACCOUNT
    holder: Optional[int] = None
    taken: Optional[Value] = None
    given: Optional[Value] = None


class Machine:
    """The row of locks with the locals of a phase's actors. The row outlives the phase."""
    takes, gives = "takes", "gives"
    steps = {**STAGES, **VISITS}

    def __init__(self, row: Row, pages: int, phase: Phase, clock: int = 0) -> None:
        self.row, self.pages, self.phase, self.clock = row, pages, phase, clock
        is_backed = bool(blocks_at(row).states)
        self.locals = [new_local(actor, ops, pages, clock, is_backed) for actor, ops in enumerate(phase.actors)]
        self.holder: dict[Lock, int] = {}  # who has a lock that is out
        self.called = sorted({piece.page for local in self.locals for piece in local.todo if piece.has_page()})
        there = [lock.number for lock, value in row.items() if isinstance(value, Entry) and value.order]
        for page in there + self.called:
            row[Lock("slot", page)] = entry_at(row, page)._replace(order=())
        self.before: Row = dict(row)

    def entry(self, page: int) -> Entry:
        """The entry of a page; where it is out, as it was when it was taken."""
        return entry_at(self.row, page)

    def next_turn(self, actor: int) -> Turn:
        """What the next turn of an actor is: its next event, a miss, or nothing."""
        local = self.locals[actor]
        piece = local.piece()
        if piece is None:
            return Turn(actor, NOTHING)
        lock = self.steps[local.stage].lock(local, piece)
        if self.steps[local.stage].event == TAKE and lock in self.holder:
            return Turn(actor, MISS, piece, local.stage, lock, self.holder[lock])
        return Turn(actor, EVENT, piece, local.stage, lock)

    def turn(self, actor: int) -> Turn:
        """Makes one turn of an actor. An event changes its lock and its actor's local, and nothing else."""
        turn = self.next_turn(actor)
        if turn.kind == EVENT:
            assert turn.piece
            local, stage, kind = self.locals[actor], self.steps[turn.stage], turn.lock.kind
            if stage.event == TAKE:
                self.take(actor, turn.lock)
                local.held[kind] = value_at(self.row, turn.lock)
            else:
                turn = turn._replace(taken=local.held[kind])
                turn = turn._replace(given=stage.work(local, turn.piece, local.held[kind]))
            after = stage.after(local, turn.piece)
            if stage.event == GIVE:
                self.give(turn)
                del local.held[kind]
            local.enter(after)
        return turn

    def take(self, actor: int, lock: Lock) -> None:
        """An actor has a lock."""
        self.holder[lock] = actor

    def give(self, turn: Turn) -> None:
        """A lock is at home, with the value that was given."""
        assert turn.given is not None
        self.row[turn.lock] = turn.given
        del self.holder[turn.lock]

    def unfinished(self) -> list[int]:
        """The actors that have an event to come, rising."""
        return [actor for actor, local in enumerate(self.locals) if local.piece() is not None]

    def turns(self) -> Iterator[Turn]:
        """The phase's run, turn by turn: the schedule's, and then rounds, in which finished actors are passed over."""
        for actor, times in self.phase.schedule:
            for _ in range(times):
                yield self.turn(actor)
        left = self.unfinished()
        while left:
            for actor in left:
                yield self.turn(actor)
            left = self.unfinished()

    def run(self) -> None:
        """The same run. Of the turns that one word gives, those after one that changes nothing change nothing."""
        for actor, times in self.phase.schedule:
            for _ in range(times):
                if self.turn(actor).kind != EVENT:
                    break
        left = self.unfinished()
        while left:
            for actor in left:
                self.turn(actor)
            left = [actor for actor in left if self.locals[actor].piece() is not None]


# ---- 2. the output and the status

def sector_text(sector: bytes) -> str:
    """A sector as one word where all its words are equal, else as its bytes."""
    if sector == sector[:8] * WORDS:
        return f"fill {int.from_bytes(sector[:8], 'little'):016x}"
    return f"hex {sector.hex()}"


def lines_of(machine: Machine) -> Iterator[str]:
    """What a phase that has been run prints."""
    for actor, local in enumerate(machine.locals):
        for nr, end in enumerate(local.ends):
            yield f"op {actor} {nr} {end}"
            yield from map(sector_text, local.reads[nr])
    for page in machine.called:
        if machine.entry(page).order:
            yield f"order {page} " + " ".join(map(str, machine.entry(page).order))


def numbers(name: str, those: Iterable[int]) -> str:
    """A line of a name and numbers."""
    return " ".join([name, *map(str, those)])


def report_of(name: str, row: Row) -> Iterator[str]:
    """The lines of a report."""
    if name == "mm_stat":
        yield numbers(name, account_at(row).mm_stat())
    elif name == "io_stat":
        yield numbers(name, account_at(row).io_stat())
    elif name == "bd_stat":
        device = device_at(row)
        yield numbers(name, [blocks_at(row).states.count(OWNED), device.reads, device.writes])
    elif name == "states":
        for lock, entry in sorted(row.items()):
            if isinstance(entry, Entry) and entry.kept is not None:
                yield f"state {lock.number} {entry.letters()} {entry.touched}"
    else:
        yield from (class_line(pool) for _, pool in sorted(row.items()) if isinstance(pool, Pool) and pool.zspages)


def class_line(pool: Pool) -> str:
    """The line of a class that has zspages."""
    used = sum(zspage.used() for zspage in pool.zspages)
    cells = f"class {pool.number} {size_of(pool.number)} pages {chain_of(pool.number)} per {per(pool.number)}"
    return numbers(f"{cells} used {used} zspages {len(pool.zspages)} groups", pool.groups())


def refusal_of(item: Union[Size, Backing], pages: int) -> Optional[str]:
    """Why an attribute is refused on a disk of so many pages, if it is: the disk's size is set already, so that
    neither another size nor a backing can be; or the device has fewer blocks."""
    if pages:
        return f"attr {'disksize' if isinstance(item, Size) else 'backing'} busy"
    if isinstance(item, Backing) and item.blocks > DEVICE_BLOCKS:
        return "attr backing range"
    return None


def is_compacted(end: str) -> bool:
    """Whether an end is a compaction's."""
    return end.startswith("compacted ")


def is_refusal(end: str) -> bool:
    """Whether an end is a refusal."""
    return end.split()[0] not in ("ok", "marked", "wrote", "compacted")


def results_of(items: Iterable[Item], row: Row, pages: int = 0,
               kind: Type[Machine] = Machine) -> Iterator[Union[Machine, list[str]]]:
    """What the items of a job come to on a disk: for a phase its machine, at its start; for a report its lines, and
    for an attribute that is refused the one that says so. The caller runs a machine before asking for the next."""
    clock = 0
    for item in items:
        if isinstance(item, (Size, Backing)):
            refusal = refusal_of(item, pages)
            if refusal is not None:
                yield [refusal]
            elif isinstance(item, Size):
                pages = item.pages
            else:
                row[BLOCKS] = blocks_at(row).with_blocks(item.blocks)
        elif isinstance(item, Budget):
            row[BLOCKS] = blocks_at(row)._replace(budget=item.units)
        elif isinstance(item, EnableBudget):
            row[BLOCKS] = blocks_at(row)._replace(has_limit=item.is_on)
        elif isinstance(item, Limit):
            row[ACCOUNT] = account_at(row)._replace(limit=item.frames)
        elif isinstance(item, LowerMax):
            row[ACCOUNT] = account_at(row).lowered()
        elif isinstance(item, Clock):
            clock = item.seconds
        elif isinstance(item, Report):
            yield list(report_of(item.name, row))
        else:
            yield kind(row, pages, item, clock)


def phases_of(items: Iterable[Item], kind: Type[Machine] = Machine) -> Iterator[Machine]:
    """The machine of each phase of a job, at its start. The caller runs it before asking for the next."""
    return (result for result in results_of(items, {}, kind=kind) if isinstance(result, Machine))


def outcome(text: bytes, device: Device = Device()) -> tuple[int, str]:
    """The status and the output of `zramsim run` on a text, over a device that is zramsim's or another one."""
    try:
        items = read_job(text)
    except Fault as fault:
        return NO_JOB, f"job {fault.line} {fault.cause}\n"
    lines: list[str] = []
    status = 0
    for result in results_of(items, {DEVICE: device}):
        if isinstance(result, Machine):
            result.run()
            if any(is_refusal(end) for local in result.locals for end in local.ends):
                status = REFUSED
            result = list(lines_of(result))
        elif any(line.startswith("attr ") for line in result):
            status = REFUSED
        lines += result
    return status, "".join(line + "\n" for line in lines)


def main() -> int:
    parser = argparse.ArgumentParser(description="Prints what `zramsim run` prints on a job, by the documents alone.")
    parser.add_argument("job", nargs="?", metavar="JOB", help="a file with a job; else it is the standard input")
    parser.add_argument("--bad-reads", type=int, nargs="+", default=[], metavar="N",
                        help="reads of the device that fail, by their numbers from 1; those of zramsim's never do")
    parser.add_argument("--bad-writes", type=int, nargs="+", default=[], metavar="N", help="the same of writes")
    wanted = parser.parse_args()
    path = wanted.job
    try:
        with open(path, "rb") if path else sys.stdin.buffer as file:
            text = file.read(MOST_BYTES + 1)
    except OSError as error:
        parser.error(f"{path}: {error.strerror}")
    device = Device(bad_reads=tuple(wanted.bad_reads), bad_writes=tuple(wanted.bad_writes))
    status, output = outcome(text, device)
    sys.stdout.write(output)
    return status


if __name__ == "__main__":
    sys.exit(main())
