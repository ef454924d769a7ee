"""All schedules of one phase of a small job: what tools/explore and tools/races share.

The states that a phase can be in are visited once each, in the order of the events that lead to them. Two counts are
made over them for each output:

- *orders of events*: the runs of the phase, where turns that change nothing are left out. Two runs with one order of
  events differ in such turns alone, and give one output.
- *schedules*: the lists of turns in which each actor has as many turns as it has events (the most that it has in any
  run, where runs differ). A turn may be a miss, and then the rounds after the schedule serve who isn't finished. Each
  order of events is one of these lists, so they give every output that the phase can give.
"""
from __future__ import annotations

from collections import defaultdict
from copy import copy
from dataclasses import dataclass, field, replace
from itertools import groupby
from typing import Hashable, Iterable, Iterator, Optional, Type, Union

from judge import compaction_breaches, device_breaches, page_breaches, report_breaches
from language import Item, Phase
from model import EVENT, Machine, lines_of, results_of
from trace import count, joined, schedule_text

TURNS_LEFT = 10  # times as many states as --limit may be visited with the turns that are left in them


Results = Iterator[Union[Machine, list[str]]]


class TooMany(Exception):
    """A job has more states or schedules than may be visited."""


def after_event(machine: Machine, actor: int) -> Optional[Machine]:
    """The machine after the next turn of an actor; none where that turn is no event. The machine itself stays as it is.
    An event changes one lock and one local, so all else is shared; what locks guard is never changed in its place."""
    if machine.next_turn(actor).kind != EVENT:
        return None
    twin, local = copy(machine), machine.locals[actor]
    twin.row, twin.holder, twin.locals = dict(machine.row), dict(machine.holder), machine.locals[:]
    twin.locals[actor] = replace(local, ends=local.ends[:], reads=[read[:] for read in local.reads],
                                 held=dict(local.held))
    twin.turn(actor)
    return twin


def key_of(machine: Machine) -> Hashable:
    """All that a state is, to be compared."""
    actors = tuple((local.at, local.stage, local.carried, tuple(local.held.items()), tuple(local.ends),
                    tuple(map(tuple, local.reads))) for local in machine.locals)
    return actors, frozenset(machine.row.items()), tuple(sorted(machine.holder.items()))


@dataclass
class Output:
    """An output: its lines with what each is of, how many schedules and orders of events give it, one such list of
    turns, and where it breaks what an output promises."""
    lines: dict[str, str]
    wrong: list[str]
    example: list[int]
    schedules: int = 0
    orders: int = 0


@dataclass
class Graph:
    """The states of a phase, numbered so that an event leads to a greater number. `moves` has for each state where a
    turn of each actor leads (to the state itself, where it changes nothing), `came` the state and the actor by which
    it was first found, `ends` the key of the output of each state in which all are finished."""
    moves: list[list[int]] = field(default_factory=list)
    came: list[tuple[int, int]] = field(default_factory=list)
    ends: dict[int, Hashable] = field(default_factory=dict)
    outputs: dict[Hashable, Output] = field(default_factory=dict)

    def path_to(self, state: int) -> list[int]:
        """The turns that lead to a state, each an event."""
        path = []
        while state:
            state, actor = self.came[state]
            path.append(actor)
        return path[::-1]

    def end_from(self, state: int) -> int:
        """The state in which rounds end."""
        while state not in self.ends:
            for actor in range(len(self.moves[state])):
                state = self.moves[state][actor]
        return state

    def most_events(self) -> list[int]:
        """The most events that each actor has in any run."""
        actors = range(len(self.moves[0]))
        most = [[0 for _ in actors] for _ in self.moves]
        for state, nexts in enumerate(self.moves):
            for actor, following in enumerate(nexts):
                if following != state:
                    for other in actors:
                        most[following][other] = max(most[following][other], most[state][other] + (other == actor))
        return [max(most[state][actor] for state in self.ends) for actor in actors]


class Explorer:
    """All runs of the phase of a job that has this number, counted from 1. Those after it run by their schedules."""

    def __init__(self, items: list[Item], number: int, limit: int, kind: Type[Machine] = Machine) -> None:
        self.items, self.number, self.limit, self.kind = items, number, limit, kind
        self.start = self.begin()
        self.graph = Graph()
        self.visit()
        self.turns = self.graph.most_events()
        self.count_orders()
        self.count_schedules()

    def begin(self) -> Machine:
        """The phase's machine, after the items before it, and with the items after it put aside."""
        phases = [place for place, item in enumerate(self.items) if isinstance(item, Phase)]
        self.after = self.items[phases[self.number - 1] + 1:]
        return phase_among(results_of(self.items, {}, kind=self.kind), self.number)

    def visit(self) -> None:
        """Visits each state once, by the number of events that lead to it."""
        graph, seen = self.graph, {key_of(self.start): 0}
        graph.came.append((0, 0))
        layer = {0: self.start}
        while layer:
            following: dict[int, Machine] = {}
            for state, machine in layer.items():
                graph.moves.append(self.moves_from(state, machine, seen, following))
                if not machine.unfinished():
                    self.note_end(state, machine)
            layer = following

    def moves_from(self, state: int, machine: Machine, seen: dict[Hashable, int],
                   found: dict[int, Machine]) -> list[int]:
        """Where a turn of each actor leads from a state. States that are new are put into `found`."""
        moves = []
        for actor in range(len(machine.locals)):
            twin = after_event(machine, actor)
            if twin is None:
                moves.append(state)
                continue
            key = key_of(twin)
            if key not in seen:
                if len(seen) >= self.limit:
                    raise TooMany(f"more than {self.limit:,} states")
                seen[key] = len(seen)
                found[seen[key]] = twin
                self.graph.came.append((state, actor))
            moves.append(seen[key])
        return moves

    def note_end(self, state: int, machine: Machine) -> None:
        """Notes the output of a state in which all are finished."""
        wrong = list(page_breaches(machine))
        if any(report_breaches(machine)) or any(compaction_breaches(machine)):
            wrong.append("the account and the pools aren't those of the pages")
        if any(device_breaches(machine)):
            wrong.append("the blocks and the device aren't those of the pages")
        lines = dict(labelled(machine, ""))
        later = results_of(self.after, dict(machine.row), machine.pages, self.kind)
        lines.update(labelled_later(later, self.number))
        key = (tuple(lines.items()), tuple(wrong))
        self.graph.ends[state] = key
        if key not in self.graph.outputs:
            self.graph.outputs[key] = Output(lines, wrong, self.graph.path_to(state))

    def count_orders(self) -> None:
        """Counts for each output the orders of events that give it."""
        ways = [1] + [0] * (len(self.graph.moves) - 1)
        for state, nexts in enumerate(self.graph.moves):
            for following in nexts:
                if following != state:
                    ways[following] += ways[state]
        for state, key in self.graph.ends.items():
            self.graph.outputs[key].orders += ways[state]

    def count_schedules(self) -> None:
        """Counts for each output the schedules that give it."""
        layer = {(0, tuple(self.turns)): 1}
        visited = 1
        for _ in range(sum(self.turns)):
            following: dict[tuple[int, tuple[int, ...]], int] = defaultdict(int)
            for (state, left), ways in layer.items():
                for actor, turns in enumerate(left):
                    if turns:
                        rest = left[:actor] + (turns - 1,) + left[actor + 1:]
                        following[self.graph.moves[state][actor], rest] += ways
            visited += len(following)
            if visited > TURNS_LEFT * self.limit:
                raise TooMany(f"more than {TURNS_LEFT * self.limit:,} states with the turns that are left")
            layer = following
        for (state, _), ways in layer.items():
            self.graph.outputs[self.graph.ends[self.graph.end_from(state)]].schedules += ways

    def outputs(self) -> list[Output]:
        """The outputs, those that more schedules give first."""
        return sorted(self.graph.outputs.values(), key=lambda output: -output.schedules)

    def own(self) -> Output:
        """The output that the job's own schedule gives."""
        state = 0
        for actor, times in self.start.phase.schedule:
            for _ in range(times):
                before, state = state, self.graph.moves[state][actor]
                if state == before:
                    break
        return self.graph.outputs[self.graph.ends[self.graph.end_from(state)]]

    def headline(self) -> str:
        """The counts, in one line."""
        schedules = sum(output.schedules for output in self.outputs())
        orders = sum(output.orders for output in self.outputs())
        return (f"{count(schedules, 'schedule')} ({self.turns_text()}), {count(orders, 'order')} of events, "
                f"{count(len(self.graph.outputs), 'output')}, {count(len(self.graph.moves), 'state')}")

    def turns_text(self) -> str:
        """How many turns a schedule has for each actor."""
        if not self.turns:
            return "no actors"
        if len(set(self.turns)) == 1:
            return f"{count(self.turns[0], 'turn')} for each actor"
        return ", ".join(f"{count(turns, 'turn')} for actor {actor}" for actor, turns in enumerate(self.turns))


def phase_among(results: Results, number: int) -> Machine:
    """The machine of the phase of this number, with the phases before it run."""
    for result in results:
        if isinstance(result, Machine):
            number -= 1
            if number == 0:
                return result
            result.run()
    raise AssertionError("the job has such a phase")


def labelled_later(results: Results, number: int) -> dict[str, str]:
    """The lines of what comes after the phase of this number, each with what it is of."""
    lines, reports = {}, 0
    for result in results:
        if isinstance(result, Machine):
            number += 1
            result.run()
            lines.update(labelled(result, f"phase {number} "))
        else:
            reports += 1
            for line in result:
                words = line.split()
                lines[f"report {reports} {' '.join(words[:2 if words[0] in ('state', 'class') else 1])}"] = line
    return lines


def labelled(machine: Machine, prefix: str) -> Iterator[tuple[str, str]]:
    """The lines of a phase that has been run, each with what it is of."""
    of, sector = "", 0
    for line in lines_of(machine):
        words = line.split()
        if words[0] == "op":
            of, sector = f"{words[1]}:{words[2]}", machine.locals[int(words[1])].ops[int(words[2])].start
            yield f"{prefix}{of}", line
        elif words[0] == "order":
            yield f"{prefix}order {words[1]}", line
        else:
            yield f"{prefix}{of} sector {sector}", line
            sector += 1


def differing(outputs: list[Output]) -> list[str]:
    """What the lines are of that the outputs don't share."""
    labels = list(dict.fromkeys(label for output in outputs for label in output.lines))
    labels.sort(key=lambda label: label.startswith(("phase ", "report ")))
    return [label for label in labels if len({output.lines.get(label) for output in outputs}) > 1]


def lines_at(output: Output, labels: Iterable[str]) -> Iterator[str]:
    """The lines of an output that are of these, with equal sectors in a row as one."""
    def likeness(label: str) -> tuple[str, Optional[str]]:
        return label.rpartition(" sector ")[0] or label, output.lines.get(label)

    for (of, line), those in groupby(labels, likeness):
        places = [label.rpartition(" ")[2] for label in those]
        if line is None:
            continue
        if line.startswith(("fill", "hex")):
            where = f"sector {places[0]}" if len(places) == 1 else f"sectors {places[0]} to {places[-1]}"
            yield f"{of} {where}: {line[:40]}"
        else:
            yield line if not of.startswith("phase") else " ".join(of.split()[:2]) + f": {line}"


def example_of(output: Output) -> str:
    """The `schedule` line of a list of turns that gives an output."""
    return "schedule " + schedule_text(joined(output.example)) if output.example else "no schedule line"


def phase_to_explore(items: list[Item]) -> int:
    """The number of the last phase in which several actors work; of the last one, where none has several."""
    phases = [item for item in items if isinstance(item, Phase)]
    several = [nr for nr, phase in enumerate(phases, 1) if len(phase.actors) > 1]
    return several[-1] if several else len(phases)
