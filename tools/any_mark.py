"""A wrong machine, in which a writeback keeps its page in its block where the page has some mark of a writeback, and not its
own: what the block in a mark is for.

All else is as in tools/model.py. While the device writes, other calls may remove the mark and another writeback may mark
the page anew, for other bytes. The first one then puts the page back as it was before these calls: `breaches` of
tools/judge.py says so.
"""
from __future__ import annotations

from actors import Local, Piece
from model import Machine
from visits import after_mark_is


def after_landing(local: Local, piece: Piece) -> str:
    """A writeback has taken the page's slot again, and tests for a mark of any block."""
    return after_mark_is(local, local.entry().under is not None)


class AnyMark(Machine):
    """The machine whose marks tell no block."""
    steps = {**Machine.steps, "Visiting Landing": Machine.steps["Visiting Landing"]._replace(after=after_landing)}
