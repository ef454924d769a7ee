"""The pages, or parts of pages, that are made from other files of the repository.

A made part stands in its page between the lines `<!-- made by .ci/made: NAME -->` and `<!-- end of NAME -->`.
"""
import itertools
import os
import re
from collections.abc import Callable

import contracts
import files
from definitions import Definition, closure, crates_in_order, sheet, spec_files

EXAMPLE = "examples/race_partial_writes"
LAYERS = {
    "base": "Base",
    "machine": "Machine",
    "jobs": "Jobs",
    "packing": "Packing",
    "pools": "Pools",
    "account and device": "Account and device",
}
# The call that carries the headline, with its clauses; and parts of what they rest on, in reading order: the heading
# of each part, and the definitions that it begins with, as CRATE.NAME. What no part has comes last.
TOP_CALL = ("job_session", "sim_main", "done", "refused")
PARTS = [
    ("What a job is", ["job_text.IsJob"]),
    ("What the generated job is", ["job_text.generated"]),
    ("In which form a page has to be kept", ["slot_entry.page_weight"]),
    ("What a report says", ["plain_disk.report"]),
    ("What an output may say", ["job_session.Legal"]),
    ("How an output is written down", ["job_print.text"]),
    ("By which turns it came about", ["job_session.Stepped", "job_session.AreOwn"]),
]


class Lost(Exception):
    """What a page is made from isn't there, or isn't as it must be: the message says the remedy."""


def table(head: list[str], rows: list[list[str]]) -> str:
    first, *others = ["| " + " | ".join(cells) + " |" for cells in [head, *rows]]
    return "\n".join([first, "|" + "---|" * len(head), *others])


# ---- a job beside its output


def said(group: str) -> list[tuple[str, str]]:
    """The lines of a group of notes, each with its half sentence: `LINE | half a sentence`."""
    pairs = []
    for note in group.strip().splitlines():
        line, _, half = (part.strip() for part in note.partition("|"))
        pairs.append((f"`{line}`", half))
    return pairs


def same_lines(noted: list[tuple[str, str]], path: str) -> None:
    """Lost where the notes don't have the lines of the stored file, without its comments, each with a half sentence."""
    stored = [line for line in files.text(path).splitlines() if not line.startswith("#")]
    for line, note in itertools.zip_longest(stored, noted):
        if line is None or note is None or note[0] != f"`{line}`" or not note[1]:
            here = note[0] if note else "the end"
            raise Lost(f"{EXAMPLE}.notes: {here} stands where {path} has {line}: write `{line} | half a sentence`")


def beside() -> str:
    """A stored job without its comment beside its output, phase by phase and line by line.

    In the notes the lines of a phase's job, and then those of its output, are a group each, with an empty line between.
    """
    groups = [said(group) for group in files.text(EXAMPLE + ".notes").split("\n\n")]
    jobs, outputs = groups[::2], groups[1::2]
    same_lines([pair for group in jobs for pair in group], EXAMPLE + ".job")
    same_lines([pair for group in outputs for pair in group], EXAMPLE + ".out")
    rows = []
    for job, output in itertools.zip_longest(jobs, outputs, fillvalue=[]):
        rows += [[*left, *right] for left, right in itertools.zip_longest(job, output, fillvalue=("", ""))]
    return table(["Line of the job", "What it says", "Line of the output", "What it says"], rows)


# ---- the definitions of the headline


def roots(names: list[str]) -> list[Definition]:
    """The definitions of these names, as CRATE.NAME, on which the top call rests."""
    whole = closure(contracts.cited_by(*TOP_CALL)).values()
    found = [each for each in whole if f"{each.crate}.{each.name}" in names and not each.is_type]
    if len(found) != len(names):
        raise Lost(f".ci/lib/pages.py: {TOP_CALL[1]} doesn't rest on {' and '.join(names)}: mend TOP_CALL or PARTS")
    return found


def lines_of(definitions: list[Definition]) -> str:
    return f"{len(definitions)} definitions, {sum(each.size for each in definitions)} lines"


def row_of(path: str, here: list[Definition]) -> list[str]:
    """A file with its definitions and their lines, and the sum."""
    names = ", ".join(f"`{each.name}` {each.size}" for each in here)
    return [f"`{path}`", names, str(sum(each.size for each in here))]


def by_file(definitions: list[Definition]) -> list[list[str]]:
    """A row for each file in reading order: its definitions with their lines, and the sum."""
    order = {path: number for number, path in enumerate(spec_files())}
    mine = sorted(definitions, key=lambda each: (order[each.path], each.line))
    rows = []
    for path, group in itertools.groupby(mine, key=lambda each: each.path):
        rows.append(row_of(path, list(group)))
    return rows


def part(heading: str, begins: list[Definition], seen: set[tuple[str, str]]) -> str:
    """A part of the page: what these definitions rest on and no part before has, which is seen from then on."""
    specs = [each for each in closure(begins).values() if not each.is_type]
    new = [each for each in specs if each.key not in seen]
    seen |= {each.key for each in specs}
    count = lines_of(specs)
    if len(new) < len(specs):
        count += f"; {len(new)} of them, {sum(each.size for each in new)} lines, stand in no table above"
    words = " and ".join(f"`{each.name}`" for each in sorted(begins, key=lambda each: each.line))
    head = ["File", "Definitions, each with its lines", "Lines"]
    return f"## {heading}\n\n{words}: {count}.\n\n" + table(head, by_file(new))


def headline() -> str:
    top = contracts.cited_by(*TOP_CALL)
    whole = closure(top).values()
    specs = [each for each in whole if not each.is_type]
    types = [each for each in whole if each.is_type]
    cited = " and ".join(f"`{each.name}`" for each in top)
    head = (
        f"The clauses `done` and `refused` cite {cited}. These rest on {len(specs)} definitions of"
        f" {sum(each.size for each in specs)} lines, in {len({each.path for each in specs})} files, and on {len(types)}"
        f" types of the code of {sum(each.size for each in types)} lines."
    )
    seen: set[tuple[str, str]] = set()
    parts = [part(heading, roots(names), seen) for heading, names in PARTS]
    last = part("The top call", top, seen)
    return "\n\n".join([head, *parts, last, "## The types of the code\n\n" + types_by_file(types)])


def types_by_file(types: list[Definition]) -> str:
    order = {crate: number for number, crate in enumerate(crates_in_order())}
    mine = sorted(types, key=lambda each: (order[each.crate], each.path, each.line))
    rows = []
    for path, group in itertools.groupby(mine, key=lambda each: each.path):
        rows.append(row_of(path, list(group)))
    return table(["File", "Types, each with its lines", "Lines"], rows)


# ---- what is proved, and the definitions that contracts cite


def by_layer() -> list[tuple[str, list[str]]]:
    return [
        (LAYERS[layer], [crate.name for crate in group])
        for layer, group in itertools.groupby(files.crates(), key=lambda crate: crate.layer)
        if layer in LAYERS
    ]


def promises(crate: str) -> list[list[str]]:
    """The promises of a crate's README, each with its functions and clauses, from the tables under "What is proved".

    A column headed "Clause of `f`" is of clauses of f.
    """
    found = []
    for each in files.tables(files.section(files.text(f"crates/{crate}/README.md"), "What is proved")):
        of = re.match(r"Clause of (.*)", each.head[-1])
        lead = f"{of.group(1).replace(' and of', ',')}: " if of else ""
        named = re.findall(r"`\w+`:?", lead)
        for promise, clause in (row for row in each.rows if len(row) == 2):
            found.append([promise, clause if any(f"{name.strip(':')}:" in clause for name in named) else lead + clause])
    return found


def proved() -> str:
    parts = []
    for layer, names in by_layer():
        parts.append(f"## {layer}")
        for name in names:
            rows = promises(name)
            if rows:
                parts.append(f"### {name}\n\n" + table(["Promise", "Function: clause"], rows))
    return "\n\n".join(parts)


def meaning(definition: Definition) -> str:
    """The sentence above a definition, as a cell of a table."""
    return re.sub(r"(?<!\\)\|", r"\\|", definition.says) or "-"


def definitions() -> str:
    """The definitions on which the clauses of public functions rest, file by file, with the sentences above them."""
    roots = [each for crate in files.crates() for each in contracts.cited(crate.name)]
    found = [each for each in closure(roots).values() if not each.is_type]
    order = {path: number for number, path in enumerate(spec_files())}
    found.sort(key=lambda each: (order[each.path], each.line))
    parts = [f"{len(found)} definitions."]
    for crate, of_crate in itertools.groupby(found, key=lambda each: each.crate):
        parts.append(f"## {crate}")
        for path, group in itertools.groupby(of_crate, key=lambda each: each.path):
            rows = [[f"`{each.name}`", meaning(each)] for each in group]
            parts.append(f"`{path}`: {sheet(path).head}\n\n" + table(["Name", "Meaning"], rows))
    return "\n\n".join(parts)


# ---- writing them

MADE: dict[str, Callable[[], str]] = {
    "a job beside its output": beside,
    "headline": headline,
    "proved": proved,
    "definitions": definitions,
}
WHOLE = re.compile(r"This page is made by `tools/\w+`")
MARK = re.compile(
    r"^<!-- made by \.ci/made: (?P<name>.*) -->\n.*?^<!-- end of (?P=name) -->$", re.MULTILINE | re.DOTALL
)


def renewed(page: str) -> str:
    """The text of a page with its made parts made anew."""
    def make(match: re.Match[str]) -> str:
        name = match["name"]
        if name not in MADE:
            raise Lost(f".ci/lib/pages.py makes no part called {name}: it has {', '.join(MADE)}")
        return f"<!-- made by .ci/made: {name} -->\n{MADE[name]()}\n<!-- end of {name} -->"

    return MARK.sub(make, page)


def made_pages() -> list[str]:
    return [path for path in files.tracked() if path.endswith(".md") and MARK.search(files.text(path))]


def whole_pages() -> list[str]:
    """The pages that a script of tools/ makes whole, as they say themselves."""
    return [path for path in files.tracked() if path.endswith(".md") and WHOLE.search(files.text(path))]


def others() -> list[str]:
    """The scripts of tools/ that make pages of their own, and compare them where they are given --check."""
    return [path for path in ("tools/races", "tools/manual") if os.access(files.at(path), os.X_OK)]
