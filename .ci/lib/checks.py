"""The repository's own rules. Each is a function that yields its breaches: path, line and remedy."""
import functools
import os
import re
import subprocess
from collections.abc import Iterator

import contracts
import files
import pages
from definitions import end_of, sheet, spec_files

Breach = tuple[str, int, str]

MOST_LINES = 800
MOST_BODY = 40
MOST_EDITS = 5
MOST_COLUMNS = 100
MOST_LONG = 3.0
PATH = re.compile(r"(?<![\w.])/(work|tmp|opt|root|home)/")
CITATION = re.compile(r"\b(documents?|papers?|requests?) (no\.? ?)?\d+\b", re.IGNORECASE)
PLACE = re.compile(r"crates/[a-z0-9_]+/(src|specs|proofs)/")
NAMED = re.compile(r"`((?:\.ci|bench|bin|crates|docs|examples|tools|man|editors)/[\w./-]+)")
HEADINGS = [
    "What it is",
    "What a contract sees",
    "What is proved",
    "What is only tested",
    "What is trusted",
    "Limits",
]
IMPORT = re.compile(r"\s*(?:pub )?(?:ghost )?use ")
# The laws of a trait's impl may cite lemmas of specs alone.
LEMMAS_OF_SPECS = {
    "crates/lock_row/specs/HandLaws.antt",
    "crates/lock_table/specs/HandLaws.antt",
    "crates/bench_lock_table/specs/TagRule.antt",
}
LANES = ("words", "halves", "quarters")


# ---- texts


def no_paths_nor_citations() -> Iterator[Breach]:
    """No path of a machine, and no citation of a document by its number."""
    for path in files.tracked():
        if path.startswith(".ci/"):
            continue
        for number, line in enumerate(files.text(path).splitlines(), 1):
            if PATH.search(line):
                yield path, number, "a path of a machine: name the file from the top of the repository"
            if CITATION.search(line):
                yield path, number, "a citation by number: state the rule here, or name a file of docs/"


def sources_in_crates() -> Iterator[Breach]:
    """Proved sources stand in the src, specs and proofs folders of a crate alone."""
    for path in files.tracked():
        if path.endswith((".rt", ".antt")) and not PLACE.match(path):
            yield path, 1, "move it into the src, specs or proofs of a crate that crates.txt lists"


def few_lines() -> Iterator[Breach]:
    """A file has at most 800 lines; a made page may have more."""
    made = set(pages.made_pages() + pages.whole_pages())
    for path in files.tracked():
        count = len(files.text(path).splitlines())
        if count > MOST_LINES and path not in made:
            yield path, MOST_LINES + 1, f"{count} lines: split the file, {MOST_LINES} are the most"


def named_files_are_there() -> Iterator[Breach]:
    """Each file that a page names in backticks, from the top of the repository, is there."""
    for path in files.tracked():
        if not path.endswith(".md"):
            continue
        for number, line in enumerate(files.text(path).splitlines(), 1):
            for named in NAMED.findall(line):
                if "NAME" not in named and "/out" not in named and not os.path.exists(files.at(named)):
                    yield path, number, f"{named} isn't there: name the file by its path from the top"


def pages_are_renewed() -> Iterator[Breach]:
    """Each made part of a page is what would be made now."""
    for path in pages.made_pages():
        try:
            if pages.renewed(files.text(path)) != files.text(path):
                yield path, 1, "it differs from what it is made from: run .ci/made"
        except pages.Lost as lost:
            yield path, 1, str(lost)
    for tool in pages.others():
        if subprocess.run([files.at(tool), "--check"], cwd=files.TOP, capture_output=True).returncode != 0:
            yield tool, 1, "its pages differ from what they are made from: run .ci/made"


def crates_are_listed() -> Iterator[Breach]:
    """The README lists the crates in the order of crates.txt."""
    listed = re.findall(r"^- `(\w+)`: ", files.text("README.md"), re.MULTILINE)
    for crate in files.crates():
        if not crate.layer:
            yield "crates.txt", 1, f"{crate.name} has no layer: put it below a line `# LAYER`"
        if crate.layer != "benches" and crate.name not in listed:
            yield "README.md", 1, f"a line `- `{crate.name}`: ..` is missing from the crates"
    known = [crate.name for crate in files.crates() if crate.name in listed]
    if [name for name in listed if name in known] != known:
        yield "README.md", 1, "the crates stand in another order than in crates.txt"


def arrows_are_right() -> Iterator[Breach]:
    """The README's drawing has arrows that lead to each crate of its layer on which a crate stands, and no others."""
    layer = {crate.name: crate.layer for crate in files.crates()}
    every = [(crate.name, other) for crate in files.crates() for other in crate.needs]
    needs = {(one, other) for one, other in every if layer[one] == layer.get(other)}
    drawn = set()
    for number, line in enumerate(files.text("README.md").splitlines(), 1):
        for one, other in re.findall(r"(?=\b(\w+) -> (\w+))", line):
            drawn.add((one, other))
            if (one, other) not in needs:
                yield "README.md", number, f"{one} doesn't stand on {other} in its layer: see crates.txt"
    for one, other in sorted(needs):
        if layer[one] != "benches" and other not in led_to(one, drawn):
            yield "README.md", 1, f"no arrow leads from {one} to {other}, on which it stands"


def led_to(name: str, drawn: set[tuple[str, str]]) -> set[str]:
    """The crates to which arrows lead from a crate, one after the other."""
    found, left = set(), [name]
    while left:
        now = left.pop()
        more = {other for one, other in drawn if one == now} - found
        found |= more
        left += more
    return found


def plain_words() -> Iterator[Breach]:
    """Pages and comments say after for what comes later, and out of memory: no 'behind', no 'wanting'."""
    made = set(pages.made_pages()) - {"README.md", "docs/JOBS.md", "docs/OUTPUT.md"}
    for path in files.tracked():
        if path in made or not path.endswith((".md", ".rt", ".antt", ".job", ".sh")):
            continue
        for number, line in enumerate(files.text(path).splitlines(), 1):
            said = line if path.endswith(".md") else "".join(re.findall(r"(?:--|//|#) .*", line))
            said = re.sub(r"`[^`]*`", "", said)  # names of code
            for word in re.findall(r"\b(?:behind|wanting)\b", said):
                yield path, number, f"'{word}': say after, or out of memory"


# ---- the READMEs of crates


def readmes_have_the_headings() -> Iterator[Breach]:
    """Each crate's README has the same headings, in the same order."""
    for crate in files.crates():
        path = f"crates/{crate.name}/README.md"
        if not os.path.exists(files.at(path)):
            yield path, 1, "it isn't there: each crate has one"
            continue
        found = re.findall(r"^## (.*)", files.text(path), re.MULTILINE)
        if found != HEADINGS:
            yield path, 1, f"its headings are {', '.join(found)}: they should be {', '.join(HEADINGS)}"


def promises_are_carried() -> Iterator[Breach]:
    """Each promise of a README names a function of its crate, and clauses of that function."""
    for crate in files.crates():
        path = f"crates/{crate.name}/README.md"
        if not os.path.exists(files.at(path)):
            continue
        known: dict[str, set[str]] = {}
        for each in contracts.functions(crate.name):
            for name in (each.called, each.name):
                known.setdefault(name, set()).update(each.clauses)
        for promise, clauses in pages.promises(crate.name):
            line = line_of(path, promise)
            for remedy in lost_clauses(clauses, known):
                yield path, line, remedy


def line_of(path: str, words: str) -> int:
    return next((number for number, line in enumerate(files.text(path).splitlines(), 1) if words in line), 1)


def lost_clauses(cell: str, known: dict[str, set[str]]) -> Iterator[str]:
    """What is wrong with a cell such as `f`, `g`: `a`, `b`; `h`: no such function, or no such clause of it."""
    for part in cell.split(";"):
        head, _, tail = part.partition("`:")
        names = re.findall(r"`([^`]+)`", head + ("`" if tail else ""))
        inside = [name for name in names if name in known]
        if not inside:
            yield f"'{part.strip()}' names no function: write `function`: `clause`"
            continue
        for name in names:
            if name not in known:
                yield f"the crate has no function {name}: name the one that carries the promise"
        has = set().union(*(known[name] for name in inside))
        own = re.sub(r"\([^)]*\)", "", tail).split("`:")[0] + "`"
        for clause in re.findall(r"`([a-z_0-9]+)`", own):
            if clause not in has:
                yield f"{', '.join(inside)} has no clause {clause}: name the one that carries the promise"


# ---- sources


def every_source() -> Iterator[tuple[str, str, list[str]]]:
    for crate in files.crates():
        for path in files.sources(crate.name):
            yield crate.name, path, files.text(path).splitlines()


def own_proofs_alone() -> Iterator[Breach]:
    """A crate cites no lemma of another crate of the repository."""
    ours = {crate.name for crate in files.crates()}
    for crate, path, lines in every_source():
        for number, line in enumerate(lines, 1):
            other = re.match(r"\s*(?:pub )?(?:ghost )?use Rattle\.(\w+)\.proofs\b", line)
            if other and other.group(1) in ours - {crate}:
                yield path, number, f"a lemma of {other.group(1)}: let a clause or a law of a public function say it"


def lemmas_are_cited() -> Iterator[Breach]:
    """Each lemma is cited: in its file outside its own text, or in a file of its crate that imports it."""
    for crate in files.crates():
        paths = files.sources(crate.name)
        elsewhere = set().union(*(cited_elsewhere(crate.name, path) for path in paths))
        for path, first, last, name in lemmas_of(crate.name):
            own = words_of(path).get(name, [])
            if "/TheSendSync/" in path:  # an answer, which the checker names
                continue
            if (path, name) not in elsewhere and all(first <= number < last for number in own):
                yield path, first, f"nothing cites the lemma {name}: delete it"


@functools.cache
def words_of(path: str) -> dict[str, list[int]]:
    """The words of a file outside its imports and comments, each with its lines."""
    found: dict[str, list[int]] = {}
    for number, line in enumerate(joined(path), 1):
        if not IMPORT.match(line):
            for word in re.findall(r"[A-Za-z_][\w'-]*", line.split("-- ")[0]):
                found.setdefault(word, []).append(number)
    return found


def cited_elsewhere(crate: str, path: str) -> set[tuple[str, str]]:
    """The lemmas of other files that a file cites, as (path, name): by an import of them or of their file, or by their
    whole path.
    """
    known = contracts.known_names(path)
    found = {known[word] for word in words_of(path).keys() & known.keys()}
    for place, name in re.findall(r"\bcrate::(proofs(?:::\w+)*)::([\w'-]+)", files.text(path)):
        found.add((crate + "." + place.replace("::", "."), name))
    text = "\n".join(line.split("-- ")[0] for line in joined(path) if not IMPORT.match(line))
    for module, name in re.findall(r"(?<![\w.'-])(\w+)\.([A-Za-z_][\w'-]*)", text):
        if module in known:
            found.add((".".join(known[module]), name))
    return {("crates/" + place.replace(".", "/") + ".antt", name) for place, name in found}


def joined(path: str) -> list[str]:
    """The lines of a file, where those of an import that goes over several lines are empty but the first."""
    lines, inside = [], False
    for line in files.text(path).splitlines():
        opens = bool(IMPORT.match(line)) and "{" in line and "}" not in line
        lines.append("use " if inside else line)
        inside = opens or (inside and "}" not in line)
    return lines


LEMMA = re.compile(r"^(?P<indent> *)(?:pub )?(?P<name>[A-Za-z_][\w'-]*) :")


def lemmas_of(crate: str) -> Iterator[tuple[str, int, int, str]]:
    """The lemmas of a crate's proofs, but for the files of functions: path, first line, line after, name."""
    for path in files.sources(crate, "proofs", endings=(".antt",)):
        if os.path.basename(path) not in ("Answers.antt", "Invariants.antt", "Proof.antt", "Lib.antt"):
            yield from lemmas_in(path)


def lemmas_in(path: str) -> Iterator[tuple[str, int, int, str]]:
    """The lemmas of a file: at the margin, or two columns deep in a module."""
    lines = files.text(path).splitlines()
    margin = ""
    for number, line in enumerate(lines):
        if line.strip() and not line.startswith(" "):
            margin = "  " if line.startswith("module ") else ""
        match = LEMMA.match(line)
        if match and match["indent"] in ("", margin):
            yield path, number + 1, end_of(lines, number, len(match["indent"]), match["name"]) + 1, match["name"]


def short_functions() -> Iterator[Breach]:
    """A function's body has at most 40 lines."""
    for _, path, lines in every_source():
        if not path.endswith(".rt") or path.endswith("tests.rt"):
            continue
        for number, line in enumerate(lines):
            match = contracts.FUNCTION.match(line)
            if not match:
                continue
            body = body_lines(lines, number, len(match["indent"]))
            if body > MOST_BODY:
                yield path, number + 1, f"{match['name']} has {body} lines: split it, {MOST_BODY} are the most"


def body_lines(lines: list[str], number: int, indent: int) -> int:
    """The lines between a function's braces."""
    margin = " " * indent
    opening = number
    while lines[opening] != margin + "{":
        in_head = not any(contracts.CLAUSE.search(line) for line in lines[number:opening + 1])
        if in_head and lines[opening].endswith(" {"):
            break
        opening += 1
        if opening == len(lines) or lines[opening].startswith("}") or contracts.FUNCTION.match(lines[opening]):
            return 0
    closing = next((at for at in range(opening + 1, len(lines)) if lines[at] == margin + "}"), opening + 1)
    return closing - opening - 1


def long_share() -> tuple[int, int]:
    """The lines of sources over 100 columns, imports left out, and all lines."""
    long = total = 0
    for _, path, lines in every_source():
        total += len(lines)
        long += sum(1 for line in joined(path) if len(line) > MOST_COLUMNS and not IMPORT.match(line))
    return long, total


def short_lines() -> Iterator[Breach]:
    """Less than 3 of 100 lines pass 100 columns, imports left out."""
    long, total = long_share()
    if 100 * long >= MOST_LONG * total:
        share = f"{long} of {total} lines pass {MOST_COLUMNS} columns ({100 * long / total:.1f} %)"
        yield "crates", 1, f"{share}: break terms of proofs, types of lemmas and clauses"


def specs_have_no_lemmas() -> Iterator[Breach]:
    """Files of specs hold definitions (`abbrev`, `unfoldable`, `record`, `data`), and no lemma (plain `NAME :`)."""
    for path in spec_files():
        if path in LEMMAS_OF_SPECS:
            continue
        for _, line, _, name in lemmas_in(path):
            yield path, line, f"{name} has a body that nobody unfolds, as a lemma: move it into proofs"
        for number, line in enumerate(files.text(path).splitlines(), 1):
            if re.match(r"use Rattle\.std\.proofs\b", line):
                yield path, number, "a file of specs imports proofs: move what needs them into proofs"


def tables_are_whole() -> Iterator[Breach]:
    """A row of a table in a comment stands on one line."""
    for _, path, lines in every_source():
        inside = False
        for number, line in enumerate(lines, 1):
            said = re.match(r"\s*(?://[/!]?|--) (.*)", line)
            begins = bool(said) and said.group(1).startswith("|")
            ends = bool(said) and said.group(1).endswith("|")
            if begins != ends and (begins or inside):
                yield path, number, "a row of a table is broken: keep it on one line, however long"
            inside = begins


def definitions_have_sentences() -> Iterator[Breach]:
    """Above each definition of specs stands a sentence with its meaning."""
    for path in spec_files():
        for each in sheet(path).definitions.values():
            if not each.says and not each.is_lemma:
                yield path, each.line, f"no sentence stands above {each.name}: say what it means"


def few_edits() -> Iterator[Breach]:
    """A crate has at most five edits that must fail: those that tell most."""
    for crate in files.crates():
        folder = f"crates/{crate.name}/must-fail"
        edits = [path for path in files.tracked() if path.startswith(folder + "/") and path.endswith(".edit")]
        if len(edits) > MOST_EDITS:
            yield folder, 1, f"{len(edits)} edits: keep the {MOST_EDITS} that tell most"


def named_lemmas_are_there() -> Iterator[Breach]:
    """Each lemma that docs/NAMES.md gives as an example stands in some crate."""
    path = "docs/NAMES.md"
    known = {name for crate in files.crates() for _, _, _, name in lemmas_of(crate.name)}
    for each in files.tables(files.section(files.text(path), "Lemmas")):
        for row in each.rows:
            for name in re.findall(r"`([^`]+)`", row[-1]):
                if name not in known:
                    yield path, line_of(path, f"`{name}`"), f"no lemma is called {name}: give another example"


# ---- one text for three widths


def lanes_are_one_text() -> Iterator[Breach]:
    """The files of bdi_line for words, halves and quarters are one text, but for what names a width."""
    paths = {name: f"crates/bdi_line/src/{name}.rt" for name in LANES}
    if not all(os.path.exists(files.at(path)) for path in paths.values()):
        return
    texts = {name: functions_by_width(path) for name, path in paths.items()}
    for name in LANES[1:]:
        path = paths[name]
        for function, versions in texts[name].items():
            first = texts[LANES[0]].get(function)
            if first is None:
                yield path, 1, f"{LANES[0]}.rt has no function as {function}"
            elif not versions <= first:
                yield path, 1, f"{function} isn't the text of {LANES[0]}.rt for this width"
        for function in texts[LANES[0]].keys() - texts[name].keys():
            yield path, 1, f"a function as {function} of {LANES[0]}.rt is missing"


def without_width(text: str) -> str:
    """A text with the names, types and numbers of its width replaced."""
    text = re.sub(r"u\d+x\d+", "Lanes", re.sub(r"\bu(8|16|32|64)\b", "uN", text))
    text = re.sub(r"(?<![A-Za-z])\d+", "#", text)
    text = re.sub(r"words|halves|quarters", "lanes", re.sub(r"Words|Halves|Quarters", "Lanes", text))
    text = re.sub(r"Word|Half|Quarter", "Lane", text)
    text = re.sub(r"(?<![a-z])(word|half|quarter)(?![a-z])", "lane", text)
    return re.sub(r"#(\s*,\s*#)+,?", "#s", re.sub(r"\s+", " ", text))


def functions_by_width(path: str) -> dict[str, set[str]]:
    """The functions of a file without their widths, by their names without widths."""
    found: dict[str, set[str]] = {}
    lines = files.text(path).splitlines()
    for number, line in enumerate(lines):
        match = contracts.FUNCTION.match(re.sub(r"pub\(crate\) ", "pub ", line))
        if not match or "#[test]" in lines[number - 1]:
            continue
        margin = match["indent"]
        closing = next((at for at in range(number, len(lines)) if lines[at] == margin + "}"), number)
        text = without_width("\n".join(lines[number:closing + 1]))
        text = re.sub(r"\[ ?#s? ?\]", "[#s]", re.sub(r",? \)", ")", re.sub(r"\( ", "(", text)))
        found.setdefault(without_width(match["name"]), set()).add(text)
    return found


# ---- all of them

RULES = [
    no_paths_nor_citations,
    sources_in_crates,
    few_lines,
    named_files_are_there,
    pages_are_renewed,
    crates_are_listed,
    arrows_are_right,
    readmes_have_the_headings,
    promises_are_carried,
    short_functions,
    lanes_are_one_text,
    own_proofs_alone,
    short_lines,
    named_lemmas_are_there,
    lemmas_are_cited,
    specs_have_no_lemmas,
    definitions_have_sentences,
    few_edits,
    plain_words,
    tables_are_whole,
]
