"""The definitions of specs and the types of the code, and which of them a definition rests on.

A definition is known by its crate, its file and its name. It rests on the names in its text, as its file declares or
imports them. Names of std are left out, and so are the names of fields.
"""
import functools
import re
from dataclasses import dataclass, field

import files

HEAD = re.compile(r"^(?P<indent> *)(?:abbrev |unfoldable )?pub (?:(?P<kind>record|data) )?(?P<name>[^\s:({]+)")
WORD = re.compile(r"(?<![\w.'-])[A-Za-z_][\w'-]*")
USE = re.compile(
    r"^ *(?:pub )?(?:ghost )?use Rattle\.(?P<path>[\w.-]+?)"
    r"(?:\.\{(?P<names>[^}]*)\}| as (?P<alias>[\w'-]+))?;?$"
)
TYPE = re.compile(r"^(?:pub(?:\([a-z]+\))? )?(?:struct|enum|type) (?P<name>\w+)")
USE_RUST = re.compile(r"^(?:pub )?use (?P<crate>\w+)::(?P<names>[^;]*);", re.MULTILINE)


@dataclass
class Definition:
    crate: str
    path: str
    name: str
    line: int
    lines: list[str]
    says: str = ""
    is_type: bool = False
    is_lemma: bool = False
    words: set[str] = field(default_factory=set)

    @property
    def key(self) -> tuple[str, str]:
        return (self.path, self.name)

    @property
    def size(self) -> int:
        """Its lines, without comments, attributes and blank lines."""
        return sum(1 for line in self.lines if line.strip() and not re.match(r"\s*(--|//|#\[)", line))


@dataclass
class Sheet:
    """What a file declares, and where the names that it imports stand."""

    path: str
    head: str = ""
    definitions: dict[str, Definition] = field(default_factory=dict)
    imports: dict[str, tuple[str, str]] = field(default_factory=dict)


def joined_uses(lines: list[str]) -> list[str]:
    """The lines, where a `use` that goes over several is one."""
    found: list[str] = []
    for line in lines:
        if found and re.match(r"\s*(?:pub )?(?:ghost )?use ", found[-1]) and "{" in found[-1] and "}" not in found[-1]:
            found[-1] += " " + line.strip()
        else:
            found.append(line)
    return found


def imports(lines: list[str]) -> dict[str, tuple[str, str]]:
    """For each name that the lines import: the path without Rattle, and the name there."""
    found: dict[str, tuple[str, str]] = {}
    for line in joined_uses(lines):
        use = USE.match(line)
        if not use or use["path"].startswith("std."):
            continue
        if use["names"] is None:
            path, _, name = use["path"].rpartition(".")
            found[use["alias"] or name] = (path, name)
            continue
        for item in filter(None, (item.strip() for item in use["names"].split(","))):
            name, _, alias = item.partition(" as ")
            found[alias or name] = (use["path"], name)
    return found


def words(lines: list[str]) -> set[str]:
    """The names in a definition's text: no comments, no names of fields."""
    whole = "\n".join(line.split("-- ")[0] for line in lines)
    whole = re.sub(r"\bpub ([\w'-]+)(?= :)", " ", whole)
    whole = re.sub(r"([{;] *)[\w'-]+ = ", r"\1", whole)
    return set(WORD.findall(whole))


def comment_above(lines: list[str], number: int) -> str:
    """The `--` lines directly above a line, as one text."""
    said: list[str] = []
    while number > 0 and lines[number - 1].lstrip().startswith("--"):
        number -= 1
        said.insert(0, lines[number].strip()[2:].strip())
    return "" if said and said[0].startswith("--") else " ".join(said)


def end_of(lines: list[str], number: int, indent: int, name: str) -> int:
    """The line after a definition that begins at a line: its equations and all that stands deeper belong to it."""
    last = number
    for later in range(number + 1, len(lines)):
        line = lines[later]
        if not line.strip():
            continue
        depth = len(line) - len(line.lstrip())
        same = depth == indent and (re.match(rf"{re.escape(name)}(?![\w'-])", line.strip()) or line.strip() == "}")
        if depth <= indent and not same:
            break
        last = later
    return last + 1


@functools.cache
def sheet(path: str) -> Sheet:
    """The definitions of a file of specs."""
    lines = files.text(path).splitlines()
    head = re.match(r"-- (.*)", lines[0]) if lines else None
    found = Sheet(path, head.group(1) if head else "", {}, imports(lines))
    crate = path.split("/")[1]
    number, given = 0, set()
    while number < len(lines):
        line = lines[number]
        match = HEAD.match(line)
        if line.startswith("module "):
            given = words([line])
        if match is None or match["name"] in ("use", "mod") or line.strip().startswith("pub use"):
            number += 1
            continue
        end = end_of(lines, number, len(match["indent"]), match["name"])
        body = lines[number:end]
        found.definitions[match["name"]] = Definition(
            crate, path, match["name"], number + 1, body, comment_above(lines, number),
            is_lemma=is_lemma(line, match["kind"]), words=words(body) | (given if match["indent"] else set()),
        )
        number = end
    return found


def is_lemma(line: str, kind: str | None) -> bool:
    """A plain `pub NAME : ..` of specs has a body that nobody unfolds: a proof."""
    return kind is None and re.match(r" *pub [^\s:({]+ :", line) is not None


@functools.cache
def types(crate: str) -> dict[str, Definition]:
    """The structs, enums and names of types that a crate declares."""
    found: dict[str, Definition] = {}
    for path in files.sources(crate, "src", endings=(".rt",)):
        lines = files.text(path).splitlines()
        for number, line in enumerate(lines):
            match = TYPE.match(line)
            if match is None:
                continue
            end = number + 1
            if line.endswith("{"):
                end = next(later for later in range(number, len(lines)) if lines[later] == "}") + 1
            body = lines[number:end]
            code = [re.sub(r"//.*", "", line) for line in body]
            found[match["name"]] = Definition(
                crate, path, match["name"], number + 1, body, doc_above(lines, number), True,
                words=set(re.findall(r"[A-Z]\w+", "\n".join(code))),
            )
    return found


def doc_above(lines: list[str], number: int) -> str:
    said: list[str] = []
    while number > 0 and re.match(r"///|#\[|//", lines[number - 1]):
        number -= 1
        if lines[number].startswith("///"):
            said.insert(0, lines[number][3:].strip())
    return " ".join(said)


@functools.cache
def imported_types(path: str) -> dict[str, str]:
    """The crates of the types that a source file imports."""
    found = {}
    for use in USE_RUST.finditer(files.text(path)):
        for name in re.findall(r"\w+", use["names"]):
            found[name] = use["crate"]
    return found


def type_named(crate: str, path: str, name: str) -> Definition | None:
    if name in types(crate):
        return types(crate)[name]
    other = imported_types(path).get(name, "")
    known = {each.name for each in files.crates()}
    return types(other).get(name) if other in known else None


def found_at(path: str, name: str) -> Definition | None:
    """The definition or type at an import's path, as `zr_base.specs.Plain` or `zr_base.specs.declared.op.Op`."""
    parts = path.split(".")
    if "declared" in parts:
        known = types(parts[0])
        names = parts[parts.index("declared") + 1:] + [name]
        return next((known[part] for part in reversed(names) if part in known), None)
    if len(parts) < 2 or parts[1] != "specs":
        return None
    return named_in("crates/" + "/".join(parts) + ".antt", name)


def named_in(path: str, name: str) -> Definition | None:
    """What a name stands for in a file of specs: its own definition, or one that it imports."""
    try:
        own = sheet(path)
    except FileNotFoundError:
        return None
    if name in own.definitions:
        return own.definitions[name]
    if name in own.imports:
        return found_at(*own.imports[name])
    return None


def rests_on(definition: Definition) -> list[Definition]:
    """The definitions and types whose names stand in its text."""
    names = sorted(definition.words - {definition.name})
    if definition.is_type:
        found = [type_named(definition.crate, definition.path, name) for name in names]
    else:
        found = [named_in(definition.path, name) for name in names]
    return [each for each in found if each is not None and each.key != definition.key]


def closure(roots: list[Definition]) -> dict[tuple[str, str], Definition]:
    """The roots with all that they rest on."""
    found, left = {}, list(roots)
    while left:
        each = left.pop()
        if each.key not in found:
            found[each.key] = each
            left += rests_on(each)
    return found


@functools.cache
def crates_in_order() -> list[str]:
    """The crates in reading order: a crate stands after those on which it stands, else as in crates.txt."""
    needs = {crate.name: crate.needs for crate in files.crates()}
    order: list[str] = []

    def visit(name: str) -> None:
        if name in needs and name not in order:
            for other in needs[name]:
                visit(other)
            order.append(name)

    for name in needs:
        visit(name)
    return order


@functools.cache
def spec_files() -> list[str]:
    """The files of specs in reading order: crate by crate, and a file stands after those that it imports."""
    order: list[str] = []
    seen: set[str] = set()

    def visit(path: str) -> None:
        if path in seen:
            return
        seen.add(path)
        for place, _ in sheet(path).imports.values():
            parts = place.split(".")
            other = "crates/" + "/".join(parts) + ".antt"
            if len(parts) > 2 and parts[0] == path.split("/")[1] and other in known:
                visit(other)
        order.append(path)

    for crate in crates_in_order():
        known = {path for path in files.sources(crate, "specs") if not path.endswith("/Lib.antt")}
        for path in sorted(known):
            visit(path)
    return order
