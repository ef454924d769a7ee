"""The public functions of a crate, their clauses, and the definitions that these cite."""
import functools
import re
from dataclasses import dataclass, field

import files
from definitions import WORD, Definition, found_at, imports

OPENS = re.compile(r"^(?P<unsafe>unsafe )?(?:pub )?(?P<kind>impl|trait|struct|enum)\b(?P<rest>.*)")
FUNCTION = re.compile(r"^(?P<indent> *)(?P<pub>pub )?(?:const |unsafe )*fn (?P<name>\w+)")
MODEL = re.compile(r"^impl(?:<(?:[^<>]|<[^<>]*>)*>)? Model for (\w+).*?ghost Value = \{(.*?)\};", re.MULTILINE | re.DOTALL)
CLAUSE = re.compile(r"\b(?:requires|ensures)\b *(?P<name>[a-z_0-9]*) *\{")


@dataclass
class Function:
    owner: str
    name: str
    path: str
    line: int
    is_public: bool
    text: str = ""
    clauses: set[str] = field(default_factory=set)

    @property
    def called(self) -> str:
        return f"{self.owner}::{self.name}" if self.owner else self.name


@functools.cache
def public_names(crate: str) -> set[str]:
    """The names that a crate's root file hands on or declares."""
    found: set[str] = set()
    for path in (f"crates/{crate}/src/lib.rt", f"crates/{crate}/src/main.rt"):
        try:
            root = files.text(path)
        except FileNotFoundError:
            continue
        for use in re.findall(r"^pub use ([^;]*);", root, re.MULTILINE):
            found |= set(re.findall(r"\w+", use))
        found |= set(re.findall(r"^pub (?:fn|struct|enum|trait|type|const) (\w+)", root, re.MULTILINE))
    return found


def owner_of(line: str) -> str:
    """The type or trait whose block a line opens."""
    match = OPENS.match(line)
    if not match:
        return ""
    rest = re.sub(r"^<(?:[^<>]|<[^<>]*>)*>", "", match["rest"]).strip()
    target = re.search(r"\bfor (\w+)|\bfor &mut (\w+)", rest)
    if target:
        return target.group(1) or target.group(2)
    name = re.match(r"\w+", rest)
    return name.group(0) if name else ""


@functools.cache
def functions(crate: str) -> list[Function]:
    """A crate's functions with the text of their heads and clauses, tests left out."""
    found: list[Function] = []
    for path in files.sources(crate, "src", endings=(".rt",)):
        if not path.endswith("tests.rt"):
            found += functions_in(crate, path)
    return found


def functions_in(crate: str, path: str) -> list[Function]:
    found: list[Function] = []
    owner, of_trait, now = "", False, None
    for number, line in enumerate(files.text(path).splitlines(), 1):
        if line and not line[0].isspace() and OPENS.match(line):
            owner = owner_of(line)
            of_trait = " for " in line or line.startswith(("pub trait", "trait"))
        elif line.startswith("}"):
            owner, of_trait = "", False
        match = FUNCTION.match(line)
        if match:
            inside = owner if match["indent"] else ""
            named = (inside or match["name"]) in public_names(crate)
            is_public = named and (bool(match["pub"]) or (of_trait and bool(inside)))
            now = Function(inside, match["name"], path, number, is_public)
            found.append(now)
        if now is not None:
            now.text += line + "\n"
            in_head = not CLAUSE.search(now.text)
            if line.strip() == "{" or line.startswith("}") or (in_head and line.endswith((" {", ";", "}"))):
                now = None
    for each in found:
        each.clauses = {name for name in CLAUSE.findall(each.text) if name}
    return found


def clause_words(text: str, only: tuple[str, ...] = ()) -> set[str]:
    """The names in the clauses of a function's head, or in those of some names."""
    found: set[str] = set()
    for match in CLAUSE.finditer(text):
        if only and match["name"] not in only:
            continue
        depth, end = 1, match.end()
        while depth and end < len(text):
            depth += {"{": 1, "}": -1}.get(text[end], 0)
            end += 1
        found |= set(WORD.findall(text[match.end():end - 1]))
    return found


def known_names(path: str) -> dict[str, tuple[str, str]]:
    """For each name that a source file imports for its clauses: the path and the name there."""
    return imports([line.strip() for line in files.text(path).splitlines()])


def cited_by(crate: str, name: str, *clauses: str) -> list[Definition]:
    """The definitions that some clauses of a function name."""
    for each in functions(crate):
        if each.called == name:
            known = known_names(each.path)
            names = sorted(clause_words(each.text, clauses) & known.keys())
            found = [found_at(*known[word]) for word in names]
            return [definition for definition in found if definition is not None and not definition.is_type]
    return []


def cited(crate: str) -> list[Definition]:
    """The definitions that the clauses of a crate's public functions name, and the values of its public models."""
    found: dict[tuple[str, str], Definition] = {}
    for path in files.sources(crate, "src", endings=(".rt",)):
        if path.endswith("tests.rt"):
            continue
        text = files.text(path)
        known = known_names(path)
        names: set[str] = set()
        for each in functions_in(crate, path):
            if each.is_public:
                names |= clause_words(each.text)
        for model, value in MODEL.findall(text):
            if model in public_names(crate):
                names |= set(WORD.findall(value))
        for name in sorted(names & known.keys()):
            definition = found_at(*known[name])
            if definition is not None:
                found[definition.key] = definition
    return list(found.values())
