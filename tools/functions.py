"""The functions of a crate's code, the lines that they stand on, and the places that a must-fail edit changes."""
import re
from dataclasses import dataclass, field
from pathlib import Path

TOP = Path(__file__).resolve().parent.parent
FUNCTION = re.compile(r'( *)(pub(?:\(crate\))? )?(?:const )?(?:unsafe )?(?P<exported>extern "C" )?fn (?P<name>\w+)')
OWNER = re.compile(r"(?:pub )?(?:impl(?:<.*?>)? (?:(?:\w+::)*(\w+)(?:<.*>)? for )?|trait )(\w+)")


@dataclass
class Function:
    """A function: its name, with that of its type before it, and the trait's too, its lines, and what kind it is."""

    name: str
    in_trait: str
    file: str
    begin: int
    end: int
    is_public: bool
    is_law: bool = False
    has_body: bool = True
    edits: list = field(default_factory=list)


def exported(root):
    """The names that the text of a crate's root makes public, alone and with the module that has them."""
    names = set(re.findall(r"^pub (?:fn|struct|enum|trait) (\w+)", root, re.M))
    names |= {f"lib::{it}" for it in names}
    for path in re.findall(r"pub use ([^;]+);", root):
        own = {it.split("::")[-1].strip() for it in re.sub(r"^[^{]*\{|\}$", "", path).split(",")}
        names |= own | {f"{path.split('::')[0].strip()}::{it}" for it in own}
    return names


def last_line(lines, begin, indent):
    """The last line of the function that begins at a line, and whether it has a body."""
    for number in range(begin, len(lines)):
        line = lines[number]
        if line == indent + "}" or re.match(indent + r"(\S.*)?\{\}$", line):
            return number, True
        if line.endswith(";") and not any(it.endswith("{") and it.startswith(indent) for it in lines[begin:number]):
            return number, False
    return len(lines) - 1, True


def functions_of(file, inside, names):
    """The functions of a file of a crate whose root makes these names public."""
    lines, found, owner, trait, of_trait = file.read_text().split("\n"), [], None, "", False
    for number, line in enumerate(lines):
        if line == "}":
            owner = None
        opened = OWNER.match(line)
        if opened:
            owner, trait, of_trait = opened[2], opened[1] or "", bool(opened[1]) or "trait " in line[:10]
        begun = FUNCTION.match(line)
        if not begun or begun[1] and not owner:
            continue
        end, has_body = last_line(lines, number, begun[1])
        name = f"{owner}::{begun['name']}" if begun[1] else begun['name']
        module = re.sub(r"\.rt$", "", inside.split("/")[1])
        is_named = (owner if begun[1] else f"{module}::{begun['name']}") in names
        is_public = bool(begun["exported"]) or is_named and (begun[2] == "pub " or bool(begun[1]) and of_trait)
        body = "\n".join(lines[number : end + 1])
        is_law = not begun[1] and f"fn {name}()\n" in body and "\n    ensures" in body
        in_trait = f"{owner}::{trait}::{begun['name']}" if begun[1] and trait else name
        found.append(Function(name, in_trait, inside, number, end, is_public, is_law, has_body))
    return found


def sources(crate):
    """The files of a crate's code, without those of its tests."""
    for file in sorted((crate / "src").rglob("*.rt")):
        inside = file.relative_to(crate).as_posix()
        if not re.search(r"/(tests|testing|samples)(\.rt$|/)", inside):
            yield file, inside


def places_changed(edit, crate):
    """Each place, a file and a line, of which an edit changes the text."""
    file, texts = "", {}
    old = None
    for line in edit.read_text().split("\n"):
        key, _, text = line.partition(": ")
        if key == "file":
            file = text.strip()
        elif key == "old":
            old = text
        elif line.startswith("new:") and old is not None:
            known = texts.get(file) or (crate / file).read_text()
            yield file, known[: known.find(old)].count("\n") if old in known else -1
            texts[file], old = known.replace(old, text), None


def changed(edit, crate):
    """The files of a crate that an edit changes, each with its text before and after; an edit has to fit."""
    texts, file, old = {}, None, ""
    for line in edit.read_text().split("\n"):
        key, _, text = line.partition(": ")
        if key == "file":
            file = crate / text.strip()
            before = file.read_text()
            texts.setdefault(file, (before, before))
        elif key == "old":
            old = text
        elif line.startswith("new:"):
            before, after = texts[file]
            if after.count(old) != 1:
                raise ValueError(f"{edit.name}: {old!r} doesn't stand once in {file.name}")
            texts[file] = before, after.replace(old, text)
    return texts


def change(edit, crate):
    """Makes an edit in a crate, and gives the files that it changed with their old texts."""
    texts = changed(edit, crate)
    for file, (_, after) in texts.items():
        file.write_text(after)
    return {file: before for file, (before, _) in texts.items()}


def crates():
    """The names in crates.txt, in its order."""
    return [it.split(":")[0].split()[0] for it in (TOP / "crates.txt").read_text().split("\n") if it and it[0] != "#"]


def edits_of(crate):
    return sorted((crate / "must-fail").glob("*.edit"))


def held_by(edit, crate, functions):
    """Those of some functions whose lines hold a place that an edit changes, each once."""
    places = list(places_changed(edit, crate))
    return [it for it in functions if any(file == it.file and it.begin <= line <= it.end for file, line in places)]
