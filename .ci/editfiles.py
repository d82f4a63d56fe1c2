"""Edit files: each says in words what is wrong, and then which texts of a crate's files are replaced by which.

    refused at: FILE THEOREM      (of a wrong definition: a place where the theorems of laws, or the tables of spec, must refuse it)
    file: src/lib.rt              (holds for the replacements after it)
    old: a text that the file has once
    new: what is put in its place
"""
import pathlib, re, sys
from collections import namedtuple

ROOT = pathlib.Path(__file__).resolve().parent.parent
LAWS = ROOT / "crates/laws/specs"
SPEC = ROOT / "crates/spec/specs"
HEAD = re.compile(r" *(?:pub )?(\S+) :|(?:pub )?(\S+)$")  # of a theorem, also in a section; a name may have its line alone

# crate: the one that is changed; places: where it must be refused; pairs: its replacements (file, old, new)
Edit = namedtuple("Edit", "name crate places pairs")


def read(crate, path):
    places, pairs, file, old = [], [], None, None
    for line in path.read_text().splitlines():
        if line.startswith("refused at: "):
            places.append(line[12:].split())
        elif line.startswith("file: "):
            file = line[6:]
        elif line.startswith("old: "):
            old = line[5:]
        elif line.startswith("new:"):
            pairs.append((file, old, line[5:]))
    return Edit(path.stem, crate, places, pairs)


def must_fail():
    """Those that rt ci tries, each with its whole crate."""
    return [read(path.parent.parent.name, path) for path in sorted((ROOT / "crates").glob("*/must-fail/*.edit"))]


def below():
    """Those in the folders of tests/edits, each with its crate."""
    return [read(path.parent.name, path) for path in sorted((ROOT / "tests/edits").glob("*/*.edit"))]


def is_definition(edit):
    """Of `spec` the definitions are edited, and the little code that it has."""
    return edit.crate == "spec" and any(file.startswith("specs/") for file, _, _ in edit.pairs)


def finer():
    """The wrong programs that rt ci does not try."""
    return [edit for edit in below() if not is_definition(edit)]


def wrong_programs():
    """Those that .ci/wrong tries, each with what it touches: all wrong programs."""
    return must_fail() + finer()


def by_theorems():
    """The wrong definitions that .ci/edits puts to the theorems of laws."""
    return [read("spec", path) for path in sorted((ROOT / "tests/edits").glob("*.edit"))]


def by_tables():
    """The wrong definitions that .ci/edits puts to the tables of spec."""
    return [edit for edit in below() if is_definition(edit)]


def heads(lines):
    """The names of the theorems that begin on these lines."""
    return [head[1] or head[2] for head in map(HEAD.match, lines) if head]


def named(at, root=LAWS):
    """The files of a place, by their names without ending: those of the folder, or the one, that have the theorem, where one is named."""
    files = [root / f"{at[0]}.antt"] if not (root / at[0]).is_dir() else sorted((root / at[0]).glob("*.antt"))
    there = [path for path in files if path.is_file() and (len(at) == 1 or at[1] in heads(path.read_text().splitlines()))]
    return {path.relative_to(root).with_suffix("").as_posix() for path in there}


def misfit(edit):
    """Why the edit cannot be made, or None."""
    for file, old, _ in edit.pairs:
        path = ROOT / "crates" / edit.crate / (file or "")
        times = path.read_text().count(old) if path.is_file() and old else 0
        if times != 1:
            return f"'{old}' is in {file} {times} times"
    return None if edit.pairs else "it replaces nothing"


def need_fit(edits):
    """Ends the program where an edit cannot be made, so that no text is replaced twice or not at all."""
    misfits = [f"{edit.crate}/{edit.name}" for edit in edits if misfit(edit)]
    if misfits:
        sys.exit(f"these edits do not fit: {' '.join(misfits)}")
