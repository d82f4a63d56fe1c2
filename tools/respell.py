#!/usr/bin/env python3
"""Brings this repository's own names to the spelling of today's Rattle. Run once, at the top, right after the kit's port.py.

Functions, lemmas, fields and constructors that specs/ and proofs/ define get snake case: `pagesInUse` becomes `pages_in_use`. A dash stays
only where it joins the names of two definitions, as in `or_else-none`; a plain word is added with `_`, as in `price_of`. A lemma whose name the
kit's own library has too keeps it. Types, modules and what src/ declares keep their names, strings too.

    python3 tools/respell.py          rewrites crates/ and lays it out; tools/respelled.txt keeps each old name with its new one
    python3 tools/respell.py --list   prints each old name with its new one, and the names that would fall together
"""
import collections, pathlib, re, subprocess, sys

ROOT = pathlib.Path(__file__).resolve().parent.parent
TOKEN = re.compile(r"""[^\s(){}\[\];,."⌜⌝`|/:*&<>=!?+]+""")
STRING = re.compile(r'b?"(?:[^"\\]|\\.)*"')
SIGNATURE = re.compile(r"^(\s*)((?:abbrev |unfoldable |pub )*)(record |data )?([^\s:;(){}.,]+)(?: :| *$)")
# Words of the kit's library that lemmas here are about, by the names that they have in its lemmas.
KIT = set("length take drop map append reverse replicate set get_or zero suc nil cons none some true false add mul sub div mod le lt pow not and or".split())
# Plain words of English that some definition or field has for its name too: in a lemma's name they are words.
PLAIN = set("at in of is by own other last first left right same now one two four here there all any each end none_left only still total".split())
# Lemmas whose names, some of them as port.py left them, would fall together with a function's. (A lemma that would have its function's name gets `_lem`.)
BY_HAND = {"answer_at": "answer_at_lem", "any_order": "any_order_lem", "all_done": "all_done_lem", "by_last": "by_last_lem", "in-turn": "in_turn_lem"}


def texts(*kinds):
    for kind in kinds:
        for path in sorted((ROOT / "crates").rglob(f"*.{kind}")):
            if "out" not in path.relative_to(ROOT).parts:
                yield path


def is_walk(path):
    """A proof that walks one function's code: its names follow the code, not a definition."""
    parts = path.relative_to(ROOT / "crates").parts
    return parts[1] == "proofs" and len(parts) > 3


def defined():
    """The names that specs/ and lemma files define: {name: whether it is defined with no dash in specs/ of spec}."""
    names = {}
    for path in texts("antt"):
        if is_walk(path):
            continue
        believed = path.relative_to(ROOT / "crates").parts[0] == "spec"
        for line in path.read_text().splitlines():
            found = SIGNATURE.match(line.split("--")[0])
            if found and found[4] not in ("where", "module"):
                names[found[4]] = names.get(found[4], False) or (believed and "-" not in found[4])
    return names


def snake(word):
    return re.sub(r"(?<=[a-z0-9])([A-Z])", r"_\1", word).lower() if re.match(r"[a-z].*[A-Z]", word) else word


def joined(name, believed):
    parts = name.split("-")
    out = snake(parts[0])
    for before, part in zip(parts, parts[1:]):
        dash = all((w in believed or w in KIT) and w not in PLAIN for w in (before, part))
        out += ("-" if dash else "_") + snake(part)
    return out


def kit_names():
    """The dashed names that the kit's library defines."""
    page = subprocess.run(["rt", "doc"], check=True, capture_output=True, text=True).stdout.strip()
    kit = pathlib.Path(page).parent / "rattle"
    names = set()
    for path in kit.rglob("*.antt"):
        for token in TOKEN.findall(path.read_text(errors="replace")):
            if "-" in token:
                names.add(token)
    return names


def renamings():
    names = defined()
    believed = {n for n, b in names.items() if b and n[0].islower()}
    kit = kit_names()
    found = {}
    for path in texts("antt", "rt"):
        text = STRING.sub('""', path.read_text())
        for token in TOKEN.findall(text):
            if re.match(r"[a-z][a-z0-9]*[A-Z]", token) and "-" not in token and token not in kit:
                found[token] = snake(token)
    for name in names:
        if "-" in name and re.search(r"[a-zA-Z]", name) and name not in kit and name[0].islower():
            found[name] = joined(name, believed)
    # names of binders and of what a `let` names, in the same files
    for path in texts("antt"):
        if not is_walk(path):
            for token in TOKEN.findall("\n".join(line.split("--")[0] for line in path.read_text().splitlines())):
                if re.fullmatch(r"[a-z][\w'₀-₉]*(-[\w'₀-₉]+)+", token) and token not in kit and token not in found and not any(f in token for f in ("loop-", "-result")):
                    found[token] = joined(token, believed)
    functions = {new for old, new in found.items() if "-" not in old}
    found = {old: f"{new}_lem" if "-" in old and new in functions else new for old, new in found.items()}
    found.update(BY_HAND)
    return {old: new for old, new in found.items() if old != new}


def respelled(text, names, walk=False):
    def turn(found):
        token = found[0]
        if token not in names:
            return token
        after_dot = found.start() > 0 and text[found.start() - 1] == "."
        if walk and after_dot and "-" in token:
            return token
        return names[token]

    return TOKEN.sub(turn, text)


def outside_strings(text, names):
    out, end = "", 0
    for string in STRING.finditer(text):
        out += respelled(text[end : string.start()], names) + string[0]
        end = string.end()
    return out + respelled(text[end:], names)


def together(names):
    """Names that fall together: two old ones with one new, or a new one that some file had already."""
    by_new = collections.defaultdict(set)
    for old, new in names.items():
        by_new[new].add(old)
    for new, olds in sorted(by_new.items()):
        if len(olds) > 1:
            yield f"{' and '.join(sorted(olds))} become {new}"
    for path in texts("antt", "rt"):
        tokens = set(TOKEN.findall(path.read_text()))
        both = sorted((new, old) for old, new in names.items() if old in tokens and new in tokens)
        for new, old in both:
            yield f"{path.relative_to(ROOT)}: {old} becomes {new}, which stands there"


def main():
    names = renamings()
    if "--list" in sys.argv:
        for old, new in sorted(names.items()):
            print(old, new)
        for line in together(names):
            print("TOGETHER", line)
        return
    for path in texts("antt"):
        text = path.read_text()
        path.write_text(respelled(text, names, is_walk(path)))
    for path in texts("rt"):
        path.write_text(outside_strings(path.read_text(), names))
    (ROOT / "tools/respelled.txt").write_text("".join(f"{old} {new}\n" for old, new in sorted(names.items())))
    for crate in sorted(path.parent for path in (ROOT / "crates").glob("*/src")):
        subprocess.run(["rt", "fmt"], cwd=crate, check=True, stdout=subprocess.DEVNULL)


if __name__ == "__main__":
    main()
