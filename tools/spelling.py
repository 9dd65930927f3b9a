#!/usr/bin/env python3
"""spelling.py: brings the repository's own definitions, lemmas, labels and constructors to snake case.

Run once, at the top, on files that the toolchain's own script has turned. A name in lower camel case or with dashes that is declared in
specs/ or proofs/ is written in snake case wherever it stands: in specs/, proofs/, contracts, must-fail edits and, between backticks, in
docs/. Facts keep their capital. Functions of src/, exported names and strings keep theirs. Where two names would fall together, TOLD says
what one of them becomes. It prints where a new name stood in a file already.
"""
import collections
import pathlib
import re

TOLD = {
    "bool-on": "bool_on_lem",
    "bound-shape": "bound_shape_lem",
    "bounded-always": "bounded_always_case",
    "bounded-eventually": "bounded_eventually_case",
    "in-module": "in_module_lem",
    "in-state": "in_state_lem",
    "in-transition": "in_transition_lem",
    "int-on": "int_on_lem",
    "kind-notes": "kind_notes_lem",
    "member-at": "member_at_lem",
    "name-at": "name_at_lem",
    "nameIs": "is_named",
    "nextState": "next_version_state",
    "oneByte": "is_one_byte",
    "put-variant": "put_variant_lem",
    "starts-at": "starts_at_lem",
    "tooMany": "too_many_findings",
}
# Lemmas that have a definition's new name, and the files where they stand.
LEMMAS = {
    "reading/proofs/ListViews.antt": "text_at",
    "reading/proofs/TextLaws.antt": "text_at",
    "typing/proofs/EventLaws.antt": "variant_found",
    "typing/proofs/TypeLaws.antt": "unary_type",
    "findings/proofs/UseLaws.antt": "variant_found",
    "findings/proofs/uses/has_variant/Proof.antt": "variant_found",
    "findings/proofs/SceneLaws.antt": "rows_end",
}
NAME = r"[^\s(){}\[\],;:.]+"
TOP = re.compile(r"^\s*(?:(?:pub|abbrev|unfoldable|opaque|ruleset)\s+)*(" + NAME + r"(?:\s+" + NAME + r")*)\s*:(?!=)(?:\s|$)")
TYPE = re.compile(r"^\s*(?:pub\s+)?(?:record|data)\s+(?:pub\s+)?(" + NAME + r")")
MADE = re.compile(r"^(invariant|decreases)-")
TOKEN = re.compile(r"(?<![\w'?+-])[\w'?+]+(?:-[\w'?+]+)*")
STRING = re.compile(r'"(?:[^"\\]|\\.)*"')


def snake(name):
    if name in TOLD:
        return TOLD[name]
    name = name.replace("getD", "get_or")
    return re.sub(r"(?<=[a-z0-9])([A-Z])", lambda m: "_" + m.group(1).lower(), name).replace("-", "_")


def declared(paths):
    names = set()
    for path in paths:
        for line in path.read_text().split("\n"):
            if line.lstrip().startswith("--") or TYPE.match(line):
                continue
            if m := TOP.match(line):
                names.update(m.group(1).split())
    return {n for n in names if re.fullmatch(r"[\w'?+-]+", n) and not n[0].isupper() and not MADE.match(n)}


def imported(text):
    """The names that a file takes from the toolchain's modules, where they stand in braces."""
    own = "|".join(p.name for p in pathlib.Path("crates").iterdir())
    for m in re.finditer(r"^\s*use (?!Rattle\.(?:" + own + r")\.)\S+?\.\{([^}]*)\}", text, re.M):
        yield from (w.split(" as ")[0].strip() for w in m.group(1).split(","))


def main():
    antt = sorted(p for p in pathlib.Path("crates").glob("*/*/**/*.antt") if p.parts[2] in ("specs", "proofs"))
    for file, name in LEMMAS.items():
        path = pathlib.Path("crates") / file
        path.write_text(re.sub(r"(?<![\w.'-])" + name + r"(?![\w'-])", name + "_lem", path.read_text()))
    theirs = {n for p in antt for n in imported(p.read_text())}
    names = declared(antt) - theirs
    made = {snake(n) for n in names if "-" not in n or n in TOLD}
    table = {n: snake(n) + "_lem" * (n not in TOLD and "-" in n and snake(n) in made) for n in names}
    together = collections.defaultdict(set)
    for old, new in table.items():
        together[new].add(old)
    table = {old: new for old, new in table.items() if old != new}
    for new, olds in sorted(together.items()):
        if len(olds) > 1:
            print("together:", new, sorted(olds))

    def turned(text, dashes=True):
        return TOKEN.sub(lambda m: table[m.group(0)] if m.group(0) in table and (dashes or "-" not in m.group(0)) else m.group(0), text)

    def outside(line, dashes):
        out, at = [], 0
        for m in STRING.finditer(line):
            out += [turned(line[at:m.start()], dashes), m.group(0)]
            at = m.end()
        return "".join(out) + turned(line[at:], dashes)

    for path in antt:
        text = path.read_text()
        held = set(TOKEN.findall(text))
        for old in sorted(held & set(table)):
            if table[old] in held:
                print(f"held: {path}: {old} beside {table[old]}")
        path.write_text("\n".join(outside(l, not l.lstrip().startswith("--")) for l in text.split("\n")))
    for path in sorted(pathlib.Path("crates").glob("*/src/**/*.rt")):
        path.write_text("\n".join(outside(l, not l.lstrip().startswith("//")) for l in path.read_text().split("\n")))
    for path in sorted(pathlib.Path("crates").glob("*/must-fail/*.edit")):
        path.write_text("\n".join(turned(l, l.startswith(("old:", "new:"))) for l in path.read_text().split("\n")))
    for path in [*pathlib.Path("docs").glob("*.md"), pathlib.Path("README.md")]:
        path.write_text(re.sub(r"`[^`\n]+`", lambda m: turned(m.group(0)), path.read_text()))


if __name__ == "__main__":
    main()
