#!/usr/bin/env python3
"""Spells the repository's own definitions, lemmas and record fields as the language does: words in snake case.

usage: python3 tools/respell.py [--report]      at the top of the repository, once, after port.py

A name is the repository's if a file of specs/ or proofs/ declares it. Types and modules keep their capital, and names of
src/, texts in quotes and files of programs keep theirs. Where two names would fall together the second gets the ending
that CLASHES names. --report prints the names and what would fall together, and writes nothing.
"""
import glob
import os
import re
import sys

NAME = r"[^\s(){}.;,@\"«»]+"
DECLARED = re.compile(r"(?m)^ *(?:(?:pub|abbrev|unfoldable|private) +)*(" + NAME + r")(?: \{[^{}\n]*\}| \([^()\n]*\))* :(?= |$)")
DATA = re.compile(r"(?m)^(?:pub )?(?:record|data) +(" + NAME + ")")
TEXT = re.compile(r'b?"(?:[^"\\]|\\.)*"', re.S)
TOKEN = re.compile(NAME)

# Names that would meet another one of the same file, each with the spelling that it gets.
CLASHES = {
    "held-at": "held_at_lem",
    "is-finite": "is_finite_lem",
    "view-of": "view_of_lem",
}
# Names of the library too: those of the repository are spelled anew in the file that declares them, and nowhere else.
LIBRARY = {
    "not-true": "crates/release_lists/proofs/ReleaseLaws.antt",
    "or-false": "crates/history/proofs/JoinLaws.antt",
}
# Names that stand for others in one file, as behind `as`, and parameters of a module.
ALIASES = {
    "compositionPhase": "composition_phase",
    "deliveryTable": "delivery_table",
    "deviceCheck": "device_check",
    "deviceKind": "device_kind",
    "hasPrimary": "has_primary",
    "idRefusal": "id_refusal",
    "isOfRouterDevice": "is_of_router_device",
    "keyPhase": "key_phase",
    "ltA": "lt_a",
    "ltB": "lt_b",
    "maybeFields": "maybe_fields",
    "mayFocus": "may_be_focused",
    "notClosed": "not_closed",
    "oA": "o_a",
    "oB": "o_b",
    "optionalFields": "optional_fields",
    "panelView": "panel_view",
    "pointerPhase": "pointer_phase",
    "rectFields": "rect_fields",
    "releaseTable": "release_table",
    "routerStarted": "router_started",
    "routerWithout": "router_without",
    "sameA": "same_a",
    "sameB": "same_b",
    "stateDeliveries": "state_deliveries",
    "stateHits": "state_hits",
    "stateLayers": "state_layers",
    "stateTraces": "state_traces",
    "surfaceKind": "surface_kind",
    "wheelUnit": "wheel_unit",
}
# A file that would have a generated module's name.
MOVED = ("crates/in_place/specs", "Contracts", "EntryContracts")

# Names that the file's other names would meet, though they are spelled right, by file.
IN_FILE = {
    "crates/composition_soundness/proofs/LiveLaws.antt": {"is_live": "is_live_lem"},
    "crates/handles/proofs/LookupLaws.antt": {"is_live": "is_live_lem"},
}

# A generated name, as a goal's, a step's or a place's, is the language's to spell.
GENERATED = re.compile(r":\s*(?:tie|goal)\.")


def snake(name):
    words = re.sub(r"(?<=[a-z0-9])[A-Z]", lambda m: "_" + m[0].lower(), name)
    return words.replace("-", "_")


def files(*patterns):
    for pattern in patterns:
        yield from sorted(glob.glob(pattern, recursive=True))


def read(path):
    with open(path, encoding="utf-8") as f:
        return f.read()


def comments_out(text):
    return re.sub(r"(?m)--.*$", "", text)


def declared():
    names = {}
    for path in files("crates/*/specs/**/*.antt", "crates/*/proofs/**/*.antt"):
        text = comments_out(read(path))
        for m in DECLARED.finditer(text):
            name = m[1]
            rest = text[m.end():m.end() + 40]
            if GENERATED.match(":" + rest) or name.startswith(("invariant-", "decreases-")):
                continue
            if not re.match(r"[a-z]", name) or "→" in name or "≡" in name:
                continue
            names.setdefault(name, set()).add(path)
    return names


def turn_proof(text, table):
    """A proof by hand: behind a dot stands mostly a step of the code, and such a name gets no ending."""
    plain = {old: new for old, new in table.items() if not new.endswith("_lem")}
    marked = re.sub(r"(?<=\.)(?=[\w'-])", "\0", text)
    kept = {"\0" + old: "\0" + new for old, new in plain.items()}
    return turn(marked, {**table, **kept}).replace("\0", "")


def turn(text, table):
    """The text with the names of the table, outside of texts in quotes; in a comment, those in camel case or backquotes."""
    out = []
    at = 0
    for m in TEXT.finditer(text):
        out.append(turn_code(text[at:m.start()], table))
        out.append(m[0])
        at = m.end()
    out.append(turn_code(text[at:], table))
    return "".join(out)


def turn_code(code, table):
    def one(m):
        return table.get(m[0], m[0])

    lines = []
    for line in code.split("\n"):
        cut = re.search(r"(?:^|\s)(?:--|//)(?:\s|$)", line)
        body, note = (line, "") if not cut else (line[:cut.start()], line[cut.start():])
        body = TOKEN.sub(one, body)
        note = re.sub(r"`[^`\n]*`", lambda m: TOKEN.sub(one, m[0].replace("`", " ` ")).replace(" ` ", "`"), note)
        note = re.sub(r"\b[a-z]+[A-Z]\w*\b", one, note)
        lines.append(body + note)
    return "\n".join(lines)


def main(argv):
    names = declared()
    table = {old: CLASHES.get(old, snake(old)) for old in names}
    defined = {snake(old) for old in names if re.search("[A-Z]", old)}
    for old in names:
        # a lemma that would have its function's name
        if old not in CLASHES and "-" in old and snake(old) in defined:
            table[old] = snake(old) + "_lem"
    table = {**{old: new for old, new in table.items() if old != new}, **ALIASES}
    paths = list(files("crates/*/specs/**/*.antt", "crates/*/proofs/**/*.antt", "crates/*/src/**/*.rt"))
    if "--report" in argv:
        print(len(table), "names")
        backwards = {}
        for old, new in table.items():
            backwards.setdefault(new, []).append(old)
        for new, olds in sorted(backwards.items()):
            if len(olds) > 1:
                print("both:", new, olds)
        for path in paths:
            text = TEXT.sub('""', read(path))
            text = re.sub(r"(?m)(?:--|//).*$", "", text)
            tokens = set(TOKEN.findall(text))
            # a label of a record or a step stands behind a dot, and meets nothing; of Rust only a parameter is seen by a clause
            bare = set(re.findall(r"(?<![.\w'-])" + NAME, text))
            if path.endswith(".rt"):
                bare = set(re.findall(r"\b([a-z]\w*):", text)) | set(re.findall(r"λ (\S+)\.", text))
                bare |= {it for line in re.findall(r"ghost use [^;]*;", text) for it in re.findall(r"\w+", line)}
            for old in tokens:
                if old in table and table[old] in bare:
                    print("meets:", path, old, table[old])
        return 0
    for path in paths:
        text = read(path)
        here = {**table, **IN_FILE.get(path, {})}
        for old, home in LIBRARY.items():
            if path != home:
                here.pop(old, None)
        new = turn_proof(text, here) if path.endswith("/Proof.antt") else turn(text, here)
        new = new.replace("Rattle.in_place.specs.Contracts", "Rattle.in_place.specs.EntryContracts")
        if path == "crates/in_place/specs/Lib.antt":
            new = new.replace("mod Contracts", "mod EntryContracts")
        if new != text:
            with open(path, "w", encoding="utf-8") as f:
                f.write(new)
    folder, old, new = MOVED
    os.rename(f"{folder}/{old}.antt", f"{folder}/{new}.antt")
    return 0


if __name__ == "__main__":
    raise SystemExit(main(sys.argv[1:]))
