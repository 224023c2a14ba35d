#!/usr/bin/env python3
"""Brings this repository's own names to today's spelling, once, after port.py.

usage: python3 tools/respell.py [ROOT]

Words are in snake case: a definition, a lemma, a constructor or a field whose name has a capital inside is respelt
(`messageType` becomes `message_type`), and so is a record's field that is joined by a dash (`at-start`). The proof of
a function f is `f_spec`. Types keep their capitals. A lemma or a field that would then have the name of a definition
gets `_lem` (CLASHES). Names of src/, strings and text are left alone; the edits of must-fail/ follow.
"""

import glob
import os
import re
import sys

# A name that would fall together with a respelt one, and the file in which it gets another.
CLASHES = {
    "crates/fields/proofs/CheckLaws.antt": ["all_in"],
    "crates/table/proofs/Asking.antt": ["all_sound"],
    "crates/table/proofs/AskingLaws.antt": ["all_sound"],
    "crates/gather/proofs/LineLaws.antt": ["dropped_line"],
    "crates/gather/proofs/put_line/Proof.antt": ["dropped_line"],
    "crates/claims/specs/PacketByPacket.antt": ["goes_on", "run_up", "no_table", "run_down"],
    "crates/claims/proofs/PacketByPacket.antt": ["goes_on", "run_up", "no_table", "run_down"],
    "crates/claims/proofs/OnePupilLaws.antt": ["run_up"],
    "crates/inlet/proofs/RunLaws.antt": ["goes_on", "no_room"],
    "crates/inlet/proofs/take_all/Proof.antt": ["goes_on"],
    "crates/outlet/proofs/StepLaws.antt": ["goes_on"],
    "crates/outlet/proofs/packets/export_all/Proof.antt": ["goes_on"],
    "crates/cable_claims/proofs/RunningLaws.antt": ["runs_on"],
    "crates/pupil/proofs/PickLaws.antt": ["no_room"],
    "crates/pupil/proofs/hand_back/Proof.antt": ["no_room"],
    "crates/voice/proofs/DownLaws.antt": ["no_room"],
    "crates/keys/proofs/Laws.antt": ["out_of_range"],
}

# A dashed field whose respelling is a definition's name gets another there.
FIELDS = {"at-start": "at_start_lem", "end-in": "end_in_lem"}

NAME = re.compile(r"(?<![\w'])[A-Za-z_][A-Za-z0-9_'\-]*")
HEAD = re.compile(r"^(?:abbrev |unfoldable |ruleset )*(?:pub )?(?:abbrev |unfoldable |ruleset |data |record )*([^\s:(){}.,;=]+)")
RECORD = re.compile(r"^(?:pub )?record ")
DATA = re.compile(r"^(?:pub )?data ")
FIELD = re.compile(r"^\s+(?:pub )?([^\s:(){}.,;=]+) :")


def snake(name):
    name = re.sub(r"\bgetD\b", "get_or", name)
    return re.sub(r"([a-z0-9])([A-Z])", lambda m: m.group(1) + "_" + m.group(2).lower(), name)


def inner_capital(name):
    return name[0].islower() and re.search(r"[a-z0-9][A-Z]", name)


def declared(files):
    names, fields = set(), set()
    for path in files:
        inside = False
        for line in open(path, encoding="utf-8"):
            if line.startswith("--") or not line.strip():
                inside = inside and line.startswith("--")
                continue
            if not line[0].isspace():
                inside = bool(RECORD.match(line) or DATA.match(line))
                if not line.startswith(("use ", "pub mod ", "mod ", "unfolding ")):
                    head = HEAD.match(line)
                    if head:
                        names.add(head.group(1))
                continue
            field = FIELD.match(line)
            if field:
                names.add(field.group(1))
                if inside:
                    fields.add(field.group(1))
    return names, fields


def respell(text, mapping):
    return NAME.sub(lambda m: mapping.get(m.group(0), m.group(0)), text)


def code_and_comment(line, mark):
    at = line.find(mark)
    return (line, "") if at < 0 else (line[:at], line[at:])


def main():
    root = sys.argv[1] if len(sys.argv) > 1 else "."
    os.chdir(root)
    antt = sorted(glob.glob("crates/*/specs/**/*.antt", recursive=True) + glob.glob("crates/*/proofs/**/*.antt", recursive=True))
    names, fields = declared(antt)
    for path in antt:
        for line in open(path, encoding="utf-8"):
            names.update(NAME.findall(code_and_comment(line, "--")[0]))
    mapping = {n: snake(n) for n in names if inner_capital(n)}
    mapping.update({f: FIELDS.get(f, f.replace("-", "_")) for f in fields if "-" in f})
    for path in antt:
        text = open(path, encoding="utf-8").read()
        mine = dict(mapping)
        mine.update({n: n + "_lem" for n in CLASHES.get(path, [])})
        out = []
        for line in text.split("\n"):
            # A comment names definitions between backticks.
            code, comment = code_and_comment(line, "--")
            comment = re.sub(r"`[^`]*`", lambda m: respell(m.group(0), mapping), comment)
            if line.startswith("use "):
                out.append(respell(code, mapping) + comment)
                continue
            code = respell(code, mine)
            code = re.sub(r"(?<![\w'-])([a-z][a-z0-9_-]*)-spec(?![\w'-])", lambda m: m.group(1).replace("-", "_") + "_spec", code)
            out.append(code + comment)
        open(path, "w", encoding="utf-8").write("\n".join(out))
    for path in sorted(glob.glob("crates/*/src/**/*.rt", recursive=True)):
        text = open(path, encoding="utf-8").read()
        out = []
        for line in text.split("\n"):
            code, comment = code_and_comment(line, "//")
            comment = re.sub(r"`[^`]*`", lambda m: respell(m.group(0), mapping), comment)
            out.append(respell(code, mapping) + comment)
        open(path, "w", encoding="utf-8").write("\n".join(out))
    for path in sorted(glob.glob("crates/*/must-fail/*.edit")):
        text = open(path, encoding="utf-8").read()
        lines = [respell(l, mapping) if l.startswith(("old:", "new:")) else l for l in text.split("\n")]
        open(path, "w", encoding="utf-8").write("\n".join(lines))
    print(f"respell: {len(mapping)} names")


if __name__ == "__main__":
    main()
