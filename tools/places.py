#!/usr/bin/env python3
"""Counts the places that docs/DESIGN-PASS.md speaks of, point by point, in the sources of a commit.

usage: python3 tools/places.py [-l] [COMMIT]

Without a commit the working tree is read. With -l each place is listed. What is counted are candidates, found by the
shape of the text: which of them a point is about is said on the page, place by place.
"""

import collections
import os
import re
import subprocess
import sys


def sources(commit):
    """The Rattle files of src/ and the proof files, as (path, text)."""
    if commit is None:
        for at, _, names in os.walk("crates"):
            if {"out", "target"} & set(at.split(os.sep)):
                continue
            for name in names:
                if name.endswith((".rt", ".antt")):
                    path = os.path.join(at, name)
                    yield path, open(path, encoding="utf-8").read()
        return
    listed = subprocess.run(["git", "ls-tree", "-r", "--name-only", commit, "crates"], capture_output=True, text=True)
    for path in listed.stdout.split("\n"):
        if path.endswith((".rt", ".antt")):
            shown = subprocess.run(["git", "show", f"{commit}:{path}"], capture_output=True, text=True)
            yield path, shown.stdout


def blocks(text, word):
    """The items that begin with a word: name, and text up to the closing brace at the item's own indent."""
    head = re.compile(rf"^( *)(?:pub(?:\(crate\))? )?(?:extern \"C\" )?{word} (\w+)", re.M)
    for found in head.finditer(text):
        line = text[found.start() : text.find("\n", found.start())]
        if line.endswith(";") or line.endswith("{}"):
            continue
        end = re.compile(rf"^{found.group(1)}\}}$", re.M).search(text, found.end())
        if end:
            yield found.group(2), text[found.start() : end.end()]


def parameters(body):
    """The parameters of a function, as name: type."""
    head = body[body.index("(") + 1 :]
    head = re.split(r"\)\s*(?:->|where|ensures|requires|\{|\n)", head)[0]
    return [re.sub(r"\s+", " ", p).strip() for p in re.split(r",(?![^<\[(]*[>\])])", head) if ":" in p]


def skeleton(body):
    """What is left of a body without its contract, names, numbers and types: the shape of the code."""
    body = re.sub(r"(?:requires|ensures)(?: \w+)? \{[^{}]*(?:\{[^{}]*\}[^{}]*)*\}", "", body)
    body = re.sub(r"//.*", "", body)
    return re.sub(r"\s+", " ", re.sub(r"\b\w+\b", "_", body[body.index("(") :]))


def main():
    listing = "-l" in sys.argv
    rest = [a for a in sys.argv[1:] if a != "-l"]
    places = collections.defaultdict(list)
    pairs, clauses, shapes = (collections.defaultdict(list) for _ in range(3))
    for path, text in sources(rest[0] if rest else None):
        crate = path.split("/")[1]
        if path.endswith(".antt"):
            if "/proofs/" in path:
                places["8 lines of proof"] += [path] * text.count("\n")
                places["8 files of answers"] += [path] * path.endswith("Answers.antt")
            continue
        for name, body in blocks(text, "enum"):
            variants = re.findall(r"^\s{4}(\w+)(\(|\{|,)", body, re.M)
            if any(v[1] == "," for v in variants) and sum(v[1] != "," for v in variants) == 1:
                places["1 enums of the shape of Option"].append(f"{path}: {name}")
        for name, body in blocks(text, "struct"):
            fields = re.findall(r"^\s+(?:pub )?(\w+): ([^\n]+),$", body, re.M)
            flags = [f for f, t in fields if t == "bool" or (f, t) == ("answer", "u32")]
            if flags and len(fields) > 1:
                places["1 structs with a flag or an answer beside values"].append(f"{path}: {name}.{'/'.join(flags)}")
            if any(t.startswith("[") for _, t in fields) and any(f in ("len", "count", "length") for f, _ in fields):
                places["6 buffers with a length beside"].append(f"{path}: {name}")
            sizes = [t.split(";")[1] for _, t in fields if t.startswith("[") and ";" in t]
            if len(sizes) > len(set(sizes)):
                places["6 parallel arrays"].append(f"{path}: {name}")
            numbered = [f for f, t in fields if t in ("u32", "usize") and f in ("first", "second")]
            if len(numbered) == 2:
                places["6 words in fields of their own"].append(f"{path}: {name}")
        for found in re.finditer(r"^(?:pub )?const (\w+): (u8|u16|u32|u64|usize|i32) =", text, re.M):
            if not re.search(r"BYTES|WORDS|MOST|BITS|PLACES|DIGITS|LAST|RECORDS|GROUPS|CHANNELS|NOTES|KEYS|CHAINS|SORTS"
                             r"|LAMPS|CHARS|SIZES|LONG|CENTRE|UNIT|CHARACTER", found.group(1)):
                places["1 numbers with names"].append(f"{path}: {found.group(1)}")
        for name, body in blocks(text, "fn"):
            where = f"{path}: {name}"
            given = parameters(body)
            shapes[skeleton(body)].append(where)
            places["7 parameters that are a bool"] += [f"{where}({p})" for p in given if p.endswith(": bool")]
            plain = [p.replace("mut ", "") for p in given if not p.startswith("self")]
            for i, one in enumerate(plain):
                for other in plain[i + 1 :]:
                    pairs[crate, one, other].append(where)
            for clause in re.findall(r"(?:requires|ensures)(?: \w+)? \{([^\n]*)\}", body):
                clauses[crate, clause.strip()].append(where)
            for loop in re.finditer(r"while ([^{]+)\{", body):
                counted = [v for v in re.findall(r"\b[a-z]\w*\b", loop.group(1)) if re.search(rf"\b{v} [+-]= 1;|\b{v} = {v} \+ 1;", body)]
                places["3 loops that count an index"] += [where] * bool(counted)
                places["3 other while loops"] += [where] * (not counted)
            if len(re.findall(r"^\s+(\w+): (?:self|s|r|desk|heard|done|told|line|turned|past|state|job|record)\.\1,$", body, re.M)) > 1:
                places["4 fields copied one by one"].append(where)
            if re.search(r"\{\s*(\w+) as u(32|64)\s*\}\s*$", body) or re.search(r"\{\s*if \w+ \{ \w+ \} else \{ \w+ \}\s*\}\s*$", body):
                places["4 conversions and choices by hand"].append(where)
            if re.search(r"\.0 == \w+(\.0)?\)", body):
                places["4 equality by fields"].append(where)
            arms = re.findall(r"^\s+[A-Z]\w+::\w+(?:\([^)]*\))? => [^\n]*\(", body, re.M)
            if len(arms) > 2:
                places["7 a match that picks a step"].append(where)
    for shape, found in shapes.items():
        if len(found) > 1 and len(shape) > 60:
            places["2 functions of one shape"].append(", ".join(found))
    for (crate, one, other), found in pairs.items():
        if len(found) > 2:
            places["5 pairs of parameters in three functions or more"].append(f"{crate}: {one}, {other} ({len(found)})")
    for (crate, clause), found in clauses.items():
        if len(found) > 2:
            places["5 clauses in three functions or more"].append(f"{crate}: {clause} ({len(found)})")
    for what in sorted(places):
        print(f"{len(places[what]):6} {what}")
        if listing and not what.startswith("8"):
            for place in sorted(places[what]):
                print(f"         {place}")


main()
