#!/usr/bin/env python3
"""Spells the repository's own definitions and lemmas as today's Rattle does: words in snake case, facts in camel case.

Run once, at the top of a checkout in which port.py of the toolchain has just run. It renames what the .antt files declare, wherever it
is cited: in specs/, proofs/, clauses and `ghost use` lines of src/. Names of Rust items, strings, inputs and outputs stay."""
import glob
import os
import re

WORD = r"[^\s(){}.;,@\"«»:]+"
DECLARED = re.compile(rf"^\s*(?:(?:abbrev|unfoldable|pub)\s+)*({WORD})(?:\s+\{{[^{{}}\n]*\}})*\s+:\s(.*)")
# Names that Rattle makes in the proof of a function.
MADE = re.compile(r"^(returns|invariant|decreases|loop)-|-requires(-\d+)?$|-spec$|^\+")

# Facts, whose names were spelled as words.
FACTS = {
    "standsAt": "StandsAt",
    "whenRead": "WhenRead",
    "whenWritten": "WhenWritten",
    "may_at": "MayAt",
    "in_row": "InRow",
}
# Names that would fall together with another, in one file or everywhere, each with the name that it gets.
APART = {"ofJob": "told_of_job", "of-job": "of_job"}
IN_FILE = {
    "reader/specs/Code.antt": {"small": "IsSmall"},
    "names/proofs/Numbers.antt": {"is_one": "is_one_lem"},
    "list_text/proofs/list_to_text/Proof.antt": {"is_one": "is_one_lem"},
    "protocol/proofs/Late.antt": {"one_more": "one_more_zero"},
    "protocol/proofs/Counts.antt": {"one_more": "one_more_lem"},
    "run/proofs/Counts.antt": {"one_more": "one_more_lem"},
    "protocol/proofs/Sim.antt": {"in_frame": "within_frame"},
    "read/proofs/Left.antt": {"in_frame": "within_frame"},
    "slave/proofs/Commands.antt": {"stops_at": "stopped_at", "goes_on": "went_on"},
    "protocol/proofs/Memories.antt": {"goes_on": "goes_on_lem"},
}


def files(*patterns):
    return sorted(it for pattern in patterns for it in glob.glob(f"crates/*/{pattern}", recursive=True))


def text_of(path):
    with open(path, encoding="utf8") as f:
        return f.read()


def is_odd(name):
    return "-" in name.strip("-") or name[:1].islower() and re.search("[A-Z]", name) is not None


def turned(name):
    return re.sub(r"(?<=[a-z0-9])[A-Z]+", lambda m: "_" + m[0].lower(), name).replace("-", "_")


def declared_names():
    """What the .antt files declare, and what they bind."""
    declared, bound = set(), set()
    for path in files("specs/**/*.antt", "proofs/**/*.antt"):
        for line in text_of(path).split("\n"):
            if line.lstrip().startswith("--"):
                continue
            found = DECLARED.match(line)
            if found and not re.search(r"\bNeed-|\bstatement\b", found[2]) and not MADE.search(found[1]):
                declared.add(found[1])
            for group in re.findall(rf"[({{]((?:{WORD} )+): ", line) + re.findall(r"λ ([^.]*)\.", line):
                bound.update(re.findall(WORD, group))
            bound.update(re.findall(rf"\blet ({WORD})(?: :| =)", line))
    return declared, bound


def table():
    declared, bound = declared_names()
    rows = dict(FACTS)
    words = {it: turned(it) for it in declared | bound if is_odd(it) and it not in FACTS and "-" not in it}
    laws = {it: turned(it) for it in declared | bound if is_odd(it) and it not in FACTS and "-" in it}
    rows.update(words)
    taken = set(words.values()) | {it for it in declared if not is_odd(it)}
    for old, new in laws.items():
        rows[old] = new + "_lem" if new in taken else new
    rows.update(APART)
    return rows


def spelled(code, rows):
    return re.sub(WORD, lambda m: rows.get(m[0], m[0]), code)


def in_comment(words, rows):
    """A comment cites a name by its whole spelling; only camel case tells a name from prose."""
    return re.sub(WORD, lambda m: rows.get(m[0], m[0]) if re.search("[a-z][A-Z]", m[0]) else m[0], words)


def antt(text, rows):
    lines = []
    for line in text.split("\n"):
        code, dashes, comment = re.match(r"(.*?)((?:^|(?<=\s))--(?=\s|$))?((?<=--).*)?$", line).groups()
        lines.append(spelled(code, rows) + (dashes or "") + in_comment(comment or "", rows))
    return "\n".join(lines)


def rust(text, rows):
    """Clauses and comments; code has no name in camel case that begins with a small letter, and none with a dash."""
    camel = {old: new for old, new in rows.items() if "-" not in old}
    lines = []
    for line in text.split("\n"):
        if re.match(r"\s*(ghost |requires|ensures)", line):
            lines.append(spelled(line, rows))
        else:
            parts = re.split(r'("(?:[^"\\]|\\.)*")', line)
            lines.append("".join(it if i % 2 else in_comment(it, camel) for i, it in enumerate(parts)))
    return "\n".join(lines)


def own_rows(path, rows):
    """The names that one file spells apart, and what it imports of such a file."""
    own = dict(rows)
    where = "/".join(path.split("/")[1:])
    own.update(IN_FILE.get(where, {}))
    text = text_of(path)
    for source, names in IN_FILE.items():
        crate, kind, module = source.split("/")[0], source.split("/")[1], source.split("/")[-1][:-5]
        for used in re.findall(rf"use Rattle\.{crate}\.{kind}\.{module}\.\{{([^}}]*)\}}", text):
            own.update({it: names[it] for it in re.findall(WORD, used) if it in names})
    return own


def main():
    rows = table()
    for path in files("specs/**/*.antt", "proofs/**/*.antt", "src/**/*.rt"):
        old = text_of(path)
        own = own_rows(path, rows)
        new = rust(old, own) if path.endswith(".rt") else antt(old, own)
        if new != old:
            with open(path, "w", encoding="utf8") as f:
                f.write(new)
    said = os.environ.get("SPELLED")
    if said:
        with open(said, "w", encoding="utf8") as f:
            f.writelines(f"{old}\t{new}\n" for old, new in sorted(rows.items()))


if __name__ == "__main__":
    main()
