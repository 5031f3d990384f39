#!/usr/bin/env python3
"""Respells this repository's own definitions and lemmas: words in snake case, types in camel case.

usage: python3 tools/respell.py            at the top of the repository, once, right after the kit's port.py
       python3 tools/respell.py --list     only lists old and new names, and the names that fall together

A name is the repository's own if a file of specs/ or proofs/ defines it (also inside a `module` or a `where`), other than
as the answer to a goal. Whole words turn, in .antt files and in the clauses of .rt files, outside comments and quoted text, and in
must-fail edits.
"""
import collections
import pathlib
import re
import sys

TOP = pathlib.Path("crates")
STOP = r"\s(){}.;,@\"«»\[\]"
WORD = re.compile(rf"[^{STOP}]+")
QUIET = re.compile(r'"(?:[^"\\\n]|\\.)*"|(?<![^\s(){}.;,@"])--[^\n]*')
QUIET_RT = re.compile(r'"(?:[^"\\\n]|\\.)*"|//[^\n]*')
WORDS = r"(?:(?:abbrev|unfoldable|pub|private|data|record|opaque|let)[ ]+)*"
HEAD = re.compile(rf"^[ ]*{WORDS}([A-Za-z][^{STOP}]*)[ ]+:[ ](?!goal\.|need\.)")
TYPE = re.compile(rf"^[ ]*(?:pub[ ]+)?(?:data|record)[ ]+([A-Za-z][^{STOP}]*)")
SHAPE = re.compile(r"[A-Za-z][\w']*(?:-[\w']+)+[₀-₉]*$")

# Names that would meet a name of src/ where a clause reads both.
APART = {
    "busy-cell": "cell_of_busy",
    "commit-message": "message_to_commit",
    "fault-cell": "cell_of_fault",
    "job-act": "act_of_job",
    "member-fits": "fits_member",
    "sender-of": "msg_sender",
    "server-act": "act_of_server",
    "short-lines": "lines_are_short",
}
# Values that were spelled like types, by the files that speak of them.
VALUES = {
    "oldest_first/": {"Log": "log_of_front", "Bag": "bag_of_rest"},
    "server/proofs/Delivery.antt": {"Asks": "asks"},
    "server/proofs/Handling.antt": {"Commits": "commits", "Committed": "after_commit"},
    "server/proofs/Reasons.antt": {"Opens": "opens", "Undoes": "undoes", "Asks": "asks"},
    "ensemble/proofs/Sent.antt": {"Now": "state_now"},
    "ensemble/proofs/Lifts.antt": {"Build": "build"},
}


def own_files():
    for crate in sorted(TOP.iterdir()):
        yield from sorted((crate / "specs").rglob("*.antt"))
        yield from sorted((crate / "proofs").rglob("*.antt"))


def new_name(old):
    if old in APART:
        return APART[old]
    parts = old.split("-")
    if old[0].isupper():
        return parts[0] + "".join(p[:1].upper() + p[1:] for p in parts[1:])
    return "_".join(parts)


def own_names():
    names = {}
    for path in own_files():
        text = QUIET.sub(lambda m: " " * len(m.group()), path.read_text())
        for line in text.splitlines():
            found = TYPE.match(line) or HEAD.match(line)
            if found and SHAPE.match(found.group(1)):
                names[found.group(1)] = new_name(found.group(1))
    return names


def turned(text, names, quiet):
    out, at = [], 0
    for hush in list(quiet.finditer(text)) + [None]:
        end = hush.start() if hush else len(text)
        out.append(WORD.sub(lambda m: names.get(m.group(), m.group()), text[at:end]))
        if hush:
            out.append(hush.group())
            at = hush.end()
    return "".join(out)


def fallen_together(names):
    taken = collections.defaultdict(set)
    for old, new in names.items():
        taken[new].add(old)
    for path in sorted(TOP.rglob("*.antt")):
        text = QUIET.sub(" ", path.read_text())
        for word in WORD.findall(text):
            if word in taken:
                taken[word].add(word)
    return {new: olds for new, olds in taken.items() if len(olds) > 1}


def main():
    names = own_names()
    together = fallen_together(names)
    if "--list" in sys.argv:
        for old, new in sorted(names.items()):
            print(f"{old}\t{new}")
    for new, olds in sorted(together.items()):
        print(f"look: {new} stands for {', '.join(sorted(olds))}", file=sys.stderr)
    if "--list" in sys.argv:
        return
    for path in sorted(TOP.rglob("*")):
        quiet = {".antt": QUIET, ".rt": QUIET_RT, ".edit": QUIET_RT}.get(path.suffix)
        if quiet and path.is_file() and "out" not in path.parts:
            text = path.read_text()
            here = dict(names)
            for place, values in VALUES.items():
                if str(path.relative_to(TOP)).startswith(place):
                    here.update(values)
            after = turned(text, here, quiet)
            if after != text:
                path.write_text(after)


main()
