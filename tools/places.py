#!/usr/bin/env python3
"""Counts the places of docs/DESIGN-PASS.md in crates/*/src/**/*.rt and crates/*/proofs, under the folder that is given (or here).

A count is the number of matches of a pattern; with -v each match is printed. A line that says why a place stays begins with `// kept:`.
"""
import pathlib
import re
import sys

ROOT = pathlib.Path(next((a for a in sys.argv[1:] if not a.startswith("-")), "."))
VERBOSE = "-v" in sys.argv
IDENT = r"[a-z_][a-z_0-9]*"

# Point: list of (what, pattern over a whole file).
POINTS = {
    "1 exits by hand where `?` serves": r"let [^;{}]*? = [^;{}]*? else \{\s*return (?:None|Err\([^;]*?\)|Ok\(None\)|)\s*;\s*\}",
    "1 matches that a method of Option or Result says": r"match [^{}]*\{\s*(?:Some|Ok|None|Err)\b[^{}]*?=>[^{}]*?(?:None => (?:None|false|true|value|at|[a-z.]+)|Err\(\w+\) => (?:Err\([^{}]*?\)|None|at)|Some\(_\) => (?:true|false))\s*,[^{}]*?\}",
    "1 tests that answer Some or None": r"if [^{}]*\{\s*Some\([^{};]*\)\s*\} else \{\s*None\s*\}",
    "1 a flag with a value beside": r"(?:opens|written): \[bool; \w+\]",
    "2 constants for the most servers and the last client": r"const (?:MOST|LAST_CLIENT|SERVERS): (?:u8|usize|u64 = 8)",
    "2 answers of one shape": r"fn (?:done|result|ordered|delivered|told)\(outcome",
    "2 who sent a message, and its epoch": r"fn (?:sender_of|epoch_of)\(",
    "2 which slots are open": r"fn (?:is_open|any_open)\(",
    "2 acts of one shape": r"let \(place, mut \w+\) = found;",
    "2 commands of one shape": r"if words\.is_done\(\) \{",
    "3 loops over a range with a number": rf"for (?!_ ){IDENT} in [^{{}}]*?\.\.[^{{}}]*?\{{",
    "3 loops that look for an element": r"for (?:(?!\.\.)[^{}])*? in (?:(?!\.\.)[^{}])*?\{\s*if [^{}]*\{\s*return [^{}]*\}\s*\}",
    "4 equality by a function": r"fn same\(",
    "4 Display without its text in the contract": r"impl fmt::Display for \w+ \{\s*fn",
    "5 facts that three or more functions require": None,
    "5 number, client and job": r"client: u8,\s*job: u32",
    "5 server, bank and place": r"server: &mut Server,\s*bank: &mut K",
    "5 buffer and place": r"line: &mut \[u8\],\s*at: usize|output: &mut \[u8\],\s*at: usize",
    "6 arrays side by side": r"(?:statements|written|opens): \[[^;()]*; \w+\],\s*(?://[^\n]*\s*)*(?:pub\(crate\) )?(?:results|values|reads)\b",
    "6 arrays and lists with a count beside": r"(?:\[Server; \w+\]|Places|Vec<Message>|\[u64; STATEMENTS\]),\s*(?://[^\n]*\s*)*count: ",
    "7 function pointers, boxes, dyn, numbers for steps": r"\bfn\(|dyn |Box<",
}


def files(kind, suffix):
    return sorted(p for p in ROOT.glob(f"crates/*/{kind}/**/*{suffix}"))


def requires(texts):
    """Clauses that stand in three or more functions."""
    seen = {}
    for path, text in texts:
        for clause in re.findall(r"requires (?:\w+ )?\{ (.*?) \}\n", text):
            for part in clause.split(" × "):
                seen.setdefault(part.strip("() ").replace("server.", "self."), []).append(path)
    return [(part, paths) for part, paths in seen.items() if len(paths) >= 3]


def main():
    texts = [(p.relative_to(ROOT), p.read_text()) for p in files("src", ".rt")]
    for what, pattern in POINTS.items():
        if pattern is None:
            found = [(paths[0], f"{part} ({len(paths)})") for part, paths in requires(texts)]
        else:
            found = [(p, m.group(0)) for p, t in texts for m in re.finditer(pattern, t)]
        print(f"{len(found):4}  {what}")
        if VERBOSE:
            for p, m in found:
                print("        ", p, ":", " ".join(m.split())[:120])
    answers = [p.read_text() for p in files("proofs", "Answers.antt")]
    print(f"{sum(len(re.findall(r'(?m)^pub .*: goal', t)) for t in answers):4}  8 answers")
    print(f"{sum(t.count(chr(10)) for t in answers):4}  8 lines of answers")
    print(f"{sum(t.count('// kept:') for _, t in texts):4}  lines that say why a place stays")


if __name__ == "__main__":
    main()
