#!/usr/bin/env python3
"""Counts, in src/ of every crate at a commit, the places that a design pass looks at.

usage: tools/design_counts.py COMMIT [-v]     -v lists each place

One line for each count: how many places, and what they are. Functions whose bodies agree once names, numbers and types are
taken out count as twins, and a `requires` that stands word for word in three or more functions of a crate as a repeated fact.
"""
import collections
import re
import subprocess
import sys

COUNTS = [
    ("1", "a refusal or error handed on by hand", r"Err\((\w+)\) => (return )?Err\(\1\)|if let Err\((\w+)\) = .*\{$"),
    ("1", "an Option or Result taken apart into a default or unreachable", r"^\s*(None|Err\(_\)|_) => (0|None|false|unreachable\(\)|Some\(Element\(0\)\)),|^\s*unreachable\(\)$"),
    ("1", "an own enum", r"^\s*(pub(\(crate\))? )?enum \w+"),
    ("1", "a flag or an Option in a struct beside other fields", r"^\s+(pub )?\w+: (bool|Option<\w+>),$"),
    ("1", "a number for a kind or a refusal", r"fn \w*(kind|number|sort)\w*\(.*-> u(8|16|32)|sort: u32|kind: u8"),
    ("3", "a loop", r"^\s*(while|loop|for)\b.*\{$"),
    ("3", "a while, a loop, or a counter beside a loop", r"^\s*while .*\{$|^\s*loop \{$|^\s*(row|member|count|end|k|at|named) \+= 1;$"),
    ("3", "a for over a range of numbers", r"^\s*for (?!_ )\w+ in [^\[]*\.\.[^\[]*\{$"),
    ("4", "a comparison of two wrapped numbers by their inside", r"\w\.0 (==|!=|<|<=|>|>=) [\w.]+\.0\b"),
    ("4", "a function that converts or prints by hand", r"fn (refusal|show\w*|print\w*|refused|put_\w+|write_\w+)\b"),
    ("5", "a requires", r"^\s*requires\b"),
    ("6", "an array of fixed length in a type", r":\s*\[[\w<>]+; \w+\]|-> .*\[[\w<>]+; \w+\]|\(\[[\w<>]+; \w+\]\)"),
    ("7", "a function pointer, a closure's bound or a dyn", r"\bfn\(|\bdyn \w|impl Fn|: Fn(Mut|Once)?\("),
    ("7", "a case by a number", r"^\s*\d+ => "),
]

FUNCTION = re.compile(r"^( *)(?:pub(?:\(crate\))? )?(?:const )?fn (\w+)", re.M)


def sources(commit):
    names = subprocess.run(["git", "ls-tree", "-r", "--name-only", commit, "crates"], capture_output=True, text=True, check=True).stdout.split()
    for name in names:
        if "/src/" in name and name.endswith(".rt"):
            yield name, subprocess.run(["git", "show", f"{commit}:{name}"], capture_output=True, text=True, check=True).stdout


def functions(text):
    for m in FUNCTION.finditer(text):
        indent = m.group(1)
        start = re.compile(rf"^{indent}(\{{|.*\{{)$", re.M).search(text, m.start())
        end = re.compile(rf"^{indent}\}}$", re.M).search(text, m.start())
        if start and end:
            yield m.group(2), text[m.start() : end.start()]


def shape(body):
    """The body without clauses, with names, numbers and types taken out."""
    body = "\n".join(l for l in body.splitlines() if not re.match(r"\s*(requires|ensures|//)", l))
    body = body[body.index("{") :] if "{" in body else ""
    words = re.findall(r"[A-Za-z_]\w*|\d\w*|\S", body)
    keep = {"for", "in", "if", "else", "match", "return", "let", "mut", "while", "loop", "Ok", "Err", "Some", "None", "self"}
    return tuple(w if w in keep or not re.match(r"\w", w) else "x" for w in words)


def main():
    commit = sys.argv[1]
    verbose = "-v" in sys.argv
    files = list(sources(commit))
    for point, what, pattern in COUNTS:
        found = []
        for name, text in files:
            for i, line in enumerate(text.splitlines()):
                if re.search(pattern, line):
                    found.append(f"{name}:{i + 1}: {line.strip()}")
        print(f"{len(found):5}  point {point}: {what}")
        if verbose:
            print("".join(f"         {f}\n" for f in found), end="")
    shapes = collections.defaultdict(list)
    facts = collections.defaultdict(set)
    for name, text in files:
        crate = name.split("/")[1]
        for function, body in functions(text):
            s = shape(body)
            if len(s) >= 24:
                shapes[s].append(f"{name}: {function}")
            for clause in re.findall(r"^\s*requires (?:\w+ )?(\{.*\})$", body, re.M):
                facts[(crate, clause)].add(f"{name}: {function}")
    twins = [v for v in shapes.values() if len(v) > 1]
    print(f"{sum(map(len, twins)):5}  point 2: a function with the shape of another, in {len(twins)} groups")
    if verbose:
        print("".join(f"         {', '.join(t)}\n" for t in twins), end="")
    often = {k: v for k, v in facts.items() if len(v) > 2}
    print(f"{sum(len(v) for v in often.values()):5}  point 5: a fact required by three or more functions, {len(often)} facts")
    if verbose:
        print("".join(f"         {k[0]}: {k[1]} ({len(v)})\n" for k, v in often.items()), end="")
    lines = subprocess.run(["git", "ls-tree", "-r", "--name-only", commit, "crates"], capture_output=True, text=True, check=True).stdout.split()
    proofs = [n for n in lines if "/proofs/" in n]
    total = sum(len(subprocess.run(["git", "show", f"{commit}:{n}"], capture_output=True, text=True).stdout.splitlines()) for n in proofs)
    print(f"{total:5}  point 8: lines of proofs, in {len(proofs)} files")


main()
