#!/usr/bin/env python3
"""Respells this repository's own definitions and lemmas, once, right after the kit's port.py.

usage, at the top of the repository: python3 tools/respell.py

- A type, or a statement (of type Type 0), is in upper camel case: Judging-is-exact becomes JudgingIsExact.
- A definition, a record field and a constructor is in snake case: weights-of becomes weights_of.
- A lemma is in snake case too, and a dash stays only where it joins two names that stand in specs/ or that are
  operations of the library: leftover-fits stays, times-mod-left becomes times-mod_left.
- A definition or lemma with the name of a function of its crate's src/ gets _lem (fields and constructors do not).
- Over-as-Field, which port.py leaves, is written behind its parameter: S.Over.Field; so is the model of a bound, F.model.
Goals' names, functions of src/, strings and everything outside .rt and .antt files stay.
"""

import collections
import glob
import re
import sys

WORD = r"[^\s:(){};.,«»⌜⌝\[\]|\"]+"
SIGNATURE = re.compile(
    r"^\s*(?:\| )?(?:abbrev |unfoldable )*(?:pub )?(?:abbrev |unfoldable )*(?P<kind>record |data |ruleset )?"
    r"(?P<names>" + WORD + r"(?: " + WORD + r")*?)"
    r"(?: \([^)]*\)| \{[^}]*\})*\s*:(?P<rest>\s.*|)$"
)
# operations of the library that lemmas are named after
LIBRARY = set("length take drop map append get set reverse add mul sub div mod zero one suc sum concat get_or replicate".split())
DATA = set("ℕ Bool List Option Result Vector FieldModel Type".split())


def paths():
    return sorted(glob.glob("crates/*/specs/**/*.antt", recursive=True) + glob.glob("crates/*/proofs/**/*.antt", recursive=True))


def read(path):
    with open(path, encoding="utf-8") as f:
        return f.read()


def declared(text):
    """Each name that a signature of the text declares, with its kind, whether its line is indented, and its type."""
    lines = text.split("\n")
    for k, line in enumerate(lines):
        if line.lstrip().startswith("--"):
            continue
        m = SIGNATURE.match(line)
        if not m or re.match(r"\s*(let|elim|use|in|pub use|pub mod|mod)\b", line):
            continue
        kind = m["rest"].strip()
        if not kind:
            for later in lines[k + 1 :]:
                if not later.startswith(" "):
                    break
                kind += " " + later.strip()
        for name in m["names"].split(" "):
            yield name, (m["kind"] or "").strip(), line.startswith(" "), kind


def is_definition(kind, data_types):
    """Whether a type's last part is data, so that the name is no lemma."""
    last = re.split(r"→", kind)[-1].strip()
    last = re.sub(r"^(\([^)]*:[^)]*\)\s*)+", "", last)
    head = re.match(r"\(?([\w₀-₉']+)", last)
    return bool(head) and head[1] in data_types and not re.search(r"[≡≢≤<×⊎⊥↔]", last)


def camel(name):
    return "".join(p[:1].upper() + p[1:] for p in name.split("-"))


def main():
    files = paths()
    found = collections.OrderedDict()
    data_types = set(DATA)
    records = collections.defaultdict(set)
    for p in files:
        text = read(p)
        for m in re.finditer(r"^pub (?:record|data) (\w+)[^\n]*: Type 0", text, re.M):
            if re.match(r"^pub (?:record|data) \w+ : Type 0", m[0]):
                data_types.add(m[1])
        data_types |= set(re.findall(r"declared\.[\w.]+\.\{(\w+)\}", text))
    goals = set()
    named = set(LIBRARY)
    for p in files:
        in_function = re.search(r"proofs/.*/(Answers|Invariants|Choices|Proof)\.antt$", p)
        for name, kind, indented, of in declared(read(p)):
            if in_function and re.match(r"(goal|given)\.", of):
                goals.add(name)
                continue
            definition = bool(kind) or is_definition(of, data_types)
            if "/specs/" in p:
                if definition or indented or of.endswith("Type 0"):
                    named.add(name.lower() if name[:1].isupper() else name)
                    named.add(name.replace("-", "_"))
            found.setdefault(name, []).append((p, definition or (indented and "/specs/" in p), of, indented))
    sources = collections.defaultdict(set)
    for p in glob.glob("crates/*/src/**/*.rt", recursive=True):
        sources[p.split("/")[1]] |= set(re.findall(r"\bfn (\w+)", read(p)))
    everything = "\n".join(read(p) for p in files) + "\n".join(read(p) for p in glob.glob("crates/*/src/**/*.rt", recursive=True))
    tokens = set(re.findall(r"[^\s:(){};.,«»⌜⌝\[\]|\"]+", everything))
    new = {}
    for name, places in found.items():
        if "-" not in name or name in goals or re.match(r"^[-◌]|.*◌", name):
            continue
        if name[:1].isupper() and any(of.endswith("Type 0 where") or of.endswith("Type 0") for _, _, of, _ in places):
            new[name] = camel(name)
            continue
        parts = name.split("-")
        if any(d for _, d, _, _ in places):
            to = "_".join(parts)
        else:
            to = parts[0]
            for a, b in zip(parts, parts[1:]):
                to += ("-" if (a in named or a[:1].isupper()) and (b in named or b[:1].isupper()) else "_") + b
        crates = {p.split("/")[1] for p, _, _, _ in places}
        if not all(inner for _, _, _, inner in places) and any(to in sources[c] for c in crates):
            to += "_lem"
        new[name] = to
    # names that would fall together
    taken = collections.Counter(new.values())
    for name in list(new):
        to = new[name]
        if to == name:
            del new[name]
        elif taken[to] > 1 or (to in tokens and to not in goals and not all(inner for _, _, _, inner in found[name])):
            where = [p for p in files if re.search(r"(?<![\w'-])" + re.escape(to) + r"(?![\w'-])", read(p))]
            if where or taken[to] > 1:
                print(f"falls together: {name} -> {to} ({', '.join(where[:3])})")
                new[name] = to + "_lem" if not to.endswith("_lem") else to + "'"
    for name in new:
        if name in goals:
            print("a goal too:", name)
    pattern = re.compile(r"(?<![\w'₀-₉◌-])(goal\.|given\.|c\.|w\.)?(" + "|".join(sorted(map(re.escape, new), key=len, reverse=True)) + r")(?![\w'₀-₉◌-])")
    changed = 0
    for p in files + sorted(glob.glob("crates/*/src/**/*.rt", recursive=True)):
        text = read(p)

        def put(m):
            if m[1] in ("c.", "w."):  # a step, named after a function of src/
                return m[1] + m[2].replace("-", "_")
            return m[0] if m[1] else new[m[2]]

        parts = re.split(r'("(?:[^"\\\n]|\\.)*")', text) if p.endswith(".rt") else [text]
        out = "".join(q if k % 2 else pattern.sub(put, q) for k, q in enumerate(parts))
        if p.endswith(".rt"):
            out = re.sub(r"(?<![\w.])Over-as-Field\.", "S.Over.Field.", out)
            head, own, rest = out.partition("pub trait Field {")
            if own:  # the trait's own clauses name the model alone
                end = rest.index("\n}\n")
                own, rest = own + rest[:end], rest[end:]
            else:
                head, rest = "", head
            model = re.compile(r"(?m)^(\s*(?:requires|ensures)\b.*)$")
            out = head + own + model.sub(lambda m: re.sub(r"(?<![\w.])model(?![\w:])", "F.model", m[1]), rest)
        if out != text:
            changed += 1
            with open(p, "w", encoding="utf-8") as f:
                f.write(out)
    for name in new:
        print(f"{name} {new[name]}")
    print(f"respell: {len(new)} names in {changed} files", file=sys.stderr)


if __name__ == "__main__":
    main()
