#!/usr/bin/env python3
"""Spells the definitions, constructors, fields and lemmas of this repository in snake case, after port.py has run.

usage: tools/snake_names.py        at the top of the repository, once

A name that a file of specs/ or proofs/ declares, with a hyphen or with a capital inside, gets underscores: nameWidth and name-width become name_width. Types and modules keep theirs.
Where a definition and a law fall together so, the law ends in _lem. A name that a file imports from a library stays in that file.
Strings stay, and in a comment a name with a hyphen changes only between backquotes. Functions of src/ have no such names.
What is made new: crates/*/src, specs and proofs, and the edits in must-fail/.
"""
import collections
import glob
import os
import re

WORD = r"[^\s(){}.;,@\"«»\[\]]+"
MARKS = r"(?:(?:pattern|unfoldable|abbrev|pub|opaque|axiom)\s+)*"
# Laws that port.py has spelled in snake case, and that a definition now falls together with: the files in which the name is a law's.
BESIDE = {
    "cut_inside": ["paths/proofs", "context/proofs", "updates/proofs"],
    "same_text": ["names/proofs"],
    "no_cut": ["paths/proofs"],
    "size_in": ["form/proofs"],
    "in_order": ["display/proofs"],
    "read_table": ["display/specs/Writing", "display/proofs/DisplayCall"],
    "read_whole": ["context/proofs", "paths/proofs", "names/proofs"],
    "least_type": ["feel/specs/LowWord", "feel/proofs/LowWord", "order/specs/Sentences", "order/proofs/Sentences", "vote/specs", "vote/proofs"],
    "remove_entry": ["feel/specs/LowWord", "feel/proofs/LowWord"],
    "name_new": ["feel/specs/LowWord", "feel/proofs/LowWord"],
    "get_first": ["feel/specs/LowWord", "feel/proofs/LowWord"],
}


def files(*endings):
    return sorted(p for e in endings for p in glob.glob(f"crates/*/{e}", recursive=True) if "/out/" not in p)


def read(path):
    with open(path, encoding="utf-8") as f:
        return f.read()


def snake(name):
    name = re.sub(r"(?<=[a-z0-9₀-₉'])[A-Z]+", lambda m: "_" + m[0].lower(), name)
    return name.replace("-", "_").replace("′", "'")


def declared(text):
    """The names that a text declares, each with its kind: 'def', 'constructor', 'field'."""
    inside = None
    for line in text.split("\n"):
        if not line.strip() or line.lstrip().startswith("--"):
            continue
        head = re.match(rf"(\s*){MARKS}(data|record)\s+({WORD})", line)
        if head:
            inside = head[2], len(head[1])
            continue
        it = re.match(rf"(\s*){MARKS}({WORD}(?:\s+{WORD})*)(?:\s+\{{[^{{}}]*\}})*\s+:(\s|$)", line)
        indent = len(line) - len(line.lstrip())
        if it and it[2].split()[0] not in ("use", "mod", "let", "in", "open", "mutual"):
            if inside and indent == inside[1] + 2:
                kind = "constructor" if inside[0] == "data" else "field"
            elif indent <= 8:
                kind, inside = "def", None if indent == 0 else inside
            else:
                continue
            for name in it[2].split():
                yield name, kind
        elif indent == 0 and not re.match(r"(mutual|unfolding)\b", line):
            inside = None


def is_own(path):
    """A file of specs/ or a file of lemmas: not the proof of one function, which stands in a folder of its own."""
    folder, name = os.path.split(path)
    return name not in ("Proof.antt", "Answers.antt", "Invariants.antt") or os.path.basename(folder) in ("specs", "proofs")


def table():
    kinds = collections.defaultdict(set)
    for path in files("specs/**/*.antt", "proofs/**/*.antt"):
        if is_own(path):
            for name, kind in declared(read(path)):
                kinds[name].add(kind)
    turned = {n: snake(n) for n in kinds if not n[0].isupper() and snake(n) != n and not n.startswith("◌")}
    met = collections.defaultdict(set)
    for name in kinds:
        met[turned.get(name, name)].add(name)
    for new, olds in met.items():
        if len(olds) > 1:
            for old in olds:
                if "-" in old:
                    turned[old] = new + "_lem"
    return turned


USE = re.compile(r"(?m)^[ \t]*(?:pub )?(?:ghost )?use ([^\s{;]+)(\{[^{}]*\})?(?: as (\S+?))?;?[ \t]*$")


def lent(text, crates):
    """The names that a text imports from a library."""
    names = set()
    for it in USE.finditer(text):
        steps = it[1].strip(".").split(".")
        if steps[0] == "Rattle" and len(steps) > 1 and steps[1] in crates:
            continue
        names |= set(re.findall(WORD, it[2] or "")) or {steps[-1]}
    return names


TOKEN = re.compile(r'(?s:"(?:[^"\\]|\\.)*")|(?:--|//)[^\n]*|' + WORD)


def turn(text, names, comment, after_dot=True):
    """Renames in code; in a comment only what stands between backquotes, and words with a capital inside."""

    def word(m):
        it = m[0]
        if it.startswith('"'):
            return it
        if it.startswith(comment) and (len(it) == len(comment) or not it.strip("-/") or it[len(comment)] in " -/"):
            it = re.sub(r"`([^`\s]+)`", lambda b: "`" + ".".join(names.get(p, p) for p in b[1].split(".")) + "`", it)
            return re.sub(r"(?<![\w.-])[a-z]+[A-Z]\w*(?![\w(-])", lambda w: names.get(w[0], w[0]), it)
        if not after_dot and m.start() and text[m.start() - 1] == "." and not is_path(text, m.start()):
            return it
        return names.get(it, it)

    return TOKEN.sub(word, text)


def is_path(text, at):
    """Whether the word behind this dot ends a path of a library or of this repository."""
    start = at - 1
    while start and not text[start - 1].isspace() and text[start - 1] not in "(){},":
        start -= 1
    return text[start:at].startswith("Rattle.")


def main():
    crates = {os.path.basename(os.path.dirname(os.path.dirname(p))) for p in glob.glob("crates/*/src/")}
    crates |= {p.split("/")[1] for p in glob.glob("crates/*/src")}
    names = table()
    for path in files("specs/**/*.antt", "proofs/**/*.antt", "src/**/*.rt", "must-fail/*.edit"):
        old = read(path)
        mine = {k: v for k, v in names.items() if k not in lent(old, crates)}
        mine |= {k: k + "_lem" for k, v in BESIDE.items() if path.endswith(".antt") and any(path.startswith(f"crates/{f}") for f in v)}
        if path.endswith(".rt") or (path.endswith(".edit") and re.search(r"(?m)^file: src/", old)):
            new = turn(old, mine, "//")
        else:
            new = turn(old, mine, "--", is_own(path))
        if new != old:
            with open(path, "w", encoding="utf-8") as f:
                f.write(new)
    print(len(names), "names")
    for old, new in sorted(names.items()):
        if new.endswith("_lem"):
            print(f"  {old} -> {new}")


if __name__ == "__main__":
    main()
