#!/usr/bin/env python3
"""Turns each proofs/F/Proof.antt of a crate, a list of answers in the order of an older Rattle's needs, to Invariants.antt and Answers.antt under today's names.

usage: tools/answers.py CRATE NAMES [FOLDER..]     at the top of the repository, after port.py and tools/snake_names.py

NAMES is the names.json that 'rt check --generated DIR --old-names' writes for the crate. An answer that is only 'search rules' or 'omega arith' is left out: the check finds it.
A place that it does not know how to turn gets a line that begins 'left:'. With FOLDERs below proofs/, only those.
"""
import glob
import json
import os
import re
import sys

ID = r"[^\s(){}.;,@\"«»\[\]]+"
DROP = re.compile(r"\.(Statement|Tie|Reads|Kinds|Lts[^.\s]*|Code|Met)\b|^use borrow\.Fn\.|\.\+[^.\s]+\.\{statement\}|\.\+[^.\s]+ as ")


def plain(name):
    return name.replace("-", "_")


def said(text):
    print("left: " + text)


def split_args(text):
    """The arguments of an application: bracketed parts and single words."""
    args, i, n = [], 0, len(text)
    while i < n:
        if text[i].isspace():
            i += 1
            continue
        start, depth = i, 0
        while i < n:
            ch = text[i]
            if ch in "({[":
                depth += 1
            elif ch in ")}]":
                depth -= 1
            elif ch.isspace() and depth == 0:
                break
            i += 1
        args.append(text[start:i])
    return args


def declarations(text):
    """The declarations of a file: (head comment, uses, [(name, signature, body lines)])."""
    lines = text.split("\n")
    head, uses, decls, i = [], [], [], 0
    while i < len(lines) and lines[i].startswith("--"):
        head.append(lines[i])
        i += 1
    cur = []
    blocks = []
    for line in lines[i:]:
        if line.startswith("use ") or line.startswith("pub use "):
            uses.append(line)
        elif line.startswith("--"):
            continue
        elif line.startswith(")") and blocks:
            blocks[-1].append(line)
        elif line and not line[0].isspace():
            blocks.append([line])
        elif blocks:
            blocks[-1].append(line)
    # join a signature with the clauses of the same name
    i = 0
    while i < len(blocks):
        b = blocks[i]
        m = re.match(rf"(?:(?:abbrev|pub|unfoldable)\s+)*({ID})\s*(\{{[^}}]*\}}\s*)?:", b[0])
        if m:
            name, group = m[1], ["\n".join(b)]
            j = i + 1
            while j < len(blocks) and (re.match(rf"{re.escape(name)}(?=[\s=])", blocks[j][0]) or blocks[j][0].startswith("unfolding")):
                group.append("\n".join(blocks[j]))
                j += 1
            decls.append((name, group))
            i = j
        else:
            decls.append((None, ["\n".join(b)]))
            i += 1
    return head, uses, decls


class Function:
    """What names.json says of one function."""

    def __init__(self, d, fn):
        self.d, self.fn = d, fn
        self.stem = d["stem"]
        self.places = {p[0]: p for p in d["places"]}
        self.new_place = {p[0]: n for p, n in zip(d["places"], d["places_by_name"])}
        self.arms = {p[0]: a for p, a in zip(d["places"], d["arms"])}
        self.needs = [(a, b, at) for (a, b), at in zip(d["needs"], d["asked_at"])]
        self.loops = d["loops"]

    def chain(self, place):
        out = []
        while place is not None:
            p = self.places[place]
            out.append(p)
            place = p[1]
        return out


def sources(crates):
    """Of each function of the repository: its parameters, and the names of its requires and ensures in order."""
    found = {}
    for crate in crates:
        for path in glob.glob(f"crates/{crate}/src/**/*.rt", recursive=True):
            mod = path.split("/src/")[1][:-3].replace("/", "::")
            pre = crate + "::" + ("" if mod in ("lib", "main") else mod + "::")
            with open(path) as f:
                text = f.read()
            for m in re.finditer(r"(?m)^[ \t]*(?:pub(?:\(crate\))? )?(?:unsafe )?(?:extern \"C\" )?fn (\w+)\s*\(", text):
                end = text.find("\n{", m.end())
                if end < 0:
                    continue
                head, depth, i = text[m.end() : end], 1, 0
                while depth:
                    depth += (head[i] in "([{") - (head[i] in ")]}")
                    i += 1
                params = [p.split(":")[0].strip().removeprefix("mut ") for p in re.split(r",(?![^<(\[]*[>)\]])", head[: i - 1]) if p.strip()]
                rest = head[i:]
                req = [x or None for x in re.findall(r"\brequires\*?[ \t]*(\w*)[ \t]*\{", rest)]
                ens = [x or None for x in re.findall(r"\bensures\*?[ \t]*(\w*)[ \t]*\{", rest)]
                found[pre + m[1]] = (params, req, ens)
    return found


def clause_path(names, fields):
    """The new fields of a citation of one of several clauses by position. Older form: .0, .1.0, .1.1.0 .. with the rest in the last; or .0 .1 .2"""
    if len(names) < 2 or not fields:
        return fields
    if not re.fullmatch(r"\d+", fields[0]):
        return fields
    i, rest = 0, list(fields)
    while i < len(names) - 1 and rest and rest[0] == "1":
        i, rest = i + 1, rest[1:]
    if i < len(names) - 1:
        if not rest or rest[0] != "0":
            return None
        rest = rest[1:]
    return [names[i]] + rest if names[i] else None


PATHRE = re.compile(rf"(?<![^\s(){{}};,@\[\]])({ID})((?:\.{ID})+)?")


class Turner:
    def __init__(self, f, goal, place, src, crate, where, fields):
        self.f, self.goal, self.src, self.crate, self.where, self.fields = f, goal, src, crate, where, fields
        self.chain = f.chain(place) if place in f.places else None
        self.own = next((v for k, v in src.items() if k.startswith(crate + "::") and k.endswith("::" + f.fn)), None)
        self.env = {"c": 0}

    def path(self, head, rest):
        idx = self.env[head]
        parts = [p for p in rest.split(".") if p] if rest else []
        while parts and parts[0] == "before":
            idx += 1
            parts = parts[1:]
        if not parts:
            return None, idx
        f = parts[0] = {"pre": "requires", "fits": "ranges", "entry_IsPlace": "entry_place"}.get(parts[0], parts[0])
        out = None
        # the step of that name that is nearest to the place that the older form counted to
        same = [i for i, p in enumerate(self.chain) if p[2][0] and plain(p[2][0]) == plain(f)]
        if same:
            idx = min(same, key=lambda i: abs(i - idx))
        idx = min(idx, len(self.chain) - 1)
        place = self.chain[idx]
        old, new = place[2]
        if plain(f) == plain(old) and old:
            out = [new]
            more = parts[1:]
            # an arm that takes in this step: [new step, how many places, [[field, old step, old path] ..]]
            for i in range(idx, -1, -1):
                arm = self.f.arms.get(self.chain[i][0])
                if not arm or i + arm[1] <= idx:
                    continue
                for field, step, path in sorted(arm[2], key=lambda it: -len(it[2])):
                    if plain(step) == plain(f) and more[: len(path)] == path:
                        more = [field] + more[len(path):]
                        out = [arm[0]]
                        break
                else:
                    continue
                break
            if more and more[0] == "ensures" and len(more) > 1:
                callee = place[3]
                names = self.src.get(callee, (None, [], []))[2] if callee else []
                got = clause_path(names, more[1:])
                if got is None:
                    said(f"{self.where}: {self.goal}: clause {'.'.join(more)} of {callee}")
                else:
                    more = ["ensures"] + got
            if more and more[0] == "new" and len(more) > 1 and re.fullmatch(r"\d+", more[1]):
                k = 1
                while k < len(more) and more[k] == "1":
                    k += 1
                pos = k - 1
                params = self.src.get(place[3], ([], 0, 0))[0] if place[3] else []
                if k < len(more) and more[k] == "0" and pos < len(params):
                    more = ["new", params[pos]] + more[k + 1 :]
                else:
                    said(f"{self.where}: {self.goal}: {'.'.join(more)} of {place[3]}")
            out += more
        elif f in ("args", "ranges", "lifetimes", "loop", "well_formed"):
            out = parts
        elif f in ("good", "well-formed"):
            out = ["well_formed"] + parts[1:]
        elif f == "requires":
            more = parts[1:]
            if self.f.stem and more and more[0] == "1":
                more = more[1:]
            elif self.f.stem:
                more = None
            names = self.own[1] if self.own else []
            got = clause_path(names, more) if more is not None else None
            out = ["requires-raw"] + parts[1:] if more is None else ["requires"] + (more if got is None else got)
        else:
            if f != "match":
                said(f"{self.where}: {self.goal}: step {f} at {place[0]} (it has {old}): {head}{rest}")
            out = [new if f == "match" else f] + parts[1:]
        # fields of the repository's own records
        out = [out[0]] + [self.fields.get(x, x) for x in out[1:]]
        return "c." + ".".join(out), idx

    def turn(self, body):
        # a let that only names a place
        pat = re.compile(rf"let ({ID}) =\s+({ID})((?:\.before)*)\s+in\b[ \t]*\n?[ \t]*")
        while True:
            m = next((m for m in pat.finditer(body) if m[2] in self.env), None)
            if not m:
                break
            self.env[m[1]] = self.env[m[2]] + m[3].count(".before")
            body = body[: m.start()] + body[m.end() :]

        def word(m):
            head, rest = m[1], m[2] or ""
            if head not in self.env:
                if rest:
                    parts = rest.split(".")[1:]
                    return head + "".join("." + self.fields.get(x, x) for x in parts)
                return m[0]
            got, idx = self.path(head, rest)
            if got is None:
                place = self.chain[idx][0] if idx < len(self.chain) else "?"
                t = "t " if self.f.stem else ""
                return f"(goal.at.{self.goal} {t}c).{self.f.new_place.get(place, place)}"
            return got

        return PATHRE.sub(word, body)


def lam(arg):
    """The names and the body of a λ, or None."""
    a = arg.strip()
    while a.startswith("(") and a.endswith(")") and balanced(a[1:-1]):
        a = a[1:-1].strip()
    m = re.match(r"λ\s+([^.]*?)\.\s", a)
    if m:
        return m[1].split(), a[m.end() :]
    return None


def balanced(t):
    d = 0
    for ch in t:
        if ch in "([{":
            d += 1
        elif ch in ")]}":
            d -= 1
            if d < 0:
                return False
    return d == 0


def dedent(body):
    return body.strip("\n ")


def parts_of(text):
    """The parts of a tuple's inside, at its commas."""
    out, depth, cur = [], 0, ""
    for ch in text:
        if ch in "([{":
            depth += 1
        elif ch in ")]}":
            depth -= 1
        if ch == "," and depth == 0:
            out.append(cur)
            cur = ""
        else:
            cur += ch
    if cur.strip():
        out.append(cur)
    return [o.strip() for o in out]


def as_record(term, names):
    """A tuple with a part for each clause, behind its lets, as a record by the clauses' names."""
    m = re.match(r"((?:unfold [^\n]*? in\s|let (?:[^()]|\((?:[^()]|\((?:[^()]|\((?:[^()]|\([^()]*\))*\))*\))*\))*? in\s)*\s*)\((.*)\)\s*$", term, re.S)
    if not m or not balanced(m[2]):
        return None
    ps = parts_of(m[2])
    if len(ps) == 2 and len(names) > 2:
        flat = [ps[0]]
        rest = ps[1]
        while len(flat) < len(names) - 1:
            r = rest.strip()
            if not (r.startswith("(") and r.endswith(")") and balanced(r[1:-1])):
                return None
            q = parts_of(r[1:-1])
            if len(q) != 2:
                return None
            flat.append(q[0])
            rest = q[1]
        ps = flat + [rest]
    if len(ps) != len(names):
        return None
    return m[1] + "record {\n" + "".join(f"      {n} = {p};\n" for n, p in zip(names, ps)) + "    }"


def self_record(term, new, f, src, crate, where, goal):
    """A goal of several clauses takes a record by their names."""
    own = next((v for k, v in src.items() if k.startswith(crate + "::") and k.endswith("::" + f.fn)), None)
    if re.match(r"returns(?![a-z])", new):
        names = own[2] if own else []
    elif "-requires" in new:
        step = new.split("-requires")[0]
        callees = {p[3] for p in f.d["places"] if p[3] and re.match(re.escape(p[3].split("::")[-1]) + r"(-|$)", step)}
        cands = [src[k][1] for k in callees if k in src]
        names = cands[0] if cands else []
    else:
        return term
    if len(names) < 2 or not all(names):
        return term
    got = as_record(term, names)
    if got is None and term.lstrip().endswith(")"):
        said(f"{where}: {goal}: clauses {names} in one term")
    return got or term


TRIVIAL = re.compile(r"\(*\s*(search rules|omega arith|search\s*\(rules\))\s*\)*$")


def convert(crate, folder, functions, src, fields):
    path = f"crates/{crate}/proofs/{folder}/Proof.antt"
    with open(path) as f:
        text = f.read()
    head, uses, decls = declarations(text)
    is_cycle = any(k != "" for k in functions)
    where = f"{crate}/{folder}"
    alias = {}
    for u in uses:
        m = re.match(r"use \S+\.Lts-(\S+) as (\S+)$", u)
        if m:
            alias[m[2]] = m[1]
        m = re.match(r"use \S+\.(Tie|Lts) as (\S+)$", u)
        if m and not is_cycle:
            alias[m[2]] = next(iter(functions.values())).fn
    byfn = {f.fn: f for f in functions.values()}
    plainfn = {plain(f): f for f in byfn}
    invs, answers, helpers = [], {}, []
    helper_names = set()
    specs = []
    named = {}
    for name, group in decls:
        full = "\n".join(group)
        sig = full.split("\n" + (name or "\0") + " ")[0] if name else full
        if name is None:
            said(f"{where}: a line that is no declaration: {full[:60]!r}")
            continue
        need = re.search(rf"({ID})\.Need-({ID})", sig)
        inv = re.search(rf":\s*({ID})\.(invariant|decreases|InvT|MeasureT)-({ID})\s*$", sig.strip())
        if re.search(r":\s*Measures\b", sig):
            body = full[len(sig) :]
            m = re.search(r"=\s*(.*)$", full[len(sig):], re.S)
            if not m:
                m = re.search(rf"{re.escape(name)}\s+(\S+)\s+(\S+)\s*=\s*(.*)$", full, re.S)
                term, var = m[3], m[2]
            else:
                mm = re.search(rf"{re.escape(name)}\s+(\S+)\s+(\S+)\s*=\s*(.*)$", full, re.S)
                term, var = mm[3], mm[2]
            fn = plainfn.get(plain(re.sub(r"^μ[-_]?", "", name)))
            if fn is None and len(byfn) == 1:
                fn = next(iter(byfn))
            params = next((v[0] for k, v in src.items() if k.startswith(crate + "::") and k.endswith("::" + fn)), []) if fn else []

            def arg(m):
                k = m[1].count(".1")
                return f"l.{params[k]}" if k < len(params) else m[0]

            term = re.sub(rf"\b{re.escape(var)}((?:\.1)*)\.0(?![\w])", arg, term)
            invs.append((f"decreases-{fn}", term.strip()))
            continue
        if inv:
            fn = alias.get(inv[1])
            f = byfn.get(fn)
            mm = re.search(rf"(?m)^{re.escape(name)}\s+(.*?)=\s*(.*)$", full[len(sig) :], re.S)
            if not f or not mm:
                said(f"{where}: {name}: an invariant of no known function")
                helpers.append(full)
                continue
            vars_, term = mm[1].split(), mm[2].strip()
            label = inv[3]
            idx = next((i for i, l in enumerate(f.loops) if plain(l[0][0]) == plain(label)), None)
            if idx is None:
                said(f"{where}: {name}: no loop {label}: {[l[0] for l in f.loops]}")
                helpers.append(full)
                continue
            (old, new), vs = f.loops[idx]
            changed = f.d["changed"][idx] if idx < len(f.d["changed"]) else [True] * len(vs)
            slots = [f"l.initial.{v}" if ch else f"l.{v}" for v, ch in zip(vs, changed)] + [f"l.{v}" for v, ch in zip(vs, changed) if ch]
            if len(slots) != len(vars_):
                said(f"{where}: {name}: {len(vars_)} variables for {len(slots)}: {vars_} for {slots}")
                helpers.append(full)
                continue
            sub = dict(zip(vars_, slots))
            term = PATHRE.sub(lambda m: sub.get(m[1], m[1]) + (m[2] or ""), term)
            kind = "invariant" if inv[2] in ("invariant", "InvT") else "decreases"
            stem = f.stem
            invs.append((f"{kind}-{stem}{new}" if not stem else f"{kind}-{stem}{new}", term))
            continue
        if re.search(r":\s*ℕ → (In \d|\S*Claims|\S+\.Claims)", sig) or re.search(r"\.Claims\b", sig):
            continue
        if re.search(r"\bstatement\b", sig):
            specs.append((name, full))
            continue
        if need:
            named[name] = (need[1], need[2], full, sig)
            continue
        helpers.append(full)
        helper_names.add(name)
    # the arguments of each spec
    for name, full in specs:
        body = full.split("=", 1)[1]
        for m in re.finditer(rf"(?<![\w.])({ID})\.spec\b", body):
            fn = alias.get(m[1])
            f = byfn.get(fn)
            if not f:
                said(f"{where}: {m[1]}.spec of no known function")
                continue
            rest = body[m.end() :]
            depth, end = 0, len(rest)
            for i, ch in enumerate(rest):
                if ch in "([{":
                    depth += 1
                elif ch in ")]}":
                    depth -= 1
                    if depth < 0:
                        end = i
                        break
            rest = rest[:end]
            cut = re.search(r"(?m)^\s*λ t\.\s*$", rest)
            if cut:
                rest = rest[: cut.start()]
            args = split_args(rest)
            # a cycle's spec may be followed by the next one
            nxt = next((i for i, a in enumerate(args) if re.fullmatch(r"λ", a)), None)
            if nxt is not None:
                args = args[:nxt]
            n = len(f.needs)
            if len(args) < n:
                said(f"{where}: {fn}: {len(args)} answers for {n} needs")
            args = args[-n:] if n else []
            if len(args) != n:
                continue
            for (old, new, at), arg in zip(f.needs, args):
                a = arg.strip()
                key = re.sub(r"\s+t$", "", a.strip("()").strip())
                if a in named or key in named:
                    a2, need, full2, sig2 = named[a if a in named else key]
                    mm = re.search(rf"(?m)^{re.escape(a if a in named else key)}\s+(.*?)=\s*(.*)$", full2[len(sig2) :], re.S) or re.search(rf"(?m)^{re.escape(a if a in named else key)}\s*=\s*(.*)$", full2[len(sig2) :], re.S)
                    if mm and len(mm.groups()) == 2:
                        vs, term = mm[1].split(), mm[2]
                    elif mm:
                        lm = lam(mm[1])
                        vs, term = lm if lm else (["c"], f"({mm[1].strip()}) c")
                    else:
                        said(f"{where}: {fn}: {new}: no body of {a}")
                        continue
                    unf = re.search(r"(?m)^unfolding [^\n]*$", full2)
                else:
                    lm = lam(a)
                    unf = None
                    if lm:
                        vs, term = lm
                    else:
                        vs, term = ["c"], f"{a} c"
                if vs and vs[0] == "t" and f.stem:
                    vs = vs[1:]
                cv = vs[0] if vs else "c"
                goal = f"{f.stem}{new}"
                tr = Turner(f, goal, at[0], src, crate, where, fields)
                if tr.chain is None:
                    said(f"{where}: {goal}: no place {at}")
                    continue
                tr.env = {cv: 0} if cv != "_" else {}
                term = tr.turn(dedent(term))
                more = [v for v in vs[1:] if v != "κs"]
                if TRIVIAL.match(term):
                    continue
                term = self_record(term, new, f, src, crate, where, goal)
                lead = "t c" if f.stem else "c"
                answers[goal] = (unf[0] if unf else None, lead + "".join(" " + v for v in more), term)
    # helpers
    body_helpers = []
    for h in helpers:
        def place(m):
            f = byfn.get(alias.get(m[1]))
            if f and m[2] in f.new_place:
                used.add(f.stem + f.new_place[m[2]] if f.stem else f.new_place[m[2]])
                return f.new_place[m[2]]
            return m[0]

        used = set()
        h2 = re.sub(rf"({ID})\.({ID})((?:\s+\([^()]*\)|\s+[\w.μ-]+)*)(?=\))", lambda m: place(m) if byfn.get(alias.get(m[1])) and m[2] in byfn[alias[m[1]]].new_place else m[0], h)
        if h2 != h:
            said(f"{where}: a lemma over a place, by hand: {h2.splitlines()[0]}")
        body_helpers.append(h2)
    keep = [u for u in uses if not DROP.search(u)]
    goalmod = f"Rattle.{crate}.proofs.{folder.replace('/', '.')}"
    folder_path = f"crates/{crate}/proofs/{folder}"
    if invs:
        out = [f"{h}" for h in head[:1]]
        out += keep + [f"use {goalmod}.Given as goal", ""]
        for name, term in invs:
            out += [f"abbrev pub {name} : goal.{name}", f"{name} l = {term}", ""]
        with open(f"{folder_path}/Invariants.antt", "w") as f:
            f.write("\n".join(out))
    if answers or body_helpers:
        out = head + keep + [f"use {goalmod}.Goals as goal", ""]
        for h in body_helpers:
            out += [h.rstrip(), ""]
        for name, (unf, lead, term) in answers.items():
            out += [f"pub {name} : goal.{name}"] + ([unf] if unf else []) + [f"{name} {lead} =" + ("\n    " if "\n" in term or len(term) > 90 else " ") + term.rstrip(), ""]
        with open(f"{folder_path}/Answers.antt", "w") as f:
            f.write("\n".join(out))
    os.remove(path)
    return len(answers)


def main():
    crate, names = sys.argv[1], sys.argv[2]
    only = sys.argv[3:]
    with open(names) as f:
        data = json.load(f)
    with open("crates.txt") as f:
        crates = [l.split(":")[0].split()[0] for l in f if ":" in l and not l.startswith("#")]
    src = sources(crates)
    # fields of the repository's records, old spelling to new
    fields = {}
    for p in glob.glob("crates/*/specs/**/*.antt", recursive=True) + glob.glob("crates/*/proofs/**/*.antt", recursive=True):
        if os.path.basename(p) in ("Proof.antt", "Answers.antt", "Invariants.antt"):
            continue
        with open(p) as f:
            for m in re.finditer(r"(?m)^\s+(?:pub )?([a-z][\w']*(?:_[\w']+)+) :", f.read()):
                fields[m[1].replace("_", "-")] = m[1]
                fields[re.sub(r"_([a-z])", lambda x: x[1].upper(), m[1])] = m[1]
    folders = {}
    prefix = f"Rattle-{crate}-proofs."
    for key, d in data.items():
        if not key.startswith(prefix) or not isinstance(d, dict) or "needs" not in d:
            continue
        parts = key[len(prefix) :].split(".")
        lts = parts[-1]
        folder = "/".join(parts[:-1])
        if lts == "Lts":
            fn = parts[-2].lstrip("+")
            folders.setdefault(folder, {})[""] = Function(d, fn)
        else:
            fn = lts.removeprefix("Lts-")
            folders.setdefault(folder, {})[fn] = Function(d, fn)
    for folder, functions in folders.items():
        if only and not any(folder.startswith(o) for o in only):
            continue
        if os.path.exists(f"crates/{crate}/proofs/{folder}/Proof.antt"):
            n = convert(crate, folder, functions, src, fields)
            print(f"{crate}/{folder}: {n} answers")


if __name__ == "__main__":
    main()
