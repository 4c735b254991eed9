#!/usr/bin/env python3
"""Turns proofs that walk the code (proofs/F/Proof.antt of an older kit) into Invariants.antt and Answers.antt.

usage: answers.py CRATE [FUNCTION..]      at the top, after `rt check --generated /tmp/names-CRATE --old-names` in the crate (the script runs it)
A FUNCTION is its path below proofs/, as raster/next_row. What could not be turned is said on a line 'left:'.
"""

import json
import os
import re
import subprocess
import sys

TOK = re.compile(r'[^\s(){}.;,@"«»`]+')
PATH = re.compile(r"(?<![^\s(){};,@])([^\s(){}.;,@\"«»`]+)((?:\.[^\s(){}.;,@\"«»`]+)+)")


def norm(s):
    return s.replace("_", "-")


def bare_need(s):
    s = norm(s)
    for p in ("overflow-", "nonzero-"):
        if s.startswith(p):
            s = s[len(p):]
    return s


def labels():
    """crate::module::fn (also Type::fn) -> labels of its ensures, of its requires."""
    out = {}
    for folder, dirs, files in os.walk("crates"):
        dirs[:] = [d for d in dirs if d not in ("out",)]
        for f in files:
            if not f.endswith(".rt"):
                continue
            p = os.path.join(folder, f)
            crate = p.split("/")[1]
            with open(p, encoding="utf-8") as it:
                t = re.sub(r"//.*", "", it.read())
            mod = "" if f in ("lib.rt", "main.rt") else f[:-3] + "::"
            impl = ""
            for m in re.finditer(r"(?m)^impl(?:<[^>]*>)? (\w+)|^(\})|\bfn (\w+)", t):
                if m[1]:
                    impl = m[1] + "::"
                elif m[2]:
                    impl = ""
                else:
                    en, rq, i = [], [], m.end()
                    while True:
                        j = t.find("{", i)
                        head = re.search(r"\b(requires|ensures)\*?\s*(\w*)\s*$", t[i:j]) if j >= 0 else None
                        if not head:
                            break
                        (en if head[1] == "ensures" else rq).append(head[2])
                        depth, i = 1, j + 1
                        while depth:
                            depth += {"{": 1, "}": -1}.get(t[i], 0)
                            i += 1
                    out[f"{crate}::{mod}{impl}{m[3]}"] = (en, rq)
    return out


def source_names(crate, fn, text):
    """Paths' segments that are parameters or variables of the function, as the source spells them."""
    parts = fn.split("/")
    for f in (f"crates/{crate}/src/{parts[0]}.rt", f"crates/{crate}/src/lib.rt", f"crates/{crate}/src/main.rt"):
        if not os.path.exists(f):
            continue
        with open(f, encoding="utf-8") as it:
            m = re.search(r"(?m)^( *)(?:pub )?(?:extern \"C\" )?fn " + re.escape(parts[-1]) + r"\b.*?^\1\}", it.read(), re.S)
        if m:
            for w in set(re.findall(r"[A-Za-z]\w*_\w+", m[0])):
                text = re.sub(r"(?<=\.)" + re.escape(w.replace("_", "-")) + r"(?=[\s.(){};,]|$)", w, text)
            return text
    return text


LABELS = {}


class Fn:
    def __init__(self, crate, fn, entry):
        self.crate, self.fn, self.e = crate, fn, entry
        self.left = []
        self.aliases = {}  # helpers that go from one place to another
        self.places = {}  # old place -> (prev, old field, new field, index)
        for i, p in enumerate(entry["places"]):
            self.places[norm(p[0])] = (p[1] and norm(p[1]), norm(p[2][0]), p[2][1], i)
        self.needs = {}
        for (old, new), at in zip(entry["needs"], entry["asked_at"]):
            self.needs[bare_need(old)] = (new, norm(at[0]))
            if bare_need(old).startswith("part-"):
                # a range's goals have also had this name
                self.needs.setdefault("slice-bounds-" + bare_need(old)[5:], (new, norm(at[0])))
        self.order = [bare_need(o) for o, _ in entry["needs"]]
        self.loops = {norm(l[0][0]): (l[0][1], l[1], ch) for l, ch in zip(entry["loops"], entry["changed"])}
        self.loop_old = {norm(l[0][0]): l[0][0] for l in entry["loops"]}

    def chain(self, place):
        out = []
        while place is not None and place in self.places:
            out.append(place)
            place = self.places[place][0]
        return out

    # a path that begins some steps before an old place: what it is today. An older kit had steps that today's has not, so a field finds its step by its name.
    def walk(self, at, segs, var):
        """((place, steps), None) where it ends at a place, else (None, text)."""
        place, deep = at
        i = 0
        while i < len(segs) and segs[i] == "before":
            i += 1
        deep += i
        if i == len(segs):
            return (place, deep), None
        f, rest = norm(segs[i]), segs[i + 1:]
        if f == "pre":
            segs, f = segs[:i] + ["requires"] + segs[i + 1:], "requires"
        if f == "requires" and self.e["pre"]:
            fields = self.e["pre"]["fields"]
            k = 0
            while k < len(rest) and rest[k] == "1" and k < len(fields) - 1:
                k += 1
            if k == len(fields) - 1:
                return None, ".".join([var, "requires", fields[k]] + rest[k:])
            if k < len(rest) and rest[k] == "0":
                return None, ".".join([var, "requires", fields[k]] + rest[k + 1:])
            self.left.append("requires taken whole")
        if f in ("args", "ranges", "fn") and rest:
            rest = [rest[0].replace("-", "_")] + rest[1:]
        if f in ("args", "requires", "ranges", "fn"):
            # a parameter's name is the source's again
            if f != "requires" and rest:
                rest = [rest[0].replace("-", "_")] + rest[1:]
            return None, ".".join([var, segs[i]] + rest)
        chain = self.chain(place)
        if f.startswith("shared-slice-known") or f.startswith("slice-known"):
            for pl in chain:
                for name, step in self.e["typed"][self.places[pl][3]]:
                    if norm(step) == f:
                        return None, f"{var}.type_inv.{name}"
        found = []
        for f in [f] + ([f[:-4]] if f.endswith("-lem") else []):
            for j, pl in enumerate(chain):
                prev, oldf, newf, idx = self.places[pl]
                arms = self.e["arms"][idx]
                best = None
                for new, fld, path in arms[2] if arms else []:
                    if norm(fld).lower() == f.lower() and rest[: len(path)] == path and not new.endswith("-own") and (best is None or len(path) > len(best[1])):
                        best = (new, path)
                if best is not None:
                    found.append((abs(j - deep), j > deep, ".".join([var, arms[0], best[0]] + rest[len(best[1]):])))
                elif f.lower() == oldf.lower():
                    found.append((abs(j - deep), j > deep, ".".join([var, newf] + self.stepped(idx, rest))))
            if found:
                break
        if found:
            return None, min(found)[2]
        self.left.append(f"field {f} at {place}, {deep} steps back")
        return None, ".".join([var, segs[i]] + rest)

    def stepped(self, idx, rest):
        rest = ["branch" if r == "came" else r for r in rest]
        callee = self.e["places"][idx][3]
        if callee and rest and rest[0] in ("new", "auto") and len(rest) > 1:
            k = 1
            while k < len(rest) and rest[k] == "1":
                k += 1
            ps = self.e["params"].get(callee, [])
            if k < len(rest) and rest[k] == "0" and k - 1 < len(ps):
                rest = [rest[0], ps[k - 1]] + rest[k + 1:]
        if callee and len(rest) > 1 and rest[0] == "ensures" and rest[1].isdigit():
            en = LABELS.get(callee, ([], []))[0]
            k = 1
            while k < len(rest) and rest[k] == "1" and k < len(en):
                k += 1
            if len(en) > 2 and len(rest) > 2 and rest[1] == "1" and rest[2].isdigit() and (k - 1 < len(en) - 1 and k < len(rest) and rest[k] == "0" or k - 1 == len(en) - 1):
                last = k - 1 == len(en) - 1
                rest = ["ensures", en[k - 1]] + rest[k if last else k + 1:]
            elif len(en) > 1 and int(rest[1]) < len(en):
                rest = ["ensures", en[int(rest[1])]] + rest[2:]
        return rest

    def body(self, text, env, macros, depth=0):
        """text with each path from a variable of env (a place) turned; env: variable -> place."""
        env = dict(env)
        for name, place in self.aliases.items():
            word = r"(?<![^\s(){};,@])" + re.escape(name) + r" [^\s(){};,]+"
            fresh = f"{name}§{place}§0"
            text = re.sub(r"\(" + word[len("(?<![^\\s(){};,@])") - 1:] + r"\)" if False else r"\(" + re.escape(name) + r" [^\s(){};,]+\)", lambda _: fresh, text)
            text = re.sub(word, lambda _: fresh, text)
            env[fresh] = (place, 0)
        # lets that name a place
        pos = 0
        pattern = re.compile(r"let ([^\s:=]+) = ([^\s(){};,]+?)\s+in\b\s*")
        while True:
            m = pattern.search(text, pos)
            if not m:
                break
            segs = m[2].split(".")
            if segs[0] in env and ("given" in segs or re.search(r"(?<![^\s(){};,@])" + re.escape(m[1]) + r"\.(?:new|auto|came|given|ensures\.\d)(?=[\s.(){};,]|$)", text[m.end():])):
                # what a pattern bound, taken whole: each use of it is a path of its own
                post = re.sub(r"(?<![^\s(){};,@])" + re.escape(m[1]) + r"(?=[\s.(){};,]|$)", lambda _: m[2], text[m.end():])
                text = text[: m.start()] + post
                pos = m.start()
                continue
            if segs[0] in env:
                place, t = self.walk(env[segs[0]], segs[1:], "c")
                if t is None:
                    # the name stands for the place from here on
                    pre = text[: m.start()]
                    post = text[m.end():]
                    name = m[1]
                    fresh = f"{name}§{place[0]}§{place[1]}"
                    post = re.sub(r"(?<![^\s(){};,@])" + re.escape(name) + r"(?=[\s.(){};,]|$)", lambda _: fresh, post)
                    env[fresh] = place
                    text = pre + post
                    pos = m.start()
                    continue
            pos = m.end()
        def one(m):
            v, segs = m[1], m[2][1:].split(".")
            if v not in env:
                return m[0]
            place, t = self.walk(env[v], segs, "c")
            return t if t is not None else "c"

        text = PATH.sub(one, text)
        for v in env:
            if v != "c":
                text = re.sub(r"(?<![^\s(){};,@])" + re.escape(v) + r"(?=[\s(){};,]|$)", "c", text)
        return text


def declarations(text):
    """Head (comments and uses) and the declarations: (lines of comment, name, modifiers, type, unfolding, clauses)."""
    lines = text.split("\n")
    head, decls, i, note = [], [], 0, []
    while i < len(lines):
        l = lines[i]
        if re.match(r"(--|use |\s*$)", l) and not decls and not note:
            if l.startswith("--") and any(x.startswith("use ") for x in head):
                note.append(l)
            else:
                head.append(l)
            i += 1
            continue
        if l.startswith("--"):
            note.append(l)
            i += 1
            continue
        if not l.strip():
            i += 1
            continue
        if re.match(r"(use|open) ", l):
            head.append(l)
            i += 1
            continue
        block = [l]
        i += 1
        if re.match(r"(module|(pub )?record|(pub )?data) ", l):
            while i < len(lines) and (lines[i].startswith(" ") or not lines[i].strip()):
                block.append(lines[i])
                i += 1
            decls.append((note, block))
            note = []
            continue
        while i < len(lines):
            n = lines[i]
            if n.startswith(" ") or re.match(r"unfolding ", n):
                block.append(n)
                i += 1
                continue
            if not n.strip():
                # a blank inside a declaration is its end
                break
            if n.startswith("--"):
                break
            m = re.match(r"((?:abbrev |pub |unfoldable )*)([^\s:]+)", block[0])
            if re.match(re.escape(m[2]) + r"(?=[\s=])", n):
                block.append(n)
                i += 1
                continue
            break
        decls.append((note, block))
        note = []
    return head, decls


def split_decl(block):
    m = re.match(r"((?:abbrev |pub |unfoldable )*)([^\s:]+)\s*:", block[0])
    if not m:
        return None
    mods, name = m[1], m[2]
    sig, k = [block[0][m.end():]], 1
    while k < len(block) and block[k].startswith(" "):
        sig.append(block[k])
        k += 1
    unf = ""
    if k < len(block) and block[k].startswith("unfolding "):
        unf = block[k]
        k += 1
        while k < len(block) and block[k].startswith(" "):
            unf += " " + block[k].strip()
            k += 1
    return mods, name, "\n".join(sig).strip(), unf, "\n".join(block[k:])


def clause(name, text):
    m = re.match(re.escape(name) + r"\s*(.*?)\s*=(?=\s)", text, re.S)
    if not m or re.search(r"(?m)^" + re.escape(name) + r"[ =]", text[m.end():]):
        return None, text
    return m[1].split(), text[m.end():].strip("\n")


def tail(t):
    """Where the last expression of t begins, behind its lets."""
    depth, at, i = 0, 0, 0
    while i < len(t):
        ch = t[i]
        if ch in "({[":
            depth += 1
        elif ch in ")}]":
            depth -= 1
        elif depth == 0 and re.match(r"(?<![^\s])in(?=\s)", t[i:]) and (i == 0 or t[i - 1].isspace()):
            at = i + 2
        i += 1
    return at


def parts(t):
    """The parts of a tuple that is all of t, or None."""
    t = t.strip()
    if not (t.startswith("(") and t.endswith(")")):
        return None
    depth, cur, out = 0, "", []
    for i, ch in enumerate(t):
        if ch in "({[":
            depth += 1
            if depth == 1:
                continue
        if ch in ")}]":
            depth -= 1
            if depth == 0:
                if i != len(t) - 1:
                    return None
                break
        if ch == "," and depth == 1:
            out.append(cur)
            cur = ""
        else:
            cur += ch
    if cur.strip():
        out.append(cur)
    return [x.strip() for x in out] if len(out) > 1 else None


def recorded(t, names):
    """A tuple at the end of t as a record with these names."""
    at = tail(t)
    ps = parts(t[at:])
    if ps is None:
        return t
    while len(ps) < len(names):
        more = parts(ps[-1])
        if more is None:
            return t
        ps = ps[:-1] + more
    if len(ps) != len(names):
        return t
    return t[:at] + " record {\n" + "".join(f"      {n} = {x};\n" for n, x in zip(names, ps)) + "    }"


def joined(a, b):
    names = []
    for u in (a, b):
        for w in u.replace("unfolding", "").split():
            if w not in names:
                names.append(w)
    return "unfolding " + " ".join(names) if names else ""


def with_lets(F, t, macros):
    """t with each helper over a place bound by a typed let before it."""
    used, grown = [], True
    word = lambda n: r"(?<![^\s(){};,@])" + re.escape(n) + r" c(?=[\s(){};,]|$)"
    while grown:
        grown = False
        for n, (ty, params, b, unf) in macros.items():
            if n in used:
                continue
            if any(re.search(word(n), x) for x in [t] + [macros[u][0] + " " + macros[u][2] for u in used]):
                used.append(n)
                grown = True
    used = [n for n in macros if n in used]
    if not used:
        return t, ""
    unfs = ""

    def plain(x):
        for n in used:
            x = re.sub(r"\(" + re.escape(n) + r" c\)", n, x)
            x = re.sub(word(n), n, x)
        return x

    out = []
    for n in used:
        ty, params, b, unf = macros[n]
        b = plain(b).strip()
        if params:
            b = "λ " + " ".join(params) + ". " + b
        out.append(f"let {n} : {plain(ty)} =\n    {b} in")
        unfs = joined(unfs, unf)
    return "\n    " + "\n    ".join(out) + "\n    " + plain(t).strip(), unfs


def dedent(b):
    return b.strip() if "\n" not in b.strip("\n") else b.rstrip()


def main(argv):
    crate, only = argv[0], argv[1:]
    LABELS.update(labels())
    where = os.path.join("crates", crate)
    gen = f"/tmp/names-{crate}"
    subprocess.run(["rm", "-rf", gen])
    subprocess.run(["rt", "check", "--generated", gen, "--old-names"], cwd=where, stdout=subprocess.DEVNULL, stderr=subprocess.DEVNULL)
    with open(os.path.join(gen, "names.json")) as f:
        names = json.load(f)
    for folder, dirs, files in os.walk(os.path.join(where, "proofs")):
        if "Proof.antt" not in files:
            continue
        fn = os.path.relpath(folder, os.path.join(where, "proofs"))
        if only and fn not in only:
            continue
        key = f"Rattle-{crate}-proofs." + fn.replace("/", ".") + ".Lts"
        if key not in names:
            print(f"left: {crate} {fn}: no names ({key})")
            continue
        turn(crate, fn, names[key], folder)


def turn(crate, fn, entry, folder):
    with open(os.path.join(folder, "Proof.antt"), encoding="utf-8") as f:
        text = f.read()
    F = Fn(crate, fn, entry)
    head, decls = declarations(text)
    module = f"Rattle.{crate}.proofs." + fn.replace("/", ".")
    parsed = []
    spec = None
    modules = []
    for note, block in decls:
        if re.match(r"(module|(pub )?record|(pub )?data) ", block[0]):
            modules.append("\n".join(note + block).rstrip())
            if "tie." in modules[-1]:
                F.left.append("a module names tie: " + block[0])
            continue
        d = split_decl(block)
        if d is None:
            F.left.append("not read: " + block[0][:80])
            continue
        if d[1].endswith("-spec") or d[1].endswith("_spec"):
            spec = d
            continue
        parsed.append((note, d))
    macros, helpers, invs, answers = {}, [], [], []
    inv_names = set()
    for note, (mods, name, sig, unf, body) in parsed:
        m = re.match(r"tie\.(invariant|decreases)-(\S+)", sig)
        if m:
            inv_names.add(name)
    for note, (mods, name, sig, unf, body) in parsed:
        m = re.match(r"tie\.(invariant|decreases)-(\S+)", sig)
        if m:
            kind, old = m[1], norm(m[2])
            if old not in F.loops:
                F.left.append(f"no loop {old}")
                continue
            new, vars_, changed = F.loops[old]
            params, b = clause(name, body)
            if params is None:
                F.left.append(f"{name}: several clauses")
                continue
            names_ = []
            for v, ch in zip(vars_, changed):
                names_.append(f"l.initial.{v}" if ch else f"l.{v}")
            names_ += [f"l.{v}" for v, ch in zip(vars_, changed) if ch]
            if len(params) != len(names_):
                F.left.append(f"{name}: {len(params)} parameters for {names_}")
            sub = {p: n for p, n in zip(params, names_) if p != "_"}
            for p in sub:
                if re.search(r"λ [^.]*(?<![^\s(])" + re.escape(p) + r"(?=[\s.)])|\(" + re.escape(p) + r" :", b):
                    F.left.append(f"{name}: {p} is bound inside")
            b = re.sub(r"(?<![^\s(){};,@])([^\s(){}.;,@\"«»`]+)(?=[\s.(){};,]|$)(?! = )", lambda m: sub.get(m[1], m[1]), b)
            invs.append((note, f"{kind}-{new}", unf, b))
            continue
        m = re.match(r"tie\.Need-(\S+)", sig)
        if m:
            old = bare_need(m[1])
            if old not in F.needs and re.fullmatch(r"\w+-t\d+", old):
                # a goal with no name of the source's: the only one of its kind
                kin = [o for o in F.needs if re.fullmatch(old.split("-")[0] + r"-t\d+", o)]
                old = kin[0] if len(kin) == 1 else old
            if old not in F.needs:
                F.left.append(f"no goal {old}: {body[:60]!r}")
                continue
            new, place = F.needs[old]
            params, b = clause(name, body)
            if params is None:
                F.left.append(f"{name}: several clauses")
                continue
            answers.append((note, new, place, params, unf, b))
            continue
        if "tie." in sig:
            params, b = clause(name, body)
            m = re.match(r"\(([^\s:]+) : tie\.(\S+?)\)|tie\.(\S+)", sig)
            if params is None:
                F.left.append(f"helper {name}: several clauses")
                continue
            m = re.match(r"\(([^\s:]+) : tie\.([^\s)]+)[^)]*\)\s*→\s*(.*)|tie\.(\S+)[^→]*→\s*(.*)", sig, re.S)
            if m is None:
                F.left.append(f"helper {name}: its place is not read")
                continue
            place = norm(m[2] or m[4])
            ty = m[3] or m[5]
            to = re.fullmatch(r"tie\.(\S+)(?: (?:invariant|decreases)\S+)*", ty.strip())
            if to:
                F.aliases[name] = norm(to[1])
                continue
            if "tie." in ty:
                F.left.append(f"helper {name} takes two places")
            macros[name] = (
                F.body(ty, {m[1]: (place, 0)} if m[1] else {}, {}).strip(),
                params[1:],
                F.body(b, {params[0]: (place, 0)}, {}),
                unf,
            )
            continue
        helpers.append((note, mods, name, sig, unf, body))
    # in the spec line: answers that stand there alone
    if spec:
        s = spec[4]
        m = re.search(r"tie\.spec\b(.*)", s, re.S)
        if m:
            args, depth, cur = [], 0, ""
            for ch in m[1].strip():
                if ch == ")" and depth == 0:
                    break
                if ch in "({":
                    depth += 1
                if ch in ")}":
                    depth -= 1
                if ch.isspace() and depth == 0:
                    if cur:
                        args.append(cur)
                    cur = ""
                else:
                    cur += ch
            if cur:
                args.append(cur)
            args = [a for a in args if not a.startswith("{")]
            n_inv = 2 * len(F.loops)
            # loops stand first, in pairs; then the goals in order
            goals = args[n_inv:]
            if len(goals) != len(F.order):
                inline = [a for a in goals if a.startswith("(λ") and not re.fullmatch(r"\(λ \S+(?: \S+)?\. (?:search rules|omega arith|search needs)\)", a)]
                if inline:
                    F.left.append(f"{len(goals)} goals in the file, {len(F.order)} today: {inline}")
            else:
                for a, old in zip(goals, F.order):
                    m2 = re.fullmatch(r"\(λ (\S+)( \S+)?\. (.*)\)", a, re.S)
                    if not m2 or m2[3] in ("search rules", "search needs", "omega arith"):
                        continue
                    new, place = F.needs[old]
                    answers.append(([], new, place, [m2[1]] + ([m2[2].strip()] if m2[2] else []), "", m2[3]))
    uses = [l for l in head if l.startswith("use ") and not re.search(r"\.Tie as tie|\.Statement\.|\.Reads as|\.Lts as| as reads| as lts|^use native.Mathlib.Omega.\{arith\}", l)]
    omega = "use Rattle.std.proofs.Common.{arith}"
    comment = [l for l in head if l.startswith("--")]
    out_inv, out_ans = [], []
    inv_text = "\n".join(b for _, _, _, b in invs)
    shared = []
    # a helper that an invariant names, and what it names, goes with the invariants
    need = set(TOK.findall(inv_text))
    grown = True
    while grown:
        grown = False
        for h in helpers:
            if h[2] in need and h not in shared:
                shared.append(h)
                need |= set(TOK.findall(h[3] + " " + h[5]))
                grown = True
    for h in helpers:
        note, mods, name, sig, unf, body = h
        t = "\n".join(note + [f"{mods}{name} : {sig}"] + ([unf] if unf else []) + [body])
        if h in shared:
            out_inv.append(t if "pub " in mods else "\n".join(note + [("abbrev pub " if "abbrev" in mods else "pub " ) + f"{name} : {sig}"] + ([unf] if unf else []) + [body]))
        else:
            out_ans.append(t)
    for t in modules:
        m = re.search(r"(?m)^(?:pub )?(?:record|data) (\S+)", t)
        named = {m[1]} if m else set(re.findall(r"(?m)^  (?:pub |abbrev |unfoldable )*([^\s:]+)[^:\n]* :", t))
        if named & need:
            if m:
                t = re.sub(r"(?m)^(?=record|data)", "pub ", t)
                t = re.sub(r"(?m)^  (?!pub )(?=\S+(?: \S+)* :)", "  pub ", t)
            out_inv.append(t)
            shared += [(None, None, n) for n in sorted(named)]
        else:
            out_ans.append(t)
    for note, new, unf, b in invs:
        out_inv.append("\n".join(note + [f"abbrev pub {new} : goal.{new}"] + ([unf] if unf else []) + [f"{new} l = {dedent(b)}"]))
    for note, new, place, params, unf, b in answers:
        env = {params[0]: (place, 0)} if params and params[0] != "_" else {}
        t = F.body(b, env, {})
        t = re.sub(r"not[-_](?:true|false) _ (c\.[^\s()]+\.(?:true|false))", r"\1", t)
        t, more = with_lets(F, t, macros)
        own = LABELS.get(f"{crate}::" + fn.replace("/", "::"), ([], []))
        if new.startswith("returns") and len(own[0]) > 1:
            t = recorded(t, own[0])
        m = re.match(r"([a-z_0-9]+)(?:-.*)?-requires(?:-.*)?$", new)
        if m:
            for callee in entry["params"]:
                if callee.split("::")[-1] == m[1] and len(LABELS.get(callee, ([], []))[1]) > 1:
                    t = recorded(t, LABELS[callee][1])
                    break
        t = re.sub(r"not[-_](?:true|false) _ (c\.[^\s()]+\.(?:true|false))", r"\1", t)
        # a field of our own records that an earlier script took for the kit's
        t = re.sub(r"(?<=\))\.ranges(?=[\s(){};,]|$)", ".fits", t)
        for n in macros:
            t = re.sub(r"(?<![^\s(){};,@])" + re.escape(n) + r"\.ranges(?=[\s(){};,]|$)", n + ".fits", t)
        t = source_names(crate, fn, t)
        unf = joined(unf, more)
        if re.fullmatch(r"\s*(search rules|search needs)\s*", t):
            continue
        if len(params) > 1 and re.search(r"(?<![^\s(])" + re.escape(params[1]) + r"(?=[\s).])", t):
            F.left.append(f"{new}: {params[1]} is used")
        if params and params[0] not in ("c", "_"):
            t = t
        out_ans.append("\n".join(note + [f"pub {new} : goal.{new}"] + ([unf] if unf else []) + [f"{new} c = {dedent(t)}"]))
    if out_inv:
        with open(os.path.join(folder, "Invariants.antt"), "w", encoding="utf-8") as f:
            f.write("\n".join(comment + [omega] + uses + [f"use {module}.Given as goal", ""]) + "\n" + "\n\n".join(out_inv) + "\n")
    if out_ans:
        u = list(uses)
        if shared:
            u.append(f"use {module}.Invariants.{{{', '.join(h[2] for h in shared)}}}")
        with open(os.path.join(folder, "Answers.antt"), "w", encoding="utf-8") as f:
            f.write("\n".join(comment + [omega] + u + [f"use {module}.Goals as goal", ""]) + "\n" + "\n\n".join(out_ans) + "\n")
    to = os.path.join("/tmp/aside", crate, fn)
    os.makedirs(to, exist_ok=True)
    os.replace(os.path.join(folder, "Proof.antt"), os.path.join(to, "Proof.antt"))
    for l in F.left:
        print(f"left: {crate} {fn}: {l}")


if __name__ == "__main__":
    main(sys.argv[1:])
