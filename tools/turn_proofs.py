#!/usr/bin/env python3
"""Turns the proofs of functions of the older form, a Proof.antt that answers each goal of its `Tie`, to Invariants.antt and Answers.antt.

usage: turn_proofs.py CRATES NAMES CRATE [FUNCTION..]

CRATES is the folder crates/, NAMES the names.json that `rt check --generated FOLDER --old-names` writes for CRATE. An answer that is
`search rules` or `omega arith` alone is left out, since the check tries those itself. What could not be turned is printed.
"""

import json
import os
import re
import sys

ID = r"[^\s(){}\[\].;,@\"«»`]+"
PATH = re.compile(rf"(?<![^\s(){{}}\[\];,@`])({ID})((?:\.{ID})+)?")


def norm(s):
    return s.replace("-", "_")


class Function:
    def __init__(self, crate, folder, name, data, labels):
        self.crate, self.folder, self.name, self.data = crate, folder, name, data
        self.labels = labels
        self.notes = []
        self.places = data["places"]
        self.steps = {}
        self.callee = {}
        for p in self.places:
            old, new = p[2]
            if old:
                self.steps[norm(old)] = new
                self.callee[norm(old)] = p[3]
        self.clauses = {}
        for p, cl in zip(self.places, data["clauses"]):
            if cl:
                self.clauses[norm(p[2][0])] = cl["fields"]
        self.typed = {}
        for row in data["typed"]:
            for var, step in row:
                self.typed.setdefault(norm(step), [])
                if var not in self.typed[norm(step)]:
                    self.typed[norm(step)].append(var)
        self.arms = {}
        for a in data["arms"]:
            if a:
                for new, step, path in a[2]:
                    if not new.endswith("-own"):
                        self.arms.setdefault(norm(step), []).append((path, a[0], new))
        self.needs = {norm(o): n for o, n in data["needs"]}
        self.args = {a: b for a, b in data["args"]}

    def one(self, comps):
        """A path below c, in the older names, without `before`: today's."""
        if not comps:
            return []
        s = norm(comps[0])
        rest = comps[1:]
        if norm(comps[0]) in ("args", "requires", "ranges", "lifetimes", "well_formed", "utf8"):
            comps = [s] + comps[1:]
            if rest:
                key = f".{comps[0]} .{rest[0]}"
                if key in self.args:
                    rest = [self.args[key].split(".")[-1]] + rest[1:]
                elif s in ("args", "ranges"):
                    rest = [norm(rest[0])] + rest[1:]
            if comps[0] == "requires" and self.labels["requires"] and rest and rest[0].isdigit():
                rest = [self.labels["requires"][int(rest[0])]] + rest[1:]
            return [comps[0]] + rest
        for path, arm, new in sorted(self.arms.get(s, ()), key=lambda r: -len(r[0])):
            if rest[: len(path)] == path and path:
                return [arm, new] + self.after(s, new, rest[len(path) :])
        if any(path[: len(rest)] == rest for path, _, _ in self.arms.get(s, ())):
            return [self.arms[s][0][1]]
        if s in self.typed and rest and rest[0] == "given":
            vs = self.typed[s]
            if len(vs) > 1:
                self.notes.append(f"typed {s}: {vs}")
            return ["type_inv", vs[0]] + rest[1:]
        if s in self.steps:
            return [self.steps[s]] + self.of_step(s, rest)
        return comps

    def after(self, s, new, rest):
        return rest

    def of_step(self, s, rest):
        if rest and rest[0] in ("new", "auto") and self.callee.get(s):
            ps = self.data["params"].get(self.callee[s], [])
            i = 1
            while i < len(rest) and rest[i] == "1":
                i += 1
            if i < len(rest) and rest[i] == "0" and i - 1 < len(ps):
                return [rest[0], ps[i - 1]] + rest[i + 1 :]
        if rest and rest[0] == "ensures" and s in self.clauses and len(rest) > 1 and rest[1].isdigit():
            cl = self.clauses[s]
            # the clauses were pairs, each in the second part of the one before
            k, i = 0, 1
            while k < len(cl) - 1 and i < len(rest) and rest[i] == "1":
                k, i = k + 1, i + 1
            if k == len(cl) - 1:
                return ["ensures", cl[k]] + rest[i:]
            if i < len(rest) and rest[i] == "0":
                return ["ensures", cl[k]] + rest[i + 1 :]
        return rest

    def turn(self, text, aliases=None, helpers=(), answers=(), used=None):
        """Turns the paths of a body."""
        aliases = dict(aliases or {})
        out, at = [], 0
        pending = None
        for m in PATH.finditer(text):
            if m.start() < at:
                continue
            head, tail = m.group(1), m.group(2) or ""
            comps = [x for x in tail.split(".") if x]
            out.append(text[at : m.start()])
            before = text[: m.start()].rstrip()
            at = m.end()
            if head == "c" or head in aliases:
                base = [] if head == "c" else aliases[head]
                full = base + [x for x in comps if x != "before"]
                if head != "c" and before.endswith("let"):
                    out.append(m.group())  # a new binding of the name
                    continue
                new = self.one(full)
                if head != "c":
                    b = self.one(base)
                    if new[: len(b)] == b:
                        word = ".".join([head] + new[len(b) :])
                    else:
                        word = ".".join(["c"] + new)
                else:
                    word = ".".join(["c"] + new)
                # an alias: let X = PATH in
                lm = re.search(rf"let\s+({ID})\s*=\s*$", text[: m.start()])
                if lm and re.match(r"\s+in\b", text[m.end() :]):
                    aliases[lm.group(1)] = full
                out.append(word)
                # the argument of a helper
                hm = re.search(rf"(?<![^\s(){{}}\[\];,])({ID})\s+$", "".join(out[:-1]))
                if hm and hm.group(1) in helpers:
                    out[-1] = ""
                    joined = "".join(out)
                    out = [joined.rstrip()]
                    if used is not None and hm.group(1) not in used:
                        used.append(hm.group(1))
                elif hm and hm.group(1) in answers:
                    used is not None and used.append("=" + hm.group(1))
                continue
            out.append(m.group())
        out.append(text[at:])
        return "".join(out)


def blocks(text):
    """The header, the use lines, and the declarations of a file."""
    lines = text.split("\n")
    head, uses, rest = [], [], []
    i = 0
    while i < len(lines) and (lines[i].startswith("--") or not lines[i].strip()):
        head.append(lines[i])
        i += 1
    while i < len(lines) and (lines[i].startswith("use ") or not lines[i].strip()):
        uses.append(lines[i])
        i += 1
    decls, cur, comment = [], None, []
    for line in lines[i:]:
        if not line.strip():
            continue
        if line.startswith("--"):
            comment.append(line)
            continue
        if line[0] in " )":
            cur["lines"].append(line)
            continue
        words = line.split()
        k = 0
        while words[k] in ("abbrev", "pub", "unfoldable"):
            k += 1
        name = words[k]
        if name == "unfolding" and cur is not None:
            cur["unfolding"] = line
            continue
        if cur is not None and name == cur["name"] and name not in ("module", "open", "data", "record"):
            cur["lines"].append(line)
            continue
        cur = {"name": name, "lines": [line], "comment": comment, "unfolding": None, "words": words}
        comment = []
        decls.append(cur)
    return head, uses, decls


def split_equation(d):
    """The signature's text and the equations' of a declaration."""
    sig, eqs = [], []
    here = sig
    name = d["name"]
    for n, line in enumerate(d["lines"]):
        if n and not line.startswith((" ", ")")):
            here = eqs
        here.append(line)
    return "\n".join(sig), "\n".join(eqs)


def trivial(body):
    return re.fullmatch(r"\s*(search rules|omega arith|\(omega arith\)|search rules depth \d+)\s*", body) is not None


def convert(fn, text):
    head, uses, decls = blocks(text)
    inv, ans = [], []
    loops = fn.data["loops"]
    answers = {}
    helpers = {}
    for d in decls:
        sig, _ = split_equation(d)
        if re.search(r":\s*\n?\s*tie\.Need-", sig):
            answers[d["name"]] = d
        elif ("tie." in sig or "lts." in sig) and not re.search(r":\s*tie\.(invariant|decreases)-", sig) and d["name"] != "module":
            helpers[d["name"]] = d
    lets = {}

    def helper(name):
        d = helpers[name]
        if name in lets:
            return lets[name]
        sig, eq = split_equation(d)
        m = re.match(rf"(?:abbrev |pub )*{re.escape(name)}\s*:\s*\(({ID}) : (?:tie|lts)\.(?:[^()]|\([^()]*\))*\)\s*(.*)$", sig, re.S)
        lines = eq.split("\n")
        e = re.match(rf"{re.escape(name)}\s+({ID})((?:\s+(?!=\s){ID})*)\s+=\s+(.*)$", eq, re.S)
        if not m or not e or sum(1 for l in lines if l.startswith(name)) != 1:
            fn.notes.append(f"helper {name} not turned")
            lets[name] = None
            return None
        used = []
        rest = as_c(m.group(2).strip(), m.group(1))
        typ = rest[1:].strip() if rest.startswith("→") else rest
        typ = fn.turn(typ, helpers=helpers, used=used)
        body = fn.turn(as_c(e.group(3), e.group(1)), helpers=helpers, answers=answers, used=used)
        args = e.group(2).split()
        if args:
            body = "λ " + " ".join(args) + ". " + body
        lets[name] = (typ, body, used, d["unfolding"])
        return lets[name]

    def wrap(used, body, indent="    "):
        """Puts the helpers' lets before a body."""
        order, unf = [], []

        def visit(n):
            if n.startswith("="):
                fn.notes.append(f"cites the answer {n[1:]}")
                return
            h = helper(n)
            if h is None or n in order:
                return
            for x in h[2]:
                visit(x)
            order.append(n)
            if h[3]:
                unf.append(h[3])

        for n in used:
            visit(n)
        text = "".join(f"{indent}let {n} : {lets[n][0]} =\n{indent}    {lets[n][1].strip()} in\n" for n in order)
        return text, unf

    for d in decls:
        sig, eq = split_equation(d)
        name = d["name"]
        if "statement M" in sig or re.search(r"\bstatement\b", sig):
            continue
        m = re.search(r":\s*tie\.(invariant|decreases)-(\S+)", sig)
        if m:
            kind, loop = m.group(1), m.group(2)
            row = None
            for r, ch in zip(loops, fn.data["changed"]):
                if norm(r[0][0]) == norm(loop):
                    row, changed = r, ch
            if row is None:
                row, changed = (loops[0], fn.data["changed"][0]) if len(loops) == 1 else (None, None)
            e = re.match(rf"{re.escape(name)}((?:\s+(?!=\s){ID})*)\s+=\s+(.*)$", eq, re.S)
            if not row or not e:
                fn.notes.append(f"{kind} of {loop} not turned")
                continue
            new_loop, vs = row[0][1], row[1]
            ps = e.group(1).split()
            want = len(vs) + sum(changed)
            if len(ps) != want:
                fn.notes.append(f"{kind} of {loop}: {len(ps)} parameters for {want}")
            subst = {}
            for v, ch, p in zip(vs, changed, ps):
                subst[p] = f"l.initial.{v}" if ch else f"l.{v}"
            for v, p in zip([v for v, ch in zip(vs, changed) if ch], ps[len(vs) :]):
                subst[p] = f"l.{v}"

            def rep(mm):
                h, t = mm.group(1), mm.group(2) or ""
                return (subst[h] + t) if h in subst else mm.group()

            body = PATH.sub(rep, e.group(2))
            new = f"{kind}-{new_loop}"
            inv.append("\n".join(d["comment"] + [f"abbrev pub {new} : goal.{new}"] + ([d["unfolding"]] if d["unfolding"] else []) + [f"{new} l = {body}"]))
            continue
        m = re.search(r":\s*tie\.Need-(\S+)", sig)
        if m:
            need = norm(m.group(1))
            new = fn.needs.get(need)
            if new is None:
                short = re.sub(r"^(overflow|nonzero)_", "", need)
                new = fn.needs.get(short)
            e = re.match(rf"{re.escape(name)}\s+({ID})((?:\s+(?!=\s){ID})*)\s+=\s+(.*)$", eq, re.S)
            if e and trivial(e.group(3)) and not d["unfolding"]:
                continue
            if new is None:
                fn.notes.append(f"goal {need} has no name today")
                new = "LOST-" + need
            if not e:
                fn.notes.append(f"answer {name} not turned")
                continue
            more = "".join(" " + a for a in e.group(2).split() if a != "κs")
            used = []
            body = fn.turn(inlined(as_c(e.group(3), e.group(1)), answers), helpers=helpers, answers=answers, used=used)
            pre, unf = wrap(used, body)
            unfolding = []
            for u in ([d["unfolding"]] if d["unfolding"] else []) + unf:
                unfolding += [w for w in u.split()[1:] if w not in unfolding and w not in helpers]
            labels = fn.labels["ensures"]
            if new.startswith("returns") and len(labels) > 1:
                lets_before, b = last_in(body.strip())
                parts = top_tuple(b)
                while parts and len(parts) < len(labels) and top_tuple(parts[-1]):
                    parts = parts[:-1] + top_tuple(parts[-1])
                words = [f"«{l}»" if l in ("record", "data", "open") else l for l in labels]
                if parts and len(parts) == len(labels):
                    body = lets_before + "record { " + "; ".join(f"{l} = {p.strip()}" for l, p in zip(words, parts)) + " }"
                else:
                    body = lets_before + f"let both = {b} in record {{ " + "; ".join(f"{l} = both" + ".1" * i + (".0" if i < len(words) - 1 else "") for i, l in enumerate(words)) + " }"
            ans.append(
                "\n".join(
                    d["comment"]
                    + [f"pub {new} : goal.{new}"]
                    + (["unfolding " + " ".join(unfolding)] if unfolding else [])
                    + [f"{new} c{more} =" + ("\n" + pre.rstrip("\n") + "\n    " + body.strip() if pre else (" " + body.strip() if "\n" not in body.strip() else "\n    " + body.strip()))]
                )
            )
            continue
        if name in helpers:
            continue
        text_d = [l for l in d["lines"]]
        if d["unfolding"]:
            k = len(sig.split("\n"))
            text_d = text_d[:k] + [d["unfolding"]] + text_d[k:]
        ans.append("\n".join(d["comment"] + text_d))
    keep = [u for u in uses if u.strip() and " as tie" not in u and ".Statement.{statement}" not in u]
    goal = f"use Rattle.{fn.crate}.proofs.{fn.name.replace('::', '.')}"
    files = {}
    if inv:
        files["Invariants.antt"] = "\n".join([keep_line for keep_line in keep] + [goal + ".Given as goal", ""]) + "\n" + "\n\n".join(inv) + "\n"
    if any(a for a in ans if re.search(r"goal\.", a)):
        title = [h for h in head if h.strip()]
        files["Answers.antt"] = "\n".join(title + keep + [goal + ".Goals as goal", ""]) + "\n" + "\n\n".join(ans) + "\n"
    return files


def as_c(text, var):
    """The text with c in place of the variable."""
    if var == "c":
        return text

    def rep(m):
        if m.group(1) == var:
            return "c" + (m.group(2) or "")
        if m.group(1) == "c":
            return "c0" + (m.group(2) or "")
        return m.group()

    return PATH.sub(rep, text)


def inlined(text, answers):
    """The text with the bodies of the answers that it cites in their place, where each is one line."""
    for name, d in answers.items():
        m = re.search(rf"(?<![^\s(){{}}\[\];,]){re.escape(name)} (c(?:\.before)*)(?![^\s(){{}}\[\];,])", text)
        if m:
            _, eq = split_equation(d)
            e = re.match(rf"{re.escape(name)}\s+({ID})((?:\s+(?!=\s){ID})*)\s+=\s+(.*)$", eq, re.S)
            if e and not [a for a in e.group(2).split() if a != "κs"]:
                text = text[: m.start()] + "(" + as_c(e.group(3), e.group(1)) + ")" + text[m.end() :]
    return text


def last_in(body):
    """A body in two: its lets, and what stands behind the last `in` outside brackets."""
    depth, cut = 0, 0
    for m in re.finditer(r"[(\[{]|[)\]}]|(?<=\s)in(?=\s)", body):
        if m.group() in "([{":
            depth += 1
        elif m.group() in ")]}":
            depth -= 1
        elif depth == 0:
            cut = m.end()
    return (body[:cut] + " " if cut else ""), body[cut:].strip()


def top_tuple(b):
    b = b.strip()
    if not (b.startswith("(") and b.endswith(")")):
        return None
    depth, parts, cur = 0, [], ""
    for i, ch in enumerate(b[1:-1]):
        if ch in "([{":
            depth += 1
        if ch in ")]}":
            depth -= 1
            if depth < 0:
                return None
        if ch == "," and depth == 0:
            parts.append(cur)
            cur = ""
        else:
            cur += ch
    if cur.strip():
        parts.append(cur)
    return parts if len(parts) > 1 else None


def source_labels(crates, crate):
    """The names of the clauses of each function of a crate."""
    found = {}
    folder = os.path.join(crates, crate, "src")
    for f in os.listdir(folder):
        text = open(os.path.join(folder, f), encoding="utf-8").read()
        for m in re.finditer(r"fn (\w+)[^{]*?(?=\n\s*(?:requires|ensures|\{)|\{)", text):
            tail = text[m.end() :]
            end = re.search(r"\n\s*\{\n|\n\{", tail)
            clause = tail[: end.start()] if end else ""
            found[m.group(1)] = {
                k: re.findall(rf"^\s*{k}\s+(\w+)\s*\{{", clause, re.M) for k in ("requires", "ensures")
            }
    return found


def main(argv):
    crates, names, crate = argv[:3]
    only = set(argv[3:])
    with open(names, encoding="utf-8") as f:
        data = json.load(f)
    labels = source_labels(crates, crate)
    base = os.path.join(crates, crate, "proofs")
    for folder, _, files in sorted(os.walk(base)):
        if "Proof.antt" not in files:
            continue
        name = os.path.relpath(folder, base).replace(os.sep, ".")
        if only and name not in only:
            continue
        path = os.path.join(folder, "Proof.antt")
        with open(path, encoding="utf-8") as f:
            text = f.read()
        key = f"Rattle-{crate}-proofs.{name}.Lts"
        if ".Tie" not in text or key not in data:
            print(f"{crate}::{name}: a walk by hand, or without names: left")
            continue
        fn = Function(crate, folder, name, data[key], labels.get(name.split(".")[-1], {"requires": [], "ensures": []}))
        made = convert(fn, text)
        for n in fn.notes:
            print(f"{crate}::{name}: {n}")
        os.remove(path)
        for n, t in made.items():
            with open(os.path.join(folder, n), "w", encoding="utf-8") as f:
                f.write(t)
        if not os.listdir(folder):
            os.rmdir(folder)


if __name__ == "__main__":
    main(sys.argv[1:])
