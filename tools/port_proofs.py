#!/usr/bin/env python3
"""Turns the proofs F/Proof.antt of a crate that answer needs by place into Invariants.antt and Answers.antt.

usage: python3 tools/port_proofs.py CRATE_DIR NAMES_JSON [F ..]

NAMES_JSON is what `rt check --generated DIR --old-names` writes. A proof that walks the code by hand is left.
"""
import json, os, re, sys

WORD = re.compile(r"[^\s(){}\[\],;.`\"]+")


def blocks(text):
    out, cur = [], []
    for line in text.split("\n"):
        if not line.strip():
            if cur:
                out.append(cur)
            cur = []
        else:
            # a new declaration at column 0 after a body starts a new block
            if cur and line[0] not in " -)]}([{" and not line.startswith("use ") and cur[-1].startswith(" "):
                out.append(cur); cur = []
            cur.append(line)
    if cur:
        out.append(cur)
    return out


def split_args(text):
    """The arguments of an application, at depth 0."""
    args, depth, cur = [], 0, ""
    for ch in text:
        if ch in "([{":
            depth += 1
        if ch in ")]}":
            depth -= 1
        if ch.isspace() and depth == 0:
            if cur:
                args.append(cur)
            cur = ""
        else:
            cur += ch
    if cur:
        args.append(cur)
    return args


def clauses_of(root):
    """The names of the clauses of each function of src/, by the function's name."""
    out = {}
    for d, ds, fs in os.walk(root):
        ds[:] = [x for x in ds if x not in ("out", "target", ".git")]
        for f in fs:
            if not f.endswith(".rt"):
                continue
            t = open(os.path.join(d, f), encoding="utf-8").read()
            for m in re.finditer(r"(?m)^\s*(?:pub )?(?:unsafe )?(?:extern \"C\" )?fn (\w+)", t):
                rest = t[m.end():]
                stop = re.search(r"(?m)^\s*\{\s*$", rest)
                head = rest[:stop.start()] if stop else rest[:2000]
                out.setdefault(m.group(1), {k: re.findall(r"(?m)^\s*" + k + r"\s+(?:(\w+)\s+)?\{", head) for k in ("requires", "ensures")})
    return out


def as_record(rhs, names):
    """The tuple at the end of an answer as a record of the clauses."""
    t = rhs.rstrip()
    if not t.endswith(")"):
        return rhs
    depth, k = 0, len(t) - 1
    while k >= 0:
        if t[k] in ")]}":
            depth += 1
        elif t[k] in "([{":
            depth -= 1
            if depth == 0:
                break
        k -= 1
    before = t[:k].rstrip()
    if not (before == "" or before.endswith(" in") or before.endswith("\nin")):
        return rhs
    parts, depth, cur = [], 0, ""
    for ch in t[k + 1:-1]:
        if ch in "([{":
            depth += 1
        if ch in ")]}":
            depth -= 1
        if ch == "," and depth == 0:
            parts.append(cur.strip()); cur = ""
        else:
            cur += ch
    if cur.strip():
        parts.append(cur.strip())
    if len(parts) != len(names):
        return rhs
    sep = "\n    " if "\n" in t[:k] else " "
    return t[:k].rstrip() + sep + "record { " + "; ".join(f"{n} = {p}" for n, p in zip(names, parts)) + " }"


class Fn:
    def __init__(self, e):
        self.needs = {}
        self.order = []
        for o, n in e["needs"]:
            self.needs[o] = n
            self.order.append((o, n))
        self.steps = {}
        self.callees = {}
        for i, p in enumerate(e["places"]):
            old, new = p[2]
            if old:
                self.steps.setdefault(old, new)
            cl = e["clauses"][i]
            if cl and old:
                self.callees[old] = cl["fields"]
        self.args = {}
        for o, n in e["args"]:
            m = re.match(r"\.args \.(\S+)$", o)
            if m:
                self.args[m.group(1)] = n.split(".")[-1]
        self.e = e
        self.place = {p[0]: i for i, p in enumerate(e["places"])}
        self.arms = {}
        self.keys = {}
        self.at(None)
        self.loops = []
        for (names, variables), changed in zip(e["loops"], e["changed"]):
            self.loops.append((names[0], names[1], variables, changed))
        self.settled = set(e["settled"])
        self.pre = None


    def at(self, need):
        """The arms that a need's place has come through."""
        e = self.e
        idx = range(len(e["places"]))
        if need is not None:
            k = [o for o, _ in self.order].index(need)
            chain, p = [], e["asked_at"][k][0] if k < len(e["asked_at"]) else None
            while p is not None and p in self.place:
                chain.append(self.place[p])
                p = e["places"][self.place[p]][1]
            idx = chain
            if not chain:
                idx = range(len(e["places"]))
        self.arms, self.keys = {}, {}
        for i in idx:
            a = e["arms"][i]
            if a:
                for field, step, path in a[2]:
                    if not field.endswith("-own"):
                        self.arms.setdefault((step, ".".join(path)), f"{a[0]}.{field}")
            p = e["places"][i]
            m = re.match(r"At-(match\d*)-keys(\d+)$", p[0])
            if m and need is not None:
                before = [q[2][1] for q in e["places"] if re.match(r"At-" + m.group(1) + r"-keys\d+$", q[0]) and q[2][1].startswith("in-") and self.place[q[0]] < i]
                self.keys[(m.group(1), "keys" + m.group(2))] = (p[2][1], ["not-" + b.split("-", 1)[1] for b in before])


def turn_paths(body, fn, start, notes):
    """Strips `.before`, and names the steps as today."""
    places = {start}
    # tokens: identifiers with their paths
    out, i = [], 0
    path = re.compile(r"(?<![\w'.\-₀])([A-Za-zκ_][\w'\-₀]*)((?:\.[\w'\-₀]+)+)")
    # aliases of places, found by a first pass
    changed = True
    while changed:
        changed = False
        for m in re.finditer(r"let ([\w'\-]+) = ([\w'\-]+)((?:\.before)*) in", body):
            if m.group(2) in places and m.group(1) not in places:
                places.add(m.group(1)); changed = True

    argv = {m.group(1) for m in re.finditer(r"let ([\w'\-]+) = ([\w'\-]+)(?:\.before)*\.args in", body) if m.group(2) in places}

    def sub(m):
        head, rest = m.group(1), m.group(2)[1:].split(".")
        if head in argv and rest[0] in fn.args:
            return ".".join([head, fn.args[rest[0]]] + rest[1:])
        if head not in places:
            return m.group(0)
        while rest and rest[0] == "before":
            rest.pop(0)
        if not rest:
            return head
        step = rest[0]
        if step == "args" and len(rest) > 1 and rest[1] in fn.args:
            rest[1] = fn.args[rest[1]]
        if len(rest) > 1 and (step, rest[1]) in fn.keys and (step, rest[1]) not in fn.arms:
            new, nots = fn.keys[(step, rest[1])]
            if len(nots) == 1:
                return ".".join([head, new, nots[0]] + rest[2:])
            notes.append("keys " + step + " " + " ".join(nots))
        cand = [step, step.replace("-", "_"), re.sub(r"_lem$", "", step), step.lower(), step.lower().replace("-", "_")]
        for s in cand:
            # arms first: the longest path
            for k in range(len(rest) - 1, 0, -1):
                key = (s, ".".join(rest[1:k + 1]))
                if key in fn.arms:
                    new = fn.arms[key].split(".") + rest[k + 1:]
                    return head + "." + ".".join(new)
            if s in fn.steps:
                new = fn.steps[s]
                tail = rest[1:]
                f = fn.callees.get(s)
                if f and len(tail) > 1 and tail[0] in ("ensures", "requires") and tail[1].isdigit() and tail[0] == "ensures":
                    k = int(tail[1])
                    if k < len(f) and f[k]:
                        tail[1] = f[k]
                if f and len(f) == 1 and f[0] and tail and tail[0] == "ensures" and (len(tail) < 2 or tail[1] != f[0]):
                    tail[1:1] = [f[0]]
                if tail and tail[0] == "branch":
                    notes.append("branch")
                if new.startswith("if-not-") and tail in (["true"], ["false"]):
                    return "(ap not " + head + "." + new + "." + tail[0] + ")"
                return head + "." + ".".join([new] + tail)
        if step == "requires" and len(rest) > 1 and rest[1].isdigit() and fn.pre and int(rest[1]) < len(fn.pre):
            rest[1] = fn.pre[int(rest[1])]
        if step in ("args", "requires", "well-formed", "well_formed", "ranges", "lifetimes", "type_inv", "lfts"):
            return head + "." + ".".join([step.replace("-", "_")] + rest[1:])
        notes.append("step " + step)
        return head + "." + ".".join(rest)

    body = path.sub(sub, body)
    if re.search(r"\.match-[\w\-]+-branch", body):
        body = re.sub(r"\.match-[\w\-]+-branch", ".is", body)
        body = body.replace("(w.1.given.1, w.3, w.4)", "w").replace("(w.1.given.1, w.3)", "w.1")
    return body


def named(n, folder, table):
    """The clauses that an answer is owed for, where there are several."""
    f = folder.split("/")[-1].lstrip("+")
    if n == "returns" or n.startswith("returns-"):
        names = table.get(f, {}).get("ensures", [])
    elif "-requires" in n:
        g = n.split("-")[0]
        names = table.get(g, {}).get("requires", [])
    else:
        return None
    return names if len(names) > 1 and all(names) else None


def convert(crate, folder, path, e, table):
    text = open(path, encoding="utf-8").read()
    if "tie.spec" not in text:
        return "by hand"
    fn = Fn(e)
    own = table.get(folder.split("/")[-1].lstrip("+"), {}).get("requires", [])
    fn.pre = own if len(own) > 1 and all(own) else None
    bl = blocks(text)
    uses, invs, needs, others, spec = [], [], [], [], None
    head = []
    notes = []
    for b in bl:
        if any(l.startswith("use ") for l in b):
            head += [l for l in b if l.startswith("--")]
            uses += [l for l in b if l.startswith("use ") and not re.search(r"\.(Statement\.\{statement\}|Tie as tie)$", l)]
            continue
        sig = next((l for l in b if not l.startswith("--")), "")
        if re.match(r"pub [\w'+\-]+ : .*statement M", sig):
            spec = b
        elif re.match(r"abbrev (pub )?[\w'\-]+ : tie\.(invariant|decreases)", sig):
            invs.append(b)
        elif re.match(r"[\w'\-]+ : tie\.Need-", sig):
            needs.append(b)
        else:
            others.append(b)
    if spec is None:
        return "no spec"
    body = " ".join(l.strip() for l in spec)
    m = re.search(r"\(?tie\.spec (.*)$", body)
    args = split_args(m.group(1).rstrip())
    # drop the closing parenthesis of `tie.close (tie.spec ..)`
    inner = m.group(1)
    depth, k = 0, 0
    for k, ch in enumerate(inner):
        if ch == "(":
            depth += 1
        elif ch == ")":
            depth -= 1
            if depth < 0:
                inner = inner[:k]
                break
    args = split_args(inner)
    n_inv = len(invs)
    given = args[n_inv:]
    if len(given) != len(fn.order):
        notes.append(f"spec has {len(given)} answers, and {len(fn.order)} are needed")
    local = {}
    for b in needs:
        sig = next(l for l in b if not l.startswith("--"))
        local[re.match(r"([\w'\-]+) :", sig).group(1)] = b
    answers = []
    by_name = {}
    for a, (o, n) in zip(given, fn.order):
        by_name[a] = (o, n)
    # invariants
    inv_out = []
    for b in invs:
        i = next(k for k, l in enumerate(b) if not l.startswith("--"))
        sig = b[i]
        m = re.match(r"abbrev (?:pub )?([\w'\-]+) : tie\.(invariant|decreases)-(.+)$", sig)
        kind, loop = m.group(2), m.group(3)
        what = next((l for l in fn.loops if l[0] == loop), None)
        if what is None:
            cand = [l for l in fn.loops if l[0].replace("_", "-") == loop]
            what = cand[0] if cand else None
        if what is None:
            notes.append("no loop " + loop)
            continue
        _, new, variables, changed = what
        eq = "\n".join(b[i + 1:])
        mm = re.match(r"(?:unfolding [^\n]*\n)?([\w'\-]+)((?:\s+[^\s=]+)*)\s*=(.*)$", eq, re.S)
        params = mm.group(2).split()
        pos = []
        for v, ch in zip(variables, changed):
            pos.append(("l.initial." if ch else "l.") + v)
        for v, ch in zip(variables, changed):
            if ch:
                pos.append("l." + v)
        if len(pos) != len(params):
            notes.append(f"loop {loop}: parameters {params} and {pos}")
        swap = {p: q for p, q in zip(params, pos) if p != "_"}

        def put(m):
            return swap.get(m.group(0), m.group(0))

        rhs = re.sub(r"(?<![\w'.\-₀-₉])[A-Za-z_][\w'\-₀-₉]*", put, mm.group(3))
        name = f"{kind}-{new}"
        unf = [l for l in b[i + 1:] if l.startswith("unfolding ")]
        inv_out.append("\n".join([l for l in b[:i]] + [f"abbrev pub {name} : goal.{name}"] + unf + [f"{name} l ={rhs}"]))
    # answers
    ren = {}
    for a, (o, n) in by_name.items():
        if a in local and a != n:
            ren[a] = n
    def rename(body):
        def f(m):
            return ren.get(m.group(0), m.group(0))
        return re.sub(r"(?<![\w'.\-₀-₉])[A-Za-z_][\w'\-₀-₉]*(?![\w'\-])", f, body) if ren else body

    helpers = {}
    placed = set()
    names = dict(zip([p[0] for p in e["places"]], e["places_by_name"]))
    for b in others:
        t = "\n".join(b)
        m = re.match(r"(?:--[^\n]*\n)*(?:abbrev |unfoldable )?(?:pub )?([\w'\-]+) : \(c : tie\.([\w\-]+)", t)
        if m and (m.group(2) in names or m.group(2).replace("-", "_") in names):
            helpers[m.group(1)] = names.get(m.group(2)) or names[m.group(2).replace("-", "_")]

    def pass_places(body, fn, o, n, c):
        k = [x for x, _ in fn.order].index(o)
        here = e["asked_at"][k][1] if k < len(e["asked_at"]) else None
        for h, p in helpers.items():
            arg = c if here == p else f"(goal.at.{n} {c}).{p}"
            body = re.sub(r"(?<![\w'.\-])" + re.escape(h) + r"\s+" + re.escape(c) + r"((\.before)*)(?![\w'.\-])", h + " " + arg, body)
        return body

    ans_out = []
    for a, (o, n) in zip(given, fn.order):
        if n in fn.settled:
            continue
        if a in local:
            b = local[a]
            i = next(k for k, l in enumerate(b) if not l.startswith("--"))
            unf = [l for l in b[i + 1:] if l.startswith("unfolding ")]
            eq = "\n".join(l for l in b[i + 1:] if not l.startswith("unfolding "))
            mm = re.match(r"([\w'\-]+)((?:\s+[^\s=]+)*)\s*=(.*)$", eq, re.S)
            params = mm.group(2).split()
            cpos = 0
            lead = ""
            c = params[cpos] if params else "c"
            extra = params[1:]
            if len(params) > 1 and params[0] != "c":
                # g or t before c
                idx = params.index("c") if "c" in params else 0
                lead, c, extra = " ".join(params[:idx]) + (" " if idx else ""), params[idx], params[idx + 1:]
            more = "".join(" " + x for x in extra if x != "κs")
            fn.at(o)
            rhs = turn_paths(pass_places(rename(mm.group(3)), fn, o, n, c), fn, c, notes)
            if named(n, folder, table):
                rhs = as_record(rhs, named(n, folder, table))
            if not unf and re.fullmatch(r"\s*(search rules|omega arith)\s*", rhs):
                continue
            ans_out.append("\n".join([l for l in b[:i]] + [f"pub {n} : goal.{n}"] + unf + [f"{n} {lead}{c}{more} ={rhs}"]))
        else:
            mm = re.match(r"\(λ ([^.]*)\. (.*)\)$", a, re.S)
            if mm:
                if re.fullmatch(r"(search rules|omega arith)", mm.group(2).strip()):
                    continue
                ps = mm.group(1).split()
                fn.at(o)
                rhs = turn_paths(pass_places(rename(mm.group(2)), fn, o, n, ps[0]), fn, ps[0], notes)
                if named(n, folder, table):
                    rhs = " " + as_record(rhs, named(n, folder, table)).strip()
                more = "".join(" " + x for x in ps[1:] if x != "κs")
                ans_out.append(f"pub {n} : goal.{n}\n{n} {ps[0]}{more} = {rhs}")
            else:
                # a lemma or a local helper by its name
                ans_out.append(f"pub {n} : goal.{n}\n{n} c = {a} c")
                notes.append(f"{n}: given {a}")
    oth_inv, oth_ans = [], []
    inv_text = "\n".join(inv_out)
    for b in others:
        t = "\n".join(b)
        nm = next((l for l in b if not l.startswith("--")), "")
        m = re.match(r"(?:abbrev |unfoldable )?(?:pub )?([\w'\-]+) :", nm)
        if "tie." in t:
            def place(mm):
                w = mm.group(1)
                new = names.get(w) or names.get(w.replace("-", "_"))
                if new is None:
                    notes.append("place " + w)
                if new:
                    placed.add(new)
                return new or "goal." + w
            t = re.sub(r"tie\.([\w\-]+)((?: (?:invariant|decreases)-[\w\-]+)*)", place, t)
            fn.at(None)
            t = turn_paths(t, fn, "c", notes)
        if m and re.search(r"(?<![\w'\-])" + re.escape(m.group(1)) + r"(?![\w'\-])", inv_text):
            if not re.match(r".*pub ", nm):
                t = re.sub(r"(?m)^((?:abbrev |unfoldable )?)" + re.escape(m.group(1)) + " :", r"\1pub " + m.group(1) + " :", t, count=1)
            oth_inv.append((m.group(1), t))
        else:
            oth_ans.append(t)
    mod = ".".join(folder.split("/"))
    base = os.path.dirname(path)
    first = head[:1] if head else []
    if inv_out:
        with open(os.path.join(base, "Invariants.antt"), "w", encoding="utf-8") as f:
            f.write("\n".join(first + uses + [f"use Rattle.{crate}.proofs.{mod}.Given as goal", ""]) + "\n" + "\n\n".join([t for _, t in oth_inv] + inv_out) + "\n")
    if ans_out:
        us = list(uses)
        text_ans = "\n".join(oth_ans + ans_out)
        for w, at in (("ap", "mathlib.Core.Path"), ("not", "mathlib.Core.Bool")):
            if "(ap not " in text_ans and not re.search(r"[{ ,]" + w + r"[,}]", "\n".join(us)):
                us.append(f"use {at}.{{{w}}}")
        if placed:
            us.append(f"use Rattle.{crate}.proofs.{mod}.Goals.{{{', '.join(sorted(placed))}}}")
        if oth_inv:
            us.append(f"use Rattle.{crate}.proofs.{mod}.Invariants.{{{', '.join(n for n, _ in oth_inv)}}}")
        with open(os.path.join(base, "Answers.antt"), "w", encoding="utf-8") as f:
            f.write("\n".join(first + us + [f"use Rattle.{crate}.proofs.{mod}.Goals as goal", ""]) + "\n" + "\n\n".join(oth_ans + ans_out) + "\n")
    os.remove(path)
    return "; ".join(notes) if notes else "turned"


def main(argv):
    where, names, only = argv[0], argv[1], set(argv[2:])
    crate = os.path.basename(os.path.abspath(where))
    table = json.load(open(names))
    clauses = clauses_of(os.path.join(where, ".."))
    clauses.update(clauses_of(os.path.join(where, "src")))
    for key in sorted(table):
        m = re.match(r"Rattle-" + crate + r"-proofs\.(.+)\.Lts(?:-.*)?$", key)
        if not m:
            continue
        folder = m.group(1).replace(".", "/")
        path = os.path.join(where, "proofs", folder, "Proof.antt")
        if not os.path.exists(path) or (only and folder not in only):
            continue
        try:
            said = convert(crate, folder, path, table[key], clauses)
        except Exception as ex:
            said = "failed: " + repr(ex)
        print(f"{folder}: {said}")


if __name__ == "__main__":
    main(sys.argv[1:])
