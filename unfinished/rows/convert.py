#!/usr/bin/env python3
"""Turns proofs/F/Proof.antt (contexts by `before`) into Invariants.antt and Answers.antt.

usage: convert.py CRATE NAMES.json [FUNCTION-PATH ..]
"""
import json, os, re, sys, glob

crate, names = sys.argv[1], json.load(open(sys.argv[2]))
only = sys.argv[3:]
norm = lambda s: re.sub(r"[-_]", "", s).lower()
FIELDS = {"well-formed": "well_formed", "pre": "requires", "taken": "true", "left": "false", "inv": "invariant", "good": "well_formed", "fits": "ranges"}
RESERVED = {"record", "data", "open", "module", "use", "let", "in", "elim"}
START = {"pre", "well-formed", "args", "lifetimes", "ranges", "fits", "requires", "well_formed", "good", "initial", "fn", "auto", "type_inv"}
TOK = re.compile(r'--[^\n]*|"(?:[^"\\]|\\.)*"|\s+|[(){};,]|[^\s(){};,"]+')


class Fn:
    def __init__(self, path, d):
        self.path, self.d = path, d
        self.places = {p[0]: i for i, p in enumerate(d["places"])}
        self.byname = {n: i for i, n in enumerate(d["places_by_name"])}
        self.flags = []

    def chain(self, i):
        out = []
        while i is not None:
            out.append(i)
            par = self.d["places"][i][1]
            i = self.places.get(par) if par is not None else None
        return out

    def resolve(self, at, fields):
        """A path from a context: the fields with `before` dropped, at the place with this index."""
        f = [x for x in fields if x != "before"]
        if not f:
            return None
        F = f[0]
        f = [F] + [x.replace("-", "_") if "known_told" not in x else x for x in f[1:]]
        if F in START:
            return ".".join(["c", FIELDS.get(F, F)] + f[1:])
        ch = self.chain(at)
        for i in ch + [j for j in range(len(self.d["places"])) if j not in ch]:
            old, new = self.d["places"][i][2]
            if not old or norm(old) not in (norm(F), norm(re.sub(r"_lem$", "", F)), norm(F.replace("IsPlace", "place"))):
                continue
            if i not in ch:
                self.flags.append(f"step {F} off the chain")
            rest = f[1:]
            arm = self.d["arms"][i] if i < len(self.d["arms"]) else None
            best = None
            if arm:
                for nf, st, pth in arm[2]:
                    if st == old and pth and rest[: len(pth)] == pth and (best is None or len(pth) > len(best[1])):
                        best = (nf, pth)
            # an arm's fields may be told by a later place on the chain
            if best is None:
                for j in ch:
                    a = self.d["arms"][j]
                    if a:
                        for nf, st, pth in a[2]:
                            if st == old and pth and rest[: len(pth)] == pth and (best is None or len(pth) > len(best[1])):
                                best, arm = (nf, pth), a
            if best is None and not (rest[:1] == ["given"] and any(st == old for _, st in self.d["typed"][at])):
                for j in ch:
                    a = self.d["arms"][j]
                    if a:
                        for nf, st, pth in a[2]:
                            if st == old and not pth:
                                best, arm = (nf, pth), a
            if best:
                return ".".join(["c", arm[0], best[0]] + rest[len(best[1]):])
            if rest[:1] == ["given"]:
                for var, st in self.d["typed"][at]:
                    if st == old:
                        return ".".join(["c", "type_inv", var] + rest[1:])
            rest = [FIELDS.get(r, r) if k == 0 and (r not in ("taken", "left", "fits") or re.match(r"if|.*-test", new)) else r for k, r in enumerate(rest)]
            callee = self.d["places"][i][3]
            if rest and rest[0] in ("last", "kept", "auto", "new") and callee in self.d["params"]:
                k = 1
                while k < len(rest) and rest[k] == "1":
                    k += 1
                if k < len(rest) and rest[k] == "0":
                    rest = ["new" if rest[0] in ("last", "new") else "auto", self.d["params"][callee][k - 1]] + rest[k + 1 :]
            cl = self.d["clauses"][i] if i < len(self.d["clauses"]) else None
            if cl and len(rest) > 1 and rest[0] == "ensures" and rest[1].isdigit() and int(rest[1]) < len(cl["fields"]):
                rest[1] = cl["fields"][int(rest[1])]
            return ".".join(["c", new] + rest)
        self.flags.append(f"no step {F}")
        return ".".join(["c"] + f)


def toks(t):
    return TOK.findall(t)


class Body:
    """Rewrites an answer's body at a place; helper: name -> (type text, parameters after the context, body text, unfolding)."""

    def __init__(self, fn, at, helpers, ctxs):
        self.fn, self.at, self.helpers, self.ctxs = fn, at, helpers, ctxs
        self.needed = []

    def run(self, text, env):
        t = toks(text)
        out, _ = self.seq(t, 0, dict(env), None)
        return out

    # returns text, next index; stops at `stop`
    def seq(self, t, i, env, stop):
        out = []
        depth_let = 0
        while i < len(t):
            w = t[i]
            if stop == ")" and w == ")":
                return "".join(out), i
            if stop == "in" and w == "in" and depth_let == 0:
                return "".join(out), i
            if w == "let":
                # let NAME (: T)? = E in
                j = i + 1
                while t[j].isspace():
                    j += 1
                name = t[j]
                k = j + 1
                while t[k].isspace():
                    k += 1
                if t[k] == "=":
                    expr, e = self.seq(t, k + 1, env, "in")
                    raw = expr.strip()
                    if raw == "⟪c⟫" or raw == "(⟪c⟫)":
                        env[name] = "ctx"
                        i = e + 1
                        while i < len(t) and t[i].isspace() and "\n" not in t[i]:
                            i += 1
                        continue
                    m = re.fullmatch(r"c\.([^\s.]+)", raw)
                    orig = "".join(t[k + 1 : e]).strip()
                    if not m and re.fullmatch(r"c\.[^\s(){}]+", raw) and (".given" in raw or ".last" in raw or ".kept" in raw or re.search(r"\.(new|auto)(\.1)*$", raw)) and "type_inv" not in raw and re.fullmatch(r"[^\s(){}]+", orig):
                        m = re.match(r"c\.([^\s.]+)", raw)
                    if m and m[1] not in START:
                        # a step: textual alias
                        env[name] = ("path", orig.split("."))
                        i = e + 1
                        while i < len(t) and t[i].isspace() and "\n" not in t[i]:
                            i += 1
                        continue
                    out.append("".join(t[i : k + 1]) + expr + "in")
                    i = e + 1
                    env.pop(name, None)
                    continue
                env.pop(name, None)
                expr, e = self.seq(t, k, env, "in")
                out.append("let " + name + " " + expr + "in")
                i = e + 1
                continue
            if w == "(":
                inner, e = self.seq(t, i + 1, env, ")")
                nxt = t[e + 1] if e + 1 < len(t) else ""
                if inner.strip() == "⟪c⟫":
                    if nxt.startswith("."):
                        out.append(self.path(nxt[1:].split(".")))
                        i = e + 2
                        continue
                    out.append("⟪c⟫")
                    i = e + 1
                    continue
                out.append("(" + inner + ")")
                i = e + 1
                continue
            if re.fullmatch(r"[^\s(){};,\"]+", w) and not w.startswith("--"):
                parts = w.split(".")
                h = parts[0]
                if h in env:
                    if env[h] == "ctx":
                        out.append(self.path(parts[1:]))
                    else:
                        p = env[h][1]
                        hd = p[0]
                        if hd in env and env[hd] != "ctx":
                            p = env[hd][1] + p[1:]
                        out.append(self.path(p[1:] + parts[1:]))
                    i += 1
                    continue
                if h in self.ctxs or h in self.helpers:
                    # applied to a context?
                    j = i + 1
                    while j < len(t) and t[j].isspace():
                        j += 1
                    arg, e = None, j
                    if j < len(t):
                        if t[j] == "(":
                            arg, e = self.seq(t, j + 1, env, ")")
                        elif re.fullmatch(r"[^\s(){};,\"]+", t[j]):
                            arg = self.seq(t[j : j + 1], 0, env, None)[0]
                    if arg is not None and arg.strip() == "⟪c⟫":
                        if h in self.ctxs:
                            out.append("⟪c⟫")
                            # the module's other parameters
                            for _ in range(self.ctxs[h]):
                                e += 1
                                while e < len(t) and t[e].isspace():
                                    e += 1
                                if t[e] == "(":
                                    _, e = self.seq(t, e + 1, dict(env), ")")
                        else:
                            self.need(h)
                            out.append(h)
                        i = e + 1
                        continue
                    if "inmod" in env and len(parts) >= 1:
                        # inside the helper's own module: the context is implicit
                        if h in self.ctxs:
                            out.append(self.path(parts[1:]) if len(parts) > 1 else "⟪c⟫")
                        else:
                            self.need(h)
                            mp = self.helpers[h][5]
                            if mp and len(parts) > 1:
                                out.append("(" + h + " " + " ".join(n for n, _ in mp) + ")." + ".".join(parts[1:]))
                            elif mp:
                                out.append("(" + h + " " + " ".join(n for n, _ in mp) + ")")
                            else:
                                out.append(w)
                        i += 1
                        continue
                out.append(w)
                i += 1
                continue
            out.append(w)
            i += 1
        return "".join(out), i

    def path(self, fields):
        r = self.fn.resolve(self.at, fields)
        return "⟪c⟫" if r is None else r

    def need(self, h):
        if h in self.needed:
            return
        typ, params, body, unf, var, mp = self.helpers[h]
        env = {var: "ctx", "inmod": "x"} if var else {"inmod": "x"}
        T = self.run(typ, env)
        B = self.run(body, env)
        for n, ty in reversed(mp):
            T = f"({n} : {self.run(ty, env).strip()}) → {T.strip()}"
        params = [n for n, _ in mp] + params
        self.needed = [x for x in self.needed]
        lam = f"λ {' '.join(params)}. " if params else ""
        self.needed.append(h)
        self.lets = getattr(self, "lets", []) + [(h, T.strip(), lam + B.strip(), unf)]


def blocks(text):
    """Top-level declarations: (comment, lines)."""
    out, cur = [], []
    for line in text.split("\n"):
        if line.strip() == "" :
            if cur:
                cur.append(line)
            continue
        if not line[0].isspace() and cur and any(l.strip() and not l.startswith("--") for l in cur):
            first = next(l for l in cur if l.strip() and not l.startswith("--"))
            nm = re.match(r"(?:abbrev )?(?:pub )?(?:unfoldable )?(\S+)", first)[1]
            w = line.split()[0]
            if not (w == nm and " : " not in line.split("=")[0]) and w != "unfolding":
                out.append(cur)
                cur = []
        cur.append(line)
    if cur:
        out.append(cur)
    return out


def strip_end(ls):
    while ls and not ls[-1].strip():
        ls = ls[:-1]
    return ls


def split_args(s):
    """The arguments of `tie.spec ..`."""
    t = toks(s)
    args, cur, depth = [], [], 0
    for w in t:
        if w == "(":
            depth += 1
        if w == ")":
            depth -= 1
        if depth == 0 and w.isspace():
            if cur:
                args.append("".join(cur))
                cur = []
            continue
        cur.append(w)
    if cur:
        args.append("".join(cur))
    return args


def label(txt, fields):
    """The tuple at the end of an answer, as a record of the clauses."""
    t = toks(txt)
    if not t or t[-1] != ")":
        return None
    d, i = 0, len(t) - 1
    while i >= 0:
        if t[i] == ")":
            d += 1
        if t[i] == "(":
            d -= 1
            if d == 0:
                break
        i -= 1
    parts, cur, d = [], [], 0
    for w in t[i + 1 : -1]:
        if w in "({":
            d += 1
        if w in ")}":
            d -= 1
        if w == "," and d == 0:
            parts.append("".join(cur))
            cur = []
        else:
            cur.append(w)
    parts.append("".join(cur))
    if len(parts) > 1 and not parts[-1].strip():
        parts.pop()
    if len(parts) != len(fields):
        return None
    rec = "record { " + "; ".join(f"{chr(171) + f + chr(187) if f in RESERVED else f} = {p.strip()}" for f, p in zip(fields, parts)) + " }"
    pre = "".join(t[:i])
    return pre + (rec if i == 0 or re.search(r"(in|=)\s*$", pre) else "(" + rec + ")")


def parse_decl(lines):
    """name, type text, unfolding line, parameters, body"""
    ls = [l for l in lines if l.strip()]
    com = [l for l in ls if l.lstrip().startswith("--")]
    ls = [l for l in ls if not l.lstrip().startswith("--")]
    unf = " ".join(l.strip() for l in ls if l.strip().startswith("unfolding"))
    ls = [l for l in ls if not l.strip().startswith("unfolding")]
    m = re.match(r"\s*((?:abbrev |pub |unfoldable )*)(\S+)\s*:\s*(.*)", ls[0])
    if not m:
        return None
    name = m[2]
    k = 1
    typ = m[3]
    while k < len(ls) and not re.match(r"\s*" + re.escape(name) + r"(\s|$)", ls[k]):
        typ += "\n" + ls[k]
        k += 1
    rest = ls[k:]
    return com, m[1], name, typ, unf, rest


def main():
    for pth in sorted(glob.glob(crate + "/proofs/**/Proof.antt", recursive=True)):
        rel = os.path.relpath(os.path.dirname(pth), crate + "/proofs")
        if only and rel not in only:
            continue
        key = f"Rattle-{os.path.basename(os.path.abspath(crate))}-proofs.{rel.replace('/', '.')}.Lts"
        if key not in names:
            print("no names:", rel)
            continue
        convert(pth, rel, Fn(rel, names[key]))


def convert(pth, rel, fn):
    text = open(pth).read()
    d = fn.d
    head, body = [], text
    lines = text.split("\n")
    k = 0
    while k < len(lines) and (lines[k].startswith("--") or not lines[k].strip()):
        head.append(lines[k]); k += 1
    uses = []
    while k < len(lines) and (lines[k].startswith("use ") or not lines[k].strip() or (uses and lines[k].startswith("  "))):
        if lines[k].strip():
            uses.append(lines[k])
        k += 1
    head = [h for h in head if h.strip()]
    uses = [u for u in uses if not re.search(r"\.(Statement\.\{statement\}|Tie as tie)", u)]
    decls = blocks("\n".join(lines[k:]))
    needs = d["needs"]
    oldnames = {norm(o): n for o, n in needs}
    at_of = {needs[i][1]: d["asked_at"][i] for i in range(len(needs))}
    answers, helpers, ctxs, plain, inv, spec, order = {}, {}, {}, [], [], None, []
    pos = {}
    for b in decls:
        code = [l for l in b if l.strip() and not l.strip().startswith("--")]
        if not code:
            continue
        first = code[0]
        if re.match(r"pub \S+[-_]spec\b", first):
            spec = b
            continue
        if first.startswith("module _") and "tie." in first:
            var = re.match(r"module _ \((\S+) : tie\.", first)[1]
            mods = []
            ft = toks(first[len("module _"):])
            q, dd, st = 0, 0, None
            for q, w in enumerate(ft):
                if w == "(":
                    dd += 1
                    if dd == 1:
                        st = q
                if w == ")":
                    dd -= 1
                    if dd == 0:
                        mods.append("".join(ft[st + 1 : q]))
            mp = [tuple(x.strip() for x in m_.split(" : ", 1)) for m_ in mods[1:]]
            mp = [(n1, ty) for n0, ty in mp for n1 in n0.split()]
            inner = [l[2:] if l.startswith("  ") else l for l in b[b.index(first) + 1:]]
            for ib in blocks("\n".join(inner)):
                r = parse_decl(ib)
                if r is None:
                    fn.flags.append("module part not read")
                    continue
                com, mod, name, typ, unf, rest = r
                if re.match(r"tie\.(After|Then|Else|In|At|Start|Joined)", typ.strip()):
                    ctxs[name] = len(mp)
                    continue
                if len([l for l in rest if re.match(r"\s*" + re.escape(name) + r"(\s|$)", l)]) != 1:
                    fn.flags.append(f"clauses of {name}")
                    continue
                m = re.match(r"\s*" + re.escape(name) + r"\s*([^=]*?)=\s*(.*)", "\n".join(rest), re.S)
                helpers[name] = (typ, m[1].split(), m[2], unf, var, mp)
            continue
        r = parse_decl(b)
        if r is None:
            plain.append(b)
            continue
        com, mod, name, typ, unf, rest = r
        ty = typ.strip()
        m = re.match(r"tie\.(Need-)?(\S+)", ty)
        if m and m[1]:
            nd = m[2]
            cand = [nd, re.sub(r"^(overflow|nonzero)[-_]", "", nd)]
            new = next((oldnames[norm(x)] for x in cand if norm(x) in oldnames), None)
            if new is None:
                newn = {norm(n): n for _, n in needs}
                new = next((newn[norm(x)] for x in cand if norm(x) in newn), None)
            if new is None:
                fn.flags.append(f"no goal for {nd}")
            answers[name] = (new, com, unf, rest)
            order.append(name)
            continue
        if m and re.match(r"(invariant|decreases)", m[2]):
            inv.append((com, name, m[2], rest, unf))
            continue
        m = re.match(r"\((\S+) : tie\.[^)]*\)\s*→?\s*(.*)", ty, re.S)
        mm = re.match(r"\s*" + re.escape(name) + r"\s*([^=]*?)=\s*(.*)", "\n".join(rest), re.S)
        if not m and mm and mm[1].split():
            m = re.match(r"(?:())?tie\.[^→]*→\s*(.*)", ty, re.S)
            if m:
                m = {1: mm[1].split()[0], 2: m[2]}
        if m and mm:
            ps = mm[1].split()
            if re.match(r"tie\.(After|Then|Else|In|At|Start|Joined)", m[2]):
                ctxs[name] = 0
                continue
            env_var = ps[0] if ps else m[1]
            ty2 = m[2]
            if env_var != m[1]:
                ty2 = re.sub(r"(?<![\w.-])" + re.escape(m[1]) + r"(?![\w-])", env_var, ty2)
            helpers[name] = (ty2, ps[1:], mm[2], unf, env_var, [])
            continue
        plain.append(b)
    # inline answers of the spec, by place
    if spec:
        s = "\n".join(spec)
        m = re.search(r"tie\.spec\b(.*)\)\s*$", s.strip(), re.S)
        if m:
            args = split_args(m[1].strip())
            invn = {n for _, n, _, _, _ in inv}
            args = [a for a in args if a not in invn]
            if len(args) != len(needs):
                fn.flags.append(f"{len(args)} answers for {len(needs)} goals")
            anchors = 0
            for i, a in enumerate(args):
                mm = re.fullmatch(r"\(λ ([^.]*)\.\s*(.*)\)", a, re.S)
                if a in answers and answers[a][0] is None and len(args) == len(needs):
                    answers[a] = (needs[i][1],) + answers[a][1:]
                if mm and mm[2].strip() != "search rules":
                    if len(args) == len(needs):
                        nm = f"inline{i}"
                        answers[nm] = (needs[i][1], [], "", [f"{nm} {mm[1]} = {mm[2]}"])
                        order.append(nm)
                    else:
                        fn.flags.append("inline: " + a[:150])
                if a in answers and len(args) == len(needs) and answers[a][0] != needs[i][1]:
                    fn.flags.append(f"{a}: {answers[a][0]} or {needs[i][1]}")
    both = False
    out = []
    helper_used = set()
    for name in order:
        new, com, unf, rest = answers[name]
        if new and new.startswith("shape_of"):
            continue
        src = "\n".join(rest)
        m = re.match(r"\s*" + re.escape(name) + r"\s+([^=\n]*?)\s*=\s*(.*)", src, re.S)
        if not m or new is None:
            out.append("\n".join(["-- TO DO " + str(new)] + ["-- " + l for l in rest]))
            fn.flags.append(f"answer {name} not read")
            continue
        params = m[1].split()
        at = fn.places.get(at_of[new][0])
        if at is None:
            at = fn.byname.get(at_of[new][1])
        b = Body(fn, at, helpers, ctxs)
        env = {params[0]: "ctx"}
        txt = b.run(m[2], env).strip()
        lets = getattr(b, "lets", [])
        unfs = [unf] if unf else []
        pre = ""
        for h, T, B, u in lets:
            pre += f"let {h} : {T} = {B} in\n    "
            if u:
                unfs.append(u)
        if unfs:
            ws = []
            for u in unfs:
                for x in u.split()[1:]:
                    if x not in ws:
                        ws.append(x)
            unf = "unfolding " + " ".join(ws)
        if pre:
            txt = "\n    " + pre + txt
        elif "\n" in m[2]:
            txt = "\n    " + txt
        txt = txt.replace(".type-inv", ".type_inv")
        txt = re.sub(r"(?<![\w.])(c\.[\w-]+)\.ok(?![\w-])", r"\1.type_inv", txt)
        oldn = next(o for o, n in needs if n == new)
        if oldn in d["asked"] and d["asked"][oldn]:
            t2 = label(txt, d["asked"][oldn])
            if t2 is None and d["asked"][oldn] == ["answer", "written"] and not re.search(r"ensures\)*$", txt):
                txt = "both\n    (" + txt.strip() + ")"
                both = True
            elif t2 is None:
                fn.flags.append(f"{new}: clauses {d['asked'][oldn]}")
            else:
                txt = t2
        if "⟪c⟫" in txt:
            fn.flags.append(f"{new}: a context stays")
        txt = txt.replace("⟪c⟫", "c")
        o = [c for c in com]
        o += [f"pub {new} : goal.{new}"]
        if unf:
            o.append(unf)
        sep = " =" + ("" if txt.startswith("\n") else " ")
        o.append(f"{new} c{sep}{txt}")
        out.append("\n".join(o))
    dirn = os.path.dirname(pth)
    path = f"Rattle.{os.path.basename(os.path.abspath(crate))}.proofs.{rel.replace('/', '.')}"
    pl = ["\n".join(strip_end(b)) for b in plain]
    used = "\n".join(out + pl)
    if out or (pl and out):
        if both:
            uses.append("use Rattle.word.proofs.Clauses.{both}")
        A = "\n".join(head) + ("\n" if head else "") + "\n".join(uses + [f"use {path}.Goals as goal"]) + "\n\n" + "\n\n".join(pl + out) + "\n"
        open(dirn + "/Answers.antt", "w").write(A)
    if inv:
        I = []
        loops = {norm(l[0][0]): (l[0][1], l[1], d["changed"][i]) for i, l in enumerate(d["loops"])}
        for com, name, kind, rest, unf in inv:
            which, lp = re.match(r"(invariant|decreases)-(.*)", kind).groups()
            L = loops.get(norm(lp)) or loops.get(norm(lp.replace("loop-", "")))
            if L is None and len(loops) == 1:
                L = list(loops.values())[0]
            src = "\n".join(rest)
            m = re.match(r"\s*" + re.escape(name) + r"\s+([^=]*?)\s*=\s*(.*)", src, re.S)
            if L is None or not m:
                fn.flags.append(f"invariant {name} not read")
                I.append("\n".join("-- TO DO " + l for l in rest))
                continue
            newl, vs, ch = L
            ps = m[1].split()
            sub = {}
            want = len(vs) + sum(ch)
            if len(ps) != want:
                fn.flags.append(f"{name}: {len(ps)} parameters, {want} wanted")
            for v, c_, p in zip(vs, ch, ps):
                sub[p] = f"l.initial.{v}" if c_ else f"l.{v}"
            for v, p in zip([v for v, c_ in zip(vs, ch) if c_], ps[len(vs):]):
                sub[p] = f"l.{v}"
            sub.pop("_", None)
            bt = []
            for w in toks(m[2]):
                q = w.split(".")
                if q[0] == "l" and "l" not in sub:
                    bt.append(".".join(["here"] + q[1:]))
                elif q[0] in sub and not w.startswith("--"):
                    bt.append(".".join([sub[q[0]]] + q[1:]))
                else:
                    bt.append(w)
            E = "".join(bt)
            I.append("\n".join(com + [f"abbrev pub {which}-{newl} : goal.{which}-{newl}"] + ([unf] if unf else []) + [f"{which}-{newl} l ={' ' if chr(10) not in m[2] else chr(10) + '    '}{E.strip()}"]))
        usesI = []
        tx = "\n".join(I)
        H = [h for h in head]
        pi = [p for p in pl if re.match(r"(?:--[^\n]*\n)*\s*(?:abbrev |pub )*(\S+)", p) and re.search(r"(?<![\w.-])" + re.escape(re.match(r"(?:--[^\n]*\n)*\s*(?:abbrev |pub |unfoldable )*(\S+)", p)[1]) + r"(?![\w-])", tx)]
        open(dirn + "/Invariants.antt", "w").write("\n".join(H + uses + [f"use {path}.Given as goal"]) + "\n\n" + "\n\n".join(pi + I) + "\n")
    os.rename(pth, pth + ".old")
    if fn.flags:
        print(f"{rel}: " + "; ".join(dict.fromkeys(fn.flags)))


main()
