#!/usr/bin/env python3
"""Turns a crate's proofs/F/Proof.antt that answer each goal of a function (tie.close) into Invariants.antt and Answers.antt.

usage: tools/turn_proofs.py CRATE NAMES [F..]     at the top of the repository

NAMES is what `rt check --generated NAMES --old-names` wrote in the crate's folder; F is a function's folder below proofs/, all where none is given.
An answer that the check tries by itself (`search rules`, `omega arith`) is left out. Printed: what wants a look.
"""
import json
import os
import re
import sys

WORD = r"[^\s(){}.;,@\"«»]+"
TRIVIAL = re.compile(r"^(?:search rules(?: depth \d+)?|omega arith|tt|refl|absurd \(omega arith\)|search \(rules\))$")


CONTEXT = re.compile(rf"\blet ({WORD}) = ((?:(?!\.before\b)[^\s(){{}};,@\"«»])+?)((?:\.before)*) in\b")


def places_in(text):
    """The variables of a proof's text that stand for a place, as alternatives."""
    found = ["c"]
    for m in CONTEXT.finditer(text):
        if m[2] in found:
            found.append(m[1])
    return "|".join(map(re.escape, found))


def single(text):
    """The text with one pair of parentheses where two stand around the same."""
    ends, opened = {}, []
    for i, ch in enumerate(text):
        if ch == "(":
            opened.append(i)
        elif ch == ")" and opened:
            ends[opened.pop()] = i
    gone = {j for i, e in ends.items() if ends.get(i + 1) == e - 1 for j in (i, e)}
    return "".join(ch for i, ch in enumerate(text) if i not in gone)


def norm(name):
    return re.sub(r"^overflow-", "", name.replace("_", "-").lower())


def blocks(text):
    """The file's head (comments and use lines) and its declarations, each with its lines."""
    head, decls, comment = [], [], []
    for line in text.split("\n"):
        if not decls and not comment and re.match(r"(--|use |pub use |$)", line) and not (line.startswith("--") and any(l.startswith("use ") for l in head)):
            head.append(line)
        elif line.startswith("--"):
            comment.append(line)
        elif line and not line[0].isspace() and re.match(rf"(?:(?:abbrev|pub|unfoldable|module|data|record|mutual) )*({WORD})(?: |$)", line) and (" : " in line.split(" = ")[0] or line.rstrip().endswith(" :") or line.startswith(("module ", "data ", "record ", "mutual"))):
            decls.append(comment + [line])
            comment = []
        elif decls:
            decls[-1] += comment + [line]
            comment = []
        else:
            head += comment + [line]
            comment = []
    return head, decls


def clauses():
    """For each function of src/, by its path, the names of its ensures, where it has several."""
    found = {}
    for folder, folders, files in os.walk("crates"):
        folders[:] = [f for f in folders if f != "out"]
        for file in files:
            if not file.endswith(".rt") or "/src" not in folder:
                continue
            crate, _, inner = folder[len("crates/") :].partition("/src")
            module = [p for p in inner.split("/") if p] + ([] if file in ("lib.rt", "main.rt") else [file[:-3]])
            text = open(os.path.join(folder, file), encoding="utf-8").read()
            for m in re.finditer(r"\bfn (\w+)[^{]*?(?:\n\s+(?:requires|ensures)[^\n]*)*\n?\{", text):
                names = re.findall(r"(?m)^\s+ensures (\w+) \{", m[0])
                if len(names) > 1:
                    found["::".join([crate, *module, m[1]])] = names
    return found


def parts(text):
    """The parts of a term in round brackets, or None."""
    text = text.strip()
    if not text.startswith("(") or not text.endswith(")"):
        return None
    out, depth, at = [], 0, 1
    for i, sign in enumerate(text):
        depth += (sign in "([") - (sign in ")]")
        if depth == 0 and i < len(text) - 1:
            return None
        if sign == "," and depth == 1:
            out.append(text[at:i].strip())
            at = i + 1
    last = text[at:-1].strip()
    return out + ([last] if last else [])


def by_names(names, path):
    """A path into clauses that stood as nested pairs, by the clauses' names."""
    if not path or not path[0].isdigit():
        return path
    for i, name in enumerate(names):
        if i == len(names) - 1:
            return [name] + path
        if path[0] == "0":
            return [name] + path[1:]
        path = path[1:]
    return path


def named(body, names):
    """An answer for several clauses, as a record by their names."""
    lets, rest = "", body
    while True:
        m = re.match(r"\s*let .*? in(?=\s)", rest, re.S)
        if not m or m[0].count("let ") != 1:
            break
        lets, rest = lets + m[0], rest[m.end() :]
    terms = parts(rest)
    if terms and len(terms) == len(names):
        return lets + " record { " + "; ".join(f"{n} = {t}" for n, t in zip(names, terms)) + " }"
    return lets + f" let all = {rest.strip()} in record {{ " + "; ".join(f"{n} = all{'.1' * i}{'.0' if i < len(names) - 1 else ''}" for i, n in enumerate(names)) + " }"


class Function:
    def __init__(self, names, crate, folder, member=None):
        self.crate, self.folder, self.member = crate, folder, member
        key = f"Rattle-{crate}-proofs.{folder.replace('/', '.')}.Lts" + (f"-{member}" if member else "")
        self.x = names.get(key)
        self.said = []
        self.opens = False
        if self.x:
            x = self.x
            self.parent = {p[0]: p[1] for p in x["places"]}
            self.field = {p[0]: p[2] for p in x["places"]}
            self.arm = {p[0]: a for p, a in zip(x["places"], x["arms"])}
            self.new_place = {p[0]: n for p, n in zip(x["places"], x["places_by_name"])}
            self.callee = {p[0]: p[3] for p in x["places"]}

    def up(self, place):
        while place is not None:
            yield place
            place = self.parent.get(place)

    def resolve(self, place, ups, step):
        """The place that the old step names, seen `ups` places above `place`."""
        chain = list(self.up(place))
        found = [(i, p) for i, p in enumerate(chain) if norm(self.field[p][0]) == norm(step)]
        if not found:
            bare = re.sub(r"-?\d+$", "", norm(step))
            found = [(i, p) for i, p in enumerate(chain) if re.sub(r"-?\d+$", "", norm(self.field[p][0])) == bare]
        if not found:
            return None
        return min(found, key=lambda f: (abs(f[0] - ups), f[0]))[1]

    def arm_of(self, place, step_place):
        """The arm's name and its fields, by the old step and path, where the step belongs to an arm."""
        for p in self.up(place):
            arm = self.arm.get(p)
            if arm:
                chain = list(self.up(p))
                near = chain[: arm[1]]
                if step_place in near:
                    return arm
        return None

    def lent(self, at, count):
        """The name of the parameter, or of the loop's variable, that stands at `count` in what the step at the place `at` was lent."""
        names = self.x["params"].get(self.callee[at]) if self.callee[at] else None
        if names is None:
            names = next((vs for (o, n), vs in self.x["loops"] if norm(o) == norm(self.field[at][0])), [])
        return names[int(count)] if int(count) < len(names) else count

    def path(self, place, ups, step, rest, whole):
        """The new path for c.before..step.rest."""
        if self.member and step == "requires" and rest[:1] in (["0"], ["1"]):
            return ".".join(["c", "decreases" if rest[0] == "0" else "requires"] + rest[1:])
        step = "well_formed" if step == "well-formed" else step
        step = re.sub("_lem$", "", step)
        if step in ("args", "requires", "ranges", "lifetimes", "well_formed", "type_inv"):
            return "c." + ".".join([step] + rest)
        at = self.resolve(place, ups, step)
        if at is None:
            self.said.append(f"no step {step} in {whole}")
            return whole
        names = CLAUSES.get(self.callee[at] or "")
        if names and rest[:1] == ["ensures"]:
            rest = ["ensures"] + by_names(names, rest[1:])
        if rest[:1] in (["auto"], ["new"]):
            ones = 0
            while rest[1 + ones : 2 + ones] == ["1"]:
                ones += 1
            if rest[1 + ones : 2 + ones] == ["0"]:
                rest = [rest[0], self.lent(at, ones)] + rest[2 + ones :]
        arm = self.arm_of(place, at)
        old = norm(self.field[at][0])
        if arm:
            best = None
            for new, step_, path in arm[2]:
                if norm(step_) == old and path and rest[: len(path)] == path and (best is None or len(path) > len(best[1])):
                    best = (new, path)
            if best:
                return ".".join(["c", arm[0], best[0]] + rest[len(best[1]) :])
            own = next((n for n, s, p in arm[2] if norm(s) == old and not p), None)
            if own and rest:
                whole, keys = ".".join(["c", arm[0], own] + rest), arm[0].startswith("in_default") and re.match(r"keys\d+$", rest[0])
                self.opens = self.opens or bool(keys)
                return f"(opened {whole})" if keys else whole
            if any(norm(s) == old and p for _, s, p in arm[2]):
                self.said.append(f"arm {arm[0]}: {whole}")
                return ".".join(["c", arm[0]] + rest)
        return ".".join(["c", self.field[at][1]] + rest)

    def body(self, place, text):
        """An answer's text with new paths."""
        contexts, steps = {}, {}
        # variables that are bound to a context or to a step of one
        for m in CONTEXT.finditer(text):
            if m[2] == "c" or m[2] in contexts:
                contexts[m[1]] = m[3].count(".before") + contexts.get(m[2], 0)
        for m in re.finditer(rf"\blet ({WORD}) = ({WORD})((?:\.before)*)((?:\.{WORD})+) in\b", text):
            base = m[2]
            if base == "c" or base in contexts:
                parts = [p for p in m[4].split(".") if p]
                ups = m[3].count(".before") + contexts.get(base, 0)
                if parts and parts[0] not in ("args", "requires", "before"):
                    at = self.resolve(place, ups, parts[0])
                    if at and self.arm_of(place, at):
                        old = norm(self.field[at][0])
                        if any(norm(s) == old and p for _, s, p in self.arm_of(place, at)[2]):
                            steps[m[1]] = (ups, parts)
        for v in list(contexts) + list(steps):
            text = re.sub(rf"[ \t]*\blet {re.escape(v)} = [^\s]+ in(?:(?=\n)|\s)", " ", text)
            text = re.sub(r"(?m)^ +\n", "", text)

        def one(m):
            base = m[1]
            parts = [p for p in m[2].split(".") if p]
            if base in steps:
                ups, first = steps[base]
                return self.path(place, ups, first[0], first[1:] + parts, m[0])
            ups = contexts.get(base, 0)
            while parts and parts[0] == "before":
                ups, parts = ups + 1, parts[1:]
            if not parts:
                if base != "c" or ups:
                    self.said.append(f"context {m[0]}")
                return "c"
            return self.path(place, ups, parts[0], parts[1:], m[0])

        # what a step was lent, behind a variable that is bound to the step
        for m in re.finditer(rf"\blet ({WORD}) = ({WORD})((?:\.before)*)\.({WORD}) in\b", text):
            if m[2] == "c" or m[2] in contexts:
                at = self.resolve(place, m[3].count(".before") + contexts.get(m[2], 0), m[4])
                if at:
                    text = re.sub(rf"(?<![^\s(){{}};,@«»]){re.escape(m[1])}\.(auto|new)((?:\.1)*)\.0", lambda k, at=at, v=m[1]: f"{v}.{k[1]}.{self.lent(at, len(k[2]) // 2)}", text)
                    names = CLAUSES.get(self.callee[at] or "")
                    if names:
                        text = re.sub(rf"(?<![^\s(){{}};,@«»]){re.escape(m[1])}\.ensures((?:\.\d+)+)", lambda k, n=names, v=m[1]: ".".join([v, "ensures"] + by_names(n, k[1][1:].split("."))), text)
        for m in re.finditer(rf"\blet ({WORD}) = ({WORD})((?:\.before)*)\.({WORD})\.ensures in\b", text):
            if m[2] == "c" or m[2] in contexts:
                at = self.resolve(place, m[3].count(".before") + contexts.get(m[2], 0), m[4])
                names = CLAUSES.get(self.callee[at] or "") if at else None
                if names:
                    text = re.sub(rf"(?<![^\s(){{}};,@«»]){re.escape(m[1])}((?:\.\d+)+)", lambda k, n=names, v=m[1]: ".".join([v] + by_names(n, k[1][1:].split("."))), text)

        heads = "|".join(sorted(map(re.escape, ["c", *contexts, *steps]), key=len, reverse=True))
        text = re.sub(rf"(?<![^\s(){{}};,@«»])({heads})((?:\.{WORD})+)", one, text)
        # today the fact of a test that is turned round by `!` speaks of what is inside
        text = re.sub(r"not-(?:true|false) (?:_|\([^()]*\)) ([^\s(),]+\.(?:true|false))(?=[\s),]|$)", r"\1", text)
        for v in contexts:
            text = re.sub(rf"(?<![^\s(){{}};,@«»]){re.escape(v)}(?![^\s(){{}};,@«»])", "c", text)
        for v, (ups, parts) in steps.items():
            whole = rf"(?<![^\s(){{}};,@«»]){re.escape(v)}(?![^\s(){{}};,@«»])"
            if re.search(whole, text):
                name = self.path(place, ups, parts[0], parts[1:], v)
                text = re.sub(whole, lambda m: name, text)
                if name.split(".")[-1] == parts[-1]:
                    self.said.append(f"{v} is used whole")
        return text

    def turn(self):
        base = f"crates/{self.crate}/proofs/{self.folder}"
        file = f"{base}/Proof.antt"
        text = open(file, encoding="utf-8").read()
        if "tie.close" not in text:
            return self.said + ["by hand"]
        if not self.x:
            return self.said + ["no names"]
        head, decls = blocks(text)
        module = f"Rattle.{self.crate}.proofs.{self.folder.replace('/', '.')}"
        head = [l for l in head if not re.search(r"\.Tie as tie|\.Statement\.\{", l)]
        needs = {norm(o): (n, self.x["asked_at"][i][0]) for i, (o, n) in enumerate(self.x["needs"])}
        order = [(n, self.x["asked_at"][i][0]) for i, (o, n) in enumerate(self.x["needs"])]
        loops = {norm(o): (n, vs, ch) for ((o, n), vs), ch in zip(self.x["loops"], self.x["changed"])}
        spec = re.search(r"\(tie\.spec\s+([^)]*)\)", text)
        args = spec[1].split() if spec else []
        renames, answers, invariants, helpers = {}, [], [], []
        branches = []
        kinds = {}
        for lines in decls:
            sig = "\n".join(lines)
            m = re.search(rf"^(?:abbrev |pub |unfoldable )*({WORD})[^\n]*?:\s*tie\.({WORD})", sig, re.M)
            if m:
                kinds[m[1]] = m[2]
        goals = [a for a in args if not kinds.get(a, "").startswith(("invariant-", "decreases-"))]
        for name, kind in kinds.items():
            if kind.startswith("Need-"):
                key = norm(kind[5:])
                got = needs.get(key)
                if not got and len(goals) == len(order) and name in goals:
                    got = order[goals.index(name)]
                if not got:
                    self.said.append(f"goal {kind} is gone")
                kinds[name] = ("goal", got)
                if got:
                    renames[name] = got[0]
            elif kind.startswith(("invariant-", "decreases-")):
                what, loop = kind.split("-", 1)
                got = loops.get(norm(loop))
                if not got:
                    self.said.append(f"loop {kind} is gone")
                kinds[name] = (what, got)
                if got:
                    renames[name] = f"{what}-{got[0]}"
            else:
                kinds[name] = ("other", None)
        # what a helper says of a place is written where it is used
        inline = {}
        for lines in decls:
            sig = "\n".join(lines).rstrip("\n")
            name = re.match(rf"(?:(?:abbrev|pub|unfoldable) )*({WORD})", next(l for l in lines if not l.startswith("--")))[1]
            tied = re.findall(rf"\(c : tie\.({WORD})", sig)
            found = [p for p in self.new_place for t in tied if norm(p) == norm(t)]
            body = re.search(rf"^{re.escape(name)} c =(.*)$", sig, re.S | re.M)
            if kinds.get(name, ("other",))[0] == "other" and found and body:
                inline[name] = " ".join(self.body(found[0], body[1]).split())
        for name, body in list(inline.items()):
            for other in inline:
                inline[name] = re.sub(rf"(?<![^\s(){{}};,@«»]){re.escape(other)} c(?:\.before)*(?![^\s(){{}};,@«»])", lambda m, o=other: f"({inline[o]})", inline[name])
        for lines in decls:
            sig = "\n".join(lines)
            first = next(l for l in lines if not l.startswith("--"))
            name = re.match(rf"(?:(?:abbrev|pub|unfoldable) )*({WORD})", first)[1]
            if "tie.close" in sig or re.search(r":\s*\{M : Type 1\} → statement M", sig):
                continue
            kind, got = kinds.get(name, ("helper", None))
            if kind == "goal":
                if not got:
                    continue
                new, place = got
                sig = sig.rstrip("\n")
                parts = re.match(rf"((?:--[^\n]*\n)*)(?:abbrev |pub )*{re.escape(name)}\s*:\s*tie\.{WORD}[^\n]*\n((?:unfolding[^\n]*\n)*){re.escape(name)}((?: [^=\n]+?)?) =(.*)$", sig, re.S)
                if not parts:
                    self.said.append(f"odd answer {name}")
                    helpers.append((name, sig))
                    continue
                comment, unfolding, params, body = parts.groups()
                params = params.split()
                if params not in (["c"], ["c", "κs"]):
                    self.said.append(f"{name}: parameters {params}")
                for other in inline:
                    body = re.sub(rf"(?<![^\s(){{}};,@«»]){re.escape(other)} (?:{places_in(body)})(?:\.before)*(?![^\s(){{}};,@«»])", lambda m, o=other: f"(\x00{o}\x00)", body)
                body = self.body(place, body)
                body = single(re.sub("\x00(\\S+?)\x00", lambda m: inline[m[1]], body))
                body, ways = joins(body)
                branches += [b for b in ways if b not in branches]
                if TRIVIAL.match(body.strip()) and not unfolding:
                    continue
                names = CLAUSES.get("::".join([self.crate, *self.folder.split("/")]))
                if names and new.startswith("returns"):
                    body = named(body, names)
                for a, b in renames.items():
                    body = re.sub(rf"(?<![^\s(){{}};,@«»]){re.escape(a)}(?=[ )\n](?!=))(?=\s+c\b)", b, body)
                more = "".join(f" {q}" for q in params[1:] if q != "κs")
                body = body if body[:1] in (" ", "\n") else " " + body
                answers.append(f"{comment}pub {new} : goal.{new}\n{unfolding}{new} c{more} ={body}\n")
            elif kind in ("invariant", "decreases"):
                if not got:
                    continue
                new, variables, changed = got
                sig = sig.rstrip("\n")
                parts = re.match(rf"((?:--[^\n]*\n)*)(?:abbrev |pub )*{re.escape(name)}\s*:\s*tie\.{WORD}[^\n]*\n((?:unfolding[^\n]*\n)*){re.escape(name)}((?: [^=\n]+?)?) =(.*)$", sig, re.S)
                if not parts:
                    self.said.append(f"odd invariant {name}")
                    continue
                comment, unfolding, params, body = parts.groups()
                params = params.split()
                now = [v for v, c in zip(variables, changed) if c]
                if len(params) != len(variables) + len(now):
                    self.said.append(f"{name}: {len(params)} parameters, {variables} {now}")
                values = [f"l.initial.{v}" if c else f"l.{v}" for v, c in zip(variables, changed)] + [f"l.{v}" for v in now]
                table = {p: v for p, v in zip(params, values) if p != "_"}
                body = re.sub(rf"(?<![^\s(){{}};,@«»])({WORD})", lambda m: table.get(m[1], m[1]), body)
                invariants.append(f"{comment}abbrev pub {what_name(kind, new)} : goal.{what_name(kind, new)}\n{unfolding}{what_name(kind, new)} l ={body}\n")
            elif name not in inline:
                tied = re.findall(rf"tie\.({WORD})((?: (?:invariant|decreases)-loop[^\s()]*)*)", sig)
                for place, rest in tied:
                    match = [p for p in self.new_place if norm(p) == norm(place)]
                    if match:
                        sig = sig.replace(f"tie.{place}{rest}", f"goal.{self.new_place[match[0]]}")
                        sig = self.body(match[0], sig)
                    else:
                        self.said.append(f"place {place} is gone")
                helpers.append((name, sig.rstrip("\n") + "\n"))
        lower = [n for n, s in helpers if any(re.search(rf"(?<![^\s(){{}};,@«»]){re.escape(n)}(?![^\s(){{}}.;,@«»])", i) for i in invariants)]
        title = [l for l in head if l.startswith("--")]
        uses = [l for l in head if l.startswith(("use ", "pub use "))]
        if invariants:
            own = [re.sub(rf"^((?:--[^\n]*\n)*)(abbrev |unfoldable )?(?!pub )", r"\1\2pub ", s) for n, s in helpers if n in lower]
            write(f"{base}/Invariants.antt", title, uses + [f"use {module}.Given as goal"], own + invariants)
        if answers or any(n not in lower for n, s in helpers):
            extra = [f"use {module}.Invariants.{{{', '.join(lower)}}}"] if lower else []
            extra += ["use borrow.Enum.Refused.{opened}"] if self.opens else []
            extra += [f"use {module}.Goals.{{{', '.join(branches)}}}"] if branches else []
            keep = [s for n, s in helpers if n not in lower]
            write(f"{base}/Answers.antt", title, uses + extra + [f"use {module}.Goals as goal"], keep + answers)
        os.remove(file)
        return self.said


def turn_cycle(names, crate, folder):
    """Turns proofs/+CYCLE/Proof.antt and the files of its members, each with a module over the measure's value t."""
    base = f"crates/{crate}/proofs/{folder}"
    module = f"Rattle.{crate}.proofs.{folder.replace('/', '.')}"
    title = [l for l in open(f"{base}/Proof.antt", encoding="utf-8").read().split("\n") if l.startswith("--")][:1]
    said, members, params, uses, invariants, answers = [], {}, {}, [], [], []
    for file in sorted(os.listdir(f"{base}/Proof")):
        text = open(f"{base}/Proof/{file}", encoding="utf-8").read()
        found = re.search(r"^use \S*\.Lts-(\S+) as lts$", text, re.M)
        if found:
            members[found[1]] = text
    turned = {m: Function(names, crate, folder, m) for m in members}
    for f in turned.values():
        params.update({c.split("::")[-1]: vs for c, vs in f.x["params"].items()})
    calls = open(f"{base}/Proof/Calls.antt", encoding="utf-8").read()
    uses += [l for l in calls.split("\n") if l.startswith("use ") and not re.search(r"Reads|Kinds|Lts-|borrow\.Fn\.", l)]

    def argument(m, vs):
        ones = m[1].count("1")
        return f"l.{vs[ones]}"

    for m in members:
        found = re.search(rf"^μ-{m} κs a = (.*)$", calls, re.M)
        if not found:
            said.append(f"no measure of {m}")
            continue
        body = re.sub(r"\ba\.((?:1\.)*)0(?![\w])", lambda k: argument(k, params[m]), found[1])
        invariants.append(f"abbrev pub decreases-{m} : goal.decreases-{m}\ndecreases-{m} l = {body}\n")
    for m, text in members.items():
        f = turned[m]
        text = re.sub(r"^module _ \(t : ℕ\) where\n", "", text, flags=re.M)
        text = re.sub(r"^  ", "", text, flags=re.M)
        head, decls = blocks(text)
        uses += [l for l in head if l.startswith("use ") and not re.search(r"\.Lts-| as reads$|\.Proof\.Calls\.", l)]
        needs = {norm(o): (n, f.x["asked_at"][i][0]) for i, (o, n) in enumerate(f.x["needs"])}
        loops = {norm(o): (n, vs, ch) for ((o, n), vs), ch in zip(f.x["loops"], f.x["changed"])}
        for lines in decls:
            sig = "\n".join(lines).rstrip("\n")
            parts = re.match(rf"((?:--[^\n]*\n)*)(?:abbrev |pub )*({WORD})\s*:\s*lts\.({WORD})[^\n]*\n((?:unfolding[^\n]*\n)*)\2((?: [^=\n]+?)?) =(.*)$", sig, re.S)
            if not parts:
                said.append(f"{m}: odd: {sig[:100]}")
                answers.append(sig + "\n")
                continue
            comment, name, kind, unfolding, ps, body = parts.groups()
            ps = ps.split()
            if kind.startswith("Need-"):
                got = needs.get(norm(kind[5:]))
                if not got:
                    said.append(f"{m}: goal {kind} is gone")
                    continue
                new, place = got
                if ps not in (["c"], ["c", "κs"]):
                    said.append(f"{m}: {name}: parameters {ps}")
                body = f.body(place, body)
                if TRIVIAL.match(body.strip()) and not unfolding:
                    continue
                more = "".join(f" {q}" for q in ps[1:] if q != "κs")
                body = body if body[:1] in (" ", "\n") else " " + body
                answers.append(f"{comment}pub {m}-{new} : goal.{m}-{new}\n{unfolding}{m}-{new} t c{more} ={body}\n")
            else:
                what, loop = kind.split("-", 1)
                got = loops.get(norm(loop))
                if not got:
                    said.append(f"{m}: loop {kind} is gone")
                    continue
                new, variables, changed = got
                now = [v for v, c in zip(variables, changed) if c]
                if len(ps) != len(variables) + len(now):
                    said.append(f"{m}: {name}: {len(ps)} parameters, {variables} {now}")
                values = [f"l.initial.{v}" if c else f"l.{v}" for v, c in zip(variables, changed)] + [f"l.{v}" for v in now]
                table = {p: v for p, v in zip(ps, values) if p != "_"}
                body = re.sub(rf"(?<![^\s(){{}};,@«»])({WORD})", lambda k: table.get(k[1], k[1]), body)
                invariants.append(f"{comment}abbrev pub {what}-{m}-{new} : goal.{what}-{m}-{new}\n{unfolding}{what}-{m}-{new} l ={body}\n")
        said += [f"{m}: {s}" for s in f.said]
    own = one_use(uses)
    write(f"{base}/Invariants.antt", title, own + [f"use {module}.Given as goal"], invariants)
    write(f"{base}/Answers.antt", title, own + [f"use {module}.Goals as goal"], answers)
    for file in os.listdir(f"{base}/Proof"):
        os.remove(f"{base}/Proof/{file}")
    os.rmdir(f"{base}/Proof")
    os.remove(f"{base}/Proof.antt")
    return said


def joins(text):
    """An answer's text with `elim` at the branches that join, and the names of the branches. The steps v.1 and on are left."""
    names = []
    while True:
        m = re.search(rf"⊎_elim \(λ ({WORD})\. ", text)
        if not m:
            return text, names
        ends, at = [], m.start() + len("⊎_elim ")
        for _ in range(2):
            depth, end = 0, at
            while end < len(text):
                depth += {"(": 1, ")": -1}.get(text[end], 0)
                end += 1
                if depth == 0:
                    break
            ends.append((at, end))
            at = end + len(text[end:]) - len(text[end:].lstrip())
        step = re.match(rf"\s*(c\.if-({WORD})\.branch)", text[ends[1][1] :])
        cases = [re.match(r"\(λ (\S+)\.\s+(.*)\)$", text[a:b], re.S) for a, b in ends]
        if not step or not all(cases):
            return text, names
        way = step[2]
        rows = []
        for word, old, new, case in zip(("then", "else"), ("taken", "left"), ("true", "false"), cases):
            body = re.sub(rf"(?<![^\s(){{}};,@«»]){re.escape(case[1])}(?:\.0)?\.{old}(?![^\s(){{}};,@«».])", f"{case[1]}.if-{way}.{new}", case[2])
            rows.append(f"{word}-{way} {case[1]} ↦ {body}")
            names.append(f"{word}-{way}")
        text = text[: m.start()] + f"elim {step[1]} [ {rows[0]} | {rows[1]} ]" + text[ends[1][1] + step.end() :]


def one_use(lines):
    """The use lines, one for each module."""
    table, plain = {}, []
    for l in lines:
        m = re.match(r"use (\S+)\.\{(.*)\}$", l)
        if not m:
            plain += [l] if l not in plain else []
            continue
        have = table.setdefault(m[1], [])
        have += [n for n in m[2].split(", ") if n not in have]
    return [f"use {k}.{{{', '.join(v)}}}" for k, v in table.items()] + plain


def what_name(kind, new):
    return f"{kind}-{new}"


def write(path, title, uses, decls):
    with open(path, "w", encoding="utf-8") as f:
        f.write("\n".join(title + uses) + "\n\n" + "\n".join(decls))


def main(crate, names, *folders):
    with open(os.path.join(names, "names.json"), encoding="utf-8") as f:
        table = json.load(f)
    top = f"crates/{crate}/proofs"
    if not folders:
        folders = sorted(os.path.relpath(d, top) for d, _, fs in os.walk(top) if "Proof.antt" in fs)
    for folder in folders:
        cycle = os.path.exists(f"{top}/{folder}/Proof/Calls.antt")
        for said in turn_cycle(table, crate, folder) if cycle else Function(table, crate, folder).turn():
            print(f"{folder}: {said}")


CLAUSES = clauses()
main(*sys.argv[1:])
