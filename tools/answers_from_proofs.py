#!/usr/bin/env python3
"""Turns the Proof.antt of a crate's functions, by which older Rattle walked the goals in order, into Invariants.antt and Answers.antt.

usage: tools/answers_from_proofs.py NAMES CRATE [FUNCTION..]

NAMES is a names.json of `rt check --generated NAMES --old-names`. A FUNCTION is the folder of its proof below proofs/, as settle/count; none: all.
With KEEPNOT=1 in the environment the lemmas not-true and not-false stay at the tests of `!x`: a field's test still wants them.
A Proof.antt that walks the code itself (with no tie.close) stays. What is turned is checked by nobody here: rt check decides.
"""
import json
import os
import re
import sys

SEP = r"\s(){}\[\];,@\"«»"
CHAIN = re.compile(rf"(?<![^{SEP}])([^{SEP}.]+)((?:\.[^{SEP}.]+)+|)(?![^{SEP}])")
HEAD = re.compile(r"(?:(?:abbrev|pub|unfoldable)\s+)*(\S+)")


def norm(word):
    return re.sub(r"-lem$", "", word.replace("_", "-").lower())


class Function:
    def __init__(self, names):
        self.parent, self.step, self.old_step, self.cited = {}, {}, {}, set()
        self.clause, self.arm = {}, {}
        clauses = names.get("clauses") or []
        arms = names.get("arms") or []
        self.callee, self.params = {}, names.get("params") or {}
        for k, (place, above, step, callee, _rest) in enumerate(names["places"]):
            key = norm(place)
            self.callee[key] = callee
            self.parent[key] = norm(above) if above else None
            self.old_step[key], self.step[key] = norm(step[0]), step[1]
            self.clause[key] = clauses[k]["fields"] if k < len(clauses) and clauses[k] else None
            self.arm[key] = arms[k] if k < len(arms) else None
        self.place_name = {norm(p[0]): n for p, n in zip(names["places"], names["places_by_name"])}
        self.goal, self.at = {}, {}
        for (old, new), (place, _) in zip(names["needs"], names["asked_at"]):
            self.goal[norm(old)] = new
            self.at[norm(old)] = norm(place)
        self.settled = set(names.get("settled") or [])
        self.loops = {norm(old): (new, params) for (old, new), params in names["loops"]}
        self.changed = {norm(l[0][0]): c for l, c in zip(names["loops"], names["changed"])}
        self.args = {}
        for old, new in names["args"]:
            m, n = re.fullmatch(r"\.args \.(\S+)", old), re.fullmatch(r"\.args \.(\S+)", new)
            if m and n:
                self.args[m[1]] = n[1]

    # what a chain of fields from a place says now
    def turned(self, place, parts):
        start = place
        place, new = self.turned_at(place, parts)
        left = [p for p in parts if p != "before"]
        if new == left and left and left[0] not in ("args", "requires", "ranges") and "before" in parts:
            # older Rattle had more places on the way: the step is looked for from the start
            again = self.turned_at(start, left)
            if again[1] != left:
                return again
        return place, new

    def turned_at(self, place, parts):
        while parts and parts[0] == "before" and place:
            # older Rattle had more places on the way: above the first there is none
            place, parts = self.parent.get(place) or place, parts[1:]
        if not parts or place is None:
            return place, parts
        head = norm(parts[0])
        at = place
        while at:
            arm, best = self.arm.get(at), None
            for field, step, path in (arm[2] if arm else []):
                if norm(step) == head and [norm(x) for x in path] == [norm(x) for x in parts[1:1 + len(path)]]:
                    if best is None or len(path) > len(best[1]):
                        best = (field, path)
            if best:
                return at, [arm[0], best[0]] + parts[1 + len(best[1]):]
            if head == self.old_step.get(at) or head in ("args", "requires", "ranges", "auto", "type-inv"):
                break
            at = self.parent.get(at)
        if parts[0] == "well-formed":
            return place, ["well_formed"] + parts[1:]
        if head == "args" and len(parts) > 1:
            return place, ["args", self.args.get(parts[1], parts[1])] + parts[2:]
        # a place that only the older Rattle had on the way: the step is found further up
        above = place
        while above and head not in ("args", "requires", "ranges", "auto", "type-inv") and head != self.old_step.get(above):
            above = self.parent.get(above)
        if not above and re.search(r"\d$", head) and head not in self.old_step.values():
            # older Rattle counted a step behind a variable of the same name
            head, above = re.sub(r"\d+$", "", head), place
            while above and head != self.old_step.get(above):
                above = self.parent.get(above)
        if above and head == self.old_step.get(above):
            place = above
        if head == self.old_step.get(place) and self.step[place]:
            new = [self.step[place]] + parts[1:]
            if len(new) > 2 and new[1] == "new" and self.params.get(self.callee.get(place)):
                k, rest, names = 0, new[2:], self.params[self.callee[place]]
                while rest and rest[0] == "1" and k < len(names) - 1:
                    k, rest = k + 1, rest[1:]
                if rest and rest[0] == "0":
                    rest = rest[1:]
                    new = [new[0], "new", names[k]] + rest
            return place, self.by_label(new, self.clause.get(place))
        return place, parts

    @staticmethod
    def by_label(new, fields):
        """A chain STEP.ensures.. of a call whose ensures have the names fields: by the name, and all at once nested to the right."""
        if fields and len(new) > 1:
            if new[1:] == ["ensures"]:
                # all clauses at once, as a lemma takes them: nested to the right
                return ["(" + ", (".join(f"\x00.{new[0]}.ensures.{f}" for f in fields[:-1]) + f", \x00.{new[0]}.ensures.{fields[-1]}" + ")" * (len(fields) - 1)]
            if new[1] == "ensures":
                k, rest = 0, new[2:]
                while k < len(fields) - 1 and rest and rest[0] == "1":
                    k, rest = k + 1, rest[1:]
                if k < len(fields) - 1 and rest and rest[0] == "0":
                    rest = rest[1:]
                    new = [new[0], "ensures", fields[k]] + rest
                elif k == len(fields) - 1:
                    new = [new[0], "ensures", fields[k]] + rest
        return new

    def body(self, text, place, context="c", goal=None):
        """The text of an answer, with what it cites of the context c under today's names. A whole context that is handed on is the record of
        its place: behind a goal `(goal.at.GOAL c).PLACE`, in a lemma over a place what the field `before` has."""
        scope, bags, steps, said = {context: place}, set(), {}, {}

        def turn(m):
            head, parts = m[1], [p for p in m[2].split(".") if p]
            if head in bags and parts and parts[0] in self.args:
                return ".".join([head, self.args[parts[0]]] + parts[1:])
            if head in said:
                # all that a call ensures, under a name of its own
                if text[max(0, m.start() - 4):m.start()] == "let ":
                    return m[0]
                new = self.by_label([head, "ensures"] + parts, said[head])
                new = new[0].replace("\x00.", "") if new[0].startswith("(") else ".".join(new)
                return new.replace(f"{head}.ensures", head)
            if head in steps and parts:
                new = self.by_label([head] + parts, steps[head])
                return new[0].replace("\x00.", "") if new[0].startswith("(") else ".".join(new)
            if head not in scope:
                return m[0]
            at, new = self.turned(scope[head], parts)
            before = text[max(0, m.start() - 60):m.start()]
            bound = re.search(r"let (\S+)(?: : [^=\n]+)? = $", before)
            if not new:
                if bound and re.match(r"\s+in\b", text[m.end():m.end() + 8]):
                    scope[bound[1]] = at
                    return head if goal else m[0]
                # the clause's own variable
                if not parts and re.search(r"(?:^|\n)\S+ $", before) and text[m.end():m.end() + 1] in " =" and head == context:
                    return m[0]
                self.cited.add(self.place_name.get(at, at))
                return f"(goal.at.{goal} {context}).{self.place_name.get(at, at)}" if goal else m[0]
            if new and new[0].startswith("("):
                fields = re.findall(r"ensures\.(\w+)", new[0])
                if bound and re.match(r"\s+in\b", text[m.end():m.end() + 8]):
                    said[bound[1]] = fields
                    return re.search(r"\x00\.(.*?\.ensures)\.", new[0])[0][:-1].replace("\x00", head)
                return new[0].replace("\x00", head)
            if len(new) == 1 and bound and new[0] in self.step.values():
                owner = next((p for p in self.step if self.step[p] == new[0] and self.clause.get(p)), None)
                if owner:
                    steps[bound[1]] = self.clause[owner]
            if new == ["args"] and bound:
                bags.add(bound[1])
            return ".".join([head] + new)

        return CHAIN.sub(turn, text)


def blocks(text):
    """The file's declarations: the name, the comments above it, and its lines."""
    out, comments = [], []
    for line in text.split("\n"):
        if line.startswith("--"):
            comments.append(line)
        elif re.match(r"[^\s)\]]", line):
            name, word = HEAD.match(line)[1], line.split()[0]
            own = out and out[-1][0] == name and (":" not in line.split()[1:2] or word not in ("use", "module", "abbrev", "pub", "unfoldable"))
            if out and (word == "unfolding" or own):
                out[-1][2].append(line)
            else:
                out.append([name, comments, [line]])
                comments = []
        elif out:
            out[-1][2].append(line)
    return out


def clauses_of(crate, f):
    """The names of the ensures of a function, where it has two or more."""
    steps = f.split("/")
    name, mods = steps[-1].lstrip("+"), [s for s in steps[:-1] if s[0].islower()]
    base = f"crates/{crate}/src/"
    for path in ([base + "/".join(mods) + ".rt", base + "/".join(mods) + "/mod.rt"] if mods else [base + "lib.rt", base + "main.rt"]):
        if not os.path.exists(path):
            continue
        text = open(path, encoding="utf-8").read()
        owner = next((s for s in steps[:-1] if s[0].isupper()), None)
        start = text.find(f"impl {owner}") if owner else 0
        if owner and start < 0:
            start = text.find(f" {owner}")
        m = re.compile(rf"\bfn {re.escape(name)}\b").search(text, max(start, 0))
        if m:
            found = []
            for line in text[m.start():].split("\n")[1:]:
                if line.rstrip() in ("{", "    {") or line.startswith("}"):
                    break
                k = re.match(r"\s*ensures(?: (\w+))? \{", line)
                if k:
                    found.append(k[1])
            return found if len(found) > 1 else None
    return None


def split_tuple(inner):
    parts, depth, at = [], 0, 0
    for k, ch in enumerate(inner):
        if ch in "([{":
            depth += 1
        elif ch in ")]}":
            depth -= 1
        elif ch == "," and depth == 0:
            parts.append(inner[at:k].strip())
            at = k + 1
    if inner[at:].strip():
        parts.append(inner[at:].strip())
    return parts


def as_tuple(expression):
    """The parts of an expression that is one tuple in parentheses, or None."""
    e = expression.strip()
    if not (e.startswith("(") and e.endswith(")")):
        return None
    depth = 0
    for k, ch in enumerate(e):
        depth += ch in "([{"
        depth -= ch in ")]}"
        if depth == 0 and k < len(e) - 1:
            return None
    parts = split_tuple(e[1:-1])
    return parts if len(parts) > 1 else None


def in_record(names, expression):
    """An answer to several clauses, which were nested to the right, as a record by their names."""
    parts = as_tuple(expression)
    if len(names) == 1:
        return [(names[0], expression.strip() if not parts or expression.strip().startswith("(") else expression.strip())]
    if parts:
        rest = parts[1] if len(parts) == 2 else "(" + ", ".join(parts[1:]) + ")"
        more = in_record(names[1:], rest)
        return [(names[0], parts[0])] + more if more else None
    return None


def by_clause(names, text):
    """The text of an answer's clause `name c = body`, with what it answers as a record."""
    lines = text.rstrip()
    end = len(lines)
    if lines.endswith(")"):
        depth, k = 0, end - 1
        while k >= 0:
            depth += lines[k] in ")]}"
            depth -= lines[k] in "([{"
            if depth == 0:
                break
            k -= 1
        before = lines[:k].rstrip()
        if before.endswith("=") or re.search(r"\sin$", before):
            fields = in_record(names, lines[k:])
            if fields:
                return lines[:k] + "record { " + "; ".join(f"{n} = {e}" for n, e in fields) + " }"
    m = re.search(r"(?:(?<=\sin)\s+|=\s+)((?:(?!\sin\s)[^=]|(?<=[^\s])=)*)$", lines)
    if m:
        chain = ["r" + ".1" * k + (".0" if k < len(names) - 1 else "") for k in range(len(names))]
        return lines[:m.start(1)] + "let r = " + m[1].strip() + " in record { " + "; ".join(f"{n} = {e}" for n, e in zip(names, chain)) + " }"
    return text


def loop_vars(fn, key, heads):
    """For the parameters of an invariant in an old file: what each is called in a turn l."""
    new, params = fn.loops[key]
    changed = fn.changed[key]
    table, seen = {}, {}
    bare = [h.rstrip("₀") for h in heads]
    for h, b in zip(heads, bare):
        if h.endswith("₀"):
            table[h] = f"l.initial.{b}"
        else:
            table[h] = f"l.{b}"
    return new, table


def by_path(said, table):
    """An invariant's text with its parameters by their paths, but for the names of fields and what a λ or a binder before → binds."""
    out, at, depth, bound = [], 0, 0, []
    for m in re.finditer(rf"λ ((?:[^{SEP}.]+|\([^()]*\))(?: (?:[^{SEP}.]+|\([^()]*\)))*)\.|\(([^{SEP}.]+(?: [^{SEP}.]+)*) : |[(){{}}]|{CHAIN.pattern}", said):
        word = m[0]
        if word.startswith("λ"):
            names = re.findall(rf"\(([^:()]*?) :|([^{SEP}.]+)", m[1])
            bound.append((depth, {n for pair in names for part in pair for n in part.split()}))
            continue
        if m[2]:
            depth += 1
            # a binder's names hold behind its closing parenthesis, to the end of what it stands in
            if re.match(r"[^()]*(?:\([^()]*\)[^()]*)*\) →", said[m.end():]):
                bound.append((depth - 1, set(m[2].split())))
                continue
            out.append(said[at:m.start()])
            names = " ".join(table.get(n, n) if not any(n in b for _, b in bound) else n for n in m[2].split())
            out.append(f"({names} : ")
            at = m.end()
            continue
        if word in "({":
            depth += 1
            continue
        if word in ")}":
            depth -= 1
            bound = [b for b in bound if b[0] <= depth]
            continue
        head = re.match(CHAIN, word)
        if head and head[1] in table and not any(head[1] in b for _, b in bound) and not re.match(r" = ", said[m.end():m.end() + 3]):
            out.append(said[at:m.start()])
            out.append(table[head[1]] + head[2])
            at = m.end()
    out.append(said[at:])
    return "".join(out)


def main(argv):
    names_file, crate, *only = argv
    every = json.load(open(names_file))
    top = f"crates/{crate}/proofs"
    done = 0
    for folder, dirs, files in sorted(os.walk(top)):
        if "Proof.antt" not in files:
            continue
        f = folder[len(top) + 1:]
        if only and f not in only:
            continue
        text = open(f"{folder}/Proof.antt", encoding="utf-8").read()
        if "tie.close" not in text:
            print("walk:", f)
            continue
        key = f"Rattle-{crate}-proofs.{f.replace('/', '.')}.Lts"
        if key not in every:
            print("no names:", f)
            continue
        fn = Function(every[key])
        head, uses, answers, invariants, helpers = [], [], [], [], []
        lines = text.split("\n")
        for line in lines:
            if line.startswith("--") and not uses:
                head.append(line)
            elif re.match(r"use ", line):
                uses.append(line)
        rest = "\n".join(l for l in lines if not l.startswith("use "))
        tie = next((re.sub(r"^use (\S+)\.Tie as tie$", r"\1", u) for u in uses if u.endswith(".Tie as tie")), None)
        uses = [u for u in uses if not re.search(r"\.Tie as tie$|\.Statement\.\{statement\}$", u)]
        for name, comments, body in blocks(rest):
            comments = [c for c in comments if c not in head]
            code = "\n".join(body).rstrip()
            m = re.match(rf"(?:abbrev |pub )*{re.escape(name)} : tie\.(\S+)", code)
            if m and m[1].startswith("Need-"):
                old = re.sub(r"^(overflow|nonzero)-", "", norm(m[1][5:])) if norm(m[1][5:]) not in fn.goal else norm(m[1][5:])
                if old not in fn.goal and old.startswith("slice-bounds-"):
                    old = "part-" + old[len("slice-bounds-"):]
                if old not in fn.goal and old.startswith("slice-aggregate-"):
                    # that a part is a slice: mostly found by itself, and else a bound of the part
                    if code.rstrip().endswith("search rules"):
                        continue
                    part = re.fullmatch(r"slice-aggregate-(.*?)(-\d+)?", old)
                    named = {norm(s): s for names in every[key]["places"] for s in (re.sub(r"\d+$", "", names[2][0]),)}
                    fn.goal[old] = f"slice_bounds-{named.get(part[1], part[1])}-end{part[2] or ''}"
                    behind = re.search(r"tie\.Need-(\S+)", rest[rest.index(code) + len(code):])
                    fn.at[old] = fn.at.get(re.sub(r"^(overflow|nonzero)-", "", norm(behind[1])) if behind else "", None) or list(fn.parent)[-1]
                    fn.settled.discard(fn.goal[old])
                if old not in fn.goal:
                    print("no goal:", f, m[1])
                    continue
                new = fn.goal[old]
                sig_end = code.index("\n") if "\n" in code else len(code)
                later = code[sig_end + 1:]
                # the clause: name c κs = body
                later = re.sub(rf"(?m)^{re.escape(name)} (\S+)((?: \S+)*?) κs( |$)", rf"{name} \1\2\3", later)
                later = re.sub(rf"(?m)^{re.escape(name)}(?= )", new, later)
                ctx = re.search(rf"(?m)^{re.escape(new)} (\S+)", later)
                later = fn.body(later, fn.at[old], ctx[1] if ctx else "c", new)
                said = clauses_of(crate, f)
                if said and new.startswith("returns") and " search rules" not in later[-14:]:
                    later = by_clause(said, later)
                # the test of `!x` says what x is, with no lemma
                if not os.environ.get("KEEPNOT"):
                    later = re.sub(r"\(not-(?:true|false) _ ([^\s()]+\.(?:true|false))\)", r"\1", later)
                    later = re.sub(r"(?<![^\s(])not-(?:true|false) _ ([^\s()]+\.(?:true|false))", r"\1", later)
                answers.append((new, comments, f"pub {new} : goal.{new}\n{later}"))
            elif m and (m[1].startswith("invariant") or m[1].startswith("decreases") or m[1].startswith("measure")):
                kind, _, loop = m[1].partition("-")
                clause = re.search(rf"(?m)^{re.escape(name)} ([^=]*?) =", code)
                heads = clause[1].split() if clause else []
                if norm(loop) in fn.loops:
                    new, table = loop_vars(fn, norm(loop), heads)
                    label = f"{kind}-{new}"
                    var = "l"
                else:
                    label, table, var = m[1], {h: f"l.{h}" for h in heads}, "l"
                said = code[clause.end():] if clause else ""
                said = by_path(said, table)
                unfolding = re.search(r"(?m)^unfolding .*$", code)
                invariants.append((label, comments, f"abbrev pub {label} : goal.{label}\n" + (unfolding[0] + "\n" if unfolding else "") + f"{label} {var} ={said}"))
            elif "tie.close" in code:
                continue
            else:
                if "tie." in code:
                    pm = re.search(r"\((\S+) : tie\.(\S+?)(?: [^)]*)?\)", code)
                    if pm:
                        place = norm(pm[2])
                        code = fn.body(code, place, pm[1])
                        code = re.sub(r"\((\S+) : tie\.(\S+?)(?: invariant[^)]*)?\)", lambda k: f"({k[1]} : {fn.place_name.get(norm(k[2]), k[2])})", code)
                        fn.cited.add(fn.place_name.get(place, place))
                helpers.append((name, comments, code))
        inv_text = "\n".join(c for _, _, c in invariants)
        mine = set()
        more = True
        while more:
            more = False
            for n, _, c in helpers:
                if n not in mine and re.search(rf"(?<![^{SEP}]){re.escape(n)}(?![^{SEP}.])", inv_text):
                    mine.add(n)
                    inv_text += "\n" + c
                    more = True

        def put(where, what, lead):
            with open(where, "w", encoding="utf-8") as out:
                out.write("\n".join(lead) + "\n\n")
                out.write("\n\n".join("\n".join(comments + [code.rstrip()]) for _, comments, code in what) + "\n")

        assert tie, f
        if invariants:
            given = [h for h in helpers if h[0] in mine]
            given = [(n, cm, c if re.match(r"(abbrev |unfoldable )*pub |module", c) else "pub " + c if not c.startswith(("abbrev ", "unfoldable ")) else c.replace(" ", " pub ", 1)) for n, cm, c in given]
            put(f"{folder}/Invariants.antt", given + invariants, head + uses + [f"use {tie}.Given as goal"])
        lead = head + uses
        if fn.cited:
            lead.append(f"use {tie}.Goals.{{{', '.join(sorted(fn.cited))}}}")
        lead.append(f"use {tie}.Goals as goal")
        if mine:
            lead.append(f"use {tie}.Invariants.{{{', '.join(n for n, _, _ in helpers if n in mine)}}}")
        trivial = re.compile(r" = search rules$")
        answers = [a for a in answers if not (trivial.search(a[2]) and a[2].count("\n") == 1)]
        answers = [a for a in answers if a[0] not in fn.settled]
        if answers:
            put(f"{folder}/Answers.antt", [h for h in helpers if h[0] not in mine] + answers, lead)
        os.remove(f"{folder}/Proof.antt")
        done += 1
    print(done, "functions turned")


if __name__ == "__main__":
    main(sys.argv[1:])
