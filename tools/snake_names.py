#!/usr/bin/env python3
"""Spells this repository's own definitions and lemmas in snake case, as today's Rattle does, behind port.py. It was run once.

usage: tools/snake_names.py [--plan]       at the top of the repository

Declared names of specs/ and proofs/ that begin with a small letter change: chipsOver becomes chips_over, due-at-most due_at_most, and a prime an apostrophe.
Types, modules, Rust's names, labels that Rattle makes and names of the kit stay. A lemma whose new name a definition, another lemma or a
variable of a file that names it has already gets _law behind it.
--plan prints what would change, and writes nothing.
"""
import collections
import os
import re
import sys

# lemmas that have already the plain spelling of a definition beside them
BEFORE = {"all_are", "is_digit", "known_bytes", "live_at", "numbers_fit", "words_row"}
# variables that have it
VARIABLES = {"crates/history/proofs/Codes.antt": ("live_at", "live_same"), "crates/table/proofs/Blinds.antt": ("turn_by", "turn_same")}

SEP = r"\s(){}\[\];,@\"«»."
WORD = re.compile(rf"[^{SEP}]+")
HEAD = re.compile(r"^((?:  )?)((?:(?:unfoldable|abbrev|pub|private|opaque)\s+)*)([^\s(){};:|]+)((?: \{[^\n]*?\}| \([^\n]*?\))*) : ", re.M)
USE = re.compile(r"(?m)^[ \t]*(?:unfoldable |pub |ghost )*use ([^\s;{]+?)(?:\.\{([^}]*)\})?(?: as ([^\s;]+))?;?[ \t]*$")
WORDS = set("use mod module let in where if then else elim record data pub ghost tie goal".split())
MADE = re.compile(r"^(invariant|decreases|measure|returns|loop|overflow|bounds|offset_bounds)(-|$)")


def snake(name):
    name = name.replace("′", "'")
    name = re.sub(r"(?<=[a-z0-9'])([A-Z]+)", lambda m: "_" + m[1].lower(), name)
    return name.replace("-", "_")


def files():
    for folder, dirs, names in os.walk("crates"):
        dirs[:] = sorted(d for d in dirs if d != "out")
        for name in sorted(names):
            if name.endswith((".antt", ".rt", ".edit")):
                yield os.path.join(folder, name)


def is_function(path):
    return path.endswith(("/Proof.antt", "/Answers.antt", "/Invariants.antt"))


def crates():
    return {c for c in os.listdir("crates") if os.path.isdir(f"crates/{c}/src")}


def module_of(path):
    """The path by which a file of specs/ or proofs/ is used."""
    return "Rattle." + path[len("crates/"):-len(".antt")].replace("/", ".")


def declared(path, text):
    for m in HEAD.finditer(text):
        name, line = m[3], text[m.start():text.find("\n", m.start())]
        if name in WORDS or name.startswith("--") or "let " in line[:m.end() - m.start()]:
            continue
        if is_function(path) and (MADE.match(name) or name.endswith(("-spec", "_spec")) or re.search(r" : (\{[^}]*\} → )?(tie\.|goal\.|statement)", line)):
            continue
        yield name


def main(argv):
    own = crates()
    texts = {p: open(p, encoding="utf-8").read() for p in files()}
    for p, (old, word) in VARIABLES.items():
        texts[p] = WORD.sub(lambda m: word if m[0] == old else m[0], texts[p])
    antt = [p for p in texts if p.endswith(".antt")]
    by_module = {module_of(p): set(declared(p, texts[p])) for p in antt}
    specs_names = {snake(n) for p in antt if "/specs/" in p for n in by_module[module_of(p)] if n[0].islower()}
    everything = {n for names in by_module.values() for n in names}

    # what each file names of ours: the names that it declares or imports, each with the modules they come from
    reach, heads = {}, {}
    for p, t in texts.items():
        mine, theirs, named = set(), set(), {}
        if p.endswith(".antt"):
            mine |= by_module[module_of(p)]
        for path, items, alias in USE.findall(t):
            steps = path.split(".")
            ours = steps[0] == "Rattle" and len(steps) > 1 and steps[1] in own and "declared" not in steps and "contracts" not in steps
            words = [w.strip() for w in items.split(",")] if items else []
            if words:
                for w in words:
                    old = w.split(" as ")[0].strip()
                    (mine if ours else theirs).add(old)
                    # a name of this file's own for a definition
                    if ours and " as " in w:
                        mine.add(w.split(" as ")[1].strip())
                        everything.add(w.split(" as ")[1].strip())
            elif ours:
                named[alias or steps[-1]] = path
        reach[p] = {n for n in mine if n not in theirs and n in everything}
        heads[p] = named

    # the new names
    where = collections.defaultdict(set)
    for p, names in reach.items():
        for n in names:
            where[n].add(p)
    words_in = {p: collections.Counter(WORD.findall(t)) for p, t in texts.items()}
    new, notes = {n: n + "_law" for n in BEFORE}, []
    taken = set()
    for n in sorted(everything, key=lambda n: ("-" in n, n)):
        s = snake(n)
        if s == n or not n[0].islower():
            continue
        clash = False
        for p in where[n]:
            t = texts[p]
            # another name of ours in the same file that is spelled so, or will be
            if any(o != n and new.get(o, o) == s for o in reach[p]):
                clash = True
            if s in words_in[p]:
                # a word behind a dot is a field, and a Rust function or a folder may have the name too
                if s not in BEFORE and p.endswith(".antt") and re.search(rf"(?<![^\s(){{}}\[\];,@\"«»]){re.escape(s)}(?![^\s(){{}}\[\];,@\"«».])", re.sub(r"--.*", "", t)):
                    clash = True
                if p.endswith(".rt") and re.search(rf"\b{re.escape(s)}\s*:(?!:)|\blet (mut )?{re.escape(s)}\b|\bfor {re.escape(s)} in\b", t):
                    clash = True
            if clash:
                notes.append((n, s, p))
                break
        if clash:
            s += "_law" if "-" in n else "_def"
        taken.add(s)
        new[n] = s
    if "--plan" in argv:
        for n, s in sorted(new.items()):
            if s.endswith("_def"):
                print("clash:", n, s, [x[2] for x in notes if x[0] == n][:2])
        print(len(new), "names,", sum(s.endswith("_law") for s in new.values()), "with _law")
        return
    changed = 0
    for p, t in texts.items():
        if p.endswith(".edit"):
            target = re.search(r"(?m)^file: (\S+)", t)
            base = os.path.join(p.split("/must-fail/")[0], target[1]) if target else None
            table, alias = reach.get(base, set()), heads.get(base, {})
        else:
            table, alias = reach[p], heads[p]
        fields = set().union(*(by_module.get(m, set()) for m in alias.values())) if alias else set()

        def turn(m):
            word, before = m[0], t[m.start() - 1:m.start()]
            # what a comment says of a definition, or of a law in backticks
            bare = word.strip("`'′:?!")
            line = t[t.rfind("\n", 0, m.start()) + 1:m.start()]
            if re.search(r"(^|\s)(--|//)\s", line) and bare in new and (re.search("[a-z][A-Z]", bare) or f"`{bare}`" in word):
                return word.replace(bare, new[bare])
            if before == ".":
                head = re.search(rf"([^{SEP}]+)\.$", t[max(0, m.start() - 80):m.start()])
                full = re.search(rf"Rattle(?:\.[^{SEP}]+)+\.$", t[max(0, m.start() - 200):m.start()])
                if full and full[0][:-1] in by_module and word in by_module[full[0][:-1]]:
                    return new.get(word, word)
                return new.get(word, word) if head and head[1] in alias and word in fields else word
            return new[word] if word in new and word in table else word

        # a word in the braces of a use of the kit stays: there it is the kit's
        out, at = [], 0
        for m in USE.finditer(t):
            out.append(WORD.sub(turn, t[at:m.start()]) if at == 0 else turned(t, at, m.start(), turn))
            steps = m[1].split(".")
            ours = steps[0] == "Rattle" and len(steps) > 1 and steps[1] in own and "declared" not in steps and "contracts" not in steps
            out.append(turned(t, m.start(), m.end(), lambda w: new[w[0]] if w[0] in new and w[0] in everything else w[0]) if ours and m[2] else t[m.start():m.end()])
            at = m.end()
        out.append(turned(t, at, len(t), turn))
        u = "".join(out)
        if u != t:
            changed += 1
            with open(p, "w", encoding="utf-8") as f:
                f.write(u)
    print(changed, "files changed;", len(new), "names")


def turned(text, start, end, turn):
    """The part of the text with each word turned; a match knows its place in the whole."""
    out, at = [], start
    for m in WORD.finditer(text, start, end):
        out.append(text[at:m.start()])
        out.append(turn(m))
        at = m.end()
    out.append(text[at:end])
    return "".join(out)


if __name__ == "__main__":
    main(sys.argv[1:])
