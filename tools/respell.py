#!/usr/bin/env python3
"""Spells the repository's own definitions and lemmas as today's Rattle does: lastDay and last-day become last_day.

usage: tools/respell.py [--check] [FOLDER]     once, at the top, right after the toolchain's own script; --check only lists the names

Turned: names that files of specs/ and proofs/ declare, aliases of imports, and words of lower camel case, in .antt files, in clauses and comments of .rt files,
in the lines of must-fail edits and in code spans of the pages. Not turned: functions of src/, names that Rattle makes (the answers of a Proof.antt, what stands behind `c.`), strings.
A lemma that would have the name of another word in some file gets `_lem`.
"""
import collections
import os
import re
import sys

WORD = r"[^\s(){}.;,@\"«»`\[\]|]+"
CAMEL = re.compile(r"[a-z][a-z0-9_]*(?:[A-Z][a-z0-9]*)+'*")
KEBAB = re.compile(r"[a-z][a-z0-9_]*(?:-[a-z0-9_]+)+'*")
DECL = re.compile(r"^ *(?:(?:pub|abbrev|unfoldable) +)*(?:(?:record|data) +)?(" + WORD + r")(?: +\([^)]*\)| +\{[^}]*\})* +: (.*)$")
GOAL = re.compile(r"^(?:(?:pub|abbrev) +)*(" + WORD + r") : (?:\{.*\} → )?(?:tie\.|[sS]tatement|Own)")


def snake(name):
    out = re.sub(r"(?<=[a-z0-9])([A-Z])", lambda m: "_" + m.group(1).lower(), name)
    return out.replace("-", "_")


def files(top):
    for folder, dirs, names in os.walk(os.path.join(top, "crates")):
        dirs[:] = sorted(d for d in dirs if d != "out")
        for n in sorted(names):
            if n.endswith((".antt", ".rt")):
                yield os.path.join(folder, n)


def goals_of(text):
    return {m.group(1) for l in text.splitlines() if (m := GOAL.match(l))}


def main(argv):
    check = "--check" in argv
    rest = [a for a in argv if a != "--check"]
    top = rest[0] if rest else "."
    texts = {p: open(p, encoding="utf-8").read() for p in files(top)}
    declared, words, made, fields = collections.defaultdict(set), {}, {}, set()
    imported = set()
    for p, t in texts.items():
        made[p] = goals_of(t) if p.endswith("/Proof.antt") else set()
        words[p] = set(re.findall(WORD, t))
        if p.endswith(".antt"):
            for block in re.findall(r"(?m)^( *)(?:pub )?record .*\n((?:\1 +.*\n|\n)+)", t):
                fields |= {m.group(1) for l in block[1].splitlines() if (m := DECL.match(l))}
            for l in t.splitlines():
                m = DECL.match(l)
                if m and m.group(1) not in made[p] and not l.lstrip().startswith("--"):
                    declared[m.group(1)].add(p)
        for m in re.finditer(r"use ([^\s{;]+?)\.?\{([^}]*)\}", t):
            for it in m.group(2).split(","):
                it = it.strip()
                if " as " in it:
                    declared[it.split(" as ")[1].strip()].add(p)
                if not re.match(r"Rattle\.(?!std\b|core\b|libc\b|io\b|os\b)", m.group(1)):
                    imported.add(it.split(" as ")[0].strip())
    table = {}
    camel = {w for p, ws in words.items() for w in ws if CAMEL.fullmatch(w) and w not in imported and snake(w) != w}
    kebab = {n for n in declared if KEBAB.fullmatch(n) and n not in imported}
    for n in sorted(camel):
        table[n] = snake(n)
    where = collections.defaultdict(set)
    for p, ws in words.items():
        for w in ws:
            where[w].add(p)
    taken = collections.defaultdict(set)
    for n in camel:
        taken[table[n]] |= where[n]
    for n in sorted(kebab):
        new = snake(n)
        clash = where[n] & (where.get(new, set()) | taken.get(new, set()))
        if clash:
            new += "_lem"
        table[n] = new
        taken[new] |= where[n]
    # A lemma that the toolchain's own script spelled like a definition.
    for n in sorted(camel):
        met = table[n]
        if met in declared and where[n] & declared[met] and all(p.endswith(".antt") for p in declared[met]):
            table[met] = met + "_lem"
        else:
            clash = sorted(where[n] & where.get(met, set()))
            if clash:
                print("look:", n, "meets", met, "in", " ".join(c.replace("crates/", "") for c in clash))
    back = collections.defaultdict(list)
    for a, b in table.items():
        back[b].append(a)
    for b, olds in sorted(back.items()):
        if len(olds) > 1:
            both = set.intersection(*(where[o] for o in olds))
            print("look:", " ".join(olds), "are both", b, "in", len(both), "files")
    print(len(camel), "camel,", len(kebab), "kebab")
    if check:
        for a, b in sorted(table.items()):
            print(a, b, sep="\t")
        return
    token = re.compile(WORD)

    def turn(text, keep, spans_only=False):
        def word(m):
            w = m.group(0)
            if w not in table or w in keep:
                return w
            if KEBAB.fullmatch(w) and m.start() and text_[m.start() - 1] == ".":
                head = re.search(r"[^\s(){};,@\"«»`\[\]|]*$", text_[: m.start()]).group(0)
                first = head.split(".")[0]
                if first != "Rattle" and first not in aliases and w not in fields:
                    return w
            return table[w]

        text_ = text
        aliases = set(re.findall(r"(?m)^use \S+ as (\S+)$", text)) | set(re.findall(r"\b[A-Z]\w*(?=\.)", text))
        return token.sub(word, text)

    for p, t in texts.items():
        if p.endswith(".antt"):
            new = turn(t, made[p])
        else:
            parts = re.split(r'(b?"(?:\\.|[^"\\\n])*")', t)
            new = "".join(s if i % 2 else turn(s, set()) for i, s in enumerate(parts))
        if new != t:
            open(p, "w", encoding="utf-8").write(new)
    for folder, dirs, names in os.walk(os.path.join(top, "crates")):
        if os.path.basename(folder) == "must-fail":
            for n in names:
                p = os.path.join(folder, n)
                t = open(p, encoding="utf-8").read()
                new = "\n".join(turn(l, set()) if re.match(r"(?:old|new):", l) else l for l in t.split("\n"))
                if new != t:
                    open(p, "w", encoding="utf-8").write(new)
    pages = [os.path.join(top, "README.md")]
    for folder, dirs, names in os.walk(os.path.join(top, "docs")):
        pages += [os.path.join(folder, n) for n in names if n.endswith(".md")]
    for p in pages:
        t = open(p, encoding="utf-8").read()
        # Only words that are declared, in code spans.
        def span(m):
            return token.sub(lambda w: table[w.group(0)] if w.group(0) in table and w.group(0) in declared else w.group(0), m.group(0))
        new = re.sub(r"`[^`\n]+`", span, t)
        if new != t:
            open(p, "w", encoding="utf-8").write(new)


if __name__ == "__main__":
    main(sys.argv[1:])
