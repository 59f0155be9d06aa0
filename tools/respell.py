#!/usr/bin/env python3
"""Brings the repository's own definitions, fields and lemmas to snake case: isPoint becomes is_point, first-bad first_bad.

usage: tools/respell.py        at the top of the repository

It reads which names the files of specs/ and proofs/ declare, and renames them there, in contracts, in edits and, between
backticks, in pages. Names of the library keep their spelling, and so do functions of src/, strings, inputs and outputs.
It stops, and writes nothing, where two names of one file would fall together.
"""

import os
import re
import sys

WORD = re.compile(r"[A-Za-zα-ωℕ_][A-Za-z0-9_'₀-₉ℕα-ω]*(?:-[A-Za-z0-9_'₀-₉ℕ]+)*")
HEAD = re.compile(r"^(\s*)(?:(?:pub|abbrev|unfoldable|opaque|rec)\s+)*([^\s:(){}|.]+)\s*(?:\{[^}]*\}\s*|\([^)]*\)\s*)*:\s")
TYPE = re.compile(r"^\s*(?:(?:pub|abbrev|unfoldable)\s+)*(?:record|data)\s+([^\s:(){}]+)")
FIELD = re.compile(r"(?:record\s*\{|;)\s*([a-z][^\s:(){}|.;=]*)\s*:")
USE = re.compile(r"^(?:ghost )?use ([A-Za-z_][\w.·']*)\.\{([^}]*)\}", re.M)

def turned(name):
    if "-" in name:
        name = name.replace("-", "_")
    if name[:1].islower():
        name = re.sub(r"([a-z0-9])([A-Z])", lambda m: m.group(1) + "_" + m.group(2).lower(), name)
        name = re.sub(r"_([A-Z])", lambda m: "_" + m.group(1).lower(), name)
    return name


def crates():
    return sorted(n for n in os.listdir("crates") if os.path.isdir(os.path.join("crates", n)))


def files(ends):
    for folder, dirs, names in os.walk("crates"):
        dirs[:] = sorted(d for d in dirs if d not in ("out", "must-fail", "data"))
        for n in sorted(names):
            if n.endswith(ends):
                yield os.path.join(folder, n)


def code(line):
    at = line.find("--")
    while at > 0 and line[at - 1] not in " \t":
        at = line.find("--", at + 1)
    return line if at < 0 else line[:at]


def declared(text):
    names = set()
    for line in text.split("\n"):
        line = code(line)
        m = HEAD.match(line)
        if m:
            names.add(m.group(2))
        m = TYPE.match(line)
        if m:
            names.add(m.group(1))
        for f in FIELD.findall(line):
            names.add(f)
        m = re.match(r"^\s*(?:pub\s+)?((?:[a-z][\w'-]*\s+)+[a-z][\w'-]*)\s*:\s", line)
        if m and not line.lstrip().startswith(("abbrev", "unfoldable", "record", "data", "use", "module", "pub abbrev", "pub unfoldable")):
            names |= {w for w in m.group(1).split() if w != "pub"}
        m = re.match(r"^\s*\|\s*([A-Za-z][\w'-]*)\s*:", line)
        if m:
            names.add(m.group(1))
    return {n for n in names if WORD.fullmatch(n)}


def imported(text, own):
    """What a file takes from the library: these names keep their spelling there."""
    away = set()
    for path, names in USE.findall(text):
        parts = path.replace("·", ".").split(".")
        if parts[0] == "Rattle" and len(parts) > 1 and parts[1] in own:
            continue
        away |= {n.strip().split(" as ")[-1].strip() for n in names.split(",")}
    return away


def respell(text, names, keep, walk=False):
    def word(m, text=text):
        w = m.group(0)
        if w in keep or w not in names:
            return w
        if walk and m.start() and text[m.start() - 1] == ".":
            return w
        return names[w]
    return WORD.sub(word, text)


def proof(text, names, keep, walk):
    """A file of antt: all of it, but in comments the words with a dash between backticks alone, since prose has such words too."""
    out = []
    plain = {n: to for n, to in names.items() if "-" not in n}
    for line in text.split("\n"):
        part = code(line)
        rest = respell(line[len(part):], plain, keep)
        rest = re.sub(r"`[^`\n]*`", lambda m: respell(m.group(0), names, keep), rest)
        out.append(respell(part, names, keep, walk) + rest)
    return "\n".join(out)


def contract(text, names, keep):
    """A source: its imports of definitions, its clauses and, between backticks, its comments."""
    out = []
    deep = 0
    for line in text.split("\n"):
        bare = line.strip()
        if bare.startswith("ghost use") or deep or re.match(r"(?:pub )?(?:requires|ensures|also_\w+|invariant|ghost)\b", bare):
            at = line.find("//")
            part = line if at < 0 else line[:at]
            if not bare.startswith("ghost use"):
                deep += part.count("{") - part.count("}")
            line = respell(part, names, keep) + line[len(part):]
        out.append(line)
    return re.sub(r"`[^`\n]*`", lambda m: respell(m.group(0), names, keep), "\n".join(out))


def pages():
    """Between backticks in pages, each word that no file declares but whose turned form one does."""
    now = set()
    for p in files(".antt"):
        if not p.endswith("/Proof.antt"):
            now |= declared(open(p, encoding="utf-8").read())
    paths = [n for n in os.listdir(".") if n.endswith(".md")]
    paths += [os.path.join("docs", n) for n in os.listdir("docs") if n.endswith(".md") and n != "PORT.md"]
    changed = 0

    def word(m):
        w = m.group(0)
        if w in now:
            return w
        new = turned(w.replace("′", "'"))
        return new if new in now else new + "_lem" if new + "_lem" in now else w

    for p in sorted(paths):
        t = open(p, encoding="utf-8").read()
        new = re.sub(r"`[^`\n]*`", lambda m: WORD.sub(word, m.group(0)), t)
        if new != t:
            changed += 1
            open(p, "w", encoding="utf-8").write(new)
    return changed


def main():
    own = set(crates())
    texts = {p: open(p, encoding="utf-8").read() for p in files((".antt", ".rt"))}
    per = {p: declared(t) for p, t in texts.items() if p.endswith(".antt") and not p.endswith("/Proof.antt")}
    names = {}
    for p, ns in per.items():
        for n in ns:
            new = turned(n)
            if new != n:
                names[n] = new
    # a lemma that would have the name of what it speaks of gets `_lem`, as in the library
    seen = {p: set(WORD.findall("\n".join(re.sub(r"^use [\w.+]*", "", code(l)) for l in t.split("\n")))) for p, t in texts.items() if p.endswith(".antt")}
    camel = {to for n, to in names.items() if "-" not in n}
    for p, ns in per.items():
        for n in ns & camel:
            if any(names[m] == n for m in seen[p] if m in names):
                names[n] = n + "_lem"
    for n in sorted(names):
        if "-" not in n:
            continue
        new = names[n]
        other = {m for m, to in names.items() if to == new and m != n} | {new}
        if any(n in words and words & other for words in seen.values()):
            names[n] = new + "_lem"
    bad = 0
    for p, words in sorted(seen.items()):
        to = {}
        for n in sorted(words):
            new = names.get(n, n)
            if to.setdefault(new, n) != n and not p.endswith("/Proof.antt"):
                bad += 1
                print(f"{p}: {n} and {to[new]} would be {new}")
    if bad and "--force" not in sys.argv:
        raise SystemExit(f"respell: {bad} names fall together; nothing was written")
    changed = 0
    for p, t in texts.items():
        away = imported(t, own)
        # a name of the library that the file declares anew is the file's own
        keep = {n for n in away if n not in per.get(p, ())}
        new = contract(t, names, keep) if p.endswith(".rt") else proof(t, names, keep, p.endswith("/Proof.antt"))
        if new != t:
            changed += 1
            open(p, "w", encoding="utf-8").write(new)
    for crate in sorted(own):
        folder = os.path.join("crates", crate, "must-fail")
        for n in sorted(os.listdir(folder)) if os.path.isdir(folder) else []:
            p = os.path.join(folder, n)
            t = open(p, encoding="utf-8").read()
            m = re.search(r"^file: (\S+)", t, re.M)
            target = os.path.join("crates", crate, m.group(1)) if m else ""
            away = imported(texts.get(target, ""), own) - per.get(target, set())
            if target.endswith(".rt"):
                new = "\n".join(l[:4] + contract(l[4:], names, away) if l[:4] in ("old:", "new:") else l for l in t.split("\n"))
            else:
                new = "\n".join(l[:4] + respell(l[4:], names, away) if l[:4] in ("old:", "new:") else l for l in t.split("\n"))
            new = re.sub(r"`[^`\n]*`", lambda k: respell(k.group(0), names, set()), new)
            if new != t:
                changed += 1
                open(p, "w", encoding="utf-8").write(new)
    changed += pages()
    print(f"respell: {len(names)} names, {changed} files changed")


if __name__ == "__main__":
    main()
