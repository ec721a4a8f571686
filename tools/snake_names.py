#!/usr/bin/env python3
"""Brings the repository's own definitions and lemmas to snake case, once, after the toolchain's port.py: usage: python3 tools/snake_names.py [ROOT]
A word or lemma that a file of specs/ or right in proofs/ defines, and a name given by `as`, loses its capitals and dashes, wherever it stands: in specs/, proofs/, the ghost text of
src/, must-fail edits and, between backticks, in the pages. Names of types, of src/, of the library and of goals stay. Where two names would fall together,
or one would be hidden by a parameter or field, the table below says what stands for them; a lemma that would have the name of a word or function gets
`_lem`, and so does one that would meet that name of the library in a file, or that has in snake case already the name that a word beside it gets. It prints
the names that differ by more than that."""

import collections
import os
import re
import sys

# Words that a parameter or a field would hide, and names with a sign.
SAID = {
    "sourceRoom": "source_room_of", "targetRoom": "target_room_of", "entryRoom": "entry_room_of", "sourceEvents": "source_events_of",
    "targetEvents": "target_events_of", "sourceStart": "source_start_of", "targetStart": "target_start_of",
    "lost?": "lost_test", "crossed?": "crossed_test", "extra?": "extra_test",
}
TOKEN = re.compile(r"[^\s(){}\[\],;.:\"«»⌜⌝`|·]+")
USE = re.compile(r"(?m)^\s*(?:pub )?(?:ghost )?use ([A-Za-z_.0-9'+-]+)\.\{([^}]*)\}")
ALIAS = re.compile(r" as ([^\s{},;]+)")
DEFINED = re.compile(r"(?m)^ *(?:(?:pub|abbrev|unfoldable) +)*([^\s(){}\[\],;:=→λ.]+(?: +[^\s(){}\[\],;:=→λ.]+)*) +:\s")
HEADS = {"data", "record", "pub", "mutual", "module", "ruleset", "let", "_", "unfoldable", "abbrev", "in"}


def files(root):
    for folder, dirs, names in os.walk(root):
        dirs[:] = sorted(d for d in dirs if d not in ("out", ".git") and (d != "target" or folder != root))
        for name in sorted(names):
            if name.endswith((".antt", ".rt", ".edit", ".md")):
                yield os.path.relpath(os.path.join(folder, name), root)


def snake(name):
    if "-" not in name:
        name = re.sub(r"(?<=[a-z0-9])([A-Z])", lambda m: "_" + m[1].lower(), name)
    return name.replace("-", "_")


def own(path, crates):
    p = path.split(".")
    return p[0] == "Rattle" and p[1] in crates and (p[2] == "specs" and p[3] not in ("declared", "contracts") or p[2] == "proofs" and len(p) == 4)


def local_lemmas(text):
    """The lemmas of a function's own proof: what is no goal and not the proof itself."""
    said = re.finditer(r"(?m)^ *(?:(?:pub|abbrev|unfoldable) +)*([a-z][^\s(){}\[\],;:=→λ.]*) +:\s+(\S+)", re.sub(r"(?m)--.*$", "", text))
    return {m[1] for m in said if not m[2].startswith(("tie.", "goal.", "statement", "Need-")) and not m[1].endswith("-spec") and snake(m[1]) != m[1]}


def fallen(texts, met, words, defines):
    """For each file the lemmas that have already the name that a word gets: where the word stands beside one, in its own file or in one that brings it in."""
    word = {new: n for n, new in words.items()}
    said = collections.defaultdict(dict)
    for f in defines:
        crate, folder, name = f[:-len(".antt")].split("/")[1:]
        if folder != "proofs":
            continue
        for n in defines[f] & set(word):
            beside = [f] + [g for g, t in texts.items() if any(
                path == f"Rattle.{crate}.proofs.{name}" and n in TOKEN.findall(names) for path, names in USE.findall(t))]
            if any(word[n] in met[g] for g in beside):
                for g in beside:
                    said[g][n] = n + "_lem"
    return said


def main(root):
    crates = set(os.listdir(os.path.join(root, "crates")))
    texts = {f: open(os.path.join(root, f), encoding="utf-8").read() for f in files(root)}
    met = {f: set(TOKEN.findall(t)) for f, t in texts.items()}
    functions, defines, library = set(), {}, collections.defaultdict(set)
    for f, t in texts.items():
        if f.endswith(".rt"):
            functions |= set(re.findall(r"\bfn (\w+)", t))
        if f.endswith((".rt", ".antt")):
            for path, names in USE.findall(t):
                if not own(path, crates):
                    library[f] |= {n.strip().split(" as ")[0] for n in names.split(",")}
        if f.endswith(".antt") and len(f.split("/")) == 4:
            code = re.sub(r"(?m)--.*$", "", t)
            defines[f] = {n for m in DEFINED.finditer(code) for n in m[1].split()} - HEADS
    defined = set().union(*defines.values())
    words = {n: SAID.get(n, snake(n)) for n in defined if n in SAID or re.fullmatch(r"[a-z][A-Za-z0-9]*[A-Z][A-Za-z0-9]*", n)}
    taken = set(words.values()) | functions | {n for n in defined if "-" not in n}
    lemmas = {}
    for n in sorted(n for n in defined if "-" in n and n not in SAID):
        s = snake(n)
        met_there = any(n in met[f] and s in library[f] for f in texts)
        lemmas[n] = s + "_lem" if s in taken or met_there else s
    new = {**words, **lemmas}
    beside = fallen(texts, met, words, defines)
    for s, c in collections.Counter(new.values()).items():
        if c > 1:
            sys.exit(f"names fall together: {s}: {[n for n in new if new[n] == s]}")
    for f, t in texts.items():
        here = dict(new)
        for n in library[f]:
            here.pop(n, None)
        here.update(beside[f])
        there = set(TOKEN.findall(re.sub(r"(?m)^use \S+ as|^.*\bfn .*$", "", t)))
        for alias in ALIAS.findall(t):
            if alias[0].islower() and snake(alias) != alias:
                here[alias] = snake(alias) + ("_lem" if snake(alias) in there else "")
        if f.endswith(".antt") and len(f.split("/")) > 4:
            for n in local_lemmas(t):
                here[n] = snake(n) + ("_lem" if snake(n) in there else "")
        if f.endswith(".md"):
            u = re.sub(r"`[^`\n]+`", lambda m: TOKEN.sub(lambda k: here.get(k[0], k[0]), m[0]), t)
        elif f.endswith(".rt"):
            u = re.sub(r"(?m)^.*(?:ghost use|ensures|requires|⌜).*$|^\s+(?:\(|×|λ|→|in |let ).*$|^ *[^;=]*[a-z][A-Z].*$", lambda m: TOKEN.sub(lambda k: here.get(k[0], k[0]), m[0]), t)
        else:
            u = TOKEN.sub(lambda k: here.get(k[0], k[0]), t)
        if u != t:
            with open(os.path.join(root, f), "w", encoding="utf-8") as out:
                out.write(u)
    for n in sorted(new):
        if new[n] != snake(n):
            print(f"{n} -> {new[n]}")
    for n, s in sorted({k for names in beside.values() for k in names.items()}):
        print(f"{n} -> {s}")
    print(f"{len(words)} words, {len(lemmas)} lemmas")


if __name__ == "__main__":
    main(sys.argv[1] if len(sys.argv) > 1 else os.path.join(os.path.dirname(os.path.realpath(__file__)), ".."))
