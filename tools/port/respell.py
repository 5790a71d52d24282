#!/usr/bin/env python3
"""Spells the repository's own definitions and lemmas in snake case, after port.py of the kit.

usage: python3 tools/port/respell.py [--check]      at the top of the repository, once

A name that specs/ or proofs/ declare in camel case or with a dash gets underscores: `callAt` is `call_at`, `lookup-lay` is
`lookup_lay`. What is a type or a fact keeps its capital. Where two names fall together, the definition in specs/ has the
plain name and the lemma ends in `_lem` (GIVEN has the rows chosen by hand). Functions of src/, strings, inputs and outputs
stay. In a Proof.antt the names that Rattle makes stay: what stands behind a dot, and what is declared at a type `tie.X`.
Below crates/ it turns .antt files and the clauses and `ghost use` lines of .rt files; in README.md, docs/ and tools/ the
code spans. Edits (.edit) are brought over by hand.
--check writes nothing, and prints the names that would fall together in a file.
"""

import collections
import os
import re
import subprocess
import sys
import tempfile

WORD = re.compile(r'[^\s(){}.;,@"«»]+')
DECLARED = re.compile(r"^( *)((?:(?:pub|abbrev|unfoldable|data|record) )*)(\S+)(?: \{[^{}\n]*\})* :(?= |$)")
QUIET = re.compile(r'"(?:[^"\\\n]|\\.)*"|(?<![^\s(){}.;,@"«»])--[^\n]*')
SPAN = re.compile(r"`[^`\n]*`")
CLAUSE = re.compile(r"(?:requires|ensures)\s*\*?\s*(?:\w+\s*)?\{|ghost\s+(?:\w+\s*:\s*)?\{")
GHOST_USE = re.compile(r"ghost\s+use\b[^;]*;")

# Names that fall together with another, or with a binder, in some file: what they are called instead.
GIVEN = {
    # the same name as the crate
    "hashTable": "hash_table_of",
}


def snake(name):
    words = re.sub(r"(?<=[a-z0-9])[A-Z]", lambda m: "_" + m[0].lower(), name)
    return words.replace("-", "_")


def files(tops, endings):
    for top in tops:
        if os.path.isfile(top):
            yield top
            continue
        for folder, below, names in os.walk(top):
            below[:] = sorted(d for d in below if d not in ("out", ".git", "target"))
            for name in sorted(names):
                if name.endswith(endings):
                    yield os.path.join(folder, name)


def read(path):
    with open(path, encoding="utf-8") as f:
        return f.read()


def is_walk(path):
    return path.endswith("/Proof.antt")


def declared(root="."):
    """Each name with the files that declare it; for a Proof.antt, only names that no `tie.` type has."""
    found = collections.defaultdict(set)
    for path in files([os.path.join(root, "crates")], ".antt"):
        if "/specs/" not in path and "/proofs/" not in path:
            continue
        for line in QUIET.sub(" ", read(path)).split("\n"):
            m = DECLARED.match(line)
            if m and not (is_walk(path) and re.search(r": tie\.(?:Need|invariant|decreases)", line)):
                found[m[3]].add(path)
    return found


def table_of(found):
    turned = {n for n in found if snake(n) != n and (n[0].islower() or n.upper() == n)}
    crate = lambda path: path.split("/crates/")[1].split("/")[0]
    by = collections.defaultdict(set)  # the names of one crate that are spelled alike afterwards
    for n in found:
        for path in found[n]:
            by[crate(path), snake(n) if n in turned else n].add(n)
    table = {n: snake(n) for n in turned}
    for (where, new), names in by.items():
        # the definition has the plain name, else the one that has it already
        rank = lambda it: (not any("/specs/" in p and crate(p) == where for p in found[it]), it != new, "-" in it, it)
        for n in sorted(names, key=rank)[1:]:
            table[n] = new + "_lem"
    table.update(GIVEN)
    return table


class Turner:
    def __init__(self, table):
        self.table = table

    def word(self, m, text, walk, kept):
        name = m[0]
        if name not in self.table or name in kept:
            return name
        if text[m.start() - 1 : m.start()] == ".":
            # behind a module's name it is ours; a module of a function keeps its name, and behind a value, in a walk, it is
            # a name that Rattle makes
            head = re.search(r'([^\s(){};,@"«»]*)\.$', text[max(0, m.start() - 200) : m.start()])
            steps = head[1].split(".") if head else [""]
            if steps[0] == "Rattle" and not steps[-1][:1].isupper() or walk and not steps[0][:1].isupper():
                return name
        return self.table[name]

    def code(self, text, walk=False, kept=()):
        return WORD.sub(lambda m: self.word(m, text, walk, kept), text)

    def comment(self, text, in_code):
        def bare(m):
            w = m[0].rstrip("'s") if m[0].endswith("'s") else m[0].strip("`':")
            if w in self.table and (w in in_code or re.search("[a-z][A-Z]", w)):
                return m[0].replace(w, self.table[w])
            return m[0]

        out, at = [], 0
        for m in SPAN.finditer(text):
            out += [WORD.sub(bare, text[at : m.start()]), self.code(m[0][1:-1]).join("``")]
            at = m.end()
        return "".join(out) + WORD.sub(bare, text[at:])

    def antt(self, text, path):
        walk = is_walk(path)
        kept = set()
        if walk:
            kept = set(re.findall(r"(?m)^(?:abbrev )?(\S+) : tie\.(?:Need|invariant|decreases)", text))
        in_code = set(WORD.findall(QUIET.sub(" ", text)))
        out, at = [], 0
        for m in QUIET.finditer(text):
            out.append(self.code(text[at : m.start()], walk, kept))
            out.append(m[0] if m[0][0] == '"' else self.comment(m[0], in_code))
            at = m.end()
        return "".join(out) + self.code(text[at:], walk, kept)

    def rt(self, text, path):
        spans = []
        for m in GHOST_USE.finditer(text):
            spans.append((m.start(), m.end()))
        for m in CLAUSE.finditer(text):
            depth, at = 1, m.end()
            while depth and at < len(text):
                depth += {"{": 1, "}": -1}.get(text[at], 0)
                at += 1
            spans.append((m.end(), at))
        spans.sort()
        in_code = {w for a, b in spans for w in WORD.findall(text[a:b])}
        out, at = [], 0
        rust = lambda t: re.sub(r"//[^\n]*", lambda m: self.comment(m[0], in_code), t)
        for a, b in spans:
            if a < at:
                continue
            out += [rust(text[at:a]), self.code(text[a:b])]
            at = b
        return "".join(out) + rust(text[at:])

    def md(self, text, path):
        return SPAN.sub(lambda m: self.code(m[0][1:-1]).join("``"), text)


def move_contracts():
    """`specs.contracts` is a module that Rattle makes, so the loader's `specs.Contracts` has another name."""
    old = "crates/loader/specs/Contracts.antt"
    if os.path.exists(old):
        os.rename(old, old.replace("Contracts", "InnerContracts"))
        for path in files(["crates/loader"], (".antt", ".rt")):
            text = read(path)
            new = text.replace("Rattle.loader.specs.Contracts.", "Rattle.loader.specs.InnerContracts.")
            if path.endswith("specs/Lib.antt"):
                new = new.replace("pub mod Contracts\n", "pub mod InnerContracts\n")
            if new != text:
                with open(path, "w", encoding="utf-8") as f:
                    f.write(new)


def clashes(table):
    """Where a file would have one spelling for two things."""
    for path in files(["crates"], (".antt", ".rt")):
        text = read(path)
        if path.endswith(".rt"):
            spans = [m[0] for m in GHOST_USE.finditer(text)]
            code = re.sub(r"//[^\n]*", " ", text)
            words = set(WORD.findall(" ".join(spans)))
            parameters = set(re.findall(r"(\w+): ", code))
            for w in words:
                if w in table and (table[w] in words or table[w] in parameters):
                    print(f"clash: {path}: {w} -> {table[w]}")
            continue
        code = QUIET.sub(" ", text)
        free = {m[0] for m in WORD.finditer(code) if code[m.start() - 1 : m.start()] != "."}
        new = collections.defaultdict(set)
        for w in free:
            new[table.get(w, w)].add(w)
        for w, olds in new.items():
            if len(olds) > 1:
                print(f"clash: {path}: {sorted(olds)} -> {w}")


def main():
    check = "--check" in sys.argv[1:]
    table = table_of(declared())
    if check:
        clashes(table)
        print(len(table), "names")
        for old in sorted(table):
            if table[old].endswith("_lem"):
                print("lemma:", old, "->", table[old])
        return
    move_contracts()
    older = {}
    with tempfile.TemporaryDirectory() as folder:
        tree = subprocess.run(["git", "archive", "HEAD", "crates"], check=True, capture_output=True).stdout
        subprocess.run(["tar", "-x", "-C", folder], input=tree, check=True)
        now = declared()
        for name in declared(folder):
            turned = name if name in now else snake(name)
            older[name] = table.get(turned, turned)
    turner = Turner(table)
    for path in files(["crates"], (".antt", ".rt")):
        text = read(path)
        new = turner.antt(text, path) if path.endswith(".antt") else turner.rt(text, path)
        if new != text:
            with open(path, "w", encoding="utf-8") as f:
                f.write(new)
    turner = Turner({old: new for old, new in older.items() if old != new})
    for path in files(["README.md", "docs", "tools"], ".md"):
        text = read(path)
        new = turner.md(text, path)
        if new != text:
            with open(path, "w", encoding="utf-8") as f:
                f.write(new)


if __name__ == "__main__":
    main()
