#!/usr/bin/env python3
"""Spells the repository's own definitions and lemmas in snake case, once.

usage: tools/respell.py [--dry] [ROOT]     in a tree on which /opt/rattle/port/port.py has run

Names are those that files of specs/ and lemma files of proofs/ declare: definitions, lemmas, fields and constructors
that begin in lower case. Two definitions' names stay joined by a dash, as in `length-head_bytes`. Where two names
would fall together, the lemma gets `_lem`. Names of types, modules, functions of src/, files and edits stay.
"""
import glob
import os
import re
import sys

DRY = "--dry" in sys.argv
ROOTS = [a for a in sys.argv[1:] if not a.startswith("--")]
ROOT = ROOTS[0] if ROOTS else os.path.join(os.path.dirname(os.path.abspath(__file__)), "..")
CRATES = [l.split(":")[0].split()[0] for l in open(os.path.join(ROOT, "crates.txt")) if l.strip() and not l.startswith("#")]
TOKEN = re.compile(r"[^\s(){}.,;\[\]\"«»`⟨⟩|]+")
# names that would fall together in the table, but stand in no scope together; a fact, which is a type; and fields that
# stand beside the definition of their name
APART = {
    "bothWays": "both_ways",
    "takeIn": "take_in",
    "joinedWith": "JoinedWith",
    "documents-most": "documents_at_most",
    "revisions-most": "revisions_at_most",
    "seq-most": "seq_at_most",
    "id-most": "id_at_most",
}
JOINED = {"length", "drop", "take", "map", "sum", "reverse", "replicate", "append", "get_or", "splice", "part", "min", "max"}


def files(kinds):
    for c in CRATES:
        for k in kinds:
            yield from sorted(glob.glob(os.path.join(ROOT, "crates", c, k), recursive=True))


def code(line):
    """A line without its comment."""
    return re.sub(r"(^|\s)--.*", "", line)


def declared():
    """name -> whether a definition of specs/ (or a field, or a constructor) has it."""
    own = {}
    for p in files(["specs/**/*.antt", "proofs/*.antt"]):
        spec = "/specs/" in p
        block = None
        for line in open(p, encoding="utf-8"):
            line = code(line.rstrip("\n"))
            if re.match(r"(pub )?(mod|use) ", line) or line.startswith("unfolding"):
                continue
            m = re.match(r"(?:(?:abbrev|unfoldable|pub|ruleset)\s+)*(record|data)?\s*(\S+)", line)
            if m and not line.startswith(" ") and (m.group(1) or re.match(r"(?:(?:abbrev|unfoldable|pub|ruleset)\s+)*[^\s(){}]+(\s+:(\s|$)|\s*=)", line)):
                block = m.group(1)
                name = m.group(2)
                if name not in ("where", ":", "="):
                    own[name] = own.get(name, False) or spec
                continue
            m = re.match(r"\s+(?:constructor\s+)?(?:(?:abbrev|unfoldable|pub)\s+)*([^\s(){}:]+)\s+:(\s|$)", line)
            if m:
                own[m.group(1)] = own.get(m.group(1), False) or (spec and block is not None)
    return own


def foreign():
    """Names that files take from libraries, which stay."""
    names = set()
    for p in files(["specs/**/*.antt", "proofs/**/*.antt", "src/**/*.rt"]):
        for m in re.finditer(r"^(?:ghost )?use ([\w·.◌]+)\.\{([^}]*)\}", open(p, encoding="utf-8").read(), re.M):
            if m.group(1).startswith(tuple(f"Rattle.{c}." for c in CRATES)):
                continue
            for n in re.split(r",\s*", m.group(2)):
                names |= set(n.split(" as ")[:1])
    return names


def snake(name):
    return re.sub(r"(?<=[a-z0-9'₀-₉])([A-Z])", lambda m: "_" + m.group(1).lower(), name.replace("-", "_"))


def turned(name, own):
    """The new spelling of one name."""
    parts = name.split("-")
    if name[0].isupper():
        if len(parts) == 1:
            return name
        return parts[0] + "-" + snake("_".join(parts[1:]))
    words = {snake(n) for n, spec in own.items() if spec and n[0].islower()} | JOINED
    if len(parts) > 1 and parts[0] in JOINED and snake("-".join(parts[1:])) in words:
        return parts[0] + "-" + snake("-".join(parts[1:]))
    return snake(name)


def table():
    own, kept = declared(), foreign()
    names = {n: s for n, s in own.items() if re.match(r"[A-Za-z]", n) and "◌" not in n and n not in kept}
    out = {}
    for n in sorted(names):
        t = turned(n, names)
        if t != n:
            out[n] = t
    # a lemma that has a definition's name by now makes room for it
    wanted = {out[n] for n in out if names[n]}
    moved = {n: n + "_lem" for n in names if n not in out and n in wanted and not names[n]}
    taken = {n for n in names if n not in out and n not in moved} | set(moved.values()) | kept
    seen = {}
    for n in sorted(out, key=lambda n: (not names[n], "-" in n, n)):
        t = APART.get(n, out[n])
        while n not in APART and (t in taken or t in seen):
            t += "_lem" if not t.endswith("_lem") else "'"
        seen[t] = n
        out[n] = t
    return out, names, moved


# the code of a line, and the comment after it
PARTS = {
    ".antt": re.compile(r"()(.*?)((?:^|(?<=\s))--.*)?\n?\Z"),
    ".rt": re.compile(r"()((?:[^\"/\n]|\"(?:[^\"\\\n]|\\.)*\"|/(?!/))*)(//.*)?\n?\Z"),
    ".edit": re.compile(r"(file:.*|# name:.*)?([^#\n].*)?(#.*)?\n?\Z"),
}


def turned_text(text, path, new, moved={}):
    """The code of a file, and of its comments the spans of code and the facts that an edit fails by: the words and
    quotations of a comment stay."""
    parts, out = PARTS[os.path.splitext(path)[1]], []
    for line in text.splitlines(keepends=True):
        kept, code, comment = (g or "" for g in parts.match(line).groups())
        if path.endswith(".rt"):
            code = re.sub(r'"(?:[^"\\\n]|\\.)*"|[^"]+', lambda m: m.group(0) if m.group(0)[0] == '"' else respelled(m.group(0), new), code)
        else:
            code = respelled(code, new, moved)
        if comment.startswith("# fails:"):
            comment = respelled(comment, new)
        else:
            comment = re.sub(r"`[^`\n]+`", lambda s: respelled(s.group(0), new), comment)
        out.append(kept + code + comment + line[len(line.rstrip("\n")) :])
    return "".join(out)


def respelled(text, new, moved={}):
    def one(m):
        if m.group(0) in moved and not (m.start() and text[m.start() - 1] == "."):
            return moved[m.group(0)]
        return new.get(m.group(0), m.group(0))

    return TOKEN.sub(one, text)


def homes(moved):
    """name -> the lemma files that declare it."""
    out = {}
    for p in files(["proofs/*.antt"]):
        for m in re.finditer(r"^\s*(?:pub )?(\S+) :(?:\s|$)", open(p, encoding="utf-8").read(), re.M):
            if m.group(1) in moved:
                out.setdefault(m.group(1), []).append(p)
    return out


def moved_in(p, text, moved, home):
    """Which of the moved lemmas a file speaks of: those that it declares, or imports from a file that does."""
    here = {}
    for n, where in home.items():
        mods = {"Rattle." + os.path.relpath(w, os.path.join(ROOT, "crates"))[:-5].replace("/", ".") for w in where}
        if p in where or any(m.group(1) in mods and n in re.split(r",\s*", m.group(2)) for m in re.finditer(r"^use ([\w.]+)\.\{([^}]*)\}", text, re.M)):
            here[n] = moved[n]
    return here


def in_spans(text, new):
    """A page: in code spans and code blocks alone, and whole identifiers of camel case anywhere."""
    camel = {k: v for k, v in new.items() if "-" not in k}
    text = TOKEN.sub(lambda m: camel.get(m.group(0), m.group(0)), text)
    return re.sub(r"`[^`\n]+`", lambda m: respelled(m.group(0), new), text)


def main():
    new, names, moved = table()
    home = homes(moved)
    changed = 0
    for p in files(["specs/**/*.antt", "proofs/**/*.antt", "src/**/*.rt", "must-fail/*.edit"]):
        old = open(p, encoding="utf-8").read()
        if p.endswith(".antt"):
            text = turned_text(old, p, new, moved_in(p, old, moved, home))
        else:
            text = turned_text(old, p, new)
        before = set(TOKEN.findall(old))
        for a in sorted(before & new.keys()):
            if new[a] in before:
                print(f"look: {os.path.relpath(p, ROOT)}: {a} -> {new[a]}, which stands there already")
        if p.endswith(".rt"):
            for m in re.finditer(r"\bfn \w+[^(]*\(([^)]*)\)([^{]*\{[^}]*\})*", text):
                params = set(re.findall(r"(\w+):", m.group(1)))
                for w in sorted(params & set(new.values())):
                    print(f"look: {os.path.relpath(p, ROOT)}: a parameter is called {w}")
        if text != old:
            changed += 1
            if not DRY:
                open(p, "w", encoding="utf-8").write(text)
    print(f"respell: {len(new)} names, {changed} files")
    if DRY:
        for a, b in sorted((new | moved).items()):
            print(f"  {a} -> {b}")


if __name__ == "__main__":
    main()
