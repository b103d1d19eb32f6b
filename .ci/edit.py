# A must-fail edit, as a file under a crate's must-fail/ has it. Its first lines, which begin with `# `,
# are its own words:
#
#     # What it stands for, in one sentence or more.
#     # fails: proofs/plan/plan_path/Answers.antt, loop-k-preserved
#
# `fails:` names the fact that no longer holds: the file, and the theorem in it or the goal that it
# answers. A goal that no file answers is named by the source of its function, as
# `src/plan.rt, either.returns`. Where an edit breaks several facts that matter it has several such
# lines. `# misfit: why` says that the edit only makes a proof file unfit for the code. Then come the
# changes, as the prover's kit reads them.
#
# A file may hold several edits, each begun by a line `# name: LABEL`, which the prover then tries at
# once. Each of these alters the body of one function, no two the same, and names a fact of that
# function's own proof. Such a proof rests on the function's own code and on what its callees promise,
# so no other edit of the file can make it fail. Any other edit has a file of its own, named as it is.
import re
from pathlib import Path


class Edit:
    def __init__(self, path, label, lines):
        self.path, self.crate, self.label = path, path.parent.parent.name, label
        self.home, self.beside = path.parent.parent, [self]
        self.words, self.fails, self.misfit, self.changes, self.faults = [], [], "", [], []
        self.read(lines)
        self.stands = " ".join(self.words)
        if not self.stands.endswith("."):
            self.fault("its first lines do not say in a sentence what it stands for")
        if not self.fails:
            self.fault("it has no line `# fails: FILE, NAME`")
        if not self.changes:
            self.fault("it changes nothing")
        for file, name in self.fails:
            self.named(file, name)
        self.applied({f: (self.home / f).read_text() for f, _, _ in self.changes if (self.home / f).is_file()})

    def fault(self, what):
        self.faults.append(f"{self.path}: {self.label}: {what}")

    def read(self, lines):
        file = old = None
        for line in filter(None, lines):
            if m := re.fullmatch(r"# fails: (\S+), (\S+)", line):
                self.fails.append((m[1], m[2]))
            elif m := re.fullmatch(r"# misfit: (\S.*)", line):
                self.misfit = m[1]
            elif re.match(r"# (?![a-z]+:)\S", line) and not self.fails and file is None:
                self.words.append(line[2:].strip())
            elif m := re.fullmatch(r"file: ((?:src|specs)/\S+)", line):
                file = m[1]
            elif line.startswith("old: ") and file and old is None:
                old = line[5:]
            elif line.startswith("new:") and old:
                self.changes.append((file, old, line[4:].removeprefix(" ")))
                old = None
            else:
                self.fault(f"a line that is neither its words nor a change: {line}")
        if old is not None:
            self.fault("an `old:` without its `new:`")

    def named(self, file, name):
        """The fact stands where the edit says: a theorem, or a goal that a file answers or the prover alone."""
        place = self.home / file
        text = place.read_text() if place.is_file() else ""
        if file.startswith("proofs/"):
            is_there = re.search(rf"^ *(?:\w+ )*{re.escape(name)} :", text, re.M)
        else:
            is_there = file.startswith("src/") and re.search(rf"\bfn {re.escape(name.split('.')[0])}\b", text)
        if not is_there:
            self.fault(f"{file} has no {name}")

    def alters(self):
        """The functions in whose bodies it makes its changes; nothing for a change that stands in none."""
        found = set()
        for file, old, _ in self.changes:
            source = self.home / file
            text = source.read_text() if source.is_file() else ""
            at = text.find(old)
            inside = [f for f, start, end in bodies(text) if start <= at and at + len(old) <= end]
            found.add((file, inside[0] if file.startswith("src/") and inside else ""))
        return found

    def stands_apart(self):
        """That the fact which it names can fail by no other edit of its file."""
        altered = self.alters()
        if len(altered) != 1 or ("" in dict(altered).values()):
            return self.fault("it alters more than the body of one function, and needs a file of its own")
        file, function = altered.pop()
        if any((file, function) in e.alters() for e in self.beside if e is not self):
            self.fault(f"another edit of its file alters {function} as well")
        folder = "proofs/" + file[4:-3].replace("lib", "", 1 if file == "src/lib.rt" else 0)
        own = {f"{folder}/{cycle}{function}/Answers.antt".replace("//", "/") for cycle in ("", "+")}
        for place, name in self.fails:
            if place not in own and (place, name.split(".")[0]) != (file, function):
                self.fault(f"{name} in {place} is no fact of {function}'s own proof, and so it needs a file of its own")
        if self.misfit:
            self.fault("a misfit needs a file of its own")

    def edited(self, alone=False):
        """The crate's files as the edits of its file leave them, or this one alone, each with its text."""
        files = texts_of(self.home)
        for e in [self] if alone else self.beside:
            e.applied(files)
        return files

    def applied(self, files):
        """Makes its changes in these texts."""
        for file, old, new in self.changes:
            if files.get(file, "").count(old) != 1:
                self.fault(f"`{old}` does not stand once in {file}")
            files[file] = files.get(file, "").replace(old, new)


def texts_of(home):
    """The files of a crate that a check reads, each with its text."""
    found = [p for part in ("src", "specs", "proofs") for p in sorted((home / part).rglob("*")) if p.is_file()]
    return {str(p.relative_to(home)): p.read_text() for p in found}


def bodies(text):
    """Each function of a source, with where its body begins and ends."""
    for m in re.finditer(r'^(?:pub(?:\(crate\))? )?(?:extern "C" )?fn (\w+)', text, re.M):
        end = text.find("\n}\n", m.start())
        after = text.find("\n", m.start())
        # under a contract the opening brace has a line of its own
        start = after if text[after - 1] == "{" else text.find("\n{\n", m.start())
        yield m[1], start, end


def edits_in(path):
    """The edits of one file: one, or those that its lines `# name:` begin."""
    lines = path.read_text().splitlines()
    starts = [i for i, line in enumerate(lines) if re.fullmatch(r"# name: [a-z0-9-]+", line)]
    if not starts:
        return [Edit(path, path.stem, lines)]
    ends = [*starts[1:], len(lines)]
    found = [Edit(path, lines[a][8:], lines[a + 1 : b]) for a, b in zip(starts, ends)]
    if starts[0] != 0:
        found[0].fault("lines before the first `# name:`")
    for e in found:
        e.beside = found
        e.stands_apart()
    return found


def listed(tree):
    """The crates of a tree, lowest first, each with those that it names."""
    lines = re.findall(r"^(\w+)[^:#\n]*:(.*)", (tree / "crates.txt").read_text(), re.M)
    return {crate: deps.split("#")[0].split() for crate, deps in lines}


def edits(tree):
    """All edits of a tree, in the order of crates.txt."""
    files = [p for crate in listed(tree) for p in sorted((tree / "crates" / crate / "must-fail").glob("*"))]
    found = [e for p in files for e in edits_in(p)]
    for i, e in enumerate(found):
        if any(o.crate == e.crate and o.changes == e.changes for o in found[:i]):
            e.fault("another edit makes the same change")
        if any(o.crate == e.crate and o.label == e.label for o in found[:i]):
            e.fault("another edit of the crate has the same name")
    return found
