# Checks of crates on a copy of a tree, as the crates stand or with must-fail edits made, and the logs
# that are kept of them below target/. A log's first line is a sum of all that the check read, so that
# it is told whether the log is of the files as they are now.
import hashlib
import re
import shutil
import subprocess
import tempfile
from functools import lru_cache
from pathlib import Path

from edit import listed, texts_of


@lru_cache
def kit():
    """The line that names the prover's kit."""
    done = subprocess.run(["rt", "version"], capture_output=True, text=True)
    return done.stdout.strip()


def below(tree, crate):
    """The crates that a crate uses, and those that these use."""
    uses, found = listed(tree), set()
    left = list(uses.get(crate, []))
    while left:
        one = left.pop()
        if one in uses and one not in found:
            found.add(one)
            left += uses[one]
    return sorted(found)


@lru_cache
def texts(home):
    return sorted(texts_of(home).items())


def files_of(tree, crate):
    return dict(texts(tree / "crates" / crate))


def sum_of(tree, crate, files):
    """A sum of what a check of a crate with these files reads."""
    under = [(one, texts(tree / "crates" / one)) for one in below(tree, crate)]
    read = (kit(), listed(tree).get(crate), under, sorted(files.items()))
    return hashlib.sha256(repr(read).encode()).hexdigest()


def is_of(log, sum):
    """Whether a log is of a check that read what has this sum."""
    return log.read_text().split("\n", 1)[0] == f"sum={sum}"


def keep(log, sum, said):
    log.parent.mkdir(parents=True, exist_ok=True)
    log.write_text(f"sum={sum}\n{said}")


def own(crate, said):
    """What a check says of the crate itself, past the libraries that it built first; nothing if it went no further."""
    ends = [m.end() for m in re.finditer(r"^logic=.*\n", said, re.M)]
    last = said[ends[-2] :] if len(ends) > 1 else said
    return last if re.search(rf"^crate {crate}: ", last, re.M) or not ends else ""


class Room:
    """A copy of a tree's crates, to check one of them with other files than it has."""

    def __init__(self, tree):
        self.tree, self.held = tree, tempfile.TemporaryDirectory(prefix="refile-room-")
        self.folder = Path(self.held.name)
        for name in ("crates.txt", "HANDLES"):
            if (tree / name).is_file():
                shutil.copy(tree / name, self.folder)
        for crate in listed(tree):
            for part in ("src", "specs", "proofs"):
                if (tree / "crates" / crate / part).is_dir():
                    shutil.copytree(tree / "crates" / crate / part, self.folder / "crates" / crate / part)

    def write(self, crate, files):
        home = self.folder / "crates" / crate
        now = texts_of(home)
        for name in now.keys() - files.keys():
            (home / name).unlink()
        for name in [n for n in files if now.get(n) != files[n]]:
            (home / name).parent.mkdir(parents=True, exist_ok=True)
            (home / name).write_text(files[name])

    def check(self, crate, files):
        """What the prover says of a crate with these files; the copy is then as the tree again."""
        self.write(crate, files)
        words = ["rt", "check", "--jobs", "1"]
        done = subprocess.run(
            words, cwd=self.folder / "crates" / crate, stdout=subprocess.PIPE, stderr=subprocess.STDOUT, text=True, errors="replace"
        )
        self.write(crate, files_of(self.tree, crate))
        return own(crate, done.stdout) or done.stdout

    def close(self):
        self.held.cleanup()
