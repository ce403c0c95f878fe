"""The sources of a program, and whether the built program is theirs. Used by tools/launch, tools/build and tools/recompile."""
import hashlib
import os
import time

TOP = os.path.dirname(os.path.dirname(os.path.abspath(__file__)))
# The programs, by their crates, and the name by which each is run.
PROGRAMS = {"rproc": "rproc", "rproc_chart": "rproc-chart", "rproc_dump": "rproc-dump", "rproc_lint": "rproc-lint"}
# What a check of a crate reads of it.
PARTS = ("src", "specs", "proofs")


class Sources:
    """The crates that a program stands on, and the sum of their files."""

    def __init__(self, program):
        self.program = program
        self.out = f"{TOP}/crates/{program}/out"
        self.built, self.stamp = f"{self.out}/{program}", f"{self.out}/{program}.sources"
        self.lines = {}
        with open(f"{TOP}/crates.txt") as file:
            for line in file:
                name, _, uses = line.split("#")[0].partition(":")
                if name.strip():
                    self.lines[name.split()[0]] = uses.split()
        # Those below the program, lowest first.
        self.names = self.below(program)

    def below(self, name):
        """The crates of the repository that a crate uses, and those that they use, lowest first."""
        found = []
        for it in self.lines[name]:
            if it in self.lines:
                found += [at for at in [*self.below(it), it] if at not in found]
        return found

    def files(self, name):
        """The folders and files that a check of the crate reads."""
        for part in PARTS:
            for at, folders, files in os.walk(f"{TOP}/crates/{name}/{part}"):
                folders.sort()
                yield at
                yield from (f"{at}/{it}" for it in sorted(files))

    def size(self, name):
        """How many bytes a check of the crate reads."""
        return sum(os.path.getsize(it) for it in self.files(name) if os.path.isfile(it))

    def sum(self):
        """A sum over the names and bytes of all sources, whatever the clock says of them."""
        total = hashlib.sha256(repr(sorted((it, self.lines[it]) for it in [*self.names, self.program])).encode())
        for name in [*self.names, self.program]:
            for path in self.files(name):
                if os.path.isfile(path):
                    with open(path, "rb") as file:
                        content = file.read()
                    total.update(repr((os.path.relpath(path, TOP), len(content))).encode())
                    total.update(content)
        return total.hexdigest()

    def changed_since(self, moment):
        """Whether a source was written after a moment of the clock, in nanoseconds."""
        paths = (path for name in [*self.names, self.program] for path in self.files(name))
        return any(os.lstat(it).st_mtime_ns > moment for it in [f"{TOP}/crates.txt", f"{TOP}/HANDLES", *paths])

    def is_built(self):
        """Whether the built program is that of these sources. Where only the clock says otherwise, the stamp is made new."""
        try:
            with open(self.stamp) as file:
                stamp = file.read().strip()
            began = os.stat(self.stamp).st_mtime_ns
        except OSError:
            return False
        if not os.access(self.built, os.X_OK):
            return False
        if not self.changed_since(began):
            return True
        began = time.time_ns()
        if stamp != self.sum():
            return False
        self.put_stamp(began, stamp)
        return True

    def take_over(self):
        """Takes over the program that a whole `rt ci` has left, if one began after the last change of the sources: it proves what it
        builds. It keeps a lock in .git from its start on, and no stamp of ours outlasts it."""
        try:
            began = os.stat(f"{TOP}/.git/rt-ci.lock").st_mtime_ns
            is_left = os.access(self.built, os.X_OK) and not os.path.exists(self.stamp) and os.stat(self.built).st_mtime_ns > began
            if not is_left or self.changed_since(began):
                return False
            self.put_stamp(began, self.sum())
        except OSError:
            return False
        return True

    def put_stamp(self, began, total):
        """Notes that the program is the one of the sources with this sum, which were not written since a moment of the clock."""
        with open(f"{self.stamp}.new", "w") as file:
            file.write(total + "\n")
        os.utime(f"{self.stamp}.new", ns=(began, began))
        os.replace(f"{self.stamp}.new", self.stamp)
