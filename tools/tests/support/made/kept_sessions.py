"""Indexes, requirements files and commands that are drawn from a seed, as those of sessions.py, in which edits often move what is locked:
the newer releases of early names need later names, in ranges, and a file begins with these."""

from support.made import sessions

RANGES = "<2", "<2", "<=1.5", "==1", ">=1.5", ">=2", "!=2", ""
OLD, NEW = ("0.9", "1"), ("1.5", "2", "2.1")
LATER = 3


class Draw(sessions.Draw):
    def release(self, name, version):
        release = super().release(name, version)
        if self.happens(80):
            for key in "yanked", "requires_python":
                release.pop(key, None)
            others = [other for other in self.names[-LATER:] if other > name]
            chance = 15 if name in self.names[-LATER:] else 60 if version in NEW else 0
            release["requires_dist"] = [other + self.one(RANGES) for other in others if self.happens(chance)]
        return release

    def releases(self, name, count):
        """More than one release of each name, mostly without pre-releases."""
        if self.happens(20):
            return super().releases(name, count)
        return [self.release(name, version) for version in self.random.sample(OLD + NEW, max(count, 2))]

    def line(self, names=()):
        return self.name(names) if self.happens(60) else super().line(names)

    def requirements(self):
        """The text of a requirements file, mostly of later names alone."""
        if self.happens(30):
            return super().requirements()
        return "".join(f"{name}\n" for name in self.names[-self.one((2, LATER)) :])

    def command(self, present, locked):
        """A command, often one that adds the least name that has no line."""
        new = sorted({*self.names} - {*present})
        return ("add", new[0]) if new and self.happens(40) else super().command(present, locked)
