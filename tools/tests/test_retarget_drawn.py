"""The program in drawn sessions in which targets come, go and get other environments between edits, where it must answer what the rules of
locks, edits and histories do."""

import unittest

from support.drawn_sessions import DrawnSessions
from support.made.releases import index_of
from support.places import IS_LONG
from support.rules.edits import History, Refused, begun, status_of
from support.rules.journals import file_name
from support.rules.pins import retargeted

SESSIONS = 400 if IS_LONG else 40
COMMANDS = 8
NAMES = "abcde"
MARKERS = "", "", "<3", '; os_name=="nt"', '; python_version<"3.11"'
EDITS = ("add", "c"), ("add", "d<3"), ("remove", "b"), ("constrain", "a", "<3"), ("constrain", "a"), ("upgrade",), ("upgrade", "c"), ("undo",), ("undo",), ("redo",)
# what some session must have come to
SEEN = {
    "ok", "same", "no-solution", "nothing-to-undo", "nothing-to-redo", "a target comes", "a target goes", "another environment",
    "none of the old targets", "a pin that counts", "versions of the others that count", "kept alone", "targets come back",
}


class Sessions(DrawnSessions):
    """Each session retargets a drawn state, with pins that are drawn, among edits, undos and redos."""

    def test_of_drawn_targets(self):
        self.play_all(self.drawn_targets, SEEN, SESSIONS)

    def play(self, draw):
        self.put({"requirements.txt": b"a\nb\n"})
        self.take_index(self.drawn_index(draw))
        self.assertEqual(self.call("init"), (0, "ok 0\n"))
        history = History(begun(["a\n", "b\n"], self.environments, self.index))
        for _ in range(COMMANDS):
            if draw.happens(30):
                self.take_index(self.drawn_index(draw))
            if draw.happens(50):
                self.check_retarget(draw, history)
                continue
            old, command = history.state(), draw.one(EDITS)
            self.check_command(history, command)
            self.seen["targets come back"] += command == ("undo",) and old.targets.keys() != history.state().targets.keys()

    @staticmethod
    def drawn_index(draw):
        """Some releases of each name, some of which need other names, on one system or on each."""
        releases = []
        for place, name in enumerate(NAMES):
            for version in "123":
                if draw.happens(80) or version == "2":
                    needs = [f"{other}{draw.one(MARKERS)}" for other in NAMES[place + 1 :] if draw.happens(30)]
                    releases.append((name, version, needs))
        return index_of(*releases)

    def count(self, old, new, command):
        """What sessions of other kinds come to isn't counted."""

    def check_files(self, history):
        """The folder has the locks of the present targets, and no others."""
        self.environments = {name: target.environment for name, target in history.state().targets.items()}
        super().check_files(history)

    def drawn_pins(self, draw, environments):
        """Files of pins, each its target, its name and its bytes, and the options that hand them in. One may be a lock."""
        files = []
        for place in range(draw.one((0, 0, 1, 2))):
            target = draw.one(["", *environments])
            if draw.happens(40):
                name, data = f"{place}.toml", (self.folder / file_name(draw.one(list(self.environments)))).read_bytes()
            else:
                pins = [f"{name}=={draw.one('123')}" for name in NAMES if draw.happens(60)]
                name, data = f"{place}.txt", "\n".join(pins).encode()
            (self.outside / name).write_bytes(data)
            files.append((target, name, data))
        return files, [word for target, name, _ in files for word in ("--pins", f"{target}={self.outside / name}")]

    def check_retarget(self, draw, history):
        """A retarget is answered as the rules do, and where it isn't accepted the files stay."""
        old, before, present = history.state(), self.files(), self.environments
        environments = dict(present) if draw.happens(15) else self.drawn_targets(draw, draw.one(range(3)))
        if draw.happens(40):
            environments = dict(sorted({**dict(list(present.items())[:1]), **environments}.items()))
        files, options = self.drawn_pins(draw, environments)
        keep = ["--keep-locked"] * draw.happens(20)
        reply = self.reply_of(history, environments, files, bool(keep))
        self.seen[reply.removeprefix("refused ").split()[0]] += 1
        self.lock_for(environments)
        self.assertEqual(self.told("retarget", *keep, *options), (status_of(reply), f"{reply}\n", ""), (environments, files))
        self.environments = present
        if reply.startswith("ok"):
            self.check_files(history)
            self.count_targets(old.targets, history.state().targets)
        else:
            self.assertEqual(self.files(), before)

    def count_targets(self, old, new):
        self.seen["a target comes"] += bool(new.keys() - old.keys())
        self.seen["a target goes"] += bool(old.keys() - new.keys())
        self.seen["none of the old targets"] += not old.keys() & new.keys()
        self.seen["another environment"] += any(old[name].environment != new[name].environment for name in old.keys() & new.keys())

    def reply_of(self, history, environments, files, only_kept):
        old = history.state()
        try:
            state = retargeted(old, environments, files, self.index, only_kept)
        except Refused as refused:
            return f"refused {refused.word}"
        self.seen["kept alone"] += only_kept
        self.seen["a pin that counts"] += bool(files) and not only_kept and state != retargeted(old, environments, [], self.index)
        fresh = old._replace(targets={name: target for name, target in old.targets.items() if name in environments})
        self.seen["versions of the others that count"] += not files and not only_kept and state != retargeted(fresh, environments, [], self.index)
        if state == old:
            return "same"
        history.states[history.cursor + 1 :] = [state]
        return history.move(1, "")


if __name__ == "__main__":
    unittest.main()
