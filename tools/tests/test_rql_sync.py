"""Tests of `rql sync`, with real environments, the system's pip and an index of the tests' own."""

import base64
import os
import re
import resource
import shutil
import signal
import subprocess
import sys
import time
import unittest

from support import venvs
from support.made.journals import lock_text
from support.made.served_index import MadeIndex, sdist_of, wheel_of
from support.rql_projects import Served
from support.synced import PYTHON, Synced, locked_entry, variables
from support.venvs import site_of

PROJECT = """
[build-system]
requires = []
build-backend = "backend"
backend-path = ["."]
"""
# A build backend that needs nothing: a project of one module.
BACKEND = '''
import pathlib, zipfile

def write(folder, name, text):
    path = pathlib.Path(folder) / f"{name}-1.0-py3-none-any.whl"
    head = f"{name}-1.0.dist-info"
    with zipfile.ZipFile(path, "w") as file:
        file.writestr(*text)
        file.writestr(f"{head}/METADATA", f"Metadata-Version: 2.1\\nName: {name}\\nVersion: 1.0\\n")
        file.writestr(f"{head}/WHEEL", "Wheel-Version: 1.0\\nRoot-Is-Purelib: true\\nTag: py3-none-any\\n")
        file.writestr(f"{head}/RECORD", "")
    return path.name

def build_wheel(folder, settings=None, metadata=None):
    return write(folder, "NAME", ("NAME.py", ""))

def build_editable(folder, settings=None, metadata=None):
    return write(folder, "NAME", ("NAME.pth", str(pathlib.Path.cwd()) + "\\n"))
'''


def checkout(folder, name):
    """A project that pip can install from its folder."""
    folder.mkdir()
    (folder / "pyproject.toml").write_text(PROJECT, encoding="utf-8")
    (folder / "backend.py").write_text(BACKEND.replace("NAME", name), encoding="utf-8")
    (folder / f"{name}.py").write_text("", encoding="utf-8")
    return folder


def spent():
    """The seconds that calls took of a processor until now."""
    used = resource.getrusage(resource.RUSAGE_CHILDREN)
    return used.ru_utime + used.ru_stime


class Exactly(Synced):
    def test_installs_what_is_locked_and_then_takes_out_the_rest(self):
        self.put("left", "1")
        self.lock({"a": "1", "b": "1"})
        self.syncs("+ a 1", "+ b 1", "- left 1")
        self.assertEqual(self.installed(), {"a": "1", "b": "1"})
        with self.subTest("twice is nothing to do, asks nobody, and takes no more than 0.3 s of a quiet processor"):
            self.index.counts()
            begin = spent()
            self.syncs("nothing to do", python=PYTHON)
            self.assertLess(spent() - begin, 3 * 0.3)  # (others may be at work here)
            self.assertEqual(self.index.counts(), {})
        with self.subTest("another lock"):
            self.lock({"a": "2"})
            self.syncs("a 1 -> 2", "- b 1")
            self.assertEqual(self.installed(), {"a": "2"})

    def test_dry_run_lists_and_changes_nothing(self):
        self.put("left", "1")
        self.lock({"a": "1"})
        self.syncs("+ a 1", "- left 1", is_dry=True)
        self.assertEqual(self.installed(), {"left": "1"})
        self.assertEqual(self.index.counts(), {})

    def test_dependencies_are_not_followed(self):
        self.lock({"b": "2"})
        self.syncs("+ b 2")
        self.assertEqual(self.installed(), {"b": "2"})

    def test_a_file_of_other_bytes_is_not_installed(self):
        self.lock({"a": "1", "b": "1"})
        self.index.files[self.files["a", "1"].name] = wheel_of("a", "1", "evil")
        self.put("left", "1")
        status, _, errors = self.call()
        self.assertEqual(status, 6)
        self.assertRegex("\n".join(errors), "(?s)DO NOT MATCH THE HASHES.*pip ended with status 1: 0 of 2 packages are as locked")
        self.assertEqual(self.installed(), {"left": "1"})

    def test_what_pip_is_told_elsewhere_changes_nothing_of_it(self):
        self.lock({"a": "1"})
        target = self.project / "elsewhere"
        (self.project / "pip.conf").write_text(f"[install]\ntarget = {target}\nno-binary = :all:\nuser = true\n", encoding="utf-8")
        (self.project / "pip.py").write_text("raise SystemExit('a pip of the folder')\n", encoding="utf-8")
        more = {"PIP_CONFIG_FILE": str(self.project / "pip.conf"), "PIP_TARGET": str(target), "PYTHONPATH": str(self.project)}
        self.syncs("+ a 1", more=more)
        self.assertEqual(self.installed(), {"a": "1"})
        self.assertFalse(target.exists())

    def test_the_way_to_the_index_stays_as_pip_is_told(self):
        proxy = MadeIndex()
        self.addCleanup(proxy.close)
        name = self.files["a", "1"].name
        proxy.add("a", self.files["a", "1"])
        entry = locked_entry(self.index, "a", "1", self.files["a", "1"])
        entry["wheels"][0]["url"] = f"http://files.example/files/{name}"
        self.write_locks({"": (self.told, lock_text(self.told, {"a": entry}))})
        address = f"http://127.0.0.1:{proxy.server.server_port}"
        (self.project / "pip.conf").write_text(f"[global]\nproxy = {address}\n", encoding="utf-8")
        proxy.instead[f"http://files.example/files/{name}"] = [lambda to: to.give_file(proxy, name)]
        self.syncs("+ a 1", more={"PIP_CONFIG_FILE": str(self.project / "pip.conf")})


class Stays(Synced):
    def test_a_checkout_stays_editable_or_not(self):
        self.pip("install", "--no-index", "--editable", str(checkout(self.project / "mine", "mine")))
        self.pip("install", "--no-index", str(checkout(self.project / "other", "other")))
        self.lock({"a": "1"})
        mine, other = (f"{name} 1.0 stays: it comes from {(self.project / name).as_uri()}; --exact takes it out" for name in ("mine", "other"))
        self.syncs("+ a 1", told=[mine, other])
        self.assertEqual(self.installed(), {"a": "1", "mine": "1.0", "other": "1.0"})
        with self.subTest("exact"):
            self.syncs("- mine 1.0", "- other 1.0", is_exact=True)
            self.assertEqual(self.installed(), {"a": "1"})
            self.assertTrue((self.project / "mine" / "mine.py").exists())

    def test_a_checkout_of_a_locked_name_gives_way(self):
        self.pip("install", "--no-index", "--editable", str(checkout(self.project / "a", "a")))
        self.lock({"a": "1"})
        self.syncs(f"a 1.0 of {(self.project / 'a').as_uri()} -> 1 as locked")
        self.syncs("nothing to do")

    def test_a_checkout_that_an_older_setuptools_linked_stays(self):
        place = self.project / "old"
        (site_of(self.venv) / "old.egg-link").write_text(f"{place}\n.", encoding="utf-8")
        self.lock({})
        self.syncs("nothing to do", told=[f"old stays: it comes from file://{place}; --exact takes it out"])

    def test_what_a_checkout_of_git_gave_stays_and_what_an_archive_gave_goes(self):
        vcs = {"url": "https://git.example/c.git", "vcs_info": {"vcs": "git", "commit_id": "0" * 40}}
        self.put("c", "1", origin=vcs)
        self.put("d", "1", origin={"url": "https://files.example/d.zip", "archive_info": {}})
        self.lock({})
        self.syncs("- d 1", told=["c 1 stays: it comes from https://git.example/c.git; --exact takes it out"])

    def test_pip_and_setuptools_stay_and_locked_ones_are_as_locked(self):
        self.files["setuptools", "99"] = wheel_of("setuptools", "99")
        self.index.add("setuptools", self.files["setuptools", "99"])
        self.put("setuptools", "60")
        self.put("wheel", "0.1")
        self.lock({})
        self.syncs("nothing to do")
        self.lock({"setuptools": "99"})
        self.syncs("setuptools 60 -> 99")
        self.assertEqual(self.installed(), {"setuptools": "99", "wheel": "0.1"})

    def test_what_is_to_be_kept(self):
        for name in "left", "Other_One":
            self.put(name, "1")
        self.lock({})
        self.syncs("- left 1", told=["other-one 1 stays: --keep"], keep=["other.one"])
        self.refuses("^--keep 'x y': the name of a package is wanted$", keep=["x y"])

    def test_rql_and_what_it_needs_stay(self):
        self.put("reqlock", "0.2.0", requires=["packaging>=21", "rich[fast]; extra == 'index'"])
        self.put("packaging", "21")
        self.put("rich", "12", requires=["quick; extra == 'fast'", "slow; extra == 'full'"])
        for name in "quick", "slow", "left":
            self.put(name, "1")
        self.lock({"a": "1"})
        stays = ["packaging 21", "quick 1", "reqlock 0.2.0", "rich 12"]
        self.syncs("+ a 1", "- left 1", "- slow 1", told=[f"{distribution} stays: rql needs it" for distribution in stays])
        self.assertEqual(self.installed().keys(), {"a", "packaging", "quick", "reqlock", "rich"})


class Which(Synced):
    def other(self, name):
        place = self.project / name
        venvs.copy(self.template, place)
        return place

    def test_the_named_one_else_the_active_one_else_that_beside_the_settings(self):
        self.lock({"a": "1"})
        named, active = self.other("named"), self.other("active")
        self.syncs("+ a 1", venv=str(named), more={"VIRTUAL_ENV": str(active)})
        self.syncs("+ a 1", more={"VIRTUAL_ENV": str(active)})
        self.assertEqual(self.installed(), {})
        self.syncs("+ a 1")
        self.assertEqual([self.installed(venv) for venv in (named, active, self.venv)], [{"a": "1"}] * 3)

    def test_without_one_it_tells_how_one_is_made(self):
        self.lock({"a": "1"})
        shutil.rmtree(self.venv)
        status, _, errors = self.call()
        self.assertEqual(status, 2)
        self.assertEqual(errors, [f"{self.venv}: there is no environment, and none is active: python3 -m venv {self.venv} makes one"])

    def test_what_is_no_virtual_environment_is_left_alone(self):
        self.lock({"a": "1"})
        self.refuses("^/usr: it is no virtual environment", venv="/usr")
        self.refuses("/none: it is no virtual environment: python3 -m venv .*/none makes one$", venv=str(self.project / "none"))

    def test_a_copy_whose_python_is_elsewhere_is_refused(self):
        self.lock({"a": "1"})
        fake = self.project / "fake"
        (fake / "bin").mkdir(parents=True)
        (fake / "pyvenv.cfg").write_text("home = /usr/bin\n", encoding="utf-8")
        (fake / "bin" / "python").write_text(f"#!/bin/sh\nexec {self.venv}/bin/python \"$@\"\n", encoding="utf-8")
        (fake / "bin" / "python").chmod(0o755)
        self.refuses("/fake: its Python is that of .*/.venv: python3 -m venv --clear", venv=str(fake))

    def test_a_link_of_a_stranger_leads_to_no_other_environment(self):
        other = self.other("other")
        self.lock({"a": "1"})
        shutil.rmtree(self.venv)
        self.venv.symlink_to(other)
        self.refuses(f"{self.venv}: it is a link, which isn't followed: rql sync --venv {other} says that it is meant$")
        self.venv.unlink()
        venvs.copy(self.template, self.venv)
        for place in site_of(self.venv), self.venv / "bin":
            place.rename(place.with_name("moved"))
            place.symlink_to(place.with_name("moved"))
            self.syncs("+ a 1", is_dry=True)
            place.unlink()
            place.symlink_to(site_of(other) if place.name != "bin" else other / "bin")
            with self.subTest(place=place.name):
                status, output, errors = self.call()
                self.assertEqual((status, output), (2, []))
                self.assertRegex(errors[0], f"^{self.venv}: a link leads from it to {other}/")
            place.unlink()
            place.with_name("moved").rename(place)
        self.assertEqual(self.installed(other), {})

    def test_the_one_in_which_rql_runs_is_meant_only_where_it_is_named(self):
        (site_of(self.venv) / "system.pth").write_text("/usr/lib/python3/dist-packages\n", encoding="utf-8")
        self.put("left", "1")
        self.lock({"a": "1"})
        python = str(self.venv / "bin" / "python")
        self.refuses(f"{self.venv}: rql itself runs in it: rql sync --venv {self.venv} says that it is meant", python=python)
        self.refuses("rql itself runs in it", python=python, more={"VIRTUAL_ENV": str(self.venv)})
        self.syncs("+ a 1", "- left 1", python=python, venv=str(self.venv))

    def test_one_without_pip_is_changed_by_the_pip_beside_rql(self):
        shutil.rmtree(self.venv)
        subprocess.run([PYTHON, "-m", "venv", "--without-pip", self.venv], check=True, env=variables())
        self.put("left", "1")
        self.lock({"a": "1"})
        self.syncs("+ a 1", "- left 1")
        self.assertEqual(self.installed(), {"a": "1"})


class Targets(Synced):
    def test_of_several_the_one_that_fits(self):
        windows = {**self.told, "sys_platform": "win32", "platform_machine": "AMD64"}
        entries = {"a": locked_entry(self.index, "a", "2", self.files["a", "2"])}
        self.lock({"a": "1"}, "linux", others={"windows": (windows, lock_text(windows, entries))})
        self.syncs("+ a 1")

    def test_a_kernel_and_a_patch_of_python_make_no_difference(self):
        others = {"python_full_version": f"{self.told['python_version']}.99", "platform_release": "1", "platform_version": "#1"}
        self.lock({"a": "1"}, environment={**self.told, **others})
        self.syncs("+ a 1")

    def test_none_is_told_with_what_differs(self):
        older, windows = {**self.told, "python_version": "3.7"}, {**self.told, "sys_platform": "win32"}
        self.lock({}, "old", older, others={"windows": (windows, lock_text(windows, {}))})
        version = re.escape(self.told["python_version"])
        self.refuses(
            rf"^no lock is for cpython {version} on linux \S+:\n  target old is for Python 3.7 and not {version}\n"
            rf"  target windows is for platform win32 and not linux\nrql env add NAME --python {version} --platform PLATFORM locks for it"
            rf" too, rql env set NAME --python {version} in the place of another Python, or "
        )
        self.lock({}, environment=older)
        self.refuses(rf"locks for it too, rql env set --python {version} in the place of another Python, or ")

    def test_of_two_that_fit_one_is_named(self):
        entries = {"a": locked_entry(self.index, "a", "2", self.files["a", "2"])}
        self.lock({"a": "1"}, "one", others={"two": (self.told, lock_text(self.told, entries))})
        self.refuses(r"^target one and target two are for cpython \S+ on linux \S+: rql sync --target one$")
        self.refuses("^--target three: one of one, two is wanted$", target="three")
        self.syncs("+ a 2", target="two")

    def test_without_a_journal_the_lock_tells_its_environment(self):
        self.lock({"a": "1"})
        (self.project / "reqlock.journal").unlink()
        self.syncs("+ a 1")
        older = {**self.told, "python_version": "3.7"}
        (self.project / "pylock.toml").write_bytes(lock_text(older, {}))
        self.refuses(r"pylock.toml is for Python 3.7 and not")

    def test_files_that_do_not_belong_together_are_refused(self):
        self.lock({"a": "1"})
        path = self.project / "pylock.toml"
        path.write_bytes(path.read_bytes() + b"\n")
        self.refuses("pylock.toml: it isn't the lock that was saved with the journal: rql check tells more, rql lock mends what git merged$")
        path.unlink()
        self.refuses("pylock.toml: it isn't there, and the journal has it")
        path.symlink_to("/etc/hostname")
        self.refuses("pylock.toml: it is a link, which isn't followed")

    def test_a_wheel_for_another_machine_alone_is_refused(self):
        self.files["a", "3"] = wheel_of("a", "3", tag="cp311-cp311-win_amd64")
        self.lock({"a": "3"})
        self.refuses("a 3: it has no sdist, and none of its wheels fits this environment: rql relock$")


class Network(Synced):
    def test_a_cut_leaves_what_was_there_and_the_next_call_goes_on(self):
        self.put("left", "1")
        self.lock({"a": "1"})
        self.syncs("+ a 1", "- left 1")
        self.put("left", "1")
        self.lock({"a": "2", "b": "1"})

        def cut(to):
            data = self.files["b", "1"].data
            to.send_response(200)
            to.send_header("Content-Length", str(len(data)))
            to.end_headers()
            to.wfile.write(data[:50])
            to.close_connection = True

        path = f"/files/{self.files['b', '1'].name}"
        self.index.instead[path] = [cut]
        status, output, errors = self.call()
        self.assertEqual((status, output), (6, ["a 1 -> 2", "+ b 1", "- left 1"]))
        self.assertEqual(errors[-1], self.told_left(0, 2))
        self.assertEqual(self.installed(), {"a": "1", "left": "1"})
        with self.subTest("the next call goes on"):
            del self.index.instead[path]
            self.syncs("a 1 -> 2", "+ b 1", "- left 1")
            self.assertEqual(self.installed(), {"a": "2", "b": "1"})

    def test_what_was_installed_before_a_failure_is_told(self):
        self.put("left", "1")
        team = wheel_of("team", "1")
        entry = locked_entry(self.index, "team", "1", team)
        entry["wheels"][0]["url"] = ""  # (so that it is a call of its own, which finds nothing)
        entries = {"a": locked_entry(self.index, "a", "1", self.files["a", "1"]), "team": entry}
        self.write_locks({"": (self.told, lock_text(self.told, entries))})
        status, _, errors = self.call()
        self.assertEqual((status, errors[-1]), (6, self.told_left(1, 2)))
        self.assertEqual(self.installed(), {"a": "1", "left": "1"})
        self.index.add("team", team)
        self.syncs("+ team 1", "- left 1")

    @staticmethod
    def told_left(count, total):
        return f"pip ended with status 1: {count} of {total} packages are as locked, and nothing is taken out; rql sync goes on"

    def test_offline_installs_nothing_and_takes_out(self):
        self.put("left", "1")
        self.lock({"a": "1"})
        self.refuses("^--offline: nothing is changed", status=6, is_offline=True)
        self.lock({})
        self.syncs("- left 1", is_offline=True)

    def test_an_index_is_asked_only_for_what_the_lock_has_no_links_to(self):
        team = MadeIndex()
        self.addCleanup(team.close)
        team.add("team-a", wheel_of("team-a", "1"))
        entry = locked_entry(self.index, "team-a", "1", wheel_of("team-a", "1"))
        entry["wheels"][0]["url"] = ""
        entries = {"a": locked_entry(self.index, "a", "1", self.files["a", "1"]), "team-a": entry}
        self.write_locks({"": (self.told, lock_text(self.told, entries))})
        self.syncs("+ a 1", "+ team-a 1", indexes=[[self.index.url, []], [team.url, ["team-*"]]])
        self.assertEqual({path for _, path in self.index.counts()}, {f"/files/{self.files['a', '1'].name}"})
        self.assertIn("/simple/team-a/", {path for _, path in team.counts()})

    def test_what_is_built_is_told(self):
        sdist = sdist_of("c", "1")
        entry = locked_entry(self.index, "c", "1", sdist)
        self.write_locks({"": (self.told, lock_text(self.told, {"c": entry}))})
        status, output, errors = self.call()
        self.assertEqual((status, output), (6, ["+ c 1"]))  # (its build needs setuptools, which the index hasn't)
        self.assertEqual(errors[0], "c 1: built here of what is locked; what the build itself needs, pip takes of the index, unlocked")


class Secrets(Synced):
    SECRET = 's3cr:t/"\\P W'

    def setUp(self):
        super().setUp()
        self.value = "Basic " + base64.b64encode(f"me:{self.SECRET}".encode()).decode()
        for file in list(self.index.files):
            self.index.instead[f"/files/{file}"] = [self.guarded]
        self.known = f"REQLOCK_INDEX_127_0_0_1_{self.index.server.server_port}"
        self.secret = {f"{self.known}_USERNAME": "me", f"{self.known}_PASSWORD": self.SECRET, "TMPDIR": str(self.project / "tmp")}
        (self.project / "tmp").mkdir()
        self.lock({"a": "1"})

    def guarded(self, to):
        """Lets only those with user and password read."""
        if to.headers.get("Authorization") != self.value:
            to.give(401, WWW_Authenticate="Basic realm=index")
        else:
            to.give_file(self.index, to.path.removeprefix("/files/"))

    def test_reach_pip_and_leave_nothing(self):
        self.assertEqual(self.call()[0], 6)
        self.syncs("+ a 1", more=self.secret)
        self.assertEqual(list((self.project / "tmp").iterdir()), [])

    def test_of_a_netrc_file_reach_pip(self):
        path = self.project / "netrc"
        path.write_text('machine 127.0.0.1 login me password "s3cr:t/\\"\\\\P W"\nmachine else.example login x password y\n', encoding="utf-8")
        path.chmod(0o600)
        self.syncs("+ a 1", more={"NETRC": str(path), "TMPDIR": str(self.project / "tmp")})

    def test_stand_in_a_file_that_is_its_users_alone_and_goes_with_a_signal(self):
        begun = []

        def wait(to):
            begun.append(1)
            time.sleep(2)
            self.guarded(to)

        self.index.instead[f"/files/{self.files['a', '1'].name}"] = [wait]
        with self.start(self.secret) as child:
            end = time.monotonic() + 30
            while not begun and time.monotonic() < end:
                time.sleep(0.02)
            netrcs = list((self.project / "tmp").glob("*/.netrc"))
            modes = [(os.stat(netrc).st_mode & 0o777, os.stat(netrc.parent).st_mode & 0o777) for netrc in netrcs]
            child.send_signal(signal.SIGTERM)
            child.communicate(timeout=60)
        self.assertEqual(modes, [(0o600, 0o700)])
        self.assertEqual(child.returncode, 128 + signal.SIGTERM)
        self.assertEqual(list((self.project / "tmp").glob("*/.netrc")), [])
        self.assertEqual(self.installed(), {})

    def test_of_keyring_reach_pip(self):
        program = self.project / "bin" / "keyring"
        program.parent.mkdir()
        program.write_text(f"#!/bin/sh\ncat <<'END'\nme\n{self.SECRET}\nEND\n", encoding="utf-8")
        program.chmod(0o755)
        self.syncs("+ a 1", more={"PATH": f"{program.parent}:{os.environ['PATH']}"})

    def test_ctrl_c_leaves_what_was_there(self):
        begun = []

        def wait(to):
            begun.append(1)
            time.sleep(3)
            self.guarded(to)

        self.put("left", "1")
        self.index.instead[f"/files/{self.files['a', '1'].name}"] = [wait]
        with self.start(self.secret) as child:
            end = time.monotonic() + 30
            while not begun and time.monotonic() < end:
                time.sleep(0.02)
            os.killpg(child.pid, signal.SIGINT)
            errors = child.communicate(timeout=60)[1]
        self.assertEqual(child.returncode, 130, errors)
        self.assertIn("0 of 1 packages are as locked, and nothing is taken out; rql sync goes on", errors)
        self.assertEqual(list((self.project / "tmp").iterdir()), [])
        self.assertEqual(self.installed(), {"left": "1"})

    def test_are_told_to_no_other_port_of_the_host(self):
        other = MadeIndex()
        self.addCleanup(other.close)
        other.add("a", self.files["a", "1"])
        entries = {"a": locked_entry(other, "a", "1", self.files["a", "1"])}
        self.write_locks({"": (self.told, lock_text(self.told, entries))})
        self.refuses(r"the password for 127.0.0.1 is for http://127.0.0.1:[0-9]+ alone$", more=self.secret)
        self.assertEqual(other.counts(), {})


class Calls(Served):
    """The word sync of rql, over what the built program locks."""

    def test_of_what_the_program_locked(self):
        self.serve(a=[wheel_of("a", "1"), wheel_of("a", "2")], b=[wheel_of("b", "1", "a<2")])
        self.put("requirements.txt", "b\n")
        self.put("reqlock.toml", f'index = ["{self.index.url}"]\n')
        self.accepts("init", answer="ok 0\n")
        self.assertIn(f"{self.folder}/.venv: there is no environment, and none is active: python3 -m venv", self.refuses("sync"))
        subprocess.run([sys.executable, "-m", "venv", "--without-pip", self.folder / ".venv"], check=True)
        self.accepts("sync", "--dry-run", answer="+ a 1\n+ b 1\n")
        told = self.accepts("-v", "sync", answer="+ a 1\n+ b 1\n")
        self.assertRegex(told, r"(?m)^\+ .* -m pip --python \S+ install --require-hashes --no-deps .*--no-index")
        shutil.rmtree(self.folder / ".reqlock")
        self.index.close()
        self.accepts("sync", answer="nothing to do\n")


if __name__ == "__main__":
    unittest.main()
