#!/usr/bin/env python3
"""Tests of tools/progress, on a terminal: with a stand-in for rt that says what it is told to, and with rt itself on one small crate."""
import fcntl
import os
import pty
import re
import select
import shutil
import subprocess
import tempfile
import time
import unittest
from pathlib import Path

PROGRESS = Path(__file__).resolve().parent.parent / "tools" / "progress"

# Two libraries, a static library and a program, with an edit of each library; and what `rt` says of them, shortened.
CRATES = "# A comment.\none:\ntwo: one\ntwo_c staticlib: two\nprog: two std\n"
SAYS = """\
== one
fn one::one: proved
logic=proved functions=1 logic-built=trusted
rt: one proved
rt: one: trying its must-fail edits (1)
== two
fn two::two: proved
logic=proved functions=1 logic-built=trusted
rt: two proved
rt: two_c is kept: an earlier run on this machine proved the same files over the same libraries
== prog
fn prog::main: proved
logic=proved functions=1 axioms=3 logic-built=trusted
rt: prog proved
rt: must-fail one/wrong.edit: refused, as it must be: note: src/lib.rt:5:1: it is not proved that what the function ensures holds
rt: two: 1 of its 1 must-fail edits were tried by an earlier run on this machine, and nothing that they stand on has changed
rt: must-fail two/wrong.edit: refused, as it must be: note: src/lib.rt:5:1: it is not proved that what the function ensures holds
rt: prog ran, and wrote what its file stdout has
rt: prog ran (built by Rattle's own compiler), and wrote what its file stdout has
rt: ok; handles allowed: none; must-fail edits: 2 refused; every proof and must-fail edit was done in this run
6 passed, 0 failed
"""
ALL = """\
rt: chose 2 at a time
== one
== two
rt: chose --jobs 2 for two
fn two::two: proved
logic=proved functions=1 logic-built=trusted
== two_c
== prog
rt: nothing has changed since the last proved build, by out/prog.stamp, so nothing is checked now
rt: the program wrote what the file `stdout` has, and ended with status 0
== summary
one: ok
two: ok
two_c: ok
prog: ok
4 of 4 crates ok
"""
LIB = """\
only=0 proved=0
rt: chose --jobs 2 for two
fn two::two: proved
logic=proved functions=1 logic-built=trusted
rt: chose --jobs 2 for two_c
fn two_c::two_c: proved
logic=proved functions=1 logic-built=trusted
"""
ONE = """\
#![tactic(auto)]

ghost use Rattle.std.specs.Prelude.{◌≡◌};

pub fn one() -> u32
    ensures { result ≡ 1 }
{
    1
}
"""


class Terminal:
    """A command on a terminal, line by line."""

    def __init__(self, words, cwd, **env):
        ours, theirs = pty.openpty()
        self.run = subprocess.Popen([str(w) for w in words], cwd=cwd, stdin=theirs, stdout=theirs, stderr=theirs, env={**os.environ, **env})
        os.close(theirs)
        self.lines = os.fdopen(ours, "rb", 0)
        self.held = b""

    def line(self):
        """The next line, or None at the end."""
        while b"\n" not in self.held:
            try:
                more = self.lines.read(4096)
            except OSError:
                more = b""
            if not more:
                return None
            self.held += more
        line, _, self.held = self.held.partition(b"\n")
        return line.decode().rstrip("\r")

    def rest(self):
        lines = list(iter(self.line, None))
        self.lines.close()
        return lines, self.run.wait()


class Progress(unittest.TestCase):
    def setUp(self):
        self.dir = Path(tempfile.mkdtemp())
        self.addCleanup(shutil.rmtree, self.dir)
        (self.dir / "crates.txt").write_text(CRATES)
        for name, root in (("one", "lib"), ("two", "lib"), ("two_c", "lib"), ("prog", "main")):
            (self.dir / "crates" / name / "src").mkdir(parents=True)
            (self.dir / "crates" / name / "src" / f"{root}.rt").touch()
        for name in ("one", "two"):
            (self.dir / "crates" / name / "must-fail").mkdir()
            (self.dir / "crates" / name / "must-fail" / "wrong.edit").touch()
        (self.dir / "crates" / "prog" / "stdin").write_text("given")
        (self.dir / "crates" / "prog" / "stdout").write_text("2\n")
        self.says("cat says\n", SAYS)

    def says(self, script, text=SAYS):
        (self.dir / "says").write_text(text)
        (self.dir / "bin").mkdir(exist_ok=True)
        (self.dir / "bin" / "rt").write_text("#!/bin/sh\n" + script)
        (self.dir / "bin" / "rt").chmod(0o755)

    def path(self):
        return f"{self.dir / 'bin'}{os.pathsep}{os.environ['PATH']}"

    def progress(self, *words, **env):
        env.setdefault("PROGRESS", "")
        return Terminal([PROGRESS, *words], self.dir, PATH=self.path(), **env)

    def log(self, name="rt"):
        return (self.dir / "build" / "log" / f"{name}.log").read_text()

    def test_a_line_for_each_part_of_the_gate(self):
        lines, status = self.progress("rt", "ci").rest()
        self.assertEqual((status, lines), (0, [
            "[  7 left] one: proved (after 0 s)",
            "[  6 left] two: proved (after 0 s)",
            "[  5 left] two_c: proved by an earlier run on this machine",
            "[  4 left] prog: proved (after 0 s)",
            "[  3 left] must-fail one/wrong: refused",
            "[  2 left] must-fail two/wrong: refused",
            "[  1 left] prog: ran as it should",
            "[  0 left] prog: ran as it should (built by Rattle's own compiler)",
            "6 passed, 0 failed"]))
        self.assertEqual(self.log(), SAYS)

    def test_the_closing_count_can_be_held_back(self):
        lines, status = self.progress("rt", "--last", "last", "ci").rest()
        self.assertEqual((status, lines[-1]), (0, "[  0 left] prog: ran as it should (built by Rattle's own compiler)"))
        self.assertEqual((self.dir / "last").read_text(), "6 passed, 0 failed\n")

    def test_only_what_a_crate_needs_is_counted(self):
        self.says("[ $PWD = \"$DIR/crates/two_c\" ] && echo \"$@\" > $DIR/asked && cat $DIR/says\n", LIB)
        lines, status = self.progress("rt", "lib", "two_c", "--cpu=x86-64", DIR=str(self.dir)).rest()
        self.assertEqual((status, lines), (0, [
            "[  2 left] one: as it was when it was proved", "[  1 left] two: proved (0 s)", "[  0 left] two_c: proved (0 s)"]))
        self.assertEqual((self.dir / "asked").read_text(), "lib --cpu=x86-64\n")
        self.says("cat $DIR/says\nexit 1\n", LIB.replace("fn two_c::two_c: proved\nlogic=proved functions=1", "fn two_c::two_c: no proof\nlogic=not-proved"))
        lines, status = self.progress("rt", "lib", "two_c", DIR=str(self.dir)).rest()
        self.assertEqual((status, lines[2]), (1, "[  0 left] two_c: NOT PROVED (0 s)"))
        self.assertIn("    fn two_c::two_c: no proof", lines)

    def test_a_program_that_is_run(self):
        self.says("cat $DIR/says >&2\ncat > $DIR/asked\necho $NUMBER\n", LIB.split("rt: chose --jobs 2 for two_c")[0] + "rt: running out/prog\n")
        lines, status = self.progress("rt", "run", "prog", DIR=str(self.dir), NUMBER="2").rest()
        self.assertEqual((status, lines), (0, [
            "[  3 left] one: as it was when it was proved", "[  2 left] two: proved (0 s)", "[  1 left] prog: as it was when it was proved",
            "[  0 left] prog: ran as it should"]))
        self.assertEqual((self.dir / "asked").read_text(), "given")
        lines, status = self.progress("rt", "run", "prog", DIR=str(self.dir), NUMBER="3").rest()
        self.assertEqual((status, lines[3]), (1, "[  0 left] prog: what the program wrote is not what its file stdout has"))

    def test_every_crate(self):
        self.says("cat says\n", ALL)
        lines, status = self.progress("rt", "all", "test").rest()
        self.assertEqual((status, lines), (0, [
            "[  4 left] one: as it was when it was proved", "[  3 left] two: proved (after 0 s)", "[  2 left] two_c: as it was when it was proved",
            "[  1 left] prog: as it was when it was proved", "[  0 left] prog: ran as it should", "4 of 4 crates ok"]))
        self.says("cat says\nexit 1\n", ALL.replace("logic=proved", "logic=not-proved").replace("two: ok", "two: failed (1)").replace(
            "rt: the program wrote what", "rt: the program's output differs from").replace("prog: ok", "prog: failed (1)").replace("4 of", "2 of"))
        lines, status = self.progress("rt", "all", "test").rest()
        self.assertEqual(status, 1)
        self.assertEqual([line for line in lines if "left]" in line], [
            "[  4 left] one: as it was when it was proved", "[  3 left] two: NOT PROVED (after 0 s)", "[  2 left] two_c: as it was when it was proved",
            "[  1 left] prog: as it was when it was proved", "[  0 left] prog: failed (1)"])
        self.assertEqual(lines[-1], "2 of 4 crates ok")

    WAITS = "head -n 4 says\nwhile [ ! -e go ]; do sleep 0.05; done\ntail -n +5 says\n"

    def test_a_line_comes_as_its_part_ends(self):
        self.says(self.WAITS)
        terminal = self.progress("rt", "ci")
        self.assertEqual(terminal.line(), "[  7 left] one: proved (after 0 s)")
        (self.dir / "go").touch()
        self.assertEqual(terminal.rest()[1], 0)

    def test_a_line_comes_as_its_part_ends_in_a_pipe_too(self):
        """There Python keeps what it prints, unless it is told not to."""
        self.says(self.WAITS)
        env = {**os.environ, "PATH": self.path(), "PROGRESS": "", "PYTHONUNBUFFERED": ""}
        run = subprocess.Popen([PROGRESS, "rt", "ci"], cwd=self.dir, stdout=subprocess.PIPE, env=env)
        come, _, _ = select.select([run.stdout], [], [], 10)
        (self.dir / "go").touch()
        said = run.communicate()[0].decode().splitlines()
        self.assertTrue(come, "nothing came before the end")
        self.assertEqual(said[0], "[  7 left] one: proved (after 0 s)")

    def test_a_failure_shows_its_words_and_names_its_log(self):
        said = "".join(f"word {k}\n" for k in range(100))
        failures = {"rt: two NOT PROVED": "two: NOT PROVED (after 0 s)",
                    "rt: two_c NOT PROVED: its library two failed": "two_c: NOT PROVED: its library two failed (after 0 s)",
                    "rt: must-fail two/wrong.edit: NOT REFUSED: the crate is still proved with this edit":
                        "must-fail two/wrong: NOT REFUSED: the crate is still proved with this edit",
                    "rt: must-fail two/wrong.edit: NOT TRIED: its check was killed": "must-fail two/wrong: NOT TRIED: its check was killed",
                    "rt: prog: what the program wrote, out/stdout, is not what its file stdout has: they differ first at byte 1, line 1":
                        "prog: what the program wrote, out/stdout, is not what its file stdout has: they differ first at byte 1, line 1",
                    "rt: prog (built by Rattle's own compiler; the LLVM build passed): the program was stopped by signal 11":
                        "prog (built by Rattle's own compiler; the LLVM build passed): the program was stopped by signal 11"}
        for line, shown in failures.items():
            self.says("cat says\nexit 1\n", f"fn one::one: proved\nrt: one proved\n{said}{line}\nrt: FAILED: two\n4 passed, 1 failed\n")
            lines, status = self.progress("rt", "ci").rest()
            self.assertEqual(status, 1)
            self.assertEqual(lines[1], "[  6 left] " + shown)
            self.assertEqual(lines[2:62], [f"    word {k}" for k in range(40, 100)])
            self.assertEqual(lines[62], "build/log/rt.log has all of it")
            self.assertEqual(lines[-1], "4 passed, 1 failed")
            self.assertIn("word 0\n", self.log())

    def test_a_bad_edit_fails(self):
        """Of `rt ci` it does not, so that its count would say that all is well."""
        good = "rt: must-fail two/wrong.edit: refused, as it must be: note: src/lib.rt:5:1: it is not proved that what the function ensures holds\n"
        named = "rt: must-fail two/wrong.edit: BAD EDIT: an 'old:' text is in src/lib.rt 0 times, and not once\n"
        elsewhere = "rt: crates/two/must-fail/more/wrong.edit: BAD EDIT: an edit stands right in must-fail/\n"
        for bad in (named, elsewhere):
            self.says("cat says\n", SAYS.replace(good, bad).replace("2 refused;", "1 refused, 1 bad;").replace("6 passed", "5 passed"))
            lines, status = self.progress("rt", "--last", "last", "ci").rest()
            self.assertEqual(status, 1)
            self.assertIn("BAD EDIT", "".join(lines + self.log().splitlines()))
            self.assertFalse((self.dir / "last").exists())
            self.assertNotIn("0 failed", "".join(lines))
        self.says("cat says\n", "".join(line for line in SAYS.splitlines(True) if not line.startswith("rt: ok")))
        lines, status = self.progress("rt", "--last", "last", "ci").rest()
        self.assertEqual((status, (self.dir / "last").exists()), (1, False))

    def test_a_step(self):
        lines, status = self.progress("step", "form", "sh", "-c", "echo noise; echo 'skipped: this, for want of that'; echo 'form: all is well'").rest()
        self.assertEqual((status, lines), (0, ["[  0 left] form: all is well (0 s)", "    skipped: this, for want of that"]))
        lines, status = self.progress("step", "quiet", "true").rest()
        self.assertEqual((status, lines), (0, ["[  0 left] quiet: passed (0 s)"]))
        lines, status = self.progress("step", "form", "sh", "-c", "echo why >&2; exit 3").rest()
        self.assertEqual((status, lines), (3, ["[  0 left] form: FAILED (0 s)", "    why", "build/log/form.log has all of it"]))

    def test_several_commands_count_together(self):
        (self.dir / "script").write_text("step() { tools/progress step \"$@\"; }\nstep a true\n    step b true &\n# step none\n")
        plan = str(self.dir / "left")
        self.assertEqual(self.progress("plan", plan, "script").rest(), ([], 0))
        self.assertEqual(Path(plan).read_text(), "10\n")
        both = [self.progress("rt", "--last", "last", "ci", PROGRESS=plan), *(self.progress("step", n, "true", PROGRESS=plan) for n in "ab")]
        lines = [line for terminal in both for line in terminal.rest()[0]]
        self.assertEqual(sorted(int(re.match(r"\[ *(\d+) left\]", line)[1]) for line in lines), list(range(10)))

    def test_one_counts_at_a_time(self):
        """While another counts, a step waits, and then takes the number that the other left."""
        with open(self.dir / "left", "w+") as f:
            f.write("9\n")
            f.flush()
            fcntl.flock(f, fcntl.LOCK_EX)
            terminal = self.progress("step", "a", "touch", "ended", PROGRESS=str(self.dir / "left"))
            while not (self.dir / "ended").exists():
                time.sleep(0.01)
            self.assertEqual(select.select([terminal.lines], [], [], 1)[0], [])
            f.seek(0)
            f.write("7\n")
            f.flush()
            fcntl.flock(f, fcntl.LOCK_UN)
            self.assertEqual(terminal.rest()[0], ["[  6 left] a: passed (0 s)"])

    def test_what_a_step_runs_counts_for_itself(self):
        (self.dir / "left").write_text("2\n")
        lines, _ = self.progress("step", "inner", str(PROGRESS), "rt", "ci", PROGRESS=str(self.dir / "left")).rest()
        self.assertEqual(lines, ["[  1 left] inner: passed (0 s)"])

    def test_rt_itself(self):
        if not shutil.which("rt"):
            self.skipTest("no rt")
        shutil.rmtree(self.dir / "crates")
        crate = self.dir / "crates" / "one"
        for part in ("src", "must-fail"):
            (crate / part).mkdir(parents=True)
        (self.dir / "crates.txt").write_text("one:\n")
        (crate / "src" / "lib.rt").write_text(ONE)
        (crate / "must-fail" / "wrong.edit").write_text("# Another number.\nfile: src/lib.rt\nold:     1\nnew:     2\n")
        (self.dir / ".git").mkdir()
        lines, status = Terminal([PROGRESS, "rt", "ci"], self.dir, PROGRESS="").rest()
        self.assertEqual(status, 0, lines)
        self.assertRegex(lines[0], r"^\[  1 left\] one: proved (\(after \d+ s\)|by an earlier run on this machine)$")
        self.assertEqual(lines[1:], ["[  0 left] must-fail one/wrong: refused", "2 passed, 0 failed"])
        self.assertRegex(self.log(), "fn one::one: proved|rt: one is kept")
        # An edit that is none fails.
        (crate / "must-fail" / "wrong.edit").write_text("# No change.\nfile: src/lib.rt\nold: nowhere\nnew: 2\n")
        lines, status = Terminal([PROGRESS, "rt", "ci"], self.dir, PROGRESS="").rest()
        self.assertEqual(status, 1, lines)
        self.assertRegex(lines[1], r"^\[  0 left\] must-fail one/wrong: BAD EDIT: ")
        self.assertRegex(self.log(), r"rt: ok;.*, 1 bad")
        self.assertNotIn("0 failed", lines[-1])


if __name__ == "__main__":
    unittest.main()
