import contextlib
import io
import os
import pathlib
import stat
import subprocess
import sys
import tempfile
import time
import unittest

from flarecomb_tool import cli, programs
from tests.support import EXAMPLES, MISTAKES_FOLDER, PROGRAMS, REPOSITORY, needs_programs

COMMAND = REPOSITORY / "tools" / "flarecomb"
REPORT = (EXAMPLES / "example.report").read_bytes()
FEEDER = EXAMPLES / "example.feeder"

STAND_IN = """#!{python}
import pathlib, sys
folder = pathlib.Path(__file__).parent
given = [pathlib.Path(word).read_bytes() for word in sys.argv[1:]] or [sys.stdin.buffer.read()]
(folder / "given").write_bytes(b"|".join(given))
sys.stdout.buffer.write((folder / "output").read_bytes())
sys.stderr.buffer.write((folder / "error").read_bytes())
sys.exit(int((folder / "status").read_text()))
"""


def flarecomb(*words, **environment):
    return subprocess.run([sys.executable, COMMAND, *words], capture_output=True, check=False, env={**os.environ, **environment})


class WithStandIn(unittest.TestCase):
    """The commands over a program that writes what the test says, so that no proved program is needed."""

    def setUp(self):
        folder = tempfile.TemporaryDirectory()
        self.addCleanup(folder.cleanup)
        self.folder = pathlib.Path(folder.name)
        for name in ("study", "archive_check"):
            path = self.folder / name
            path.write_text(STAND_IN.format(python=sys.executable))
            path.chmod(path.stat().st_mode | stat.S_IXUSR)
        self.report = self.folder / "my.report"

    def program_writes(self, output, error=b"", status=0):
        (self.folder / "output").write_bytes(output)
        (self.folder / "error").write_bytes(error)
        (self.folder / "status").write_text(str(status))

    def run_study(self, *words, feeder=FEEDER):
        return flarecomb("study", feeder, *words, "--programs", self.folder)

    def run_check(self, feeder=FEEDER, report=EXAMPLES / "example.report"):
        return flarecomb("check", feeder, report, "--programs", self.folder)

    def test_report_is_handed_on(self):
        self.program_writes(REPORT)
        ran = self.run_study()
        self.assertEqual((0, REPORT, b""), (ran.returncode, ran.stdout, ran.stderr))
        self.assertEqual(FEEDER.read_bytes(), (self.folder / "given").read_bytes())

    def test_refusal_is_handed_on_and_explained(self):
        self.program_writes(b"refused 10 10\n")
        ran = self.run_study(feeder=MISTAKES_FOLDER / "plus_sign.feeder")
        self.assertEqual((1, b"refused 10 10\n"), (ran.returncode, ran.stdout))
        self.assertTrue(ran.stderr.decode().startswith(f"{MISTAKES_FOLDER / 'plus_sign.feeder'}, line 10:\n"), ran.stderr)
        self.assertIn(b"Write 120000.", ran.stderr)

    def test_report_to_a_file(self):
        self.program_writes(REPORT)
        self.report.write_bytes(b"older")
        ran = self.run_study("-o", self.report)
        self.assertEqual((0, b"", b""), (ran.returncode, ran.stdout, ran.stderr))
        self.assertEqual(REPORT, self.report.read_bytes())
        self.assertEqual([], list(self.folder.glob("*.new")))

    def test_refusal_leaves_the_file(self):
        self.program_writes(b"refused 34 20\n")
        for older in (None, b"older"):
            if older:
                self.report.write_bytes(older)
            ran = self.run_study("-o", self.report)
            self.assertEqual((1, b"refused 34 20\n"), (ran.returncode, ran.stdout))
            self.assertEqual(older, self.report.read_bytes() if self.report.exists() else None)

    def test_report_takes_no_feeders_place(self):
        self.program_writes(REPORT)
        feeder = self.folder / "my.feeder"
        feeder.write_bytes(FEEDER.read_bytes())
        ran = self.run_study("-o", feeder, feeder=feeder)
        self.assertEqual((2, b""), (ran.returncode, ran.stdout))
        self.assertEqual(FEEDER.read_bytes(), feeder.read_bytes())

    def test_report_where_no_file_can_be(self):
        self.program_writes(REPORT)
        for place in (self.folder, self.folder / "none" / "my.report", "/dev/null"):
            ran = self.run_study("-o", place)
            self.assertEqual((2, b""), (ran.returncode, ran.stdout), place)
            self.assertIn(str(place).encode(), ran.stderr)
        self.assertFalse(os.path.isfile("/dev/null"))

    def test_words_on_the_programs_standard_error(self):
        self.program_writes(REPORT, b"standard output: No space left on device (os error 28)\n")
        ran = self.run_study()
        self.assertEqual((2, REPORT), (ran.returncode, ran.stdout))
        self.assertIn(b"No space left on device", ran.stderr)
        ran = self.run_study("-o", self.report)
        self.assertEqual((2, b""), (ran.returncode, ran.stdout))
        self.assertFalse(self.report.exists())

    def test_program_that_ends_early(self):
        for output, status in ((b"", 0), (b"refused 10", 0), (b"pass\n", 0), (REPORT, 1)):
            self.program_writes(output, status=status)
            ran = self.run_study()
            self.assertEqual((2, output), (ran.returncode, ran.stdout))
            self.assertTrue(ran.stderr)

    def test_pass(self):
        self.program_writes(b"pass\n")
        ran = self.run_check()
        self.assertEqual((0, b"pass\n", b""), (ran.returncode, ran.stdout, ran.stderr))
        self.assertEqual(FEEDER.read_bytes() + b"|" + REPORT, (self.folder / "given").read_bytes())

    def test_refused_report(self):
        self.program_writes(b"refused 55 0\n")
        ran = self.run_check(MISTAKES_FOLDER / "sound.feeder", MISTAKES_FOLDER / "total_edited.report")
        self.assertEqual((1, b"refused 55 0\n"), (ran.returncode, ran.stdout))
        self.assertIn(b"drawn_p", ran.stderr)

    def test_report_is_no_answer_of_the_check(self):
        self.program_writes(REPORT)
        self.assertEqual(2, self.run_check().returncode)

    def test_missing_files(self):
        self.program_writes(b"pass\n")
        missing = self.folder / "missing"
        for ran in (self.run_study(feeder=missing), self.run_study(feeder=self.folder),
                    self.run_check(feeder=missing), self.run_check(report=missing)):
            self.assertEqual((2, b""), (ran.returncode, ran.stdout))
            self.assertIn(b"cannot be read", ran.stderr)

    def test_missing_program(self):
        (self.folder / "study").unlink()
        ran = self.run_study()
        self.assertEqual((2, b""), (ran.returncode, ran.stdout))
        self.assertIn(str(self.folder / "study").encode() + b" is missing", ran.stderr)

    def test_program_that_cannot_be_run(self):
        (self.folder / "study").write_bytes(b"\x00no program")
        ran = self.run_study()
        self.assertEqual((2, b""), (ran.returncode, ran.stdout))
        self.assertIn(b"cannot be run", ran.stderr)

    def test_folder_of_programs_from_the_environment(self):
        self.program_writes(REPORT)
        ran = flarecomb("study", FEEDER, FLARECOMB_PROGRAMS=str(self.folder))
        self.assertEqual((0, REPORT), (ran.returncode, ran.stdout))
        ran = flarecomb("study", FEEDER, "--programs", self.folder / "none", FLARECOMB_PROGRAMS=str(self.folder))
        self.assertEqual(2, ran.returncode)

    def test_feeder_from_a_pipe(self):
        self.program_writes(b"pass\n")
        with subprocess.Popen(["cat", FEEDER], stdout=subprocess.PIPE) as pipe:
            ran = subprocess.run([sys.executable, COMMAND, "check", "/dev/stdin", EXAMPLES / "example.report", "--programs", self.folder],
                                 stdin=pipe.stdout, capture_output=True, check=False)
        self.assertEqual((0, b"pass\n"), (ran.returncode, ran.stdout))
        self.assertEqual(FEEDER.read_bytes() + b"|" + REPORT, (self.folder / "given").read_bytes())


class WithPrograms(unittest.TestCase):
    @needs_programs
    def test_examples(self):
        for feeder in sorted(EXAMPLES.glob("*.feeder")):
            ran = flarecomb("study", feeder, "--programs", PROGRAMS)
            self.assertEqual((0, feeder.with_suffix(".report").read_bytes()), (ran.returncode, ran.stdout))
            # low_voltage is fed at 70 per cent of what its loads are rated for, which deserves a look
            self.assertEqual(feeder.stem == "low_voltage", b"per cent of vn: below 70 per cent a P row acts as Z" in ran.stderr, feeder)
            self.assertEqual(feeder.stem == "low_voltage", ran.stderr != b"", feeder)
            ran = flarecomb("check", feeder, feeder.with_suffix(".report"), "--programs", PROGRAMS)
            self.assertEqual((0, b"pass\n", b""), (ran.returncode, ran.stdout, ran.stderr))

    @needs_programs
    def test_notes_beside_a_report(self):
        feeder = MISTAKES_FOLDER / "capacitor_sign.feeder"
        report = subprocess.run([PROGRAMS / "study"], input=feeder.read_bytes(), capture_output=True, check=True).stdout
        ran = flarecomb("study", feeder, "--programs", PROGRAMS)
        self.assertEqual((0, report), (ran.returncode, ran.stdout))
        self.assertRegex(ran.stderr, rb"\AThe report is made. Please look at:\nLine 12: a Z row [^\n]*\n\Z")
        with tempfile.TemporaryDirectory() as folder:
            path = pathlib.Path(folder) / "my.report"
            to_file = flarecomb("study", feeder, "-o", path, "--programs", PROGRAMS)
            self.assertEqual((0, b"", ran.stderr, report), (to_file.returncode, to_file.stdout, to_file.stderr, path.read_bytes()))

    @needs_programs
    def test_long_file(self):
        with tempfile.NamedTemporaryFile() as file:
            file.write(b"x" * 2000000)
            file.flush()
            ran = flarecomb("study", file.name, "--programs", PROGRAMS)
        self.assertEqual((1, b"refused 9 0\n"), (ran.returncode, ran.stdout))
        self.assertIn(b"at most 65536 bytes", ran.stderr)


class CommandLine(unittest.TestCase):
    def test_help_of_each_command(self):
        self.assertEqual(0, flarecomb("--help").returncode)
        for command in cli.COMMANDS:
            ran = flarecomb(command, "--help")
            self.assertEqual(0, ran.returncode)
            self.assertIn(b"Exit status", ran.stdout)

    def test_wrong_words(self):
        for words in ((), ("nothing",), ("study",), ("check", "one"), ("study", "a", "b")):
            self.assertEqual(2, flarecomb(*words).returncode, words)


class Terminal(io.StringIO):
    def isatty(self):
        return True


class Progress(unittest.TestCase):
    def shown(self, stream, seconds):
        with contextlib.redirect_stderr(stream), programs.progress("studying"):
            time.sleep(seconds)
        return stream.getvalue()

    def test_long_work_on_a_terminal(self):
        self.assertRegex(self.shown(Terminal(), 1.3), r"\A\rstudying, 1 s\r +\r\Z")

    def test_short_work_and_no_terminal(self):
        self.assertEqual("", self.shown(Terminal(), 0))
        self.assertEqual("", self.shown(io.StringIO(), 1.2))


if __name__ == "__main__":
    unittest.main()
