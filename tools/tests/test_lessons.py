"""examples/lessons: a file with several faults is repaired from the top, one answer after the other."""

import pathlib
import subprocess
import tempfile
import unittest

from tests.support import EXAMPLES, PROGRAMS, needs_programs
from tests.test_commands import flarecomb

LESSONS = EXAMPLES / "lessons"


class Repair(unittest.TestCase):
    @needs_programs
    def test_each_answer_is_the_next_line_to_repair(self):
        """docs/USING.md, 'Repairing a file from the top', has these answers: each names the first line with the lowest number that applies."""
        lines = (LESSONS / "repair.feeder").read_text().splitlines()
        repaired = (LESSONS / "repaired.feeder").read_text().splitlines()
        self.assertEqual(len(repaired), len(lines))
        for number, line in [(11, 7), (11, 13), (20, 6), (20, 8), (23, 11), (23, 14)]:
            ran = subprocess.run([PROGRAMS / "study"], input="\n".join(lines) + "\n", capture_output=True, text=True, check=True)
            self.assertEqual(f"refused {number} {line}\n", ran.stdout)
            self.assertNotEqual(repaired[line - 1], lines[line - 1])
            lines[line - 1] = repaired[line - 1]
        self.assertEqual(repaired, lines)
        ran = subprocess.run([PROGRAMS / "study"], input="\n".join(lines) + "\n", capture_output=True, text=True, check=True)
        self.assertEqual((LESSONS / "repaired.report").read_text(), ran.stdout)

    @needs_programs
    def test_the_command_explains_the_first_line(self):
        ran = flarecomb("study", LESSONS / "repair.feeder", "--programs", PROGRAMS)
        self.assertEqual((1, b"refused 11 7\n"), (ran.returncode, ran.stdout))
        self.assertIn(b"repair.feeder, line 7:\n", ran.stderr)

    @needs_programs
    def test_a_row_below_one_that_is_off_does_not_count(self):
        """Rows in the order N3, N2, N1, N4: with another impedance towards N2 both N2 and N3 are off, and N2's line is told, although N3's stands before it."""
        lines = (LESSONS / "repaired.feeder").read_text().splitlines()
        lines[4:7] = lines[6:3:-1]
        feeder = "\n".join(lines) + "\n"
        report = subprocess.run([PROGRAMS / "study"], input=feeder, capture_output=True, text=True, check=True).stdout
        self.assertEqual(["N3", "N2", "N1", "N4"], [line.split(",")[0] for line in report.splitlines()[2:6]])
        # N2 is row 2 of the branch table; r of aa is 100 mOhm more, and the drop on A about 2 V
        changed = feeder.replace("N1,N2,ABC,L,300000,", "N1,N2,ABC,L,400000,")
        for text, answer in [(feeder, "pass\n"), (changed, "refused 54 4\n")]:
            with tempfile.TemporaryDirectory() as folder:
                of_feeder, of_report = pathlib.Path(folder) / "a.feeder", pathlib.Path(folder) / "a.report"
                of_feeder.write_text(text)
                of_report.write_text(report)
                ran = subprocess.run([PROGRAMS / "archive_check", of_feeder, of_report], capture_output=True, text=True, check=True)
            self.assertEqual(answer, ran.stdout)


if __name__ == "__main__":
    unittest.main()
