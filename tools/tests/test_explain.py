import pathlib
import random
import re
import subprocess
import tempfile
import unittest

from flarecomb_tool import equations, explain, notes
from flarecomb_tool.explain_layout import HABITS
from flarecomb_tool.format import FEEDER_TABLES, LARGEST_FILE, read_feeder, read_report
from tests.commands import SOURCE_ROW, feeder_text, line_row, regulator_row, without_taps, worked_report
from tests.mistakes_table import MISTAKES
from tests.support import EXAMPLES, MISTAKES_FOLDER, PROGRAMS, feeder_bytes, needs_programs, report_bytes


def proved_study(data):
    """What the program study writes for a feeder given as bytes."""
    return subprocess.run([PROGRAMS / "study"], input=data, capture_output=True, check=True).stdout


def explained(mistake):
    feeder = feeder_bytes(mistake.feeder)
    if mistake.report is None:
        return explain.study_refusal(feeder, mistake.number, mistake.value)
    return explain.check_refusal(feeder, report_bytes(mistake.report), mistake.number, mistake.value)


def answer(mistake):
    """What the proved program writes."""
    feeder = MISTAKES_FOLDER / f"{mistake.feeder}.feeder"
    if mistake.report is None:
        return subprocess.run([PROGRAMS / "study"], input=feeder.read_bytes(), capture_output=True, check=True).stdout
    report = MISTAKES_FOLDER / f"{mistake.report}.report"
    return subprocess.run([PROGRAMS / "archive_check", feeder, report], capture_output=True, check=True).stdout


def noted(data):
    """What stands beside the report of a feeder that has one."""
    feeder = read_feeder(data)
    report = "\n".join(equations.report_lines(feeder, equations.study(feeder))) + "\n"
    return notes.beside_report(data, report.encode())


class Mistakes(unittest.TestCase):
    def test_notes_beside_a_report(self):
        for mistake in MISTAKES:
            if mistake.number == 0 and mistake.report is None:
                with self.subTest(feeder=mistake.feeder):
                    self.assertEqual("\n".join(mistake.explanation), noted(feeder_bytes(mistake.feeder)))

    def test_explanations(self):
        for mistake in MISTAKES:
            if mistake.number:
                with self.subTest(feeder=mistake.feeder, report=mistake.report):
                    self.assertEqual("\n".join(mistake.explanation), explained(mistake))

    def test_none_falls_back_on_the_rule(self):
        for mistake in MISTAKES:
            if mistake.number:
                self.assertNotIn(explain.RULES[mistake.number], mistake.explanation, mistake.feeder)

    def test_each_file_is_used(self):
        used = {f"{mistake.feeder}.feeder" for mistake in MISTAKES} | {f"{mistake.report}.report" for mistake in MISTAKES if mistake.report}
        self.assertEqual(used, {path.name for path in MISTAKES_FOLDER.iterdir() if path.suffix in (".feeder", ".report")})

    def test_each_refusal_is_met(self):
        met = {mistake.number for mistake in MISTAKES} - {0}
        self.assertEqual(met, set(explain.RULES) - {9})

    @needs_programs
    def test_answers_of_the_programs(self):
        for mistake in MISTAKES:
            with self.subTest(feeder=mistake.feeder, report=mistake.report):
                written = answer(mistake)
                if mistake.number:
                    self.assertEqual(f"refused {mistake.number} {mistake.value}\n".encode(), written)
                elif mistake.report is None:
                    self.assertTrue(written.startswith(b"node,"), written[:40])
                else:
                    self.assertEqual(b"pass\n", written)


@needs_programs
class Advice(unittest.TestCase):
    """What an explanation says would help does help, by the proved study."""

    def study(self, data):
        return proved_study(data).decode()

    def advised(self, pattern):
        """(bytes of the feeder, what the pattern found) for each mistake of the study whose explanation has the pattern."""
        found = []
        for mistake in MISTAKES:
            match = re.search(pattern, "\n".join(mistake.explanation))
            if match and mistake.report is None:
                found.append((feeder_bytes(mistake.feeder), mistake, match))
        self.assertTrue(found)
        return found

    def test_habits(self):
        for data, mistake, _ in self.advised("Mend it wherever it stands: the layout is then sound"):
            for said, mend in HABITS:
                if said in mistake.explanation:
                    data = mend(data)
            self.assertFalse(self.study(data).startswith("refused 10 "), mistake.feeder)

    def test_exchanged_ends(self):
        for data, mistake, match in self.advised(r"exchanged \((\w+),(\w+)\)"):
            mended = data.replace(f"\n{match[2]},{match[1]},".encode(), f"\n{match[1]},{match[2]},".encode())
            self.assertNotEqual(data, mended)
            self.assertTrue(self.study(mended).startswith("node,"), mistake.feeder)

    def test_values_to_write(self):
        for data, mistake, match in self.advised(r"has (\S+): .*Write (-?\w+)\b"):
            lines = data.split(b"\n")
            row = lines[mistake.value - 1].replace(match[1].encode(), match[2].encode(), 1).split(b",")
            for name, value in re.findall(r"Column (\w+) likewise: write (-?\w+)", "\n".join(mistake.explanation)):
                table = next(table for table in FEEDER_TABLES if len(table.columns) == len(row))
                row[[column.name for column in table.columns].index(name)] = value.encode()
            lines[mistake.value - 1] = b",".join(row)
            self.assertNotEqual(f"refused 10 {mistake.value}\n", self.study(b"\n".join(lines)), mistake.feeder)

    def test_voltages_in_another_unit(self):
        """With every voltage mended that is named there is a report with no note on voltages."""
        pattern = r"(vn|Voltages) (?:is|are) in cV: if \d+ (V|kV) is meant, it is \d+\.(?: The same holds for vn in lines? ([^.]*)\.)?"
        for data, mistake, match in self.advised(pattern):
            factor = {"V": 100, "kV": 100000}[match[2]]
            numbers = re.sub(r"(\d+) to (\d+)", lambda run: ",".join(map(str, range(int(run[1]), int(run[2]) + 1))), match[3] or "")
            vn_lines = [int(number) for number in re.findall(r"\d+", numbers)]
            lines = [line.split(",") for line in data.decode().split("\n")]
            if match[1] == "Voltages":
                lines[1][1:7] = [str(int(value) * factor) for value in lines[1][1:7]]
            else:
                vn_lines.append(int(re.search(r"vn in line (\d+) is|The load in line (\d+)", "\n".join(mistake.explanation)).expand(r"\1\2")))
            for number in vn_lines:
                lines[number - 1][3] = str(int(lines[number - 1][3]) * factor)
            mended = "\n".join(",".join(fields) for fields in lines).encode()
            written = self.study(mended)
            self.assertTrue(written.startswith("node,"), (mistake.feeder, written))
            self.assertNotRegex(notes.beside_report(mended, written.encode()), "vn|source", mistake.feeder)

    def test_source_by_the_loads(self):
        for data, mistake, match in self.advised(r"each of its six values is then (\d+) times as large"):
            lines = data.decode().split("\n")
            source = lines[1].split(",")
            source[1:7] = [str(int(value) * int(match[1])) for value in source[1:7]]
            written = self.study("\n".join([lines[0], ",".join(source), *lines[2:]]).encode())
            self.assertTrue(written.startswith("node,"), (mistake.feeder, written))

    def test_more_sweeps_or_a_larger_tol(self):
        for data, mistake, match in self.advised(r"With more sweeps it settles: it takes (\d+)|With tol (\d+) it ends in sweep (\d+)"):
            lines = data.split(b"\n")
            source = lines[1].decode().split(",")
            source[7], source[8] = match[2] or source[7], match[1] or source[8]
            lines[1] = ",".join(source).encode()
            written = self.study(b"\n".join(lines))
            self.assertEqual(int(match[1] or match[3]), read_report(written.encode()).totals.sweeps, mistake.feeder)

    def test_power_loads_as_impedances(self):
        """With the load that goes to and fro across 70 per cent of vn as Z there is a report of so many sweeps."""
        pattern = r"The load in line (\d+) [^\n]* goes to and fro [^\n]*\n(?:[^\n]*\n)*[^\n]* as Z the study takes (\d+) sweeps"
        for data, mistake, match in self.advised(pattern):
            lines = data.decode().split("\n")
            row = lines[int(match[1]) - 1]
            lines[int(match[1]) - 1] = row.replace(",P,", ",Z,")
            written = self.study("\n".join(lines).encode())
            self.assertEqual(int(match[2]), read_report(written.encode()).totals.sweeps, mistake.feeder)

    def test_bandwidths_with_which_the_rounds_end(self):
        for data, mistake, match in self.advised(r"With p5 \(bandwidth\) (\d+) \([^)]*\) in line (\d+) the rounds end"):
            lines = data.decode().split("\n")
            row = lines[int(match[2]) - 1].split(",")
            row[8] = match[1]
            lines[int(match[2]) - 1] = ",".join(row)
            self.assertTrue(self.study("\n".join(lines).encode()).startswith("node,"), mistake.feeder)

    def test_first_taps_from_which_the_rounds_end(self):
        for data, mistake, match in self.advised(r"write them as p1 to p3, (-?\d+), (-?\d+) and (-?\d+) in line (\d+)\."):
            lines = data.decode().split("\n")
            row = lines[int(match[4]) - 1].split(",")
            row[4:7] = match.groups()[:3]
            lines[int(match[4]) - 1] = ",".join(row)
            self.assertTrue(self.study("\n".join(lines).encode()).startswith("node,"), mistake.feeder)


class Taps(unittest.TestCase):
    """Refusals of regulators that set their taps, on feeders that mistakes/ does not have."""

    def said(self, branches, loads, number, value, source="S,720000,0,0,0,0,0,1,40"):
        data = feeder_text(source, branches, loads).encode()
        trouble = equations.study(read_feeder(data)).trouble
        self.assertEqual((number, value), (trouble.number, trouble.sweep))
        return explain.study_refusal(data, number, value).split("\n")[1:]

    def two(self, *bands):
        """Two regulators, the upper with a compensator that is far larger than the line, the lower with none."""
        return [regulator_row("S", "R1", "A", relay=(4000, bands[0], 60, 100, 30000000, 10000000)), line_row("R1", "N1", "A", [500000, 500000]),
                regulator_row("N1", "R2", "A", relay=(11800, bands[1], 60, 100, 0, 0)), line_row("R2", "N2", "A", [1000000, 1000000])]

    def test_two_regulators_in_a_circle(self):
        loads = ["N2,A,Z,720000,1500000,500000"]
        said = self.said(self.two(100, 100), loads, 35, 32)
        self.assertEqual([
            "The taps are those of round 28 again, so that the rounds would go on for ever. Taps move in lines 5 and 7.",
            "Each of these regulators changes the voltage or the current that the others measure: look at R and X of their compensators.",
            "With p5 (bandwidth) 200 (2.00 V) in line 5 and 200 (2.00 V) in line 7 the rounds end, after 16 rounds.",
        ], said[1:])
        ended = equations.study(read_feeder(feeder_text("S,720000,0,0,0,0,0,1,40", self.two(200, 200), loads).encode()))
        self.assertEqual((None, 16), (ended.trouble, len(ended.tried)))

    def test_a_later_round_is_named(self):
        """At 19000 V each step up brings it nearer to the limit of 20000 V."""
        said = self.said([regulator_row("S", "N1", "A", relay=(20000, 100, 120, 100, 0, 0))], [], 33, 0, "S,1900000,0,0,0,0,0,1,40")
        self.assertEqual("This is in round 10, for which the regulators have set their taps to 9, 0 and 0 in line 5.", said[0])
        self.assertTrue(said[1].startswith("Node N1 (line 5) comes to 20132.45 V and 0.00 V"), said[1])
        self.assertIn("line 5 (taps 9, 0 and 0)", said[2])

    def test_more_sweeps_help_the_round(self):
        said = self.said([regulator_row("S", "R1", "A", relay=(12000, 200, 60, 100, 0, 0)), line_row("R1", "N1", "A", [1000000])],
                         ["N1,A,P,720000,500000,0"], 34, 2, "S,720000,0,0,0,0,0,1,2")
        self.assertEqual("With more sweeps this round settles: it takes 3.", said[-1])

    def test_report_of_before(self):
        """Edits in a report without the table of taps are compared with the feeder's own report in that form."""
        feeder = (EXAMPLES / "four_node_regulated.feeder").read_bytes()
        report = without_taps((EXAMPLES / "four_node_regulated.report").read_text())
        text = explain.check_refusal(feeder, report.replace("7355513838", "7355513839").encode(), 55, 0)
        self.assertIn("\nOnly line 12 differs from the feeder's own report.", text)


class LowVoltage(unittest.TestCase):
    """Loads of kind P below 70 per cent of vn."""

    SOURCE = SOURCE_ROW.replace(",1,20", ",1,100")

    def line(self, to_node="N1", from_node="S", ohms=50):
        return line_row(from_node, to_node, "A", [ohms * 1000000])

    def refused(self, *loads, branches=None, source=SOURCE):
        """The sentences on a feeder that meets 34 by the equations."""
        feeder = feeder_text(source, branches or [self.line()], loads).encode()
        trouble = equations.study(read_feeder(feeder)).trouble
        self.assertEqual(34, trouble and trouble.number)
        return explain.study_refusal(feeder, 34, trouble.sweep).split("\n")[1:]

    def test_a_sound_feeder_that_steps_to_and_fro(self):
        """By constant power alone it would settle at 4580 V, 63.6 per cent; as an impedance of 216 ohm behind 50 the load has 81.2."""
        said = self.refused("N1,A,P,720000,240000,0")
        self.assertEqual([
            "The load in line 8 (node N1, phase A, kind P, p 240000 W, q 0 var) goes to and fro across 70 per cent of vn, below which it acts as Z: "
            "it has 68.08 per cent in sweep 99 and 84.24 per cent in sweep 100.",
        ], said[1:2])
        self.assertRegex(said[2], "^No tol up to 1000 settles it: as P the load draws so much")
        self.assertRegex(said[3], r"With the row as Z the study takes \d+ sweeps, and line 8 has 81\.20 per cent of vn: there a P row is constant power\.$")
        self.assertEqual("The largest impedance on its way is that of line 5 (S,N1): r 50 ohm and x 0 ohm on phase A.", said[4])

    def test_a_feeder_that_steps_to_and_fro_around_a_report(self):
        """500 kW at 7200 V are an impedance of 103.7 ohm, which has 67.5 per cent behind 50 ohm; the sweeps do not come there from above."""
        said = self.refused("N1,A,P,720000,500000,0", source=SOURCE_ROW.replace(",1,20", ",5,100"))
        self.assertRegex(said[3], r"With the row as Z the study takes 16 sweeps, and line 8 has 67\.46 per cent of vn\. "
                         r"Where a motor does run below 70 per cent, write Z\. The check passes that report with the row as P too\.$")
        powers, impedances = (read_feeder(feeder_text(SOURCE_ROW.replace(",1,20", ",5,100"), [self.line()], [f"N1,A,{kind},720000,500000,0"]).encode())
                              for kind in "PZ")
        studied = equations.study(impedances)
        _, currents, trouble = equations.currents_at(powers, studied.voltages, 0)
        self.assertEqual((studied.currents, None), (currents, trouble))
        self.assertLessEqual(equations.greatest_movement(powers, studied.voltages, equations.voltages_down(powers, currents, 0)[0]).size, 5)
        # with a limit below its sweeps, or another tol than the feeder's, it is no report of this feeder
        for row in (SOURCE_ROW.replace(",1,20", ",5,15"), SOURCE_ROW.replace(",1,20", ",1,100")):
            self.assertTrue(self.refused("N1,A,P,720000,500000,0", source=row)[-2].endswith("write Z."))

    @needs_programs
    def test_that_report_passes(self):
        """The proved programs on the same feeder: as P it is 34, as Z there is a report, and the check passes that with P; with 259 kW it does not."""
        for watts, answer in ((500000, b"pass\n"), (259000, b"refused 53 6\n")):
            powers, impedances = (feeder_text(SOURCE_ROW.replace(",1,20", ",5,100"), [self.line()], [f"N1,A,{kind},720000,{watts},0"]).encode() for kind in "PZ")
            self.assertEqual(b"refused 34 100\n", proved_study(powers))
            with tempfile.TemporaryDirectory() as folder:
                feeder, report = (pathlib.Path(folder) / name for name in ("feeder", "report"))
                feeder.write_bytes(powers)
                report.write_bytes(proved_study(impedances))
                ran = subprocess.run([PROGRAMS / "archive_check", feeder, report], capture_output=True, check=True)
                self.assertEqual(answer, ran.stdout)

    def test_several_loads(self):
        load = "N1,A,P,720000,120000,0"
        for more, words in ((1, " So does the load in line 9."), (3, " So do the loads in lines 9 to 11.")):
            said = self.refused(*[f"N1,A,P,720000,{240000 // (more + 1)},{place}" for place in range(more + 1)])
            self.assertTrue(said[1].endswith(words), said)
            self.assertRegex(said[3], r"With these rows as Z the study takes \d+ sweeps, and line 8 has 81\.\d\d per cent of vn\.$")
        # a load at the source stays at 100 per cent
        self.assertNotIn("So do", self.refused("N1,A,P,720000,240000,0", load.replace("N1", "S"))[1])

    def test_between_two_phases(self):
        branch = line_row("S", "N1", "AB", [50000000, 0, 0, 0, 0, 0, 50000000, 0])
        said = self.refused("N1,AB,P,1247077,350000,0", branches=[branch])
        self.assertRegex(said[1], r"^The load in line 8 \(node N1, phase AB, .* goes to and fro across 70 per cent of vn")

    def test_a_tol_that_ends_it(self):
        """The load draws 1 A through 10 ohm as P and half of that as Z; 70 per cent of vn lies between 7190 V and 7195 V."""
        said = self.refused("N1,A,P,1027571,7200,0", branches=[self.line(ohms=10)])
        self.assertTrue(said[1].endswith("it has 70.02 per cent in sweep 99 and 69.97 per cent in sweep 100."), said)
        self.assertRegex(said[2], r"^With tol \d+ it ends in sweep \d+, with the load on the side where that sweep finds it: as P it draws about twice "
                         r"what it draws as Z\.$")
        tol, sweep = re.findall(r"\d+", said[2])
        feeder = feeder_text(SOURCE_ROW.replace(",1,20", f",{tol},{sweep}"), [self.line(ohms=10)], ["N1,A,P,1027571,7200,0"]).encode()
        self.assertIsNone(equations.study(read_feeder(feeder)).trouble)

    def test_a_load_that_others_take_to_and_fro(self):
        """The Z load of 50 ohm behind 50 ohm does not settle by itself: no advice is given to write the small P load as Z."""
        said = self.refused("N1,A,Z,720000,1036800,0", "N1,A,P,720000,1000,0")
        self.assertIn("The load in line 9 (node N1, phase A, kind P, p 1000 W, q 0 var) goes to and fro across 70 per cent of vn", said[1])
        self.assertEqual("No tol up to 1000 settles it: a load is near or beyond the most that the branches above it can carry.", said[2])
        self.assertFalse([one for one in said if "write" in one])

    def test_an_impedance_that_needs_a_larger_tol(self):
        """With tol 0 the load repeats a few values as Z too; what is said to end it does so."""
        source, load = self.SOURCE.replace(",1,100", ",0,100"), "N1,A,P,720000,300000,100000"
        branch = line_row("S", "N1", "A", [30000000, 30000000])
        said = self.refused(load, branches=[branch], source=source)[3]
        match = re.search(r"as Z the study takes (\d+) sweeps with tol (\d+), and line 8 has ([\d.]+) per cent", said)
        source = source.replace(",0,100", f",{match[2]},100")
        studied = equations.study(read_feeder(feeder_text(source, [branch], [load.replace(",P,", ",Z,")]).encode()))
        self.assertIsNone(studied.trouble)
        self.assertEqual(int(match[1]), studied.sweeps)
        self.assertEqual(match[3], f"{int(abs(complex(*studied.voltages['N1'][0])) / 72) / 100:.2f}")

    def test_loads_that_stay_on_one_side(self):
        for load in ("N1,A,P,100,259000,0", "N1,A,Z,720000,1000000,0"):
            self.assertNotIn("70 per cent", "\n".join(self.refused(load)))

    def test_current_beyond_its_limit_as_an_impedance(self):
        """3 MW at 100 V; at 60 V it draws 18 kA."""
        feeder = feeder_text("S,6000,0,0,0,0,0,1,20", [], ["S,A,P,10000,3000000,0"]).encode()
        said = explain.study_refusal(feeder, 31, 1).split("\n")
        self.assertEqual("Its voltage is 60.00 V, its rated voltage vn 100.00 V: below 70 per cent of vn it acts as Z.", said[2])

    def older(self, feeder):
        """The report of a feeder as it was before the rule, when a load of kind P had constant power at every voltage."""
        read = read_feeder(feeder.encode())
        before = read._replace(loads=[load._replace(vn=1) if load.kind == "P" else load for load in read.loads])
        studied = equations.study(before)
        self.assertIsNone(studied.trouble)
        return without_taps("\n".join(equations.report_lines(before, studied)) + "\n")

    MAY_BE_OLDER = "The report may be older than version 0.4.0: with constant power at every voltage, as before it, all values agree."
    ACTS_AS_Z = "From that version on a P row acts as Z below 70 per cent of its vn, as here in"

    def test_older_reports(self):
        for source, branches, loads, number, value, said in (
            (SOURCE_ROW, [self.line(ohms=1)], ["N1,A,P,1247077,72000,0"], 53, 6, "line 8 of the feeder. Study the feeder again."),
            (SOURCE_ROW, [self.line(ohms=1)], ["N1,A,P,720000,72000,0", "N1,A,P,1247077,7200,0", "N1,A,Z,1247077,7200,0", "S,A,P,1247077,1,0"], 53, 6,
             "lines 9 and 11 of the feeder. Study the feeder again."),
            # a load at the source is in no branch's current
            (SOURCE_ROW, [], ["S,CA,P,2160000,72000,0"], 55, 0, "line 7 of the feeder. Study the feeder again."),
            (self.SOURCE, [self.line()], ["N1,A,P,720000,240000,0"], 53, 6, "line 8 of the feeder. The study now refuses the feeder with 34."),
            # a load that gave 417 A now gives 54 A, and the branch's current is beyond its limit
            (SOURCE_ROW, [self.line(ohms=0)], ["N1,A,Z,720000,3000000,0"] * 5 + ["N1,A,P,2000000,-3000000,0"], 32, 0,
             "line 13 of the feeder. The study now refuses the feeder with 32."),
        ):
            feeder = feeder_text(source, branches, loads)
            text = explain.check_refusal(feeder.encode(), self.older(feeder).encode(), number, value)
            self.assertEqual([self.MAY_BE_OLDER, f"{self.ACTS_AS_Z} {said}"], text.split("\n")[-2:])
            self.assertNotIn("belongs to another feeder", text)

    def test_reports_that_are_not_older(self):
        feeder = feeder_text(SOURCE_ROW, [self.line(ohms=1)], ["N1,A,P,1247077,72000,0"])
        older, now = self.older(feeder), worked_report(feeder)
        lines = older.split("\n")
        for report, number, value in (
            # a report of this version, and an older one, each with an edit
            (now.replace("S,N1,3", "S,N1,4"), 53, 6),
            ("\n".join(lines[:5] + [lines[5].replace("S,N1,1", "S,N1,2")] + lines[6:]), 53, 6),
            (older.replace("\n2,7210080000,", "\n2,7210080001,"), 53, 6),
            ("\n".join(lines[:2] + ["N1,710000,0,0,0,0,0"] + lines[3:]), 53, 6),
        ):
            self.assertNotIn(report, (older, now))
            text = explain.check_refusal(feeder.encode(), report.encode(), number, value)
            self.assertNotIn("0.4.0", text)
            self.assertNotIn(explain.RULES[number], text)

    def test_a_report_with_no_voltage_at_a_power_load_is_not_older(self):
        """Before the rule it was refused with 30."""
        feeder = feeder_text("S,720000,0,0,0,0,0,1,20", [], ["S,A,P,1247077,72000,0", "S,B,P,720000,72000,0"])
        self.assertNotIn("0.4.0", explain.check_refusal(feeder.encode(), self.older(feeder).encode(), 55, 0))


class BetweenPhases(unittest.TestCase):
    """Loads whose phase is AB, BC or CA."""

    LINE = line_row("S", "N1", "ABC", [300000, 600000, 0, 0, 0, 0, 300000, 600000, 0, 0, 300000, 600000])

    def refused(self, number, value, load, source=SOURCE_ROW, branches=(LINE,)):
        """The sentences on a feeder with this load row in line 8, or in the line behind it for one more branch."""
        text = explain.study_refusal(feeder_text(source, branches, [load]).encode(), number, value)
        self.assertNotIn(explain.RULES[number], text)
        return text.split("\n")

    def test_words_in_another_order(self):
        for word, due in (("AC", "CA"), ("BA", "AB"), ("CB", "BC"), ("ac", "CA"), ("C/B", "BC")):
            self.assertEqual(
                f"A load between two phases is written AB, BC or CA. Write {due}: turned round it is the same load, with the same p and q.",
                self.refused(10, 8, f"N1,{word},P,1247077,72000,0")[-1])

    def test_words_with_marks_or_in_small_letters(self):
        for word, due in (("ca", "CA"), ("A-B", "AB"), ("B/C", "BC"), ("C A", "CA"), ("a", "A"), ("A\t", "A")):
            self.assertEqual(f"Write {due}.", self.refused(10, 8, f"N1,{word},P,1247077,72000,0")[-1])

    def test_words_that_say_nothing(self):
        for word in ("AA", "AD", "ABCA", "N"):
            self.assertEqual(f"Column phase (the phase of the load, or the two that it stands between) has {word}: A, B, C, AB, BC or CA is due.",
                             self.refused(10, 8, f"N1,{word},P,1247077,72000,0")[-1])

    def test_rated_voltages(self):
        for phase, vn, said in (("AB", 4000001, "Column vn (rated voltage between A and B) has 4000001, that is 40000.01 V: the limit is 1 to 4000000"),
                                ("CA", 0, "Column vn (rated voltage between C and A) has 0, that is 0 V: the limit is 1 to 4000000"),
                                ("B", 2000001, "Column vn (rated voltage to ground) has 2000001, that is 20000.01 V: the limit is 1 to 2000000")):
            self.assertEqual(f"{said} in cV (0.01 V).", self.refused(11, 8, f"N1,{phase},Z,{vn},72000,0")[2])

    def test_rated_voltage_with_a_decimal_point(self):
        # Up to 40000 V both kV and V can be meant, to ground only up to 20000 V.
        self.assertEqual("24.9 kV is 2490000; 24.9 V is 2490.", self.refused(10, 8, "N1,AB,Z,24.9,72000,0")[-1].split(" The source")[0])
        self.assertEqual("24.9 V is 2490.", self.refused(10, 8, "N1,A,Z,24.9,72000,0")[-1])

    def test_absent_phases(self):
        branches = (self.LINE, line_row("N1", "N2", "AC", [300000, 600000, 0, 0, 0, 0, 0, 0, 0, 0, 300000, 600000]))
        for phase, said in (("AB", "A and B"), ("BC", "B and C")):
            self.assertEqual([f"The load is on phases {said}, but node N2 has phases A and C alone (fed by line 6 (N1,N2))."],
                             self.refused(23, 9, f"N2,{phase},Z,1247077,72000,0", branches=branches)[2:])
        # both are there
        text = explain.study_refusal(feeder_text(SOURCE_ROW, branches, ["N2,CA,Z,1247077,72000,0"]).encode(), 23, 9)
        self.assertIn(explain.RULES[23], text)

    def test_equal_phases_above_a_delta_transformer(self):
        # A of the source half-way between B and C makes A and B of the node equal.
        said = self.refused(30, 1, "N1,AB,I,400000,72000,0", "S,0,0,300000,0,-300000,0,1,20", ["S,N1,ABC,D,3,1" + ",0" * 10])
        self.assertEqual("Line 5 is a delta transformer: it gives the same voltage on A and B here.", said[2])

    def test_the_largest_impedance_of_both_phases(self):
        branch = line_row("S", "N1", "AB", [10000000, 0, 0, 0, 0, 0, 40000000, 0])
        # vn is so low that the load has constant power down to 1 V
        feeder = feeder_text(SOURCE_ROW, [branch], ["N1,AB,P,100,880000,0"]).encode()
        trouble = equations.study(read_feeder(feeder)).trouble
        self.assertEqual(31, trouble.number)
        text = explain.study_refusal(feeder, 31, trouble.sweep)
        self.assertIn("The largest impedance on its way is that of line 5 (S,N1): r 40 ohm and x 0 ohm on phase B.", text)

    def test_source_in_volts_by_loads_between_phases(self):
        said = self.refused(34, 1, "N1,CA,I,1247077,900000,0", "S,720,0,-360,-623,-360,623,1,1")
        self.assertIn("by vn of the loads it has about 7200.00 V, that is 720000: each of its six values is then 1000 times as large.", said[-1])

    def test_reports(self):
        """30, 31 and 53 of the check at voltages that were edited."""
        for kind, vn, voltages, number, value, said in (
            ("I", 1247077, "5,7,5,7,0,0", 30, 0, "The report has the same voltage on A and B of node N1."),
            ("P", 1, "5,7,5,8,0,0", 31, 0, "Its voltage is 0.01 V between A and B."),
            ("P", 1247077, "700000,0,-360000,-623538,-360000,623538", 53, 6, "Column ia_re (real part of the current of A) has "),
        ):
            feeder = feeder_text(SOURCE_ROW, [self.LINE], [f"N1,AB,{kind},{vn},72000,0"])
            report = worked_report(feeder).split("\n")
            edited = "\n".join([*report[:2], f"N1,{voltages}", *report[3:]])
            self.assertIn(said, explain.check_refusal(feeder.encode(), edited.encode(), number, value))


class Size(unittest.TestCase):
    def test_long_feeder(self):
        text = explain.study_refusal(b"x" * 200000, 9, 0, "long.feeder")
        self.assertIn("long.feeder:\nThe file has 200000 bytes", text)
        self.assertIn("at most 65536 bytes", text)

    def test_the_long_one_of_two_files_is_named(self):
        long = b"\n" * (LARGEST_FILE + 1)
        self.assertTrue(explain.check_refusal(b"", long, 9, 0, "f", "r").startswith("r:\n"))
        self.assertTrue(explain.check_refusal(long, b"", 9, 0, "f", "r").startswith("f:\n"))


class Rules(unittest.TestCase):
    """Where the reading here does not arrive at the answer's place, the rule is said and nothing else."""

    def test_sound_feeder(self):
        sound = feeder_bytes("sound")
        for number in (10, 11, 20, 21, 22, 23, 24):
            for value in (1, 5, 6, 10, 99):
                self.assertEqual(explain.RULES[number], explain.study_refusal(sound, number, value).split("\n")[-1], (number, value))
        for number in (30, 31, 32, 33, 34):
            self.assertEqual(["the feeder:", explain.RULES[number]], explain.study_refusal(sound, number, 1).split("\n"))

    def test_another_line(self):
        self.assertEqual(explain.RULES[10], explain.study_refusal(feeder_bytes("plus_sign"), 10, 5).split("\n")[-1])

    def test_unknown_number(self):
        self.assertIn("not known", explain.study_refusal(feeder_bytes("sound"), 77, 1))


def mangled(chance, data):
    """The bytes with a few changes of the kinds that editors and people make."""
    data = bytearray(data)
    for _ in range(chance.randint(1, 3)):
        place = chance.randrange(len(data) + 1)
        change = chance.randrange(7)
        if change == 0:
            data[place:place] = bytes([chance.randrange(256)])
        elif change == 1:
            del data[place : place + chance.choice((1, 1, 2, 40))]
        elif change == 2:
            data[place : place + 1] = chance.choice((b",", b"\n", b"0", b"9", b"-", b"A", b"C", b"R", b"Y", b"Z", b"N1", b" ", b"\r\n", b";"))
        elif change == 3:
            lines = bytes(data).split(b"\n")
            one, other = chance.randrange(len(lines)), chance.randrange(len(lines))
            lines[one], lines[other] = lines[other], lines[one]
            data = bytearray(b"\n".join(lines))
        elif change == 4:
            lines = bytes(data).split(b"\n")
            lines.insert(chance.randrange(len(lines)), chance.choice(lines))
            data = bytearray(b"\n".join(lines))
        else:
            # a word of the file in the place of another, which keeps the layout more often
            words = re.split(rb"([,\n])", bytes(data))
            places = range(0, len(words), 2)
            words[chance.choice(places)] = words[chance.choice(places)]
            data = bytearray(b"".join(words))
    return bytes(data)


class AnyBytes(unittest.TestCase):
    NUMBERS = sorted(explain.RULES) + [0, 40, 77]

    def look_at(self, text):
        self.assertTrue(text.strip())
        # each character can be shown on every terminal
        self.assertRegex(text, r"\A[\n -~]*\Z")

    def test_every_number_on_every_kind_of_bytes(self):
        chance = random.Random(1)
        sound, report = feeder_bytes("sound"), report_bytes("sound")
        for data in (b"", b"\n", b"\r", b",", b"\xef\xbb\xbf", b"\x00" * 50, bytes(range(256)), b"," * 70000, b"\n" * 70000, b"9" * 200000,
                     chance.randbytes(200000), sound * 400, sound, report):
            for number in self.NUMBERS:
                for value in (0, 1, 2, 13, 70001):
                    self.look_at(explain.study_refusal(data, number, value))
                    self.look_at(notes.beside_report(data, report) or "none")
                    self.look_at(notes.beside_report(sound, data) or "none")
                    if number >= 30 and len(data) < 1000:
                        self.look_at(explain.check_refusal(sound, data, number, value))
                        self.look_at(explain.check_refusal(data, report, number, value))

    def test_mangled_files(self):
        chance = random.Random(2)
        sources = [path.read_bytes() for path in sorted(EXAMPLES.glob("*.feeder"))[:3]] + [feeder_bytes("sound")]
        report = report_bytes("sound")
        for _ in range(400):
            data = mangled(chance, chance.choice(sources))
            number = chance.choice(self.NUMBERS)
            self.look_at(explain.study_refusal(data, number, chance.randrange(16)))
            other = mangled(chance, report)
            self.look_at(notes.beside_report(data, report) or "none")
            self.look_at(notes.beside_report(sources[-1], other) or "none")
            self.look_at(explain.check_refusal(sources[-1], other, chance.choice(self.NUMBERS), chance.randrange(15)))

    @needs_programs
    def test_answers_on_mangled_files_are_explained(self):
        """The reading here arrives at the place that the proved program names, so that more than the rule is said; and at its reports."""
        chance = random.Random(3)
        reports = 0
        sources = [path.read_bytes() for path in sorted(EXAMPLES.glob("*.feeder"))] + [feeder_bytes("sound")]
        met = set()
        for _ in range(1500):
            data = mangled(chance, chance.choice(sources))
            written = subprocess.run([PROGRAMS / "study"], input=data, capture_output=True, check=True).stdout
            if written.startswith(b"refused"):
                number, value = map(int, written.split()[1:])
                met.add(number)
                text = explain.study_refusal(data, number, value)
                self.look_at(text)
                self.assertNotIn(explain.RULES[number], text.split("\n"), data)
            else:
                reports += 1
                feeder = read_feeder(data)
                lines = equations.report_lines(feeder, equations.study(feeder))
                self.assertEqual(written.decode(), "\n".join(lines) + "\n", data)
                self.look_at(notes.beside_report(data, written) or "none")
        self.assertGreaterEqual(met, {10, 11, 20, 21, 23, 24})
        self.assertGreater(reports, 50)

    @needs_programs
    def test_answers_on_mangled_mistakes(self):
        """The same on the mistakes, which have further faults then; a report has notes or none."""
        chance = random.Random(5)
        sources = [feeder_bytes(mistake.feeder) for mistake in MISTAKES if mistake.report is None and len(feeder_bytes(mistake.feeder)) < 1000]
        for data in sources + [mangled(chance, data) for data in sources for _ in range(3) if data]:
            written = subprocess.run([PROGRAMS / "study"], input=data, capture_output=True, check=True).stdout
            if written.startswith(b"refused"):
                number, value = map(int, written.split()[1:])
                text = explain.study_refusal(data, number, value)
                self.look_at(text)
                self.assertNotIn(explain.RULES[number], text.split("\n"), data)
                self.assertLessEqual(len(text.split("\n")), 8, text)
            else:
                self.look_at(notes.beside_report(data, written) or "none")

    @needs_programs
    def test_answers_on_mangled_reports_are_explained(self):
        chance = random.Random(4)
        feeder, report = MISTAKES_FOLDER / "sound.feeder", report_bytes("sound")
        met = set()
        for _ in range(600):
            data = mangled(chance, report)
            written = subprocess.run([PROGRAMS / "archive_check", feeder, "/dev/stdin"], input=data, capture_output=True, check=True).stdout
            if written.startswith(b"refused"):
                number, value = map(int, written.split()[1:])
                met.add(number)
                text = explain.check_refusal(feeder.read_bytes(), data, number, value)
                self.look_at(text)
                self.assertNotIn(explain.RULES[number], text.split("\n"), data)
        self.assertGreaterEqual(met, {50, 51, 52, 53, 54, 55})


if __name__ == "__main__":
    unittest.main()
