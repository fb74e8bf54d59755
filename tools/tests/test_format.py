import unittest

from flarecomb_tool import format as files
from tests.support import EXAMPLES, feeder_bytes, report_bytes


class Columns(unittest.TestCase):
    def test_names_are_those_of_the_examples(self):
        feeder = (EXAMPLES / "example.feeder").read_text().split("\n")
        report = (EXAMPLES / "example.report").read_text().split("\n")
        self.assertEqual([feeder[0], feeder[3], feeder[6]], [files.header(table) for table in files.FEEDER_TABLES])
        self.assertEqual([report[0], report[4], report[7], report[10]], [files.header(table) for table in files.REPORT_TABLES])

    def test_each_kind_has_twelve_parameters(self):
        for kind, columns in files.PARAMETERS.items():
            self.assertEqual([f"p{place}" for place in range(1, 13)], [column.name for column in columns], kind)

    def test_zero_is_due_where_a_phase_is_absent(self):
        due = [column.name for column in files.PARAMETERS["L"] if files.zero_is_due(column, "AC")]
        self.assertEqual(["p3", "p4", "p7", "p8", "p9", "p10"], due)
        for level, first in ((0, 5), (1, 10), ("0", 5), ("12100", 10), ("", 10)):
            self.assertEqual(["p2"] + [f"p{place}" for place in range(first, 13)],
                             [column.name for column in files.parameters_of("R", level) if files.zero_is_due(column, "AC")])
        self.assertEqual(["p9", "p10", "p11", "p12"], [column.name for column in files.PARAMETERS["D"] if files.zero_is_due(column, "ABC")])

    def test_limits(self):
        taps = files.PARAMETERS["R"][0]
        self.assertEqual([True, False, False, True], [files.outside_limit(taps, tap) for tap in (-17, -16, 16, 17)])
        # a field that can only be 0 has no limit; those of a regulator by its level
        self.assertFalse(files.outside_limit(files.PARAMETERS["R"][9], 10**17))
        for place in range(4, 9):
            self.assertEqual([False, True], [files.outside_limit(files.parameters_of("R", level)[place], 10**17) for level in (0, 1)])

    def test_limits_of_a_regulator_that_sets_its_taps(self):
        for place, least, most in ((3, 0, 20000), (4, 0, 20000), (5, 1, 10000), (6, 1, 10000), (7, -10**8, 10**8), (8, -10**8, 10**8)):
            column = files.parameters_of("R", 12100)[place]
            self.assertEqual([True, False, False, True], [files.outside_limit(column, value) for value in (least - 1, least, most, most + 1)])
        self.assertTrue(files.outside_limit(files.FIXED_REGULATOR[files.LEVEL], -1))

    def test_rated_voltage_by_the_phase(self):
        for word, most in (("A", 2000000), ("B", 2000000), ("C", 2000000), ("AB", 4000000), ("BC", 4000000), ("CA", 4000000)):
            column = files.columns_of(files.LOADS, ["N1", word, "P"])[3]
            self.assertEqual([True, False, False, True], [files.outside_limit(column, vn) for vn in (0, 1, most, most + 1)], word)

    def test_what_each_phase_word_stands_between(self):
        for word in files.LOAD_SIGNS:
            signs = dict(zip(files.PHASES, files.LOAD_SIGNS[word]))
            self.assertEqual({word[0]: 1, **{phase: -1 for phase in word[1:]}}, {phase: sign for phase, sign in signs.items() if sign})
            self.assertEqual((sorted(word), len(word) == 2), (files.load_phases(word), files.is_between(word)))


class Fields(unittest.TestCase):
    def test_numbers(self):
        column = files.SOURCE.columns[1]
        for field, value in ((b"0", 0), (b"-1", -1), (b"9" * 18, 10**18 - 1)):
            self.assertEqual(value, files.read_field(column, field))
        for field in (b"", b"-", b"-0", b"01", b"+1", b" 1", b"1\r", b"1.0", b"9" * 19, "\u0661".encode(), b"1\n"):
            self.assertIsNone(files.read_field(column, field), field)

    def test_names(self):
        column = files.SOURCE.columns[0]
        self.assertEqual("A1B2C3D4", files.read_field(column, b"A1B2C3D4"))
        for field in (b"", b"A1B2C3D4E", b"a", b"A_", b"A ", "\u00c4".encode(), b"A\n"):
            self.assertIsNone(files.read_field(column, field), field)


    def test_phases_of_loads_and_branches(self):
        words = ("", "A", "B", "C", "AA", "AB", "AC", "BA", "BC", "CA", "CB", "ABC", "ab", "A-B")
        for table, place, taken in ((files.LOADS, 1, ["A", "B", "C", "AB", "BC", "CA"]),
                                    (files.BRANCHES, 2, ["A", "B", "C", "AB", "AC", "BC", "ABC"])):
            self.assertEqual(sorted(taken), sorted(word for word in words if files.read_field(table.columns[place], word.encode())))


class Files(unittest.TestCase):
    def test_lines_of_any_bytes(self):
        self.assertEqual([], files.split_lines(b""))
        self.assertEqual([files.Line(1, b"", True)], files.split_lines(b"\n"))
        self.assertEqual([files.Line(1, b"a\r", True), files.Line(2, b"", True), files.Line(3, b"b", False)], files.split_lines(b"a\r\n\nb"))

    def test_feeder(self):
        feeder = files.read_feeder(feeder_bytes("sound"))
        self.assertEqual(files.Source(2, "S", ((720000, 0), (-360000, -623538), (-360000, 623538)), 1, 20), feeder.source)
        self.assertEqual(files.Branch(6, "N1", "N2", "AB", "R", (-3, 4) + (0,) * 10), feeder.branches[1])
        self.assertEqual(files.Load(12, "N1", "C", "Z", 720000, 0, -100000), feeder.loads[2])
        self.assertEqual([5, 6, 7], [branch.line for branch in feeder.branches])

    def test_report(self):
        report = files.read_report(report_bytes("sound"))
        self.assertEqual(files.NodeVoltage(5, "N3", ((704167, -1407), (0, 0), (0, 0))), report.nodes[3])
        self.assertEqual(files.BranchCurrent(10, "N2", "N3", ((17030, -5714), (0, 0), (0, 0)), 16127646, 22577394), report.currents[2])
        self.assertEqual((13, 3, 25245349164), report.totals[:3])

    def test_report_with_and_without_taps(self):
        report = (EXAMPLES / "four_node_set.report").read_bytes()
        self.assertEqual([files.RegulatorTaps(18, "N3", (9, 11, 12))], files.read_report(report).taps)
        self.assertEqual([], files.read_report((EXAMPLES / "example.report").read_bytes()).taps)
        totals, table = report[:report.index(b"\nto,")], report[report.index(b"to,"):]
        self.assertIsNone(files.read_report(totals).taps)
        # the empty line and the table go together, and nothing follows the table
        for data, line in ((totals + b"\n", 17), (totals + table, 16), (report + b"\n", 19), (report[:-1], 18), (totals + b"\n" + table[:20], 17)):
            with self.assertRaises(files.NotLaidOut) as caught:
                files.read_report(data)
            self.assertEqual((50, line), (caught.exception.number, caught.exception.line))

    def test_taps_put_into_a_feeder(self):
        feeder = files.read_feeder((EXAMPLES / "four_node_set.feeder").read_bytes())
        self.assertEqual(([(0, 0, 0)], True), (files.taps_of(feeder), files.sets_taps(feeder)))
        changed = files.with_taps(feeder, [(1, -2, 3)])
        self.assertEqual((1, -2, 3) + feeder.branches[2].parameters[3:], changed.branches[2].parameters)
        self.assertEqual(feeder, files.with_taps(changed, [(0, 0, 0)]))
        self.assertFalse(files.sets_taps(files.read_feeder((EXAMPLES / "four_node_regulated.feeder").read_bytes())))

    def test_lines_where_the_layout_is_left(self):
        sound = feeder_bytes("sound")
        for data, line in ((b"", 1), (sound[:-1], 13), (sound + b"\n", 14), (sound.split(b"\n")[0] + b"\n", 2)):
            with self.assertRaises(files.NotLaidOut) as caught:
                files.read_feeder(data)
            self.assertEqual((10, line), (caught.exception.number, caught.exception.line))
        with self.assertRaises(files.NotLaidOut) as caught:
            files.read_report(sound)
        self.assertEqual((50, 1), (caught.exception.number, caught.exception.line))

    def test_largest_file(self):
        # Loads are read for layout also past 300 rows, so that a file of just 65,536 bytes can be well laid out.
        data = feeder_bytes("no_loads")
        row = b"N1,A,P,1,1,1\n"
        count, rest = divmod(files.LARGEST_FILE - len(data), len(row))
        data += row * (count - 1) + row.replace(b",1\n", b",1" + b"1" * rest + b"\n")
        self.assertEqual(files.LARGEST_FILE, len(data))
        self.assertGreater(len(files.read_feeder(data).loads), files.MOST_LOADS)
        with self.assertRaises(files.NotLaidOut) as caught:
            files.read_feeder(data + b"N")
        self.assertEqual(9, caught.exception.number)


if __name__ == "__main__":
    unittest.main()
