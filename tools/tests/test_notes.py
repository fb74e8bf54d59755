import unittest

from flarecomb_tool import equations, notes
from flarecomb_tool.format import read_feeder
from flarecomb_tool.wording import lines_said
from tests.commands import SOURCE_ROW, feeder_text, join, line_row, regulator_row

LOAD = "N1,A,P,720000,72000,0"


def noted(source=SOURCE_ROW, branches=(line_row("S", "N1", "ABC", [300000, 600000, 0, 0, 0, 0, 300000, 600000, 0, 0, 300000, 600000]),), loads=(LOAD,)):
    """The notes on a feeder of these rows, with its report."""
    feeder = feeder_text(source, branches, loads)
    read = read_feeder(feeder.encode())
    return notes.notes_of(join(feeder, "\n".join(equations.report_lines(read, equations.study(read))) + "\n"))


def source_row(*voltages):
    return ",".join(["S", *map(str, voltages), "1", "20"])


class Notes(unittest.TestCase):
    def assert_none(self, **rows):
        self.assertEqual(noted(**rows), [])

    def assert_lines(self, expected, word, **rows):
        found = [note.line for note in noted(**rows) if word in note.text]
        self.assertEqual(found, expected)

    def test_nothing_to_say(self):
        self.assert_none()
        self.assertEqual(notes.beside_report(b"", b""), "")

    def test_source_of_one_or_two_phases(self):
        self.assert_none(source=source_row(720000, 0, 0, 0, 0, 0))
        self.assert_none(source=source_row(720000, 0, -360000, -623538, 0, 0))

    def test_source_turned_as_a_whole(self):
        # A at 30 degrees, B at -90, C at 150
        self.assert_none(source=source_row(623538, 360000, 0, -720000, -623538, 360000))
        self.assert_lines([2], "order A, C, B", source=source_row(623538, 360000, -623538, 360000, 0, -720000))

    def test_source_nearly_120_degrees_apart(self):
        self.assert_none(source=source_row(720000, 0, -300000, -623538, -360000, 623538))
        self.assert_lines([2], "not 120 degrees apart", source=source_row(720000, 0, 360000, -623538, -360000, 623538))
        self.assert_lines([2], "not 120 degrees apart", source=source_row(720000, 0, 720000, 0, 720000, 0))

    def test_taps_at_their_end(self):
        for level, band, taps, word in ((14000, 200, (0, 0, 0), "the tap of A stands at 16 and still wants up"),
                                        (9000, 200, (0, 0, 0), "the tap of A stands at -16 and still wants down"),
                                        (120, 200, (0, 0, 0), "120 V is 12000")):
            branch = regulator_row("S", "N1", "A", taps, (level, band, 60, 100, 0, 0))
            self.assert_lines([5], word, branches=(branch,))
        for relay in ((12000, 200, 60, 100, 0, 0), (0,) * 6):
            self.assert_none(branches=(regulator_row("S", "N1", "A", (16, 0, 0) if not relay[0] else (0, 0, 0), relay),), loads=("N1,A,P,750000,72000,0",))

    def test_bandwidth_below_a_step(self):
        for band, expected in ((74, [5]), (75, [])):
            self.assert_lines(expected, "with a little other load the rounds may not end",
                              branches=(regulator_row("S", "N1", "A", (0, 0, 0), (12000, band, 60, 100, 0, 0)),))

    def test_no_load_rows(self):
        self.assert_lines([None], "no load rows", loads=())

    def test_the_same_load_row_twice(self):
        self.assert_lines([8], "lines 8, 9 and 11", loads=(LOAD, LOAD, "N1,A,P,720000,72001,0", LOAD))
        # rows of nothing change nothing
        self.assert_none(loads=(LOAD, "N1,B,P,720000,0,0", "N1,B,P,720000,0,0"))

    def test_loss_that_only_rounding_makes_negative(self):
        """A line of reactance alone loses no real power, but its rounded drop can give the report a loss of a few grains below 0."""
        below_zero = 0
        for watts in range(1000, 9000, 37):
            branch, load = line_row("S", "N1", "A", [0, 100000]), f"N1,A,P,720000,{watts},{watts // 3}"
            feeder = read_feeder(feeder_text(SOURCE_ROW, [branch], [load]).encode())
            lost = equations.report_lines(feeder, equations.study(feeder))[-3].split(",")[5]
            below_zero += int(lost) < 0
            self.assert_none(branches=(branch,), loads=(load,))
        self.assertGreater(below_zero, 0)

    def test_mutual_resistance_above_the_phases_own(self):
        branch = line_row("S", "N1", "AB", [100000, 600000, 300000, 300000, 0, 0, 100000, 600000])
        self.assert_lines([5], "loses -", branches=(branch,), loads=(LOAD, "N1,B,P,720000,72000,0"))

    def test_small_impedances(self):
        large = line_row("S", "N1", "A", [300000, 600000])
        self.assert_lines([6], "r of aa 999 micro-ohms", branches=(large, line_row("N1", "N2", "A", [999, 600000])))
        self.assert_none(branches=(large, line_row("N1", "N2", "A", [1000, 600000])))
        # a line of 0 ohm joins two nodes
        self.assert_none(branches=(large, line_row("N1", "N2", "A", [0, 0])))

    def test_rated_voltage_of_a_load_between_two_phases(self):
        """vn is compared with the difference, 12470.76 V without load."""
        for vn in (1247077, 1000000, 1558000):
            self.assert_none(loads=(f"N1,AB,Z,{vn},72000,0",))
        for vn in (720000, 990000, 1560000, 12470):
            self.assert_lines([8], "between C and A; vn is in cV and from phase to phase", loads=(f"N1,CA,I,{vn},1000,0",))
        self.assert_lines([8], "between B and C (a P row uses vn only below 70 per cent of it, where it acts as Z); vn is in cV and from phase",
                          loads=("N1,BC,P,720000,72000,0",))
        # a load to ground with a voltage between phases is still told
        self.assert_lines([8], "on B; vn is in cV and to ground", loads=("N1,B,Z,1247077,72000,0",))

    def test_power_loads_below_70_per_cent(self):
        """At the source, where the voltage is known: 7200 V, and 12470.76 V between two phases."""
        low = "per cent of vn: below 70 per cent a P row acts as Z; vn is in cV and"
        for phase, at, below in (("A", 1028571, 1028572), ("BC", 1781537, 1781538)):
            # 70 per cent of the second is more than the voltage by less than 1 cV
            self.assert_lines([8], f"69.99 {low}", loads=(f"S,{phase},P,{below},72000,0",))
            self.assert_lines([], low, loads=(f"S,{phase},P,{at},72000,0",))
            self.assert_lines([8], "a P row uses vn only below 70 per cent of it", loads=(f"S,{phase},P,{at},72000,0",))
            for kind in "IZ":
                self.assert_lines([], "per cent", loads=(f"S,{phase},{kind},{below},72000,0",))
        # P rows from 80 to 125 per cent are not spoken of
        for vn in (576001, 720000, 899999):
            self.assert_none(loads=(f"S,A,P,{vn},72000,0",))

    def test_power_loads_at_zero_voltage(self):
        source = source_row(720000, 0, 0, 0, 0, 0)
        self.assert_lines([9], "its node S has 0.00 V on B: a P row acts as Z there and draws nothing", source=source,
                          loads=(LOAD, "S,B,P,720000,0,1000", "S,B,Z,720000,0,-1000", "S,B,P,720000,0,0"))
        self.assert_lines([9], "its node S has 0.00 V between B and C: a P row acts as Z there and draws nothing", source=source,
                          loads=(LOAD, "S,BC,P,1247077,1000,0"))

    def test_many_of_a_kind(self):
        found = noted(loads=[f"N1,A,P,7200,{watts},0" for watts in range(1000, 1020)])
        self.assertEqual([note.line for note in found], [8, 9, 10, 11, 12, 13, None])
        self.assertEqual(found[-1].text, "likewise lines 14 to 27")

    def test_warnings_are_the_notes(self):
        joined = join(*self.files(loads=()))
        self.assertEqual(notes.warnings(joined), ["feeder: there are no load rows: all currents are 0"])
        self.assertEqual(notes.beside_report(*(text.encode() for text in self.files(loads=()))),
                         "The report is made. Please look at:\nThere are no load rows: all currents are 0.")

    def files(self, loads):
        feeder = feeder_text(SOURCE_ROW, [line_row("S", "N1", "A", [300000, 600000])], loads)
        read = read_feeder(feeder.encode())
        return feeder, "\n".join(equations.report_lines(read, equations.study(read))) + "\n"


class Lines(unittest.TestCase):
    def test_lines_said(self):
        for numbers, said in (
            ([5], "line 5"), ([5, 5], "line 5"), ([6, 5], "lines 5 and 6"), ([11, 6, 7], "lines 6, 7 and 11"), (range(10, 14), "lines 10 to 13"),
            ([1, 3, 4, 5, 9], "lines 1, 3 to 5 and 9"),
        ):
            self.assertEqual(lines_said(numbers), said)
        self.assertTrue(lines_said(range(1, 100, 2)).endswith(", 21, 23 and 38 more"))


if __name__ == "__main__":
    unittest.main()
