import random
import unittest

from flarecomb_tool import equations
from flarecomb_tool.format import Branch, Load, read_feeder
from tests.commands import OPPOSITE_ROW, feeder_text, line_row, regulator_row
from tests.support import EXAMPLES


class Values(unittest.TestCase):
    """The values that document 01 gives in one table."""

    def test_rounding(self):
        self.assertEqual([3, -3, 1], [equations.rounded(5, 2), equations.rounded(-5, 2), equations.rounded(4, 3)])

    def test_taps(self):
        for tap, voltage in ((16, 800000), (-16, 654545)):
            branch = Branch(5, "S", "N1", "A", "R", (tap,) + (0,) * 11)
            self.assertEqual((voltage, 0), equations.voltage_below(branch, [(720000, 0)] * 3, [(0, 0)] * 3)[0])

    def test_load_currents(self):
        for kind, vn, p, q, voltage, current in (
            ("P", 720000, 72000, 0, (719000, 0), (10014, 0)),
            ("I", 500000, 100, 0, (300000, 400000), (12, 16)),
            ("Z", 720000, 0, -720, (720000, 0), (0, 100)),
        ):
            self.assertEqual(current, equations.load_current(Load(8, "N1", "A", kind, vn, p, q), voltage))

    def test_delta_transformer(self):
        branch = Branch(5, "S", "N1", "ABC", "D", (12470, 2400) + (0,) * 10)
        source = [(720000, 0), (-360000, -623538), (-360000, 623538)]
        self.assertEqual((207859, -120007), equations.voltage_below(branch, source, [(0, 0)] * 3)[0])
        self.assertEqual((192, 0), equations.current_above(branch, [(1000, 0), (0, 0), (0, 0)])[0])


class BetweenPhases(unittest.TestCase):
    """Loads whose phase is AB, BC or CA."""

    VOLTAGES = [(720000, 0), (-360000, -623538), (-360000, 623538)]

    def at(self, phase, kind="P", vn=1247077, p=0, q=0):
        return Load(8, "S", phase, kind, vn, p, q)

    def trouble(self, voltages, *loads):
        """(number, row's phase) of 30 to 32 at these voltages of the source."""
        trouble = equations.currents_at(read_feeder(feeder_text(OPPOSITE_ROW, [], loads).encode()), {"S": voltages}, 1)[2]
        return trouble and (trouble.number, trouble.phase)

    def test_voltage_is_the_first_phase_less_the_second(self):
        for phase, voltage in (("AB", (1080000, 623538)), ("BC", (0, -1247076)), ("CA", (-1080000, 623538)), ("B", (-360000, -623538))):
            self.assertEqual(voltage, equations.load_voltage(self.at(phase), self.VOLTAGES))

    def test_current_goes_out_on_the_first_phase_and_comes_back_on_the_second(self):
        for phase, spread in (("AB", [(5, 7), (-5, -7), (0, 0)]), ("BC", [(0, 0), (5, 7), (-5, -7)]), ("CA", [(-5, -7), (0, 0), (5, 7)]),
                              ("C", [(0, 0), (0, 0), (5, 7)])):
            self.assertEqual(spread, equations.spread(self.at(phase), (5, 7)))

    def test_a_load_turned_round_is_the_same_load(self):
        """What is told of AC: that CA is the same load with the same p and q."""
        chance = random.Random(1)
        for _ in range(200):
            voltages = [(chance.randint(-2000000, 2000000), chance.randint(-2000000, 2000000)) for _ in range(3)]
            load = self.at("CA", chance.choice("PIZ"), chance.randint(1, 4000000), chance.randint(-3000000, 3000000), chance.randint(-3000000, 3000000))
            turned = equations.load_current(load, equations.minus(voltages[0], voltages[2]))
            spread = equations.spread(load, equations.load_current(load, equations.load_voltage(load, voltages)))
            self.assertEqual([turned, (0, 0), equations.scaled(-1, turned)], spread)

    def test_values_of_the_format_page(self):
        """Those that docs/FORMAT.md gives in its section 4."""
        for phase, kind, p, q, current in (("AB", "P", 30000, 18000, (2805, -47)), ("BC", "I", 30000, 0, (0, -2406)), ("CA", "Z", 0, -20000, (-802, -1389))):
            load = self.at(phase, kind, 1247077, p, q)
            self.assertEqual(current, equations.load_current(load, equations.load_voltage(load, self.VOLTAGES)))

    def test_zero_voltage_is_that_of_the_difference(self):
        for kind, found in (("P", None), ("I", (30, "AB")), ("Z", None)):
            self.assertEqual(found, self.trouble([(600000, 5), (600000, 5), (1, 1)], f"S,AB,{kind},1200000,0,0"))
        self.assertIsNone(self.trouble([(0, 0), (600000, 0), (0, 0)], "S,AB,I,1200000,0,0"))

    def test_the_limit_is_that_of_the_one_current(self):
        """On A the currents of both rows cancel; each is looked at before that."""
        voltages = [(100, 0), (0, 0), (0, 0)]
        for watts, found in ((2000, None), (2001, (31, "AB"))):
            # w is 10000, so that p W take p * 1000 mA
            self.assertEqual(found, self.trouble(voltages, f"S,AB,P,1,{watts},0", f"S,A,P,1,{-min(watts, 2000)},0"))

    def test_powers_by_hand(self):
        # 12 kW at 12000 V take 1 A, which drops 1 V on each of the two lines of 1 ohm: 11998 V take 1.000167 A.
        branch = line_row("S", "N1", "AB", [1000000, 0, 0, 0, 0, 0, 1000000, 0])
        feeder = read_feeder(feeder_text(OPPOSITE_ROW, [branch], ["N1,AB,P,1200000,12000,0"]).encode())
        self.assertEqual([
            "node,va_re,va_im,vb_re,vb_im,vc_re,vc_im", "S,600000,0,-600000,0,0,0", "N1,599900,0,-599900,0,0,0", "",
            "from,to,ia_re,ia_im,ib_re,ib_im,ic_re,ic_im,loss_p,loss_q", "S,N1,1000,0,-1000,0,0,0,200000,0", "",
            "sweeps,source_p,source_q,drawn_p,drawn_q,lost_p,lost_q", "2,1200000000,0,1199800000,0,200000,0", "",
            "to,tap_a,tap_b,tap_c",
        ], equations.report_lines(feeder, equations.study(feeder)))


class LowVoltage(unittest.TestCase):
    """Loads of kind P below 70 per cent of vn."""

    def load(self, kind, vn=720000, phase="A", p=720, q=0):
        return Load(8, "S", phase, kind, vn, p, q)

    def test_at_70_per_cent_and_below(self):
        # 302400 and 403200 are 3 and 4 fifths of 504000, which is 70 per cent of 720000.
        for voltage, kind in (
            ((504000, 0), "P"), ((503999, 0), "Z"), ((0, -504000), "P"), ((0, -503999), "Z"), ((302400, 403200), "P"), ((302400, 403199), "Z"),
            ((302399, 403200), "Z"), ((-302400, -403201), "P"), ((720000, 0), "P"), ((1, 0), "Z"), ((0, 0), "Z"),
        ):
            self.assertEqual(kind, equations.acts_as(self.load("P"), voltage), voltage)
            for other in "IZ":
                self.assertEqual(other, equations.acts_as(self.load(other), voltage))

    def test_least_and_greatest_rated_voltage(self):
        # 100 is not below 49, and no voltage but 0 is low at a vn of 1.
        self.assertEqual(["Z", "P"], [equations.acts_as(self.load("P", 1), voltage) for voltage in ((0, 0), (0, -1))])
        self.assertEqual(["Z", "P"], [equations.acts_as(self.load("P", 4000000, "AB"), voltage) for voltage in ((2799999, 0), (2800000, 0))])

    def test_currents(self):
        # 72000000 / 504000 is 142.86, and 72000000·503999 / 720000² is 69.99986.
        self.assertEqual([(143, 0), (70, 0), (0, 0)], [equations.load_current(self.load("P"), (size, 0)) for size in (504000, 503999, 0)])
        # 720 W and 360 var with the voltage on the imaginary axis
        self.assertEqual([(71, 143), (35, 70)], [equations.load_current(self.load("P", q=360), (0, size)) for size in (504000, 503999)])

    def test_current_is_that_of_the_kind_as_which_it_acts(self):
        chance = random.Random(6)
        low = 0
        for _ in range(400):
            voltage = (chance.randint(-1000000, 1000000), chance.randint(-1000000, 1000000))
            load = self.load("P", chance.randint(1, 2000000), "A", chance.randint(-3000000, 3000000), chance.randint(-3000000, 3000000))
            is_low = (10 * abs(complex(*voltage))) < 7 * load.vn
            low += is_low
            self.assertEqual(is_low, equations.is_low(load, voltage))
            divisor = load.vn**2 if is_low else equations.square(voltage)
            self.assertEqual(equations.rounded_pair(equations.scaled(100000, equations.times((load.p, -load.q), voltage)), divisor),
                             equations.load_current(load, voltage))
        self.assertGreater(low, 100)
        self.assertLess(low, 300)

    def test_between_two_phases_the_difference_counts(self):
        """70 per cent of 2000000 is 1400000: 700000 less -700000."""
        load = self.load("P", 2000000, "AB")
        for voltages, kind in (([(700000, 0), (-700000, 0), (0, 0)], "P"), ([(700000, 0), (-699999, 0), (0, 0)], "Z"),
                               ([(1999999, 0), (600000, 0), (0, 0)], "Z"), ([(0, 0), (0, 1400000), (9, 9)], "P")):
            self.assertEqual(kind, equations.acts_as(load, equations.load_voltage(load, voltages)))

    def test_zero_voltage(self):
        for phase in ("A", "AB"):
            for kind, number in (("P", None), ("I", 30), ("Z", None)):
                feeder = read_feeder(feeder_text("S,0,0,0,0,0,0,1,20", [], [f"S,{phase},{kind},720000,720,0"]).encode())
                for sweep in (0, 1):
                    trouble = equations.currents_at(feeder, {"S": [(0, 0)] * 3}, sweep)[2]
                    self.assertEqual(number, trouble and trouble.number)
                self.assertEqual(number, equations.study(feeder).trouble and equations.study(feeder).trouble.number)

    def settled(self, *loads):
        """The study of these loads behind 10 ohm, which settles."""
        branch = line_row("S", "N1", "A", [10000000])
        feeder = read_feeder(feeder_text("S,720000,0,0,0,0,0,1,50", [branch], loads).encode())
        studied = equations.study(feeder)
        self.assertIsNone(studied.trouble)
        return feeder, studied

    def test_picked_anew_in_each_sweep(self):
        """7200 V are 72 per cent of vn; the drop brings it below 70, where it stays."""
        feeder, studied = self.settled("N1,A,P,1000000,400000,0")
        kinds = [equations.acts_as(feeder.loads[0], voltages["N1"][0]) for voltages in studied.used]
        self.assertEqual((len(kinds), kinds[0], set(kinds[1:])), (studied.sweeps, "P", {"Z"}))
        # V0 is 720000. Sweep 1 takes 400 kW at 7200 V, 55556 mA, which drop 55556 cV: 664444, 66.4 per cent. Sweep 2 takes 664444/1000000² of
        # 4·10^10 grains, 26578 mA.
        self.assertEqual([720000, 664444, 720000 - 26578], [voltages["N1"][0][0] for voltages in studied.used[:3]])

    def test_a_report_below_70_per_cent_is_that_of_a_z_row(self):
        (power, as_power), (impedance, as_impedance) = (self.settled(f"N1,A,{kind},1100000,400000,100000") for kind in "PZ")
        self.assertEqual(equations.report_lines(power, as_power), equations.report_lines(impedance, as_impedance))


class Taps(unittest.TestCase):
    """Regulators that set their taps."""

    def branch(self, level, band, potential=1, current=1, r=0, x=0, phases="A", taps=(0, 0, 0)):
        return Branch(5, "S", "N1", phases, "R", (*taps, level, band, potential, current, r, x, 0, 0, 0))

    def test_relay_voltage(self):
        # 0.01 ohm and 1000 A at a ratio of 1 are 10 V
        for numbers, voltage, current, relay in (
            ((12000, 0, 60), (720000, -30), (0, 0), (12000, -1)),  # -30/60 is half a unit, which goes away from zero
            ((12000, 0, 1, 1, 10000, 0), (12000, 0), (1000000, 0), (11000, 0)),
            ((12000, 0, 1, 1, 0, 10000), (12000, 0), (1000000, 0), (12000, -1000)),
            ((12000, 0, 1, 200, 1460000, 2840000), (0, 0), (1000, -2000), (-4, 0)),
        ):
            self.assertEqual(relay, equations.relay_voltage(self.branch(*numbers), voltage, current))

    def test_document_004(self):
        """With the taps at 0 document 004 prints 113.0, 111.3 and 109.0 V; from the voltages and currents that it prints the last is 109.9 V."""
        feeder = read_feeder((EXAMPLES / "four_node_set.feeder").read_bytes())
        studied = equations.one_round(feeder)
        relays = [equations.relay_voltage(feeder.branches[2], studied.voltages["N3"][place], studied.currents["N3"][place]) for place in range(3)]
        self.assertEqual([113.0, 111.2, 110.0], [round(abs(complex(*relay)) / 100, 1) for relay in relays])

    def test_wanted_steps(self):
        for level, band, sizes in (
            (12000, 200, {11899: 1, 11900: 0, 12100: 0, 12101: -1}),
            (12000, 1, {11999: 1, 12000: 0, 12001: -1}),
            (12000, 0, {11999: 1, 12000: 0, 12001: -1}),
            # twice the level is at most the bandwidth: no voltage is too low
            (100, 200, {0: 0, 200: 0, 201: -1}),
            (100, 201, {0: 0, 200: 0, 201: -1}),
            (100, 199, {0: 1, 1: 0}),
            (0, 0, {0: 0, 5: 0}),
        ):
            branch = self.branch(level, band)
            for size, step in sizes.items():
                for voltage in ((size, 0), (0, -size)):
                    self.assertEqual([step, 0, 0], equations.wanted_steps(branch, [voltage] * 3, [(0, 0)] * 3), (level, band, voltage))

    def test_steps_within_16(self):
        for tap, low, high in ((16, 0, -1), (15, 1, -1), (-16, 1, 0), (-15, 1, -1)):
            branch = self.branch(100, 0, phases="BC", taps=(0, tap, tap))
            self.assertEqual([0, low, high], equations.steps_made(branch, [(0, 0), (99, 0), (101, 0)], [(0, 0)] * 3))

    def test_rounds(self):
        """31 moves at most: from -15 to 16 the rounds end, from -16 they do not."""
        for tap, number, rounds in ((-15, None, 32), (-16, 35, 32), (16, None, 1)):
            row = regulator_row("S", "N1", "A", (tap, 0, 0), (20000, 0, 100, 1, 0, 0))
            studied = equations.study(read_feeder(feeder_text("S,720000,0,0,0,0,0,1,40", [row]).encode()))
            self.assertEqual((number, rounds), (studied.trouble and studied.trouble.number, len(studied.tried)))
            self.assertEqual((15 if number else 16, 0, 0), studied.tried[-1][0])

    def test_all_phases_and_regulators_move_at_once(self):
        feeder = read_feeder((EXAMPLES / "four_node_set.feeder").read_bytes())
        tried = [taps[0] for taps in equations.study(feeder).tried]
        self.assertEqual([(0, 0, 0), (1, 1, 1)], tried[:2])
        self.assertEqual([(9, 9, 9), (9, 10, 10), (9, 11, 11), (9, 11, 12)], tried[9:])
        self.assertEqual(13, len(tried))

    def test_each_round_begins_anew(self):
        """The report is that of the feeder with the reached taps fixed."""
        set_taps, fixed = (read_feeder((EXAMPLES / f"{name}.feeder").read_bytes()) for name in ("four_node_set", "four_node_regulated"))
        self.assertEqual(equations.report_lines(fixed, equations.study(fixed)), equations.report_lines(set_taps, equations.study(set_taps)))


class Reports(unittest.TestCase):
    def test_examples(self):
        feeders = sorted(EXAMPLES.glob("*.feeder"))
        self.assertGreaterEqual(len(feeders), 7)
        for path in feeders:
            with self.subTest(path.name):
                feeder = read_feeder(path.read_bytes())
                lines = equations.report_lines(feeder, equations.study(feeder))
                self.assertEqual(path.with_suffix(".report").read_text(), "\n".join(lines) + "\n")


if __name__ == "__main__":
    unittest.main()
