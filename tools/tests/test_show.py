"""flarecomb show: figures worked by hand, the source documents' printed figures, the power account, and what is said of wrong units."""
import csv
import io
import pathlib
import random
import re
import tempfile
import unittest

from flarecomb_tool import equations, format, notes, power, show, tables
from tests import commands
from tests.commands import EXAMPLES, PROGRAMS, join, join_example
from tests.support import needs_programs

NO_PROGRAM = ("--programs", "no-such-folder")


def csv_tables(text):
    """Each table as a list of rows by column name."""
    found = []
    for block in text.split("\n\n"):
        found.append(list(csv.DictReader(io.StringIO(block))))
    return found


class ShowCase(unittest.TestCase):
    def setUp(self):
        folder = tempfile.TemporaryDirectory()
        self.addCleanup(folder.cleanup)
        self.folder = pathlib.Path(folder.name)

    def write(self, feeder, report):
        paths = self.folder / "a.feeder", self.folder / "a.report"
        for path, text in zip(paths, (feeder, report)):
            path.write_text(text)
        return paths

    def example(self, name, *words):
        return commands.run(show, EXAMPLES / f"{name}.feeder", EXAMPLES / f"{name}.report", *NO_PROGRAM, *words)


class Equations(unittest.TestCase):
    """Document 01's table of proved values, and README.md's example by hand."""

    def load(self, kind, vn, p, q):
        return format.Load(8, "N1", "A", kind, vn, p, q)

    def test_load_currents_of_document_01(self):
        self.assertEqual(power.load_current(self.load("P", 720000, 72000, 0), (719000, 0)), (10014, 0))
        self.assertEqual(power.load_current(self.load("I", 500000, 100, 0), (300000, 400000)), (12, 16))
        self.assertEqual(power.load_current(self.load("Z", 720000, 0, -720), (720000, 0)), (0, 100))

    def test_no_current_and_no_rating_are_defined_for_i_at_zero_voltage(self):
        for kind, found in (("P", (0, 0)), ("I", None), ("Z", (0, 0))):
            for watts in (0, 1):
                load = self.load(kind, 720000, watts, 0)
                self.assertEqual((power.load_current(load, (0, 0)), power.load_rating(load, (0, 0))), (found, found))

    def test_ratings_at_half_and_at_three_quarters_of_the_rated_voltage(self):
        # 1600 W at vn: at three quarters a P load keeps it, an I load has three quarters of it and a Z load 9/16.
        at_three_quarters = {kind: power.load_rating(self.load(kind, 720000, 1600, 320), (540000, 0)) for kind in "PIZ"}
        self.assertEqual(at_three_quarters, {"P": (160000000, 32000000), "I": (120000000, 24000000), "Z": (90000000, 18000000)})
        # At half an I load has half of it and a Z load a quarter; a P load is below 70 per cent and has what a Z load has.
        at_half = {kind: power.load_rating(self.load(kind, 720000, 1600, 320), (360000, 0)) for kind in "PIZ"}
        self.assertEqual(at_half, {"P": (40000000, 8000000), "I": (80000000, 16000000), "Z": (40000000, 8000000)})

    def test_ratings_at_70_per_cent(self):
        # 720 W at vn 7200 V. One cV below 5040 V they are 72000000 times (503999/720000)², that is 35279860.00 to the nearest.
        for kind, at, below in (("P", 72000000, 35279860), ("I", 50400000, 50399900), ("Z", 35280000, 35279860)):
            load = self.load(kind, 720000, 720, 0)
            self.assertEqual([power.load_rating(load, (volts, 0)) for volts in (504000, 503999)], [(at, 0), (below, 0)])

    def test_a_rating_is_rounded_once_and_away_from_zero(self):
        # 100000 · 9 / 640000 is 1.40625, and 100000 · 100 / 4000000 is 2.5.
        self.assertEqual(power.load_rating(self.load("Z", 800, 1, -1), (3, 0)), (1, -1))
        self.assertEqual(power.load_rating(self.load("Z", 2000, 1, -1), (6, 8)), (3, -3))

    def test_exact_loss_with_coupling(self):
        # conj(I)·z·I with I_a = 1000, I_b = j1000 mA, z_aa = z_bb = 1 Ω and z_ab = j0.5 Ω: the two coupled terms cancel.
        branch = format.Branch(5, "S", "N1", "AB", "L", (1000000, 0, 0, 500000, 0, 0, 1000000, 0, 0, 0, 0, 0))
        self.assertEqual(power.exact_loss(power.impedance_matrix(branch), ((1000, 0), (0, 1000), (0, 0))), (200000, 0))
        # With I_b = 1000 they add: j0.5 Ω twice.
        self.assertEqual(power.exact_loss(power.impedance_matrix(branch), ((1000, 0), (1000, 0), (0, 0))), (200000, 100000))

    def test_nearest_root(self):
        self.assertEqual([power.nearest_root(number) for number in (0, 1, 2, 3, 6, 7, 12, 13, 10 ** 20)], [0, 1, 1, 2, 2, 3, 3, 4, 10 ** 10])


class PowerAccount(unittest.TestCase):
    def test_example_of_document_01(self):
        account = join_example("example").account()
        self.assertEqual(account.source, (7210080000, 0))
        self.assertEqual(account.ratings, (7200000000, 0))
        self.assertEqual(account.losses, (10028020, 0))
        self.assertEqual(account.difference, (51980, 0))
        self.assertEqual(account.allowance, 749044)
        self.assertTrue(account.within)

    def test_regulator_by_hand(self):
        # 7200 V at tap 16 is 8000 V; 72 kW draw 9 A there, which is 160/144 times as much, 10 A, above the regulator.
        feeder = commands.feeder_text(commands.SOURCE_ROW, ["S,N1,A,R,16,0,0,0,0,0,0,0,0,0,0,0"], ["N1,A,P,800000,72000,0"])
        report = commands.report_text(["S,720000,0,-360000,-623538,-360000,623538", "N1,800000,0,0,0,0,0"], ["S,N1,9000,0,0,0,0,0,0,0"],
                                      "2,7200000000,0,7200000000,0,0,0", ["N1,16,0,0"])
        account = join(feeder, report).account()
        self.assertEqual(account.difference, (0, 0))
        # The load: 2·1·9000 + 800000 + 1. The regulator, on A alone: 720000 + 2·1 + 9000.
        self.assertEqual(account.allowance, 818001 + 729002)

    def transformer(self):
        # Turns 3/1 and 1 Ω on the low side, 24 kW on A. Sweeps: I 10000, V 239000; 10042, 238996; 10042, 238996. J = 10042/3 = 3347.
        feeder = commands.feeder_text(commands.SOURCE_ROW, ["S,N1,ABC,Y,3,1,1000000,0,0,0,0,0,0,0,0,0"], ["N1,A,P,240000,24000,0"])
        report = commands.report_text(
            ["S,720000,0,-360000,-623538,-360000,623538", "N1,238996,0,-120000,-207846,-120000,207846"],
            ["S,N1,10042,0,0,0,0,0,10082168,0"], "3,2409840000,0,2399997832,0,10082168,0")
        return feeder, report

    def test_transformer_by_hand(self):
        account = join(*self.transformer()).account()
        # 24 kW and 10042²/10 grains make 2410084176, 244176 more than 720000·3347.
        self.assertEqual(account.losses, (10084176, 0))
        self.assertEqual(account.difference, (244176, 0))
        # The load: 2·1·10042 + 238996 + 1. The transformer: 1, |V| of three phases, 2·tol three times, 2·10042.
        self.assertEqual(account.allowance, 259081 + 1 + 720000 + 2 * 983538 + 6 + 20084)

    # 12000 V between A and B, and 12 kW. With vn 15000 V a P load takes all. With vn 24000 V it is below 70 per cent of that and takes a
    # quarter as a Z load does, and an I load takes a half.
    BETWEEN_PHASES = (("P", 1500000, 1000), ("P", 2400000, 250), ("I", 2400000, 500), ("Z", 2400000, 250))

    def between_phases(self, kind, vn, milliamperes, tol=1):
        feeder = commands.feeder_text(commands.OPPOSITE_ROW.replace(",1,20", f",{tol},20"), [], [f"S,AB,{kind},{vn},12000,0"])
        drawn = 1200000 * milliamperes
        report = commands.report_text([commands.OPPOSITE_ROW.rsplit(",", 2)[0]], [], f"1,{drawn},0,{drawn},0,0,0")
        return feeder, report

    def test_a_load_between_two_phases_by_hand(self):
        for kind, vn, milliamperes in self.BETWEEN_PHASES:
            for tol in (0, 1, 1000):
                with self.subTest(kind, vn=vn, tol=tol):
                    account = join(*self.between_phases(kind, vn, milliamperes, tol)).account()
                    self.assertEqual(account.ratings, (1200000 * milliamperes, 0))
                    self.assertEqual(account.difference, (0, 0))
                    # 4·tol·|I| + |V| + 1, with V the difference
                    self.assertEqual(account.allowance, 4 * tol * milliamperes + 1200000 + 1)

    def test_the_allowance_takes_both_parts_of_the_difference(self):
        # V_b - V_c is (100, -900), of which |V| is 1000; 1 W takes rnd(100000·(100, -900)/820000) = (12, -110).
        feeder = commands.feeder_text("S,0,0,300,-400,200,500,3,20", [], ["S,BC,P,1,1,0"])
        account = join(feeder, commands.worked_report(feeder)).account()
        self.assertEqual(account.allowance, 4 * 3 * (12 + 110) + 1000 + 1)

    def test_chance_feeders_are_within_their_allowance(self):
        chance = random.Random(5)
        between = 0
        for _ in range(60):
            feeder = chance_feeder(chance)
            read = format.read_feeder(feeder.encode())
            if equations.study(read).trouble is None:
                self.assertTrue(join(feeder, commands.worked_report(feeder)).account().within, feeder)
                between += sum(format.is_between(load.phase) for load in read.loads)
        self.assertGreater(between, 40)

    @needs_programs
    def test_loads_between_two_phases_by_hand_are_what_the_study_writes(self):
        for row in self.BETWEEN_PHASES:
            feeder, report = self.between_phases(*row)
            self.assertEqual(commands.study(feeder), report)

    def at_the_source(self, centivolts, kind, milliamperes):
        # 720 W at vn 7200 V
        feeder = commands.feeder_text(f"S,{centivolts},0,0,0,0,0,1,20", [], [f"S,A,{kind},720000,720,0"])
        drawn = centivolts * milliamperes
        return feeder, commands.report_text([f"S,{centivolts},0,0,0,0,0"], [], f"1,{drawn},0,{drawn},0,0,0")

    # V, kind, current and rating: at 5040 V a P load takes rnd(142.86), and one cV below, as a Z load does, rnd(69.99986).
    AT_70_PER_CENT = ((504000, "P", 143, 72000000), (503999, "P", 70, 35279860), (504000, "Z", 70, 35280000), (503999, "Z", 70, 35279860))

    def test_70_per_cent_by_hand(self):
        for centivolts, kind, milliamperes, rating in self.AT_70_PER_CENT:
            with self.subTest(kind, centivolts=centivolts):
                account = join(*self.at_the_source(centivolts, kind, milliamperes)).account()
                self.assertEqual((account.ratings, account.difference), ((rating, 0), (abs(centivolts * milliamperes - rating), 0)))
                self.assertEqual(account.allowance, 2 * milliamperes + centivolts + 1)
                self.assertTrue(account.within)

    @needs_programs
    def test_70_per_cent_by_hand_is_what_the_study_writes(self):
        for centivolts, kind, milliamperes, _ in self.AT_70_PER_CENT:
            feeder, report = self.at_the_source(centivolts, kind, milliamperes)
            self.assertEqual(commands.study(feeder), report)

    @needs_programs
    def test_transformer_by_hand_is_what_the_study_writes(self):
        feeder, report = self.transformer()
        self.assertEqual(commands.study(feeder), report)

    def test_every_example_is_within_its_allowance(self):
        for path in sorted(EXAMPLES.glob("*.feeder")):
            with self.subTest(path.name):
                account = join_example(path.stem).account()
                self.assertTrue(account.within)
                self.assertGreater(account.ratings[0], 0)

    def test_a_total_that_is_off_is_outside(self):
        report = (EXAMPLES / "example.report").read_text().replace("7210080000,0,", "7210080000,374523,")
        account = join((EXAMPLES / "example.feeder").read_text(), report).account()
        # 2 · 374522 is the allowance, one grain more is outside it.
        self.assertEqual(account.difference, (51980, 374523))
        self.assertFalse(account.within)

    def test_only_a_load_of_kind_i_at_zero_voltage_has_no_account(self):
        report = commands.report_text(["S,0,0,0,0,0,0"], [], "1,0,0,0,0,0,0")
        for kind, found in (("P", (0, 0)), ("I", None), ("Z", (0, 0))):
            joined = join(commands.feeder_text("S,0,0,0,0,0,0,1,20", [], [f"S,A,{kind},720000,1,0"]), report)
            account = joined.account()
            self.assertEqual(account and account.difference, found)
            said = "not defined: a load of kind I stands at zero voltage"
            self.assertEqual(tables.account_table(joined).rows[0][0] == said, kind == "I")


class Figures(ShowCase):
    def test_the_example_by_hand(self):
        status, text, errors = self.example("example")
        self.assertEqual((status, errors), (0, ""))
        for figure in ("7190.00", "10.014", "72.101", "0.9986 pu, 7190.00 V at N1, phase A", "0.100 kW, 0.139 % of what the source gives",
                       "twice the difference 103960 and 0 grains, at most 749044 allowed", "2 of at most 20"):
            self.assertIn(figure, text)

    def test_printed_voltages_of_four_nodes(self):
        nodes = {row["node"]: row for row in csv_tables(self.example("four_node", "--csv")[1])[1]}
        for node, printed in (("N3", (117.5, 117.1, 116.7)), ("N4", (113.9, 110.0, 110.6))):
            for phase, figure in zip("ABC", printed):
                # Document 004 prints volts of a 120-volt base of 2400 V.
                self.assertAlmostEqual(float(nodes[node][f"V_{phase}_V"]) / 20, figure, delta=0.06)
        for phase, angle in zip("ABC", (-31.2, -151.7, 87.8)):
            self.assertAlmostEqual(float(nodes["N3"][f"angle_{phase}_deg"]), angle, delta=0.1)

    def test_base_is_stepped_by_the_delta_transformer(self):
        base = join_example("four_node").base
        # 7199.56·√3·2400/12470 V.
        self.assertEqual([round(value) for value in base["N4"]], [240000, 240000, 240000])
        self.assertEqual([round(value) for value in base["N2"]], [719956, 719956, 719956])
        self.assertEqual(self.example("four_node")[1].count("stepped by transformers"), 1)

    def test_a_regulator_does_not_step_the_base(self):
        base = join_example("four_node_regulated").base
        self.assertEqual(base["N3"], base["N3R"])

    def test_regulators(self):
        relay = ["121.00", "2.00", "20", "200", "1.460000", "2.840000"]
        for name, row in (("four_node_set", relay), ("four_node_regulated", [None] * 6)):
            table = tables.regulator_table(join_example(name))
            self.assertEqual([["N3", *row, "9", "11", "12"]], [cells[:10] for cells in table.rows])
        text = self.example("four_node_set")[1]
        # Document 004 prints 120.3, 120.4 and 120.1 V.
        for figure in ("\nRegulators\n", "120.23   120.38   120.16\n", "sets its taps, first taps A 0, B 0, C 0"):
            self.assertIn(figure, text)
        self.assertNotIn("Regulators", self.example("four_node")[1])

    def test_report_without_taps(self):
        feeder, report = ((EXAMPLES / f"four_node_regulated.{kind}").read_text() for kind in ("feeder", "report"))
        before = join(feeder, commands.without_taps(report))
        self.assertEqual(join(feeder, report).taps, before.taps)
        self.assertEqual(tables.regulator_table(join(feeder, report)), tables.regulator_table(before))
        self.assertIn(("taps", "the report has no table of taps: those of the feeder count"), tables.facts(before, b"", b"", []))

    def test_lowest_and_highest_by_per_unit(self):
        lowest, highest = join_example("four_node_regulated").extremes()
        self.assertEqual((lowest.node, lowest.phase, highest.node, highest.phase), ("N3R", "C", "N3", "C"))

    def test_flow_into_a_node_is_what_its_loads_draw(self):
        both = join_example("four_node_regulated")
        self.assertEqual(both.flow_into("N4"), (272499913157, 122128981963))

    def test_drawn_power_of_the_loads_is_the_total_of_the_report(self):
        for path in sorted(EXAMPLES.glob("*.feeder")):
            with self.subTest(path.name):
                both = join_example(path.stem)
                totals = both.report.totals
                self.assertEqual(equations.total(flow.drawn for flow in both.loads), (totals.drawn_p, totals.drawn_q))

    def test_csv_has_the_rows_and_figures_of_the_text(self):
        _, text, _ = self.example("section_from_a")
        found = csv_tables(self.example("section_from_a", "--csv")[1])
        self.assertEqual([len(table) for table in found[1:]], [17, 16, 16, 32, 4, 7])
        for table in found[1:]:
            for row in table:
                for cell in row.values():
                    self.assertIn(cell, text)

    def test_absent_phases_have_no_figures(self):
        nodes = csv_tables(self.example("example", "--csv")[1])[1]
        self.assertEqual([nodes[1][f"V_{phase}_V"] for phase in "ABC"], ["7190.00", "", ""])

    def test_a_load_between_two_phases_has_the_voltage_between_them(self):
        feeder = commands.feeder_text(commands.OPPOSITE_ROW, [], ["S,AB,P,1200000,12000,6000", "S,A,P,600000,12000,0"])
        paths = self.write(feeder, commands.worked_report(feeder))
        loads = csv_tables(commands.run(show, *paths, *NO_PROGRAM, "--csv")[1])[4]
        self.assertEqual([(row["phase"], row["vn_V"], row["V_V"], row["I_A"], row["drawn_p_kW"], row["drawn_q_kvar"]) for row in loads],
                         [("AB", "12000.00", "12000.00", "1.118", "12.000", "6.000"), ("A", "6000.00", "6000.00", "2.000", "12.000", "0.000")])

    def test_a_power_load_below_70_per_cent_of_its_rated_voltage_acts_as_an_impedance(self):
        loads = [f"S,{phase},{kind},720000,720,0" for phase in "ABC" for kind in "PIZ"] + ["S,AB,P,1440000,720,0", "S,AB,P,1439998,720,0"]
        feeder = commands.feeder_text("S,504000,0,-503999,0,0,0,1,20", [], [load for load in loads if load[2:5] != "C,I"])
        paths = self.write(feeder, commands.worked_report(feeder))
        found = [(row["phase"], row["kind"], row["V_%_of_vn"], row["acts_as"], row["drawn_p_kW"])
                 for row in csv_tables(commands.run(show, *paths, *NO_PROGRAM, "--csv")[1])[4]]
        # A whole mA counts here: 143 mA at 5040 V are 720.72 W, and 70 mA are 352.80 W.
        self.assertEqual(found, [
            ("A", "P", "70.00", "", "0.721"), ("A", "I", "70.00", "", "0.504"), ("A", "Z", "70.00", "", "0.353"),
            ("B", "P", "69.99", "Z", "0.353"), ("B", "I", "69.99", "", "0.504"), ("B", "Z", "69.99", "", "0.353"),
            ("C", "P", "0.00", "Z", "0.000"), ("C", "Z", "0.00", "", "0.000"),
            ("AB", "P", "69.99", "Z", "0.353"), ("AB", "P", "70.00", "", "0.716")])
        self.assertIn("warning: feeder, line 10: vn is 7200.00 V, its node S has 5039.99 V on B, 69.99 per cent of vn: "
                      "below 70 per cent a P row acts as Z; vn is in cV and to ground\n", commands.run(show, *paths, *NO_PROGRAM)[1])

    def test_no_branches_and_no_loads(self):
        paths = self.write(commands.feeder_text(commands.SOURCE_ROW), commands.report_text([commands.SOURCE_ROW.rsplit(",", 2)[0]], [], "1,0,0,0,0,0,0"))
        status, text, _ = commands.run(show, *paths, *NO_PROGRAM)
        self.assertEqual(status, 0)
        self.assertIn("twice the difference 0 and 0 grains, at most 0 allowed", text)

    def test_decimals_are_rounded_in_whole_numbers(self):
        self.assertEqual([tables.decimal_text(*one) for one in ((5, 1, 0), (-15, 2, 1), (4, 2, 1), (-4, 2, 1), (7, 0, 2), (123456, 3, 3))],
                         ["1", "-0.2", "0.0", "0.0", "7.00", "123.456"])
        self.assertEqual(tables.fixed(-0.001, 2), "0.00")


class Check(ShowCase):
    def test_not_checked_without_the_program(self):
        self.assertIn("not checked (there is no program archive_check)", self.example("example")[1])

    @needs_programs
    def test_pass_and_refusal_of_the_program(self):
        feeder = (EXAMPLES / "example.feeder").read_text()
        report = (EXAMPLES / "example.report").read_text()
        for text, answer in ((report, "pass"), (report.replace("10014,", "10015,"), "refused 53 6"), (report.replace("66000,0,10024014", "66000,0,10024013"), "refused 55 0")):
            self.assertEqual(text == report, answer == "pass")
            _, shown, _ = commands.run(show, *self.write(feeder, text), "--programs", PROGRAMS)
            self.assertRegex(shown, rf"archive check +{answer}\n")
            self.assertEqual(len(re.findall(r"^refusal +the report", shown, re.MULTILINE)), answer != "pass")


    def test_a_program_that_fails_is_no_answer(self):
        program = self.folder / "archive_check"
        for script in ("echo pass; echo failed >&2", "exit 3", "echo passed", "echo refused 54"):
            program.write_text(f"#!/bin/sh\n{script}\n")
            program.chmod(0o755)
            with self.subTest(script):
                _, shown, _ = commands.run(show, EXAMPLES / "example.feeder", EXAMPLES / "example.report", "--programs", self.folder)
                self.assertIn("not checked (archive_check failed)", shown)
        program.chmod(0o644)
        _, shown, _ = commands.run(show, EXAMPLES / "example.feeder", EXAMPLES / "example.report", "--programs", self.folder)
        self.assertIn("not checked (archive_check cannot be run)", shown)


class Studied(unittest.TestCase):
    @needs_programs
    def test_account_and_drawn_power_of_what_the_study_writes(self):
        chance = random.Random(3)
        reports = 0
        for _ in range(60):
            feeder = chance_feeder(chance)
            report = commands.study(feeder)
            if report.startswith("refused"):
                continue
            reports += 1
            both = join(feeder, report)
            totals = both.report.totals
            self.assertTrue(both.account().within, feeder)
            self.assertEqual(equations.total(flow.drawn for flow in both.loads), (totals.drawn_p, totals.drawn_q))
        self.assertGreater(reports, 40)


def chance_feeder(chance):
    """Up to 12 branches of every kind, and loads of every kind."""
    phases, rated = {"S": "ABC"}, {"S": 720000}
    branches, loads = [], []
    for place in range(chance.randint(1, 12)):
        above, name = chance.choice(sorted(phases)), f"N{place}"
        kind = chance.choice("LLLRYD") if phases[above] == "ABC" else chance.choice("LLR")
        own = phases[above] if kind in "YD" or chance.random() < 0.6 else chance.choice(phases[above])
        rated[name] = rated[above]
        if kind == "L":
            values = [chance.randint(1000, 300000) if set(pair) <= set(own) else 0 for pair in ("AA", "AB", "AC", "BB", "BC", "CC") for _ in "rx"]
        elif kind == "R":
            values = [chance.randint(-16, 16) if phase in own else 0 for phase in "ABC"]
        else:
            values = [3 if kind == "Y" else 5, 2 if kind == "Y" else 3] + [chance.randint(1000, 100000) for _ in range(6)]
        phases[name] = own
        branches.append(f"{above},{name},{own},{kind}," + ",".join(map(str, values + [0] * (12 - len(values)))))
    for _ in range(chance.randint(1, 20)):
        node = chance.choice(sorted(phases))
        phase = chance.choice([word for word in format.LOAD_SIGNS if set(word) <= set(phases[node])])
        vn = round(rated[node] * 3 ** 0.5) if format.is_between(phase) else rated[node]
        loads.append(f"{node},{phase},{chance.choice('PIZ')},{vn},{chance.randint(-5000, 90000)},{chance.randint(-20000, 40000)}")
    return commands.feeder_text(f"{commands.SOURCE_ROW[:-4]}{chance.choice((0, 1, 5))},40", branches, loads)


class Faults(ShowCase):
    def said(self, feeder, report):
        status, output, errors = commands.run(show, *self.write(feeder, report), *NO_PROGRAM)
        self.assertEqual((status, output), (2, ""))
        return errors.replace(f"{self.folder}/", "")

    def test_files_that_are_no_feeder_and_its_report(self):
        feeder = (EXAMPLES / "example.feeder").read_text()
        report = (EXAMPLES / "example.report").read_text()
        for wrong_feeder, wrong_report, file_and_line, reason in (
                (feeder.replace("N1,A,L", "n1,A,L"), report, "a.feeder, line 5:", "N1"),
                (feeder, "refused 34 20\n", "a.report", "refused"),
                (feeder, report[:-1], "a.report, line 11:", "LF"),
                (feeder, commands.without_taps(report)[:-1], "a.report, line 9:", "LF"),
                (feeder, commands.without_taps(report) + "\n", "a.report, line 11:", "to,tap_a,tap_b,tap_c"),
                (feeder, report + "N1,0,0,0\n", "a.report:", "0 regulators"),
                (feeder, report.replace("N1", "N2"), "a.report, line 3:", "N2"),
                (feeder.replace("1000000,", "100000001,"), report, "a.feeder, line 5:", "100000001"),
                (feeder.replace("S,N1", "N1,N1"), report, "a.feeder, line 5:", "same node"),
                (feeder.replace("S,N1", "S2,N1"), report, "a.feeder, line 5:", "neither the source"),
                (feeder.replace("S,N1", "S,S"), report, "a.feeder, line 5:", "no branch feeds the source"),
                (feeder.replace("N1,A,P", "N1,B,P"), report, "a.feeder, line 8:", "phase B"),
                (feeder.replace("N1,A,P", "N1,AB,P"), report, "a.feeder, line 8:", "phases A and B"),
                (feeder.replace("N1,A,P", "N1,CA,P"), report, "a.feeder, line 8:", "phases A and C"),
                (feeder.replace("N1,A,P", "N1,AC,P"), report, "a.feeder, line 8:", "Write CA"),
                (feeder.replace("N1,A,P,720000", "S,AB,P,4000001"), report, "a.feeder, line 8:", "4000000"),
                (feeder.replace("N1,A,P,720000", "N1,A,P,2000001"), report, "a.feeder, line 8:", "2000000"),
                (feeder.replace("N1,A,P", "N9,A,P"), report, "a.feeder, line 8:", "N9"),
                (feeder, (EXAMPLES / "four_node.report").read_text(), "a.report", "4"),
                (report, feeder, "a.feeder, line 1:", "exchanged"),
                (feeder, "0" * 65537, "a.report:", "65537 bytes")):
            with self.subTest(file_and_line, reason=reason):
                errors = self.said(wrong_feeder, wrong_report)
                self.assertTrue(errors.startswith(file_and_line), errors)
                self.assertIn(reason, errors)

    def test_too_many_loads(self):
        feeder = commands.feeder_text(commands.SOURCE_ROW, [], ["S,A,P,720000,1,0"] * 301)
        self.assertTrue(self.said(feeder, (EXAMPLES / "example.report").read_text()).startswith("a.feeder, line 307:"))

    def test_a_circle_is_named(self):
        feeder = commands.feeder_text(commands.SOURCE_ROW, [commands.line_row("N2", "N1"), commands.line_row("N1", "N2")])
        report = commands.report_text(["S,0,0,0,0,0,0", "N1,0,0,0,0,0,0", "N2,0,0,0,0,0,0"], ["N2,N1,0,0,0,0,0,0,0,0", "N1,N2,0,0,0,0,0,0,0,0"],
                                      "1,0,0,0,0,0,0")
        self.assertIn("circle", self.said(feeder, report))

    def test_a_file_that_is_not_there(self):
        status, _, errors = commands.run(show, self.folder / "none", EXAMPLES / "example.report")
        self.assertEqual(status, 2)
        self.assertIn("none cannot be read: No such file or directory", errors)


class Warnings(unittest.TestCase):
    def warned(self, feeder_change, report_change=("", "")):
        feeder = (EXAMPLES / "example.feeder").read_text().replace(*feeder_change)
        report = (EXAMPLES / "example.report").read_text().replace(*report_change)
        return notes.warnings(join(feeder, report))

    def test_one_example_is_warned_of(self):
        """low_voltage is fed at 70 per cent of what its loads are rated for: all of its load rows are named, six by themselves and then the rest."""
        for path in sorted(EXAMPLES.glob("*.feeder")):
            with self.subTest(path.name):
                warnings = notes.warnings(join_example(path.stem))
                self.assertEqual(len(warnings), 7 if path.stem == "low_voltage" else 0)
                self.assertTrue(all("vn is" in warning or "likewise lines 17 to 22" in warning for warning in warnings), warnings)

    def test_the_example_at_low_voltage(self):
        """At just 70 per cent, at the source, P rows are constant power; below it they act as Z; the I row and the Z row are what they are."""
        flows = join_example("low_voltage").loads
        self.assertEqual("PPZZIZZZPPPP", "".join(flow.acts_as for flow in flows))
        self.assertEqual(100 * power.square(flows[0].voltage), 49 * flows[0].load.vn ** 2)

    def assert_one(self, warnings, *words):
        self.assertEqual(len(warnings), 1, warnings)
        for word in words:
            self.assertIn(word, warnings[0])

    def test_a_whole_feeder_in_kilowatts(self):
        self.assert_one(self.warned((",72000,0", ",72,0")), "all loads together are 72 W and 0 var")
        self.assertEqual(self.warned((",72000,0", ",1000,0")), [])

    def test_a_line_in_milliohms(self):
        self.assert_one(self.warned(("L,1000000", "L,1000")), "no line has more than 1000 micro-ohms (0.001 ohm)")

    def test_one_line_of_several_in_ohms(self):
        feeder = commands.feeder_text(commands.SOURCE_ROW, [commands.line_row("S", "N1", "A", [1000000]), commands.line_row("S", "N2", "A", [2])])
        found = notes.impedances(format.read_feeder(feeder.encode()))
        self.assertEqual([note.line for note in found], [6])
        self.assertIn("r of aa 2 micro-ohms", found[0].text)

    def test_a_source_in_volts(self):
        warnings = self.warned(("S,720000,0,-360000,-623538,-360000,623538", "S,7200,0,-3600,-6235,-3600,6235"))
        self.assertEqual([warning.split(";")[0] for warning in warnings],
                         ["feeder, line 2: the source has 72.00 V on A, 72.00 V on B and 72.00 V on C"])

    def test_a_capacitor_with_positive_q(self):
        self.assert_one(self.warned(("P,720000,72000,0", "Z,720000,0,72000")), "line 8", "a capacitor has q negative")
        self.assertEqual(self.warned(("P,720000,72000,0", "Z,720000,0,-72000")), [])

    def test_a_rated_voltage_far_from_the_node_s(self):
        # 12470 V is the voltage between lines of 7200 V to ground; 7200 is 72 V.
        self.assert_one(self.warned(("P,720000,", "Z,1247000,")), "vn is 12470.00 V, its node N1 has 7190.00 V on A")
        self.assert_one(self.warned(("P,720000,", "P,7200,")), "vn is 72.00 V", "(a P row uses vn only below 70 per cent of it, where it acts as Z)")
        # The report's 7190 V are 57.658 per cent of 12470 V.
        self.assert_one(self.warned(("P,720000,", "P,1247000,")), "on A, 57.65 per cent of vn: below 70 per cent a P row acts as Z; vn is in cV")


if __name__ == "__main__":
    unittest.main()
