"""flarecomb convert: the examples come out byte for byte, and what cannot be said exactly is named and refused."""
import csv
import decimal
import io
import pathlib
import random
import tempfile
import unittest

from flarecomb_tool import convert, format
from tests import commands
from tests.commands import EXAMPLES
from tests.support import needs_programs

SOURCE_SHEET = "source,va_re_v,va_im_v,vb_re_v,vb_im_v,vc_re_v,vc_im_v,tol_v,sweeps\nS,7200,0,-3600,-6235.38,-3600,6235.38,0.01,20\n"
BRANCH_SHEET = "from,to,phases,kind,r_aa_ohm,x_aa_ohm\nS,N1,A,L,1,0\n"
LOAD_SHEET = "node,phase,kind,vn_v,p_kw,q_kvar\nN1,A,P,7200,72,0\n"

FOUR_SOURCE = """source,va_v,va_deg,vb_v,vb_deg,vc_v,vc_deg,tol_v,sweeps
N1,7199.56,0,7199.56,-120,7199.56,120,0.01,40
"""
# As a spreadsheet with decimal commas writes two tables of one sheet.
FOUR_REST = """from;to;phases;kind;turns_n;turns_m;r_a_ohm;x_a_ohm;r_b_ohm;x_b_ohm;r_c_ohm;x_c_ohm;tap_a;tap_b;tap_c;r_aa_ohm;x_aa_ohm;r_ab_ohm;\
x_ab_ohm;r_ac_ohm;x_ac_ohm;r_bb_ohm;x_bb_ohm;r_bc_ohm;x_bc_ohm;r_cc_ohm;x_cc_ohm
N1;N2;ABC;L;;;;;;;;;;;;0,1414;0,5353;0,0361;0,3225;0,0361;0,2572;0,1414;0,5353;0,0361;0,2955;0,1414;0,5353
N2;N3R;ABC;D;12470;2400;0,0288;0,1728;0,0288;0,1728;0,0288;0,1728;;;;;;;;;;;;;;;
N3R;N3;ABC;R;;;;;;;;;9;11;12;;;;;;;;;;;;
N3;N4;ABC;L;;;;;;;;;;;;0,1907;0,5035;0,0607;0,2302;0,0598;0,1751;0,1939;0,4885;0,0614;0,1931;0,1921;0,497
;;;;;;;;;;;;;;;;;;;;;;;;;;
kind;p_kw;q_kvar;vn_v;node;phase;;;;;;;;;;;;;;;;;;;;;
P;637,5;395,087;2400;N4;A;;;;;;;;;;;;;;;;;;;;;
P;900;435,89;2400;N4;B;;;;;;;;;;;;;;;;;;;;;
P;1187,5;390,312;2400;N4;C;;;;;;;;;;;;;;;;;;;;;
"""


def shifted(text, places):
    """A whole number as text with its point moved to the left: written here without arithmetic."""
    sign, digits = ("-", text[1:]) if text.startswith("-") else ("", text)
    if places == 0:
        return text
    digits = digits.rjust(places + 1, "0")
    return f"{sign}{digits[:-places]}.{digits[-places:]}"


def sheets_of(feeder, separator=","):
    """The three tables of a feeder's text in V, ohm, kW and kvar."""
    sources, branches, loads = [[row.split(",") for row in table.rstrip("\n").split("\n")[1:]] for table in feeder.split("\n\n")]
    tables = [[["source", *(f"v{phase}_{part}_v" for phase in "abc" for part in ("re", "im")), "tol_v", "sweeps"]]]
    tables[0] += [[row[0]] + [shifted(cell, 2) for cell in row[1:8]] + [row[8]] for row in sources]
    names = ["from", "to", "phases", "kind", *convert.LINE_COLUMNS, *convert.TAP_COLUMNS, *convert.RELAY_COLUMNS, *convert.TRANSFORMER_COLUMNS]
    tables.append([names])
    for row in branches:
        columns = convert.PARAMETER_COLUMNS[row[3]]
        cells = dict(zip(names, row[:4]))
        decimals = [6 if column.endswith("_ohm") else 2 if column.endswith("_v") else 0 for column in columns]
        cells.update((column, shifted(cell, places)) for column, places, cell in zip(columns, decimals, row[4:]))
        tables[1].append([cells.get(name, "") for name in names])
    tables.append([["node", "phase", "kind", "vn_v", "p_kw", "q_kvar"]])
    tables[2] += [row[:3] + [shifted(row[3], 2), shifted(row[4], 3), shifted(row[5], 3)] for row in loads]
    texts = []
    for table in tables:
        out = io.StringIO()
        csv.writer(out, delimiter=separator, lineterminator="\n").writerows(table)
        texts.append(out.getvalue())
    return texts


class ConvertCase(unittest.TestCase):
    def setUp(self):
        folder = tempfile.TemporaryDirectory()
        self.addCleanup(folder.cleanup)
        self.folder = pathlib.Path(folder.name)
        self.output = self.folder / "made.feeder"

    def convert(self, *sheets):
        """(exit status, lines of standard error) of sheets given as texts or bytes."""
        paths = []
        for place, sheet in enumerate(sheets, 1):
            paths.append(self.folder / f"sheet{place}.csv")
            paths[-1].write_bytes(sheet.encode() if isinstance(sheet, str) else sheet)
        status, output, errors = commands.run(convert, *paths, "-o", self.output)
        self.assertEqual(output, "")
        return status, errors.replace(f"{self.folder}/", "").splitlines()

    def example(self, name):
        return (EXAMPLES / f"{name}.feeder").read_bytes()

    def assert_refused(self, sheets, *refusals):
        status, errors = self.convert(*sheets)
        self.assertEqual(status, 1)
        self.assertEqual([line.removeprefix("refused: ") for line in errors if line.startswith("refused: ")], list(refusals))
        self.assertEqual(errors[-1], "made.feeder is not written")
        self.assertFalse(self.output.exists())


class Examples(ConvertCase):
    def test_example_of_document_01(self):
        self.assertEqual(self.convert(SOURCE_SHEET, BRANCH_SHEET, LOAD_SHEET), (0, []))
        self.assertEqual(self.output.read_bytes(), self.example("example"))

    def test_four_nodes_from_sizes_and_angles_with_decimal_commas(self):
        status, errors = self.convert(FOUR_SOURCE, FOUR_REST)
        self.assertEqual(status, 0)
        self.assertEqual(self.output.read_bytes(), self.example("four_node_regulated"))
        self.assertEqual(errors[:2], [
            "sheet1.csv, row 2, column vb_v: vb_im of 7199.56 V at -120 degrees is rounded to -623500 cV, by +0.186 cV",
            "sheet1.csv, row 2, column vc_v: vc_im of 7199.56 V at 120 degrees is rounded to 623500 cV, by -0.186 cV"])
        self.assertIn("sheet2.csv, row 2, column r_aa_ohm: 0,1414 is read as 0.1414", errors[2])
        # 395,087 could be 395087 as well: it is listed by itself.
        self.assertTrue(any("row 8, column q_kvar: 395,087 is read as 395.087" in line for line in errors))

    def test_every_example_from_its_tables(self):
        for path in sorted(EXAMPLES.glob("*.feeder")):
            for separator in ",;":
                with self.subTest(path.name, separator=separator):
                    self.assertEqual(self.convert(*sheets_of(path.read_text(), separator)), (0, []))
                    self.assertEqual(self.output.read_bytes(), path.read_bytes())

    def test_regulator_that_sets_its_taps(self):
        sheet = "from,to,phases,kind,tap_a,tap_b,tap_c,level_v,band_v,potential_ratio,current_ratio,comp_r_ohm,comp_x_ohm\n"
        for cells, row in (
            (",,,121,2,20,200,1.46,2.84", "0,0,0,12100,200,20,200,1460000,2840000"),
            ("-3,,,121.5,0,20,200,,", "-3,0,0,12150,0,20,200,0,0"),
            ("9,,,0,,,,,", "9,0,0,0,0,0,0,0,0"),
            ("9,,,,0,0,0,0,0", "9,0,0,0,0,0,0,0,0"),
        ):
            status, errors = self.convert(SOURCE_SHEET, sheet + f"S,N1,A,R,{cells}\n", LOAD_SHEET)
            self.assertEqual(0, status, errors)
            self.assertEqual(f"S,N1,A,R,{row},0,0,0", self.output.read_text().split("\n")[4])
        self.assertEqual(self.convert(SOURCE_SHEET, sheet + "S,N1,A,R,,,,121,2,20,200,,\n", LOAD_SHEET)[1],
                         ["sheet2.csv, row 2, column tap_a, comp_r_ohm, comp_x_ohm: no value, taken as 0"])
        self.output.unlink()
        for cells, refused in (
            ("9,,,,2,,,,", "column band_v: 2 stands in a row without a level (level_v)"),
            ("9,,,0,,20,,,", "column potential_ratio: 20 stands in a row without a level (level_v)"),
            (",,,121,2,,200,,", "column potential_ratio: a value is missing"),
            (",,,121,2,63.5,200,,", "column potential_ratio: 63.5 is not a whole number"),
            (",,,200.01,2,20,200,,", "column level_v: outside 0 to 200 V"),
            (",,,121,2,20,10001,,", "column current_ratio: outside 1 to 10000"),
            (",1,,121,2,20,200,,", "column tap_b: 1 stands on a phase that the branch does not have"),
            (",,,x,2,20,200,,", "column level_v: 'x' is no number: digits with one decimal point, and no mark between thousands"),
        ):
            self.assert_refused((SOURCE_SHEET, sheet + f"S,N1,A,R,{cells}\n", LOAD_SHEET), f"sheet2.csv, row 2, {refused}")

    def test_source_of_a_section_with_a_tie(self):
        # Half of 1503997 cV is 751998.5: away from zero, as in examples/section_from_a.feeder.
        _, errors = self.convert("source,va_v,va_deg,vb_v,vb_deg,vc_v,vc_deg,tol_v,sweeps\nA,15039.97,0,15039.97,-120,14982.24,120,0.01,40\n", BRANCH_SHEET)
        self.assertEqual(self.output.read_bytes().split(b"\n")[1], self.example("section_from_a").split(b"\n")[1])
        self.assertIn("sheet1.csv, row 2, column vb_v: vb_re of 15039.97 V at -120 degrees is rounded to -751999 cV, by -0.500 cV", errors)

    @needs_programs
    def test_the_study_reads_what_is_written(self):
        self.convert(FOUR_SOURCE, FOUR_REST)
        self.assertEqual(commands.study(self.output.read_text()), (EXAMPLES / "four_node_regulated.report").read_text())


class Sheets(ConvertCase):
    def test_byte_order_mark_cr_lf_capitals_and_any_order(self):
        loads = "\ufeffQ_kvar, P_KW ,Node,phase,VN_V,kind\r\n0,72.000,n1,a,7200.0,p\r\n"
        status, errors = self.convert(loads.encode(), SOURCE_SHEET.replace("\n", "\r\n"), BRANCH_SHEET)
        self.assertEqual((status, errors), (0, ["sheet1.csv, row 2, column node: the name n1 is written N1, here and wherever it stands"]))
        self.assertEqual(self.output.read_bytes(), self.example("example"))

    def test_three_tables_in_one_sheet(self):
        self.assertEqual(self.convert(f"{SOURCE_SHEET}\n{BRANCH_SHEET},,\n{LOAD_SHEET}\n\n"), (0, []))
        self.assertEqual(self.output.read_bytes(), self.example("example"))

    def test_no_branches_and_no_loads(self):
        status, errors = self.convert(SOURCE_SHEET)
        self.assertEqual(status, 0)
        self.assertEqual(len(errors), 2)
        feeder = format.read_feeder(self.output.read_bytes())
        self.assertEqual((feeder.source.name, feeder.branches, feeder.loads), ("S", [], []))

    def test_tolerance_sweeps_and_coupling_are_assumed_and_listed(self):
        status, errors = self.convert(
            SOURCE_SHEET.replace(",tol_v,sweeps", "").replace(",0.01,20", ""),
            "from,to,phases,kind,r_aa_ohm,x_aa_ohm,r_bb_ohm,x_bb_ohm\nS,N1,AB,L,1,2,3,4\n", LOAD_SHEET)
        self.assertEqual((status, errors), (0, [
            "sheet1.csv, row 2, column tol_v: no value, taken as 0.01", "sheet1.csv, row 2, column sweeps: no value, taken as 20",
            "sheet2.csv, row 2, column r_ab_ohm, x_ab_ohm: no value, taken as 0"]))
        self.assertIn(b"\nS,N1,AB,L,1000000,2000000,0,0,0,0,3000000,4000000,0,0,0,0\n", self.output.read_bytes())

    def test_arithmetic_is_not_that_of_floats(self):
        # In floats 1.001 · 1000 is 1000.9999999999999 and 0.000057 · 1000000 is 57.00000000000001.
        self.convert(SOURCE_SHEET, BRANCH_SHEET.replace("L,1,0", "L,0.000057,5.7E-5"), LOAD_SHEET.replace("72,0", "1.001,-0.29"))
        self.assertIn(b"\nS,N1,A,L,57,57,", self.output.read_bytes())
        self.assertIn(b",720000,1001,-290\n", self.output.read_bytes())

    def test_whatever_is_written_is_a_feeder_of_the_same_numbers(self):
        chance = random.Random(7)
        for _ in range(40):
            branches = [f"S,N{place},{phases},L," + ",".join(
                str(chance.randint(-100000000, 100000000)) if set(pair.upper()) <= set(phases) else "0" for pair in convert.LINE_PAIRS for _ in "rx")
                for place, phases in enumerate(chance.choices(format.BRANCH_PHASES, k=5))]
            loads = [f"N{place},{phase},{chance.choice('PIZ')},{chance.randint(1, 2000000 * len(phase))},{chance.randint(-3000000, 3000000)},"
                     f"{chance.randint(-999, 999)}" for place, phase in enumerate(chance.choices(list(format.LOAD_SIGNS), k=5))]
            source = "S," + ",".join(str(chance.randint(-2000000, 2000000)) for _ in range(6)) + f",{chance.randint(0, 1000)},{chance.randint(1, 100)}"
            feeder = commands.feeder_text(source, branches, loads)
            self.assertEqual(self.convert(*sheets_of(feeder)), (0, []))
            self.assertEqual(self.output.read_text(), feeder)

    def test_loads_between_two_phases(self):
        loads = "node,phase,kind,vn_v,p_kw,q_kvar\nN1,ab,P,12470.77,30,18\nN1,BC,I,40000,37,23\nN1,CA,Z,0.01,0,-20\n"
        self.assertEqual(self.convert(SOURCE_SHEET, BRANCH_SHEET, loads), (0, []))
        self.assertTrue(self.output.read_text().endswith(
            "\nN1,AB,P,1247077,30000,18000\nN1,BC,I,4000000,37000,23000\nN1,CA,Z,1,0,-20000\n"), self.output.read_text())

    def test_help_names_every_column(self):
        for column in ("source", "va_re_v", "vc_im_v", "va_deg", "vc_deg", "tol_v", "sweeps", "turns_n", "turns_m", *convert.TAP_COLUMNS,
                       "r_aa_ohm", "x_cc_ohm", "r_a_ohm", "x_c_ohm", *convert.LOAD_COLUMNS):
            self.assertIn(column, convert.__doc__)


class Refusals(ConvertCase):
    def test_values_that_are_not_whole(self):
        self.assert_refused(
            [SOURCE_SHEET.replace("6235.38,0.01,20", "6235.383,0.015,20.5"), BRANCH_SHEET.replace("L,1,", "L,0.0000015,"), LOAD_SHEET.replace("72,0", "72.0001,0.0005")],
            "sheet1.csv, row 2, column vc_im_v: 6235.383 V is not a whole cV",
            "sheet1.csv, row 2, column tol_v: 0.015 V is not a whole cV",
            "sheet1.csv, row 2, column sweeps: 20.5 is not a whole number",
            "sheet2.csv, row 2, column r_aa_ohm: 0.0000015 ohm is not a whole µΩ",
            "sheet3.csv, row 2, column p_kw: 72.0001 kW is not a whole W",
            "sheet3.csv, row 2, column q_kvar: 0.0005 kvar is not a whole var")

    def test_values_outside_their_limits(self):
        self.assert_refused(
            [SOURCE_SHEET.replace("S,7200,", "S,20000.01,"), BRANCH_SHEET.replace("L,1,", "L,100.000001,"), LOAD_SHEET.replace("7200,72", "0,3000.001")],
            "sheet1.csv, row 2, column va_re_v: outside -20000 to 20000 V",
            "sheet2.csv, row 2, column r_aa_ohm: outside -100 to 100 ohm",
            "sheet3.csv, row 2, column vn_v: outside 0.01 to 20000 V",
            "sheet3.csv, row 2, column p_kw: outside -3000 to 3000 kW")

    def test_rated_voltages_by_the_phase(self):
        for phase, volts, least_and_most in (("C", "20000.01", "0.01 to 20000"), ("CA", "40000.01", "0.01 to 40000"), ("BC", "0", "0.01 to 40000")):
            with self.subTest(phase):
                self.assert_refused([SOURCE_SHEET, BRANCH_SHEET, LOAD_SHEET.replace("A,P,7200", f"{phase},P,{volts}")],
                                    f"sheet3.csv, row 2, column vn_v: outside {least_and_most} V")
        # 24900 V is a voltage between phases: only the word is wrong.
        self.assert_refused([SOURCE_SHEET, BRANCH_SHEET, LOAD_SHEET.replace("A,P,7200", "AC,P,24900")],
                            "sheet3.csv, row 2, column phase: 'AC' is none of A, B, C, AB, BC, CA")

    def test_names_that_do_not_fit(self):
        for name in ("SUBSTATION", "N 1", "N-1", "", "Ä"):
            with self.subTest(name):
                self.assert_refused([SOURCE_SHEET, BRANCH_SHEET.replace("N1", name)],
                                    f"sheet2.csv, row 2, column to: '{name}' is no name: a name is 1 to 8 of A to Z and 0 to 9")

    def test_columns_unknown_missing_and_twice(self):
        self.assert_refused([SOURCE_SHEET, "from,to,phases,kind,r_aa,r_aa_ohm,r_aa_ohm\n"],
                            "sheet2.csv, row 1: column r_aa is not known", "sheet2.csv, row 1: column r_aa_ohm stands twice")
        self.assert_refused([SOURCE_SHEET, "node,phase,vn_v,p_kw\n"],
                            "sheet2.csv, row 1: column kind is missing", "sheet2.csv, row 1: column q_kvar is missing")

    def test_a_missing_value(self):
        self.assert_refused([SOURCE_SHEET, "from,to,phases,kind,r_aa_ohm\nS,N1,A,L,1\n", LOAD_SHEET.replace("7200,", ",")],
                            "sheet2.csv, row 2, column x_aa_ohm: a value is missing", "sheet3.csv, row 2, column vn_v: a value is missing")

    def test_cells_that_are_no_numbers(self):
        for cell in ("7.200.0", '"7,200"', "1/2", "NaN", "inf", "0x10", "1_000", "1e999", "٣", "9" * 31):
            with self.subTest(cell):
                said = cell.strip('"')
                self.assert_refused([SOURCE_SHEET, BRANCH_SHEET, LOAD_SHEET.replace(",72,", f",{cell},")],
                                    f"sheet3.csv, row 2, column p_kw: '{said}' is no number: digits with one decimal point, and no mark between thousands")

    def test_words_that_are_not_listed(self):
        self.assert_refused([SOURCE_SHEET, BRANCH_SHEET.replace("A,L", "CB,line"), LOAD_SHEET.replace("A,P", "BA,PQ")],
                            "sheet2.csv, row 2, column phases: 'CB' is none of A, B, C, AB, AC, BC, ABC",
                            "sheet2.csv, row 2, column kind: 'line' is none of L, R, Y, D",
                            "sheet3.csv, row 2, column phase: 'BA' is none of A, B, C, AB, BC, CA",
                            "sheet3.csv, row 2, column kind: 'PQ' is none of P, I, Z")

    def test_values_where_zero_is_due(self):
        self.assert_refused([SOURCE_SHEET, "from,to,phases,kind,r_aa_ohm,x_aa_ohm,r_bb_ohm,tap_a,tap_b\nS,N1,A,L,1,0,0.5,0,0\nN1,N2,A,R,1,,,5,6\n"],
                            "sheet2.csv, row 2, column r_bb_ohm: 0.5 stands on a phase that the branch does not have",
                            "sheet2.csv, row 3, column r_aa_ohm: 1 stands in a row of kind R, which has no such value",
                            "sheet2.csv, row 3, column tap_b: 6 stands on a phase that the branch does not have")

    def test_a_transformer_must_have_all_phases(self):
        self.assert_refused([SOURCE_SHEET, "from,to,phases,kind,turns_n,turns_m,r_a_ohm,x_a_ohm\nS,N1,A,Y,3,1,0,0\n"],
                            "sheet2.csv, row 2, column phases: a transformer must have the phases ABC")

    def test_source_rows(self):
        self.assert_refused([BRANCH_SHEET], "source table: 0 rows, and there must be 1")
        self.assert_refused([SOURCE_SHEET + SOURCE_SHEET.split("\n")[1] + "\n"], "source table: 2 rows, and there must be 1")
        self.assert_refused([SOURCE_SHEET, SOURCE_SHEET], "sheet2.csv, row 1: a second table with the column source")

    def test_voltages_given_twice_or_by_half(self):
        self.assert_refused(["source,va_re_v,va_im_v,va_v,va_deg,vb_v,vc_v,vc_deg,tol_v,sweeps\nS,7200,0,7200,0,7200,7200,x,0.01,20\n"],
                            "sheet1.csv, row 2, column va_re_v and va_im_v, or va_v and va_deg: both are given: one must go",
                            "sheet1.csv, row 2, column vb_deg: a value is missing",
                            "sheet1.csv, row 2, column vc_deg: 'x' is no number: digits with one decimal point, and no mark between thousands")

    def test_sheets_that_are_no_tables(self):
        self.assert_refused([SOURCE_SHEET, b"node,\xff\n"], "sheet2.csv: byte 6 is not UTF-8")
        self.assert_refused([SOURCE_SHEET, ""], "sheet2.csv: is empty")
        self.assert_refused([SOURCE_SHEET, "voltage,power\n1,2\n"],
                            "sheet2.csv, row 1: no column is named source, from or node, so the table is not known")
        self.assert_refused([SOURCE_SHEET, LOAD_SHEET.replace(",0\n", ",0,9\n")], "sheet2.csv, row 2: 9 stands in a column without a name")

    def test_a_sheet_that_is_too_long_is_not_read_in_part(self):
        self.assert_refused([SOURCE_SHEET, LOAD_SHEET + "\n" * 1000000], "sheet2.csv: has 1000000 bytes or more, which no feeder's table has")

    def test_too_many_rows(self):
        self.assert_refused([SOURCE_SHEET, LOAD_SHEET + LOAD_SHEET.split("\n")[1].join(["", "\n"]) * 300],
                            "loads table: 301 rows, and there may be at most 300")

    def test_what_stood_in_the_output_stays_after_a_refusal(self):
        self.output.write_text("kept")
        self.assertEqual(self.convert(LOAD_SHEET)[0], 1)
        self.assertEqual(self.output.read_text(), "kept")

    def test_a_sheet_is_not_written_over(self):
        sheet = self.folder / "sheet.csv"
        sheet.write_text(SOURCE_SHEET)
        status, _, errors = commands.run(convert, sheet, "-o", sheet)
        self.assertEqual((status, sheet.read_text()), (1, SOURCE_SHEET))
        self.assertIn("is a sheet and the feeder file to write", errors)

    def test_a_sheet_that_is_not_there(self):
        status, _, errors = commands.run(convert, self.folder / "none.csv", "-o", self.output)
        self.assertEqual(status, 1)
        self.assertIn("none.csv cannot be read: No such file or directory", errors)


class Angles(unittest.TestCase):
    def test_exact_where_they_are_rational(self):
        half = decimal.Decimal("0.5")
        found = {degrees: convert.cosine_and_sine(decimal.Decimal(degrees)) for degrees in (0, 90, -90, 180, 270, 60, -60, 120, 240, 480, 30, 150, -30)}
        self.assertEqual({degrees: pair[0] for degrees, pair in found.items() if degrees % 60 == 0 or degrees % 90 == 0},
                         {0: 1, 90: 0, -90: 0, 180: -1, 270: 0, 60: half, -60: half, 120: -half, 240: -half, 480: -half})
        self.assertEqual([found[degrees][1] for degrees in (0, 90, -90, 180, 270, 30, 150, -30)], [0, 1, -1, 0, -1, half, half, -half])

    def test_squares_make_one(self):
        with decimal.localcontext(convert.CONTEXT):
            for degrees in ("0.01", "33.7", "-271.25", "359.999", "89.5", "-120.5"):
                cosine, sine = convert.cosine_and_sine(decimal.Decimal(degrees))
                self.assertLess(abs(cosine * cosine + sine * sine - 1), decimal.Decimal("1e-70"))
            # The sine of -120 degrees is half the square root of 3, with a minus.
            self.assertLess(abs(convert.cosine_and_sine(decimal.Decimal(-120))[1] + decimal.Decimal(3).sqrt() / 2), decimal.Decimal("1e-70"))


if __name__ == "__main__":
    unittest.main()
