"""flarecomb convert: spreadsheet tables in V, Ω, kW, kvar and taps to a feeder file.

A sheet is a CSV file, UTF-8 with or without a byte order mark, lines ended by LF or CR LF, parted by commas or by semicolons. It has one
table or several with an empty row between two of them. A table is known by its columns, which stand in its first row in any order; capitals
and blanks around a column's name make no difference.

Column                               Meaning
source table, one row (known by the column source):
  source                             the source node's name
  va_re_v, va_im_v, .. vc_im_v       source voltages of A, B and C to ground in V, real and imaginary part: whole 0.01 V
  va_v, va_deg, .. vc_deg            in their place, phase by phase: size in V and angle in degrees, rounded to 0.01 V and listed
  tol_v                              tolerance in V; 0.01 where there is no value
  sweeps                             the most sweeps; 20 where there is no value
branch table (known by the column from):
  from, to                           the nodes, the source's side first
  phases                             A, B, C, AB, AC, BC or ABC
  kind                               L line, R regulator, Y or D transformer
  r_aa_ohm, x_aa_ohm, .. x_cc_ohm    L: aa, ab, ac, bb, bc, cc of the phase matrix of the whole section in ohm: whole 0.000001 ohm
  tap_a, tap_b, tap_c                R: taps, -16 to 16; with a level those of the first round, 0 where there is no value
  level_v, band_v                    R: level and bandwidth of the relay in V, 0 to 200: whole 0.01 V; with no level the taps are fixed
  potential_ratio, current_ratio     R with a level: ratios of the relay's transformers, whole, 1 to 10000
  comp_r_ohm, comp_x_ohm             R with a level: compensator in ohm, 0 where there is no value
  turns_n, turns_m                   Y, D: the turns ratio N/M, 1 to 1000000 each
  r_a_ohm, x_a_ohm, .. x_c_ohm       Y, D: impedances in ohm on the to-node's side
load table (known by the column node):
  node, phase                        where the load stands; phase A, B or C to ground, or AB, BC or CA between two phases
  kind                               P constant power, I constant current, Z constant impedance
  vn_v                               rated voltage in V, to ground or between the two phases: whole 0.01 V; below 70 per cent of it P acts as Z
  p_kw, q_kvar                       rated power in kW and kvar: whole W and var; a capacitor is a Z row with p 0 and q negative

The branch and the load table may be left out where the feeder has none. An impedance between two phases that has no value is taken as 0.
Every assumption and every rounding is listed on standard error. What cannot be said exactly is named with its row and column, and then
nothing is written. Whether the branches form a tree is left to the study. Exit status: 0 written, 1 refused, 2 could not be written."""
import argparse
import csv
import decimal
import io
import pathlib
import re

from . import format, programs

# Wide enough for every product below to be exact or to be seen to be inexact.
CONTEXT = decimal.Context(prec=80)
MOST_CHARACTERS_IN_A_NUMBER = 30
NUMBER = re.compile(r"[+-]?([0-9]+(\.[0-9]*)?|\.[0-9]+)([eE][+-]?[0-9]{1,2})?")
THOUSANDS = re.compile(r"[+-]?[1-9][0-9]{0,2},[0-9]{3}")
DECIMALS = {"cV": 2, "µΩ": 6, "W": 3, "var": 3, "": 0}
SHEET_UNITS = {"cV": "V", "µΩ": "ohm", "W": "kW", "var": "kvar", "": ""}
LINE_PAIRS = ("aa", "ab", "ac", "bb", "bc", "cc")
DEFAULT_TOLERANCE = "0.01"
DEFAULT_SWEEPS = "20"

PHASE_LETTERS = tuple(phase.lower() for phase in format.PHASES)
LINE_COLUMNS = tuple(f"{letter}_{pair}_ohm" for pair in LINE_PAIRS for letter in "rx")
TAP_COLUMNS = tuple(f"tap_{phase}" for phase in PHASE_LETTERS)
TRANSFORMER_COLUMNS = ("turns_n", "turns_m") + tuple(f"{letter}_{phase}_ohm" for phase in PHASE_LETTERS for letter in "rx")
RELAY_COLUMNS = ("level_v", "band_v", "potential_ratio", "current_ratio", "comp_r_ohm", "comp_x_ohm")
# The sheet's column for each of p1 to p12 that has a meaning, by the branch's kind.
PARAMETER_COLUMNS = {"L": LINE_COLUMNS, "R": TAP_COLUMNS + RELAY_COLUMNS, "Y": TRANSFORMER_COLUMNS, "D": TRANSFORMER_COLUMNS}
# Of these no value is taken as 0 where the regulator has a level.
ZERO_WITH_A_LEVEL = TAP_COLUMNS + ("comp_r_ohm", "comp_x_ohm")

SOURCE_COLUMNS = ("source",) + tuple(f"v{phase}_{part}" for phase in PHASE_LETTERS for part in ("re_v", "im_v", "v", "deg")) + ("tol_v", "sweeps")
BRANCH_COLUMNS = ("from", "to", "phases", "kind") + LINE_COLUMNS + TAP_COLUMNS + RELAY_COLUMNS + TRANSFORMER_COLUMNS
LOAD_COLUMNS = ("node", "phase", "kind", "vn_v", "p_kw", "q_kvar")
# The column that tells a table, the columns that it may have, and those that it must have.
KINDS_OF_TABLE = {
    "source": (SOURCE_COLUMNS, ("source",)),
    "from": (BRANCH_COLUMNS, ("from", "to", "phases", "kind")),
    "node": (LOAD_COLUMNS, LOAD_COLUMNS),
}


def add_parser(subparsers):
    parser = subparsers.add_parser(
        "convert", help="make a feeder file from spreadsheet tables in V, ohm, kW and kvar", description=__doc__,
        formatter_class=argparse.RawDescriptionHelpFormatter)
    parser.add_argument("sheets", nargs="+", metavar="SHEET.csv", help="the sheets, in any order")
    parser.add_argument("-o", "--output", required=True, metavar="FEEDER", help="the feeder file to write")


def run(arguments):
    output = pathlib.Path(arguments.output)
    conversion = Conversion()
    for sheet in arguments.sheets:
        if output.exists() and output.resolve() == pathlib.Path(sheet).resolve():
            conversion.refuse(sheet, "is a sheet and the feeder file to write")
            continue
        try:
            conversion.take_sheet(sheet, programs.read_file(sheet))
        except programs.CouldNotRun as fault:
            conversion.refusals.append(str(fault))
    feeder = conversion.feeder_text()
    for remark in conversion.remarks:
        programs.write_error(remark)
    for refusal in conversion.refusals:
        programs.write_error(f"refused: {refusal}")
    if conversion.refusals:
        programs.write_error(f"{output} is not written")
        return 1
    try:
        programs.write_file(output, feeder.encode("ascii"))
    except programs.CouldNotRun as fault:
        programs.write_error(str(fault))
        return programs.NOT_RUN
    return 0


class Row:
    """A row of a sheet: cells by column, each a text without blanks around it."""

    def __init__(self, sheet, number, cells, separator):
        self.sheet = sheet
        self.number = number
        self.cells = cells
        self.separator = separator

    def place(self, column):
        return f"{self.sheet}, row {self.number}, column {column}"


class Conversion:
    """Tables taken in sheet by sheet; remarks are what was assumed or rounded, refusals what could not be said."""

    def __init__(self):
        self.remarks = []
        self.refusals = []
        self.tables = {}
        self.capitalised = set()
        self.decimal_commas = set()

    def refuse(self, place, reason):
        self.refusals.append(f"{place}: {reason}")

    def remark(self, place, text):
        self.remarks.append(f"{place}: {text}")

    # Sheets and tables

    def take_sheet(self, sheet, data):
        if len(data) >= programs.MOST_BYTES_READ:
            self.refuse(sheet, f"has {programs.MOST_BYTES_READ} bytes or more, which no feeder's table has")
            return
        try:
            text = data.decode("utf-8-sig")
        except UnicodeDecodeError as error:
            self.refuse(sheet, f"byte {error.start + 1} is not UTF-8")
            return
        if not text.strip():
            self.refuse(sheet, "is empty")
            return
        first = next(line for line in text.splitlines() if line.strip())
        separator = ";" if first.count(";") > first.count(",") else ","
        try:
            rows = numbered_rows(text, separator)
        except csv.Error as error:
            self.refuse(sheet, f"is not CSV: {error}")
            return
        block = []
        for number, cells in rows + [(0, [])]:
            if any(cells):
                block.append((number, cells))
            elif block:
                self.take_table(sheet, block, separator)
                block = []

    def take_table(self, sheet, block, separator):
        first_number, names = block[0]
        columns = [name.lower() for name in names]
        place = f"{sheet}, row {first_number}"
        key = next((key for key in KINDS_OF_TABLE if key in columns), None)
        if key is None:
            self.refuse(place, "no column is named source, from or node, so the table is not known")
            return
        if key in self.tables:
            self.refuse(place, f"a second table with the column {key}")
            return
        self.tables[key] = []
        known, required = KINDS_OF_TABLE[key]
        for position, column in enumerate(columns):
            if column in columns[:position] and column:
                self.refuse(place, f"column {column} stands twice")
            elif column and column not in known:
                self.refuse(place, f"column {names[position]} is not known")
        for column in required:
            if column not in columns:
                self.refuse(place, f"column {column} is missing")
        for number, cells in block[1:]:
            for position, cell in enumerate(cells):
                if cell and (position >= len(columns) or not columns[position]):
                    self.refuse(f"{sheet}, row {number}", f"{cell} stands in a column without a name")
            by_column = {column: cells[position] if position < len(cells) else "" for position, column in enumerate(columns)}
            self.tables[key].append(Row(sheet, number, by_column, separator))

    # Cells

    def name(self, row, column):
        cell = row.cells.get(column, "")
        written = cell.upper()
        if not re.fullmatch(f"[A-Z0-9]{{1,{format.LONGEST_NAME}}}", written):
            self.refuse(row.place(column), f"'{cell}' is no name: a name is 1 to {format.LONGEST_NAME} of A to Z and 0 to 9")
            return None
        if cell != written and cell not in self.capitalised:
            self.capitalised.add(cell)
            self.remark(row.place(column), f"the name {cell} is written {written}, here and wherever it stands")
        return written

    def word(self, row, column, words):
        cell = row.cells.get(column, "")
        if cell.upper() not in words:
            self.refuse(row.place(column), f"'{cell}' is none of {', '.join(words)}")
            return None
        return cell.upper()

    def decimal(self, row, column, cell):
        """The cell's exact value, or None where it is no number."""
        written = cell
        if row.separator == ";" and "," in cell and "." not in cell:
            written = cell.replace(",", ".")
            # 7,200 could also be 7200 with a mark between thousands, so each such cell is listed, and else the first of the sheet.
            if row.sheet not in self.decimal_commas or THOUSANDS.fullmatch(cell):
                self.decimal_commas.add(row.sheet)
                self.remark(row.place(column), f"{cell} is read as {written}: in a sheet parted by semicolons a comma is the decimal point")
        if len(written) > MOST_CHARACTERS_IN_A_NUMBER or not NUMBER.fullmatch(written):
            self.refuse(row.place(column), f"'{cell}' is no number: digits with one decimal point, and no mark between thousands")
            return None
        return decimal.Decimal(written)

    def whole(self, row, column, described, default=None):
        """The cell in the file's unit as a whole number within the limits of its column there; None where that cannot be said."""
        cell = row.cells.get(column, "")
        if not cell:
            if default is None:
                self.refuse(row.place(column), "a value is missing")
                return None
            cell = default
            self.remark(row.place(column), f"no value, taken as {default}")
        value = self.decimal(row, column, cell)
        if value is None:
            return None
        scaled = CONTEXT.scaleb(value, DECIMALS[described.unit])
        if scaled != scaled.to_integral_value(context=CONTEXT):
            unit = described.unit or "number"
            self.refuse(row.place(column), f"{cell} {SHEET_UNITS[described.unit]}".rstrip() + f" is not a whole {unit}")
            return None
        return self.within(row, column, described, int(scaled))

    def within(self, row, column, described, value):
        if format.outside_limit(described, value):
            shift = DECIMALS[described.unit]
            least, most = (f"{CONTEXT.normalize(CONTEXT.scaleb(decimal.Decimal(limit), -shift)):f}" for limit in (described.least, described.most))
            self.refuse(row.place(column), f"outside {least} to {most} {SHEET_UNITS[described.unit]}".rstrip())
            return None
        return value

    # Rows

    def source_row(self, row):
        described = {column.name: column for column in format.SOURCE.columns}
        values = [self.name(row, "source")]
        for phase in PHASE_LETTERS:
            values += self.source_voltage(row, phase, described)
        values.append(self.whole(row, "tol_v", described["tol"], DEFAULT_TOLERANCE))
        values.append(self.whole(row, "sweeps", described["sweeps"], DEFAULT_SWEEPS))
        return values

    def source_voltage(self, row, phase, described):
        parts = [described[f"v{phase}_re"], described[f"v{phase}_im"]]
        exact = [f"v{phase}_re_v", f"v{phase}_im_v"]
        polar = [f"v{phase}_v", f"v{phase}_deg"]
        has_exact = any(row.cells.get(column) for column in exact)
        has_polar = any(row.cells.get(column) for column in polar)
        if has_exact == has_polar:
            reason = "both are given: one must go" if has_exact else "a value is missing"
            self.refuse(row.place(f"{exact[0]} and {exact[1]}, or {polar[0]} and {polar[1]}"), reason)
            return [None, None]
        if has_exact:
            return [self.whole(row, column, part) for column, part in zip(exact, parts)]
        cells = [row.cells.get(column, "") for column in polar]
        for column, cell in zip(polar, cells):
            if not cell:
                self.refuse(row.place(column), "a value is missing")
                return [None, None]
        size, angle = (self.decimal(row, column, cell) for column, cell in zip(polar, cells))
        if size is None or angle is None:
            return [None, None]
        if size < 0 or size.adjusted() > 6 or angle.adjusted() > 6:
            self.refuse(row.place(polar[0]), "a size is 0 to 20000 V, and an angle within 360 degrees of 0")
            return [None, None]
        values = []
        for part, factor in zip(parts, cosine_and_sine(angle)):
            worked = CONTEXT.multiply(CONTEXT.scaleb(size, DECIMALS["cV"]), factor)
            nearest = int(worked.quantize(decimal.Decimal(1), rounding=decimal.ROUND_HALF_UP, context=CONTEXT))
            if worked != nearest:
                off = CONTEXT.subtract(decimal.Decimal(nearest), worked)
                self.remark(row.place(polar[0]), f"{part.name} of {cells[0]} V at {cells[1]} degrees is rounded to {nearest} cV, "
                            f"by {off:+.3f} cV")
            values.append(self.within(row, polar[0], part, nearest))
        return values

    def branch_row(self, row):
        values = [self.name(row, "from"), self.name(row, "to"), self.word(row, "phases", format.BRANCH_PHASES),
                  self.word(row, "kind", tuple(format.BRANCH_KINDS))]
        phases, kind = values[2:]
        if phases is None or kind is None:
            return values + [None] * 12
        if kind in "YD" and phases != "ABC":
            self.refuse(row.place("phases"), "a transformer must have the phases ABC")
        own = PARAMETER_COLUMNS[kind]
        for column in BRANCH_COLUMNS[4:]:
            cell = row.cells.get(column, "")
            if column not in own and cell and self.decimal(row, column, cell):
                self.refuse(row.place(column), f"{cell} stands in a row of kind {kind}, which has no such value")
        sets = kind == "R" and self.has_level(row)
        described = format.parameters_of(kind, 1 if sets else 0)
        without = []
        for place in range(12):
            column = own[place] if place < len(own) else None
            cell = row.cells.get(column, "") if column else ""
            if format.zero_is_due(described[place], phases):
                if column and cell and self.decimal(row, column, cell):
                    why = "on a phase that the branch does not have" if described[place].phases else "in a row without a level (level_v)"
                    self.refuse(row.place(column), f"{cell} stands {why}")
                values.append(0)
            elif column == "level_v" and not sets:
                values.append(0)
            elif not cell and (len(described[place].phases) == 2 or sets and column in ZERO_WITH_A_LEVEL):
                without.append(column)
                values.append(0)
            else:
                values.append(self.whole(row, column, described[place]))
        if without:
            self.remark(row.place(", ".join(without)), "no value, taken as 0")
        return values

    def has_level(self, row):
        """Whether a regulator's row has a level other than 0; a cell that is no number is one, and is refused as such."""
        cell = row.cells.get("level_v", "")
        if not cell:
            return False
        return not NUMBER.fullmatch(cell.replace(",", ".")) or decimal.Decimal(cell.replace(",", ".")) != 0

    def load_row(self, row):
        words = [self.name(row, "node"), self.word(row, "phase", tuple(format.LOAD_SIGNS)), self.word(row, "kind", tuple(format.LOAD_KINDS))]
        described = format.columns_of(format.LOADS, words)[format.RATED_VOLTAGE:]
        return words + [self.whole(row, column, one) for column, one in zip(("vn_v", "p_kw", "q_kvar"), described)]

    def feeder_text(self):
        """The whole file; of use only where nothing was refused."""
        sources = self.tables.get("source", [])
        if len(sources) != 1:
            self.refuse("source table", f"{len(sources)} rows, and there must be 1")
        tables = [
            (format.SOURCE, [self.source_row(row) for row in sources]),
            (format.BRANCHES, [self.branch_row(row) for row in self.tables.get("from", [])]),
            (format.LOADS, [self.load_row(row) for row in self.tables.get("node", [])]),
        ]
        for key, (table, rows) in zip(("source", "from", "node"), tables):
            if key not in self.tables and key != "source":
                self.remark(f"{table.name} table", "no sheet has one, taken as a table without rows")
            if len(rows) > table.limit_rows and key != "source":
                self.refuse(f"{table.name} table", f"{len(rows)} rows, and there may be at most {table.limit_rows}")
        text = "\n".join("".join(f"{line}\n" for line in [format.header(table)] + [",".join(map(str, row)) for row in rows])
                         for table, rows in tables)
        if len(text) > format.LARGEST_FILE:
            self.refuse("feeder file", f"{len(text)} bytes, and there may be at most {format.LARGEST_FILE}")
        return text


def numbered_rows(text, separator):
    """Rows as (number, cells); the number is that of the spreadsheet, where a row may be empty but is never left out."""
    reader = csv.reader(io.StringIO(text, newline=""), delimiter=separator, strict=True)
    return [(number, [cell.strip() for cell in cells]) for number, cells in enumerate(reader, 1)]


def arctangent_of_inverse(whole):
    power = decimal.Decimal(1) / whole
    result, odd = power, 1
    while abs(power) > decimal.Decimal(10) ** -79:
        power = -power / (whole * whole)
        odd += 2
        result += power / odd
    return result


with decimal.localcontext(CONTEXT):
    # Machin's formula.
    PI = 4 * (4 * arctangent_of_inverse(5) - arctangent_of_inverse(239))


def cosine_and_sine(degrees):
    """Of an angle in degrees, exact where they are 0, 1/2 or 1, and else right to some 70 places.

    Only those three sizes are rational at a rational number of degrees, so that nowhere else can a product with a voltage stand half-way
    between two whole numbers."""
    with decimal.localcontext(CONTEXT):
        turned = degrees % 360
        return sine(turned + 90), sine(turned)


def sine(degrees):
    """degrees from -360 to 450; worked in the precision of the caller."""
    turned = (degrees + 360) % 360
    sign = 1
    if turned > 180:
        turned, sign = turned - 180, -1
    if turned > 90:
        turned = 180 - turned
    exact = {0: "0", 30: "0.5", 90: "1"}.get(turned)
    if exact is not None:
        return sign * decimal.Decimal(exact)
    angle = turned * PI / 180
    term, result, power = angle, angle, 1
    while abs(term) > decimal.Decimal(10) ** -78:
        term = -term * angle * angle / ((power + 1) * (power + 2))
        power += 2
        result += term
    return sign * result
