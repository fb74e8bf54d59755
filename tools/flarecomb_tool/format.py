"""The feeder file and the report as documents 01 and 02 lay them out: columns, units, limits, and a reader of each file.

The proved programs decide what a file is worth. What stands here serves to speak about a file: to name a column, its unit and its limit,
and to have the rows of a file that is well laid out.
"""
import collections
import re

LARGEST_FILE = 65536
MOST_BRANCHES = 200
MOST_LOADS = 300
LONGEST_NAME = 8
MOST_DIGITS = 18
VOLTAGE_LIMIT = 2000000
VOLTAGE_BETWEEN_LIMIT = 4000000
CURRENT_LIMIT = 2000000
IMPEDANCE_LIMIT = 100000000
POWER_LIMIT = 3000000
TAP_LIMIT = 16
LEVEL_LIMIT = 20000
RATIO_LIMIT = 10000
GRAINS_IN_A_WATT = 100000

PHASES = ("A", "B", "C")
BRANCH_PHASES = ("A", "B", "C", "AB", "AC", "BC", "ABC")
BRANCH_KINDS = {
    "L": "line",
    "R": "regulator",
    "Y": "transformer, grounded wye to grounded wye",
    "D": "transformer, delta to grounded wye",
}
LOAD_KINDS = {"P": "constant power", "I": "constant current", "Z": "constant impedance"}
# What a load stands between, by the word of its phase: the signs that A, B and C have in its voltage, and its current in theirs.
LOAD_SIGNS = {
    "A": (1, 0, 0), "B": (0, 1, 0), "C": (0, 0, 1),
    "AB": (1, -1, 0), "BC": (0, 1, -1), "CA": (-1, 0, 1),
}

NUMBER = re.compile(rb"0|-?[1-9][0-9]{0,%d}" % (MOST_DIGITS - 1))
NAME = re.compile(rb"[A-Z0-9]{1,%d}" % LONGEST_NAME)


def load_phases(word):
    """The phases that a load with this word stands on, in the order A, B, C: all of them must be present at its node."""
    return [phase for phase, sign in zip(PHASES, LOAD_SIGNS[word]) if sign]


def is_between(word):
    """Whether a load with this word stands between two phases, and not between a phase and ground."""
    return len(load_phases(word)) == 2


# form is "name", "number" or the tuple of the words that may stand in the column. least and most are the limits of refusal 11 (of 50 in
# a report), None where there are none. phases are those that the column belongs to: where one of them is absent, 0 is due. only_zero is
# whether 0 is due there on every phase.
Column = collections.namedtuple("Column", "name form meaning unit least most phases only_zero", defaults=("", None, None, "", False))

# fewest and most rows are those of the layout (refusal 10): a row past limit_rows is refused with 11 instead. may_lack is whether a file
# may end before the table, without the empty line before it.
Table = collections.namedtuple("Table", "name columns fewest_rows most_rows limit_rows may_lack", defaults=(False,))


def header(table):
    """The line of names of a table, without its LF."""
    return ",".join(column.name for column in table.columns)


def _pair(name, meaning, unit, limit, phases=""):
    """The two columns of a value with a real and an imaginary part."""
    least = None if limit is None else -limit
    return (
        Column(name + "_re", "number", "real part of the " + meaning, unit, least, limit, phases),
        Column(name + "_im", "number", "imaginary part of the " + meaning, unit, least, limit, phases),
    )


def _three_pairs(letter, meaning, unit, limit):
    columns = ()
    for phase in PHASES:
        columns += _pair(letter + phase.lower(), f"{meaning} of {phase}", unit, limit, phase)
    return columns


SOURCE = Table(
    "source",
    (Column("source", "name", "the source node"),)
    + _three_pairs("v", "source voltage", "cV", VOLTAGE_LIMIT)
    + (
        Column("tol", "number", "the study stops when no voltage moves by more than this", "cV", 0, 1000),
        Column("sweeps", "number", "the most sweeps that may be made", "", 1, 100),
    ),
    1, 1, 1,
)

BRANCHES = Table(
    "branches",
    (
        Column("from", "name", "the node on the source's side"),
        Column("to", "name", "the node that the branch feeds"),
        Column("phases", BRANCH_PHASES, "the phases of the branch"),
        Column("kind", tuple(BRANCH_KINDS), "line, regulator or transformer"),
    )
    + tuple(Column(f"p{place}", "number", "a value of the branch, by its kind") for place in range(1, 13)),
    0, None, MOST_BRANCHES,
)
FIRST_PARAMETER = 4  # p1's place among the branch columns, counted from 0

LOADS = Table(
    "loads",
    (
        Column("node", "name", "the node where the load stands"),
        Column("phase", tuple(LOAD_SIGNS), "the phase of the load, or the two that it stands between"),
        Column("kind", tuple(LOAD_KINDS), "constant power, current or impedance"),
        Column("vn", "number", "rated voltage", "cV", 1, VOLTAGE_BETWEEN_LIMIT),
        Column("p", "number", "rated power", "W", -POWER_LIMIT, POWER_LIMIT),
        Column("q", "number", "rated reactive power", "var", -POWER_LIMIT, POWER_LIMIT),
    ),
    0, None, MOST_LOADS,
)
LOAD_PHASE, RATED_VOLTAGE = 1, 3  # the places of phase and vn among the load columns

NODES = Table(
    "voltages",
    (Column("node", "name", "the node"),) + _three_pairs("v", "voltage", "cV", VOLTAGE_LIMIT),
    0, None, None,
)

CURRENTS = Table(
    "currents",
    (Column("from", "name", "the node on the source's side"), Column("to", "name", "the node that the branch feeds"))
    + _three_pairs("i", "current", "mA", CURRENT_LIMIT)
    + (
        Column("loss_p", "number", "real power that the branch loses", "grains"),
        Column("loss_q", "number", "reactive power that the branch loses", "grains"),
    ),
    0, None, None,
)

TOTALS = Table(
    "totals",
    (
        Column("sweeps", "number", "the number of sweeps made", "", 1, 100),
        Column("source_p", "number", "real power that the source gives", "grains"),
        Column("source_q", "number", "reactive power that the source gives", "grains"),
        Column("drawn_p", "number", "real power that the loads draw", "grains"),
        Column("drawn_q", "number", "reactive power that the loads draw", "grains"),
        Column("lost_p", "number", "real power that the branches lose", "grains"),
        Column("lost_q", "number", "reactive power that the branches lose", "grains"),
    ),
    1, 1, None,
)

# Reports from before version 0.5.0 end without this table.
TAPS = Table(
    "taps",
    (Column("to", "name", "the node that the regulator feeds"),)
    + tuple(Column(f"tap_{phase.lower()}", "number", f"tap of {phase}", "", -TAP_LIMIT, TAP_LIMIT, phase) for phase in PHASES),
    0, None, None, True,
)

FEEDER_TABLES = (SOURCE, BRANCHES, LOADS)
REPORT_TABLES = (NODES, CURRENTS, TOTALS, TAPS)


def _impedances(first, pairs):
    """Columns r,x for each of the pairs of phases, from p<first> on."""
    columns = []
    for phases in pairs:
        # 'aa' is how document 01 writes the place of A in the phase matrix; a transformer has one impedance for each phase.
        place = phases.lower() if len(phases) == 2 else phases
        for letter in "rx":
            columns.append(Column(f"p{first + len(columns)}", "number", f"{letter} of {place}", "µΩ", -IMPEDANCE_LIMIT, IMPEDANCE_LIMIT,
                                  "".join(sorted(set(phases)))))
    return tuple(columns)


def _unused(first):
    """The columns from p<first> on that have no meaning: 0 is due, and there is no other limit."""
    return tuple(Column(f"p{place}", "number", "not used", only_zero=True) for place in range(first, 13))


_TRANSFORMER = (
    (Column("p1", "number", "N of the turns ratio N/M", "", 1, 1000000), Column("p2", "number", "M of the turns ratio N/M", "", 1, 1000000))
    + _impedances(3, ("A", "B", "C"))
    + _unused(9)
)

_REGULATOR = (
    tuple(Column(f"p{place}", "number", f"tap of {phase}", "", -TAP_LIMIT, TAP_LIMIT, phase) for place, phase in enumerate(PHASES, 1))
    + (
        Column("p4", "number", "level", "cV", 0, LEVEL_LIMIT),
        Column("p5", "number", "bandwidth", "cV", 0, LEVEL_LIMIT),
        Column("p6", "number", "potential ratio", "", 1, RATIO_LIMIT),
        Column("p7", "number", "current ratio", "", 1, RATIO_LIMIT),
        Column("p8", "number", "R of the compensator", "µΩ", -IMPEDANCE_LIMIT, IMPEDANCE_LIMIT),
        Column("p9", "number", "X of the compensator", "µΩ", -IMPEDANCE_LIMIT, IMPEDANCE_LIMIT),
    )
    + _unused(10)
)
LEVEL, BAND, POTENTIAL_RATIO, CURRENT_RATIO, COMPENSATOR_R, COMPENSATOR_X = range(3, 9)  # their places among p1 to p12 of a regulator

# What p1 to p12 are, by the branch's kind; of a regulator those where the level is not 0.
PARAMETERS = {
    "L": _impedances(1, ("AA", "AB", "AC", "BB", "BC", "CC")),
    "R": _REGULATOR,
    "Y": _TRANSFORMER,
    "D": _TRANSFORMER,
}
# With level 0 a regulator keeps its taps: p5 to p9 can only be 0 then, and have no other limit.
FIXED_REGULATOR = tuple(
    column._replace(least=None, most=None, only_zero=True) if BAND <= place <= COMPENSATOR_X else column
    for place, column in enumerate(_REGULATOR)
)


def parameters_of(kind, level):
    """What p1 to p12 of a branch are; level is p4 as a number or as text, which matters in a regulator's row alone."""
    return FIXED_REGULATOR if kind == "R" and str(level) == "0" else PARAMETERS[kind]


# What vn is, by the word of the load's phase.
RATED_VOLTAGES = {
    word: Column("vn", "number", f"rated voltage between {word[0]} and {word[1]}", "cV", 1, VOLTAGE_BETWEEN_LIMIT) if is_between(word)
    else Column("vn", "number", "rated voltage to ground", "cV", 1, VOLTAGE_LIMIT)
    for word in LOAD_SIGNS
}


def columns_of(table, words):
    """The columns of a row: p1 to p12 as a branch's kind and level have them, vn as a load's phase has it. words are the row's fields as
    texts; where they do not tell kind or phase, the columns are those of the table."""
    columns = table.columns
    if table is BRANCHES and words[FIRST_PARAMETER - 1] in PARAMETERS:
        level = words[FIRST_PARAMETER + LEVEL] if len(words) > FIRST_PARAMETER + LEVEL else ""
        return columns[:FIRST_PARAMETER] + parameters_of(words[FIRST_PARAMETER - 1], level)
    if table is LOADS and words[LOAD_PHASE] in RATED_VOLTAGES:
        return columns[:RATED_VOLTAGE] + (RATED_VOLTAGES[words[LOAD_PHASE]],) + columns[RATED_VOLTAGE + 1:]
    return columns


def is_unused(column):
    """Whether a parameter has no meaning in its kind of row."""
    return column.meaning == "not used"


def zero_is_due(column, phases):
    """Whether a parameter of a branch with these phases must be 0 (refusal 24)."""
    return column.only_zero or any(phase not in phases for phase in column.phases)


def outside_limit(column, value):
    return column.least is not None and not column.least <= value <= column.most


# A line of a file: its number from 1, its bytes without LF, and whether an LF ends it.
Line = collections.namedtuple("Line", "number content ended")


def split_lines(data):
    """All lines of any bytes, also of a file that is not well laid out; what follows the last LF is a line only if it has a byte."""
    parts = data.split(b"\n")
    lines = [Line(number, content, True) for number, content in enumerate(parts[:-1], 1)]
    if parts[-1]:
        lines.append(Line(len(parts), parts[-1], False))
    return lines


def read_field(column, field):
    """The value of a field given as bytes: a number or a word; None where it does not fit its column."""
    if column.form == "number":
        return int(field) if NUMBER.fullmatch(field) else None
    if column.form == "name":
        return field.decode("ascii") if NAME.fullmatch(field) else None
    word = field.decode("latin-1")
    return word if word in column.form else None


def read_row(table, content):
    """The values of a row given as bytes, or None where it does not fit the table."""
    fields = content.split(b",")
    if len(fields) != len(table.columns):
        return None
    values = tuple(read_field(column, field) for column, field in zip(table.columns, fields))
    return None if None in values else values


class Reading:
    """A file read line by line against its tables, up to the first line that cannot stand there.

    rows[k] has (line number, values) for each row of table k. stopped is the number of the first line that does not fit, or of the line
    where the file ends early, and None where the file is well laid out. At the end of the reading table_index, names_read and the rows
    tell what was due there: see `due`.
    """

    def __init__(self, data, tables):
        self.tables = tables
        self.lines = split_lines(data)
        self.rows = [[] for _ in tables]
        self.table_index = 0
        self.names_read = False
        self.stopped = None
        for line in self.lines:
            if not (line.ended and self._take(line)):
                self.stopped = line.number
                return
        if "end" not in self.due():
            self.stopped = len(self.lines) + 1

    @property
    def table(self):
        return self.tables[self.table_index]

    def due(self):
        """What may stand at the place reached: a set of 'names', 'row', 'empty line', 'end'."""
        if not self.names_read:
            return {"names"}
        count = len(self.rows[self.table_index])
        may = set()
        if self.table.most_rows is None or count < self.table.most_rows:
            may.add("row")
        if count >= self.table.fewest_rows:
            following = self.tables[self.table_index + 1:]
            if following:
                may.add("empty line")
            if all(table.may_lack for table in following):
                may.add("end")
        return may

    def _take(self, line):
        may = self.due()
        if "names" in may:
            self.names_read = line.content == header(self.table).encode()
            return self.names_read
        if line.content == b"":
            if "empty line" not in may:
                return False
            self.table_index += 1
            self.names_read = False
            return True
        values = read_row(self.table, line.content) if "row" in may else None
        if values is None:
            return False
        self.rows[self.table_index].append((line.number, values))
        return True


class NotLaidOut(ValueError):
    """The file is too long (number 9), or not laid out as a feeder (10) or as a report (50); line says where."""

    def __init__(self, number, line):
        super().__init__(f"not laid out: {number} at line {line}")
        self.number = number
        self.line = line


# Rows of a feeder; line is the row's line in the file. voltage is ((re, im) of A, of B, of C); parameters are p1 to p12.
Source = collections.namedtuple("Source", "line name voltage tol sweeps")
Branch = collections.namedtuple("Branch", "line from_node to_node phases kind parameters")
Load = collections.namedtuple("Load", "line node phase kind vn p q")
Feeder = collections.namedtuple("Feeder", "source branches loads")

# Rows of a report. voltage and current are ((re, im) of A, of B, of C).
NodeVoltage = collections.namedtuple("NodeVoltage", "line node voltage")
BranchCurrent = collections.namedtuple("BranchCurrent", "line from_node to_node current loss_p loss_q")
Totals = collections.namedtuple("Totals", "line sweeps source_p source_q drawn_p drawn_q lost_p lost_q")
RegulatorTaps = collections.namedtuple("RegulatorTaps", "line to_node taps")
# taps is None where the report ends without the table of them.
Report = collections.namedtuple("Report", "nodes currents totals taps", defaults=(None,))


def regulators(feeder):
    """The branches that are regulators, in the feeder's order."""
    return [branch for branch in feeder.branches if branch.kind == "R"]


def level_of(branch):
    """The level of a regulator, 0 where it keeps its taps; of another branch 0."""
    return branch.parameters[LEVEL] if branch.kind == "R" else 0


def sets_taps(feeder):
    """Whether a regulator of the feeder has a level above 0."""
    return any(level_of(branch) > 0 for branch in feeder.branches)


def with_taps(feeder, taps):
    """The feeder with these taps as p1 to p3 of its regulators: a list of three taps for each of them, in the feeder's order."""
    given = iter(taps)
    return feeder._replace(branches=[
        branch._replace(parameters=tuple(next(given)) + tuple(branch.parameters[3:])) if branch.kind == "R" else branch
        for branch in feeder.branches
    ])


def taps_of(feeder):
    """p1 to p3 of each regulator, in the feeder's order."""
    return [tuple(branch.parameters[:3]) for branch in regulators(feeder)]


def _three(values):
    """((re, im) of A, of B, of C) from six numbers."""
    return tuple(zip(values[0::2], values[1::2]))


def _read(data, tables, layout_number):
    if len(data) > LARGEST_FILE:
        raise NotLaidOut(9, 0)
    reading = Reading(data, tables)
    if reading.stopped is not None:
        raise NotLaidOut(layout_number, reading.stopped)
    return reading


def read_feeder(data):
    """The Feeder of a file given as bytes. Only its layout is looked at here; NotLaidOut is raised where that is wrong."""
    sources, branches, loads = _read(data, FEEDER_TABLES, 10).rows
    line, values = sources[0]
    return Feeder(
        Source(line, values[0], _three(values[1:7]), values[7], values[8]),
        [Branch(line, *values[:FIRST_PARAMETER], values[FIRST_PARAMETER:]) for line, values in branches],
        [Load(line, *values) for line, values in loads],
    )


def read_report(data):
    """The Report of a file given as bytes. Only its layout is looked at here; NotLaidOut is raised where that is wrong."""
    reading = _read(data, REPORT_TABLES, 50)
    nodes, currents, totals, taps = reading.rows
    line, values = totals[0]
    return Report(
        [NodeVoltage(line, values[0], _three(values[1:])) for line, values in nodes],
        [BranchCurrent(line, values[0], values[1], _three(values[2:8]), values[8], values[9]) for line, values in currents],
        Totals(line, *values),
        [RegulatorTaps(line, values[0], values[1:]) for line, values in taps] if reading.table is TAPS else None,
    )
