"""Which value is outside its limit (11), and which should be 0 (24)."""
from .explain_fields import LARGER_UNITS, UNITS_SAID, label
from .format import (
    BAND, BRANCH_KINDS, BRANCH_PHASES, BRANCHES, COMPENSATOR_X, FEEDER_TABLES, FIRST_PARAMETER, LOAD_PHASE, LOADS, PARAMETERS, Reading,
    columns_of, is_between, is_unused, outside_limit, zero_is_due,
)
from .wording import begun, listed, phases_said


def rows_by_line(data):
    """(table, place in the table from 1, values) of each row of a feeder, by its line."""
    reading = Reading(data, FEEDER_TABLES)
    return {
        line: (table, place, values)
        for table, rows in zip(reading.tables, reading.rows)
        for place, (line, values) in enumerate(rows, 1)
    }


def has_fault(row):
    """Whether a row of rows_by_line has 11 or 24."""
    return bool(_limit_fault(*row) or _zero_fault(*row))


def limits_said(column):
    unit = f" {UNITS_SAID[column.unit]}" if column.unit else ""
    return f"{column.least} to {column.most}{unit}"


def in_larger_unit(column, value):
    """'that is 20000.01 V', where the column's unit has a larger one."""
    if column.unit not in LARGER_UNITS:
        return ""
    name, factor = LARGER_UNITS[column.unit]
    digits = len(str(factor)) - 1
    size = f"{abs(value) // factor}.{abs(value) % factor:0{digits}d}".rstrip("0").rstrip(".")
    return f", that is {'-' if value < 0 else ''}{size} {name}"


# What p4 to p9 of a regulator are.
REGULATOR_VALUES = {
    "level": "The level is what the relay shall have, behind the potential transformer: 121 V is 12100.",
    "bandwidth": "The bandwidth is all of it, half below the level and half above: 2 V is 200.",
    "potential ratio": "The potential ratio is whole: 20 for 2400 V to 120 V.",
    "current ratio": "The current ratio is whole: 200 for 1000 A to 5 A.",
    "R of the compensator": "R of the compensator is its setting in ohm: one in volts is divided by the rated current of the relay's side, as 5 A.",
    "X of the compensator": "X of the compensator is its setting in ohm: one in volts is divided by the rated current of the relay's side, as 5 A.",
}


def _why_outside(table, column, value, values):
    """What the limit means, where that helps."""
    kind = values[FIRST_PARAMETER - 1] if table is BRANCHES else ""
    if column.meaning.startswith("tap"):
        return ["A tap is a number of steps: 16 raises the voltage by 11.1 %, -16 lowers it by 9.1 %. If the row is a line, its kind is L."]
    if column.meaning in REGULATOR_VALUES:
        needed = ["A regulator with a level (p4) needs both ratios. With level 0 it keeps its taps, and p5 to p9 are 0."]
        return [REGULATOR_VALUES[column.meaning]] + (needed if "ratio" in column.meaning and value == 0 else [])
    if "turns ratio" in column.meaning and value < 1:
        return [f"Kind {kind} is a transformer ({BRANCH_KINDS[kind].split(', ')[1]}): p1 is N and p2 is M. If the row is a line, its kind is L."]
    if column.name == "vn":
        if value == 0 and values[2] == "P":
            return ["vn must be given for kind P too: below 70 per cent of it the load acts as Z."]
        if is_between(values[LOAD_PHASE]):
            return ["vn is the voltage between the two phases."]
        return ["vn is the voltage to ground."]
    if column.unit in ("W", "var"):
        return ["The unit is W or var, neither kW nor grains. A larger load is split over rows: rows at one node and phase add up."]
    if column.unit == "µΩ":
        return ["The impedance is that of the whole section."]
    if column.name == "tol":
        return ["tol is in cV: 1000 is 10 V."] if value > 0 else []
    return []


def limit_fault(data, number):
    """Sentences for refusal 11 at a line."""
    row = rows_by_line(data).get(number)
    return _limit_fault(*row) if row else []


def _limit_fault(table, place, values):
    if table.limit_rows is not None and place > table.limit_rows:
        more = ["Loads at one node and phase that have the same kind and vn can be added into one row."] if table is LOADS else ["Split the feeder."]
        return [f"This is row {place} of the {table.name} table, which has at most {table.limit_rows}."] + more
    outside = [
        (column, value) for column, value in zip(columns_of(table, values), values) if isinstance(value, int) and outside_limit(column, value)
    ]
    if not outside:
        return []
    sentences = [
        f"{begun(label(column))} has {value}{in_larger_unit(column, value)}: the limit is {limits_said(column)}." for column, value in outside
    ]
    return sentences + _why_outside(table, *outside[0], values)


def _nonzero(columns):
    return [column for column, value in columns if value != 0]


def _other_phases(phases, parameters):
    """The phases that the values of a line's row would suit: of as many phases, and just one such choice; else None."""
    used = _nonzero(parameters)
    suited = [
        other for other in BRANCH_PHASES
        if len(other) == len(phases) and other != phases and not any(zero_is_due(column, other) for column in used)
    ]
    return suited[0] if len(suited) == 1 else None


def _columns_named(kind, phases):
    return [column for column in PARAMETERS[kind] if not zero_is_due(column, phases)]


def _packed(phases, parameters):
    """Whether the values stand in the first columns, as many as the phases of a line need."""
    needed = len(_columns_named("L", phases))
    return all(column.name in [f"p{place}" for place in range(1, needed + 1)] for column in _nonzero(parameters))


def zero_fault(data, number):
    """Sentences for refusal 24 at a line."""
    row = rows_by_line(data).get(number)
    return _zero_fault(*row) if row else []


def _zero_fault(table, _, values):
    if table is not BRANCHES:
        return []
    phases, kind = values[2], values[3]
    parameters = list(zip(columns_of(BRANCHES, values), values))[FIRST_PARAMETER:]
    wrong = [(column, value) for column, value in parameters if value != 0 and zero_is_due(column, phases)]
    if not wrong:
        return []
    shown = listed(f"{column.name} ({column.meaning}) {value}" for column, value in wrong)
    sentences = []
    of_level = [column for column, _ in parameters[BAND:COMPENSATOR_X + 1] if kind == "R" and column.only_zero]
    if any(column in of_level for column, _ in wrong):
        sentences.append(f"The row has {shown}: p4 (level) is 0, so the regulator keeps the taps p1 to p3, and 0 is due in p5 to p12. "
                         "If it shall set its taps, its level is missing in p4.")
    elif any(is_unused(column) for column, _ in wrong):
        used = sum(not is_unused(column) for column, _ in parameters)
        sentences.append(f"The row has {shown}: a row of kind {kind} ({BRANCH_KINDS[kind]}) uses p1 to p{used}, and 0 is due in the others.")
    else:
        sentences.append(f"The row has {shown}: the branch has {phases_said(phases)} alone, and 0 is due where a phase is absent.")
    if kind == "L":
        due = listed(f"{column.name} ({column.meaning})" for column in _columns_named("L", phases))
        other = _other_phases(phases, parameters)
        if other:
            sentences.append(f"The values stand in the columns of {phases_said(other)}. Those of {phases_said(phases)} are {due}.")
        elif _packed(phases, parameters):
            sentences.append(f"The values stand one behind the other from p1 on. The columns of {phases_said(phases)} are {due}.")
        elif len(phases) < 3:
            sentences.append(f"The columns of {phases_said(phases)} are {due}.")
    if kind == "R" and len(phases) < 3 and any(column.phases for column, _ in wrong):
        due = listed(f"{column.name} ({column.meaning})" for column in _columns_named("R", phases) if column.phases)
        sentences.append(f"The columns of {phases_said(phases)} are {due}.")
    return sentences
