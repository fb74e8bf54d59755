"""Why a field does not fit its column (refusals 10 and 50)."""
import collections
import decimal
import re

from .format import BRANCH_KINDS, BRANCH_PHASES, LOAD_KINDS, LOAD_SIGNS, LONGEST_NAME, MOST_DIGITS, NUMBER, read_field
from .wording import begun, lines_said, listed, visible, volts

UNITS_SAID = {
    "cV": "in cV (0.01 V)",
    "mA": "in mA",
    "µΩ": "in micro-ohms",
    "W": "in W",
    "var": "in var",
    "grains": "in grains (0.00001 W)",
}
# What a planner may have written in the place of the unit: its name, and how many of the file's units it has.
LARGER_UNITS = {"cV": ("V", 100), "mA": ("A", 1000), "µΩ": ("ohm", 1000000), "W": ("kW", 1000), "var": ("kvar", 1000), "grains": ("W", 100000)}
# Units that are larger still, where a value without them would be far too small.
LARGEST_UNITS = {"cV": ("kV", 100000), "W": ("MW", 1000000), "var": ("Mvar", 1000000)}
# Units as they are written beside a number, by the quantity of the column, in small letters but for the M of mega.
WRITTEN_UNITS = {
    "cV": {"cv": "1", "v": "100", "kv": "100000", "mv": "0.1"},
    "mA": {"ma": "1", "a": "1000", "ka": "1000000"},
    "µΩ": {
        prefix + ohm: factor
        for prefix, factor in (("", "1000000"), ("m", "1000"), ("k", "1000000000"), ("u", "1"), ("\u00b5", "1"), ("\u03bc", "1"))
        for ohm in ("ohm", "ohms", "\u03c9")
    },
    "W": {"w": "1", "kw": "1000", "Mw": "1000000"},
    "var": {"var": "1", "kvar": "1000", "Mvar": "1000000"},
    "grains": {"w": "100000", "kw": "100000000", "Mw": "100000000000", "var": "100000", "kvar": "100000000", "Mvar": "100000000000"},
}

# What is known of the place of a field: the kind of its row, the size of the source's voltage in cV or None, and the lines where the same
# name stands.
Context = collections.namedtuple("Context", "kind source lines", defaults=("", None, ()))

DECIMAL = re.compile(rb"[+-]?(?:[0-9]{1,30}\.[0-9]{0,30}|\.[0-9]{1,30})")
EXPONENT = re.compile(rb"[+-]?(?:[0-9]{1,30}\.?[0-9]{0,30}|\.[0-9]{1,30})[eE][+-]?[0-9]{1,2}")
WITH_UNIT = re.compile(
    r"([+-]?(?:[0-9]{1,30}(?:\.[0-9]{0,30})?|\.[0-9]{1,30}))[ \u00a0_]*"
    r"([kMuc\u00b5\u03bc]?(?:V|VA|W|A|VAR|OHMS?|[\u03c9\u03a9\u2126])|pu|%)", re.IGNORECASE)
# One point before three digits can be a decimal point or one between thousands; two points are between thousands.
THOUSANDS_POINT = re.compile(rb"-?[1-9][0-9]{0,2}\.[0-9]{3}")
THOUSANDS_POINTS = re.compile(rb"-?[1-9][0-9]{0,2}(?:\.[0-9]{3}){2,5}")
NO_VALUE = re.compile(rb"[+-]?(?:nan|inf|infinity|n/?a|n\.a\.|null|none|nil|-+|\?+|x+|tbd)", re.IGNORECASE)
RAISED_OR_LOWERED = re.compile(rb"(?:([0-9]{1,2}) ?([LR])|([LR]) ?([0-9]{1,2}))")
LETTERS_FOR_DIGITS = bytes.maketrans(b"OolI", b"0011")
STEP = decimal.Decimal("0.625")  # a tap's step in per cent
MOST_FURTHER = 5
SHEET_ERROR = re.compile(rb"#(?:REF!|N/A|DIV/0!|VALUE!|NAME\?|NUM!|NULL!|#+)")
# Dashes that are not the hyphen: of UTF-8, and of the code page that sheets use.
DASHES = [character.encode() for character in "\u2010\u2011\u2012\u2013\u2014\u2212\ufe63\uff0d"] + [b"\x96", b"\x97"]
BLANKS = [character.encode() for character in "\u00a0\u2007\u2009\u202f"] + [b"\xa0", b" ", b"\t", b"'", b"_"]


def label(column):
    """'column p1 (r of aa)'"""
    return f"column {column.name} ({column.meaning})"


def whole_number_rule(column):
    unit = UNITS_SAID.get(column.unit)
    return "a number is whole" + (f", {unit}" if unit else "")


def _plain(value):
    """A Decimal written out without an exponent."""
    text = format(value, "f")
    return text.rstrip("0").rstrip(".") if "." in text else text


def _whole(value):
    """A Decimal at the nearest whole number, and whether it is just that."""
    nearest = value.to_integral_value(rounding=decimal.ROUND_HALF_UP)
    return int(nearest), nearest == value


def _is_tap(column):
    return column.meaning.startswith("tap")


def _in_units(column, value):
    """(unit, whole number, whether it is just that) for each larger unit in which the value would be within the column's limits."""
    options = [LARGER_UNITS[column.unit]]
    if column.unit in LARGEST_UNITS and column.name != "tol":
        options.insert(0, LARGEST_UNITS[column.unit])
    found = [(name, *_whole(value * factor)) for name, factor in options]
    within = [one for one in found if column.least is None or column.least <= one[1] <= column.most]
    return within or found[-1:]


def _conversion(column, value, but=()):
    """'7.2 kV is 720000; 7.2 V is 720', where the column's unit has larger ones; without the numbers that are said already."""
    options = [option for option in _in_units(column, value) if option[1] not in but]
    return "; ".join(f"{_plain(value)} {name} is {whole}" + ("" if exact else " at the nearest") for name, whole, exact in options)


def _source_tells(column, value, context):
    """The source's voltage, where it tells which of two units of vn is meant."""
    options = [whole for _, whole, _ in _in_units(column, value)]
    if column.name == "vn" and context.source and len(options) > 1 and sum(whole <= 3 * context.source <= 9 * whole for whole in options) == 1:
        return f" The source has {volts(context.source)}."
    return ""


def _per_cent(value):
    """A tap given in per cent."""
    nearest, exact = _whole(value / STEP)
    return f"{_plain(value)} % is {nearest}" + ("" if exact else " at the nearest")


# What goes with a regulator's ratio that is multiplied by a number.
RATIOS = {
    "potential ratio": "p4, p5, p8 and p9 are then divided by the same number.",
    "current ratio": "p8 and p9 are then multiplied by the same number.",
}


def _fraction(column, field, context):
    """Sentences on a number with a point or an exponent."""
    value = decimal.Decimal(field.decode("ascii"))
    whole, exact = _whole(value)
    has_unit = column.unit in LARGER_UNITS
    fits_larger = has_unit and column.least is not None and whole * LARGER_UNITS[column.unit][1] <= column.most
    if has_unit and THOUSANDS_POINT.fullmatch(field):
        shown, thousands = visible(field), int(field.replace(b".", b""))
        tells = _source_tells(column, value, context)
        if exact:
            larger = _conversion(column, value, (whole, thousands)) if fits_larger else ""
            return [f"{shown} can be {whole} or {thousands}: if the point separates thousands, write {thousands}; else write {whole}."
                    + (f" {larger}.{tells}" if larger else "")]
        if thousands not in [one for _, one, _ in _in_units(column, value)]:
            unit = "micro-ohms" if column.unit == "µΩ" else column.unit
            return [f"{_conversion(column, value)}. If the point separates thousands, write {thousands} for {thousands} {unit}.{tells}"]
    if exact:
        # a whole number behind which a sheet has put .0
        if whole and fits_larger and b"E" not in field.upper():
            return [f"Write {whole} if it is {UNITS_SAID[column.unit]}; {_conversion(column, value)}.{_source_tells(column, value, context)}"]
        return [f"Write {whole}, with no point and no exponent."]
    if _is_tap(column):
        sentences = ["A tap is a whole number of steps from -16 to 16: it makes the voltage 160/(160 - tap) times as high."]
        if decimal.Decimal("0.9") <= value <= decimal.Decimal("1.12"):
            nearest, _ = _whole(160 - 160 / value)
            sentences.append(f"If {_plain(value)} is meant as that ratio, the nearest tap is {nearest}.")
        elif abs(value) <= 16 * STEP:
            sentences.append(f"If it is in per cent, a step is {STEP} %: {_per_cent(value)}.")
        return sentences
    if column.meaning in RATIOS:
        return [f"A ratio that is not whole is multiplied by a number, as 63.5 by 2. {RATIOS[column.meaning]}"]
    if "turns ratio" in column.meaning:
        return ["Only the ratio N/M counts: multiply both by the same number, as 12470 and 2400 for 12.47 and 2.4."]
    if has_unit:
        factor = [" A power factor cannot stand here: q is the reactive power in var."] if column.name == "q" and abs(value) < 1 else []
        return ["".join([_conversion(column, value) + ".", _source_tells(column, value, context), *factor])]
    return []


def _with_unit(column, text):
    """Sentences on a number with a unit beside it; None where there is none."""
    match = WITH_UNIT.fullmatch(text)
    if not match:
        return None
    value, unit = decimal.Decimal(match[1]), match[2]
    if unit == "%":
        return [f"A tap is a number of steps of {STEP} %: {_per_cent(value)}."] if _is_tap(column) else []
    said = re.sub("[\u00b5\u03bc]", "u", re.sub("[\u03c9\u03a9\u2126]", "ohm", unit))
    known = WRITTEN_UNITS.get(column.unit, {})
    factor = known.get(("M" if unit.startswith("M") else unit[:1].lower()) + unit[1:].lower())
    if not factor and unit.lower().endswith("va") and column.unit in ("W", "var"):
        return [f"{said} is apparent power: p is its real part in W, and q its reactive part in var."]
    if not factor:
        return []
    whole, exact = _whole(value * decimal.Decimal(factor))
    return [f"{_plain(value)} {said} is {whole}" + (f": write {whole}." if exact else " at the nearest.")]


def _number_fault(column, field, context):
    """(what is wrong, sentences on what to write) for a field that is no number and is not empty."""
    rule = whole_number_rule(column)
    bare = field.strip()
    if bare != field and NUMBER.fullmatch(bare):
        return f"no blank stands beside a number. Write {visible(bare)}.", []
    if re.fullmatch(rb"-0+", field):
        return "zero has no sign. Write 0.", []
    if re.fullmatch(rb"\+[0-9]+", field):
        return "no plus stands before a number." + (f" Write {int(field[1:])}." if len(field) <= MOST_DIGITS + 1 else ""), []
    if re.fullmatch(rb"-?[0-9]+", field):
        digits = field.lstrip(b"-").lstrip(b"0")
        if len(digits) > MOST_DIGITS:
            return f"that has {len(digits)} digits, a number has at most {MOST_DIGITS}.", []
        return f"a number has no leading zero. Write {int(field)}.", []
    if THOUSANDS_POINTS.fullmatch(field):
        return f"a number has no points between its digits. Write {int(field.replace(b'.', b''))}.", []
    if DECIMAL.fullmatch(field):
        return rule + ", with no decimal point.", _fraction(column, field, context)
    if EXPONENT.fullmatch(field):
        return rule + ", with no exponent.", _fraction(column, field, context)
    if SHEET_ERROR.match(field):
        return "that is an error of the sheet, and no number.", []
    if field.startswith(b"="):
        return "that is a formula of a sheet. Its value is due.", []
    if re.fullmatch(rb"-?[0-9]+\s+(?:#|//|;|!|%|--).*", field, re.DOTALL):
        return "no comment can stand behind a value.", []
    if NO_VALUE.fullmatch(field):
        return f"that is no number; {rule}. Where there is nothing, 0 is due.", []
    bracketed = re.fullmatch(rb"\(([0-9]{1,18})\)", field)
    if bracketed:
        return f"a number below 0 has a minus, and no brackets. Write {-int(bracketed[1])}.", []
    moved = RAISED_OR_LOWERED.fullmatch(field) if _is_tap(column) else None
    if moved:
        steps = int(moved[1] or moved[4])
        return f"a tap is a number of steps, below 0 where it lowers the voltage. Write {steps if (moved[2] or moved[3]) == b'R' else -steps}.", []
    mended = field
    for dash in DASHES:
        mended = mended.replace(dash, b"-")
    if mended != field and NUMBER.fullmatch(mended):
        return f"its minus is not the minus of ASCII. Write {visible(mended)} with the hyphen of the keyboard.", []
    for blank in BLANKS:
        mended = mended.replace(blank, b"")
    if mended != field and NUMBER.fullmatch(mended):
        return f"a number has digits alone, with no marks between them. Write {visible(mended)}.", []
    with_digits = field.translate(LETTERS_FOR_DIGITS)
    if NUMBER.fullmatch(with_digits):
        letters = listed(f"the letter {letter} where {digit} is due" for letter, digit in zip("OolI", "0011") if letter.encode() in field)
        return f"it has {letters}. Write {visible(with_digits)}.", []
    with_unit = _with_unit(column, field.decode("utf-8", "surrogateescape"))
    if with_unit is not None:
        return f"a number stands without its unit; {rule}.", with_unit
    return f"that is no number; {rule}: an optional minus and 1 to {MOST_DIGITS} digits.", []


def _number_parts(column, field, context):
    if field == b"":
        return f"{whole_number_rule(column)}. Where there is nothing, 0 is due.", []
    with decimal.localcontext() as exact:
        exact.prec = 200
        return _number_fault(column, field, context)


def number_fault(column, field, context=Context()):
    """Sentences on a field that is no number."""
    what, more = _number_parts(column, field, context)
    has = f"has {visible(field)}" if field else "is empty"
    return [f"{begun(label(column))} {has}: {what}"] + more


def short_advice(column, field, context):
    """The short form of what to write: '0.6 ohm is 600000.', or '' where that is not known."""
    if column.form != "number":
        return ""
    what, more = _number_parts(column, field, context)
    if more:
        per_cent = re.fullmatch(r"[^:]* per cent, [^:]*: (.*)|A tap [^:]*: (.*)", more[-1])
        # what the first column of the row is told of points between thousands and of the source is not said again
        short = (per_cent[1] or per_cent[2]) if per_cent else re.sub(r"(\.) (?:If the point|The source has) .*", r"\1", more[-1])
        return short[0].lower() + short[1:] if short.startswith(("If ", "Write ")) else short
    written = re.search(r"Write (.*)\Z", what)
    return f"write {written[1]}" if written else ""


def further_faults(first, others, context):
    """One line on the other fields of a row that do not fit: 'Column p2 likewise: 0.6 ohm is 600000.'; pairs of column and field are given."""
    known = short_advice(*first, context)
    said = []
    for column, field in others[:MOST_FURTHER]:
        advice = short_advice(column, field, context)
        if not advice:
            said.append(f"Column {column.name} ({visible(field) or 'empty'}) does not fit either.")
        else:
            said.append(f"Column {column.name} likewise" + ("." if advice == known else f": {advice}"))
    if len(others) > MOST_FURTHER:
        said.append(f"So many more values do not fit: {len(others) - MOST_FURTHER}.")
    return [" ".join(said)] if said else []


MONTHS = "JAN FEB MAR APR MAY JUN JUL AUG SEP OCT NOV DEC".split()
DATE = re.compile(
    r"([0-9]{1,2})[-. /]([A-Za-z]{3})[a-z]*(?:[-. /][0-9]{2,4})?|([A-Za-z]{3})[a-z]*[-. /]([0-9]{1,4})"
    r"|[0-9]{1,4}([-./])[0-9]{1,2}\5[0-9]{1,4}")


def _date_fault(text):
    """A sentence on a name that a sheet has made a date, or None."""
    match = DATE.fullmatch(text)
    month = match and (match[2] or match[3] or "").upper()
    if not match or (month and month not in MONTHS):
        return None
    written = f", such as {month}{int(match[1] or match[4])}" if month else ""
    return f"that looks like a date, which a sheet has made of the name. The name as it was is due{written}."


def name_fault(column, field, context=Context()):
    """Sentences on a field that is no name."""
    start = begun(label(column))
    rule = f"a name is 1 to {LONGEST_NAME} of A-Z and 0-9"
    if field == b"":
        return [f"{start} is empty: {rule}."]
    first = f"{start} has {visible(field)}: "
    if read_field(column, field.strip()):
        return [first + f"no blank stands beside a name. Write {visible(field.strip())}."]
    text = field.decode("utf-8", "surrogateescape")
    everywhere = f"in every row: {lines_said(context.lines)}." if len(context.lines) > 1 else ""
    date = _date_fault(text)
    if date:
        return [first + date] + ([f"Change it {everywhere}"] if everywhere else [])
    sentences = []
    if re.search(rb"[a-z]", field):
        sentences.append("names are in capitals")
    odd = sorted(set(re.sub(rb"[A-Za-z0-9]", b"", field).decode("utf-8", "surrogateescape")))
    if odd:
        shown = ["a blank" if one == " " else visible(one.encode("utf-8", "surrogateescape")) for one in odd[:10]]
        sentences.append(f"{listed(shown)} cannot stand in a name")
    length = len(text)
    if length > LONGEST_NAME:
        sentences.append(f"it has {length} characters, at most {LONGEST_NAME} may stand")
    follow = []
    if read_field(column, field.upper()):
        follow = [f"The name in capitals is {field.decode('ascii').upper()}: write it so {everywhere or 'in every row.'}"]
    elif everywhere:
        follow = [f"{'Shorten' if length > LONGEST_NAME and not odd else 'Change'} it {everywhere}"]
    return [first + rule + "; " + ", and ".join(sentences) + "."] + follow


# Which columns belong to which phases, by the kind of the branch.
COLUMNS_OF_PHASES = {
    "L": "p1,p2 are always aa, p3,p4 ab, p5,p6 ac, p7,p8 bb, p9,p10 bc and p11,p12 cc",
    "R": "p1 is always the tap of A, p2 of B and p3 of C",
    "Y": "p3,p4 are always of A, p5,p6 of B and p7,p8 of C",
    "D": "p3,p4 are always of A, p5,p6 of B and p7,p8 of C",
}


def _phases_fault(field, kind):
    letters = field.strip().upper()
    # N is the neutral, which has no column of its own here
    ordered = "".join(sorted(set(letters.replace(b"N", b"").decode("latin-1"))))
    if ordered not in BRANCH_PHASES or len(letters.replace(b"N", b"")) != len(ordered):
        return []
    moved = ""
    if letters.replace(b"N", b"").decode("latin-1") != ordered and kind in COLUMNS_OF_PHASES:
        moved = f" {COLUMNS_OF_PHASES[kind]}: if the numbers stand in another order, move them."
    if b"N" in letters:
        return [f"The neutral is not written: write {ordered}.{moved}"]
    if letters.decode("latin-1") != ordered:
        return [f"Phases stand in the order A, B, C: write {ordered}.{moved}"]
    return [f"Write {ordered}."]


def _load_phase_fault(field):
    # two phases are also written with a mark between them, as A-B
    letters = re.sub("[-/ ]", "", field.strip().upper().decode("latin-1"))
    if letters in LOAD_SIGNS:
        return [f"Write {letters}."]
    if letters[::-1] in LOAD_SIGNS:
        return [f"A load between two phases is written AB, BC or CA. Write {letters[::-1]}: turned round it is the same load, with the same p and q."]
    if "".join(sorted(letters)) == "ABC":
        return ["A load on three phases has three rows, each with its share of p and q: A, B and C where it stands between phase and ground, "
                "AB, BC and CA where it stands between two phases."]
    return []


def _kind_fault(kinds, field):
    word = field.strip().upper().decode("latin-1")
    if word in kinds:
        return [f"Write {word}."]
    if kinds is LOAD_KINDS:
        if word in ("PQ", "S", "KVA", "POWER"):
            return ["Constant power is P."]
        if word in ("C", "CAP", "CAPACITOR"):
            return ["A capacitor is a Z row with p 0 and q negative."]
        return []
    if word in ("LINE", "CABLE", "REG", "REGULATOR"):
        return [f"Write {word[0].replace('C', 'L')}."]
    return []


def word_fault(column, field, context=Context()):
    """Sentences on a field that is none of the words of its column."""
    start = begun(label(column))
    if column.form == tuple(BRANCH_KINDS):
        words, more = [f"{kind} ({said})" for kind, said in BRANCH_KINDS.items()], _kind_fault(BRANCH_KINDS, field)
    elif column.form == tuple(LOAD_KINDS):
        words, more = [f"{kind} ({said})" for kind, said in LOAD_KINDS.items()], _kind_fault(LOAD_KINDS, field)
    elif column.form == BRANCH_PHASES:
        words, more = column.form, _phases_fault(field, context.kind)
    else:
        words, more = column.form, _load_phase_fault(field)
    due = listed(words, "or")
    if field == b"":
        return [f"{start} is empty: {due} is due."]
    return [f"{start} has {visible(field)}: {due} is due."] + more


def field_fault(column, field, context=Context()):
    """Sentences on a field that does not fit its column; the most telling comes first."""
    if column.form == "number":
        return number_fault(column, field, context)
    if column.form == "name":
        return name_fault(column, field, context)
    return word_fault(column, field, context)
