"""Why a line cannot stand where it stands: refusal 10, and 50 where the report's layout is wrong."""
import itertools
import re

from .explain_fields import Context, field_fault, further_faults, short_advice
from .format import (
    BRANCHES, FEEDER_TABLES, FIRST_PARAMETER, REPORT_TABLES, Reading, columns_of, header, read_field, read_row, split_lines,
)
from .power import nearest_root, square
from .wording import begun, counted, lines_said, listed, visible

BYTE_ORDER_MARK = b"\xef\xbb\xbf"
COMMENT = re.compile(rb"\s*(?:#|//|/\*|--|!|%|\*|;\s*[A-Za-z])")
PLAIN = "Save the file as plain ASCII text with LF line ends."


def _unquoted(match):
    """What stands in quotes, without thousands commas; other commas stay, so that a decimal comma is not lost."""
    return match[1].replace(b",", b"") if re.fullmatch(rb"-?[0-9]{1,3}(?:,[0-9]{3})+", match[1]) else match[1]


def _without_quotes(content):
    return re.sub(rb'"([^"\n]*)"', _unquoted, content)


SEMICOLONS = "Semicolons separate the values, where commas are due."
DECIMAL_COMMA = re.compile(rb"[+-]?[0-9]{1,18},[0-9]{1,18}")
MERGE = re.compile(rb"(?:<{7}|={7}|>{7}|\|{7})(?: .*)?\r?")
FENCE = re.compile(rb"\s*(?:```|~~~).*")
SUMS = re.compile(rb"(?:grand |sub)?(?:totals?|sums?|summe|gesamt)\b.*", re.IGNORECASE)
UNIT_WORDS = {
    "v", "kv", "cv", "mv", "w", "kw", "mw", "va", "kva", "mva", "var", "kvar", "mvar", "a", "ma", "ohm", "ohms", "mohm", "uohm", "micro-ohm",
    "micro-ohms", "\u03c9", "m\u03c9", "\u00b5\u03c9", "\u03bc\u03c9", "\u00b5ohm", "%", "pu", "deg", "-",
}
MOST_WRAPPED = 3
MOST_MISSING = 3

# What editors and sheets do to all lines of a file: what it is, and how the bytes would be without it.
HABITS = (
    ("The file begins with a byte order mark: save it as plain ASCII, without one.",
     lambda content: content[3:] if content.startswith(BYTE_ORDER_MARK) else content),
    ("The line ends in CR LF, where LF alone is due: save the file with LF line ends.",
     lambda content: re.sub(rb"\r(?=\n|\Z)", b"", content)),
    ("The line begins with >, as quoted mail has it: remove this mark.", lambda content: re.sub(rb"(\A|\n)> ?(?!>)", rb"\1", content)),
    (SEMICOLONS, lambda content: content.replace(b";", b",")),
    ("Tabs separate the values, where commas are due.", lambda content: content.replace(b"\t", b",")),
    ("Quotes stand around values: write them without quotes, and numbers without thousands commas.", _without_quotes),
    ("Blanks stand beside values or at an end of the line: remove them.",
     lambda content: re.sub(rb" *(,|\r?\n|\A|\r?\Z) *", rb"\1", content)),
    ("Commas of empty cells stand at the end of the line, as a sheet pads its rows: remove them.",
     lambda content: re.sub(rb",+(?=\r?(?:\n|\Z))", b"", content)),
)


def fits(reading, content):
    """Whether a line may stand at the place that the reading has reached."""
    may = reading.due()
    if "names" in may:
        return content == header(reading.table).encode()
    if content == b"":
        return "empty line" in may
    return "row" in may and read_row(reading.table, content) is not None


def _habits_of(reading, content):
    """The fewest habits without which the line would fit, or None."""
    changing = [habit for habit in HABITS if habit[1](content) != content]
    for count in range(1, len(changing) + 1):
        for habits in itertools.combinations(changing, count):
            mended = content
            for _, mend in habits:
                mended = mend(mended)
            if fits(reading, mended):
                return habits
    return None


def _after(data, tables, habits):
    """What is left once the habits are mended in the whole file."""
    for _, mend in habits:
        data = mend(data)
    stopped = Reading(data, tables).stopped
    if stopped is None:
        return "Mend it wherever it stands: the layout is then sound."
    return f"Mend it wherever it stands: line {stopped} would be refused next."


def _due_said(reading):
    may = reading.due()
    said = []
    if "names" in may:
        said.append(f"the line of names of the {reading.table.name} table ({header(reading.table)})")
    if "row" in may:
        said.append(f"a row of the {reading.table.name} table")
    if "empty line" in may:
        said.append("the empty line before the next table")
    if "end" in may:
        said.append("the end of the file")
    return listed(said, "or")


def _tables_missing(reading):
    first = reading.table_index + reading.names_read
    missing = [table.name for table in reading.tables[first:] if not table.may_lack or table is reading.table]
    if not missing:
        return []
    if len(missing) == 1:
        older = reading.table.may_lack and not reading.names_read
        more = f" Without this table the empty line before it goes too: the file then ends with its {reading.tables[-2].name}." if older else ""
        return [f"The {missing[0]} table is missing: a table without rows still has its line of names.{more}"]
    return [f"The {listed(missing)} tables are missing: a table without rows still has its line of names."]


def _whole_file(data, tables):
    """What is wrong with the file as a whole, or None."""
    first = data.split(b"\n", 1)[0].rstrip(b"\r")
    if not data:
        return ["The file is empty."]
    if data[:4] == b"PK\x03\x04" or data[:4] == b"\xd0\xcf\x11\xe0":
        return ["The file is a workbook or another packed file, and no text. Save the sheet as comma-separated text."]
    if data[:2] in (b"\xff\xfe", b"\xfe\xff"):
        return ["The file is in UTF-16. " + PLAIN]
    if b"\r" in data and b"\n" not in data:
        return ["Its lines end in CR alone, where LF is due. " + PLAIN]
    if tables is FEEDER_TABLES and first == header(REPORT_TABLES[0]).encode():
        return ["This is a report: a feeder is due. A feeder begins with the line of names of its source."]
    if tables is REPORT_TABLES and first == header(FEEDER_TABLES[0]).encode():
        return ["This is a feeder: its report is due."]
    if re.fullmatch(rb"refused [0-9]+ [0-9]+", first):
        return [f"This is the line of a refusal that was saved ('{visible(first)}'), and no {'feeder' if tables is FEEDER_TABLES else 'report'}."]
    if first == b"pass":
        return ["This is the answer 'pass' that was saved."]
    return None


def _names_fault(reading, line):
    """Sentences on a line where a line of names is due."""
    table = reading.table
    content = line.content
    due = header(table)
    rule = f"The line of names of the {table.name} table is due here: {due}"
    if content == b"":
        if line.number == 1:
            return ["The file begins with an empty line. " + rule]
        return ["This is a second empty line: one stands between tables. " + rule]
    for other in reading.tables:
        if content == header(other).encode():
            return [
                f"This is the line of names of the {other.name} table. The tables stand in the order {listed(t.name for t in reading.tables)}, "
                f"and a table without rows still has its line of names. " + rule
            ]
    if read_row(table, content):
        return [f"This is a row of the {table.name} table: the line of names must stand before it. " + rule]
    before = reading.tables[reading.table_index - 1]
    if reading.table_index > 0 and read_row(before, content):
        return [f"This is a row of the {before.name} table, which the empty line in line {line.number - 1} ended. Remove the empty line."]
    given, names = content.split(b","), due.encode().split(b",")
    if given[1:] == names:
        further = visible(given[0]) or "without a name"
        return [f"A further column ({further}) stands before {visible(names[0])}: remove the first value of every line of the table. {rule}"]
    if given != names and sorted(given) == sorted(names):
        places = [place for place, (one, other) in enumerate(zip(given, names)) if one != other]
        span = slice(places[0], places[-1] + 1)
        return [f"The columns stand in another order ({visible(b','.join(given[span]))}, where {visible(b','.join(names[span]))} is due): "
                "move the values of every row along with their names."]
    if content.lower() == due.encode():
        wrong = [visible(one) for one, other in zip(given, names) if one != other]
        return [f"{listed(wrong)} must be in small letters, as in: {due}"]
    for place, (one, other) in enumerate(itertools.zip_longest(given, names), 1):
        if one != other:
            if one is None:
                found = f"Name {place}, {visible(other)}, is missing. "
            elif other is None:
                found = f"Name {place} is {visible(one) or 'empty'}; there are only {len(names)}. "
            else:
                found = f"Name {place} is {visible(one) or 'empty'}, where {visible(other)} is due. "
            return [found + rule]
    return [rule]


def _thousands(table, fields):
    """The numbers that two or three fields make when commas between digits are left out, if there is just one way that fits."""
    extra = len(fields) - len(table.columns)
    if not 0 < extra <= 6 or len(fields) > 30:
        return None
    joints = [
        place for place in range(1, len(fields))
        if re.fullmatch(rb"[0-9]{3}", fields[place]) and re.fullmatch(rb"-?[1-9][0-9]{0,2}|[0-9]{3}", fields[place - 1])
    ]
    found = None
    for chosen in itertools.islice(itertools.combinations(joints, extra), 5000):
        joined = []
        for place, field in enumerate(fields):
            if place in chosen:
                joined[-1] += field
            else:
                joined.append(field)
        if read_row(table, b",".join(joined)):
            if found is not None:
                return None
            found = [field for field in joined if field not in fields]
    return found


def _wrapped(reading, line):
    """Sentences on a line whose rest stands in the next lines, or which is the rest of the line before; [] where it is neither."""
    table = reading.table
    rows = reading.rows[reading.table_index]
    before = reading.lines[line.number - 2].content if line.number > 1 else b""
    if rows and rows[-1][0] == line.number - 1 and re.fullmatch(rb"[0-9]{1,17}", line.content) and read_row(table, before + line.content):
        return [f"This seems to be the rest of line {line.number - 1}: joined they have {len(table.columns)} values."]
    start = line.content.rstrip(b" \r")
    broken = start.endswith(b"=")
    following = [other.content.strip(b" \r") for other in reading.lines[line.number:line.number + MOST_WRAPPED]]
    for count in range(1, len(following) + 1):
        rest = following[:count]
        if rest[-1] == b"" or read_row(table, rest[-1]):
            break
        for mark in (b"", b","):
            if read_row(table, mark.join(piece.removesuffix(b"=") for piece in [start, *rest])):
                lines = lines_said(range(line.number + 1, line.number + 1 + count))
                return [f"{begun(lines)} {'seems' if count == 1 else 'seem'} to be its rest: joined{', without the =,' if broken else ''} they have "
                        f"{len(table.columns)} values."]
    return []


def _other_rows(reading):
    """The values of all rows of the table that fit, before and behind the line where the reading stopped."""
    rows = [values for _, values in reading.rows[reading.table_index]]
    for other in reading.lines[reading.stopped:]:
        if other.content == b"":
            break
        values = read_row(reading.table, other.content)
        if values:
            rows.append(values)
    return rows


def _likeness(value, others):
    """How well a value suits those that the column has in other rows."""
    if value in others:
        return 2
    if not isinstance(value, int):
        return 0
    return int(any(0 < value * other and abs(value) <= 3 * abs(other) <= 9 * abs(value) for other in others))


def _missing(reading, fields):
    """Sentences on a row with too few values: what they would be taken for, and which is probably missing."""
    columns = reading.table.columns
    names = [column.name for column in columns]
    more = []
    values = [read_field(column, field) for column, field in zip(columns, fields)]
    lacking = names[len(fields):]
    taken = None not in values
    if taken:
        last = listed(f"{name} would be {visible(field)}" for name, field in list(zip(names, fields))[-2:])
        more.append(f"Taken in order, {last}, and {listed(lacking[:1] if len(lacking) == 1 else [lacking[0], lacking[-1]], 'to')} would be missing.")
    if len(lacking) > MOST_MISSING:
        return more
    # It can be told which are missing where only one choice lets all others fit, or where one suits the other rows best.
    likeness = {}
    others = [{row[place] for row in _other_rows(reading)} for place in range(len(names))]
    for places in itertools.combinations(range(len(names)), len(lacking)):
        left = [place for place in range(len(names)) if place not in places]
        values = [read_field(columns[place], field) for place, field in zip(left, fields)]
        if None not in values:
            likeness[places] = sum(_likeness(value, others[place]) for place, value in zip(left, values))
    best = [places for places in likeness if likeness[places] == max(likeness.values())]
    if len(best) != 1:
        return more
    missing = listed(names[place] for place in best[0])
    if len(likeness) == 1:
        return [f"Column {missing} is the one that is missing." if len(lacking) == 1 else f"Columns {missing} are missing."]
    return more + [f"By the other rows {missing} {'is probably the one that is' if len(lacking) == 1 else 'are probably those that are'} missing."]


def _count_fault(reading, line, fields):
    """Sentences on a row with a wrong number of values."""
    table = reading.table
    names = [column.name for column in table.columns]
    named = ",".join(names)
    first = f"The line has {counted(len(fields), 'value')}; a row of the {table.name} table has {len(names)}: {named}"
    more = _wrapped(reading, line)
    joined = _thousands(table, fields)
    if more:
        return [first] + more
    if joined:
        more.append(f"It would fit with {listed(visible(one) for one in joined)} written without thousands commas.")
    elif len(fields) < len(names):
        more += _missing(reading, fields)
    elif len(fields) == len(names) + 1:
        # Of equal neighbours it is the same which one goes.
        shorter = {b",".join(fields[:place] + fields[place + 1:]): place for place in range(len(fields))}
        places = [place for row, place in shorter.items() if read_row(table, row)]
        if re.fullmatch(rb"[0-9]{1,4}", fields[0]) and read_row(table, b",".join(fields[1:])):
            more.append("A column of row numbers seems to stand before the table: remove the first value of every row.")
        elif len(places) == 1:
            more.append(f"It would fit without value {places[0] + 1} ({visible(fields[places[0]]) or 'empty'}).")
    return [first] + more


def column_of(table, place, fields):
    """The column at a place of a row given as fields of bytes."""
    return columns_of(table, [field.decode("latin-1") for field in fields])[place]


def _context(reading, fields, name):
    """What is known of a row that does not fit; name is its bad name, or None."""
    kind = fields[FIRST_PARAMETER - 1].decode("latin-1") if reading.table is BRANCHES else ""
    sources = reading.rows[0] if reading.tables is FEEDER_TABLES else []
    sizes = [nearest_root(square(sources[0][1][place:place + 2])) for place in (1, 3, 5)] if sources else [0]
    lines = [line.number for line in reading.lines if name in line.content.split(b",", 2)[:2]] if name else []
    return Context(kind, max(sizes) or None, lines)


def _quoted_commas(reading, content):
    """Sentences on values in quotes with a decimal comma; [] where there are none."""
    if b'"' not in content:
        return []
    quoted = [match[1] or match[2] for match in re.finditer(rb'(?:\A|(?<=,))(?:"([^"]*)"|([^",]*))(?=,|\Z)', content)]
    fields = [field or b"" for field in quoted]
    if len(fields) != len(reading.table.columns):
        return []
    found = [
        (column_of(reading.table, place, fields), field) for place, field in enumerate(fields)
        if DECIMAL_COMMA.fullmatch(field) and reading.table.columns[place].form == "number"
    ]
    said = []
    for column, field in found[:3]:
        what = short_advice(column, field.replace(b",", b"."), _context(reading, fields, None))
        said.append(f'Column {column.name} has "{visible(field)}" in quotes, with a decimal comma' + (f": {what}" if what else "."))
    return said


def _row_fault(reading, line):
    """Sentences on a line that is no row of the table."""
    table = reading.table
    fields = line.content.split(b",")
    quoted = _quoted_commas(reading, line.content)
    if quoted:
        return quoted
    if len(fields) != len(table.columns):
        return _count_fault(reading, line, fields)
    if line.content.endswith(b"=") and _wrapped(reading, line):
        return _wrapped(reading, line)
    bad = [(column_of(table, place, fields), field) for place, field in enumerate(fields) if read_field(table.columns[place], field) is None]
    if not bad:
        return []
    context = _context(reading, fields, bad[0][1] if bad[0][0].form == "name" else None)
    return field_fault(*bad[0], context) + further_faults(bad[0], bad[1:], context)


def _units_row(reading, content):
    """Whether the line below the line of names has units alone."""
    words = [word.decode("utf-8", "replace").strip(" []()\r\"").lower() for word in content.split(b",")]
    return sum(word in UNIT_WORDS for word in words) > 1 and all(word in UNIT_WORDS or not word for word in words)


def _no_row(reading, line):
    """Sentences on a line that was never meant as a row; [] where it may have been."""
    content = line.content
    for pattern, said in (
        (MERGE, "a mark of a merge of two versions: keep one of the two and remove the marks"), (FENCE, "a mark around a text: remove it"),
    ):
        if pattern.fullmatch(content):
            lines = [other.number for other in reading.lines if pattern.fullmatch(other.content)]
            return [f"This is {said}." + (f" Such marks stand in {lines_said(lines)}." if len(lines) > 1 else "")]
    if "names" in reading.due():
        return []
    rows = reading.rows[reading.table_index]
    if not rows and _units_row(reading, content):
        return ["This looks like a row of units. Remove it, and give the values in the units of the file: voltages in cV (0.01 V), "
                "impedances in micro-ohms, p in W and q in var."]
    fields = content.split(b",")
    columns = reading.table.columns
    if SUMS.fullmatch(fields[0].strip(b' "')) and (
            len(fields) != len(columns) or b"" in fields or any(read_field(*pair) is None for pair in list(zip(columns, fields))[1:3])):
        return ["This looks like a row of sums: remove it."]
    return []


def _decimal_commas(data, tables):
    """Sentences on decimal commas in a file with semicolons; the first line that has them, with what to write."""
    table, found = None, []
    for line in split_lines(data):
        content = line.content.strip(b" \r;\xef\xbb\xbf")
        table = next((other for other in tables if content == header(other).replace(",", ";").encode()), table)
        fields = line.content.rstrip(b"\r").split(b";")
        places = [place for place, field in enumerate(fields) if DECIMAL_COMMA.fullmatch(field.strip(b' "'))]
        if len(fields) > 1 and places:
            found.append((line.number, table, fields, places))
    if not found:
        return []
    number, table, fields, places = found[0]
    values = [fields[place].strip(b' "') for place in places]
    shown = listed(list(dict.fromkeys(visible(value) for value in values))[:4])
    what = ""
    if table is not None and places[0] < len(table.columns) and len(fields) >= FIRST_PARAMETER:
        what = short_advice(column_of(table, places[0], fields), values[0].replace(b",", b"."), Context())
    others = [line for line, _, _, _ in found[1:]]
    mended = "a decimal comma: mend this first" if len(values) == 1 else "decimal commas: mend these first"
    return [f"Line {number} has {shown} with {mended}" + (f": {what}" if what else ".") + (f" So in {lines_said(others)}." if others else "")]


def _empty_line_fault(reading, line):
    """Sentences on an empty line that cannot stand there."""
    if "row" in reading.due() and "end" not in reading.due():
        return [f"The row of the {reading.table.name} table is due here, and the line is empty."]
    behind = [other.content for other in reading.lines[line.number:]]
    if not any(content.strip(b" \t\r,;") for content in behind):
        return ["An empty line stands behind the last table. Nothing may stand there: the file ends with the LF of its last row."]
    if read_row(reading.table, next(content for content in behind if content.strip(b" \t\r,;"))):
        return [f"An empty line stands between rows of the {reading.table.name} table. Remove it."]
    return [f"An empty line and more stand behind the {reading.table.name} table. It is the last: nothing may stand behind it."]


def _line_fault(reading, line):
    """Sentences on a line where a row, an empty line or the end is due."""
    content, table, may = line.content, reading.table, reading.due()
    if content == b"":
        return _empty_line_fault(reading, line)
    if not content.strip(b" \t\r,;"):
        what = "commas alone, as a sheet writes an empty row" if b"," in content or b";" in content else "blanks alone"
        return [f"The line has {what}. {begun(_due_said(reading))} is due here."]
    for place, other in enumerate(reading.tables):
        if content == header(other).encode():
            if place == reading.table_index + 1 and "empty line" in may:
                return [f"The empty line before the line of names of the {other.name} table is missing."]
            if place == reading.table_index:
                return [f"The line of names of the {other.name} table stands twice."]
            return [f"This is the line of names of the {other.name} table. The tables stand in the order {listed(t.name for t in reading.tables)}."]
    if "row" not in may:
        if read_row(table, content):
            return [f"This is a second row of the {table.name} table: it has just one."]
        return [f"{begun(_due_said(reading))} is due here: the {table.name} table has just one row."]
    for other in reading.tables:
        if other is not table and read_row(other, content):
            return [f"This is a row of the {other.name} table, and stands in the {table.name} table. "
                    f"Each table has an empty line and its line of names before it."]
    return _row_fault(reading, line)


def layout_fault(data, tables):
    """(line number, sentences) for a file that is not well laid out; (None, []) for one that is."""
    reading = Reading(data, tables)
    if reading.stopped is None:
        return None, []
    if reading.stopped == 1:
        sentences = _whole_file(data, tables)
        if sentences:
            return 1, sentences
    if reading.stopped > len(reading.lines):
        return reading.stopped, [f"The file ends here. {begun(_due_said(reading))} is due."] + _tables_missing(reading)
    line = reading.lines[reading.stopped - 1]
    if not line.ended and fits(reading, line.content):
        return line.number, ["The last line has no LF at its end: each line ends with LF, the last one too."]
    habits = _habits_of(reading, line.content)
    if habits:
        commas = _decimal_commas(data, tables) if SEMICOLONS in [said for said, _ in habits] else []
        return line.number, commas + [said for said, _ in habits] + ([] if commas else [_after(data, tables, habits)])
    no_row = _no_row(reading, line)
    if no_row:
        return line.number, no_row
    if COMMENT.match(line.content):
        return line.number, [f"This looks like a comment. No comments can stand in the file. {begun(_due_said(reading))} is due here."]
    if "names" in reading.due():
        return line.number, _names_fault(reading, line)
    return line.number, _line_fault(reading, line)
