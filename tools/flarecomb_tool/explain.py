"""A refusal in plain words: the line, the column, the value and its limit, and the cause where it can be told.

The files are read here a second time, line by line. The answer stays the program's: where the reading here does not arrive at the same
place, only the rule of that refusal is said.
"""
from . import explain_radial, explain_report, explain_sweeps, explain_taps, explain_values
from .explain_layout import layout_fault
from .format import FEEDER_TABLES, LARGEST_FILE, NotLaidOut, REPORT_TABLES, header, read_feeder, read_report, split_lines
from .wording import visible

# What each refusal means, for where no more can be told.
RULES = {
    9: f"A file has at most {LARGEST_FILE} bytes.",
    10: "The line cannot stand there in a feeder.",
    11: "A value of the line is outside its limit, or the row is past the 200 branches or 300 loads.",
    20: "The from of a branch is the source or the to of a row.",
    21: "Each node but the source stands once as to.",
    22: "Each branch is reached from the source.",
    23: "The phases of a branch or a load are among those of its node; a transformer has ABC.",
    24: "A field without a meaning, or of an absent phase, is 0; so are p5 to p9 of a regulator with level 0.",
    30: "A load of kind I has voltage 0. Look at the source voltage of its phases and at turns ratios.",
    31: "A load's current, re or im, is beyond 2000 A. Look at p, q, vn, the source voltage and turns ratios.",
    32: "A branch's current, re or im, is beyond 2000 A. Look at the loads behind it and at turns ratios.",
    33: "A voltage, re or im, is beyond 20000 V. Look at the source voltage, turns ratios, taps and loads.",
    34: "The voltages did not settle. Allow more sweeps, then a larger tol. Look whether a P load goes to and fro across 70 per cent of its vn.",
    35: "After 32 rounds a regulator's tap still moves. Look at its bandwidth, which must leave room for a step, and at other regulators on its way.",
    50: "The file is not laid out as a report of this feeder.",
    51: "A name differs from the feeder's.",
    52: "The source voltage differs, or an absent phase has a voltage.",
    53: "A current does not follow from the loads at the reported voltages.",
    54: "A voltage is off by more than tol.",
    55: "A loss or a total differs.",
    56: "A tap could still move as wanted, or is not the feeder's where the level is 0.",
}
NOT_THIS_REPORT = "The report belongs to another feeder, or one of the two files was changed since."


def _text(name, data, line, sentences):
    """The explanation: the file with the line quoted, then the sentences."""
    if not line:
        return "\n".join([f"{name}:", *sentences])
    lines = split_lines(data)
    if line > len(lines):
        quoted = "(end of the file)"
    else:
        quoted = visible(lines[line - 1].content) or "(empty line)"
    return "\n".join([f"{name}, line {line}:", f"    {quoted}", *sentences])


def _laid_out(read, data):
    try:
        return read(data)
    except NotLaidOut:
        return None


def is_sound(data, feeder):
    """Whether a feeder that is well laid out is free of 11 to 24, so that its equations can be worked."""
    ends = [(branch.from_node, branch.to_node) for branch in feeder.branches]
    if not explain_radial.is_tree(feeder.source.name, ends):
        return False
    if any(explain_radial.absent_phase(feeder, row.line) for row in feeder.branches + feeder.loads):
        return False
    return not any(explain_values.has_fault(row) for row in explain_values.rows_by_line(data).values())


def _feeder_sentences(data, number, value):
    """(line or None, sentences) for a refusal of the feeder."""
    if number == 10:
        line, sentences = layout_fault(data, FEEDER_TABLES)
        return value, sentences if line == value else []
    if number == 11:
        return value, explain_values.limit_fault(data, value)
    if number == 24:
        return value, explain_values.zero_fault(data, value)
    feeder = _laid_out(read_feeder, data)
    line = value if number < 30 else None
    if feeder is None:
        return line, []
    tellers = {
        20: explain_radial.unknown_from, 21: explain_radial.second_to, 22: explain_radial.not_reached, 23: explain_radial.absent_phase,
    }
    if number in tellers:
        return line, tellers[number](feeder, value)
    if 30 <= number <= 35 and is_sound(data, feeder):
        return None, explain_sweeps.study_fault(feeder, number, value)
    return line, []


def study_refusal(data, number, value, name="the feeder"):
    """The explanation of the study's refusal of a feeder given as bytes."""
    if number == 9:
        return _text(name, data, None, [_size_said(data)])
    line, sentences = _feeder_sentences(data, number, value)
    return _text(name, data, line, sentences or [_rule(number)])


def _rule(number):
    return RULES.get(number, "This refusal is not known here.")


def _size_said(data):
    return f"The file has {len(data)} bytes or more; {RULES[9][0].lower()}{RULES[9][1:]} It may not be the file that was meant."


def _exchanged(feeder_data, report_data):
    """Whether each file begins as the other should."""
    first = header(FEEDER_TABLES[0]).encode() + b"\n"
    return report_data.startswith(first) and feeder_data.startswith(header(REPORT_TABLES[0]).encode() + b"\n")


def _report_sentences(feeder, feeder_data, report_data, number, value):
    """(line or None, sentences) for a refusal of the report; the feeder is sound."""
    report = _laid_out(read_report, report_data)
    if number == 50:
        return explain_report.not_a_report(feeder, report_data, report)
    if report is None or explain_report.not_a_report(feeder, report_data, report)[1]:
        return None, []
    if number == 51:
        return value, explain_report.other_name(feeder, report, value)
    if [row.node for row in report.nodes] != explain_report.node_names(feeder):
        return None, []
    if number == 52:
        return value, explain_report.fixed_voltage(feeder, report, value)
    # All else is compared for the taps that the report has.
    at = explain_taps.reported_taps(feeder, report)
    if 30 <= number <= 32:
        sentences = explain_sweeps.check_fault(at, explain_report.voltages_of(feeder, report), number)
        return None, sentences + (explain_report.older_rule(feeder, report) if sentences and number == 32 else [])
    if number == 53:
        line, sentences = value, explain_report.other_current(at, report, value)
    elif number == 54:
        line, sentences = value, explain_report.other_voltage(at, report, value)
    elif number == 55:
        line, sentences = explain_report.other_power(at, report)
    elif number == 56:
        return value, explain_taps.tap_fault(feeder, report, value)
    else:
        return None, []
    if not sentences:
        return line, []
    older = explain_report.older_rule(feeder, report) if number != 54 else []
    return line, sentences + (older or explain_report.against_study(feeder, report_data))


def check_refusal(feeder_data, report_data, number, value, feeder_name="the feeder", report_name="the report"):
    """The explanation of the check's refusal of a feeder and a report given as bytes."""
    if number == 9:
        if len(feeder_data) > LARGEST_FILE:
            return _text(feeder_name, feeder_data, None, [_size_said(feeder_data)])
        return _text(report_name, report_data, None, [_size_said(report_data)])
    if number == 10 and _exchanged(feeder_data, report_data):
        return _text(feeder_name, feeder_data, value, ["The two files are exchanged: the feeder comes first, then its report."])
    if number < 30:
        return study_refusal(feeder_data, number, value, feeder_name)
    feeder = _laid_out(read_feeder, feeder_data)
    line, sentences = None, []
    if feeder is not None and is_sound(feeder_data, feeder):
        line, sentences = _report_sentences(feeder, feeder_data, report_data, number, value)
    if not sentences:
        line = value or None
        sentences = [_rule(number)]
    if 51 <= number <= 52:
        sentences = sentences + [NOT_THIS_REPORT]
    return _text(report_name, report_data, line, sentences)
