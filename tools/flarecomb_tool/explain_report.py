"""In what a report differs from its feeder: refusals 50 to 55; 56 stands in explain_taps."""
from . import equations
from .explain_fields import label
from .explain_layout import layout_fault
from .explain_values import limits_said
from .format import CURRENTS, NODES, REPORT_TABLES, TAPS, TOTALS, header, level_of, outside_limit, regulators, sets_taps, split_lines
from .wording import begun, counted, lines_said, listed, phases_said, volts

NODE_VOLTAGES = NODES.columns[1:]
BRANCH_CURRENTS = CURRENTS.columns[2:8]
MOST_SHOWN = 4
# From this version on a load of kind P acts as Z below 70 per cent of vn. No mark in a report tells which version wrote it.
LOW_VOLTAGE_VERSION = "0.4.0"
# From this version on a report has the table of taps.
TAPS_VERSION = "0.5.0"


def six(three):
    return [part for pair in three for part in pair]


def node_names(feeder):
    return [feeder.source.name] + [branch.to_node for branch in feeder.branches]


def voltages_of(feeder, report):
    """The reported voltages by node; for a report that has the feeder's names in their order."""
    return {name: list(row.voltage) for name, row in zip(node_names(feeder), report.nodes)}


def _shown(sentences):
    """The first few of many sentences of one kind."""
    if len(sentences) <= MOST_SHOWN:
        return sentences
    return sentences[:MOST_SHOWN] + [f"{len(sentences) - MOST_SHOWN} more differ."]


def _row_counts(feeder, report):
    names = node_names(feeder)
    if len(report.nodes) != len(names):
        found = [row.node for row in report.nodes]
        missing = [name for name in names if name not in found]
        unknown = [name for name in found if name not in names]
        sentences = [f"The voltages table has {counted(len(found), 'row')}; the feeder has {counted(len(names), 'node')}."]
        if missing:
            sentences.append(f"No row is there for {listed(missing[:8])}{' and others' if len(missing) > 8 else ''}.")
        if unknown:
            sentences.append(f"The feeder has no node {listed(unknown[:8], 'or')}{' and others' if len(unknown) > 8 else ''}.")
        return sentences
    if len(report.currents) != len(feeder.branches):
        found = counted(len(report.currents), "row")
        return [f"The currents table has {found}; the feeder has {counted(len(feeder.branches), 'branch', 'branches')}."]
    if report.taps is None:
        setting = [branch for branch in feeder.branches if level_of(branch) > 0]
        if setting:
            level = volts(level_of(setting[0]))
            return [f"The report ends without the taps table ({header(TAPS)}), as reports from before version {TAPS_VERSION} do. "
                    f"It may do so only where no regulator has a level above 0: line {setting[0].line} of the feeder has {level}.",
                    "Study the feeder again."]
    elif len(report.taps) != len(regulators(feeder)):
        found, due = counted(len(report.taps), "row"), counted(len(regulators(feeder)), "regulator")
        return [f"The taps table has {found}; the feeder has {due}: each has its row, one with level 0 too."]
    return []


def _tap_limits(feeder, report):
    """(line, sentences) for a tap beyond its limit or on an absent phase; (None, []) where there is none."""
    for branch, row in zip(regulators(feeder), report.taps or ()):
        for column, tap in zip(TAPS.columns[1:], row.taps):
            if outside_limit(column, tap):
                return row.line, [f"{begun(label(column))} has {tap}: the limit is {limits_said(column)}."]
            if tap and column.phases not in branch.phases:
                return row.line, [f"{begun(label(column))} has {tap}: line {branch.line} of the feeder has {phases_said(branch.phases)} alone, "
                                  "and an absent phase has 0."]
    return None, []


def not_a_report(feeder, report_data, report):
    """(line or None, sentences) for refusal 50; report is None where the report is not well laid out."""
    if report is None:
        return layout_fault(report_data, REPORT_TABLES)
    sentences = _row_counts(feeder, report)
    if sentences:
        return None, sentences
    limited = [(row.line, zip(NODE_VOLTAGES, six(row.voltage))) for row in report.nodes]
    limited += [(row.line, zip(BRANCH_CURRENTS, six(row.current))) for row in report.currents]
    for line, fields in limited:
        for column, value in fields:
            if outside_limit(column, value):
                return line, [f"{begun(label(column))} has {value}: the limit is {limits_said(column)}."]
    if not 1 <= report.totals.sweeps <= feeder.source.sweeps:
        return report.totals.line, [
            f"Column sweeps has {report.totals.sweeps}: the feeder (line {feeder.source.line}) allows 1 to {feeder.source.sweeps}."
        ]
    return _tap_limits(feeder, report)


def other_name(feeder, report, line):
    """Sentences for refusal 51."""
    due_nodes = node_names(feeder)
    found_nodes = [row.node for row in report.nodes]
    for due, row in zip(due_nodes, report.nodes):
        if row.line == line and row.node != due:
            sentences = [f"Column node has {row.node}: {due} is due, as the rows follow the feeder's."]
            if sorted(due_nodes) == sorted(found_nodes):
                sentences.append("The report has the feeder's nodes in another order.")
            return sentences
    for branch, row in zip(feeder.branches, report.currents):
        if row.line == line and (row.from_node, row.to_node) != (branch.from_node, branch.to_node):
            sentences = [
                f"The row is of {row.from_node},{row.to_node}: {branch.from_node},{branch.to_node} is due, as in line {branch.line} of the feeder."
            ]
            due = sorted((other.from_node, other.to_node) for other in feeder.branches)
            if due == sorted((other.from_node, other.to_node) for other in report.currents):
                sentences.append("The report has the feeder's branches in another order.")
            return sentences
    for branch, row in zip(regulators(feeder), report.taps or ()):
        if row.line == line and row.to_node != branch.to_node:
            return [f"Column to has {row.to_node}: {branch.to_node} is due, the to of the regulator in line {branch.line} of the feeder."]
    return []


def fixed_voltage(feeder, report, line):
    """Sentences for refusal 52."""
    row = next((row for row in report.nodes if row.line == line), None)
    if row is None:
        return []
    fields = list(zip(NODE_VOLTAGES, six(row.voltage)))
    if row.node == feeder.source.name:
        return [
            f"{begun(label(column))} has {value}: the feeder's source (line {feeder.source.line}) has {due}."
            for (column, value), due in zip(fields, six(feeder.source.voltage)) if value != due
        ]
    branch = next((branch for branch in feeder.branches if branch.to_node == row.node), None)
    if branch is None:
        return []
    return [
        f"{begun(label(column))} has {value}: line {branch.line} of the feeder gives {row.node} {branch.phases} alone, and an absent phase has 0."
        for column, value in fields if value != 0 and column.phases not in branch.phases
    ]


def against_study(feeder, report_data):
    """What the report's lines are beside those that the study's equations give; [] where that says nothing."""
    studied = equations.study(feeder)
    if studied.trouble is not None:
        return []
    due = equations.report_lines(feeder, studied)
    if header(TAPS).encode() not in report_data and not sets_taps(feeder):
        # the form of before, which ends with the totals
        due = due[:due.index(header(TAPS)) - 1]
    found = [line.content.decode("latin-1") for line in split_lines(report_data)]
    if len(due) != len(found):
        return []
    differing = [(number, one) for number, (one, other) in enumerate(zip(due, found), 1) if one != other]
    if not 0 < len(differing) <= 3:
        return [f"{len(differing)} of its {len(due)} lines differ from the feeder's own report: "
                "the report belongs to another feeder, or the feeder was changed since."] if differing else []
    numbers = listed(number for number, _ in differing)
    one_line = len(differing) == 1
    return [
        f"Only line {numbers} differs from the feeder's own report. There it has: {differing[0][1]}" if one_line
        else f"Only lines {numbers} differ from the feeder's own report: the report was edited, or the feeder was changed since."
    ]


def _follows(feeder, report):
    """Whether the report's currents, voltages and powers are those of the feeder: whether none of 30 to 32 and 53 to 55 applies."""
    reported = voltages_of(feeder, report)
    _, currents, trouble = equations.currents_at(feeder, reported, 0)
    if trouble is not None or any(list(row.current) != currents[branch.to_node] for branch, row in zip(feeder.branches, report.currents)):
        return False
    worked, _ = equations.voltages_down(feeder, currents, 0)
    moved = equations.greatest_movement(feeder, reported, worked)
    return moved.size <= feeder.source.tol and not other_power(feeder, report)[1]


def older_rule(feeder, report):
    """Sentences for 32, 53 and 55 where all values of the report agree if loads of kind P have constant power at every voltage, as they had before
    the low-voltage rule; [] where they do not, where a load of kind P has voltage 0, which was refused with 30 then, and where the report has
    the table of taps, which is younger than that rule."""
    if report.taps is not None:
        return []
    voltages = voltages_of(feeder, report)
    power_loads = [(load, equations.voltage_at(load, voltages)) for load in feeder.loads if load.kind == "P"]
    low = [load.line for load, voltage in power_loads if equations.is_low(load, voltage)]
    # With a vn of 1 cV every voltage but 0 is above 70 per cent.
    before = feeder._replace(loads=[load._replace(vn=1) if load.kind == "P" else load for load in feeder.loads])
    if not low or any(voltage == equations.ZERO for _, voltage in power_loads) or not _follows(before, report):
        return []
    trouble = equations.study(feeder).trouble
    return [
        f"The report may be older than version {LOW_VOLTAGE_VERSION}: with constant power at every voltage, as before it, all values agree.",
        f"From that version on a P row acts as Z below 70 per cent of its vn, as here in {lines_said(low)} of the feeder. "
        + ("Study the feeder again." if trouble is None else f"The study now refuses the feeder with {trouble.number}."),
    ]


def other_current(feeder, report, line):
    """Sentences for refusal 53."""
    load_currents, currents, trouble = equations.currents_at(feeder, voltages_of(feeder, report), 0)
    if trouble is not None:
        return []
    for branch, row in zip(feeder.branches, report.currents):
        if row.line == line:
            return _shown([
                f"{begun(label(column))} has {value}: the loads at the reported voltages make it {due}."
                for column, value, due in zip(BRANCH_CURRENTS, six(row.current), six(currents[branch.to_node])) if value != due
            ])
    return []


def other_voltage(feeder, report, line):
    """Sentences for refusal 54."""
    reported = voltages_of(feeder, report)
    currents = {branch.to_node: list(row.current) for branch, row in zip(feeder.branches, report.currents)}
    rows = dict(zip(node_names(feeder), report.nodes))
    worked = {feeder.source.name: list(feeder.source.voltage)}
    for branch in equations.from_source_down(feeder):
        worked[branch.to_node] = equations.voltage_below(branch, worked[branch.from_node], currents[branch.to_node])
        if rows[branch.to_node].line == line:
            return [
                f"{begun(label(column))} has {value}: worked down from the source it is {due}, {abs(value - due)} cV off; tol is {feeder.source.tol}."
                for column, value, due in zip(NODE_VOLTAGES, six(reported[branch.to_node]), six(worked[branch.to_node]))
                if abs(value - due) > feeder.source.tol
            ]
    return []


def other_power(feeder, report):
    """(line, sentences) for refusal 55: the first line that differs, and which of its columns."""
    voltages = voltages_of(feeder, report)
    load_currents, currents, trouble = equations.currents_at(feeder, voltages, 0)
    if trouble is not None:
        return None, []
    losses, source, drawn, lost = equations.powers(feeder, voltages, load_currents, currents)
    checked = [
        (row.line, zip(CURRENTS.columns[8:], (row.loss_p, row.loss_q), losses[branch.to_node]))
        for branch, row in zip(feeder.branches, report.currents)
    ]
    checked.append((report.totals.line, zip(TOTALS.columns[1:], report.totals[2:], source + drawn + lost)))
    wrong = [(line, column, value, due) for line, fields in checked for column, value, due in fields if value != due]
    if not wrong:
        return None, []
    first = wrong[0][0]
    return first, _shown([
        f"{begun(label(column))}{'' if line == first else f' in line {line}'} has {value}: worked out it is {due}, {abs(value - due)} grains off."
        for line, column, value, due in wrong
    ])
