"""What is shown of a feeder and its report, as tables of texts; show.py prints them and view.py puts them into a page."""
import collections
import hashlib

from . import equations, explain, format, joined as joining, notes, power, programs
from .equations import ZERO, plus, rounded
from .wording import counted, decimal_text, per_cent_of_rated

CHECK = "archive check"  # the label of the check's answer

# side is 'feeder' for what stands in the feeder file and 'report' for what stands in the report or follows from it.
Column = collections.namedtuple("Column", "side name unit is_text", defaults=(False,))
# rows are lists of texts, None where there is nothing to say (an absent phase, the angle of zero).
Table = collections.namedtuple("Table", "title columns rows")
# facts are pairs of a label and its text.
Shown = collections.namedtuple("Shown", "joined facts warnings tables")


def volts(pair):
    return decimal_text(power.nearest_root(power.square(pair)), 2, 2)


def amperes(pair):
    return decimal_text(power.nearest_root(power.square(pair)), 3, 3)


def kilowatts(grains):
    return decimal_text(grains, 8, 3)


def kilowatts_of_watts(watts):
    return decimal_text(watts, 3, 3)


def ohms(microohms):
    return decimal_text(microohms, 6, 6)


def fixed(number, places):
    """A float as text; no minus before zero."""
    if number is None:
        return None
    text = f"{number:.{places}f}"
    return text[1:] if text.startswith("-") and not text.strip("-0.") else text


def per_cent(part, whole):
    """Of what the source gives; nothing to say where it gives nothing or takes."""
    return decimal_text(rounded(part * 10 ** 5, whole), 3, 3) if whole > 0 else None


def device_text(branch):
    """The numbers of a branch in the units of the trade."""
    names = format.PARAMETERS[branch.kind]
    if branch.kind == "R":
        taps = "taps " + ", ".join(f"{phase} {tap}" for phase, tap in zip(format.PHASES, branch.parameters) if phase in branch.phases)
        return f"sets its taps, first {taps}" if format.level_of(branch) else taps
    parts = [] if branch.kind == "L" else [f"{branch.parameters[0]}/{branch.parameters[1]}"]
    first = 0 if branch.kind == "L" else 2
    for place in range(first, 12, 2):
        if not format.zero_is_due(names[place], branch.phases):
            resistance, reactance = branch.parameters[place:place + 2]
            sign = "-" if reactance < 0 else "+"
            name = names[place].meaning.split()[-1]
            parts.append(f"{name} {ohms(resistance)}{sign}j{ohms(abs(reactance))}")
    return ", ".join(parts)


def node_table(joined):
    columns = [Column("feeder", "node", "", True), Column("feeder", "fed_from", "", True), Column("feeder", "kind", "", True),
               Column("feeder", "phases", "", True), Column("feeder", "rated_p", "kW"), Column("feeder", "rated_q", "kvar")]
    for phase in format.PHASES:
        columns += [Column("report", f"V_{phase}", "V"), Column("report", f"angle_{phase}", "deg"), Column("report", f"V_{phase}", "pu")]
    rated = {node: ZERO for node in joined.nodes}
    for load in joined.feeder.loads:
        rated[load.node] = plus(rated[load.node], (load.p, load.q))
    rows = []
    for node in joined.nodes:
        branch = joined.branch_to.get(node)
        row = [node, branch.from_node, branch.kind, branch.phases] if branch else [node, None, "source", "ABC"]
        row += [kilowatts_of_watts(part) for part in rated[node]]
        for place, phase in enumerate(format.PHASES):
            voltage = joined.voltage[node][place]
            if phase in joined.phases[node] or voltage != ZERO:
                row += [volts(voltage), fixed(joining.degrees(voltage), 2), fixed(joined.per_unit(node, place), 4)]
            else:
                row += [None, None, None]
        rows.append(row)
    return Table("Nodes", columns, rows)


def branch_table(joined):
    columns = [Column("feeder", name, "", True) for name in ("from", "to", "kind", "phases")]
    for phase in format.PHASES:
        columns += [Column("report", f"I_{phase}", "A"), Column("report", f"angle_{phase}", "deg")]
    columns += [Column("report", "p_at_to", "kW"), Column("report", "q_at_to", "kvar"), Column("report", "loss_p", "kW"),
                Column("report", "loss_q", "kvar"), Column("report", "loss_p", "%")]
    rows = []
    for branch in joined.feeder.branches:
        current = joined.current[branch.to_node]
        row = [branch.from_node, branch.to_node, branch.kind, branch.phases]
        for place, phase in enumerate(format.PHASES):
            value = current.current[place]
            shown = phase in branch.phases or value != ZERO
            row += [amperes(value), fixed(joining.degrees(value), 2)] if shown else [None, None]
        row += [kilowatts(part) for part in joined.flow_into(branch.to_node)]
        row += [kilowatts(current.loss_p), kilowatts(current.loss_q), per_cent(current.loss_p, joined.report.totals.source_p)]
        rows.append(row)
    return Table("Branches", columns, rows)


def regulator_table(joined):
    """What the regulators are set to, the taps of the report, and what their relays have with its voltages and currents."""
    columns = [Column("feeder", "to", "", True)]
    columns += [Column("feeder", name, unit) for name, unit in (
        ("level", "V"), ("band", "V"), ("potential_ratio", ""), ("current_ratio", ""), ("R", "ohm"), ("X", "ohm"))]
    columns += [Column("report", f"tap_{phase}", "") for phase in format.PHASES]
    columns += [Column("report", f"relay_{phase}", "V") for phase in format.PHASES]
    rows = []
    for branch in format.regulators(joined.feeder):
        level, band, potential, current, resistance, reactance = branch.parameters[format.LEVEL:format.COMPENSATOR_X + 1]
        sets = level > 0
        relay = [decimal_text(level, 2, 2), decimal_text(band, 2, 2), str(potential), str(current), ohms(resistance), ohms(reactance)]
        row = [branch.to_node] + (relay if sets else [None] * 6)
        present = [phase in branch.phases for phase in format.PHASES]
        row += [str(tap) if here or tap else None for here, tap in zip(present, joined.taps[branch.to_node])]
        for place, here in enumerate(present):
            voltage, flow = joined.voltage[branch.to_node][place], joined.current[branch.to_node].current[place]
            row.append(volts(equations.relay_voltage(branch, voltage, flow)) if sets and here else None)
        rows.append(row)
    return Table("Regulators", columns, rows)


def device_table(joined):
    columns = [Column("feeder", name, "", True) for name in ("from", "to", "kind")] + [Column("feeder", "device", "impedances in ohm", True)]
    rows = [[branch.from_node, branch.to_node, branch.kind, device_text(branch)] for branch in joined.feeder.branches]
    return Table("Devices", columns, rows)


def load_table(joined):
    columns = [Column("feeder", name, "", True) for name in ("node", "phase", "kind")]
    columns += [Column("feeder", "vn", "V"), Column("feeder", "p", "kW"), Column("feeder", "q", "kvar"), Column("report", "V", "V"),
                Column("report", "V", "% of vn"), Column("report", "acts_as", "", True), Column("report", "I", "A"), Column("report", "angle", "deg"),
                Column("report", "drawn_p", "kW"), Column("report", "drawn_q", "kvar")]
    rows = []
    for flow in joined.loads:
        load = flow.load
        # The kind as which a load acts is said where it is not its own: of a load of kind P below 70 per cent of vn.
        row = [load.node, load.phase, load.kind, decimal_text(load.vn, 2, 2), kilowatts_of_watts(load.p), kilowatts_of_watts(load.q),
               volts(flow.voltage), per_cent_of_rated(load, flow.voltage), flow.acts_as if flow.acts_as != load.kind else None]
        if flow.current is None:
            row += [None] * 4
        else:
            row += [amperes(flow.current), fixed(joining.degrees(flow.current), 2)] + [kilowatts(part) for part in flow.drawn]
        rows.append(row)
    return Table("Loads", columns, rows)


def totals_table(joined):
    totals = joined.report.totals
    rest_p, rest_q = totals.source_p - totals.drawn_p - totals.lost_p, totals.source_q - totals.drawn_q - totals.lost_q
    columns = [Column("report", "total", "", True), Column("report", "p", "kW"), Column("report", "q", "kvar"), Column("report", "p", "%")]
    rows = [[label, kilowatts(p), kilowatts(q), per_cent(p, totals.source_p)] for label, p, q in (
        ("the source gives", totals.source_p, totals.source_q),
        ("the loads draw", totals.drawn_p, totals.drawn_q),
        ("the branches lose", totals.lost_p, totals.lost_q),
        ("left by rounding and tol", rest_p, rest_q))]
    return Table("Totals", columns, rows)


def account_table(joined):
    columns = [Column("report", "account", "", True), Column("report", "p", "grains"), Column("report", "q", "grains")]
    account = joined.account()
    if account is None:
        rows = [["not defined: a load of kind I stands at zero voltage", None, None]]
    else:
        rows = [[label, str(pair[0]), str(pair[1])] for label, pair in (
            ("the source gives", account.source),
            ("ratings of the loads at these voltages", account.ratings),
            ("exact losses of the branches", account.losses),
            ("difference", account.difference),
            ("twice the difference", tuple(2 * part for part in account.difference)),
            ("allowance", (account.allowance, account.allowance)))]
        rows.append(["within the allowance"] + ["yes" if 2 * part <= account.allowance else "no" for part in account.difference])
    return Table("Power account", columns, rows)


MOST_NAMES_IN_A_LINE = 8


def base_facts(joined):
    """One line for each set of nodes with the same base."""
    sets = {}
    for node in joined.nodes:
        sets.setdefault(tuple(fixed(value / 100, 2) for value in joined.base[node]), []).append(node)
    found = []
    for base, nodes in sets.items():
        named = ", ".join(nodes[:MOST_NAMES_IN_A_LINE]) + (f" and {len(nodes) - MOST_NAMES_IN_A_LINE} more"
                                                           if len(nodes) > MOST_NAMES_IN_A_LINE else "")
        where = "every node" if len(sets) == 1 else named
        stepped = "" if nodes[0] == joined.source else ", stepped by transformers"
        values = ", ".join(f"{phase} {value} V" for phase, value in zip(format.PHASES, base))
        found.append(("per unit base", f"the source's voltage{stepped}: {values} at {where}"))
    return found


def extreme_text(extreme):
    return f"{fixed(extreme.per_unit, 4)} pu, {volts(extreme.voltage)} V at {extreme.node}, phase {extreme.phase}"


def check_facts(arguments, feeder_bytes, report_bytes):
    """Facts: what the proved check says of the two files, and what a refusal means; 'not checked' where the program cannot be run.

    No path stands in them, since a page shall not depend on where files lie."""
    try:
        program = programs.program_path(arguments, "archive_check")
    except programs.CouldNotRun:
        return [(CHECK, "not checked (there is no program archive_check)")]
    try:
        answer = programs.run_check(program, feeder_bytes, report_bytes)
    except programs.CouldNotRun as fault:
        programs.write_error(str(fault))
        return [(CHECK, "not checked (archive_check cannot be run)")]
    if answer.status == programs.NOT_RUN:
        return [(CHECK, "not checked (archive_check failed)")]
    found = [(CHECK, answer.output.decode("ascii").rstrip("\n"))]
    if answer.status == programs.REFUSED:
        explanation = explain.check_refusal(feeder_bytes, report_bytes, answer.number, answer.value)
        found.append(("refusal", " ".join(part.strip() for part in explanation.splitlines())))
    return found


def facts(joined, feeder_bytes, report_bytes, checked):
    source, totals = joined.feeder.source, joined.report.totals
    found = [("feeder file, SHA-256", hashlib.sha256(feeder_bytes).hexdigest()), ("report file, SHA-256", hashlib.sha256(report_bytes).hexdigest()),
             *checked, ("source", source.name), ("tolerance", decimal_text(source.tol, 2, 2) + " V"),
             ("sweeps", f"{totals.sweeps} of at most {source.sweeps}"),
             ("rows", ", ".join((counted(len(joined.nodes), "node"), counted(len(joined.feeder.branches), "branch", "branches"),
                                 counted(len(joined.feeder.loads), "load"))))]
    if joined.taps and joined.report.taps is None:
        found.append(("taps", "the report has no table of taps: those of the feeder count"))
    found += base_facts(joined)
    extremes = joined.extremes()
    if extremes:
        found += [("lowest voltage", extreme_text(extremes[0])), ("highest voltage", extreme_text(extremes[1]))]
    share = per_cent(totals.lost_p, totals.source_p)
    found.append(("losses", f"{kilowatts(totals.lost_p)} kW" + (f", {share} % of what the source gives" if share else "")))
    account = joined.account()
    if account:
        found.append(("power account", f"twice the difference {2 * account.difference[0]} and {2 * account.difference[1]} grains, "
                      f"{'at most' if account.within else 'MORE THAN'} {account.allowance} allowed"))
    return found


def read(arguments):
    """All that is shown of the two files of a command; programs.CouldNotRun with a plain text where they cannot be shown."""
    feeder_bytes, report_bytes = programs.read_file(arguments.feeder), programs.read_file(arguments.report)
    try:
        joined = joining.Joined(format.read_feeder(feeder_bytes), format.read_report(report_bytes))
    except (format.NotLaidOut, joining.CannotJoin) as fault:
        raise programs.CouldNotRun(explain.check_refusal(
            feeder_bytes, report_bytes, fault.number, 0 if fault.number == 50 else fault.line, arguments.feeder, arguments.report)) from fault
    checked = check_facts(arguments, feeder_bytes, report_bytes)
    return Shown(joined, facts(joined, feeder_bytes, report_bytes, checked), notes.warnings(joined),
                 [node_table(joined), branch_table(joined), *([regulator_table(joined)] if joined.taps else []), device_table(joined),
                  load_table(joined), totals_table(joined), account_table(joined)])
