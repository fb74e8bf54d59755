"""Where currents or voltages leave their limits, or do not settle: refusals 30 to 35, also 30 to 32 of the check."""
from . import equations
from .explain_taps import moving_fault
from .explain_units import source_hint, vn_hint
from .format import CURRENT_LIMIT, PHASES, VOLTAGE_LIMIT, is_between, load_phases, regulators, sets_taps, taps_of
from .power import nearest_root, square
from .wording import amperes, between_said, counted, lines_said, listed, ohms, per_cent_of_rated, volts

MOST_SWEEPS = 100
MOST_TOL = 1000
# In so many of the last sweeps a load is looked at for going to and fro.
SWEEPS_LOOKED_AT = 10

TOO_LARGE_A_DROP = ("The currents make a larger drop than the branches can have: too much load, impedances that are too large, "
                    "or a Z load with less impedance than the branches above it.")


def _size(pair):
    """The size of a voltage, at the nearest whole number."""
    return nearest_root(square(pair))


def _source_said(feeder):
    """The source's voltages in V, with a word on the unit where they do not fit the rest."""
    sizes = [_size(pair) for pair in feeder.source.voltage]
    said = f"The source (line {feeder.source.line}) has {listed(f'{volts(size)} on {phase}' for phase, size in zip(PHASES, sizes))}."
    return " ".join([said, *source_hint(feeder)])


def _units_said(feeder):
    """Sentences on voltages that are probably in another unit, with the source's where it is one of them."""
    return vn_hint(feeder) + ([_source_said(feeder)] if source_hint(feeder) else [])


def _load_said(load):
    return f"The load in line {load.line} (node {load.node}, phase {load.phase}, kind {load.kind}, p {load.p} W, q {load.q} var)"


def _ratio_said(branch):
    n, m = branch.parameters[:2]
    return f"Line {branch.line} is a transformer with N {n} and M {m}: it makes the voltage M/N times as high."


def _changes_said(branch):
    """What a regulator or a transformer does to the voltage: 'line 5 (N 240, M 7200)'."""
    numbers = branch.parameters
    what = f"taps {listed(numbers[:3])}" if branch.kind == "R" else f"N {numbers[0]}, M {numbers[1]}"
    return f"line {branch.line} ({what})"


def _above(feeder, node):
    """The branches from a node up to the source."""
    feeding = {branch.to_node: branch for branch in feeder.branches}
    way = []
    while node in feeding and len(way) <= len(feeding):
        way.append(feeding[node])
        node = feeding[node].from_node
    return way


def _largest_impedance(feeder, node, phases):
    """The row on the way from the source that has the largest impedance on one of the phases, as a sentence; none where all are 0."""
    first = {"L": (0, 6, 10), "Y": (2, 4, 6), "D": (2, 4, 6)}  # the place of r of each phase's own impedance among p1 to p12
    sizes = []
    for branch in _above(feeder, node):
        for phase in phases if branch.kind in first else ():
            at = first[branch.kind][PHASES.index(phase)]
            sizes.append((_size(branch.parameters[at : at + 2]), branch.parameters[at : at + 2], branch, phase))
    if not sizes or max(sizes, key=lambda entry: entry[0])[0] == 0:
        return []
    _, (r, x), branch, phase = max(sizes, key=lambda entry: entry[0])
    return [f"The largest impedance on its way is that of line {branch.line} ({branch.from_node},{branch.to_node}): "
            f"r {ohms(r)} and x {ohms(x)} on phase {phase}."]


def _zero_voltage(feeder, trouble, in_check):
    load = trouble.row
    sentences = [f"{_load_said(load)} has voltage 0: a load of kind I has no current there."]
    way = _above(feeder, load.node)
    between = is_between(load.phase)
    same = f"the same voltage on {listed(load.phase)}"
    if in_check:
        return sentences + [f"The report has {same if between else f'0 for phase {load.phase}'} of node {load.node}."]
    deltas = [branch for branch in way if branch.kind == "D"]
    if not deltas and equations.load_voltage(load, feeder.source.voltage) == equations.ZERO:
        return sentences + [f"The source (line {feeder.source.line}) has {same if between else f'0 on phase {load.phase}'}."]
    if deltas:
        gives = f"{same} here" if between else "0 where two of the voltages above it are equal"
        sentences.append(f"Line {deltas[-1].line} is a delta transformer: it gives {gives}.")
        return sentences + [_source_said(feeder)]
    ratios = [branch for branch in way if branch.kind == "Y"]
    if ratios:
        sentences.append(_ratio_said(ratios[-1]))
    return sentences + [_source_said(feeder)]


def _load_current(feeder, trouble, voltage):
    load, kind = trouble.row, equations.acts_as(trouble.row, voltage)
    low = ": below 70 per cent of vn it acts as Z" if kind != load.kind else ""
    sentences = [
        f"{_load_said(load)} takes {listed(amperes(part) for part in trouble.value)} (re and im): the limit is {amperes(CURRENT_LIMIT)} for each.",
        f"Its voltage is {volts(_size(voltage))}{between_said(load.phase)}"
        + (f", its rated voltage vn {volts(load.vn)}{low}." if kind != "P" else "."),
    ]
    units = vn_hint(feeder, load) or vn_hint(feeder)
    sentences += units
    if trouble.sweep > 1 and not units and not source_hint(feeder):
        sentences.append("Its voltage fell in the sweeps before: more constant-power load than the branches above can carry, "
                         "or impedances that are too large." if kind == "P" else TOO_LARGE_A_DROP)
        sentences += _largest_impedance(feeder, load.node, load_phases(load.phase))
    return sentences + [_source_said(feeder)]


def _branch_current(feeder, trouble):
    branch = trouble.row
    below = {branch.to_node}
    for other in equations.from_source_down(feeder):
        if other.from_node in below:
            below.add(other.to_node)
    loads = [load for load in feeder.loads if load.node in below]
    sentences = [
        f"The branch in line {branch.line} ({branch.from_node},{branch.to_node}) has {listed(amperes(part) for part in trouble.value)} (re and im) "
        f"on phase {trouble.phase} at {trouble.end}: the limit is {amperes(CURRENT_LIMIT)} for each.",
        f"Behind it {'stands' if len(loads) == 1 else 'stand'} {counted(len(loads), 'load row')} "
        f"with {sum(load.p for load in loads)} W and {sum(load.q for load in loads)} var in all.",
    ]
    if branch.kind in "YD" and trouble.end == branch.from_node:
        sentences.append(_ratio_said(branch))
    return sentences + vn_hint(feeder) + [_source_said(feeder)]


def _voltage(feeder, trouble):
    branch = trouble.row
    sentences = [
        f"Node {branch.to_node} (line {branch.line}) comes to {listed(volts(part) for part in trouble.value)} (re and im) on phase {trouble.phase}: "
        f"the limit is {volts(VOLTAGE_LIMIT)} for each."
    ]
    if trouble.sweep == 0:
        changing = [other for other in _above(feeder, branch.to_node) if other.kind != "L"]
        if changing:
            sentences.append(f"No load counts yet: look at the source and at {listed(_changes_said(other) for other in reversed(changing))}.")
        return sentences + [_source_said(feeder)]
    units = _units_said(feeder)
    if units:
        return sentences + units
    return sentences + [TOO_LARGE_A_DROP] + _largest_impedance(feeder, branch.to_node, trouble.phase)


def _to_and_fro(feeder, used):
    """The loads of kind P that went below 70 per cent of vn and back again, or back and below again, in the last sweeps; used is a Studied's.

    Pairs of a load and the last sweep in which it was on the other side than in the sweep before."""
    found = []
    for load in feeder.loads:
        low = [equations.is_low(load, equations.voltage_at(load, voltages)) for voltages in used[-SWEEPS_LOOKED_AT:]]
        crossed = [place for place in range(1, len(low)) if low[place] != low[place - 1]]
        if len(crossed) > 1:
            found.append((load, len(used) - len(low) + crossed[-1] + 1))
    return found


def _to_and_fro_said(crossing, used):
    """Which loads go to and fro, the first with its voltage on both sides."""
    load, sweep = crossing[0]
    before, after = (per_cent_of_rated(load, equations.voltage_at(load, used[place - 1])) for place in (sweep - 1, sweep))
    others = [other.line for other, _ in crossing[1:]]
    more = f" So do the loads in {lines_said(others)}." if len(others) > 1 else f" So does the load in line {others[0]}." if others else ""
    return (f"{_load_said(load)} goes to and fro across 70 per cent of vn, below which it acts as Z: "
            f"it has {before} per cent in sweep {sweep - 1} and {after} per cent in sweep {sweep}.{more}")


def _least_tol(studied):
    """(tol, sweep): the least tol with which a study that met 34 ends, and its last sweep then; None where no tol up to the most ends it."""
    sizes = [movement.size for movement in studied.moved]
    least = min(sizes)
    return (least, sizes.index(least) + 1) if least <= MOST_TOL else None


def _as_impedances(feeder, crossing):
    """Sentences on what to do where the study ends with the loads that go to and fro as Z; [] where it does not."""
    lines = {load.line for load, _ in crossing}
    changed = feeder._replace(loads=[load._replace(kind="Z") if load.line in lines else load for load in feeder.loads])
    studied = equations.one_round(changed, most_sweeps=MOST_SWEEPS)
    sweeps, tol = studied.sweeps, ""
    if studied.trouble is not None:
        ends = _least_tol(studied) if studied.trouble.number == 34 else None
        if ends is None:
            return []
        sweeps, tol = ends[1], f" with tol {ends[0]}"
    first, reported = crossing[0][0], studied.used[sweeps - 1]
    rows = "the row" if len(lines) == 1 else "these rows"
    study = "this round" if sets_taps(feeder) else "the study"
    said = (f"Look at why the voltage is so low: impedances, loads, taps and vn. With {rows} as Z {study} takes {counted(sweeps, 'sweep')}{tol}, "
            f"and line {first.line} has {per_cent_of_rated(first, equations.voltage_at(first, reported))} per cent of vn")
    if not all(equations.is_low(load, equations.voltage_at(load, reported)) for load, _ in crossing):
        return [said + (": there a P row is constant power." if len(lines) == 1 else ".")]
    # Below 70 per cent the rows take the same currents as P, so that the report is one of the feeder as it is.
    whole = not tol and sweeps <= feeder.source.sweeps and not sets_taps(feeder)
    passes = f" The check passes that report with {rows} as P too." if whole else ""
    return [said + f". Where a motor does run below 70 per cent, write Z.{passes}"]


def _not_settled(feeder, studied):
    last = studied.moved[-1]
    source = feeder.source
    sentences = [
        f"In sweep {studied.sweeps}, the last that is allowed, phase {last.phase} of node {last.node} still moved by {last.size} cV; tol is {source.tol}."
    ]
    units = _units_said(feeder)
    if units:
        # More sweeps or a larger tol would only make a report of the wrong voltages.
        return sentences + units
    if source.sweeps < MOST_SWEEPS:
        longer = equations.one_round(feeder, most_sweeps=MOST_SWEEPS)
        if longer.trouble is None:
            return sentences + [f"With more sweeps {'this round' if sets_taps(feeder) else 'it'} settles: it takes {longer.sweeps}."]
        if longer.trouble.number == 34:
            sentences.append(f"It does not settle in {MOST_SWEEPS} sweeps, the most that may be made.")
        else:
            sentences.append(f"More sweeps do not help: sweep {longer.trouble.sweep} would be refused with {longer.trouble.number}.")
    else:
        longer = studied
    crossing = _to_and_fro(feeder, longer.used) if longer.trouble.number == 34 else []
    if crossing:
        sentences.append(_to_and_fro_said(crossing, longer.used))
    ends = _least_tol(longer)
    if ends:
        tol, sweep = ends
        limit = "" if sweep <= source.sweeps else f" and sweeps {sweep}"
        side = ", with the load on the side where that sweep finds it: as P it draws about twice what it draws as Z" if crossing else ""
        return sentences + [f"With tol {tol}{limit} {'this round' if sets_taps(feeder) else 'it'} ends in sweep {sweep}{side}."]
    advice = _as_impedances(feeder, crossing) if crossing else []
    if advice:
        sentences.append(f"No tol up to {MOST_TOL} settles it: as P the load draws so much that a sweep has it below 70 per cent, "
                         "and as Z so little that a later one has it above again.")
        return sentences + advice + _largest_impedance(feeder, crossing[0][0].node, load_phases(crossing[0][0].phase))
    return sentences + [
        f"No tol up to {MOST_TOL} settles it: a load is near or beyond the most that the branches above it can carry."
    ] + _largest_impedance(feeder, last.node, last.phase)


def study_fault(feeder, number, value):
    """Sentences for refusals 30 to 35 of the study; [] where the working here comes to another answer."""
    studied = equations.study(feeder)
    trouble = studied.trouble
    if trouble is None or (trouble.number, trouble.sweep) != (number, value):
        return []
    if number == 35:
        return moving_fault(feeder, studied)
    return _round_said(feeder, studied) + _sweep_fault(studied.feeder, studied, number)


def _round_said(feeder, studied):
    """The round that is refused, and its taps, where it is not the first."""
    if len(studied.tried) == 1:
        return []
    moved = [(branch, taps) for branch, taps, first in zip(regulators(feeder), studied.tried[-1], taps_of(feeder)) if taps != first]
    said = listed(f"{listed(taps)} in line {branch.line}" for branch, taps in moved)
    return [f"This is in round {len(studied.tried)}, for which the regulators have set their taps" + (f" to {said}." if said else ".")]


def _sweep_fault(feeder, studied, number):
    """Sentences for refusals 30 to 34 in the last round; the feeder is that of the round."""
    trouble = studied.trouble
    if number == 30:
        return _zero_voltage(feeder, trouble, False)
    if number == 31:
        return _load_current(feeder, trouble, equations.voltage_at(trouble.row, studied.voltages))
    if number == 32:
        return _branch_current(feeder, trouble)
    if number == 33:
        return _voltage(feeder, trouble)
    return _not_settled(feeder, studied)


def check_fault(feeder, voltages, number):
    """Sentences for refusals 30 to 32 of the check, at the report's voltages; [] where the working here comes to another answer."""
    trouble = equations.currents_at(feeder, voltages, 0)[2]
    if trouble is None or trouble.number != number:
        return []
    if number == 30:
        return _zero_voltage(feeder, trouble, True)
    if number == 31:
        return _load_current(feeder, trouble, equations.voltage_at(trouble.row, voltages))[:2]
    return _branch_current(feeder, trouble)[:2]
