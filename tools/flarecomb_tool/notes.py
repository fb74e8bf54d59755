"""What deserves a look in a feeder that has a report: signs of wrong units, signs and orders. None of them is a refusal.

`study` says them beside a report, `show` and `view` as warnings."""
import cmath
import collections

from . import format, power
from .equations import STEPS, ZERO
from .explain_taps import DIRECTIONS, edge_said, at_their_end, relay_said
from .joined import CannotJoin, Joined
from .wording import begun, between_said, lines_said, listed, ohms, per_cent_of_rated, volts, watts

# line is that of the feeder, None where the note is on the feeder as a whole.
Note = collections.namedtuple("Note", "line text")

HEADING = "The report is made. Please look at:"
MOST_OF_A_KIND = 6

# The most that the format has is 20,000 V: a source under 20,000 can be one that was written in V and not in cV.
LEAST_SOURCE_CENTIVOLTS = 20_000
# A load row of the smallest kind of customer is far over this; a whole feeder under it was written in kW or MW.
LEAST_FEEDER_WATTS = 1_000
# 0.001 ohm is a few metres of conductor, 0.01 ohm some tens of metres.
LEAST_LINE_MICROOHMS = 1_000
LEAST_FEEDER_MICROOHMS = 10_000
FAR_LARGER = 100
LEAST_RATED, MOST_RATED = 0.8, 1.25
# How far the phases of the source may be from 120 degrees.
DEGREES = 20


def _source_voltage(feeder):
    sizes = [power.nearest_root(power.square(pair)) for pair in feeder.source.voltage]
    low = [(phase, size) for phase, size in zip(format.PHASES, sizes) if 0 < size < LEAST_SOURCE_CENTIVOLTS]
    if not low:
        return []
    said = listed(f"{volts(size)} on {phase}" for phase, size in low)
    return [Note(feeder.source.line, f"the source has {said}; voltages are in cV (0.01 V): {low[0][1]} V is {low[0][1] * 100}")]


def _source_order(feeder):
    """The source's phases are 120 degrees apart, B behind A and C behind B."""
    if ZERO in feeder.source.voltage:
        return []
    angles = [cmath.phase(complex(*pair)) * 180 / cmath.pi for pair in feeder.source.voltage]
    steps = [(angles[place] - angles[place - 1]) % 360 for place in (1, 2, 0)]
    if all(abs(step - 240) <= DEGREES for step in steps):
        return []
    if all(abs(step - 120) <= DEGREES for step in steps):
        return [Note(feeder.source.line, "the source's voltages follow each other in the order A, C, B; A, B, C is usual: B and C may be exchanged")]
    said = listed(f"{phase} {round(angle, 1) + 0.0}" for phase, angle in zip(format.PHASES, angles))
    return [Note(feeder.source.line, f"the source's phases are not 120 degrees apart ({said} degrees); the columns are real and imaginary parts, "
                 "not size and angle")]


def _small_loads(feeder):
    if not feeder.loads:
        return [Note(None, "there are no load rows: all currents are 0")]
    watts_of_all = sum(abs(load.p) for load in feeder.loads)
    vars_of_all = sum(abs(load.q) for load in feeder.loads)
    if watts_of_all < LEAST_FEEDER_WATTS and vars_of_all < LEAST_FEEDER_WATTS:
        return [Note(None, f"all loads together are {watts_of_all} W and {vars_of_all} var; p and q are in W and var: 1 kW is 1000")]
    return []


def _own_impedances(branch):
    """(name, value) of r and x of each phase of a line, without those between phases."""
    return [
        (column.meaning, value) for column, value in zip(format.PARAMETERS["L"], branch.parameters)
        if len(column.phases) == 1 and column.phases in branch.phases
    ]


def impedances(feeder):
    """Lines whose impedances are far smaller than others."""
    lines = [branch for branch in feeder.branches if branch.kind == "L"]
    largest = max((abs(part) for branch in lines for part in branch.parameters), default=0)
    if not largest:
        return []
    if largest < LEAST_FEEDER_MICROOHMS:
        return [Note(None, f"no line has more than {largest} micro-ohms ({ohms(largest)}); impedances are in micro-ohms: 0.3 ohm is 300000")]
    found = []
    for branch in lines:
        small = [(name, value) for name, value in _own_impedances(branch)
                 if 0 < abs(value) < LEAST_LINE_MICROOHMS and abs(value) * FAR_LARGER <= largest]
        if small:
            said = listed([f"{name} {value}" for name, value in small][:MOST_OF_A_KIND])
            found.append(Note(branch.line, f"{said} micro-ohms: less than 0.001 ohm, and others are {FAR_LARGER} times larger; 0.3 ohm is 300000"))
    return found


def _negative_losses(joined):
    found = []
    for branch in joined.feeder.branches:
        row = joined.current[branch.to_node]
        matrix = power.impedance_matrix(branch)
        # The exact loss too, so that a row is not named for the rounding of its drop.
        exact = power.exact_loss(matrix, row.current)[0]
        if exact < 0 and row.loss_p < 0:
            places = [format.PHASES.index(phase) for phase in branch.phases]
            said = listed(f"{(format.PHASES[one] + format.PHASES[other]).lower()} {ohms(matrix[one][other][0])}"
                          for one in places for other in places if one <= other and (branch.kind == "L" or one == other))
            found.append(Note(branch.line, f"the branch {branch.from_node},{branch.to_node} loses {watts(row.loss_p)}: "
                              f"its r and x do not fit together (r of {said})"))
    return found


def _twice(feeder):
    lines = {}
    for load in feeder.loads:
        if load.p or load.q:
            lines.setdefault(load[1:], []).append(load.line)
    return [Note(same[0], f"the same load row stands in {lines_said(same)}: each of them counts") for same in lines.values() if len(same) > 1]


def _reactors(feeder):
    return [
        Note(load.line, f"a Z row with p 0 and q {load.q} is a reactor; a capacitor has q negative")
        for load in feeder.loads if load.kind == "Z" and load.p == 0 and load.q > 0
    ]


def _rated_voltages(joined):
    found = []
    for flow in joined.loads:
        load, size = flow.load, power.nearest_root(power.square(flow.voltage))
        between = between_said(load.phase)
        has = f"its node {load.node} has {volts(size)}{between or f' on {load.phase}'}"
        if size and not LEAST_RATED <= load.vn / size <= MOST_RATED:
            use = ""
            if flow.acts_as != load.kind:
                use = f", {per_cent_of_rated(load, flow.voltage)} per cent of vn: below 70 per cent a P row acts as Z"
            elif load.kind == "P":
                use = " (a P row uses vn only below 70 per cent of it, where it acts as Z)"
            rule = "from phase to phase, about 1.73 times that to ground" if between else "to ground"
            found.append(Note(load.line, f"vn is {volts(load.vn)}, {has}{use}; vn is in cV and {rule}"))
        elif not size and load.kind == "P" and (load.p or load.q):
            found.append(Note(load.line, f"{has}: a P row acts as Z there and draws nothing"))
    return found


def _taps_at_their_end(joined):
    found = []
    for branch, phases, step in at_their_end(joined):
        level = format.level_of(branch)
        one = len(phases) == 1
        taps = f"the tap{'' if one else 's'} of {listed(phase for phase, _ in phases)} {'stands' if one else 'stand'} at {16 * step}"
        relays = listed(relay_said(relay) for _, relay in phases)
        hint = ""
        biggest = max(power.nearest_root(power.square(relay)) for _, relay in phases)
        if step < 0 and level * 30 <= biggest <= level * 300:
            hint = f"; the level is in cV: {level} V is {level * 100}"
        have = "wants {}: the relay has" if one else "want {}: the relays have"
        edge = f"level {'less' if step > 0 else 'and'} half the bandwidth is {edge_said(branch, step)}"
        found.append(Note(branch.line, f"{taps} and still {have.format(DIRECTIONS[step])} {relays}, and {edge}{hint}"))
    return found


def _narrow_bands(feeder):
    """Bandwidths below a step: with a little more or less load the rounds may not end."""
    found = []
    for branch in feeder.branches:
        level = format.level_of(branch)
        if level and branch.parameters[format.BAND] * STEPS < level:
            found.append(Note(branch.line, f"the bandwidth is {volts(branch.parameters[format.BAND])}, and a step moves the relay by about "
                              f"{volts(level // STEPS)}: with a little other load the rounds may not end"))
    return found


def _cut(notes):
    """At most so many notes of a kind; one more names the lines of the others."""
    if len(notes) <= MOST_OF_A_KIND:
        return notes
    rest = notes[MOST_OF_A_KIND:]
    return notes[:MOST_OF_A_KIND] + [Note(None, f"likewise {lines_said(note.line for note in rest)}")]


def notes_of(joined):
    """The notes on a feeder and its report."""
    feeder = joined.feeder
    kinds = (
        _source_voltage(feeder), _source_order(feeder), _small_loads(feeder), impedances(feeder), _negative_losses(joined), _twice(feeder),
        _reactors(feeder), _rated_voltages(joined), _taps_at_their_end(joined), _narrow_bands(feeder),
    )
    return [note for notes in kinds for note in _cut(notes)]


def warnings(joined):
    """The notes where two files are spoken of."""
    return [f"feeder{'' if note.line is None else f', line {note.line}'}: {note.text}" for note in notes_of(joined)]


def beside_report(feeder_data, report_data):
    """The notes that `study` writes beside its report, one text; '' where there are none."""
    try:
        joined = Joined(format.read_feeder(feeder_data), format.read_report(report_data))
    except (format.NotLaidOut, CannotJoin):
        return ""
    notes = notes_of(joined)
    said = [f"Line {note.line}: {note.text}." if note.line is not None else f"{begun(note.text)}." for note in notes]
    return "\n".join([HEADING, *said]) if said else ""
