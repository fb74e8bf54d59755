"""Why the taps of a regulator move on (35), or do not rest in a report (56)."""
import math

from . import equations
from .format import BAND, LEVEL, LEVEL_LIMIT, PHASES, TAP_LIMIT, TAPS, regulators, taps_of, with_taps
from .power import nearest_root
from .wording import centivolts, counted, decimal_text, lines_said, listed

MOST_SHOWN = 4
DIRECTIONS = {1: "up", -1: "down"}


def _thousandths(number):
    """A number of 0.001 V as '119.8 V', '119.805 V' or '120.00 V': two decimals at least."""
    text = decimal_text(number, 3, 3)
    return (text[:-1] if text.endswith("0") else text) + " V"


def relay_said(relay):
    """The size of a relay's voltage, to 0.001 V."""
    return _thousandths(nearest_root(100 * equations.square(relay)))


def edge_said(branch, step):
    """The end of the range in which the relay rests, on the side where it wants this step."""
    return _thousandths(5 * (2 * branch.parameters[LEVEL] - step * branch.parameters[BAND]))


def beyond_edge_said(branch, step, relay):
    """'119.80 V, below 120.00 V (level less half the bandwidth)'"""
    below, half = ("below", "less") if step > 0 else ("above", "and")
    return f"{relay_said(relay)}, {below} {edge_said(branch, step)} (level {half} half the bandwidth)"


def _regulator_said(branch):
    return f"the regulator in line {branch.line} ({branch.from_node},{branch.to_node})"


def _relays(feeder, studied):
    """The voltage of each relay in a settled round: a list of three for each regulator, None where the level is 0 or the phase is absent."""
    return [
        [equations.relay_voltage(branch, studied.voltages[branch.to_node][place], studied.currents[branch.to_node][place])
         if branch.parameters[LEVEL] and phase in branch.phases else None for place, phase in enumerate(PHASES)]
        for branch in regulators(feeder)
    ]


def _moving(feeder, studied):
    """(place among the regulators, branch, place of the phase, step) of each phase that wants and can move after a settled round."""
    return [
        (index, branch, place, step)
        for index, branch in enumerate(regulators(feeder))
        for place, step in enumerate(equations.steps_made(branch, studied.voltages[branch.to_node], studied.currents[branch.to_node])) if step
    ]


def _needed_band(branch, *relays):
    """The least bandwidth with which one of these voltages is at rest."""
    twice_level = 2 * branch.parameters[LEVEL]
    needed = []
    for relay in relays:
        size = 4 * equations.square(relay)
        root = math.isqrt(size)
        needed.append(twice_level - root if size < twice_level**2 else root + (root**2 < size) - twice_level)
    return min(needed)


def _room_for_a_step(branch, *_):
    """A bandwidth that is wider than a step at the level, which is 0.69 per cent at most."""
    return 3 * branch.parameters[LEVEL] // 400 + 1


def _apart(_, one, other):
    """A bandwidth that is wider than these two voltages are apart, in size."""
    sizes = [math.isqrt(equations.square(relay)) for relay in (one, other)]
    return abs(sizes[0] - sizes[1]) + 2


def _with_bands(feeder, bands):
    """The feeder with these bandwidths, by the line of a regulator."""
    return feeder._replace(branches=[
        branch._replace(parameters=branch.parameters[:BAND] + (bands[branch.line],) + branch.parameters[BAND + 1:])
        if branch.line in bands else branch
        for branch in feeder.branches
    ])


def _ending_with(feeder, choices):
    """A sentence on the first of these choices of bandwidths, by the line of a regulator, with which the rounds end; [] where none does."""
    for bands in choices:
        if max(bands.values()) > LEVEL_LIMIT:
            continue
        studied = equations.study(_with_bands(feeder, bands))
        if studied.trouble is None:
            said = listed(f"{centivolts(band)} in line {line}" for line, band in sorted(bands.items()))
            return [f"With p5 (bandwidth) {said} the rounds end, after {counted(len(studied.tried), 'round')}."]
    return []


def _bands_for(swinging, here, there, needed):
    """Bandwidths for the regulators with phases that go to and fro: the widest that needed gives for one of them.

    swinging is as _moving gives it, here and there are the relays' voltages in the last round and in the one before."""
    bands = {}
    for index, branch, place, _ in swinging:
        band = needed(branch, here[index][place], there[index][place])
        bands[branch.line] = max(band, bands.get(branch.line, branch.parameters[BAND]))
    return bands


def _circle(feeder, studied):
    """Sentences on taps that come back after three rounds or more; [] where they have not."""
    tried = studied.tried
    before = [number for number, taps in enumerate(tried[:-1], 1) if taps == tried[-1]]
    if not before:
        return []
    moved = [branch for index, branch in enumerate(regulators(feeder)) if len({taps[index] for taps in tried[before[-1] - 1:]}) > 1]
    lines = lines_said(branch.line for branch in moved)
    sentences = [f"The taps are those of round {before[-1]} again, so that the rounds would go on for ever. Taps move in {lines}."]
    if len(moved) > 1:
        sentences.append("Each of these regulators changes the voltage or the current that the others measure: "
                         "look at R and X of their compensators.")
    wider = [{b.line: max(times * b.parameters[BAND], b.parameters[LEVEL] // equations.STEPS + 1) for b in moved} for times in (2, 4)]
    return sentences + _ending_with(feeder, wider)


def moving_fault(feeder, studied):
    """Sentences for refusal 35; studied is the study of the feeder, with its last round."""
    last = studied.feeder
    moving = _moving(last, studied)
    relays = _relays(last, studied)
    sentences = []
    for index, branch, place, step in moving[:MOST_SHOWN]:
        sentences.append(
            f"After {equations.MOST_ROUNDS} rounds phase {PHASES[place]} of {_regulator_said(branch)} still wants {DIRECTIONS[step]}: "
            f"at tap {branch.parameters[place]} its relay has {beyond_edge_said(branch, step, relays[index][place])}.")
    if len(moving) > MOST_SHOWN:
        sentences.append(f"So do {counted(len(moving) - MOST_SHOWN, 'more phase')}.")
    tried = studied.tried
    swinging = [one for one in moving if tried[-1][one[0]][one[2]] == tried[-3][one[0]][one[2]] != tried[-2][one[0]][one[2]]]
    if swinging:
        before = with_taps(feeder, tried[-2])
        there = _relays(before, equations.one_round(before))
        index, branch, place, _ = swinging[0]
        other = tried[-2][index][place]
        sentences.append(
            f"Phase {PHASES[place]} of line {branch.line} goes to and fro between tap {branch.parameters[place]}, where its relay has "
            f"{relay_said(relays[index][place])}, and tap {other}, where it has {relay_said(there[index][place])}: "
            f"neither is within level and bandwidth ({edge_said(branch, 1)} to {edge_said(branch, -1)}).")
        return sentences + _ending_with(feeder, [_bands_for(swinging, relays, there, needed) for needed in (_room_for_a_step, _apart, _needed_band)])
    onward = equations.study(last)
    if onward.trouble is None:
        changed = [(branch, taps) for branch, taps, first in zip(regulators(last), tried[-1], tried[0]) if taps != first]
        said = listed(f"{listed(taps)} in line {branch.line}" for branch, taps in changed)
        return sentences + [f"From the taps of the last round on the rounds end: write them as p1 to p3, {said}."]
    return sentences + _circle(feeder, studied)


def reported_taps(feeder, report):
    """The feeder with the taps that the report has; as it is where the report has no table of them."""
    return feeder if report.taps is None else with_taps(feeder, [row.taps for row in report.taps])


def tap_fault(feeder, report, line):
    """Sentences for refusal 56 at a line of the report."""
    at = reported_taps(feeder, report)
    rows = {row.node: row.voltage for row in report.nodes}
    currents = {row.to_node: row.current for row in report.currents}
    for branch, before, row in zip(regulators(at), taps_of(feeder), report.taps or ()):
        if row.line != line:
            continue
        columns = TAPS.columns[1:]
        if branch.parameters[LEVEL] == 0:
            return [
                f"Column {column.name} has {tap}: line {branch.line} of the feeder has level 0 and keeps its tap {due}."
                for column, tap, due in zip(columns, row.taps, before) if tap != due
            ]
        steps = equations.steps_made(branch, rows[branch.to_node], currents[branch.to_node])
        sentences = [
            f"Column {column.name} has {tap}: the relay has "
            f"{beyond_edge_said(branch, step, equations.relay_voltage(branch, rows[branch.to_node][place], currents[branch.to_node][place]))}, "
            f"so that the tap can move {DIRECTIONS[step]} as wanted."
            for place, (column, tap, step) in enumerate(zip(columns, row.taps, steps)) if step
        ]
        if not sentences:
            return []
        studied = equations.study(feeder)
        if studied.trouble is None:
            own = studied.tried[-1][regulators(at).index(branch)]
            return sentences + [f"The study of the feeder comes to {listed(own)}."]
        return sentences + [f"The study refuses the feeder with {studied.trouble.number}."]
    return []


def at_their_end(joined):
    """(branch, [(phase, relay's voltage)], step) for each regulator with taps at 16 or -16 that still want that way."""
    found = []
    for branch in regulators(joined.feeder):
        voltages, currents = joined.voltage[branch.to_node], joined.current[branch.to_node].current
        steps = equations.wanted_steps(branch, voltages, currents)
        for step in (1, -1):
            phases = [
                (phase, equations.relay_voltage(branch, voltages[place], currents[place]))
                for place, phase in enumerate(PHASES) if steps[place] == step and joined.taps[branch.to_node][place] == TAP_LIMIT * step
            ]
            if phases:
                found.append((branch, phases, step))
    return found
