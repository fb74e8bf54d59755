"""The equations of documents 01 and 02 in whole numbers, to say in which row a refusal from 30 to 35 or from 53 to 56 arises.

The proved programs give the answer. What is worked out here is only told where it comes to the same answer. Complex numbers are pairs
(re, im) of whole numbers, and what a node or a branch has on its phases is a list of three of them.
"""
import collections
import math

from .format import (
    BAND, COMPENSATOR_R, COMPENSATOR_X, CURRENT_LIMIT, CURRENT_RATIO, CURRENTS, GRAINS_IN_A_WATT, LEVEL, LOAD_SIGNS, NODES, PHASES,
    POTENTIAL_RATIO, TAP_LIMIT, TAPS, TOTALS, VOLTAGE_LIMIT, header, level_of, regulators, taps_of, with_taps,
)

ZERO = (0, 0)
MICRO_OHM_MILLIAMPERES_IN_A_CENTIVOLT = 10000000
STEPS = 160  # a tap's step is 1/160
MOST_ROUNDS = 32

# What is refused, with the row it arises in and a value: (re, im) of a voltage or a current.
Trouble = collections.namedtuple("Trouble", "number sweep row phase value end", defaults=("",))
# A settled study, or one that ran out of sweeps: moved[k] is the greatest movement in sweep k + 1, with its node and phase, and used[k] are
# the voltages that this sweep took its currents from. All of these are those of the last round. feeder is the feeder with the taps of that
# round as p1 to p3, and tried has the taps of each round, as taps_of gives them.
Studied = collections.namedtuple("Studied", "voltages currents sweeps moved used trouble feeder tried")
Movement = collections.namedtuple("Movement", "size node phase")


def rounded(numerator, denominator):
    """The nearest whole number, a tie going away from zero; the denominator is above 0."""
    size = (2 * abs(numerator) + denominator) // (2 * denominator)
    return -size if numerator < 0 else size


def rounded_pair(pair, denominator):
    return (rounded(pair[0], denominator), rounded(pair[1], denominator))


def plus(one, other):
    return (one[0] + other[0], one[1] + other[1])


def minus(one, other):
    return (one[0] - other[0], one[1] - other[1])


def times(one, other):
    return (one[0] * other[0] - one[1] * other[1], one[0] * other[1] + one[1] * other[0])


def scaled(factor, pair):
    return (factor * pair[0], factor * pair[1])


def conjugate(pair):
    return (pair[0], -pair[1])


def square(pair):
    return pair[0] ** 2 + pair[1] ** 2


def total(pairs):
    sum_of_all = ZERO
    for pair in pairs:
        sum_of_all = plus(sum_of_all, pair)
    return sum_of_all


def beyond(pair, limit):
    return abs(pair[0]) > limit or abs(pair[1]) > limit


def load_voltage(load, voltages):
    """The load's voltage, from those of its node: its phase's, or the first phase's less the second's."""
    return total(scaled(sign, voltage) for sign, voltage in zip(LOAD_SIGNS[load.phase], voltages))


def voltage_at(load, voltages):
    """The load's voltage, from those of all nodes by their names."""
    return load_voltage(load, voltages[load.node])


def spread(load, current):
    """What the load's one current adds to the current of each phase: it goes out on the first phase and comes back on the second."""
    return [scaled(sign, current) for sign in LOAD_SIGNS[load.phase]]


def acts_as(load, voltage):
    """The kind as which the load acts at this voltage: one of kind P acts as Z below 70 per cent of vn, and at just 70 per cent still as P.

    Its current, its rating and refusal 30 go by this, each at the voltage that it is worked from."""
    return "Z" if load.kind == "P" and 100 * square(voltage) < 49 * load.vn**2 else load.kind


def is_low(load, voltage):
    """Whether the load is of kind P and acts as Z at this voltage."""
    return acts_as(load, voltage) != load.kind


def weight(load, voltage):
    """What the load's current and its rating are divided by. It is 0 where a load of kind I has voltage 0, and nowhere else: refusal 30."""
    kind = acts_as(load, voltage)
    if kind == "P":
        return square(voltage)
    return load.vn**2 if kind == "Z" else math.isqrt(square(voltage)) * load.vn


def load_current(load, voltage):
    """The load's current, where its weight is not 0."""
    return rounded_pair(scaled(GRAINS_IN_A_WATT, times((load.p, -load.q), voltage)), weight(load, voltage))


def _has(branch, place):
    return PHASES[place] in branch.phases


def drop(branch, current):
    """D of the branch, from its current at the to-node."""
    numbers = branch.parameters
    if branch.kind == "R":
        return [ZERO] * 3
    if branch.kind == "L":
        matrix = [[0, 2, 4], [2, 6, 8], [4, 8, 10]]  # the place of r of each pair of phases among p1 to p12
        sums = [total(times(numbers[at : at + 2], current[column]) for column, at in enumerate(row)) for row in matrix]
    else:
        sums = [times(numbers[2 + 2 * place : 4 + 2 * place], current[place]) for place in range(3)]
    return [rounded_pair(pair, MICRO_OHM_MILLIAMPERES_IN_A_CENTIVOLT) for pair in sums]


def voltage_below(branch, above, current):
    """The voltage at the to-node from the one at the from-node."""
    numbers = branch.parameters
    if branch.kind == "R":
        below = [rounded_pair(scaled(STEPS, above[place]), STEPS - numbers[place]) for place in range(3)]
    elif branch.kind == "L":
        below = above
    else:
        if branch.kind == "D":
            above = [minus(above[place], above[place - 1]) for place in range(3)]
        below = [rounded_pair(scaled(numbers[1], pair), numbers[0]) for pair in above]
    drops = drop(branch, current)
    return [minus(below[place], drops[place]) if _has(branch, place) else ZERO for place in range(3)]


def current_above(branch, current):
    """J: what the branch takes at its from-node."""
    numbers = branch.parameters
    if branch.kind == "L":
        return current
    if branch.kind == "R":
        return [rounded_pair(scaled(STEPS, current[place]), STEPS - numbers[place]) for place in range(3)]
    if branch.kind == "D":
        current = [minus(current[place], current[(place + 1) % 3]) for place in range(3)]
    return [rounded_pair(scaled(numbers[1], pair), numbers[0]) for pair in current]


def loss(branch, current):
    return total(times(one, conjugate(other)) for one, other in zip(drop(branch, current), current))


def from_source_down(feeder):
    """The branches in an order in which each comes behind the one that feeds it."""
    leaving = collections.defaultdict(list)
    for branch in feeder.branches:
        leaving[branch.from_node].append(branch)
    ordered = []
    nodes = [feeder.source.name]
    for node in nodes:
        for branch in leaving[node]:
            ordered.append(branch)
            nodes.append(branch.to_node)
    return ordered


def base_phasors(feeder):
    """V in cV on each phase, not rounded, if no current flowed and every tap stood at 0: the source's, stepped by transformers."""
    phasors = {feeder.source.name: [complex(*pair) for pair in feeder.source.voltage]}
    for branch in from_source_down(feeder):
        above = phasors[branch.from_node]
        if branch.kind == "D":
            above = [above[place] - above[place - 1] for place in range(3)]
        if branch.kind in "YD":
            above = [value * branch.parameters[1] / branch.parameters[0] for value in above]
        phasors[branch.to_node] = above
    return phasors


def base_voltages(feeder):
    """The sizes of the base phasors."""
    return {node: [abs(value) for value in values] for node, values in base_phasors(feeder).items()}


def currents_at(feeder, voltages, sweep):
    """Load currents, then I of each branch by its to-node, at these voltages; the current taken at the source stands under its name.

    Gives (load currents, currents, Trouble or None), the refusals 30 to 32 in their order.
    """
    at = [voltage_at(load, voltages) for load in feeder.loads]
    for load, voltage in zip(feeder.loads, at):
        if weight(load, voltage) == 0:
            return None, None, Trouble(30, sweep, load, load.phase, ZERO)
    taken = [load_current(load, voltage) for load, voltage in zip(feeder.loads, at)]
    for load, current in zip(feeder.loads, taken):
        if beyond(current, CURRENT_LIMIT):
            return None, None, Trouble(31, sweep, load, load.phase, current)
    currents = {node: [ZERO] * 3 for node in voltages}
    for load, current in zip(feeder.loads, taken):
        currents[load.node] = [plus(one, other) for one, other in zip(currents[load.node], spread(load, current))]
    trouble = None
    for branch in reversed(from_source_down(feeder)):
        current = currents[branch.to_node]
        above = current_above(branch, current)
        for values, end in ((current, branch.to_node), (above, branch.from_node)):
            for place, value in enumerate(values):
                if beyond(value, CURRENT_LIMIT) and trouble is None:
                    trouble = Trouble(32, sweep, branch, PHASES[place], value, end)
        currents[branch.from_node] = [plus(one, other) for one, other in zip(currents[branch.from_node], above)]
    return taken, currents, trouble


def voltages_down(feeder, currents, sweep):
    """The voltages from the source downward; gives (voltages, Trouble or None) with refusal 33."""
    voltages = {feeder.source.name: list(feeder.source.voltage)}
    trouble = None
    for branch in from_source_down(feeder):
        voltages[branch.to_node] = voltage_below(branch, voltages[branch.from_node], currents[branch.to_node])
        for place, value in enumerate(voltages[branch.to_node]):
            if beyond(value, VOLTAGE_LIMIT) and trouble is None:
                trouble = Trouble(33, sweep, branch, PHASES[place], value)
    return voltages, trouble


def greatest_movement(feeder, before, after):
    """The greatest movement of a voltage, re or im, with its node and phase."""
    greatest = Movement(0, feeder.source.name, "A")
    for node in after:
        for place, phase in enumerate(PHASES):
            moved = minus(after[node][place], before[node][place])
            size = max(abs(moved[0]), abs(moved[1]))
            if size > greatest.size:
                greatest = Movement(size, node, phase)
    return greatest


def relay_voltage(branch, voltage, current):
    """What the relay of a regulator with a level has on a phase, from V and I of its to-node there."""
    numbers = branch.parameters
    drop_there = times((numbers[COMPENSATOR_R], numbers[COMPENSATOR_X]), current)
    return minus(rounded_pair(voltage, numbers[POTENTIAL_RATIO]),
                 rounded_pair(drop_there, numbers[CURRENT_RATIO] * MICRO_OHM_MILLIAMPERES_IN_A_CENTIVOLT))


def wanted_step(branch, relay):
    """1 where a phase with this voltage at its relay wants up, -1 where it wants down, else 0."""
    level, band = branch.parameters[LEVEL], branch.parameters[BAND]
    size = 4 * square(relay)
    if 2 * level >= band and size < (2 * level - band) ** 2:
        return 1
    return -1 if size > (2 * level + band) ** 2 else 0


def wanted_steps(branch, voltages, currents):
    """The steps that the phases of a regulator want, 0 on an absent phase and with level 0; V and I are those of its to-node."""
    if level_of(branch) == 0:
        return [0] * 3
    return [wanted_step(branch, relay_voltage(branch, voltages[place], currents[place])) if _has(branch, place) else 0 for place in range(3)]


def steps_made(branch, voltages, currents):
    """The steps that the phases want and can make with the taps p1 to p3."""
    return [step if abs(tap + step) <= TAP_LIMIT else 0
            for tap, step in zip(branch.parameters, wanted_steps(branch, voltages, currents))]


def study(feeder):
    """The rounds of the study, on a feeder that is free of 9 to 24."""
    tried = []
    while True:
        tried.append(taps_of(feeder))
        studied = one_round(feeder)._replace(tried=tried)
        if studied.trouble is not None:
            return studied
        steps = [steps_made(branch, studied.voltages[branch.to_node], studied.currents[branch.to_node]) for branch in regulators(feeder)]
        if not any(step for three in steps for step in three):
            return studied
        if len(tried) == MOST_ROUNDS:
            return studied._replace(trouble=Trouble(35, MOST_ROUNDS, None, "", ZERO))
        feeder = with_taps(feeder, [[tap + step for tap, step in zip(taps, three)] for taps, three in zip(tried[-1], steps)])


def one_round(feeder, tol=None, most_sweeps=None):
    """The sweeps of one round, with the taps p1 to p3; tol and the most sweeps are the feeder's where none are given."""
    tol = feeder.source.tol if tol is None else tol
    most_sweeps = feeder.source.sweeps if most_sweeps is None else most_sweeps
    nothing = {branch.to_node: [ZERO] * 3 for branch in feeder.branches}
    voltages, trouble = voltages_down(feeder, nothing, 0)
    moved, used = [], []
    for sweep in range(1, most_sweeps + 1):
        used.append(voltages)
        if trouble is None:
            _, currents, trouble = currents_at(feeder, voltages, sweep)
        if trouble is None:
            after, trouble = voltages_down(feeder, currents, sweep)
        if trouble is not None:
            return Studied(voltages, None, sweep, moved, used, trouble, feeder, ())
        moved.append(greatest_movement(feeder, voltages, after))
        if moved[-1].size <= tol:
            return Studied(voltages, currents, sweep, moved, used, None, feeder, ())
        voltages = after
    return Studied(voltages, currents, most_sweeps, moved, used, Trouble(34, most_sweeps, None, moved[-1].phase, ZERO), feeder, ())


def powers(feeder, voltages, load_currents, currents):
    """(losses by to-node, source, drawn, lost): the powers of a report, in grains."""
    losses = {branch.to_node: loss(branch, currents[branch.to_node]) for branch in feeder.branches}
    source = total(times(one, conjugate(other)) for one, other in zip(feeder.source.voltage, currents[feeder.source.name]))
    drawn = total(
        times(voltage_at(load, voltages), conjugate(current)) for load, current in zip(feeder.loads, load_currents)
    )
    return losses, source, drawn, total(losses.values())


def report_lines(feeder, studied):
    """The lines of the report of a settled study, without LF."""
    feeder = studied.feeder
    load_currents, currents, _ = currents_at(feeder, studied.voltages, studied.sweeps)
    losses, source, drawn, lost = powers(feeder, studied.voltages, load_currents, currents)

    def row(*parts):
        return ",".join(str(part) for part in parts)

    def six(three):
        return [part for pair in three for part in pair]

    nodes = [feeder.source.name] + [branch.to_node for branch in feeder.branches]
    return (
        [header(NODES)]
        + [row(node, *six(studied.voltages[node])) for node in nodes]
        + ["", header(CURRENTS)]
        + [row(b.from_node, b.to_node, *six(currents[b.to_node]), *losses[b.to_node]) for b in feeder.branches]
        + ["", header(TOTALS), row(studied.sweeps, *source, *drawn, *lost)]
        + ["", header(TAPS)]
        + [row(branch.to_node, *branch.parameters[:3]) for branch in regulators(feeder)]
    )
