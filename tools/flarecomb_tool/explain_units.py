"""Voltages that do not fit the others: of the source, and vn of the loads. They tell a wrong unit behind the refusals 31 to 34."""
import math
import statistics

from . import equations
from .format import LOAD_SIGNS, VOLTAGE_LIMIT, is_between
from .power import nearest_root, square
from .wording import between_said, lines_said, volts

# Every voltage that a feeder may have, written in V by mistake, is below this many cV.
LOW_SOURCE = 20001
# Voltages between lines and to ground differ by less than this, those in different units by more.
NEAR = 3
APART = 10


def _near(one, other):
    return 0 < one <= NEAR * other and other <= NEAR * one


def _source_sizes(feeder):
    return [nearest_root(square(pair)) for pair in feeder.source.voltage]


def _base_of(load, phasors):
    """The size of the load's voltage, from the base phasors of a node."""
    return abs(sum(sign * phasor for sign, phasor in zip(LOAD_SIGNS[load.phase], phasors)))


def _rated(feeder):
    """(load, its voltage without any current, size of the source's voltage to ground that would suit its vn) where these are not 0."""
    base = equations.base_phasors(feeder)
    found = []
    for load in feeder.loads:
        size, source_size = (_base_of(load, base[node]) for node in (load.node, feeder.source.name))
        if round(size) and round(source_size):
            # Between phases vn is 1.73 times the voltage to ground, also where one phase of the source is wrong.
            to_ground = load.vn / math.sqrt(3) if is_between(load.phase) else load.vn
            ratio = size / source_size
            # The source's parts are rounded; without a transformer vn is the source's voltage as it stands.
            found.append((load, round(size), round(to_ground if abs(ratio - 1) < 0.01 else to_ground / ratio)))
    return found


def _agreed(sizes):
    """The size that all of these are near to, or None."""
    middle = round(statistics.median(sizes)) if sizes else 0
    return middle if middle and all(_near(size, middle) for size in sizes) else None


def source_hint(feeder):
    """Sentences on a source voltage that is probably in another unit; [] where nothing tells so."""
    sizes = [size for size in _source_sizes(feeder) if size]
    if not sizes:
        return []
    biggest = max(sizes)
    rated = _rated(feeder)
    guess = _agreed([suited for _, _, suited in rated])
    fits_vn = guess is not None and guess <= VOLTAGE_LIMIT
    if biggest >= APART * min(sizes):
        first = f"They differ by a factor of {biggest // min(sizes)}; voltages are in cV (0.01 V)."
        return [first + (f" By vn of the loads each has about {volts(guess)}: that is {guess}." if fits_vn else "")]
    if fits_vn and guess > NEAR * biggest:
        factor = 10 ** round(math.log10(guess / biggest))
        times = f": each of its six values is then {factor} times as large" if 0.97 < guess / biggest / factor < 1.03 else ""
        return [f"Voltages are in cV: by vn of the loads it has about {volts(guess)}, that is {guess}{times}."]
    if biggest < LOW_SOURCE:
        alike = [load.line for load, _, suited in rated if _near(suited, biggest)]
        fitting = [load.line for load, _, suited in rated if _near(suited, 100 * biggest)]
        if rated and not alike and not fitting:
            return []
        same = f" The same holds for vn in {lines_said(alike)}." if alike else ""
        return [f"Voltages are in cV: if {biggest} V is meant, it is {biggest * 100}.{same}"]
    return []


def vn_hint(feeder, load=None):
    """Sentences on vn of this load, or of the first of kind I or Z with too low a vn; [] where it is near the voltage at its node."""
    wrong = [(other, voltage) for other, voltage, _ in _rated(feeder) if not _near(other.vn, voltage)]
    low = [(other, voltage) for other, voltage in wrong if other.kind != "P" and other.vn < voltage]
    first = next((pair for pair in low if load is None or pair[0] == load), None)
    if first is None:
        return []
    vn, voltage = first[0].vn, first[1]
    has = volts(voltage) + between_said(first[0].phase)
    said = "" if load is not None else f"vn in line {first[0].line} is {volts(vn)}, its node {first[0].node} has {has} without load. "
    factor, unit = next(((factor, unit) for factor, unit in ((100, "V"), (100000, "kV")) if _near(vn * factor, voltage)), (None, None))
    if factor:
        said += f"vn is in cV: if {vn} {unit} is meant, it is {vn * factor}."
    else:
        said += f"vn is in cV: the {has} of its node are {voltage}."
    others = [(other, at) for other, at in wrong if other is not first[0]]
    same = [other.line for other, at in others if factor and _near(other.vn * factor, at)]
    rest = [other.line for other, at in others if other.line not in same]
    if same:
        said += f" The same holds for vn in {lines_said(same)}."
    if rest:
        said += f" vn is far from the voltage at its node in {lines_said(rest)} too."
    return [said]
