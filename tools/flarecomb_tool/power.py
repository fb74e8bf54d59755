"""The power account of demand 3 in whole numbers: ratings, exact losses and allowances, as documents 01 and 02 define them.

Voltages and currents are pairs (re, im) in cV and mA, powers pairs (p, q) in grains (0.00001 W)."""
import math

from . import equations
from .equations import ZERO, acts_as, conjugate, rounded_pair, scaled, square, times, total, weight
from .format import GRAINS_IN_A_WATT, PHASES, load_phases


def size(pair):
    """|V| and |I| as document 01 has them: |re| + |im|."""
    return abs(pair[0]) + abs(pair[1])


def nearest_root(number):
    """The whole number nearest to the square root (never a tie, since a square of a half is not whole)."""
    return (math.isqrt(4 * number) + 1) // 2


def load_current(load, voltage):
    """The current in mA, or None where document 01 refuses with 30."""
    return equations.load_current(load, voltage) if weight(load, voltage) else None


def load_rating(load, voltage):
    """What the row stands for at this voltage, by the kind as which it acts there; None where its current is None."""
    rating = scaled(GRAINS_IN_A_WATT, (load.p, load.q))
    if acts_as(load, voltage) == "P":
        return rating
    divisor = weight(load, voltage)
    return rounded_pair(scaled(square(voltage), rating), divisor) if divisor else None


def impedance_matrix(branch):
    """3 by 3 pairs (r, x) in µΩ; all 0 for a regulator, which loses nothing."""
    pairs = list(zip(branch.parameters[0::2], branch.parameters[1::2]))
    if branch.kind == "L":
        aa, ab, ac, bb, bc, cc = pairs
        return (aa, ab, ac), (ab, bb, bc), (ac, bc, cc)
    own = [ZERO] * 3 if branch.kind == "R" else pairs[1:4]
    return tuple(tuple(own[row] if row == column else ZERO for column in range(3)) for row in range(3))


def exact_loss(matrix, currents):
    """conj(I_i)·z_ij·I_j summed over the matrix and rounded once."""
    products = (times(times(conjugate(currents[row]), matrix[row][column]), currents[column]) for row in range(3) for column in range(3))
    return rounded_pair(total(products), equations.MICRO_OHM_MILLIAMPERES_IN_A_CENTIVOLT)


def load_allowance(load, tol, current, voltage):
    """2·tol counts once for each phase that the row's voltage comes from: twice for a row between two phases."""
    return 2 * tol * len(load_phases(load.phase)) * size(current) + size(voltage) + 1


def branch_allowance(branch, tol, currents, from_voltages):
    """A line has 1 once, and a transformer 1 once beside what its phases have."""
    places = [PHASES.index(phase) for phase in branch.phases]
    current = sum(size(currents[place]) for place in places)
    voltage = sum(size(from_voltages[place]) for place in places)
    if branch.kind == "L":
        return 1 + current
    if branch.kind == "R":
        return voltage + 2 * tol * len(places) + current
    return 1 + voltage + 2 * tol * len(places) + 2 * current
