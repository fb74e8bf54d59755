"""A feeder and its report put together: the tree of nodes, base voltages, flows and the power account."""
import cmath
import collections

from . import equations, format, power
from .equations import ZERO, conjugate, minus, plus, times, total

# What a load row draws at the reported voltage: the kind as which it acts there, current in mA, rating and drawn power in grains; the last
# three are None where refusal 30 stands.
LoadFlow = collections.namedtuple("LoadFlow", "load voltage acts_as current rating drawn")
# The power account, in grains: pairs of real and reactive power, and one allowance for twice the difference of each.
Account = collections.namedtuple("Account", "source ratings losses difference allowance within")
Extreme = collections.namedtuple("Extreme", "per_unit node phase voltage")


class CannotJoin(ValueError):
    """The two files cannot be put side by side, with the number and the line of the refusal that says why."""

    def __init__(self, number, line):
        super().__init__(f"refusal {number} at line {line}")
        self.number = number
        self.line = line


def check_limits(feeder):
    """A value outside its limit has no meaning that could be shown (a turns ratio over 0, for one)."""
    source = feeder.source
    rows = [(source.line, format.SOURCE.columns[1:], [part for pair in source.voltage for part in pair] + [source.tol, source.sweeps])]
    rows += [(branch.line, format.parameters_of(branch.kind, branch.parameters[format.LEVEL]), branch.parameters) for branch in feeder.branches]
    rows += [(load.line, format.columns_of(format.LOADS, load[1:])[format.RATED_VOLTAGE:], (load.vn, load.p, load.q)) for load in feeder.loads]
    for line, columns, values in rows:
        if any(format.outside_limit(column, value) for column, value in zip(columns, values)):
            raise CannotJoin(11, line)
    for table_rows, table in ((feeder.branches, format.BRANCHES), (feeder.loads, format.LOADS)):
        if len(table_rows) > table.limit_rows:
            raise CannotJoin(11, table_rows[table.limit_rows].line)


def check_radial_form(feeder):
    """Refusals 20 to 23, the lowest first: without a tree of nodes with their phases there is nothing to draw."""
    source, branches = feeder.source.name, feeder.branches
    phases = {source: "ABC", **{branch.to_node: branch.phases for branch in branches}}
    for branch in branches:
        if branch.from_node not in phases:
            raise CannotJoin(20, branch.line)
    fed = {source}
    for branch in branches:
        if branch.to_node in fed:
            raise CannotJoin(21, branch.line)
        fed.add(branch.to_node)
    reached = {branch.to_node for branch in equations.from_source_down(feeder)}
    for branch in branches:
        if branch.to_node not in reached:
            raise CannotJoin(22, branch.line)
    for branch in branches:
        if branch.kind in "YD" and branch.phases != "ABC" or not set(branch.phases) <= set(phases[branch.from_node]):
            raise CannotJoin(23, branch.line)
    for load in feeder.loads:
        if not set(format.load_phases(load.phase)) <= set(phases.get(load.node, "")):
            raise CannotJoin(23, load.line)


def check_rows(feeder, report):
    """The report's rows must be the feeder's, or the two have nothing to do with each other."""
    names = [feeder.source.name] + [branch.to_node for branch in feeder.branches]
    if len(report.nodes) != len(names) or len(report.currents) != len(feeder.branches):
        raise CannotJoin(50, 0)
    regulators = format.regulators(feeder)
    if format.sets_taps(feeder) if report.taps is None else len(report.taps) != len(regulators):
        raise CannotJoin(50, 0)
    for row, node in zip(report.nodes, names):
        if row.node != node:
            raise CannotJoin(51, row.line)
    for row, branch in zip(report.currents, feeder.branches):
        if (row.from_node, row.to_node) != (branch.from_node, branch.to_node):
            raise CannotJoin(51, row.line)
    for row, branch in zip(report.taps or (), regulators):
        if row.to_node != branch.to_node:
            raise CannotJoin(51, row.line)


class Joined:
    """nodes are the source and then the to-nodes, in the feeder's order; a branch is known by its to-node."""

    def __init__(self, feeder, report):
        check_limits(feeder)
        check_radial_form(feeder)
        check_rows(feeder, report)
        self.feeder = feeder
        self.report = report
        self.source = feeder.source.name
        self.nodes = [row.node for row in report.nodes]
        self.branch_to = {branch.to_node: branch for branch in feeder.branches}
        self.phases = {self.source: "ABC", **{branch.to_node: branch.phases for branch in feeder.branches}}
        self.voltage = {row.node: row.voltage for row in report.nodes}
        self.current = {row.to_node: row for row in report.currents}
        # Without a table of them the taps are the feeder's.
        taps = format.taps_of(feeder) if report.taps is None else [row.taps for row in report.taps]
        self.taps = {branch.to_node: three for branch, three in zip(format.regulators(feeder), taps)}
        # Branches, each behind the one that feeds it.
        self.downward = equations.from_source_down(feeder)
        self.children = {node: [] for node in self.nodes}
        self.depth = {self.source: 0}
        for branch in self.downward:
            self.children[branch.from_node].append(branch.to_node)
            self.depth[branch.to_node] = self.depth[branch.from_node] + 1
        self.base = equations.base_voltages(feeder)
        self.loads = [self.load_flow(load) for load in feeder.loads]

    def load_flow(self, load):
        voltage = equations.voltage_at(load, self.voltage)
        current = power.load_current(load, voltage)
        drawn = None if current is None else times(voltage, conjugate(current))
        return LoadFlow(load, voltage, equations.acts_as(load, voltage), current, power.load_rating(load, voltage), drawn)

    def flow_into(self, node):
        """Power in grains that the branch to this node hands over there, all phases together."""
        return total(times(voltage, conjugate(current)) for voltage, current in zip(self.voltage[node], self.current[node].current))

    def per_unit(self, node, place):
        """None on an absent phase and where the base is 0."""
        base = self.base[node][place]
        if format.PHASES[place] not in self.phases[node] or base < 1e-6:
            return None
        return abs(complex(*self.voltage[node][place])) / base

    def extremes(self):
        """The lowest and the highest voltage in per unit, the first in the file where several are equal; None where there is none."""
        found = []
        for node in self.nodes:
            for place, phase in enumerate(format.PHASES):
                per_unit = self.per_unit(node, place)
                if per_unit is not None:
                    found.append(Extreme(per_unit, node, phase, self.voltage[node][place]))
        if not found:
            return None
        return min(found, key=lambda one: one.per_unit), max(found, key=lambda one: one.per_unit)

    def account(self):
        """Demand 3's power account, or None where a load of kind I stands at zero voltage."""
        if any(flow.current is None for flow in self.loads):
            return None
        tol = self.feeder.source.tol
        allowance = sum(power.load_allowance(flow.load, tol, flow.current, flow.voltage) for flow in self.loads)
        losses = ZERO
        for branch in self.feeder.branches:
            current = self.current[branch.to_node].current
            losses = plus(losses, power.exact_loss(power.impedance_matrix(branch), current))
            allowance += power.branch_allowance(branch, tol, current, self.voltage[branch.from_node])
        ratings = total(flow.rating for flow in self.loads)
        source = (self.report.totals.source_p, self.report.totals.source_q)
        difference = tuple(abs(part) for part in minus(source, plus(ratings, losses)))
        return Account(source, ratings, losses, difference, allowance, all(2 * part <= allowance for part in difference))


def degrees(pair):
    """The angle in degrees, None of zero."""
    return None if pair == ZERO else cmath.phase(complex(*pair)) * 180 / cmath.pi
