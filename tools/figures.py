#!/usr/bin/env python3
"""figures.py STUDY: works the feeders of examples/ with the program STUDY (target/bin/study) and compares.

Each report must be the one that stands beside its feeder, byte for byte. The figures that the source documents print, document 004 (four
nodes: a line, a delta transformer and a line, without a regulator, with one whose taps are given and with one that sets them) and document
000 (a line section, whole and reduced, fed from A and from B), are compared with it and come within the allowance beside each figure: 0.06
or 0.1 V on the 120 V base, no tap, 0.1 degrees, 0.3 A, 0.001 pu, 4 kW, 5 kvar. One line for each figure; the last line says how many there
are and how many are out, and the exit code is 1 if any is."""
import cmath
import math
import pathlib
import subprocess
import sys

EXAMPLES = pathlib.Path(__file__).resolve().parent.parent / "examples"
PHASES = "abc"
# In cV: a volt of the 120-volt base of 2.4 kV, and 1 pu of 25 kV between lines.
BASE_120 = 240000 / 120
BASE_PU = 1443376

# feeder: node with its printed |V| on each phase, cV for a unit, and how far a figure may be off
VOLTAGES = {
    "four_node": [("N4", (113.9, 110.0, 110.6), BASE_120, 0.06), ("N3", (117.5, 117.1, 116.7), BASE_120, 0.06)],
    "four_node_regulated": [("N4", (121.0, 119.3, 120.7), BASE_120, 0.1)],
    "four_node_set": [("N4", (121.0, 119.3, 120.7), BASE_120, 0.1)],
    "section_from_a": [("B", (1.045, 1.030, 0.998), BASE_PU, 0.001)],
    "section_from_b": [("A", (1.043, 1.031, 0.998), BASE_PU, 0.001)],
    "reduced_from_a": [("B", (1.045, 1.030, 0.998), BASE_PU, 0.001)],
    "reduced_from_b": [("A", (1.043, 1.032, 0.998), BASE_PU, 0.001)],
}
ANGLES = {"four_node": [("N3", (-31.2, -151.7, 87.8))]}
# a branch's to-node with its printed |I| in A on each phase, and its angles
CURRENTS = {"four_node": [("N4", (1.646 * 200, 2.2727 * 200, 2.8264 * 200), (-63.6, -179.4, 64.9))]}
# a regulator's to-node with its printed taps, and the printed voltages of its relays
TAPS = {"four_node_set": [("N3", (9, 11, 12), (120.3, 120.4, 120.1))]}
# kVA into the section on each phase
POWERS = {
    "section_from_a": (3545.9 + 537.7j, 3504.0 + 465.3j, 5013.1 + 2345.1j),
    "section_from_b": (3540.7 + 551.7j, 3507.0 + 465.4j, 5014.3 + 2338.6j),
    "reduced_from_a": (3584.1 + 544.8j, 3505.0 + 465.7j, 5014.0 + 2344.8j),
    "reduced_from_b": (3578.6 + 559.5j, 3508.3 + 465.9j, 5015.1 + 2338.0j),
}

if len(sys.argv) != 2:
    sys.exit("usage: figures.py STUDY, with STUDY the study program, as target/bin/study")

out = 0
count = 0


def compare(what, printed, worked, allowed):
    global out, count
    count += 1
    bad = abs(worked - printed) > allowed
    out += bad
    print(f"{what:<44} printed {printed:>9.4f}  worked {worked:>9.4f}  off {worked - printed:>+8.4f} of {allowed:g}{'  OUT' if bad else ''}")


def degrees(z):
    return math.degrees(cmath.phase(z))


def threes(fields):
    numbers = [int(field) for field in fields]
    return [complex(numbers[2 * k], numbers[2 * k + 1]) for k in range(3)]


def tables(text):
    return [table.rstrip("\n").split("\n")[1:] for table in text.split("\n\n")]


def source_powers(feeder, voltages, currents):
    """kVA that the source gives on each phase: into its branches, which are lines here, and to the loads at it."""
    source, branches, loads = tables(feeder)
    name = source[0].split(",")[0]
    v = voltages[name]
    taken = [0j] * 3
    for row in branches:
        start, end = row.split(",")[:2]
        if start == name:
            taken = [t + i for t, i in zip(taken, currents[end])]
    powers = [u * t.conjugate() / 1e8 for u, t in zip(v, taken)]
    for row in loads:
        node, phase, kind, vn, p, q = row.split(",")
        if node == name:
            k = "ABC".index(phase)
            share = {"P": 1, "I": abs(v[k]) / int(vn), "Z": (abs(v[k]) / int(vn)) ** 2}[kind]
            powers[k] += complex(int(p), int(q)) * share / 1000
    return powers


def relay(row, voltage, current):
    """|V| in V at a regulator's relay; row is its row in the feeder."""
    potential, ratio, r, x = (int(field) for field in row.split(",")[9:13])
    return abs(voltage / potential - complex(r, x) * current / (ratio * 1e7)) / 100


for name in sorted(VOLTAGES):
    feeder = (EXAMPLES / f"{name}.feeder").read_text()
    report = subprocess.run([sys.argv[1]], input=feeder, capture_output=True, text=True, check=True).stdout
    if report != (EXAMPLES / f"{name}.report").read_text():
        out += 1
        print(f"{name}: another report than examples/{name}.report  OUT")
        continue
    nodes, branches, _, taps = tables(report)
    voltages = {row.split(",")[0]: threes(row.split(",")[1:7]) for row in nodes}
    currents = {row.split(",")[1]: threes(row.split(",")[2:8]) for row in branches}
    for node, figures, unit, allowed in VOLTAGES[name]:
        for k, printed in enumerate(figures):
            compare(f"{name} |V| at {node}, {PHASES[k]}", printed, abs(voltages[node][k]) / unit, allowed)
    for node, figures in ANGLES.get(name, []):
        for k, printed in enumerate(figures):
            compare(f"{name} angle of V at {node}, {PHASES[k]}", printed, degrees(voltages[node][k]), 0.1)
    for node, positions, relays in TAPS.get(name, []):
        reached = next(row.split(",")[1:] for row in taps if row.split(",")[0] == node)
        row = next(row for row in tables(feeder)[1] if row.split(",")[1] == node)
        for k in range(3):
            compare(f"{name} tap of {node}, {PHASES[k]}", positions[k], int(reached[k]), 0)
            compare(f"{name} |V| at the relay of {node}, {PHASES[k]}", relays[k], relay(row, voltages[node][k], currents[node][k]), 0.1)
    for node, sizes, angles in CURRENTS.get(name, []):
        for k in range(3):
            compare(f"{name} |I| into {node} in A, {PHASES[k]}", sizes[k], abs(currents[node][k]) / 1000, 0.3)
            compare(f"{name} angle of I into {node}, {PHASES[k]}", angles[k], degrees(currents[node][k]), 0.1)
    if name in POWERS:
        for k, worked in enumerate(source_powers(feeder, voltages, currents)):
            compare(f"{name} kW from the source, {PHASES[k]}", POWERS[name][k].real, worked.real, 4)
            compare(f"{name} kvar from the source, {PHASES[k]}", POWERS[name][k].imag, worked.imag, 5)
print(f"{count} figures, {out} out")
sys.exit(out > 0)
