"""Runs a command's module as the command line does, and makes feeders and reports for the tests."""
import argparse
import contextlib
import io
import subprocess

from flarecomb_tool import equations, format, joined
from tests.support import EXAMPLES, PROGRAMS

SOURCE_ROW = "S,720000,0,-360000,-623538,-360000,623538,1,20"
# A and B stand opposite each other, so that a load between them has 12000 V.
OPPOSITE_ROW = "S,600000,0,-600000,0,0,0,1,20"


def run(module, *words):
    """(exit status, standard output, standard error) of a command."""
    parser = argparse.ArgumentParser()
    subparsers = parser.add_subparsers(dest="command")
    module.add_parser(subparsers)
    command = module.__name__.rsplit(".", 1)[1]
    arguments = parser.parse_args([command, *map(str, words)])
    output, errors = io.TextIOWrapper(io.BytesIO(), encoding="utf-8"), io.StringIO()
    with contextlib.redirect_stdout(output), contextlib.redirect_stderr(errors):
        status = module.run(arguments)
    return status, output.buffer.getvalue().decode("utf-8"), errors.getvalue()


def study(feeder):
    """What the proved study writes for a feeder's text."""
    return subprocess.run([PROGRAMS / "study"], input=feeder, capture_output=True, text=True, check=True).stdout


def worked_report(feeder):
    """The report of a feeder's text by the equations of the tools, where no program is needed."""
    read = format.read_feeder(feeder.encode())
    return "\n".join(equations.report_lines(read, equations.study(read))) + "\n"


def join(feeder, report):
    return joined.Joined(format.read_feeder(feeder.encode()), format.read_report(report.encode()))


def join_example(name):
    return join(*((EXAMPLES / f"{name}.{kind}").read_text() for kind in ("feeder", "report")))


def file_text(file_tables, *rows_of_tables):
    """The text of a feeder or of a report from lists of rows."""
    return "\n".join("".join(line + "\n" for line in [format.header(table), *rows]) for table, rows in zip(file_tables, rows_of_tables))


def feeder_text(source, branches=(), loads=()):
    return file_text(format.FEEDER_TABLES, [source], branches, loads)


def report_text(nodes, branches, totals, taps=()):
    """With None in the place of taps it is a report from before their table."""
    return file_text(format.REPORT_TABLES, nodes, branches, [totals], *([] if taps is None else [taps]))


def without_taps(report):
    """A report's text without its last table, as reports were before it."""
    return report[:report.index("\n" + format.header(format.TAPS))]


def regulator_row(from_node, to_node, phases="A", taps=(0, 0, 0), relay=(0, 0, 0, 0, 0, 0)):
    """relay has level, bandwidth, both ratios, R and X."""
    return f"{from_node},{to_node},{phases},R," + ",".join(map(str, (*taps, *relay, 0, 0, 0)))


def line_row(from_node, to_node, phases="ABC", values=()):
    values = list(values) + [0] * (12 - len(values))
    return f"{from_node},{to_node},{phases},L," + ",".join(map(str, values))


def without_load(parents):
    """Feeder and report of lines of 0 ohm, ABC, where no current flows: every voltage is the source's. parents[k] feeds node k + 1.

    300 load rows of 0 W stand on them where there are nodes for them."""
    voltages = SOURCE_ROW.split(",", 1)[1].rsplit(",", 2)[0]
    names = ["S"] + [f"N{place}" for place in range(1, len(parents) + 1)]
    branches = [line_row(names[parent], names[place]) for place, parent in enumerate(parents, 1)]
    loads = [f"{names[place % len(names)]},{'ABC'[place % 3]},Z,720000,0,0" for place in range(300)]
    nodes = [f"{name},{voltages}" for name in names]
    currents = [f"{names[parent]},{names[place]},0,0,0,0,0,0,0,0" for place, parent in enumerate(parents, 1)]
    return feeder_text(SOURCE_ROW, branches, loads), report_text(nodes, currents, "1,0,0,0,0,0,0")
