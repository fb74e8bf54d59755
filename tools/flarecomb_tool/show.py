"""flarecomb show: a feeder and its report side by side, in V, A, kW and kvar, as text or as CSV tables."""
import csv
import io

from . import programs, tables


def add_parser(subparsers):
    parser = subparsers.add_parser(
        "show", help="show a feeder and its report in V, A, kW and kvar",
        description="Shows a feeder and its report side by side: voltages in V, degrees and per unit, currents in A, powers in kW and kvar, "
                    "losses, the lowest and the highest voltage, the power account, the answer of the archive check and what deserves a look, "
                    "such as signs of wrong units. "
                    "Exit status 0, or 2 where the files cannot be read as a feeder and its report.")
    parser.add_argument("feeder", metavar="FEEDER", help="the feeder file")
    parser.add_argument("report", metavar="REPORT", help="the report of that feeder")
    parser.add_argument("--csv", action="store_true", help="write the same as CSV tables, an empty line between two of them")
    programs.add_programs_option(parser)


def run(arguments):
    try:
        shown = tables.read(arguments)
        text = as_csv(shown) if arguments.csv else as_text(shown)
        programs.write_output(text.encode("utf-8"))
    except programs.CouldNotRun as fault:
        programs.write_error(str(fault))
        return programs.NOT_RUN
    return 0


def as_text(shown):
    width = max(len(label) for label, _ in shown.facts)
    lines = [f"{label.ljust(width)}  {text}" for label, text in shown.facts]
    lines += [f"warning: {warning}" for warning in shown.warnings]
    for table in shown.tables:
        lines += ["", table.title] + table_lines(table)
    return "\n".join(lines) + "\n"


def table_lines(table):
    """Names over units over values; numbers at the right of their column. A bar parts what the feeder has from what the report has."""
    heads = [[column.name for column in table.columns], [column.unit for column in table.columns]]
    texts = heads + [["-" if cell is None else cell for cell in row] for row in table.rows]
    widths = [max(len(row[place]) for row in texts) for place in range(len(table.columns))]
    lines = []
    for row in texts:
        parts = []
        for place, (cell, column) in enumerate(zip(row, table.columns)):
            if place and table.columns[place - 1].side != column.side:
                parts.append("|")
            parts.append(cell.ljust(widths[place]) if column.is_text else cell.rjust(widths[place]))
        lines.append("  ".join(parts).rstrip())
    return lines


def as_csv(shown):
    out = io.StringIO()
    writer = csv.writer(out, lineterminator="\n")
    writer.writerow(["fact", "value"])
    writer.writerows(shown.facts)
    writer.writerows(["warning", warning] for warning in shown.warnings)
    for table in shown.tables:
        out.write("\n")
        writer.writerow([f"{column.name}_{column.unit.replace(' ', '_')}".rstrip("_") for column in table.columns])
        writer.writerows(["" if cell is None else cell for cell in row] for row in table.rows)
    return out.getvalue()
