"""flarecomb view: one self-contained page (HTML with SVG) of a feeder and its report, for the screen and for A4 paper."""
from . import diagram, programs, tables
from .diagram import escape

# No date and no path stands in the page: the same two files and the same answer of the check give the same bytes.
STYLE = """
@page { size: A4; margin: 12mm 10mm; }
body { font: 12px/1.35 sans-serif; color: #000; background: #fff; margin: 16px auto; max-width: 760px; padding: 0 12px; }
h1 { font-size: 20px; margin: 0 0 8px; }
h2 { font-size: 15px; margin: 18px 0 6px; border-bottom: 1px solid #000; break-after: avoid; }
table { border-collapse: collapse; font-size: 10px; width: 100%; }
thead { display: table-header-group; }
tr { break-inside: avoid; }
th, td { border: 1px solid #999; padding: 1px 4px; text-align: right; font-variant-numeric: tabular-nums; vertical-align: top; white-space: nowrap; }
th { background: #eee; font-weight: bold; text-align: center; }
th .unit { font-weight: normal; }
td.text { text-align: left; }
td.long { white-space: normal; }
th.side, td.side { border-left: 3px double #000; }
table.facts th { text-align: left; width: 150px; background: none; }
table.facts td { text-align: left; white-space: normal; overflow-wrap: anywhere; }
.answer { border: 2px solid #000; padding: 4px 8px; margin: 8px 0; font-size: 14px; font-weight: bold; }
.warnings { border: 1px solid #000; padding: 4px 8px 4px 24px; margin: 8px 0; }
.wide { overflow-x: auto; }
svg { display: block; max-width: 100%; height: auto; break-inside: avoid; margin: 0 0 4px; }
svg svg { max-width: none; }
svg text { font: 10px sans-serif; fill: #000; }
svg text.name { font-weight: bold; }
svg text.unit { font-size: 9px; font-style: italic; }
.wire { stroke: #000; stroke-width: 1.2; }
.bus { stroke: #000; stroke-width: 3.5; }
.thin { stroke: #000; stroke-width: 1; fill: none; }
.leader { stroke: #888; stroke-width: 0.6; stroke-dasharray: 1 3; }
.grid { stroke: #bbb; stroke-width: 0.6; }
.device { stroke: #000; stroke-width: 1.2; fill: #fff; }
.open { stroke: #000; stroke-width: 1.2; fill: none; }
.filled { fill: #000; stroke: none; }
.trace { stroke-width: 1.4; fill: none; }
.phaseA { stroke: #000; }
.phaseB { stroke: #8a2b00; }
.phaseC { stroke: #00457c; }
.phaseB.trace { stroke-dasharray: 7 3; }
.phaseC.trace { stroke-dasharray: 2 2.5; }
.phaseA.mark { fill: #000; }
.phaseB.mark { fill: #fff; }
.phaseC.mark { fill: #00457c; }
@media print { body { margin: 0; padding: 0; max-width: none; } .wide { overflow: visible; } table { font-size: 8.5px; } th, td { padding: 1px 2px; } }
"""
FIRST_TABLES = ("Totals", "Power account")
SIDE_TITLES = {"feeder": "feeder file", "report": "report"}


def add_parser(subparsers):
    parser = subparsers.add_parser(
        "view", help="write a page (HTML) with diagram, voltage profile and tables",
        description="Writes one HTML file with the one-line diagram, the voltage profile, both files' tables side by side, the answer of the "
                    "archive check, totals, the power account and the SHA-256 of both files. It needs no other file and no network. "
                    "Exit status 0, or 2 where the files cannot be read as a feeder and its report or the page cannot be written.")
    parser.add_argument("feeder", metavar="FEEDER", help="the feeder file")
    parser.add_argument("report", metavar="REPORT", help="the report of that feeder")
    parser.add_argument("-o", "--output", required=True, metavar="PAGE.html", help="the page to write")
    programs.add_programs_option(parser)


def run(arguments):
    try:
        content = page(tables.read(arguments)).encode("utf-8")
        programs.write_file(arguments.output, content)
    except programs.CouldNotRun as fault:
        programs.write_error(str(fault))
        return programs.NOT_RUN
    return 0


def page(shown):
    title = f"Feeder of source {shown.joined.source}"
    answer = dict(shown.facts)[tables.CHECK]
    parts = [
        '<!DOCTYPE html>\n<html lang="en"><head><meta charset="utf-8">',
        '<meta http-equiv="Content-Security-Policy" content="default-src \'none\'; style-src \'unsafe-inline\'">',
        '<meta name="viewport" content="width=device-width, initial-scale=1">',
        f"<title>{escape(title)}</title><style>{STYLE}</style></head><body>",
        f"<h1>{escape(title)}</h1>",
        f'<p class="answer">Archive check: {escape(answer)}</p>',
        facts_table([fact for fact in shown.facts if fact[0] != tables.CHECK]),
    ]
    if shown.warnings:
        parts.append("<h2>Please look at</h2><ul class=\"warnings\">" + "".join(f"<li>{escape(one)}</li>" for one in shown.warnings) + "</ul>")
    # The short tables come first, so that the first printed page has the whole account.
    first = [table for table in shown.tables if table.title in FIRST_TABLES]
    parts += [table_html(table) for table in first]
    profile = diagram.voltage_profile(shown.joined)
    if profile:
        parts.append(f"<h2>Voltage profile</h2>{profile}")
    parts.append("<h2>One-line diagram</h2>" + "\n".join(diagram.one_line_diagram(shown.joined)))
    parts += [table_html(table) for table in shown.tables if table not in first]
    return "\n".join(parts) + "\n</body></html>\n"


def facts_table(facts):
    rows = "".join(f"<tr><th>{escape(label)}</th><td>{escape(text)}</td></tr>\n" for label, text in facts)
    return f'<table class="facts"><tbody>\n{rows}</tbody></table>'


def table_html(table):
    if not table.rows:
        return f"<h2>{escape(table.title)}</h2><p>none</p>"
    starts_side = [place > 0 and table.columns[place - 1].side != column.side for place, column in enumerate(table.columns)]
    sides = [side for place, side in enumerate(column.side for column in table.columns) if place == 0 or starts_side[place]]
    head = ""
    if len(sides) > 1:
        head = "<tr>" + "".join(
            f'<th colspan="{sum(column.side == side for column in table.columns)}"{class_attribute("side" if place else "")}>'
            f"{escape(SIDE_TITLES[side])}</th>" for place, side in enumerate(sides)) + "</tr>"
    head += "<tr>" + "".join(
        f'<th{class_attribute("side" if start else "")}>{escape(column.name)}<br><span class="unit">{escape(column.unit)}</span></th>'
        for column, start in zip(table.columns, starts_side)) + "</tr>"
    body = []
    for row in table.rows:
        cells = []
        for cell, column, start in zip(row, table.columns, starts_side):
            shown = "–" if cell is None else cell
            classes = " ".join(word for word, due in (("side", start), ("text", column.is_text), ("long", len(shown) > 30)) if due)
            cells.append(f"<td{class_attribute(classes)}>{escape(shown)}</td>")
        body.append("<tr>" + "".join(cells) + "</tr>")
    return (f'<h2>{escape(table.title)}</h2><div class="wide"><table><thead>{head}</thead><tbody>\n' + "\n".join(body) + "\n</tbody></table></div>")


def class_attribute(classes):
    return f' class="{classes}"' if classes else ""
