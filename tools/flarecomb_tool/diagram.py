"""Two drawings of a feeder in SVG: the one-line diagram of its tree, and the voltage profile by distance in branches.

Every text goes through `escape`. Numbers are written with at most one decimal, so that the same input gives the same bytes."""
import html
import math

from . import format, tables

ROW_HEIGHT = 34
COLUMN_WIDTH = 34
LEFT = 16
# Where in its row a node stands; the device of the branch from above it is drawn in the part over it.
NODE_OFFSET = 23
DEVICE_OFFSET = 8
NAME_WIDTH = 78
DETAIL_TITLES = ("phases", "fed by", "rated load", "A in pu", "B in pu", "C in pu")
DETAIL_WIDTHS = (42, 152, 168, 42, 42, 42)
# So many rows fit on a printed page of A4 under a heading.
ROWS_ON_A_PAGE = 27


def escape(text):
    return html.escape(str(text), quote=True)


def number(value):
    text = f"{value:.1f}"
    return text[:-2] if text.endswith(".0") else text


def line(x1, y1, x2, y2, style="wire"):
    return f'<line class="{style}" x1="{number(x1)}" y1="{number(y1)}" x2="{number(x2)}" y2="{number(y2)}"/>'


def circle(x, y, radius, style):
    return f'<circle class="{style}" cx="{number(x)}" cy="{number(y)}" r="{number(radius)}"/>'


def polygon(points, style):
    return f'<polygon class="{style}" points="{" ".join(f"{number(x)},{number(y)}" for x, y in points)}"/>'


def text(x, y, content, style="", anchor="start"):
    return f'<text class="{style}" x="{number(x)}" y="{number(y)}" text-anchor="{anchor}">{escape(content)}</text>'


def arrange(joined):
    """Rows from the top and a column for each node: (node, column), and the child that goes on in its parent's column.

    The child with the most nodes behind it goes on straight down; the others stand to the right and come first. A step to the right at
    least halves the nodes that are left, so that 200 branches need at most 8 columns."""
    behind = {node: 1 for node in joined.nodes}
    for branch in reversed(joined.downward):
        behind[branch.from_node] += behind[branch.to_node]
    straight = {node: max(children, key=lambda child: behind[child]) for node, children in joined.children.items() if children}
    rows = []
    waiting = [(joined.source, 0)]
    while waiting:
        node, column = waiting.pop()
        rows.append((node, column))
        if node in straight:
            waiting.append((straight[node], column))
            waiting.extend((child, column + 1) for child in reversed(joined.children[node]) if child != straight[node])
    return rows, straight


def device_symbol(kind, x, y, upright):
    """A circle with an arrow for a regulator, two circles for a transformer, nothing for a line."""
    if kind == "R":
        return circle(x, y, 5.5, "device") + line(x - 6, y + 6, x + 6, y - 6, "thin") + polygon(
            [(x + 7, y - 7), (x + 2.5, y - 5), (x + 5, y - 2.5)], "filled")
    if kind in "YD":
        dx, dy = (0, 3) if upright else (3, 0)
        return circle(x - dx, y - dy, 4.5, "device") + circle(x + dx, y + dy, 4.5, "open")
    return ""


def load_symbol(x, y, capacitor_only):
    """An arrow for loads, two plates for capacitors alone."""
    if capacitor_only:
        return line(x, y, x, y + 4) + line(x - 4, y + 4, x + 4, y + 4) + line(x - 4, y + 7, x + 4, y + 7)
    return line(x, y, x, y + 6) + polygon([(x - 3, y + 5), (x + 3, y + 5), (x, y + 10)], "filled")


def details(joined, node):
    """The texts of DETAIL_TITLES for a node."""
    branch = joined.branch_to.get(node)
    if branch is None:
        device = "source"
    elif branch.kind == "L":
        device = "line"
    elif branch.kind == "R":
        device = "regulator " + "/".join(str(joined.taps[node][place]) for place, phase in enumerate(format.PHASES) if phase in branch.phases)
    else:
        device = f"transformer {branch.kind} {branch.parameters[0]}/{branch.parameters[1]}"
    loads = [load for load in joined.feeder.loads if load.node == node]
    rated = ""
    if loads:
        rated = (f"{tables.kilowatts_of_watts(sum(load.p for load in loads))} kW, "
                 f"{tables.kilowatts_of_watts(sum(load.q for load in loads))} kvar")
    return [joined.phases[node], device, rated] + [tables.fixed(joined.per_unit(node, place), 4) or "" for place in range(3)]


def one_line_diagram(joined):
    """The drawing as a list of SVG texts, each for one printed page."""
    rows, straight = arrange(joined)
    row_of = {node: place for place, (node, _) in enumerate(rows)}
    column_of = dict(rows)
    detail_left = LEFT + max(column_of.values()) * COLUMN_WIDTH + 12 + NAME_WIDTH
    width = detail_left + sum(DETAIL_WIDTHS)
    loads_at = {}
    for load in joined.feeder.loads:
        loads_at.setdefault(load.node, []).append(load)

    def place(node):
        return LEFT + column_of[node] * COLUMN_WIDTH, row_of[node] * ROW_HEIGHT + NODE_OFFSET

    # (first row, last row, SVG), so that each page has what reaches into it
    drawn = []
    for node, _ in rows:
        row = row_of[node]
        x, y = place(node)
        parts = []
        branch = joined.branch_to.get(node)
        if branch is None:
            parts.append(circle(x, y, 8, "device") + f'<path class="thin" d="M{number(x - 5)} {number(y)}q2.5 -6 5 0t5 0"/>')
        elif straight[branch.from_node] == node:
            above_x, above_y = place(branch.from_node)
            beside = [child for child in joined.children[branch.from_node] if child != node]
            bus_end = max([row_of[child] * ROW_HEIGHT + NODE_OFFSET for child in beside], default=above_y)
            start = above_y + 8 if branch.from_node == joined.source else above_y
            drawn.append((row_of[branch.from_node], row, line(x, start, x, y) + (line(x, start, x, bus_end, "bus") if beside else "")))
            parts.append(device_symbol(branch.kind, x, row * ROW_HEIGHT + DEVICE_OFFSET, True))
        else:
            parts.append(line(x - COLUMN_WIDTH, y, x, y) + device_symbol(branch.kind, x - COLUMN_WIDTH / 2, y, False))
        if branch is not None:
            parts.append(circle(x, y, 3.5, "filled"))
        loads = loads_at.get(node, [])
        if loads:
            load_x = x + 9
            parts.append(line(x, y, load_x, y) + load_symbol(load_x, y, all(load.kind == "Z" and load.p == 0 and load.q < 0 for load in loads)))
        name_x = x + 14
        parts.append(text(name_x, y + 3.5, node, "name"))
        parts.append(line(name_x + 7 * len(node) + 4, y, detail_left - 6, y, "leader"))
        left = detail_left
        for column_width, content in zip(DETAIL_WIDTHS, details(joined, node)):
            parts.append(text(left, y + 3.5, content))
            left += column_width
        drawn.append((row, row, "".join(parts)))
    pages = []
    for first in range(0, len(rows), ROWS_ON_A_PAGE):
        last = min(first + ROWS_ON_A_PAGE, len(rows)) - 1
        height = (last - first + 1) * ROW_HEIGHT + 4
        # Wires lie under devices and texts.
        inside = [one for one in drawn if one[0] <= last and one[1] >= first]
        inside.sort(key=lambda one: one[0] == one[1])
        heading = "".join(text(detail_left + sum(DETAIL_WIDTHS[:place]), 11, label, "unit") for place, label in enumerate(DETAIL_TITLES))
        pages.append(
            f'<svg class="diagram" role="img" aria-label="one-line diagram" width="{width}" viewBox="0 0 {width} {height + 16}">{heading}'
            f'<svg x="0" y="16" width="{width}" height="{height}" viewBox="0 {first * ROW_HEIGHT} {width} {height}">'
            + "".join(one[2] for one in inside) + "</svg></svg>")
    return pages


PROFILE_WIDTH, PROFILE_HEIGHT = 720, 330
PROFILE_LEFT, PROFILE_RIGHT, PROFILE_TOP, PROFILE_BOTTOM = 58, 706, 30, 284


def marker(phase, x, y):
    """Filled circle, open square, filled triangle: told apart without colour."""
    if phase == "A":
        return circle(x, y, 3, "phaseA mark")
    if phase == "B":
        return f'<rect class="phaseB mark" x="{number(x - 3)}" y="{number(y - 3)}" width="6" height="6"/>'
    return polygon([(x, y - 4), (x - 3.5, y + 3), (x + 3.5, y + 3)], "phaseC mark")


def tick_step(extent, most):
    """1, 2 or 5 times a power of ten, with at most `most` steps in the extent."""
    step = 10.0 ** math.floor(math.log10(extent / most))
    while extent / step > most:
        for factor in (2, 2.5, 2):
            step *= factor
            if extent / step <= most:
                break
    return step


def voltage_profile(joined):
    values = {(node, place): joined.per_unit(node, place) for node in joined.nodes for place in range(3)}
    known = [value for value in values.values() if value is not None]
    if not known:
        return ""
    low, high = min(known), max(known)
    room = max((high - low) * 0.08, 0.001)
    low, high = low - room, high + room
    deepest = max(max(joined.depth.values()), 1)

    def x_of(depth):
        return PROFILE_LEFT + 14 + (PROFILE_RIGHT - PROFILE_LEFT - 28) * depth / deepest

    def y_of(value):
        return PROFILE_BOTTOM - (PROFILE_BOTTOM - PROFILE_TOP) * (value - low) / (high - low)

    parts = []
    step = tick_step(high - low, 8)
    decimals = max(2, -math.floor(math.log10(step) + 1e-9))
    for count in range(math.ceil(low / step - 1e-9), math.floor(high / step + 1e-9) + 1):
        y = y_of(count * step)
        parts.append(line(PROFILE_LEFT, y, PROFILE_RIGHT, y, "grid") + text(PROFILE_LEFT - 6, y + 3.5, f"{count * step:.{decimals}f}", "", "end"))
    at_depth = {}
    for node in joined.nodes:
        at_depth.setdefault(joined.depth[node], []).append(node)
    named = deepest <= 9 and all(len(nodes) == 1 for nodes in at_depth.values())
    depth_step = max(1, round(tick_step(deepest, 20)))
    for depth in range(0, deepest + 1, depth_step):
        x = x_of(depth)
        parts.append(line(x, PROFILE_BOTTOM, x, PROFILE_BOTTOM + 4, "thin") + text(x, PROFILE_BOTTOM + 16, depth, "", "middle"))
        if named and depth in at_depth:
            parts.append(text(x, PROFILE_BOTTOM + 28, at_depth[depth][0], "name", "middle"))
    parts.append(line(PROFILE_LEFT, PROFILE_BOTTOM, PROFILE_RIGHT, PROFILE_BOTTOM, "thin"))
    parts.append(line(PROFILE_LEFT, PROFILE_TOP, PROFILE_LEFT, PROFILE_BOTTOM, "thin"))
    parts.append(text((PROFILE_LEFT + PROFILE_RIGHT) / 2, PROFILE_HEIGHT - 4, "branches from the source", "", "middle"))
    parts.append(text(PROFILE_LEFT - 46, PROFILE_TOP - 12, "V in pu"))
    marks = []
    for place, phase in enumerate(format.PHASES):
        for branch in joined.feeder.branches:
            upper, lower = values[branch.from_node, place], values[branch.to_node, place]
            if upper is not None and lower is not None:
                parts.append(line(x_of(joined.depth[branch.from_node]), y_of(upper), x_of(joined.depth[branch.to_node]), y_of(lower),
                                  f"phase{phase} trace"))
        for node in joined.nodes:
            if values[node, place] is not None:
                marks.append(f"<g><title>{escape(node)} {phase} {tables.fixed(values[node, place], 4)} pu</title>"
                             + marker(phase, x_of(joined.depth[node]), y_of(values[node, place])) + "</g>")
        legend_x = PROFILE_LEFT + 120 + 110 * place
        parts.append(line(legend_x, PROFILE_TOP - 16, legend_x + 40, PROFILE_TOP - 16, f"phase{phase} trace"))
        parts.append(marker(phase, legend_x + 20, PROFILE_TOP - 16) + text(legend_x + 46, PROFILE_TOP - 12, f"phase {phase}"))
    return (f'<svg class="profile" role="img" aria-label="voltage profile" width="{PROFILE_WIDTH}" viewBox="0 0 {PROFILE_WIDTH} {PROFILE_HEIGHT}">'
            + "".join(parts) + "".join(marks) + "</svg>")
