"""Where the branches do not form a tree from the source, or phases do not reach a row: refusals 20 to 23."""
from .format import BRANCH_KINDS, load_phases
from .wording import begun, listed, phases_said

# Letters and digits that are mistaken for one another.
ALIKE = str.maketrans("OIZSB", "01258")

MOST_NODES_SAID = 8


def _row_said(branch):
    return f"line {branch.line} ({branch.from_node},{branch.to_node})"


def _branch_at(feeder, number):
    return next((branch for branch in feeder.branches if branch.line == number), None)


def is_tree(source, ends):
    """Whether each of the (from, to) pairs has its own to, which is not the source, and is reached from the source."""
    above = {to_node: from_node for from_node, to_node in ends}
    if len(above) != len(ends) or source in above:
        return False
    reached = {source}
    for node in above:
        way = []
        while node not in reached:
            if node not in above or node in way:
                return False
            way.append(node)
            node = above[node]
        reached.update(way)
    return True


def _mended_by_swap(feeder):
    """The branch whose from and to, exchanged, make the rows a tree; None where none or several do."""
    ends = [(branch.from_node, branch.to_node) for branch in feeder.branches]
    if len(ends) > 400:
        return None
    mending = []
    for place, branch in enumerate(feeder.branches):
        swapped = ends[:place] + [(branch.to_node, branch.from_node)] + ends[place + 1:]
        if branch.from_node != branch.to_node and is_tree(feeder.source.name, swapped):
            mending.append(branch)
    return mending[0] if len(mending) == 1 else None


def _swap_said(feeder, number):
    branch = _mended_by_swap(feeder)
    if branch is None:
        return []
    where = "The row" if branch.line == number else begun(_row_said(branch))
    swapped = f"{branch.to_node},{branch.from_node}"
    return [f"{where} seems reversed: with from and to exchanged ({swapped}) every branch is reached from the source."]


def _like(name, feeder):
    """Names of the file that look like this one: letters and digits that are mistaken for one another, or leading zeros."""

    def bare(text):
        text = text.translate(ALIKE)
        head = text.rstrip("0123456789")
        return head + text[len(head):].lstrip("0")

    names = {feeder.source.name: feeder.source.line}
    for branch in feeder.branches:
        names.setdefault(branch.to_node, branch.line)
    alike = [(other, line) for other, line in names.items() if other != name and bare(other) == bare(name)]
    return [f"{other} (line {line}) is written nearly alike." for other, line in alike[:3]]


def _nodes_said(feeder):
    """The names of all nodes, where they are few."""
    nodes = [feeder.source.name] + list(dict.fromkeys(branch.to_node for branch in feeder.branches if branch.to_node != feeder.source.name))
    return [f"The nodes are {listed(nodes)}."] if 1 < len(nodes) <= MOST_NODES_SAID else []


def _source_unused(feeder):
    if any(branch.from_node == feeder.source.name for branch in feeder.branches):
        return []
    return [f"No row has the source ({feeder.source.name}) as its from."]


def unknown_from(feeder, number):
    """Sentences for refusal 20."""
    branch = _branch_at(feeder, number)
    known = {feeder.source.name} | {other.to_node for other in feeder.branches}
    if branch is None or branch.from_node in known:
        return []
    first = f"Column from has {branch.from_node}: it is neither the source ({feeder.source.name}) nor the to of any row."
    swapped = _swap_said(feeder, number)
    if swapped:
        return [first] + swapped
    alike = _like(branch.from_node, feeder) or ["Correct the name, or add the row that feeds it."]
    return [first] + alike + _nodes_said(feeder) + _source_unused(feeder)


def second_to(feeder, number):
    """Sentences for refusal 21."""
    branch = _branch_at(feeder, number)
    if branch is None:
        return []
    same = ["The row's from and to are the same node."] if branch.from_node == branch.to_node else []
    if branch.to_node == feeder.source.name:
        return same + [f"Column to has {branch.to_node}, which is the source: no branch feeds the source."] + _swap_said(feeder, number)
    earlier = next((other for other in feeder.branches if other.to_node == branch.to_node and other.line < number), None)
    if earlier is None:
        return []
    sentences = [f"Column to has {branch.to_node}, which {_row_said(earlier)} feeds already: each node is fed once."]
    if earlier[1:] == branch[1:]:
        return sentences + ["Both rows are the same: remove one."]
    if same:
        return same + sentences
    if earlier.from_node == branch.from_node:
        return sentences + ["Both rows join the same nodes. Parallel branches must be made one row."]
    return sentences + _swap_said(feeder, number)


def circle_above(feeder, branch):
    """The branches of the circle that is met on the way up from a branch, or [] where the way ends."""
    feeding = {}
    for other in feeder.branches:
        feeding.setdefault(other.to_node, other)
    way = []
    while branch is not None and branch not in way:
        way.append(branch)
        branch = feeding.get(branch.from_node)
    return [] if branch is None else way[way.index(branch):]


def not_reached(feeder, number):
    """Sentences for refusal 22."""
    branch = _branch_at(feeder, number)
    source_is_fed = any(other.to_node == feeder.source.name for other in feeder.branches)
    circle = circle_above(feeder, branch) if branch and not source_is_fed else []
    if not circle:
        return []
    if len(circle) == 1:
        sentences = [f"{begun(_row_said(circle[0]))} has the same node as from and to."]
    else:
        rows = sorted(circle, key=lambda other: other.line)
        shown = listed(_row_said(other) for other in rows[:12])
        more = f" and {len(rows) - 12} more" if len(rows) > 12 else ""
        sentences = [f"These rows form a circle that is not fed from the source: {shown}{more}."]
    if branch not in circle:
        sentences.append("The row is fed from there.")
    sentences += _source_unused(feeder)
    # No row is called reversed here: with every to known and fed once, an exchange would leave one node unfed and feed another twice.
    return sentences


def _phases_at(feeder, node):
    """(phases, words for where they come from), or None where the node is unknown."""
    if node == feeder.source.name:
        return "ABC", "it is the source"
    feeding = next((branch for branch in feeder.branches if branch.to_node == node), None)
    return feeding and (feeding.phases, f"fed by {_row_said(feeding)}")


def absent_phase(feeder, number):
    """Sentences for refusal 23."""
    branch = _branch_at(feeder, number)
    if branch is not None:
        above = _phases_at(feeder, branch.from_node)
        if branch.kind in "YD" and branch.phases != "ABC":
            return [f"Column phases has {branch.phases}: a branch of kind {branch.kind} ({BRANCH_KINDS[branch.kind]}) has all three, ABC."]
        lacking = [phase for phase in branch.phases if above and phase not in above[0]]
        if not lacking:
            return []
        has = phases_said(branch.phases)
        return [f"The branch has {has}, but its from-node {branch.from_node} has {phases_said(above[0])} alone ({above[1]})."]
    load = next((load for load in feeder.loads if load.line == number), None)
    if load is None:
        return []
    above = _phases_at(feeder, load.node)
    if above is None:
        first = f"Column node has {load.node}: no branch feeds such a node, and it is not the source ({feeder.source.name})."
        return [first] + _like(load.node, feeder) + _nodes_said(feeder)
    phases = load_phases(load.phase)
    if set(phases) <= set(above[0]):
        return []
    return [f"The load is on {phases_said(phases)}, but node {load.node} has {phases_said(above[0])} alone ({above[1]})."]
