"""The graph of the tasks of a run, as a text for Graphviz.

It was written from the description of such a graph alone, before the program wrote any.
"""

import bisect

MOST_PIECES = 4
MOST_LABELS = 100


class Node:
    """What is drawn of a task, or main: its point, the node of its creator, its label or None, the line of its creation, and its joined rights,
    for each cell a mode and whether it is strong."""

    def __init__(self, point, creator, label, line, rights):
        self.point = point
        self.creator = creator
        self.label = label
        self.line = line
        self.rights = rights
        self.children = []
        # of each earlier task of the same creator on which it stands, by its place among them: the cells
        self.behind = {}

    def name(self):
        return ".".join(map(str, self.point))


class List:
    """The accesses to one cell by the children of one task: the last group, its mode, and the group before it. A group is a write alone, or neighbours
    that all read, or all fold by one operator."""

    def __init__(self):
        self.mode = None
        self.group = []
        self.before = []

    def add(self, place, mode):
        """Adds the access of a child, and gives the group before its own."""
        if mode != self.mode or mode == "write":
            self.mode, self.before, self.group = mode, self.group, []
        self.group.append(place)
        return self.before


def draw(program, main, fault, at):
    """The text of the graph of a run: its globals' names, the node of main, and the kind and line of its fault, if it has one, with the node in which
    that stands."""
    find_edges(main)
    lines = ["digraph tasks {", "  rankdir=LR;", "  node [shape=box];"]
    for child in main.children:
        lines += boxes(child, "  ", fault, at)
    lines += edges(program, main)
    if fault and at is main:
        lines += [f'  label="main\\n{fault[0]} at line {fault[1]}";', "  fontcolor=red;"]
    return "\n".join([*lines, "}", ""])


def find_edges(node):
    lists = {}
    for place, child in enumerate(node.children):
        for cell in sorted(child.rights):
            for other in lists.setdefault(cell, List()).add(place, child.rights[cell][0]):
                child.behind.setdefault(other, []).append(cell)
        find_edges(child)


def boxes(node, blanks, fault, at):
    """The lines of a node and of all below it."""
    told = [node.name()]
    if node.label is not None:
        told.append(escaped(node.label))
    told.append(f"line {node.line}")
    color = ""
    if fault and at is node:
        told.append(f"{fault[0]} at line {fault[1]}")
        color = ", color=red"
    shown = "\\n".join(told)
    own = f'"{node.name()}" [label="{shown}"{color}];'
    if not node.children:
        return [blanks + own]
    inside = blanks + "  "
    lines = [f'{blanks}subgraph "cluster {node.name()}" {{', inside + own]
    for child in node.children:
        lines += boxes(child, inside, fault, at)
    return [*lines, blanks + "}"]


def escaped(label):
    return label.replace("\\", "\\\\").replace('"', '\\"').replace("\n", "\\n")


def below(node):
    """All nodes below one, in the order of their points."""
    for child in node.children:
        yield child
        yield from below(child)


def edges(program, main):
    count = sum(len(node.behind) for node in below(main))
    word = "label" if count <= MOST_LABELS else "tooltip"
    lines = []
    for node in below(main):
        creator = node.creator
        for place, cells in sorted(node.behind.items()):
            other = creator.children[place]
            weak = all(not (other.rights[cell][1] and node.rights[cell][1]) for cell in cells)
            style = ", style=dashed" if weak else ""
            lines.append(f'  "{other.name()}" -> "{node.name()}" [{word}="{named(program, cells)}"{style}];')
        if not node.behind and creator is not main:
            lines.append(f'  "{creator.name()}" -> "{node.name()}" [color=gray, arrowhead=empty];')
    return lines


# Names of cells


def named(program, cells):
    """Cells as the list of their pieces."""
    found = pieces(program, set(cells))
    shown = [text for text, _ in found[:MOST_PIECES]]
    more = sum(count for _, count in found[MOST_PIECES:])
    if more:
        shown.append(f"{more} more cell{'s' if more > 1 else ''}")
    return ", ".join(shown)


def pieces(program, cells):
    """The pieces of a set of cells, each with its number of cells, in the order of their first cells."""
    found, ordered = [], sorted(cells)
    for each in program.globals:
        first, last = (bisect.bisect_left(ordered, cell) for cell in (each.start, each.start + each.size))
        inside = [cell - each.start for cell in ordered[first:last]]
        if each.size > 1 and len(inside) == each.size:
            found.append((each.name, each.size))
        elif inside:
            found += pieces_of(each, inside)
    return found


def pieces_of(array, places):
    """The pieces of some places of one global: runs in a row, and runs of the same columns in neighbouring rows as one."""
    if array.rows is None:
        return [(array.name, 1)]
    columns = array.columns or array.size
    blocks, open_blocks = [], {}
    for row, first, last in runs(places, columns):
        block = open_blocks.get((first, last))
        if block and block[1] == row - 1:
            block[1] = row
        else:
            block = open_blocks[first, last] = [row, row, first, last]
            blocks.append(block)
    return [piece(array, columns, *block) for block in blocks]


def runs(places, columns):
    """The longest runs of neighbours in each row, each with its row and its first and last column."""
    found = []
    for place in places:
        row, column = divmod(place, columns)
        if found and found[-1][0] == row and found[-1][2] == column - 1:
            found[-1][2] = column
        else:
            found.append([row, column, column])
    return found


def piece(array, columns, top, bottom, first, last):
    count = (bottom - top + 1) * (last - first + 1)
    if array.columns is None:
        return f"{array.name}[{extent(first, last)}]", count
    inside = "" if first == 0 and last == columns - 1 else f"[{extent(first, last)}]"
    return f"{array.name}[{extent(top, bottom)}]{inside}", count


def extent(first, last):
    return str(first) if first == last else f"{first}:{last}"
