"""The picture of the crates of the programs, made from crates.txt: each crate above those that it uses."""
from felix_tools.drawn import Box, box_lines, curve, svg, width_of, words_at
from felix_tools.program import PROGRAMS

TITLE = "The crates of the programs, each above those that it uses"
WIDTH = 1560
ROW, TOP, HEIGHT = 84, 70, 26
# How often the orders of neighbouring rows are made to fit each other.
ROUNDS = 24
IN_ALL, IN_SOME, IN_ONE = "#d9e5f2", "#fff2cc", "#fce5cd"
LEGEND = ((IN_ALL, "in all programs"), (IN_SOME, "in several"), (IN_ONE, "in one"))


def picture(crates):
    programs = crates.of_programs()
    rows = ordered(crates, rows_of(crates, programs))
    boxes = {}
    for number, names in enumerate(reversed(rows)):
        for at, name in enumerate(names):
            boxes[name] = box(name, WIDTH * place(at, names), TOP + ROW * number, programs)
    elements = list(legend())
    for name in sorted(boxes):
        elements += [edge(boxes[name], boxes[low]) for low in crates.nearest(name)]
    for name in sorted(boxes):
        elements += box_lines(boxes[name])
    return svg(TITLE, WIDTH, TOP + ROW * len(rows), elements)


def rows_of(crates, programs):
    """The crates by their heights: those of a row use only those of rows below."""
    rows = {}
    for name in sorted(programs):
        rows.setdefault(crates.height(name), []).append(name)
    return [rows[height] for height in sorted(rows)]


def ordered(crates, rows):
    """The rows, each crate near the middle of its nearest, those below and those above by turns."""
    users = {name: [] for names in rows for name in names}
    for name in sorted(users):
        for low in crates.nearest(name):
            users[low].append(name)
    for number in range(ROUNDS):
        near = users if number % 2 else {name: crates.nearest(name) for name in users}
        places = {name: place(at, names) for names in rows for at, name in enumerate(names)}
        rows = [sorted(names, key=lambda name: (middle(near[name], places, places[name]), name)) for names in rows]
    return rows


def middle(names, places, alone):
    return sum(places[name] for name in names) / len(names) if names else alone


def place(at, names):
    """How far from the left side the crate stands that is at this place of a row, from 0 to 1."""
    return (at + 0.5) / len(names)


def box(name, x, top, programs):
    count = len(programs[name])
    fill = IN_ALL if count == len(PROGRAMS) else IN_ONE if count == 1 else IN_SOME
    return Box(x, top + HEIGHT / 2, width_of(name), HEIGHT, [name], fill)


def edge(high, low):
    return curve((high.x, high.y + HEIGHT / 2), (low.x, low.y - HEIGHT / 2))


def legend():
    for number, (fill, words) in enumerate(LEGEND):
        x = 30 + 190 * number
        yield from box_lines(Box(x, 26, 22, 16, [], fill))
        yield words_at(x + 18, 30, words, "start")
