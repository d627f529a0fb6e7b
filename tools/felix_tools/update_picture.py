"""The picture of an update's way through the graph. Which node stands in which half is made from crates.txt."""
from felix_tools.drawn import Box, arrow, box_lines, svg, words_at

TITLE = "An update's way through the nodes of the graph to the wanted view"
WIDTH, HEIGHT = 1000, 560
NODE, WIDE, PALE = "#d9e5f2", 190, "#f7f7f7"
HALVES = ("fx_graph_rules", "fx_graph_view")
# Each node with its middle and what it works out.
NODES = {
    "fx_label_index": (170, 190, "which selector holds", "on which item"),
    "fx_active": (500, 190, "which policies and", "profiles are needed"),
    "fx_members": (170, 360, "members of used sets"),
    "fx_scanner": (500, 360, "rendered rules,", "and their sets"),
    "fx_resolver": (830, 360, "each endpoint's tiers", "and policies in order"),
    "fx_sequencer": (500, 500, "sent view, wanted view"),
}
# What goes from one to another: its points, and its words with their place.
WAYS = (
    ("fx_label_index", "fx_active", ((265, 180), (405, 180)), (335, 172, "pairs: selector, item")),
    ("fx_label_index", "fx_members", ((150, 219), (150, 341)), (155, 276, "pairs of sets'", "selectors and items")),
    ("fx_active", "fx_scanner", ((500, 219), (500, 332)), (505, 276, "policies and", "profiles in use")),
    ("fx_active", "fx_resolver", ((595, 200), (830, 200), (830, 332)), (825, 276, "pairs: policy,", "endpoint")),
    ("fx_scanner", "fx_members", ((405, 370), (265, 370)), (335, 388, "used sets")),
    ("fx_scanner", "fx_label_index", ((405, 345), (300, 345), (300, 250), (215, 250), (215, 219)),
     (305, 276, "texts of", "used sets")),
    ("fx_scanner", "fx_sequencer", ((500, 388), (500, 481)), (505, 434, "policies, profiles")),
    ("fx_members", "fx_sequencer", ((170, 379), (170, 500), (405, 500)), (175, 434, "sets and members")),
    ("fx_resolver", "fx_sequencer", ((830, 388), (830, 500), (595, 500)), (835, 434, "endpoints")),
)
UPDATE = Box(500, 40, 220, 40, ["an update of a resource", "that fx_store has let through"], "#ffffff")
# Where an update begins: at all nodes but those of rendered rules.
BEGINNINGS = (
    (((440, 60), (440, 100), (170, 100), (170, 161)), (180, 94, "labels, parents, selectors")),
    (((500, 60), (500, 161)), (505, 94, "policies, profiles, endpoints of the node")),
    (((390, 30), (45, 30), (45, 350), (75, 350)), (50, 24, "what items give to sets")),
    (((610, 40), (890, 40), (890, 332)), (620, 34, "tiers, endpoints of the node")),
)


def picture(crates):
    elements = [line for half in HALVES for line in frame(half, crates)]
    for points, words in BEGINNINGS + tuple(way[2:] for way in WAYS):
        elements += [arrow(points), *way_words(*words)]
    for name, (x, y, *words) in NODES.items():
        elements += box_lines(Box(x, y, WIDE, 20 + 18 * len(words), [name, *words], NODE))
    elements += box_lines(UPDATE)
    return svg(TITLE, WIDTH, HEIGHT, elements)


def way_words(x, y, *lines):
    anchor = "end" if x == 825 else "middle" if x == 335 else "start"
    for number, words in enumerate(lines):
        yield words_at(x, y + 15 * number, words, anchor, colour="#555555")


def members(half, crates):
    """The nodes that this half uses."""
    return [name for name in NODES if name in crates.uses[half]]


def frame(half, crates):
    """A frame round the nodes of a half."""
    places = [NODES[name][:2] for name in members(half, crates)]
    left, right = min(x for x, _ in places) - 150, max(x for x, _ in places) + 150
    top, bottom = min(y for _, y in places) - 60, max(y for _, y in places) + 45
    yield '<rect x="%d" y="%d" width="%d" height="%d" rx="8" fill="%s" stroke="#aaaaaa" stroke-dasharray="4 3"/>' % (
        max(left, 10), top, min(right, WIDTH - 10) - max(left, 10), bottom - top, PALE)
    yield words_at(max(left, 10) + 45, top + 18, half, "start", is_bold=True)
