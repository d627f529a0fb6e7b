"""The picture of tools/growth: what one change costs, in two panels with logarithmic axes, as an SVG."""
import collections
import math

# What one change of one program costs, at so many endpoints or policies, beside so many of the others.
Mark = collections.namedtuple("Mark", "by at beside program microseconds")
# A panel's left edge, the decades of its axis, and those of the axis up.
Panel = collections.namedtuple("Panel", "left across up")
# How a program is drawn: its name, whether its line is dashed, its points, and how far below these their numbers stand.
Style = collections.namedtuple("Style", "name is_dashed point value_below")

WIDTH, HEIGHT = 840, 400
LEFTS = {"endpoints": 80, "policies": 480}
SIDE = 320
TOP, BOTTOM = 80, 330
AXES = {"endpoints": ("endpoints of other nodes", "among {:,} policies"), "policies": ("policies", "among {:,} endpoints of other nodes")}
UP = "microseconds of a processor"


def filled_circle(x, y):
    return '<circle cx="%.1f" cy="%.1f" r="4" fill="black"/>' % (x, y)


def open_square(x, y):
    return '<rect x="%.1f" y="%.1f" width="8" height="8" fill="white" stroke="black" stroke-width="1.5"/>' % (x - 4, y - 4)


STYLES = {
    "felix-replay": Style("this program", False, filled_circle, -10),
    "plain": Style("a plain Rust program of the same formats, without proof", True, open_square, 20),
}


def picture(marks):
    """The picture as a text."""
    up = decades([mark.microseconds for mark in marks])
    lines = [
        '<svg xmlns="http://www.w3.org/2000/svg" width="%d" height="%d" viewBox="0 0 %d %d" font-family="sans-serif" font-size="13">'
        % (WIDTH, HEIGHT, WIDTH, HEIGHT),
        "<title>What one change costs, by the size of the cluster</title>",
        '<rect width="%d" height="%d" fill="white"/>' % (WIDTH, HEIGHT),
    ]
    lines += legend()
    for by, left in LEFTS.items():
        some = [mark for mark in marks if mark.by == by]
        lines += panel_lines(Panel(left, decades([mark.at for mark in some]), up), by, some)
    return "\n".join(lines + ["</svg>", ""])


def decades(numbers):
    """The powers of ten between which these numbers are, two at least."""
    low = math.floor(math.log10(min(numbers)))
    return list(range(low, max(math.ceil(math.log10(max(numbers))), low + 1) + 1))


def legend():
    left = LEFTS["endpoints"]
    for style in STYLES.values():
        yield line((left, 20), (left + 40, 20), **stroke(style))
        yield style.point(left + 20, 20)
        yield text((left + 48, 24), style.name)
        left += 160


def panel_lines(panel, by, marks):
    yield "<g>"
    yield from grid(panel)
    across, among = AXES[by]
    middle = panel.left + SIDE / 2
    yield text((middle, TOP - 24), "one change, " + among.format(marks[0].beside), "middle")
    yield text((middle, BOTTOM + 44), across, "middle")
    yield text((panel.left - 48, (TOP + BOTTOM) / 2), UP, "middle", is_upright=True)
    for program, style in STYLES.items():
        yield from series(panel, style, sorted(mark for mark in marks if mark.program == program))
    yield "</g>"


def grid(panel):
    """The frame, a line for each power of ten, and its number."""
    for power in panel.across:
        x, _ = place(panel, 10 ** power, 10 ** panel.up[0])
        yield line((x, TOP), (x, BOTTOM), stroke="#bbbbbb")
        yield text((x, BOTTOM + 20), number(10 ** power), "middle")
    for power in panel.up:
        _, y = place(panel, 10 ** panel.across[0], 10 ** power)
        yield line((panel.left, y), (panel.left + SIDE, y), stroke="#bbbbbb")
        yield text((panel.left - 8, y + 4), number(10 ** power), "end")
    yield '<rect x="%d" y="%d" width="%d" height="%d" fill="none" stroke="black"/>' % (panel.left, TOP, SIDE, BOTTOM - TOP)


def series(panel, style, marks):
    """A program's line, its points, and what each shows as a number."""
    places = [place(panel, mark.at, mark.microseconds) for mark in marks]
    for start, end in zip(places, places[1:]):
        yield line(start, end, **stroke(style))
    for (x, y), mark in zip(places, marks):
        yield style.point(x, y)
        # The first and the last stand on the frame, so their numbers stand inside of it.
        anchor, aside = ("start", 6) if mark is marks[0] else ("end", -6) if mark is marks[-1] else ("middle", 0)
        yield text((x + aside, y + style.value_below), number(mark.microseconds), anchor)


def place(panel, at, microseconds):
    return panel.left + SIDE * part(panel.across, at), BOTTOM - (BOTTOM - TOP) * part(panel.up, microseconds)


def part(powers, count):
    """How far this number is from the first power of ten to the last."""
    return (math.log10(count) - powers[0]) / (powers[-1] - powers[0])


def number(count):
    return "{:,.0f}".format(count) if count >= 10 or count == int(count) else "%.1f" % count if count >= 0.1 else "%.2g" % count


# ---- elements

def stroke(style):
    return {"stroke": "black", "width": 2, "dashes": "6 4" if style.is_dashed else None}


def line(start, end, stroke, width=1, dashes=None):
    dashed = ' stroke-dasharray="%s"' % dashes if dashes else ""
    return '<line x1="%.1f" y1="%.1f" x2="%.1f" y2="%.1f" stroke="%s" stroke-width="%d"%s/>' % (*start, *end, stroke, width, dashed)


def text(at, words, anchor="start", is_upright=False):
    turned = ' transform="rotate(-90 %.1f %.1f)"' % at if is_upright else ""
    return '<text x="%.1f" y="%.1f" text-anchor="%s"%s>%s</text>' % (*at, anchor, turned, words)
