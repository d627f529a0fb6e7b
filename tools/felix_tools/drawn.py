"""Elements of an SVG: boxes, words and arrows."""
import collections
import html

# A box by its middle, with its size and its lines of words, the first of them in bold.
Box = collections.namedtuple("Box", "x y width height lines fill")
FONT = 'font-family="sans-serif" font-size="12"'
LINE_HEIGHT = 15
LETTER_WIDTH = 7.0


def svg(title, width, height, elements):
    head = [
        '<svg xmlns="http://www.w3.org/2000/svg" width="%d" height="%d" viewBox="0 0 %d %d" %s>' % (
            width, height, width, height, FONT),
        "<title>%s</title>" % html.escape(title),
        '<defs><marker id="tip" viewBox="0 0 8 8" refX="8" refY="4" markerWidth="7" markerHeight="7" orient="auto">'
        '<path d="M0,0 L8,4 L0,8 z" fill="#555555"/></marker></defs>',
        '<rect width="%d" height="%d" fill="white"/>' % (width, height),
    ]
    return "\n".join(head + list(elements) + ["</svg>", ""])


def width_of(words):
    return LETTER_WIDTH * len(words) + 14


def box_lines(box):
    left, top = box.x - box.width / 2, box.y - box.height / 2
    yield '<rect x="%.1f" y="%.1f" width="%.1f" height="%.1f" rx="4" fill="%s" stroke="#555555"/>' % (
        left, top, box.width, box.height, box.fill)
    first = box.y - (len(box.lines) - 1) * LINE_HEIGHT / 2 + 4
    for number, words in enumerate(box.lines):
        yield words_at(box.x, first + number * LINE_HEIGHT, words, is_bold=number == 0 and len(box.lines) > 1)


def words_at(x, y, words, anchor="middle", is_bold=False, colour="black"):
    weight = ' font-weight="bold"' if is_bold else ""
    return '<text x="%.1f" y="%.1f" text-anchor="%s"%s fill="%s">%s</text>' % (
        x, y, anchor, weight, colour, html.escape(words))


def curve(start, end, colour="#999999"):
    """A line from a box down to a lower one."""
    middle = (start[1] + end[1]) / 2
    return '<path d="M%.1f,%.1f C%.1f,%.1f %.1f,%.1f %.1f,%.1f" fill="none" stroke="%s"/>' % (
        *start, start[0], middle, end[0], middle, *end, colour)


def arrow(points):
    path = " ".join("%s%.1f,%.1f" % ("L" if number else "M", *point) for number, point in enumerate(points))
    return '<path d="%s" fill="none" stroke="#555555" stroke-width="1.5" marker-end="url(#tip)"/>' % path
