"""The pages of the repository: their links and headings, and the commands, blocks and words that they show."""
import os
import re

TOP = os.path.dirname(os.path.dirname(os.path.dirname(os.path.abspath(__file__))))


def text_of(*path):
    with open(os.path.join(TOP, *path), encoding="utf-8") as file:
        return file.read()


def pages():
    """The pages, by their paths from the top."""
    beside = ["docs/" + name for name in sorted(os.listdir(os.path.join(TOP, "docs")))]
    crates = ["crates/%s/README.md" % name for name in sorted(os.listdir(os.path.join(TOP, "crates")))]
    found = sorted(os.listdir(TOP)) + beside + crates
    return [path for path in found if path.endswith(".md") and os.path.exists(os.path.join(TOP, path))]


def prose_of(page):
    """A page without the blocks that are shown as they are."""
    return re.sub(r"(?m)^(    |\t).*$", "", text_of(page))


def links_of(page):
    return [link for link in re.findall(r"\]\(([^) ]+)\)", prose_of(page)) if not re.match(r"[a-z]+:", link)]


def headings_of(page):
    """The anchors that a page's headings have where it is shown."""
    marked = re.findall(r"^#+ (.*)$", prose_of(page), re.MULTILINE)
    return [re.sub(r"[^\w\- ]", "", heading.lower()).strip().replace(" ", "-") for heading in marked]


def leads(page, link):
    file, _, anchor = link.partition("#")
    target = os.path.normpath(os.path.join(os.path.dirname(page), file)) if file else page
    if not os.path.exists(os.path.join(TOP, target)):
        return False
    return not anchor or anchor in headings_of(target)


def blocks_of(page):
    """The blocks that a page shows as they are, each a list of lines."""
    found, is_within = [], False
    for line in text_of(page).split("\n"):
        is_shown = line.startswith("    ") and bool(line.strip())
        if is_shown and not is_within:
            found.append([])
        if is_shown:
            found[-1].append(line.strip())
        is_within = is_shown
    return found


def spans_of(page):
    """The words in backquotes of a page's prose."""
    return re.findall(r"`([^`\n]+)`", prose_of(page))


def section_of(page, title):
    return text_of(page).partition("\n## %s\n" % title)[2].partition("\n## ")[0]


def cells_of(text, column=0):
    """The cells of a column of the tables in a text."""
    rows = re.findall(r"^\| (.*) \|$", text, re.MULTILINE)
    split = [row.split(" | ") for row in rows]
    return [row[column] for row in split if column < len(row) and -len(row) <= column]


def names_in(text):
    """The single words in backquotes."""
    return re.findall(r"`([\w-]+)`", text)
