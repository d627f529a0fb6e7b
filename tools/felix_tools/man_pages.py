"""Man pages of all programs, made from docs/man/source.txt, the launchers' usage lines, and the tables of docs/INPUT.md
and docs/OUTPUT.md.

In the source `=== NAME` begins a page, whose next line says what the program is, and `--- NAME` a text for which
`{NAME}` stands in a page. `# WORDS` is a heading, `: WORDS` a term whose text follows; `WORDS` in backquotes are bold, <WORDS>
italic; lines that begin with four blanks are shown as they are."""
import os
import re

from felix_tools.program import PROGRAMS, REPLAY, TOP
from felix_tools.version import VERSION

FOLDER = "docs/man"
TITLE = "Felix, modelled and proved"
# The launcher's own status is none of the program's.
LAUNCHERS_STATUS = "70"
EARLY_END = "At 3 to 6 the run is over at once, and what was written is the beginning of the whole output."


def read(*path):
    with open(os.path.join(TOP, *path), encoding="utf-8") as file:
        return file.read()


def pages():
    """The text of each page by its path from the top."""
    parts = re.split(r"^(===|---) ([\w-]+)\n", read(FOLDER, "source.txt"), flags=re.MULTILINE)[1:]
    texts = {(mark, name): text for mark, name, text in zip(parts[::3], parts[1::3], parts[2::3])}
    shared = {name: text for (mark, name), text in texts.items() if mark == "---"}
    return {"%s/%s.1" % (FOLDER, one.name): page(one.name, texts["===", one.name], shared) for one in PROGRAMS}


def page(name, text, shared):
    what, _, body = text.partition("\n")
    head = ['.TH %s 1 "" "felix %s" "%s"' % (name.upper(), VERSION, TITLE), ".SH NAME", "%s \\- %s" % (name, what)]
    lines = filled(name, body, shared).split("\n")
    return "\n".join(head + list(formatted(lines))) + "\n"


def filled(name, text, shared):
    """The text, with what each `{..}` on a line of its own stands for."""
    def put(match):
        word, _, rest = match[1].partition(" ")
        if word in shared:
            return filled(name, shared[word].rstrip("\n"), shared)
        return MADE[word](name, *rest.split())
    return re.sub(r"^\{(\w+(?: [\w-]+)*)\}", put, text.rstrip("\n"), flags=re.MULTILINE)


# ---- what is made from other files

def usage(_, launcher):
    return bold_and_italic(re.search(r"^usage='usage: (.*)'$", read(launcher), re.MULTILINE)[1])


def bold_and_italic(words):
    """A usage line: values in capitals, all other words as they are given."""
    marked = (word if word == "]" else mark_word(word) for word in words.replace("[", "[ ").replace("]", " ]").split())
    return " ".join(marked).replace("[ ", "[").replace(" ]", "]")


def mark_word(word):
    return word if word == "[" else "<%s>" % word if word.isupper() else "`%s`" % word


def faults(_, first, last):
    """The faults with these numbers, as docs/INPUT.md lists them."""
    rows = re.findall(r"^\| (\d+) \| `(\w+)` \|", read("docs", "INPUT.md"), re.MULTILINE)
    found = sorted({(int(number), name) for number, name in rows if int(first) <= int(number) <= int(last)})
    return ", ".join("%d %s" % fault for fault in found) + "."


def statuses(name):
    table = read("docs", "OUTPUT.md").partition("## Exit statuses\n")[2].partition("\n## ")[0]
    rows = [row for row in re.findall(r"^\| (\d+) \| (.*) \|$", table, re.MULTILINE) if row[0] != LAUNCHERS_STATUS]
    if name != REPLAY.name:
        rows = [(status, when.replace(", or all lines of a soak run were answered,", "")) for status, when in rows]
    told = [": `%s`\n%s." % (status, when[0].upper() + when[1:]) for status, when in rows]
    return "\n".join(told) + "\n\n" + EARLY_END


def others(name):
    return ", ".join("`%s`(1)" % one.name for one in PROGRAMS if one.name != name)


MADE = {"usage": usage, "faults": faults, "statuses": statuses, "others": others}


# ---- the markup of man(7)

def formatted(lines):
    is_shown = False
    for line in lines:
        if line.startswith("    ") != is_shown:
            is_shown = not is_shown
            yield from (".nf", ".RS") if is_shown else (".RE", ".fi")
        yield from marked(line, is_shown)
    if is_shown:
        yield from (".RE", ".fi")


def marked(line, is_shown):
    if is_shown:
        yield escaped(line[4:]).replace("-", "\\-")
    elif line.startswith("# "):
        yield ".SH " + line[2:]
    elif line == ": <>":
        yield ".IP"
    elif line.startswith(": "):
        yield ".TP"
        yield fonts(line[2:])
    elif line:
        yield fonts(line)
    else:
        yield ".PP"


def fonts(text):
    """A line with its words in bold and in italic."""
    parts = re.split(r"`([^`]+)`|<([^<>]+)>", text)
    made = ""
    for plain, bold, italic in zip(parts[::3], parts[1::3] + [None], parts[2::3] + [None]):
        made += escaped(plain)
        if bold:
            made += "\\fB%s\\fP" % escaped(bold).replace("-", "\\-")
        if italic:
            made += "\\fI%s\\fP" % escaped(italic)
    return "\\&" + made if made.startswith((".", "'")) else made


def escaped(text):
    return text.replace("\\", "\\e").replace('"', "\\(dq")
