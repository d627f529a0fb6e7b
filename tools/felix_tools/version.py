"""The release and the formats of JSON that the tools say, and what they are called where they stand: the programs'
words have no place for any of it."""
import os

VERSION = "1.0"
# A format's number rises where a member goes or changes its meaning: of the lines that the programs read
# (docs/INPUT.md), and of the answers of --json (docs/answers.schema.json).
LINES_FORMAT = 1
ANSWERS_FORMAT = 1
FORMATS = "JSON: lines %d, answers %d" % (LINES_FORMAT, ANSWERS_FORMAT)
# Written by tools/install beside the installed tools: of which sources the programs and the tools were made.
INSTALLED = os.path.join(os.path.dirname(os.path.abspath(__file__)), "installed.txt")


def is_installed():
    return os.path.exists(INSTALLED)


def version_text():
    if not is_installed():
        return VERSION
    with open(INSTALLED, encoding="utf-8") as file:
        return file.read().strip()


def about(tool):
    """What --version tells."""
    return "%s %s\n%s" % (tool_name(tool), version_text(), FORMATS)


def tool_name(tool):
    """In the repository tools/ask, and where it is installed felix-ask; the plugin of kubectl is then called by it."""
    if tool == "kubectl-felix" and is_installed():
        return "kubectl felix"
    return ("felix-%s" if is_installed() else "tools/%s") % tool


def with_names_here(text):
    """A text of the repository, with the names of its programs as they are called here."""
    return text.replace("./felix-", "felix-").replace("tools/", "felix-") if is_installed() else text
