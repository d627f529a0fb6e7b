"""Starts a program of tools/: its words, its output in UTF-8, its faults and its status."""
import os
import sys

from felix_tools.cluster import UnknownEnd
from felix_tools.program import ProgramError
from felix_tools.questions import QuestionError
from felix_tools.reading import InputError
from felix_tools.version import tool_name

USAGE = 2
REFUSED = 3
FAILED = 4
UNWRITTEN = 5
INTERRUPTED = 130
NO_ANSWER = "the answer can't be written: %s"


class Unwritten(Exception):
    """Something couldn't be written; the text says what, and why."""


class Output:
    """Standard output in UTF-8, whose failed writes aren't taken for those of other files."""

    encoding = "utf-8"

    def __init__(self, stream):
        self.stream = stream
        self.buffer = Bytes(stream.buffer)

    def write(self, text):
        return tried(self.stream.write, text)

    def writelines(self, texts):
        for text in texts:
            self.write(text)

    def flush(self):
        tried(self.stream.flush)

    def __getattr__(self, name):
        return getattr(self.stream, name)


class Bytes:
    """The same for bytes."""

    def __init__(self, stream):
        self.stream = stream

    def write(self, held):
        return tried(self.stream.write, held)

    def writelines(self, rows):
        for row in rows:
            self.write(row)

    def flush(self):
        tried(self.stream.flush)


def tried(call, *words):
    try:
        return call(*words)
    except OSError as fault:
        raise Unwritten(NO_ANSWER % fault.strerror)


def start(main, tool):
    """Runs a tool, and ends with its status."""
    try:
        status = written(main, tool)
    except KeyboardInterrupt:
        status = INTERRUPTED
    sys.exit(status)


def written(main, tool):
    """The tool's status, or that of a failed write."""
    try:
        if sys.stdout is None:
            raise Unwritten(NO_ANSWER % "standard output is closed")
        sys.stdout.reconfigure(encoding="utf-8")
        sys.stdout = Output(sys.stdout)
        status = ended(main)
        sys.stdout.flush()
        return status
    except Unwritten as fault:
        drop_output()
        remark(tool, fault)
        return UNWRITTEN


def ended(main):
    """The status of a tool, also where its words end it, as `--help` does."""
    try:
        return main(sys.argv[1:])
    except SystemExit as end:
        return end.code or 0


def drop_output():
    """What is left in the buffer can't be written; Python would complain of that when it ends."""
    if isinstance(sys.stdout, Output):
        os.dup2(os.open(os.devnull, os.O_WRONLY), sys.stdout.stream.fileno())


def answered(tool, work, options):
    """The status of this work; what keeps it from an answer is told on standard error."""
    try:
        return work(options)
    except (InputError, QuestionError, UnknownEnd) as fault:
        remark(tool, fault)
        return USAGE
    except ProgramError as fault:
        remark(tool, fault)
        return FAILED


def remark(tool, text):
    """Tells on standard error what this tool has to say beside its answer."""
    try:
        print("%s: %s" % (tool_name(tool), text), file=sys.stderr)
    except OSError:
        pass
