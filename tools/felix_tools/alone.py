"""Runs a program by itself, so that its time and its memory are its own."""
import collections
import os
import subprocess
import sys

from felix_tools.program import ProgramError

# How a program ended (by a signal: below 0), what it took of a processor, and its memory at most. Less memory than that of a
# bare Python, some 9 MB, isn't told apart.
Ended = collections.namedtuple("Ended", "status seconds megabytes")

# What a child is said to have used is never less than what its parent did when it began, so this stands between.
ALONE = """\
import os, sys
child = os.posix_spawn(sys.argv[1], sys.argv[1:], os.environ)
_, ended, usage = os.wait4(child, 0)
sys.stderr.write("\\n%d %d %d" % (ended, round(1e6 * (usage.ru_utime + usage.ru_stime)), usage.ru_maxrss))
"""


def run_alone(path, words, given, taken):
    """Runs a program with these files as its input and its output."""
    if not os.access(path, os.X_OK):
        raise ProgramError("%s: no program" % path)
    command = [sys.executable, "-S", "-c", ALONE, path, *words]
    done = subprocess.run(command, stdin=given, stdout=taken, stderr=subprocess.PIPE)
    told = done.stderr.split()[-3:]
    if done.returncode or len(told) < 3 or not all(word.isdigit() for word in told):
        raise ProgramError("%s: %s" % (path, done.stderr.decode("utf-8", "replace").strip().rpartition("\n")[2]))
    ended, microseconds, kilobytes = map(int, told)
    status = os.WEXITSTATUS(ended) if os.WIFEXITED(ended) else -os.WTERMSIG(ended)
    return Ended(status, microseconds / 1e6, kilobytes / 1024)
