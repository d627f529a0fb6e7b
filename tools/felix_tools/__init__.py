"""What the programs of tools/ share: readers and writers around the proved program, which decide nothing themselves."""
import sys

OLDEST = (3, 8)
# The status of a program that didn't run to its end: 1 would say that something is denied.
TOO_OLD = 4

# An older Python fails at some import, in words that name a line of ours.
if sys.version_info < OLDEST:
    here = tuple(sys.version_info[:2])
    sys.stderr.write("these tools need Python %d.%d or later, and this is %d.%d\n" % (OLDEST + here))
    sys.exit(TOO_OLD)
