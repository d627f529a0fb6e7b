"""Which assertions hold, for programs that run tests: TAP (testanything.org) and JUnit's XML."""
import re
from xml.sax.saxutils import escape, quoteattr

# What XML 1.0 has no place for.
NO_XML = re.compile("[^\t\n\r\u0020-\ud7ff\ue000-\ufffd\U00010000-\U0010ffff]")


def tap_lines(checks):
    """TAP, version 13: a line for each check, and below one that doesn't hold why, in YAML's block of text."""
    lines = ["TAP version 13", "1..%d" % len(checks)]
    for number, check in enumerate(checks, 1):
        lines.append("%sok %d - %s" % ("" if check.holds else "not ", number, escaped_for_tap(check.title)))
        if not check.holds:
            lines += ["  ---", "  at: %s" % quoted(check.place), "  message: |"]
            lines += ["    " + line for line in check.why] + ["  ..."]
    return lines


def escaped_for_tap(text):
    return text.replace("\\", "\\\\").replace("#", "\\#")


def quoted(text):
    return "'%s'" % text.replace("'", "''")


def junit_text(checks, name):
    """JUnit's XML: a suite with a case for each check; what can't be answered is an error, and what else doesn't hold a
    failure."""
    failures = sum(check.is_failure for check in checks)
    errors = sum(check.is_error for check in checks)
    lines = ['<?xml version="1.0" encoding="UTF-8"?>',
             "<testsuites>",
             '  <testsuite name=%s tests="%d" failures="%d" errors="%d" skipped="0">' % (
                 attribute(name), len(checks), failures, errors)]
    for check in checks:
        lines += case_lines(check)
    return "\n".join(lines + ["  </testsuite>", "</testsuites>", ""])


def case_lines(check):
    head = "    <testcase classname=%s name=%s" % (attribute(check.place), attribute(check.title))
    if check.holds:
        return [head + "/>"]
    sort = "error" if check.is_error else "failure"
    told = "      <%s message=%s>%s</%s>" % (sort, attribute(check.message), content("\n".join(check.why)), sort)
    return [head + ">", told, "    </testcase>"]


def attribute(text):
    return quoteattr(NO_XML.sub("?", text), {"\n": "&#10;"})


def content(text):
    return escape(NO_XML.sub("?", text))
