"""A rule of the tables in plain words; what isn't known keeps its text."""
import re

MARKS = {0x10000: "“accepted”", 0x20000: "“passed”", 0x40000: "“candidate”", 0x80000: "“in list”", 0xf0000: "all four marks"}
LEGEND = [
    "→ calls a chain, ⇒ goes to a chain without coming back, “…” are marks on the packet",
    "a rule with several lists: “candidate” stays set while each list has an entry that fits (“in list”)",
]
ENDINGS = {"ACCEPT": "ACCEPT", "DROP": "DROP", "RETURN": "back", "LOG": "log"}
SET_NAME_FRONT = len("cali40")


def target(rule):
    """The chain that the rule leads to, or None."""
    found = re.search(r"(?:^| )-[jg] (\S+)$", rule)
    return found[1] if found and found[1] not in ENDINGS and found[1] != "MARK" else None


def rule_words(rule, sets):
    text = " " + rule
    text = text.replace(" -m conntrack --ctstate RELATED,ESTABLISHED", " known connection")
    text = text.replace(" -m conntrack --ctstate INVALID", " invalid")
    text = re.sub(r" -m mark --mark 0x([0-9a-f]+)/0x([0-9a-f]+)", asked_mark, text)
    text = re.sub(r" -j MARK --set-xmark 0x([0-9a-f]+)/0x([0-9a-f]+)", made_mark, text)
    text = re.sub(r" -m set (! )?--match-set (\S+) (\S+)", lambda found: set_words(found, sets), text)
    text = re.sub(r" -m multiport (! )?--([sd])ports (\S*)", ports_words, text)
    text = re.sub(r" -m icmp (! )?--icmp-type (\S+)", r" \1type \2", text)
    text = re.sub(r" (! )?-p (\S+)", protocol_words, text)
    text = re.sub(r" (! )?-s (\S+)", r" \1from \2", text)
    text = re.sub(r" (! )?-d (\S+)", r" \1to \2", text)
    text = re.sub(r" -i (\S+)", lambda found: " in by " + found[1].replace("+", "…"), text)
    text = re.sub(r" -o (\S+)", lambda found: " out by " + found[1].replace("+", "…"), text)
    text = re.sub(r" -j (ACCEPT|DROP|RETURN|LOG)$", lambda found: " → " + ENDINGS[found[1]], text)
    text = re.sub(r" -j (\S+)$", r" → \1", text)
    text = re.sub(r" -g (\S+)$", r" ⇒ \1", text)
    return text.replace(" ! ", " not ").strip()


def mark_of(found):
    return int(found[1], 16), int(found[2], 16)


def mark_name(mask):
    return MARKS.get(mask, "0x%x" % mask)


def asked_mark(found):
    value, mask = mark_of(found)
    if value not in (0, mask):
        return found[0]
    return " %s %s" % ("if" if value else "unless", mark_name(mask))


def made_mark(found):
    value, mask = mark_of(found)
    if value not in (0, mask):
        return found[0]
    return " → %s %s" % ("set" if value else "clear", mark_name(mask))


def set_words(found, sets):
    members = sets.get(found[2])
    if members is None:
        held = ""
    elif not members:
        held = " (empty)"
    else:
        held = " {%s}" % ", ".join(members) if len(members) < 3 else " (%d members)" % len(members)
    side = "from" if found[3].startswith("src") else "to"
    return " %s%s set %s…%s" % ("not " if found[1] else "", side, found[2][SET_NAME_FRONT:SET_NAME_FRONT + 7], held)


def ports_words(found):
    return " %s%sport %s" % ("not " if found[1] else "", "source " if found[2] == "s" else "", found[3].replace(",", ", "))


def protocol_words(found):
    name = "protocol " + found[2] if found[2].isdigit() else found[2]
    return " %s%s" % ("not " if found[1] else "", name)
