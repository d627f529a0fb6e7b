"""Rules and members as a node's own tools save them, in the text of the tables.

One rule holds throughout: they get another text only where both texts load as the same thing in the kernel. What has no
such text is `Unread`."""
import re

# The names that iptables and ipset know by themselves, whatever /etc/protocols says.
BUILT_IN = {
    "tcp": 6, "udp": 17, "udplite": 136, "icmp": 1, "ipv6-icmp": 58, "icmpv6": 58, "esp": 50, "ah": 51, "sctp": 132,
    "mh": 135, "ipv6-mh": 135, "dccp": 33,
}
PRINTED_PROTOCOLS = {6: "tcp", 17: "udp", 1: "icmp", 132: "sctp"}
# The names of iptables-extensions(8) for types of ICMP. `any` is none of them: it matches every type.
ICMP_TYPES = {
    "echo-reply": "0", "pong": "0", "destination-unreachable": "3", "network-unreachable": "3/0",
    "host-unreachable": "3/1", "protocol-unreachable": "3/2", "port-unreachable": "3/3", "fragmentation-needed": "3/4",
    "source-route-failed": "3/5", "network-unknown": "3/6", "host-unknown": "3/7", "network-prohibited": "3/9",
    "host-prohibited": "3/10", "TOS-network-unreachable": "3/11", "TOS-host-unreachable": "3/12",
    "communication-prohibited": "3/13", "host-precedence-violation": "3/14", "precedence-cutoff": "3/15",
    "source-quench": "4", "redirect": "5", "network-redirect": "5/0", "host-redirect": "5/1",
    "TOS-network-redirect": "5/2", "TOS-host-redirect": "5/3", "echo-request": "8", "ping": "8",
    "router-advertisement": "9", "router-solicitation": "10", "time-exceeded": "11", "ttl-exceeded": "11",
    "ttl-zero-during-transit": "11/0", "ttl-zero-during-reassembly": "11/1", "parameter-problem": "12",
    "ip-header-bad": "12/0", "required-option-missing": "12/1", "timestamp-request": "13", "timestamp-reply": "14",
    "address-mask-request": "17", "address-mask-reply": "18",
}
# The kernel holds these as fields of a rule, without order; the tables print them in this one.
HEADER = ("-p", "-s", "-d", "-i", "-o")
STATES = ("RELATED,ESTABLISHED", "INVALID")
# Other matches the kernel keeps in the order in which they were loaded. This is the one of the tables.
PLACES = ["mark", "conntrack"]
PLACES += [sign + kind + end for end in ("src", "dst") for kind in "sn" for sign in ("", "! ")]
PLACES += [sign + option for option in ("--sports", "--dports") for sign in ("", "! ")] + ["icmp"]
MOST_ONCE = ("mark", "conntrack")
SET_NAME = re.compile("cali40([sn]):[A-Za-z0-9_-]{23}")
SET_TYPES = {"s": "hash:net", "n": "hash:ip,port"}
PORT_ENDS = {"src,src": "src", "dst,dst": "dst"}
WARNING_LEVELS = (["--log-level", "4"], ["--log-level", "warning"])


class Unread(Exception):
    """The tables have no text that loads as the same thing."""


def demand(is_met):
    if not is_met:
        raise Unread


# ---- words

def number(text, most):
    demand(re.fullmatch("0|[1-9][0-9]*", text) and int(text) <= most)
    return int(text)


def protocol(text, protocols):
    value = number(text, 255) if text.isdigit() else protocols.get(text)
    demand(value)
    return PRINTED_PROTOCOLS.get(value, str(value))


def address(text):
    parts = text.split(".")
    demand(len(parts) == 4)
    return sum(number(part, 255) << shift for part, shift in zip(parts, (24, 16, 8, 0)))


def net(text):
    """An address alone, or with a length or a mask. A net with bits beyond its length, or a mask with holes, has no
    text."""
    front, slash, mask = text.partition("/")
    value = address(front)
    length = bin(address(mask)).count("1") if "." in mask else number(mask, 32) if slash else 32
    bits = (1 << 32) - (1 << 32 - length)
    demand(value & ~bits == 0 and ("." not in mask or address(mask) == bits))
    return "%d.%d.%d.%d/%d" % (value >> 24, value >> 16 & 255, value >> 8 & 255, value & 255, length)


def mark(text):
    found = re.fullmatch("0x([0-9a-fA-F]{1,8})(?:/0x([0-9a-fA-F]{1,8}))?", text)
    demand(found)
    return "0x%x/0x%x" % (int(found[1], 16), int(found[2], 16) if found[2] else 0xffffffff)


def ports(text):
    """A range of one number loads as two slots and the number as one, so it has no text."""
    for one in text.split(","):
        low, colon, high = one.partition(":")
        demand(number(low, 65535) < (number(high, 65535) if colon else 65536))
    return text


def icmp(text):
    text = ICMP_TYPES.get(text, text)
    kind, slash, code = text.partition("/")
    number(kind, 254)
    if slash:
        number(code, 255)
    return text


def states(text):
    known = [given for given in STATES if sorted(given.split(",")) == sorted(text.split(","))]
    demand(known)
    return known[0]


# What the word behind a match's option is, and whether `!` may stand before the option.
MATCHES = {
    ("mark", "--mark"): (mark, False),
    ("conntrack", "--ctstate"): (states, False),
    ("multiport", "--sports"): (ports, True),
    ("multiport", "--dports"): (ports, True),
    ("icmp", "--icmp-type"): (icmp, True),
}


# ---- rules

class SavedRule:
    """The words of a saved rule, of which the first so many are read, and what they say."""

    def __init__(self, words, protocols):
        self.words = words
        self.at = 0
        self.protocols = protocols
        self.header = {}
        self.places = []
        self.matches = []

    def take(self):
        demand(self.at < len(self.words))
        self.at += 1
        return self.words[self.at - 1]

    def take_signed(self):
        """A word, and the `! ` before it if there is one."""
        word = self.take()
        return ("! ", self.take()) if word == "!" else ("", word)

    def text(self):
        while True:
            sign, option = self.take_signed()
            if option in ("-j", "-g"):
                demand(not sign)
                break
            if option == "-m":
                demand(not sign)
                self.take_match()
            else:
                self.take_field(sign, option)
        target = self.take_target(option)
        demand(self.at == len(self.words) and self.are_in_order())
        return " ".join([self.header[option] for option in HEADER if option in self.header] + self.matches + target)

    def take_field(self, sign, option):
        demand(option in HEADER and option not in self.header and not (sign and option in ("-i", "-o")))
        word = self.take()
        if option == "-p":
            word = protocol(word, self.protocols)
        elif option in ("-s", "-d"):
            word = net(word)
        self.header[option] = "%s%s %s" % (sign, option, word)

    def take_match(self):
        kind = self.take()
        sign, option = self.take_signed()
        word = self.take()
        if (kind, option) == ("set", "--match-set"):
            place, word = self.take_set(sign, word)
        else:
            demand((kind, option) in MATCHES)
            read, may_be_signed = MATCHES[kind, option]
            demand(may_be_signed or not sign)
            word = read(word)
            place = sign + option if kind == "multiport" else kind
        demand(place in PLACES)
        self.places.append(PLACES.index(place))
        self.matches.append("-m %s %s%s %s" % (kind, sign, option, word))

    def take_set(self, sign, name):
        found = SET_NAME.fullmatch(name)
        demand(found)
        ends = self.take()
        return sign + found[1] + (ends if found[1] == "s" else PORT_ENDS.get(ends, "")), "%s %s" % (name, ends)

    def take_target(self, option):
        target = [option, self.take()]
        if target == ["-j", "MARK"]:
            demand(self.take() == "--set-xmark")
            return target + ["--set-xmark", mark(self.take())]
        if target == ["-j", "LOG"] and self.words[self.at:] in WARNING_LEVELS:
            # The level that LOG has where none is given.
            self.at = len(self.words)
        return target

    def are_in_order(self):
        once = all(self.places.count(PLACES.index(place)) <= 1 for place in MOST_ONCE)
        return once and self.places == sorted(self.places)


def rule_text(text, protocols):
    """A saved rule, from behind its chain's name on, as the tables have it."""
    # Only what isn't ours has words in quotes.
    demand(not set(text) & set("\"'\\"))
    return SavedRule(text.split(" "), protocols).text()


# ---- sets

def type_text(name, kind, options):
    """The type of a saved set, without what a set made by the tables' line has too, or what is room alone."""
    found = SET_NAME.fullmatch(name)
    demand(found and kind == SET_TYPES[found[1]])
    named = dict(zip(options[::2], options[1::2]))
    demand(len(options) == 2 * len(named) and set(named) <= {"family", "hashsize", "maxelem", "bucketsize", "initval"})
    room = named.get("maxelem", "65536")
    demand(named.get("family", "inet") == "inet" and room.isdecimal() and int(room) >= 65536)
    return kind


def member_text(kind, text, protocols):
    if kind == "hash:net":
        return net(text)
    found = re.fullmatch("([0-9.]+),([^:,]+):([0-9]+)", text)
    # A number behind icmp is a type and a code.
    demand(found and found[2] != "icmp")
    address(found[1])
    return "%s,%s:%d" % (found[1], protocol(found[2], protocols), number(found[3], 65535))


# ---- names of protocols

def protocols_of(text):
    """The numbers of protocols by the names that the node's tools print, of the text of /etc/protocols. A name of two
    is left out."""
    numbers = {}
    for line in text.split("\n"):
        words = line.split("#")[0].split()
        if len(words) > 1 and words[1].isdecimal() and 0 < int(words[1]) < 256:
            for name in [words[0]] + words[2:]:
                numbers.setdefault(name, set()).add(int(words[1]))
    return {**{name: found.pop() for name, found in numbers.items() if len(found) == 1}, **BUILT_IN}
