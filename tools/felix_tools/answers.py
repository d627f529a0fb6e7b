"""Reads what the program answers (docs/OUTPUT.md)."""
import collections

Refusal = collections.namedtuple("Refusal", "line number name rest")
# `state` tells the tables that the packet met: how many flushes before it sent something.
Packet = collections.namedtuple("Packet", "path reasons verdict state")
Served = collections.namedtuple("Served", "owner tiers profiles")


class HostAnswers:
    """What felix-host wrote, read: refusals and packets. It names neither policies nor the endpoint's tiers."""

    def __init__(self, text):
        self.refusals = []
        self.packets = []
        self.endpoints = {}
        reasons = {}
        for words in (line.split(" ") for line in text.split("\n")):
            if words[0] == "refused":
                self.refusals.append(Refusal(int(words[1]), int(words[2]), words[3], " ".join(words[4:])))
            elif words[0] == "reason":
                reasons = {"host": words[1:]}
            elif words[0] == "verdict":
                self.packets.append(Packet([], reasons, words[1], None))
                reasons = {}


class Answers:
    """An output, read: refusals, what the messages named, the last tables, and the packets."""

    def __init__(self, text):
        self.refusals = []
        self.policies = {}
        self.profiles = {}
        self.endpoints = {}
        self.sets = {}
        self.chains = {}
        self.packets = []
        self.state = 0
        self.tables_state = None
        self.in_tables = False
        self.path = None
        self.reasons = {}
        for line in text.split("\n"):
            self.take(line, line.split(" "))

    def take(self, line, words):
        if self.in_tables or words[0] in ("create", "*filter"):
            self.take_table_line(line, words)
        elif words[0] in ("path", "egress", "ingress", "verdict"):
            self.take_packet_line(words)
        elif words[0] == "refused":
            self.refusals.append(Refusal(int(words[1]), int(words[2]), words[3], " ".join(words[4:])))
        elif words[0] == "policy":
            self.policies[words[1]] = words[2]
        elif words[0] == "profile":
            self.profiles[words[1]] = words[2]
        elif words[0] == "endpoint":
            self.take_endpoint(words)
        elif words[0] == "flushed" and words[1] != "0":
            self.state += 1

    def take_endpoint(self, words):
        tiers = {"ingress": self.tiers(words[4]), "egress": self.tiers(words[6])}
        profiles = [] if words[8] == "-" else [self.profiles.get(key, key) for key in words[8].split(",")]
        self.endpoints[words[1]] = Served(words[2], tiers, profiles)

    def tiers(self, text):
        """(tier, ids of its policies that apply) in their order."""
        if text == "-":
            return []
        pairs = [tier[:-1].split("(") for tier in text.split(";")]
        return [(name, [self.policies.get(key, key) for key in keys.split(",")]) for name, keys in pairs]

    def take_table_line(self, line, words):
        if not self.in_tables:
            self.in_tables = True
            self.tables_state = self.state
            self.sets, self.chains = {}, {}
        if words[0] == "create":
            self.sets[words[1]] = []
        elif words[0] == "add":
            self.sets.setdefault(words[1], []).append(words[2])
        elif line.startswith(":"):
            self.chains.setdefault(words[0][1:], [])
        elif words[0] == "-A":
            self.chains.setdefault(words[1], []).append(" ".join(words[2:]))
        elif line == "COMMIT":
            self.in_tables = False

    def take_packet_line(self, words):
        if words[0] == "path":
            hops = [word.rpartition(":") for word in words[1:] if word != "-"]
            self.path = [(chain, int(place)) for chain, _, place in hops]
            self.reasons = {}
        elif words[0] == "verdict":
            self.packets.append(Packet(self.path, self.reasons, words[1], self.state))
        else:
            self.reasons[words[0]] = words[1:]

    def rule(self, chain, place):
        """The rule of the tables at a place, as the tables have it."""
        rules = self.chains.get(chain, [])
        return rules[place - 1] if place <= len(rules) else ""
