"""Resources that are drawn from a seed, in all forms that rules, sets and chains of the tables may have."""
from felix_tools import calico_lines as made

NODE = "n1"
KUBERNETES = "networking.k8s.io/v1"
NAMESPACES = ("a", "b")
ROLES = ("r0", "r1", "r2")
TIERS = ("default", "platform", "application")
INTERFACES = (
    "cali1", "cali12", "cali123", "cali124", "cali2", "cali2.a", "cali-x", "cali_9", "caliabcdef01234", "cali",
)
NETS = (
    "10.0.0.0/8", "10.0.0.1/32", "10.0.3.0/24", "192.0.2.0/24", "198.51.100.7", "172.16.0.0/31", "128.0.0.0/1",
    "fd00::/8", "0.0.0.0/0",
)
NUMBERS = (1, 2, 4, 6, 17, 33, 41, 47, 50, 51, 58, 88, 89, 103, 112, 132, 135, 136, 137, 240, 255)
PORT_PROTOCOLS = ("TCP", "UDP", "SCTP", 6, 17, "tcp")
LONG = "a-name-that-is-too-long-for-a-chain-"


def drawn(draw):
    """Resources by their keys: each a line that puts it."""
    found = {}
    for count, one in ((4, profile), (3, tier), (7, policy), (3, network_set), (8, endpoint)):
        for number in range(draw.randrange(count + 1)):
            key, line = one(draw, number)
            found[key] = line
    return found


def changed(resources, draw):
    """The resources after some came, some went and some changed."""
    others = drawn(draw)
    kept = {key: line for key, line in resources.items() if draw.random() < 0.8}
    kept.update((key, line) for key, line in others.items() if draw.random() < 0.3)
    return kept


def lines_of(resources):
    """The lines of a start, endpoints behind all that selects them."""
    return [resources[key] for key in sorted(resources, key=lambda key: (key[0] == "endpoint", key))] + [made.IN_SYNC]


# ---- resources

def profile(draw, number):
    name = "%sp%d" % (draw.choice(("", "", "_", LONG)), number)
    return ("profile", number), made.put("Profile", {"name": name}, rules(draw, ("Allow", "Deny", "Log")))


def tier(draw, number):
    name = TIERS[number % len(TIERS)]
    spec = {"order": draw.randrange(9), "defaultAction": draw.choice(("Deny", "Pass"))}
    return ("tier", name), made.put("Tier", {"name": name}, spec)


def policy(draw, number):
    make = draw.choice((global_policy, namespaced_policy, kubernetes_policy))
    return ("policy", number), make(draw, "%sq%d" % (draw.choice(("", "", "_", LONG)), number))


def global_policy(draw, name):
    return made.put("GlobalNetworkPolicy", {"name": name}, calico_spec(draw))


def namespaced_policy(draw, name):
    return made.put("NetworkPolicy", {"name": name, "namespace": draw.choice(NAMESPACES)}, calico_spec(draw))


def calico_spec(draw):
    spec = {"tier": draw.choice(TIERS), "order": draw.randrange(9), "selector": selector(draw)}
    spec["types"] = ["Ingress", "Egress"]
    spec.update(rules(draw, ("Allow", "Allow", "Deny", "Log", "Pass")))
    return spec


def kubernetes_policy(draw, name):
    peers = [
        {"podSelector": {"matchLabels": {"role": draw.choice(ROLES)}}},
        {"ipBlock": {"cidr": "10.0.0.0/8", "except": ["10.1.0.0/16"]}},
    ]
    ports = [{"port": 80}, {"port": "web"}, {"protocol": "UDP", "port": 1000, "endPort": 1010}]
    rule = {"from": draw.sample(peers, draw.randrange(3)), "ports": draw.sample(ports, draw.randrange(4))}
    metadata = {"name": name[:60], "namespace": draw.choice(NAMESPACES)}
    return made.put("NetworkPolicy", metadata, {"podSelector": {}, "ingress": [rule]}, version=KUBERNETES)


def network_set(draw, number):
    metadata = {"name": "s%d" % number, "labels": {"role": draw.choice(ROLES)}}
    return ("set", number), made.put("GlobalNetworkSet", metadata, {"nets": nets(draw, 5)})


def endpoint(draw, number):
    is_local = draw.random() < 0.8
    metadata = {"name": "w%d" % number, "namespace": draw.choice(NAMESPACES), "labels": {"role": draw.choice(ROLES)}}
    spec = {
        "node": NODE if is_local else "elsewhere", "interfaceName": INTERFACES[number % len(INTERFACES)],
        "orchestrator": draw.choice(("k8s", "cni")), "ipNetworks": ["10.0.%d.%d" % (draw.randrange(4), number + 1)],
        "profiles": draw.sample(["p0", "p1", LONG + "p2", "gone"], draw.randrange(4)),
        "ports": [{"name": "web", "port": 8000 + number, "protocol": draw.choice(("TCP", "UDP", "SCTP"))}],
    }
    return ("endpoint", number), made.put("WorkloadEndpoint", metadata, spec)


# ---- rules

def rules(draw, actions):
    return {direction: [rule(draw, actions) for _ in range(draw.randrange(4))] for direction in ("ingress", "egress")}


def rule(draw, actions):
    found = {"action": draw.choice(actions)}
    kind = draw.randrange(6)
    has_ports = kind < 2
    if has_ports:
        found["protocol"] = draw.choice(PORT_PROTOCOLS)
    elif kind == 2:
        found.update(icmp_of(draw))
    elif kind == 3:
        found["protocol"] = draw.choice(NUMBERS)
    elif kind == 4:
        found["notProtocol"] = draw.choice(NUMBERS)
    for side in ("source", "destination"):
        if draw.random() < 0.6:
            found[side] = entity(draw, has_ports)
    return found


def icmp_of(draw):
    given = {"type": draw.randrange(255)}
    if draw.random() < 0.5:
        given["code"] = draw.randrange(256)
    return {"protocol": draw.choice(("ICMP", 1)), draw.choice(("icmp", "notICMP")): given}


def entity(draw, has_ports):
    found = {}
    if draw.random() < 0.5:
        found["nets"] = nets(draw, 3)
    if draw.random() < 0.3:
        found["notNets"] = nets(draw, 3)
    if draw.random() < 0.4:
        found["selector"] = selector(draw)
    if draw.random() < 0.2:
        found["notSelector"] = selector(draw)
    if has_ports:
        for member, chance in (("ports", 0.6), ("notPorts", 0.3)):
            if draw.random() < chance:
                found[member] = ports(draw)
    return found


def nets(draw, most):
    return [draw.choice(NETS) for _ in range(draw.randrange(most + 1))]


def ports(draw):
    choices = (lambda: draw.randrange(65536), lambda: "web", lambda: port_range(draw), lambda: "80:80")
    return [draw.choice(choices)() for _ in range(draw.choice((0, 1, 1, 2, 3, 20)))]


def port_range(draw):
    return "%d:%d" % tuple(sorted(draw.sample(range(65536), 2)))


def selector(draw):
    one = draw.choice(("role == '%s'", "role != '%s'", "has(role) && role in {'%s', 'r9'}")) % draw.choice(ROLES)
    return draw.choice((one, one, "all()", "has(none)"))
