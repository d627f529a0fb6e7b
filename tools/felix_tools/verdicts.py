"""An answer as a value: what was asked, the verdict, why on each side, and what is to be said beside it. How answers are
printed stands in words.py and matrix.py."""
import dataclasses

from felix_tools.conversion import kind_of
from felix_tools.kinds import CALICO
from felix_tools.questions import Question, is_node, name_of
from felix_tools.reading import part
from felix_tools.rules import place_of, place_words, policy_of, rule_at

ALLOWED, DENIED, UNKNOWN = "allowed", "denied", "unknown"
POLICY_KINDS = {"gnp": "GlobalNetworkPolicy", "np": "Calico's NetworkPolicy", "knp": "Kubernetes' NetworkPolicy"}


@dataclasses.dataclass
class Reason:
    """Why one side lets the packet pass, or doesn't."""
    direction: str  # `egress` of the sender, `ingress` of the receiver
    end: str
    node: str
    verdict: str
    # What decided: the first word of the program's reason, or `own-node` and `itself` where no program was asked; `none`
    # where it names no reason, and `open` where no host endpoint guards the node.
    sort: str
    words: str  # a sentence's end, behind the verdict
    is_met: bool = True  # whether the packet comes to this side at all
    policy: str = ""  # the id of the policy that decided, as `knp/shop/web`
    profile: str = ""
    tier: str = ""
    place: str = ""  # where the rule stands in its resource, as `ingress[1] (from[0], TCP)`
    rule: object = None  # the rule as it was written
    policies: list = dataclasses.field(default_factory=list)  # ids of those that apply, where a tier's end decides
    way: list = dataclasses.field(default_factory=list)  # (chain, place, rule of the tables) of each step

    @property
    def resource(self):
        """What decided, as a reader names it; nothing where it is neither a policy nor a profile."""
        return policy_name(self.policy) if self.policy else "Profile " + self.profile if self.profile else ""


@dataclasses.dataclass
class Doubt:
    """A resource that may apply to what was asked, and isn't part of the answer."""
    resource: str  # as a reader names it
    origin: str  # the file
    why: str


@dataclasses.dataclass
class Answer:
    """The answer to one question."""
    question: Question
    verdict: str
    reasons: list
    notes: list = dataclasses.field(default_factory=list)
    # Why the verdict is unknown, in words; what is in doubt; and what the verdict is without that.
    cause: str = ""
    doubts: list = dataclasses.field(default_factory=list)
    without: str = ""

    def of(self, asked, names):
        """The same answer to a question of more pods, with the names of both ends."""
        ends = {"egress": (asked.senders, names[0]), "ingress": (asked.receivers, names[1])}
        reasons = []
        for reason in self.reasons:
            pods, name = ends[reason.direction]
            reasons.append(dataclasses.replace(reason, end=name, node=reason.node if len(pods) == 1 else ""))
        return dataclasses.replace(self, question=asked, reasons=reasons)

    @property
    def is_allowed(self):
        return self.verdict == ALLOWED

    @property
    def key(self):
        """What is asked, whatever the answer: for comparing two answers."""
        asked = self.question
        return name_of(asked.sender), name_of(asked.receiver), asked.traffic.words, asked.service

    @property
    def causes(self):
        """What decided on each side: equal where two answers have one reason."""
        return [(it.direction, it.sort, it.policy, it.profile, it.tier, it.place, it.verdict) for it in self.reasons]


def verdict_of(answer):
    return answer.verdict


def whole(answer):
    """All that an answer says, but for its ends."""
    doubts = [(it.resource, it.origin, it.why) for it in answer.doubts]
    return answer.verdict, answer.causes, answer.notes, answer.cause, doubts, answer.without


def word_of(is_allowed):
    return ALLOWED if is_allowed else DENIED


def policy_name(policy_id):
    """The policy of an id as a reader names it."""
    sort, _, name = policy_id.partition("/")
    return "%s %s" % (POLICY_KINDS.get(sort, sort), name)


def answer_of(result, clusters):
    """The answer that a result is, with its rules as the resources have them: those that stand for nodes, and for pods."""
    reasons = [reason_of(side, clusters[is_node(side.end)]) for side in result.sides]
    return Answer(result.question, word_of(result.is_allowed), reasons, list(result.question.notes))


def reason_of(side, cluster):
    """A side's reason as a value."""
    sort, *words = side.reason or ["none"]
    verdict = word_of(side.is_allowed)
    made = Reason(side.direction, side.end.name, side.node, verdict, sort, "", side.is_met, way=way_of(side))
    fill = FILLED.get(sort)
    if fill:
        fill(made, side, cluster, *words)
    else:
        made.words = ", %s" % " ".join(side.reason)
    return made


def way_of(side):
    return [(chain, place, side.answers.rule(chain, place)) for chain, place in side.path or []]


def fill_none(made, side, cluster):
    if is_node(side.end):
        made.sort = "open"
        made.words = ": no host endpoint guards the interface by which it comes or goes, so no policy is asked"
    else:
        made.words = "; the program names no rule of this side"


def fill_failsafe(made, side, cluster):
    made.words = ": a failsafe port, which is open before any policy is asked"


def fill_policy(made, side, cluster, policy_id, number):
    made.policy = policy_id
    policy = policy_of(cluster, policy_id)
    place = place_of(policy_id, policy, side.direction, int(number)) if policy else None
    if place is None:
        made.words = " by %s rule %s of %s" % (side.direction, number, policy_name(policy_id))
        return
    made.place = place_words(side.direction, place)
    made.rule = rule_at(policy, side.direction, place)
    made.words = " by %s of %s" % (made.place, policy_name(policy_id))


def fill_end_of_tier(made, side, cluster, tier):
    made.tier = tier
    made.policies = [policy_id for name, ids in tiers_of(side) if name == tier for policy_id in ids]
    made.words = " at the end of the tier %s, as no rule of %s decides" % (
        tier, "these policies" if made.policies else "its policies")


def tiers_of(side):
    served = side.answers.endpoints.get(side.end.interface)
    return served.tiers[side.direction] if served else []


def fill_profile(made, side, cluster, name, number):
    made.profile = name
    none = undecided_words(side)
    profile = cluster.resource(CALICO, "Profile", "", name)
    if profile is None or kind_of(profile)[1] != "Profile":
        made.words = ": %s, and the profile of the namespace %s allows all" % (none, name[len("kns."):])
        return
    place = int(number) - 1
    made.place = "%s[%d]" % (side.direction, place)
    made.rule = next(iter((part(profile, "spec", side.direction) or [])[place:place + 1]), None)
    made.words = ": %s, so by %s of the profile %s" % (none, made.place, name)


def undecided_words(side):
    """Why it comes to the profiles. felix-host doesn't tell which policies apply."""
    if is_node(side.end):
        return "no policy of its host endpoint decides"
    return "no tier of its policies decides" if tiers_of(side) else "no policy applies to it here"


def fill_missing_profile(made, side, cluster, name):
    made.profile = name
    what = "the profile %s" % name
    if name.startswith("kns."):
        what = "the Namespace %s, whose profile it lists," % name[len("kns."):]
    elif name.startswith("ksa."):
        what = "the ServiceAccount %s, whose profile it lists," % name[len("ksa."):].replace(".", "/", 1)
    made.words = ": %s, and %s isn't in the input" % (undecided_words(side), what)


def fill_no_profile_rule(made, side, cluster):
    served = side.answers.endpoints.get(side.end.interface)
    profiles = served.profiles if served else []
    if is_node(side.end):
        made.words = ": %s, and no rule of its profiles does" % undecided_words(side)
    elif not profiles:
        made.words = ": %s, and it lists no profile" % undecided_words(side)
    else:
        made.words = ": %s, and no rule of its profiles does (%s)" % (undecided_words(side), ", ".join(profiles))


def fill_unknown_interface(made, side, cluster):
    made.words = ": the node %s has no endpoint at the interface %s; is its resource refused?" % (
        side.node, side.end.interface)


FILLED = {
    "none": fill_none,
    "failsafe": fill_failsafe,
    "policy": fill_policy,
    "end-of-tier": fill_end_of_tier,
    "profile": fill_profile,
    "missing-profile": fill_missing_profile,
    "no-profile-rule": fill_no_profile_rule,
    "unknown-interface": fill_unknown_interface,
}
