"""Which kinds are read, which stand beside the lines, and which may have a say in a verdict and aren't read."""
import difflib

CALICO = "projectcalico.org/v3"
STORED = "crd.projectcalico.org/v1"
KUBERNETES = "networking.k8s.io/v1"
READ = {
    ("v1", "Namespace"), ("v1", "ServiceAccount"), (KUBERNETES, "NetworkPolicy"),
    (CALICO, "Tier"), (CALICO, "GlobalNetworkPolicy"), (CALICO, "NetworkPolicy"), (CALICO, "NetworkSet"),
    (CALICO, "GlobalNetworkSet"), (CALICO, "Profile"), (CALICO, "WorkloadEndpoint"),
}
# What becomes no line by itself, and tells which question is meant or is given to another program than felix-replay.
BESIDE = {
    ("v1", "Service"), ("v1", "Node"), ("discovery.k8s.io/v1", "EndpointSlice"), (KUBERNETES, "Ingress"),
    ("gateway.networking.k8s.io/v1", "Gateway"), (CALICO, "HostEndpoint"), (CALICO, "FelixConfiguration"),
}
# The names that these kinds have, in whichever API they come, decide or are selected by what decides.
OF_ADMINISTRATORS = {"AdminNetworkPolicy", "BaselineAdminNetworkPolicy", "ClusterNetworkPolicy"}
DECIDING = {kind for _, kind in READ} | {"Pod"} | OF_ADMINISTRATORS
CALICO_GROUPS = ("projectcalico.org", "crd.projectcalico.org")
# Calico's own kinds that configure it and let no packet pass or stop it between pods.
CALICO_WITHOUT_SAY = {
    "BGPConfiguration", "BGPFilter", "BGPPeer", "BlockAffinity", "CalicoNodeStatus", "ClusterInformation",
    "FelixConfiguration", "HostEndpoint", "IPAMBlock", "IPAMConfig", "IPAMConfiguration", "IPAMHandle", "IPPool", "IPReservation",
    "KubeControllersConfiguration", "Node",
}
# Policies that aren't about packets.
OTHER_POLICIES = {
    "PodSecurityPolicy", "ValidatingAdmissionPolicy", "ValidatingAdmissionPolicyBinding", "MutatingAdmissionPolicy",
    "MutatingAdmissionPolicyBinding", "PolicyReport", "ClusterPolicyReport", "CleanupPolicy", "ClusterCleanupPolicy",
    "PolicyException", "ImageValidatingPolicy",
}
OTHER_GROUPS = (
    "kyverno.io", "policies.kyverno.io", "policies.kubewarden.io", "wgpolicyk8s.io", "policy.open-cluster-management.io",
    "policy.cert-manager.io", "policy.sigstore.dev",
)
LIKE = 0.85


def group_of(version):
    return version.partition("/")[0] if "/" in version else ""


def has_say(version, kind):
    """Whether a resource of a kind that isn't read may have a say."""
    group = group_of(version)
    if (version, kind) in BESIDE or kind.startswith("Staged"):
        return False
    if group in CALICO_GROUPS:
        return kind not in CALICO_WITHOUT_SAY
    if kind in DECIDING or meant(kind):
        return True
    if kind in OTHER_POLICIES or group in OTHER_GROUPS:
        return False
    return "polic" in kind.lower() or "firewall" in kind.lower()


def may_be_policies(name):
    """Whether an API server's name of a kind, as `ciliumnetworkpolicies.cilium.io`, is that of policies of others which may
    have a say."""
    plural, _, group = name.partition(".")
    singular = plural[:-3] + "y" if plural.endswith("ies") else plural[:-1]
    if group in CALICO_GROUPS + OTHER_GROUPS or singular in {kind.lower() for kind in OTHER_POLICIES}:
        return False
    return "polic" in plural or "firewall" in plural


def meant(kind):
    """The kind whose name this is almost, or nothing."""
    names = {name.lower(): name for name in DECIDING}
    near = difflib.get_close_matches(kind.lower(), names, 1, LIKE)
    return names[near[0]] if near and names[near[0]] != kind else ""


def why_not_read(version, kind):
    if version == STORED:
        return "the form in which Calico stores it, which is another API; give what calicoctl prints"
    if kind.startswith("Staged"):
        return "staged, so without effect"
    if not has_say(version, kind):
        return "not needed, or not read yet"
    if meant(kind):
        return "no such kind is known; is %s meant?" % meant(kind)
    return "not read"


def is_of_one_namespace(resource_kind, namespace):
    """Whether what isn't read can have a say on the pods of its own namespace alone."""
    return bool(namespace) and resource_kind.endswith("NetworkPolicy")
