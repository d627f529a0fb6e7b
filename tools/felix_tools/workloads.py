"""What a pod belongs to: its Deployment, StatefulSet, DaemonSet, Job or ReplicaSet, as its owner and its labels say."""
import collections
import re

from felix_tools.reading import objects, part

# What pods belong to; `kind` is kubectl's word for it.
Workload = collections.namedtuple("Workload", "kind namespace name")

# kubectl's words for each kind, the first of them its own.
KIND_WORDS = {
    "deployment": ("deployment", "deployments", "deploy"),
    "statefulset": ("statefulset", "statefulsets", "sts"),
    "daemonset": ("daemonset", "daemonsets", "ds"),
    "replicaset": ("replicaset", "replicasets", "rs"),
    "job": ("job", "jobs"),
    "replicationcontroller": ("replicationcontroller", "replicationcontrollers", "rc"),
    "pod": ("pod", "pods", "po"),
}
KINDS = {word: kind for kind, words in KIND_WORDS.items() for word in words}
# A namespace or a pattern of some, which a label's prefix never is: that has a dot.
NAMESPACE = re.compile(r"[a-z0-9*?\[\]!-]+\Z")
HASH_LABEL = "pod-template-hash"
ORDINAL_LABEL = "statefulset.kubernetes.io/pod-name"


def workload_of(resource, namespace, pod):
    """The workload of a pod, or of an endpoint with a pod's labels; a pod that belongs to nothing is its own."""
    labels = part(resource, "metadata", "labels")
    owner = owner_of(resource)
    if owner:
        return Workload(owner[0], namespace, owner[1])
    return by_labels(labels if isinstance(labels, dict) else {}, namespace, pod) or Workload("pod", namespace, pod)


def owner_of(resource):
    """(kind, name) of what controls the pod; of a Deployment's ReplicaSet the Deployment."""
    owners = objects(part(resource, "metadata", "ownerReferences"))
    for owner in owners:
        kind, name = str(owner.get("kind")).lower(), str(owner.get("name"))
        if owner.get("controller") is False:
            continue
        front, dash, last = name.rpartition("-")
        if kind == "replicaset" and dash and last == part(resource, "metadata", "labels", HASH_LABEL):
            return "deployment", front
        if kind in KIND_WORDS:
            return kind, name
    return None


def by_labels(labels, namespace, pod):
    """The workload by the labels that Kubernetes' own controllers give, where no owner is told."""
    template = labels.get(HASH_LABEL)
    of_deployment = isinstance(template, str) and re.fullmatch(r"(.+)-%s-[a-z0-9]+" % re.escape(template), pod)
    if of_deployment:
        return Workload("deployment", namespace, of_deployment[1])
    of_set = labels.get(ORDINAL_LABEL) == pod and re.fullmatch(r"(.+)-[0-9]+", pod)
    return Workload("statefulset", namespace, of_set[1]) if of_set else None


def name_of_workload(workload):
    return "%s/%s" % (workload.namespace, workload.name)


# ---- names of several pods

def is_selection(text):
    """Whether a name is NAMESPACE/LABEL=VALUE, perhaps with further labels."""
    return "=" in text


def selection(text):
    """(namespace, labels) of NAMESPACE/LABEL=VALUE,LABEL=VALUE; None for what isn't of this form."""
    namespace, slash, rest = text.partition("/")
    pairs = [pair.partition("=") for pair in rest.split(",")]
    if not namespace or not slash or not all(label and equals for label, equals, _ in pairs):
        return None
    return namespace, {label: value.lstrip("=") for label, _, value in pairs}


def has_labels(labels, wanted):
    return all(labels.get(label) == value for label, value in wanted.items())


def named_workload(text):
    """(kind, namespace, name) that a text names, None in the place of what it doesn't name; None for no such text."""
    words = text.split("/")
    if len(words) == 3 and words[1].lower() in KINDS:
        return KINDS[words[1].lower()], words[0], words[2]
    if len(words) == 2 and words[0].lower() in KINDS:
        return KINDS[words[0].lower()], None, words[1]
    return (None, words[0], words[1]) if len(words) == 2 else None


def with_namespace(text, namespace):
    """A name as it stands in this namespace, where it names none itself."""
    if not namespace or not is_without_namespace(text.split("/")):
        return text
    return "%s/%s" % (namespace, text)


def is_without_namespace(words):
    """Whether a name's parts begin with no namespace: `web`, `deployment/web`, `app=web`, `example.com/app=web`."""
    return len(words) == 1 or len(words) == 2 and words[0].lower() in KINDS or not NAMESPACE.match(words[0])
