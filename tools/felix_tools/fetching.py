"""Fetches what a cluster has, by kubectl, and by calicoctl where the API server doesn't serve Calico's own API."""
import collections
import concurrent.futures
import os
import shutil
import subprocess

from felix_tools.kinds import may_be_policies
from felix_tools.reading import InputError
from felix_tools.start import Unwritten

# A kind as kubectl names it, whether it stands in namespaces, and whether it may have a say in verdicts.
Kind = collections.namedtuple("Kind", "name is_namespaced has_say")
# What a command wrote, or why it wrote nothing.
Fetched = collections.namedtuple("Fetched", "kind text fault")

CALICO = "projectcalico.org"
STORED = "crd.projectcalico.org"
KUBERNETES_KINDS = [
    Kind("pods", True, True),
    Kind("namespaces", False, True),
    Kind("serviceaccounts", True, True),
    Kind("networkpolicies.networking.k8s.io", True, True),
    Kind("services", True, False),
    Kind("endpointslices.discovery.k8s.io", True, False),
    Kind("ingresses.networking.k8s.io", True, False),
    Kind("nodes", False, False),
]
CALICO_KINDS = [
    Kind("tiers", False, True),
    Kind("globalnetworkpolicies", False, True),
    Kind("networkpolicies", True, True),
    Kind("globalnetworksets", False, True),
    Kind("networksets", True, True),
    Kind("hostendpoints", False, False),
    Kind("felixconfigurations", False, False),
]
AT_ONCE = 4
CALICOCTL_CONFIGURATION = "/etc/calico/calicoctl.cfg"


class Cluster:
    """A cluster as kubectl reaches it: by which configuration, and which namespaces of it (none: all)."""

    def __init__(self, context=None, kubeconfig=None, namespaces=()):
        self.context = context
        self.kubeconfig = kubeconfig
        self.namespaces = list(namespaces)
        if not shutil.which("kubectl"):
            raise InputError("kubectl isn't on the PATH")

    def fetch(self):
        """What the cluster has of each kind, and of those that can't be read why."""
        served = self.served()
        asked = [(self.by_kubectl, kind) for kind in KUBERNETES_KINDS + self.others(served)]
        asked += [way for kind in CALICO_KINDS for way in self.ways_to(kind, served)]
        with concurrent.futures.ThreadPoolExecutor(max_workers=AT_ONCE) as pool:
            return [found for several in pool.map(lambda way: way[0](way[1]), asked) for found in several]

    def served(self):
        """The names of the kinds that the API server serves; of a server that tells only some of them these."""
        done = self.api_resources()
        names = set(done.stdout.split())
        if not names:
            raise InputError("kubectl doesn't reach the cluster: %s" % said(done))
        return names

    def api_resources(self, *words):
        return self.run(["kubectl"] + self.kubectl_words() + ["api-resources", "-o", "name"] + list(words))

    def others(self, served):
        """Kinds of others that may have a say by their names: they are read to be told."""
        known = {kind.name for kind in KUBERNETES_KINDS}
        names = sorted(name for name in served - known if may_be_policies(name))
        of_cluster = self.api_resources("--namespaced=false").stdout.split() if names else []
        return [Kind(name, name not in of_cluster, True) for name in names]

    def ways_to(self, kind, served):
        """How a kind of Calico is fetched: by its own API, else by calicoctl, else as it is stored."""
        full = "%s.%s" % (kind.name, CALICO)
        if full in served:
            return [(self.by_kubectl, kind._replace(name=full))]
        stored = "%s.%s" % (kind.name, STORED)
        if shutil.which("calicoctl") and (stored in served or is_configured()):
            return [(self.by_calicoctl, kind)]
        return [(self.by_kubectl, kind._replace(name=stored))] if stored in served else []

    def by_kubectl(self, kind):
        words = ["kubectl"] + self.kubectl_words() + ["get", kind.name]
        if kind.name == "namespaces" and self.namespaces:
            return [self.fetched(kind, words + self.namespaces + ["-o", "json"])]
        return [self.fetched(kind, words + where + ["-o", "json"]) for where in self.places(kind)]

    def by_calicoctl(self, kind):
        words = ["calicoctl", "get", kind.name]
        context = ["--context=" + self.context] if self.context else []
        named = kind._replace(name="%s.%s" % (kind.name, CALICO))
        return [self.fetched(named, words + where + ["-o", "json"] + context) for where in self.places(kind)]

    def places(self, kind):
        if not kind.is_namespaced:
            return [[]]
        return [["-n", name] for name in self.namespaces] or [["-A"]]

    def kubectl_words(self):
        words = ["--context", self.context] if self.context else []
        return words + (["--kubeconfig", self.kubeconfig] if self.kubeconfig else [])

    def fetched(self, kind, words):
        done = self.run(words)
        return Fetched(kind, "", said(done)) if done.returncode else Fetched(kind, done.stdout, None)

    def run(self, words):
        environment = dict(os.environ)
        if words[0] == "calicoctl":
            if self.kubeconfig:
                environment["KUBECONFIG"] = self.kubeconfig
            if not is_configured():
                environment["DATASTORE_TYPE"] = "kubernetes"
        how = {"stdin": subprocess.DEVNULL, "stdout": subprocess.PIPE, "stderr": subprocess.PIPE}
        return subprocess.run(words, env=environment, encoding="utf-8", errors="replace", **how)


def is_configured():
    """Whether calicoctl is told where Calico's resources stand."""
    return "DATASTORE_TYPE" in os.environ or os.path.exists(CALICOCTL_CONFIGURATION)


def said(done):
    """What a command said of its failure, in one line."""
    lines = [line.strip() for line in done.stderr.splitlines() if line.strip()]
    return lines[-1] if lines else "it ended with %d" % done.returncode


def keep(found, folder):
    """Writes what was fetched below a folder, a file for each kind; their paths."""
    texts = collections.OrderedDict()
    for one in found:
        if one.fault is None:
            texts.setdefault(one.kind.name, []).append(one.text)
    paths = []
    try:
        os.makedirs(folder, exist_ok=True)
        for name, parts in texts.items():
            paths.append(os.path.join(folder, name + ".json"))
            with open(paths[-1], "w", encoding="utf-8") as file:
                file.write("\n".join(parts))
    except OSError as fault:
        raise Unwritten("the dump can't be written: %s: %s" % (fault.filename or folder, fault.strerror))
    return paths
