"""What an answer says beside the program's own: orders, kinds, fields, JSON that breaks off, and what is in doubt."""
import unittest

from felix_tools import kinds, refusals
from felix_tools.conversion import convert
from felix_tools.doubts import types_of, without_host_policies
from felix_tools.fields import unknown_fields
from felix_tools.host import DEFAULTS, INBOUND, is_in, ports_of
from felix_tools.orders import whole_numbers
from felix_tools.reading import Change, InputError, documents

CALICO, KUBERNETES = "projectcalico.org/v3", "networking.k8s.io/v1"


def policy(version, name, spec, **metadata):
    kind = "NetworkPolicy" if metadata else "GlobalNetworkPolicy"
    return {"apiVersion": version, "kind": kind, "metadata": dict(metadata, name=name), "spec": spec}


def converted(*changes):
    return convert([Change(action, resource, origin) for action, resource, origin in changes])


class Orders(unittest.TestCase):
    """`order` is a float of 64 bits in Calico's reference."""

    def test_whole_numbers_stay(self):
        self.assertEqual(whole_numbers([100.0, 1e6, 3, -7.0], 1000), {100: 100, 1e6: 1000000, 3: 3, -7: -7})

    def test_others_keep_how_they_compare_also_with_kubernetes_own(self):
        rows = [[10.5, 10, 11, 1e6, -0.25], [0.1, 0.2, 0.30000000000000004, 0.3], [999.5, 1000, 1000.0, 1000.5], [2.5, 2.5],
                [1e300, -1e300, 5], [998.5, 999, 999.5, 999.75], [2 ** 63, 2 ** 63 - 1, -2 ** 63, 0.5]]
        for orders in rows:
            for fixed in (1000, None):
                self.compare(orders, fixed)

    def compare(self, orders, fixed):
        numbers = whole_numbers(orders, fixed)
        self.assertTrue(all(isinstance(number, int) and -2 ** 63 <= number < 2 ** 63 for number in numbers.values()), orders)
        known = orders + [fixed] * (fixed is not None)
        for a in known:
            for b in known:
                first, second = numbers[a], numbers[b]
                self.assertEqual((a < b, a == b), (first < second, first == second), (a, b, fixed))

    def test_a_whole_order_with_room_stays(self):
        self.assertEqual(whole_numbers([10, 10.5, 11, 20, 1200.5, 1300], 1000),
                         {10: 9, 10.5: 10, 11: 11, 20: 20, 1000: 1000, 1200.5: 1200, 1300: 1300})

    def test_lines_have_whole_numbers_and_keep_what_is_no_number(self):
        rows = [policy(CALICO, "a", {"order": 1.5}), policy(CALICO, "b", {"order": "ten"}), policy(CALICO, "c", {"order": None}), policy(CALICO, "d", {"order": True})]
        found = [line.resource["spec"]["order"] for line in converted(*[("put", row, "f") for row in rows]).lines]
        self.assertEqual(found, [2, "ten", None, True])

    def test_tiers_count_by_themselves(self):
        tiers = [{"apiVersion": CALICO, "kind": "Tier", "metadata": {"name": name}, "spec": {"order": order}} for name, order in (("a", 2.5), ("b", 2.25))]
        found = [line.resource["spec"]["order"] for line in converted(*[("put", tier, "f") for tier in tiers]).lines]
        self.assertEqual(found, [3, 2])


class Kinds(unittest.TestCase):
    def test_what_may_have_a_say(self):
        rows = [
            (CALICO, "GlobalNetworkPolicys", True), (CALICO, "GlobalNetworkPolicy", True), ("crd.projectcalico.org/v1", "NetworkPolicy", True),
            ("cilium.io/v2", "CiliumNetworkPolicy", True), ("cilium.io/v2", "CiliumClusterwideNetworkPolicy", True), ("cilium.io/v2", "CiliumNode", False),
            ("policy.networking.k8s.io/v1alpha1", "AdminNetworkPolicy", True), ("policy.networking.k8s.io/v1alpha1", "BaselineAdminNetworkPolicy", True),
            ("extensions/v1beta1", "NetworkPolicy", True), ("networking.k8s.io/v1", "NetworkPolicies", True), ("security.istio.io/v1", "AuthorizationPolicy", True),
            ("k8s.ovn.org/v1", "EgressFirewall", True), (CALICO, "UnheardOf", True), (CALICO, "IPPool", False), (CALICO, "StagedNetworkPolicy", False),
            ("policy/v1", "PodDisruptionBudget", False), ("policy/v1beta1", "PodSecurityPolicy", False), ("kyverno.io/v1", "ClusterPolicy", False),
            ("v1", "Service", False), ("v1", "ConfigMap", False), ("apps/v1", "Deployment", False), ("v1", "Namespaces", True), (CALICO, "HostEndpoint", False),
        ]
        for version, kind, wanted in rows:
            self.assertEqual(kinds.has_say(version, kind), wanted, (version, kind))

    def test_names_of_kinds_that_may_have_a_say(self):
        rows = [
            ("ciliumnetworkpolicies.cilium.io", True), ("adminnetworkpolicies.policy.networking.k8s.io", True), ("egressfirewalls.k8s.ovn.org", True),
            ("authorizationpolicies.security.istio.io", True), ("networkpolicies.crd.projectcalico.org", False), ("clusterpolicies.kyverno.io", False),
            ("podsecuritypolicies.policy", False), ("poddisruptionbudgets.policy", False), ("clusterpolicyreports.wgpolicyk8s.io", False),
            ("validatingadmissionpolicybindings.admissionregistration.k8s.io", False), ("pods", False), ("stagednetworkpolicies.projectcalico.org", False),
        ]
        for name, wanted in rows:
            self.assertEqual(kinds.may_be_policies(name), wanted, name)

    def test_a_kind_that_is_almost_known_is_named(self):
        self.assertEqual(kinds.why_not_read(CALICO, "GlobalNetworkPolicys"), "no such kind is known; is GlobalNetworkPolicy meant?")


class Fields(unittest.TestCase):
    def test_paths_are_kubectls(self):
        rule = {"from": [{"podSelector": {"matchLabel": {}}, "ipBlock": {"cidr": "10.0.0.0/8", "exept": []}}], "port": []}
        spec = {"podSelecter": {}, "ingress": [{}, rule], "policyTypes": ["Ingress"]}
        self.assertEqual(unknown_fields(policy(KUBERNETES, "p", spec, namespace="a")), [
            "spec.podSelecter", "spec.ingress[1].from[0].podSelector.matchLabel", "spec.ingress[1].from[0].ipBlock.exept", "spec.ingress[1].port"])
        calico = {"selector": "all()", "ingress": [{"action": "Allow", "source": {"net": []}, "metadata": {"annotations": {"a": "b"}}}], "applyOnForwards": True}
        self.assertEqual(unknown_fields(policy(CALICO, "p", calico)), ["spec.ingress[0].source.net", "spec.applyOnForwards"])

    def test_what_is_as_it_should_be_and_what_is_of_no_known_kind(self):
        pod = {"apiVersion": "v1", "kind": "Pod", "metadata": {"name": "a", "lables": {}}, "spec": {"anything": 1}, "status": {}}
        self.assertEqual(unknown_fields(pod), ["metadata.lables"])
        for value in ({"apiVersion": "v1", "kind": "Service", "odd": 1}, {"kind": ["odd"]}, {}, policy(CALICO, "p", {"order": 1.5, "types": []})):
            self.assertEqual(unknown_fields(value), [])


class Changes(unittest.TestCase):
    NAMESPACE = {"apiVersion": "v1", "kind": "Namespace", "metadata": {"name": "a"}}
    POD = {"apiVersion": "v1", "kind": "Pod", "metadata": {"name": "p", "namespace": "a"}, "spec": {"nodeName": "n"}, "status": {"podIP": "10.0.0.1"}}

    def test_what_kubectl_would_refuse(self):
        made = converted(("put", self.NAMESPACE, "one"), ("put", policy(KUBERNETES, "p", {}, namespace="b"), "two"),
                         ("delete", policy(KUBERNETES, "q", {}, namespace="a"), "two"), ("delete", self.NAMESPACE, "two"))
        self.assertEqual(made.mistakes, ["NetworkPolicy b/p (two) is of the namespace b, which isn't in the input",
                                         "NetworkPolicy a/q (two) is deleted, and isn't there"])

    def test_a_namespace_may_stand_as_its_profile_and_without_namespaces_nothing_is_said(self):
        profile = {"apiVersion": CALICO, "kind": "Profile", "metadata": {"name": "kns.b"}, "spec": {}}
        for first in (("put", profile, "one"), ("put", policy(CALICO, "g", {}), "one")):
            self.assertEqual(converted(first, ("put", policy(KUBERNETES, "p", {}, namespace="b"), "two")).mistakes, [])

    def test_a_pod_is_deleted_by_its_name(self):
        named = {"apiVersion": "v1", "kind": "Pod", "metadata": self.POD["metadata"]}
        made = converted(("put", self.POD, "one"), ("delete", named, "two"))
        self.assertEqual([(line.action, line.resource["metadata"]["name"]) for line in made.lines], [("put", "n-k8s-p-eth0"), ("delete", "n-k8s-p-eth0")])
        self.assertEqual(made.mistakes, [])

    def test_what_stands_in_two_files(self):
        other = dict(self.NAMESPACE, metadata={"name": "a", "labels": {"b": "c"}})
        self.assertEqual(converted(("put", self.NAMESPACE, "one"), ("put", self.NAMESPACE, "one")).repeated_texts(), [])
        self.assertEqual(converted(("put", self.NAMESPACE, "one"), ("put", self.NAMESPACE, "two")).repeated_texts(), ["Namespace a stands in one and in two, alike"])
        self.assertIn("not alike: the last one counts", converted(("put", self.NAMESPACE, "one"), ("put", other, "two")).repeated_texts()[0])


class HostPolicies(unittest.TestCase):
    def lines(self, *rows):
        made = converted(*[("put", policy(CALICO, name, spec), "f") for name, spec in rows])
        return [(line.action, line.resource["metadata"]["name"], line.resource["spec"].get("applyOnForward")) for line in without_host_policies(made.lines)]

    def test_what_is_for_hosts_alone_is_left_out(self):
        rows = [("a", {"preDNAT": True, "applyOnForward": True}), ("b", {"doNotTrack": True}), ("c", {"applyOnForward": True}), ("d", {"preDNAT": False})]
        self.assertEqual(self.lines(*rows), [("put", "c", None), ("put", "d", None)])

    def test_one_that_takes_another_ones_place_deletes_it(self):
        self.assertEqual(self.lines(("a", {}), ("a", {"preDNAT": True})), [("put", "a", None), ("delete", "a", None)])

    def test_types_follow_from_the_rules(self):
        rows = [(KUBERNETES, {}, ["Ingress"]), (KUBERNETES, {"egress": [{}]}, ["Ingress", "Egress"]), (CALICO, {"egress": [{}]}, ["Egress"]),
                (CALICO, {"egress": [{}], "ingress": [{}]}, ["Ingress", "Egress"]), (CALICO, {}, ["Ingress"])]
        for version, spec, wanted in rows:
            self.assertEqual(types_of(policy(version, "p", spec, namespace="a"), spec), wanted, (version, spec))


class Failsafe(unittest.TestCase):
    def test_ports(self):
        self.assertEqual(ports_of([{"protocol": "tcp", "port": 22}, {"port": 80, "net": "10.0.0.0/8"}]), [("TCP", 22, ""), ("TCP", 80, "10.0.0.0/8")])
        self.assertIn(("TCP", 22, ""), DEFAULTS[INBOUND])

    def test_a_net_beside_a_port(self):
        for address, net, wanted in (("10.1.2.3", "10.0.0.0/8", True), ("11.1.2.3", "10.0.0.0/8", False), ("11.1.2.3", "", True), ("11.1.2.3", "fd00::/8", False)):
            self.assertEqual(is_in(address, net), wanted)


class Words(unittest.TestCase):
    def test_json_that_breaks_off_or_is_none(self):
        rows = [
            ('{"kind":"A"}\n{"kind":\n"B', "the JSON that begins in line 2 breaks off at the file's end, in line 3"),
            ('{"kind":"A",\n', "the JSON that begins in line 1 breaks off at the file's end, in line 1"),
            ('{"kind":"A",}', "line 1, column 1[23]: this isn't JSON"),
            ('{"a":1}\nkind: B\n', "what begins in line 2 isn't JSON"),
            ("[" * 100000, "the JSON that begins in line 1"),
        ]
        for text, wanted in rows:
            with self.assertRaisesRegex(InputError, "a file: " + wanted, msg=text[:40]):
                list(documents(text, "a file"))

    def test_what_is_wanted_at_a_path(self):
        rows = [
            ("spec.order", "a number"), ("spec.ingress[0].action", "Allow, Deny, Log or Pass"), ("spec.ingress[2].source.nets[1]", "a net, as 10.0.0.0/8"),
            ("spec.egress[0].destination.ports[3]", "a port: a number, a range as 8000:8080, or a port's name"), ("metadata.labels.a", "labels: an object whose values are texts"),
            ("spec.ingress", "a list"), ("spec.ingress[0]", "an object"), ("spec.types[0]", "a list of Ingress and Egress"), ("spec.unheard", ""),
        ]
        for path, wanted in rows:
            self.assertEqual(refusals.wanted_at(path), wanted, path)

    def test_what_stands_there(self):
        self.assertEqual(refusals.value_at({"spec": {"ingress": [{}, {"action": "Permit"}]}}, "spec.ingress[1].action"), "Permit")
        self.assertIsNone(refusals.value_at({"spec": []}, "spec.ingress[1].action"))


if __name__ == "__main__":
    unittest.main()
