"""Pods as workload endpoints, and what is left out of lines."""
import unittest

from felix_tools import pods
from felix_tools.conversion import convert, input_of
from felix_tools.reading import Change, InputError, documents, resources_of


def pod(**spec):
    status = spec.pop("status", {"phase": "Running", "podIP": "10.244.0.9"})
    metadata = dict({"name": "podA", "namespace": "default"}, **spec.pop("metadata", {}))
    return {"apiVersion": "v1", "kind": "Pod", "metadata": metadata, "spec": dict({"nodeName": "node-a"}, **spec), "status": status}


class Pods(unittest.TestCase):
    def test_the_interface_is_the_one_of_calicos_own_test(self):
        # libcalico-go, lib/backend/k8s/conversion: podA of default
        self.assertEqual(pods.interface_name("default", "podA"), "cali7f94ce7c295")

    def test_dashes_of_an_endpoints_name_are_doubled(self):
        self.assertEqual(pods.endpoint_name("node-a", "web-0"), "node--a-k8s-web--0-eth0")

    def test_who_has_no_endpoint(self):
        rows = [
            (pod(), None),
            (pod(hostNetwork=True), "on the host's network"),
            (pod(hostNetwork=False), None),
            (pod(nodeName=None), "not on a node yet"),
            (pod(status={"phase": "Succeeded", "podIP": "10.244.0.9"}), "ended"),
            (pod(status={"phase": "Failed"}), "ended"),
            (pod(status={"phase": "Pending"}), "without an address"),
            (pod(status=None), "without an address"),
            (pod(metadata={"deletionTimestamp": "2026-03-02T09:14:07Z"}), None),
            (pod(metadata={"deletionTimestamp": "2026-03-02T09:14:07Z", "annotations": {pods.ADDRESS_NOTE: ""}}), "ended"),
        ]
        for row, why in rows:
            self.assertEqual(pods.why_no_endpoint(row), why, row)

    def test_addresses(self):
        both = [{"ip": "10.244.0.9"}, {"ip": "fd00::9"}]
        noted = {"annotations": {pods.ADDRESSES_NOTE: "10.244.0.9/32,fd00::9/128"}}
        rows = [
            ({"podIP": "10.244.0.9", "podIPs": both}, {}, ["10.244.0.9/32", "fd00::9/128"]),
            ({"podIP": "10.244.0.9", "podIPs": None}, {}, ["10.244.0.9/32"]),
            ({"podIP": None}, noted, ["10.244.0.9/32", "fd00::9/128"]),
        ]
        for status, metadata, nets in rows:
            self.assertEqual(pods.endpoint_of(pod(status=status, metadata=metadata))["spec"]["ipNetworks"], nets)

    def test_ports_without_a_name_are_left_out(self):
        containers = [
            {"name": "a", "ports": [{"name": "http", "containerPort": 80}, {"containerPort": 81, "protocol": "TCP"}]},
            {"name": "b", "ports": None},
            {"name": "c", "ports": [{"name": "dns", "containerPort": 53, "protocol": "UDP"}]},
        ]
        self.assertEqual(pods.endpoint_of(pod(containers=containers))["spec"]["ports"], [
            {"name": "http", "protocol": "TCP", "port": 80}, {"name": "dns", "protocol": "UDP", "port": 53}])

    def test_profiles_are_the_namespaces_and_the_accounts(self):
        made = pods.endpoint_of(pod(serviceAccountName="web"))
        self.assertEqual(made["spec"]["profiles"], ["kns.default", "ksa.default.web"])
        self.assertEqual(made["spec"]["serviceAccountName"], "web")
        self.assertEqual(made["spec"]["orchestrator"], "k8s")
        self.assertEqual(pods.endpoint_of(pod())["spec"]["profiles"], ["kns.default"])


def calico(kind, name, spec=None, **metadata):
    return {"apiVersion": "projectcalico.org/v3", "kind": kind, "metadata": dict({"name": name}, **metadata), "spec": spec}


def converted(*resources):
    return convert([Change("put", resource, "a file") for resource in resources])


class Conversion(unittest.TestCase):
    def test_members_that_are_not_read_are_dropped(self):
        namespace = {"apiVersion": "v1", "kind": "Namespace", "status": {"phase": "Active"}, "spec": {"finalizers": ["kubernetes"]},
                     "metadata": {"name": "a", "labels": None, "uid": "1", "managedFields": [{}], "namespace": None}}
        self.assertEqual(converted(namespace).lines[0].resource, {
            "apiVersion": "v1", "kind": "Namespace", "metadata": {"name": "a", "labels": {"projectcalico.org/name": "a"}}})

    def test_labels_that_are_none_are_left_for_the_program_to_refuse(self):
        namespace = {"apiVersion": "v1", "kind": "Namespace", "metadata": {"name": "a", "labels": ["b"]}}
        self.assertEqual(converted(namespace).lines[0].resource["metadata"]["labels"], ["b"])

    def test_copies_of_kubernetes_policies_are_left_out_where_the_policy_is_there(self):
        copy = calico("NetworkPolicy", "knp.default.p", {}, namespace="a")
        own = {"apiVersion": "networking.k8s.io/v1", "kind": "NetworkPolicy", "metadata": {"name": "p", "namespace": "a"}, "spec": {}}
        self.assertEqual(len(converted(copy).lines), 1)
        self.assertEqual([line.written for line in converted(copy, own).lines], [own])

    def test_what_may_have_a_say_is_told_apart(self):
        stored = dict(calico("GlobalNetworkPolicy", "g"), apiVersion="crd.projectcalico.org/v1")
        service = {"apiVersion": "v1", "kind": "Service", "metadata": {"name": "s"}}
        left_out = converted(stored, service, service, {"kind": ["odd"]}).left_out
        self.assertEqual(len(left_out.texts(True)), 1)
        others = [text.split(":")[0] for text in left_out.texts(False)]
        self.assertEqual(others, ["2 Service of v1", "1 object without kind of no apiVersion"])

    def test_odd_values_are_passed_on_or_left_out_and_never_stop_a_run(self):
        odd = [calico("Tier", 5), calico("NetworkPolicy", None, [], namespace={}), calico("WorkloadEndpoint", "w", {"ports": [None, 7]}),
               dict(calico("Profile", "p"), metadata=None), pod(metadata={"name": None}), {}]
        self.assertTrue(input_of(converted(*odd).lines).endswith('{"inSync":true}\n{"flush":{}}\n'))


class Reading(unittest.TestCase):
    def resources(self, text):
        return [found for value in documents(text, "a file") for found in resources_of(value, "a file")]

    def test_lists_single_objects_and_several_documents(self):
        rows = [
            ('{"kind":"Tier"}', [{"kind": "Tier"}]),
            ('{"kind":"A"}\n{"kind":"B"}', [{"kind": "A"}, {"kind": "B"}]),
            ('{"kind":"List","items":[{"kind":"A"},{"kind":"List","items":[{"kind":"B"}]}]}', [{"kind": "A"}, {"kind": "B"}]),
            ('{"kind":"PodList","apiVersion":"v1","items":[{"metadata":{}}]}', [{"kind": "Pod", "apiVersion": "v1", "metadata": {}}]),
            ('{"kind":"TierList","items":null}', []),
            ('[{"kind":"A"},[{"kind":"B"}]]', [{"kind": "A"}, {"kind": "B"}]),
            ('{"put":{"kind":"A"}}\n{"inSync":true}\n{"flush":{}}\n{"packet":{}}\n', [{"kind": "A"}]),
            (" \n", []),
        ]
        for text, wanted in rows:
            self.assertEqual(self.resources(text), [("put", resource) for resource in wanted], text)

    def test_a_delete_stays_one(self):
        self.assertEqual(self.resources('{"delete":{"kind":"A"}}'), [("delete", {"kind": "A"})])

    def test_a_batch_is_read_element_by_element(self):
        wanted = [("put", {"kind": "A"}), ("delete", {"kind": "B"})]
        self.assertEqual(self.resources('{"batch":[{"put":{"kind":"A"}},{"delete":{"kind":"B"}}]}\n{"batch":[]}\n'), wanted)

    def test_what_is_no_json_is_named_with_its_line(self):
        with self.assertRaisesRegex(InputError, "a file: what begins in line 2 isn't JSON"):
            self.resources('{"kind":"A"}\nkind: B\n')
        with self.assertRaisesRegex(InputError, "a resource is a JSON object"):
            self.resources("[1]")


if __name__ == "__main__":
    unittest.main()
