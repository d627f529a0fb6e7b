"""What pods belong to, and the names of several pods."""
import unittest

from felix_tools import workloads
from felix_tools.workloads import Workload


def pod(labels=None, *owners):
    return {"metadata": {"labels": labels or {}, "ownerReferences": [dict({"kind": kind, "name": name}, **more) for kind, name, more in owners]}}


class Workloads(unittest.TestCase):
    def test_by_owner(self):
        rows = [
            (pod({"pod-template-hash": "7d9c"}, ("ReplicaSet", "web-7d9c", {})), ("deployment", "web")),
            (pod({"pod-template-hash": "7d9c"}, ("ReplicaSet", "web-front-7d9c", {"controller": True})), ("deployment", "web-front")),
            (pod({}, ("ReplicaSet", "web-7d9c", {})), ("replicaset", "web-7d9c")),
            (pod({}, ("StatefulSet", "db", {})), ("statefulset", "db")),
            (pod({}, ("DaemonSet", "agent", {})), ("daemonset", "agent")),
            (pod({}, ("Job", "report-29384640", {})), ("job", "report-29384640")),
            (pod({}, ("Node", "worker-1", {})), ("pod", "x")),
            (pod({}, ("StatefulSet", "db", {"controller": False})), ("pod", "x")),
            (pod(), ("pod", "x")),
        ]
        for resource, wanted in rows:
            self.assertEqual(workloads.workload_of(resource, "a", "x"), Workload(wanted[0], "a", wanted[1]), resource)

    def test_by_labels_where_no_owner_is_told(self):
        rows = [
            ({"pod-template-hash": "7d9c"}, "web-7d9c-x2x4z", ("deployment", "web")),
            ({"pod-template-hash": "7d9c"}, "web-8888-x2x4z", ("pod", "web-8888-x2x4z")),
            ({"statefulset.kubernetes.io/pod-name": "db-12"}, "db-12", ("statefulset", "db")),
            ({"statefulset.kubernetes.io/pod-name": "db-12"}, "db-1", ("pod", "db-1")),
        ]
        for labels, name, wanted in rows:
            self.assertEqual(workloads.workload_of(pod(labels), "a", name), Workload(wanted[0], "a", wanted[1]), name)

    def test_names(self):
        rows = [
            ("shop/web", (None, "shop", "web")), ("deployment/web", ("deployment", None, "web")), ("deploy/web", ("deployment", None, "web")),
            ("shop/sts/db", ("statefulset", "shop", "db")), ("web", None), ("a/b/c", None),
        ]
        for text, wanted in rows:
            self.assertEqual(workloads.named_workload(text), wanted, text)

    def test_labels(self):
        self.assertEqual(workloads.selection("shop/app=web,tier==front"), ("shop", {"app": "web", "tier": "front"}))
        self.assertEqual(workloads.selection("shop/example.com/app=web"), ("shop", {"example.com/app": "web"}))
        for text in ("app=web", "shop/app=web,tier", "/app=web", "shop/=web"):
            self.assertIsNone(workloads.selection(text), text)
        self.assertTrue(workloads.has_labels({"app": "web", "x": "y"}, {"app": "web"}))
        self.assertFalse(workloads.has_labels({"app": "web"}, {"app": "web", "x": "y"}))

    def test_the_namespace_of_names_that_have_none(self):
        rows = [
            ("web", "shop/web"), ("deployment/web", "shop/deployment/web"), ("app=web", "shop/app=web"), ("example.com/app=web", "shop/example.com/app=web"),
            ("a/web", "a/web"), ("a/deployment/web", "a/deployment/web"), ("a/app=web", "a/app=web"), ("*", "shop/*"), ("*/web", "*/web"),
        ]
        for text, wanted in rows:
            self.assertEqual(workloads.with_namespace(text, "shop"), wanted)
            self.assertEqual(workloads.with_namespace(text, None), text)


if __name__ == "__main__":
    unittest.main()
