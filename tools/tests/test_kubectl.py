"""kubectl-felix over stand-ins for kubectl and calicoctl, which print stored dumps, and for the program."""
import json
import os
import shutil
import subprocess
import sys
import tempfile
import unittest

TESTS = os.path.dirname(os.path.abspath(__file__))
TOOLS = os.path.dirname(TESTS)
BAKERY = os.path.join(TESTS, "data", "bakery")
SERVED = ("pods namespaces serviceaccounts services nodes networkpolicies.networking.k8s.io endpointslices.discovery.k8s.io "
          "ingresses.networking.k8s.io ")
STORED = "tiers globalnetworkpolicies networkpolicies globalnetworksets networksets hostendpoints felixconfigurations"
ASKED = ["ask", "--from", "bakery/web", "--to", "bakery/db", "--tcp", "pg"]
# Says of each packet that no rule of the tables met it, in the place of the program.
PROGRAM = """\
#!/bin/sh
while read -r line; do case $line in '{"packet"'*) echo 'path -'; echo 'verdict deny';; esac; done
"""


def write(path, text):
    with open(path, "w", encoding="utf-8") as file:
        file.write(text)
    os.chmod(path, 0o755)


class Plugin(unittest.TestCase):
    def setUp(self):
        self.room = tempfile.mkdtemp()
        self.addCleanup(shutil.rmtree, self.room)
        for folder in ("bin", "cluster", "temporary"):
            os.mkdir(self.path(folder))
        for name in ("cluster.json", "calico.json"):
            shutil.copy(os.path.join(BAKERY, name), self.path("cluster"))
        write(self.path("program"), PROGRAM)
        self.serves("crd.projectcalico.org")
        self.has("kubectl", "calicoctl")
        os.symlink(os.path.realpath(sys.executable), self.path("bin", "python3"))

    def path(self, *names):
        return os.path.join(self.room, *names)

    def has(self, *commands):
        for command in commands:
            shutil.copy(os.path.join(TESTS, "fake_kubectl"), self.path("bin", command))

    def serves(self, group, *others):
        names = ["%s.%s" % (name, group) for name in STORED.split() if group]
        write(self.path("cluster", "served"), SERVED + " ".join(names + list(others)))

    def forbids(self, *kinds):
        write(self.path("cluster", "forbidden"), " ".join(kinds))

    def run_it(self, *words, **more):
        environment = {name: value for name, value in os.environ.items() if not name.startswith(("FELIX_", "DATASTORE"))}
        environment.update(PATH=self.path("bin"), FAKE_CLUSTER=self.path("cluster"), TMPDIR=self.path("temporary"),
                           FELIX_REPLAY=self.path("program"), FELIX_SERVICES=self.path("program"), **more)
        how = {"stdin": subprocess.DEVNULL, "stdout": subprocess.PIPE, "stderr": subprocess.PIPE, "universal_newlines": True}
        done = subprocess.run([sys.executable, os.path.join(TOOLS, "kubectl-felix")] + list(words), env=environment, cwd=self.room, **how)
        self.assertEqual(os.listdir(self.path("temporary")), [])
        return done

    def calls(self):
        with open(self.path("cluster", "calls"), encoding="utf-8") as file:
            return sorted(file.read().splitlines())

    def test_a_question_about_the_cluster(self):
        done = self.run_it(*ASKED)
        self.assertEqual((done.stderr, done.returncode), ("", 1))
        self.assertTrue(done.stdout.startswith("bakery/web (5 pods) to bakery/db (2 pods), TCP 5432 (pg): DENIED\n"), done.stdout)
        calls = self.calls()
        for call in ("kubectl api-resources -o name", "kubectl get pods -A -o json", "kubectl get namespaces -o json",
                     "kubectl get networkpolicies.networking.k8s.io -A -o json",
                     "DATASTORE_TYPE=kubernetes calicoctl get globalnetworkpolicies -o json",
                     "DATASTORE_TYPE=kubernetes calicoctl get networkpolicies -A -o json"):
            self.assertIn(call, calls)
        self.assertFalse([call for call in calls if "crd.projectcalico.org" in call])

    def test_what_kubectl_is_told_it_is_told(self):
        self.run_it(*ASKED, "--context", "east", "--kubeconfig", "/some/where")
        for call in self.calls():
            wanted = "--context=east" if "calicoctl" in call else "kubectl --context east --kubeconfig /some/where "
            self.assertIn(wanted, call)
            self.assertTrue("KUBECONFIG=/some/where " in call or call.startswith("kubectl"), call)

    def test_a_namespace_alone(self):
        done = self.run_it("ask", "-n", "bakery", "-n", "payments", "--from", "web", "--to", "payments/ledger", "--tcp", "api")
        self.assertEqual(done.stderr, "tools/kubectl-felix: of the namespaces bakery, payments alone: what stands in others isn't in what follows\n")
        self.assertIn("bakery/web (5 pods) to payments/ledger (2 pods), TCP 9000 (api): DENIED\n", done.stdout)
        calls = self.calls()
        for call in ("kubectl get pods -n bakery -o json", "kubectl get pods -n payments -o json", "kubectl get namespaces bakery payments -o json"):
            self.assertIn(call, calls)
        self.assertFalse([call for call in calls if " -A " in call])

    def test_calicos_api_where_it_is_served(self):
        self.serves("projectcalico.org")
        self.run_it(*ASKED)
        self.assertIn("kubectl get globalnetworkpolicies.projectcalico.org -o json", self.calls())
        self.assertFalse([call for call in self.calls() if "calicoctl" in call])

    def test_without_calicoctl_the_stored_form_is_read_to_be_told(self):
        os.remove(self.path("bin", "calicoctl"))
        self.run_it(*ASKED)
        self.assertIn("kubectl get globalnetworkpolicies.crd.projectcalico.org -o json", self.calls())

    def test_a_cluster_without_calico(self):
        self.serves("")
        self.run_it(*ASKED)
        self.assertFalse([call for call in self.calls() if "calico" in call])

    def test_what_it_is_not_allowed_to_read_is_told(self):
        self.forbids("networkpolicies.networking.k8s.io", "services")
        done = self.run_it(*ASKED)
        self.assertEqual(done.returncode, 3)
        self.assertIn("tools/kubectl-felix: networkpolicies.networking.k8s.io couldn't be read, so it isn't in what follows, though it may have a "
                      "say: Error from server (Forbidden): ", done.stderr)
        self.assertIn("tools/kubectl-felix: services couldn't be read, so it isn't in what follows: Error from server (Forbidden): ", done.stderr)
        self.assertIn("tools/kubectl-felix: -n NAMESPACE reads one namespace alone\n", done.stderr)

    def test_what_has_no_say_leaves_the_status(self):
        self.forbids("services", "nodes")
        self.assertEqual(self.run_it(*ASKED).returncode, 1)

    def test_without_pods_there_is_no_answer(self):
        self.forbids("pods")
        done = self.run_it(*ASKED)
        self.assertEqual((done.stdout, done.returncode), ("", 2))
        self.assertIn("no pods in the input", done.stderr)

    def test_what_was_fetched_is_kept_where_asked(self):
        done = self.run_it(*ASKED, "--save", self.path("kept"))
        names = sorted(os.listdir(self.path("kept")))
        self.assertIn("pods.json", names)
        self.assertIn("globalnetworkpolicies.projectcalico.org.json", names)
        with open(self.path("kept", "pods.json"), encoding="utf-8") as file:
            self.assertEqual(len(json.load(file)["items"]), 17)
        self.assertIn("kept in %s; the same without the cluster: tools/ask %s" % (self.path("kept"), self.path("kept")), done.stderr)
        self.assertIn(" --from bakery/web --to bakery/db --tcp pg\n", done.stderr)

    def test_policies_of_others_are_read_to_be_told(self):
        self.serves("", "authorizationpolicies.security.istio.io", "adminnetworkpolicies.policy.networking.k8s.io",
                    "podsecuritypolicies.policy", "clusterpolicies.kyverno.io", "poddisruptionbudgets.policy")
        write(self.path("cluster", "wide"), "adminnetworkpolicies.policy.networking.k8s.io")
        istio = {"apiVersion": "security.istio.io/v1", "kind": "AuthorizationPolicy", "metadata": {"name": "all", "namespace": "bakery"}}
        write(self.path("cluster", "istio.json"), json.dumps({"items": [istio]}))
        done = self.run_it(*ASKED)
        self.assertEqual((done.stderr, done.returncode), ("", 3))
        self.assertIn("1 AuthorizationPolicy of security.istio.io/v1: not read", done.stdout)
        calls = self.calls()
        self.assertIn("kubectl get authorizationpolicies.security.istio.io -A -o json", calls)
        self.assertIn("kubectl get adminnetworkpolicies.policy.networking.k8s.io -o json", calls)
        self.assertFalse([call for call in calls if "podsecurity" in call or "kyverno" in call or "disruption" in call])

    def test_a_dump_that_cannot_be_kept(self):
        write(self.path("file"), "")
        done = self.run_it(*ASKED, "--save", self.path("file"))
        self.assertEqual(done.returncode, 5)
        self.assertIn("tools/kubectl-felix: the dump can't be written: %s" % self.path("file"), done.stderr)

    def test_check_without_assertions(self):
        done = self.run_it("check", "--tap")
        self.assertEqual((done.stderr, done.returncode), ("tools/kubectl-felix: check needs a file of assertions: kubectl felix check FILE\n", 2))

    def test_other_tools(self):
        write(self.path("new.json"), '{"apiVersion":"v1","kind":"Namespace","metadata":{"name":"new"}}')
        write(self.path("list"), "bakery/web -> bakery/db tcp/pg deny\n")
        self.assertEqual(self.run_it("check", self.path("list")).stdout.splitlines()[-1], "1 of 1 assertion holds.")
        self.assertEqual(self.run_it("diff", "-f", self.path("new.json"), "--from", "bakery/web", "--to", "bakery/db", "--tcp", "pg").stdout,
                         "0 of 10 verdicts change.\n")
        self.assertEqual(self.run_it("lines").stdout.splitlines()[-1], '{"flush":{}}')
        self.assertIn("diff needs -f FILE", self.run_it("diff", "--from", "bakery/web").stderr)

    def test_words_that_are_wrong(self):
        self.assertEqual(self.run_it("draw").returncode, 2)
        self.assertEqual(self.run_it(*ASKED, "-A", "-n", "shop").returncode, 2)
        self.assertIn("usage: tools/kubectl-felix", self.run_it("--help").stdout)
        self.assertIn("usage: tools/ask", self.run_it("ask", "--help").stdout)

    def test_without_kubectl_it_says_so(self):
        os.remove(self.path("bin", "kubectl"))
        done = self.run_it(*ASKED)
        self.assertEqual((done.stderr, done.returncode), ("tools/kubectl-felix: kubectl isn't on the PATH\n", 2))


if __name__ == "__main__":
    unittest.main()
