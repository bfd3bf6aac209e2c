"""fbr-forte over a network: runs the tests of forte_inside.py in a network namespace. Where none can be made it is skipped, with the reason."""
import os
import shutil
import subprocess
import unittest

import parts
from forte_inside import OUTSIDE, PYTHON, namespace

APART = ["unshare", "--net", "--mount", "--propagation", "private", *([] if os.geteuid() == 0 else ["--user", "--map-root-user"])]
NETWORK = """
mount -t tmpfs none /run && mkdir /run/netns
ip link set lo up multicast on
ip netns add forte
ip -n forte link set lo up multicast on
ip link add cable type veth peer name eth0 netns forte
ip addr add 10.72.0.1/24 dev cable && ip link set cable up
ip -n forte addr add 10.72.0.2/24 dev eth0 && ip -n forte link set eth0 up
"""
# The programs that make namespaces, and their packages.
PACKAGES = {"ip": "iproute2", "unshare": "util-linux", "mount": "mount"}
MOST = 300.0


def lacking():
    """Why no namespaces can be made here; empty where they can."""
    missing = [package for name, package in PACKAGES.items() if not shutil.which(name)]
    if missing:
        return f"{', '.join(missing)} missing"
    probe = subprocess.run([*APART, "sh", "-ec", NETWORK], capture_output=True, text=True)
    return f"no network namespaces can be made here: {(probe.stderr or '?').splitlines()[0]}" if probe.returncode else ""


class Network(unittest.TestCase):
    """Two devices, the gateway and a peer."""

    def test_in_a_namespace(self):
        if reason := lacking():
            self.skipTest(reason)
        env = {**os.environ, "FBR": parts.program(), OUTSIDE: namespace(), "PYTHONDONTWRITEBYTECODE": "1"}
        inside = [*APART, "sh", "-ec", f'{NETWORK} exec "$@"', "sh", PYTHON, parts.TESTS / "forte_inside.py"]
        done = subprocess.run(inside, env=env, capture_output=True, text=True, timeout=MOST)
        self.assertEqual(done.returncode, 0, f"{done.stdout}{done.stderr}")
        self.assertRegex(done.stderr, r"(?m)^Ran [1-9][0-9]* tests in .*\n\nOK$")


if __name__ == "__main__":
    unittest.main()
