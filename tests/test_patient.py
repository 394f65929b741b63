"""`rly serve --patient`: a link whose address isn't there yet is opened later, and the others are served meanwhile."""
import os
import socket
import subprocess
import sys
import time
import unittest

from program import TOP, Rows
from test_serve import custody, datagram, free_ports
from test_service import packaged_unit
from test_silent_links import Log

# Station 7 with two peers, stations 3 and 4, and one hop.
PLAN = """station = 7
[[peer]]
id = 1
station = 3
listen = "{}"
remote = "{}"
[[peer]]
id = 2
station = 4
listen = "{}"
remote = "{}"
[[hop]]
id = 1
station = 9
listen = "{}"
remote = "127.0.0.1:9"
contacts = []
[[route]]
destination = 12
hop = 1
"""
# An address that a machine has only if it is given to it.
ELSEWHERE = "192.0.2.1"
# What a try at an address says that isn't there, or that another program has.
MISSING, TAKEN = "Cannot assign requested address (os error 99)", "Address already in use (os error 98)"
# A try is made after 5 s, and after 10 more. A line is there soon after its try.
FIRST, SECOND, SOON = 5.0, 15.0, 3.0
# The tests in namespaces of their own are run in a second process, which has this variable.
WITHIN = "RLY_TESTS_WITHIN"


def may_unshare():
    """Whether this user may have namespaces of the network and of files, and the program that changes addresses."""
    words = ["unshare", "--map-root-user", "--net", "--mount", "ip", "link", "set", "lo", "up"]
    try:
        return subprocess.run(words, capture_output=True).returncode == 0
    except FileNotFoundError:
        return False


class Patient(Rows):
    """Stations with two peers and a hop at ports that are free."""

    def setUp(self):
        super().setUp()
        self.ports = free_ports(5)
        words = ["--hops=1", "--peers=2", "--items=16", "--bytes=4096"]
        self.assertEqual(self.rly("format", "device", *words).returncode, 0)

    def write_plan(self, *listens, remote=None):
        """Writes a plan with some `listen` of peer 1, peer 2 and hop 1 in place of theirs, and with a `remote` of peer 1."""
        ends = [f"127.0.0.1:{port}" for port in self.ports]
        first, second, hop = [*listens, *[None] * 3][:3]
        self.write("plan", PLAN.format(first or ends[0], remote or ends[1], second or ends[2], ends[3], hop or ends[4]))

    def serve(self):
        """A station that serves the plan patiently; its log."""
        self.began = time.monotonic()
        log = Log(self.start("serve", "device", "plan", "--patient"))
        self.assertTrue(log.wait_for("rly: serving", SOON).startswith("rly: serving station 7, 2 peers"), log.text)
        return log

    def expect_line(self, log, line, by):
        """Checks that a line comes at this many seconds after the start, and not before."""
        self.assertEqual(log.wait_for(line, by + SOON), line)
        self.assertGreater(time.monotonic() - self.began, by - 0.1, line)

    def expect_taken(self, peer, number):
        """A peer's datagram is taken, and its custody comes."""
        station, (own, other) = 2 + peer, self.ports[2 * peer - 2:2 * peer]
        with socket.socket(socket.AF_INET, socket.SOCK_DGRAM) as end:
            end.bind(("127.0.0.1", other))
            end.settimeout(SOON)
            end.sendto(datagram(station, number), ("127.0.0.1", own))
            self.assertEqual(end.recv(64), custody(station, number))

    def held(self, port):
        """A socket that has a port."""
        end = self.enterContext(socket.socket(socket.AF_INET, socket.SOCK_DGRAM))
        end.bind(("127.0.0.1", port))
        return end


class Links(Patient):
    def test_a_port_that_is_free_later(self):
        """The other peer is served meanwhile. The link is open at its next try, and hears then."""
        self.write_plan()
        port = self.ports[0]
        holder = self.held(port)
        log = self.serve()
        self.expect_line(log, f"rly: peer 1: listen 127.0.0.1:{port}: {TAKEN}, tries again in 5 s", 0)
        self.expect_taken(2, 1)
        holder.close()
        self.expect_line(log, "rly: peer 1: link open", FIRST)
        self.expect_taken(1, 1)
        self.assertEqual(log.text.count(b"peer 1"), 3, log.text)

    def test_a_hop_whose_port_is_free_later(self):
        self.write_plan()
        port = self.ports[4]
        holder = self.held(port)
        log = self.serve()
        self.expect_line(log, f"rly: hop 1: listen 127.0.0.1:{port}: {TAKEN}, tries again in 5 s", 0)
        self.expect_taken(1, 1)
        holder.close()
        self.expect_line(log, "rly: hop 1: link open", FIRST)

    def test_a_reason_that_stays_is_told_once(self):
        self.write_plan(f"{ELSEWHERE}:{self.ports[0]}")
        log = self.serve()
        self.expect_line(log, f"rly: peer 1: listen {ELSEWHERE}:{self.ports[0]}: {MISSING}, tries again in 5 s", 0)
        log.wait_for("nothing", FIRST + SOON)
        self.assertEqual(log.text.count(b"tries again"), 1, log.text)

    def test_without_it_the_first_fault_ends_it(self):
        self.write_plan(None, f"{ELSEWHERE}:4001")
        self.expect("serve", "device", "plan", errors=f"rly: link failed\nrly: peer 2: listen {ELSEWHERE}:4001: {MISSING}\n", status=1)

    def test_a_station_without_an_open_link_ends(self):
        """What is told is the fault of the first link."""
        self.write_plan("127.0.0.1:0", f"{ELSEWHERE}:4001", f"{ELSEWHERE}:4002")
        errors = "rly: link failed\nrly: peer 1: listen 127.0.0.1:0: a neighbour can't send to port 0\n"
        self.expect("serve", "device", "plan", "--patient", errors=errors, status=1)

    def test_turns_end_though_a_link_is_not_open(self):
        self.write_plan(f"{ELSEWHERE}:{self.ports[0]}")
        run = self.rly("serve", "device", "plan", "--patient", "--turns=20")
        self.assertEqual(run.returncode, 0, run.stderr)
        self.assertTrue(run.stderr.endswith(b"rly: ended after 20 turns\n"), run.stderr)

    def test_the_units_are_patient(self):
        """Their options serve a plan with an address that isn't there."""
        self.write_plan(f"{ELSEWHERE}:{self.ports[0]}")
        with open(f"{TOP}/examples/rly.service") as file:
            units = [file.read(), packaged_unit()]
        for unit in units:
            start = [line for line in unit.splitlines() if line.startswith("ExecStart=")]
            options = start[-1].split()[4:]
            self.assertEqual(self.rly("serve", "device", "plan", "--turns=20", *options).returncode, 0, start)

    @unittest.skipUnless(may_unshare(), "this user may have no namespaces")
    def test_in_namespaces(self):
        """Runs the tests of `Within` in namespaces of their own."""
        words = ["unshare", "--map-root-user", "--net", "--mount", sys.executable, "-m", "unittest", "test_patient.Within"]
        run = subprocess.run(words, env={**os.environ, WITHIN: "1"}, capture_output=True, text=True, cwd=os.path.dirname(__file__))
        self.assertEqual(run.returncode, 0, run.stderr)


@unittest.skipUnless(WITHIN in os.environ, "run by Links.test_in_namespaces")
class Within(Patient):
    """Tests whose addresses and names come and go."""

    def ip(self, *words):
        subprocess.run(["ip", *words], check=True)

    def setUp(self):
        super().setUp()
        self.ip("link", "set", "lo", "up")

    def elsewhere(self, does):
        self.ip("addr", does, f"{ELSEWHERE}/32", "dev", "lo")

    def expect_heard(self, number):
        """Peer 1's datagram is taken at the address that comes and goes, and the custody goes out from there."""
        listen = (ELSEWHERE, self.ports[0])
        with socket.socket(socket.AF_INET, socket.SOCK_DGRAM) as end:
            end.bind(("127.0.0.1", self.ports[1]))
            end.settimeout(SOON)
            end.sendto(datagram(3, number), listen)
            self.assertEqual(end.recvfrom(64), (custody(3, number), listen))

    def test_an_address_that_comes_and_goes(self):
        """Another reason is told, with the wait after its try. An open link outlives its address, which it has again."""
        listen = f"{ELSEWHERE}:{self.ports[0]}"
        self.write_plan(listen)
        log = self.serve()
        self.expect_line(log, f"rly: peer 1: listen {listen}: {MISSING}, tries again in 5 s", 0)
        self.elsewhere("add")
        holder = self.enterContext(socket.socket(socket.AF_INET, socket.SOCK_DGRAM))
        holder.bind((ELSEWHERE, self.ports[0]))
        self.expect_line(log, f"rly: peer 1: listen {listen}: {TAKEN}, tries again in 10 s", FIRST)
        holder.close()
        self.expect_line(log, "rly: peer 1: link open", SECOND)
        self.expect_heard(1)
        self.elsewhere("del")
        self.expect_taken(2, 1)
        self.elsewhere("add")
        self.expect_heard(2)

    def test_a_name_that_is_known_later(self):
        hosts = self.write("hosts", "127.0.0.1 localhost\n", 0o644)
        subprocess.run(["mount", "--bind", hosts, "/etc/hosts"], check=True)
        self.addCleanup(subprocess.run, ["umount", "/etc/hosts"], check=True)
        self.write_plan(remote=f"buoy.example:{self.ports[1]}")
        log = self.serve()
        line = log.wait_for("rly: peer 1: remote", 2 * SOON)
        self.assertTrue(line.startswith(f"rly: peer 1: remote buoy.example:{self.ports[1]}: "), line)
        self.assertTrue(line.endswith(", tries again in 5 s"), line)
        with open(hosts, "a") as file:
            file.write("127.0.0.1 buoy.example\n")
        self.expect_line(log, "rly: peer 1: link open", FIRST)
        self.expect_taken(1, 1)
