"""`rly serve` over loopback and on files, and what it reports."""
import contextlib
import itertools
import os
import random
import resource
import socket
import subprocess
import threading
import time

from program import KEY, NO_DEVICE, RLY, SECONDS, Rows, plan_of

# Station 7, with station 3 upstream and station 9 as the next hop, at four ports.
PLAN = """station = 7
[[peer]]
id = 1
station = 3
listen = "127.0.0.1:{}"
remote = "127.0.0.1:{}"
[[hop]]
id = 1
station = 9
listen = "127.0.0.1:{}"
remote = "127.0.0.1:{}"
contacts = [[100, 200], [300, 350]]
[[route]]
destination = 12
hop = 1
"""

# Data from station 3 to station 7, number 1, payload `000c41`; the same with a limit of 5,000 microseconds; the custody of each.
DATA = bytes.fromhex("524c01010003000700000000000000010003000c41")
LIMITED = bytes.fromhex("524c010400030007000000000000000100000013880003000c41")
CUSTODY = bytes.fromhex("524c0102000700030000000000000001")

# Data 3, ahead of a gap, and the Heard that it brings.
AHEAD = bytes.fromhex("524c01010003000700000000000000030003000c41")
HEARD = bytes.fromhex("524c01050007000300000000000000014000000000000000")

# A second peer, station 4, at two ports.
SECOND_PEER = """[[peer]]
id = 2
station = 4
listen = "127.0.0.1:{}"
remote = "127.0.0.1:{}"
"""

# What station 9 sends as the next hop: Custody, Refused and Heard of number 1, one to another station, and no message.
ANSWERS = [
    bytes.fromhex("524c0102000900070000000000000001"),
    bytes.fromhex("524c010300090007000000000000000106"),
    bytes.fromhex("524c01050009000700000000000000014000000000000000"),
    bytes.fromhex("524c0102000900080000000000000001"),
    b"RL",
]

# What is told of CoDel at the hop of `PLAN`.
CODEL = "rly: hop 1: CoDel drops what waited more than 5 ms over 100 ms of open contact\n"

# What is told of a relay of 20 turns on a new small device.
SERVED = """rly: serving station 7, 1 peers, 1 hops, device 320772 bytes, 0 of 16 live
rly: links without a key: peer 1, hop 1
rly: hop 1: CoDel drops what waited more than 5 ms over 100 ms of open contact
rly: ended after 20 turns
"""

# What is told of one on a small device of two segments whose first write fails.
BROKEN = """rly: serving station 7, 1 peers, 1 hops, device 165880 bytes, 0 of 16 live
rly: links without a key: peer 1, hop 1
rly: hop 1: CoDel drops what waited more than 5 ms over 100 ms of open contact
refused 11 broken
rly: room: device: File too large (os error 27)
"""

# The place behind the gate of a small device's first group. The gate follows the header and the head of the first segment.
FIRST_GROUP = 158

# The books of a small device with one datagram, and of one that took none.
ONE_TAKEN = "hop 1 taken 1 queued 1 flight 0 dropped 0 released 0\npeer 1 last 1\nseq 1\nbalance ok\n"
NONE_TAKEN = "hop 1 taken 0 queued 0 flight 0 dropped 0 released 0\npeer 1 last 0\nseq 0\nbalance ok\n"

# What is told of a plan that isn't there, and of one that is no text.
NO_PLAN = "rly: plan failed\nrly: plan: nowhere: No such file or directory (os error 2)\n"
NO_TEXT = "rly: plan failed\nrly: plan: plan: stream did not contain valid UTF-8\n"

# Plans, and what is told of a relay of theirs whose device isn't there.
PLANS = [
    (b"station = 7 # \xff\n", NO_TEXT),
    ("station = 7\n", "refused 50 plan\nrly: plan: at peer: missing; write 1 to 64 tables [[peer]]\n"),
    ("color = 7\n", "refused 54 plan\nrly: plan: at the top: unknown key color; write station, peer, hop, route\n"),
    (PLAN.format(4001, 4002, 4003, 4004), NO_DEVICE),
]

# What is told where a plan has more peers or hops than the small device.
NO_ROOM = "refused 21 badgeometry\nrly: plan: {} peers and {} hops, but the device has --peers 1 and --hops 1\n"

# Plans of so many peers and hops whose links have these addresses, and what is told of a relay of theirs on a small device.
# `FREE` is an address that is free.
LINKS = [
    (2, 1, "nowhere", "nowhere", NO_ROOM.format(2, 1)),
    (1, 2, "nowhere", "nowhere", NO_ROOM.format(1, 2)),
    (1, 1, "127.0.0.1:0", "FREE", "rly: link failed\nrly: peer 1: listen 127.0.0.1:0: a neighbour can't send to port 0\n"),
    (
        1,
        1,
        "192.0.2.1:4019",
        "FREE",
        "rly: link failed\nrly: peer 1: listen 192.0.2.1:4019: Cannot assign requested address (os error 99)\n",
    ),
    (1, 1, "FREE", "127.0.0.1:x", "rly: link failed\nrly: peer 1: remote 127.0.0.1:x: invalid port value\n"),
    (1, 1, "FREE", "FREE", "rly: link failed\nrly: hop 1: listen FREE: Address already in use (os error 98)\n"),
]

# What the first report tells behind its moment, of a new device.
FIRST = """\
hop 1 taken 0 queued 0 flight 0 dropped 0 released 0 first 0 next 0 count 0 last 0 dropping no moment 0 contact closed wrong 0 \
heard 0 custody 0 refused 0 malformed 0 repeats 0 heards 0
peer 1 heard 0 custody 0 refused 0 malformed 0 wrong 0 repeats 0 heards 0
device seq 0 rounds 0 segments 0
"""


def is_free(port):
    """Whether nobody has a port of UDP, at any address."""
    with socket.socket(socket.AF_INET, socket.SOCK_DGRAM) as probe:
        try:
            probe.bind(("", port))
        except OSError:
            return False
    return True


def free_ports(count):
    """So many ports that are free. None is of those that the system picks by itself, which another program may get meanwhile."""
    ports = random.sample(range(20_000, 30_000), 1_000)
    return list(itertools.islice(filter(is_free, ports), count))


def greatest_plan(port):
    """A plan of 64 peers and 64 hops, each with a loopback address of its own at this port, and a comment of 70,000 bytes."""
    link = 'id = {0}\nstation = {0}\nlisten = "127.0.{1}.{0}:{2}"\nremote = "127.0.0.1:9"\n'
    peers = "".join("[[peer]]\n" + link.format(id, 1, port) for id in range(1, 65))
    hops = "".join("[[hop]]\n" + link.format(id, 2, port) + "contacts = []\n" for id in range(1, 65))
    return f"station = 7\n{peers}{hops}#{'n' * 70_000}"


def last_of(text, word):
    """The last line that begins with a word, without its end."""
    return [line for line in text.splitlines() if line.startswith(word)][-1]


def datagram(station, number):
    """A datagram from a station to station 7, with the payload of `DATA`."""
    return DATA[:4] + station.to_bytes(2, "big") + DATA[6:8] + number.to_bytes(8, "big") + DATA[16:]


def custody(station, number):
    """Its custody."""
    return CUSTODY[:6] + station.to_bytes(2, "big") + number.to_bytes(8, "big")


def bound(port):
    """A socket at a port, whose receives end after a while."""
    end = socket.socket(socket.AF_INET, socket.SOCK_DGRAM)
    end.bind(("127.0.0.1", port))
    end.settimeout(SECONDS)
    return end


def sent_until(end, relay, packet, is_wanted):
    """Sends a packet to a relay every 10 ms until something comes that is wanted, which is the answer."""
    end.settimeout(0.01)
    limit = time.monotonic() + SECONDS
    while time.monotonic() < limit:
        end.sendto(packet, relay)
        with contextlib.suppress(TimeoutError):
            heard = end.recv(64)
            if is_wanted(heard):
                return heard
    return None


class Neighbour(threading.Thread):
    """Sends a datagram to a relay every 10 ms, until it hears something or its `with` block ends. What it hears is `heard`."""

    def __init__(self, port, relay, data):
        super().__init__()
        self.relay, self.data, self.heard, self.is_over = relay, data, None, False
        self.socket = socket.socket(socket.AF_INET, socket.SOCK_DGRAM)
        self.socket.bind(("127.0.0.1", port))
        self.socket.settimeout(0.01)

    def run(self):
        while self.heard is None and not self.is_over:
            self.socket.sendto(self.data, ("127.0.0.1", self.relay))
            try:
                self.heard = self.socket.recv(64)
            except TimeoutError:
                pass

    def __enter__(self):
        self.start()
        return self

    def __exit__(self, *_error):
        self.is_over = True
        self.join()
        self.socket.close()


class Stations(Rows):
    """Tests of a relay of `PLAN` on `device`, whose addresses are free."""

    def setUp(self):
        super().setUp()
        self.ports = free_ports(4)
        self.write("plan", PLAN.format(*self.ports))

    def neighbour(self, data=DATA):
        return Neighbour(self.ports[1], self.ports[0], data)

    def expect_end(self, errors):
        """Checks that a relay of one turn isn't started, and what is told."""
        self.expect("serve", "device", "plan", "--turns=1", errors=errors, status=1)

    def served(self, *words):
        """What a relay puts out that ends well."""
        run = self.rly("serve", "device", "plan", *words)
        self.assertEqual(run.returncode, 0, run.stderr)
        return run.stdout.decode(), run.stderr.decode()

    def expect_served_without_a_reader(self, *options):
        """A station whose output nobody reads takes a datagram, and says at its end that its output failed."""
        self.make_small("device")
        reading, writing = os.pipe()
        os.close(reading)
        words = ["serve", "device", "plan", "--turns=100", *options]
        run = subprocess.Popen([RLY, *words], stdout=writing, stderr=subprocess.PIPE, cwd=self.folder)
        os.close(writing)
        with self.neighbour() as neighbour:
            _output, errors = run.communicate(timeout=SECONDS)
        self.assertEqual(neighbour.heard, CUSTODY)
        self.assertEqual((run.returncode, errors.decode().splitlines()[-1]), (1, "rly: output failed"))


class Serving(Stations):
    def expect_custody(self, data):
        """Runs a relay on a new device beside a neighbour that sends this datagram, which has to hear the datagram's custody."""
        self.make_small("device")
        with self.neighbour(data) as neighbour:
            self.expect("serve", "device", "plan", "--turns", "20", errors=SERVED)
        self.assertEqual(neighbour.heard, CUSTODY)

    def test_a_datagram_is_taken_and_its_custody_sent(self):
        self.expect_custody(DATA)
        self.expect("audit", "device", output=ONE_TAKEN)

    def test_a_datagram_with_a_limit_is_taken_with_it(self):
        """Its custody is that of any other. It is asked for before the link's clock has gone on."""
        self.expect_custody(LIMITED)
        self.expect("play", "device", input="pick 1 0\nfetch 1 1\n", output="picked 1 1 1\nbytes 1 1 000c41 5000\n")

    def test_a_failed_write_ends_a_relay_broken(self):
        """Nothing is acknowledged, and the relay ends by itself: its turns are without end, and its sender never asks anything
        that is written. The bytes of its first group can't be written, and its gate could be opened."""
        words = ["--hops=1", "--peers=1", "--items=16", "--bytes=4096", "--segments=2"]
        self.expect("format", "device", *words, output="formatted 165880\n")
        # Python ignores the signal of a write past the limit, and so does what it starts where signals aren't restored.
        run = self.start("serve", "device", "plan", restore_signals=False)
        resource.prlimit(run.pid, resource.RLIMIT_FSIZE, (FIRST_GROUP, FIRST_GROUP))
        with self.neighbour() as neighbour:
            output, errors = run.communicate(timeout=SECONDS)
        self.assertEqual((run.returncode, output, errors.decode()), (1, b"", BROKEN))
        self.assertIsNone(neighbour.heard)
        self.expect("audit", "device", output=NONE_TAKEN)


class Pauses(Stations):
    def given_by_both(self, run, number):
        """Two neighbours give a relay a datagram each, one after the other. The seconds until the first custody, and both custodies."""
        with bound(self.ports[1]) as one, bound(self.ports[5]) as other:
            began = time.monotonic()
            one.sendto(datagram(3, number), ("127.0.0.1", self.ports[0]))
            time.sleep(0.1)
            other.sendto(datagram(4, number), ("127.0.0.1", self.ports[4]))
            first = one.recv(64)
            return time.monotonic() - began, (first, other.recv(64))

    def test_a_round_gathers_in_its_pause(self):
        """What two neighbours give one after the other within its pause is taken in one round, after the pause."""
        self.ports = free_ports(6)
        plan = PLAN.format(*self.ports[:4]).replace("[[hop]]", SECOND_PEER.format(*self.ports[4:]) + "[[hop]]")
        self.write("plan", plan)
        words = ["--hops=1", "--peers=2", "--items=16", "--bytes=4096"]
        self.expect("format", "device", *words, output="formatted 320804\n")
        run = self.start("serve", "device", "plan", "--report=1", "--gather=1000")
        self.assertIn(b"2 peers", self.log_line(run))
        for number in (1, 2):
            seconds, custodies = self.given_by_both(run, number)
            self.assertEqual(custodies, (custody(3, number), custody(4, number)))
            self.assertGreaterEqual(seconds, 1.0)
        device = ""
        while not device.startswith("device seq 4 "):
            device = last_of(self.answer(run).decode(), "device ")
        self.assertEqual(device, "device seq 4 rounds 2 segments 0")


class Counts(Stations):
    def last_lines(self, run, wanted):
        """The lines of the first report whose lines of peer 1 and of hop 1 have these words, one each."""
        limit = time.monotonic() + SECONDS
        while time.monotonic() < limit:
            report = self.answer(run).decode()
            lines = [last_of(report, "peer 1 "), last_of(report, "hop 1 ")]
            if all(word in line for word, line in zip(wanted, lines)):
                return lines
        return None

    def test_packets_without_a_right_tag_are_counted(self):
        """Each link with a key counts its own, and a report tells them. Such a packet is nothing else to it."""
        self.make_small("device")
        self.write("link.key", KEY)
        key = 'key = "link.key"\n'
        self.write("plan", PLAN.format(*self.ports).replace("[[hop]]", key + "[[hop]]").replace("contacts", key + "contacts"))
        run = self.start("serve", "device", "plan", "--report=1")
        self.assertIn(b"rly: serving", self.log_line(run))
        with socket.socket(socket.AF_INET, socket.SOCK_DGRAM) as end:
            for port, count in [(self.ports[0], 3), (self.ports[2], 2)]:
                for _packet in range(count):
                    end.sendto(DATA, ("127.0.0.1", port))
        peer, hop = self.last_lines(run, [" wrong 3 ", " wrong 2 "])
        self.assertEqual(peer, "peer 1 heard 0 custody 0 refused 0 malformed 0 wrong 3 repeats 0 heards 0")
        self.assertTrue(hop.endswith(" wrong 2 heard 0 custody 0 refused 0 malformed 0 repeats 0 heards 0"), hop)


class Starts(Stations):
    def test_a_relay_needs_a_plan_and_a_device(self):
        """The plan is looked at first, then the file, then the device in it."""
        self.expect("serve", "device", "nowhere", "--turns=1", errors=NO_PLAN, status=1)
        for text, errors in PLANS:
            with self.subTest(text):
                self.write("plan", text)
                self.expect_end(errors)
        self.write("device", "no device")
        self.expect_end("refused 20 notadevice\nrly: device: device: a text, not a device; `rly serve FILE PLAN` has the device first\n")
        self.expect("serve", "device", "nowhere", "--turns=1", errors=NO_PLAN, status=1)

    def test_a_relay_needs_room_and_links(self):
        """The device needs each peer and each hop of the plan, before any link is opened; then the system judges the addresses of
        the links, none of which is there twice."""
        self.make_small("device")
        free = f"127.0.0.1:{self.ports[0]}"
        for peers, hops, listen, remote, errors in LINKS:
            with self.subTest(errors):
                text = plan_of(peers, hops, listen, remote)
                self.write("plan", text.replace("FREE", free))
                self.expect_end(errors.replace("FREE", free))


class Greatest(Stations):
    """Tests of a relay that has as many workers as a plan may have neighbours."""

    def greatest_run(self, option):
        """The output of such a relay of one turn, with one option more."""
        words = ["--hops=64", "--peers=64", "--items=16", "--bytes=4096"]
        self.expect("format", "device", *words, output="formatted 340680\n")
        self.write("plan", greatest_plan(self.ports[0]))
        output, errors = self.served("--turns=1", option)
        self.assertTrue(errors.endswith("\nrly: ended after 1 turns\n"), errors)
        return output

    def test_the_greatest_relay_is_served(self):
        self.assertEqual(self.greatest_run("--report=0"), "")

    def test_the_greatest_relay_reports(self):
        """A reporter beside as many workers tells of each neighbour."""
        report = self.greatest_run("--report=100000")
        words = [line.split()[:2] for line in report.splitlines()]
        self.assertRegex(" ".join(words[0]), r"\Areport \d+\Z")
        neighbours = [[kind, str(id)] for kind in ("hop", "peer") for id in range(1, 65)]
        self.assertEqual(words[1:-1], neighbours)
        self.assertTrue(report.endswith("\ndevice seq 0 rounds 0 segments 0\n"), report[-99:])


class Reports(Stations):
    def test_a_report_is_written_at_once(self):
        """There is no other before its time."""
        self.make_small("device")
        output, _errors = self.served("--turns=5", "--report=3600")
        moment, rest = output.split("\n", 1)
        self.assertTrue(moment.startswith("report 1"), moment)
        self.assertEqual(rest, FIRST)

    def test_there_are_no_reports_where_none_are_asked_for(self):
        self.make_small("device")
        output, _errors = self.served("--turns=5", "--report=0")
        self.assertEqual(output, "")

    def test_what_was_taken_is_reported(self):
        """What is taken and acknowledged while it is served stands in the next report."""
        self.make_small("device")
        with self.neighbour() as neighbour:
            output, _errors = self.served("--turns=200", "--report=1")
        self.assertEqual(neighbour.heard, CUSTODY)
        self.assertIn("taken 1 queued 1 flight 0", last_of(output, "hop 1 "))
        self.assertNotIn(" custody 0 ", last_of(output, "peer 1 "))
        self.assertRegex(last_of(output, "peer 1 "), r" refused 0 malformed 0 wrong 0 repeats \d+ heards 0 last \d+$")
        self.assertIn("seq 1 rounds 1 ", last_of(output, "device "))

    def test_wrong_tags_are_reported(self):
        """Packets without a right tag are counted by their peer, and as not heard."""
        self.make_small("device")
        key = self.write("peer.key", KEY)
        self.write("plan", PLAN.format(*self.ports).replace("[[hop]]", f'key = "{key}"\n[[hop]]'))
        with self.neighbour() as neighbour:
            output, _errors = self.served("--turns=200", "--report=1")
        self.assertIsNone(neighbour.heard)
        self.assertIn(" wrong 0 ", last_of(output, "hop 1 "))
        self.assertIn(" heard 0 custody 0 refused 0 malformed 0 wrong ", last_of(output, "peer 1 "))
        self.assertNotIn(" wrong 0 ", last_of(output, "peer 1 "))

    def test_repeats_and_heards_are_reported(self):
        """A peer sends a datagram again after its custody, and one ahead of a gap. The hop answers once a datagram came again."""
        self.make_small("device")
        contacts = "[[0, 4503599627370495]]\nresend = 20"
        self.write("plan", PLAN.format(*self.ports).replace("[[100, 200], [300, 350]]", contacts))
        run = self.start("serve", "device", "plan", "--turns=400", "--report=1")
        with bound(self.ports[1]) as peer, bound(self.ports[3]) as hop:
            relay = "127.0.0.1", self.ports[0]
            self.assertEqual(sent_until(peer, relay, DATA, lambda packet: packet == CUSTODY), CUSTODY)
            peer.sendto(DATA, relay)
            self.assertEqual(sent_until(peer, relay, AHEAD, lambda packet: packet[3] == 5), HEARD)
            first = hop.recv(64)
            while hop.recv(64) != first:
                pass
            for packet in ANSWERS:
                hop.sendto(packet, ("127.0.0.1", self.ports[2]))
            output, errors = run.communicate(timeout=SECONDS)
        self.assertEqual(run.returncode, 0, errors)
        output = output.decode()
        peer, hop = last_of(output, "peer 1 "), last_of(output, "hop 1 ")
        self.assertRegex(peer, r" malformed 0 wrong 0 repeats [1-9]\d* heards [1-9]\d* last \d+$")
        self.assertRegex(hop, r" wrong 0 heard 5 custody 1 refused 1 malformed 2 repeats [1-9]\d* heards 1 last \d+$")
