"""What a running station reports of its hops, its peers and its device (`docs/COMMANDS.md`, "Reports")."""
import re
import resource
import select
import time

from program import SECONDS
from test_audit import DROPPED, EXPIRED, LAST, SMALL
from test_serve import BROKEN, DATA, FIRST_GROUP, Stations, bound, custody, datagram, free_ports

# A contact without an end, and one that is far away.
END = 2**52 - 1
FAR = 2**51

# Station 7, with stations 3 and 4 upstream and stations 9, 10 and 11 as its next hops. The first hop is open without an end, and
# sends again after 20 ms. The second opens far away, and the third never again.
LINK = 'id = {}\nstation = {}\nlisten = "127.0.0.1:{}"\nremote = "127.0.0.1:{}"\n'
KINDS = [
    ("peer", 1, 3, ""),
    ("peer", 2, 4, ""),
    ("hop", 1, 9, f"resend = 20\ncontacts = [[0, {END}]]\n"),
    ("hop", 2, 10, f"contacts = [[0, 1], [{FAR}, {FAR + 5}]]\n"),
    ("hop", 3, 11, "contacts = [[0, 1]]\n"),
]
ROUTE = "[[route]]\ndestination = 12\nhop = 1\n"
OPTIONS = ["--hops=3", "--peers=2", "--items=16", "--bytes=4096"]

# What comes from station 4 and is no Data of it for this station: a Custody, a Data that is cut short, one from and one to another
# station, and no message. An empty packet is none, and isn't counted.
PEER_STRAYS = [
    bytes.fromhex("524c0102000400070000000000000001"),
    datagram(4, 9)[:-1],
    datagram(3, 9),
    datagram(4, 9)[:6] + b"\0\x08" + datagram(4, 9)[8:],
    b"",
    b"RL",
]

# What comes from station 9 and is an answer to this one, by its kind; and what isn't: a Data, a Heard that is cut short, a Custody,
# a refusal and a Heard from or to another station, and no message.
HOP_ANSWERS = [
    bytes.fromhex("524c0102000900070000000000000001"),
    bytes.fromhex("524c010300090007000000000000000206"),
    bytes.fromhex("524c010300090007000000000000000206"),
    *[bytes.fromhex("524c01050009000700000000000000014000000000000000")] * 3,
]
HOP_STRAYS = [
    bytes.fromhex("524c01010009000700000000000000010003000c41"),
    HOP_ANSWERS[-1][:23],
    bytes.fromhex("524c0102000900080000000000000003"),
    bytes.fromhex("524c010300070007000000000000000306"),
    bytes.fromhex("524c0105000a000700000000000000014000000000000000"),
    b"RL",
]
# Custody of all, after which nothing is sent again.
HOP_CUSTODY = bytes.fromhex("524c0102000900070000000000000003")


class Reporting(Stations):
    def setUp(self):
        super().setUp()
        self.ports = free_ports(2 * len(KINDS))
        text = "station = 7\n"
        for place, (kind, id, station, more) in enumerate(KINDS):
            text += f"[[{kind}]]\n{LINK.format(id, station, *self.ports[2 * place : 2 * place + 2])}{more}"
        self.write("plan", text + ROUTE)
        self.assertEqual(self.rly("format", "device", *OPTIONS).returncode, 0)

    def serve(self, *words, **how):
        run = self.start("serve", "device", "plan", *words, **how)
        self.assertIn(b"rly: serving station 7", self.log_line(run))
        return run

    def report(self, run):
        """The lines of the next report."""
        lines = []
        while not lines or not lines[-1].startswith("device "):
            lines += self.answer(run).decode().splitlines()
        return lines

    def expect_report(self, run, wanted):
        """Waits for a report whose lines match these expressions."""
        limit, lines = time.monotonic() + 10, []
        while time.monotonic() < limit:
            lines = self.report(run)[1:]
            if len(lines) == len(wanted) and all(re.fullmatch(it, line) for it, line in zip(wanted, lines)):
                return
        self.fail("\n".join([*lines, "isn't", *wanted]))


class Counts(Reporting):
    def give(self, peer, number, packet=None):
        """Gives the station a Data of station 4, and waits for its custody."""
        peer.sendto(packet or datagram(4, number), ("127.0.0.1", self.ports[2]))
        self.came.append(peer.recv(99))

    def quiet(self, end):
        """What has come and still comes to an end, until nothing does for a while."""
        packets = []
        while select.select([end], [], [], 0.5)[0]:
            packets.append(end.recv(99))
        return packets

    def give_all(self, peer):
        """Three Data, of which two come again; Data 0, which asks for the last number; one without a route, one ahead of it, and
        strays. Each count of what is sent to the peer is that of what comes to it."""
        relay, self.came = ("127.0.0.1", self.ports[2]), []
        for number in (1, 2, 3, 3, 1, 0):
            self.give(peer, number)
        self.assertEqual(self.came, [custody(4, number) for number in (1, 2, 3, 3, 3, 3)])
        self.give(peer, 4, datagram(4, 4)[:-3] + b"\0\x0dA")
        peer.sendto(datagram(4, 6), relay)
        for packet in PEER_STRAYS:
            peer.sendto(packet, relay)
        kinds = [packet[3] for packet in self.came + self.quiet(peer)]
        self.assertIn(3, kinds)
        self.assertIn(5, kinds)
        return f"heard 13 custody {kinds.count(2)} refused {kinds.count(3)} malformed 5 wrong 0 repeats 2 heards {kinds.count(5)}"

    def answer_all(self, hop):
        """The Data go out, and again while nothing is answered. Of those that come each whose number isn't above all before it is
        a repeat."""
        relay = "127.0.0.1", self.ports[4]
        numbers = [int.from_bytes(hop.recv(99)[8:16], "big") for _ in range(5)]
        for packet in [*HOP_STRAYS, *HOP_ANSWERS, HOP_CUSTODY]:
            hop.sendto(packet, relay)
        numbers += [int.from_bytes(packet[8:16], "big") for packet in self.quiet(hop)]
        repeats = sum(number <= max(numbers[:place], default=0) for place, number in enumerate(numbers))
        self.assertGreater(repeats, 0)
        return f"wrong 0 heard 13 custody 2 refused 2 malformed 6 repeats {repeats} heards 3"

    def test_each_neighbour_has_its_counts(self):
        """The second peer and the first hop are heard, and nobody else is."""
        run = self.serve("--report=1")
        with bound(self.ports[3]) as peer, bound(self.ports[5]) as hop:
            given = self.give_all(peer)
            answered = self.answer_all(hop)
        none = "heard 0 custody 0 refused 0 malformed 0"
        shown = r"hop {} taken {} queued 0 flight 0 dropped 0 released {} first 0 next 0 count 0 last 0 dropping no moment \d+"
        self.expect_report(run, [
            rf"{shown.format(1, 3, 3)} contact open until {END} {answered} last \d+",
            rf"{shown.format(2, 0, 0)} contact closed until {FAR} wrong 0 {none} repeats 0 heards 0",
            rf"{shown.format(3, 0, 0)} contact closed wrong 0 {none} repeats 0 heards 0",
            rf"peer 1 {none} wrong 0 repeats 0 heards 0",
            rf"peer 2 {given} last \d+",
            r"device seq \d+ rounds \d+ segments 0",
        ])


class Moments(Reporting):
    def moment(self, run):
        first = self.report(run)[0]
        self.assertRegex(first, r"\Areport \d+\Z")
        return int(first.split()[1])

    def test_a_report_comes_after_each_interval(self):
        """The first one comes at once, and each has the system's time."""
        before = time.time_ns() // 1_000
        run = self.serve("--report=2")
        moments = [self.moment(run) for _ in range(3)]
        self.assertTrue(before <= moments[0] < before + 1_900_000, moments)
        for one, next in zip(moments, moments[1:]):
            self.assertTrue(1_900_000 < next - one < 3_900_000, moments)

    def test_the_first_report_of_a_machine_that_has_just_started(self):
        """It has run for ten seconds, and a report comes every minute: the first one at once, and no other within it."""
        run = self.serve("--report=60", env=self.preload(UP_SECONDS=10))
        self.assertLess(abs(self.moment(run) - time.time_ns() // 1_000), 2_000_000)
        self.assertEqual(select.select([run.stdout], [], [], 3)[0], [])


class Ends(Stations):
    def test_a_relay_that_broke_ends_its_reports(self):
        """Its turns are without end, and so are its reports and its events. The first group can't be written."""
        self.expect("format", "device", *SMALL, output="formatted 165880\n")
        run = self.start("serve", "device", "plan", "--report=3600", "--events", restore_signals=False)
        resource.prlimit(run.pid, resource.RLIMIT_FSIZE, (FIRST_GROUP, FIRST_GROUP))
        with self.neighbour() as neighbour:
            output, errors = run.communicate(timeout=SECONDS)
        self.assertEqual((run.returncode, errors.decode()), (1, BROKEN))
        self.assertRegex(output.decode(), r"\A(report \d+\nhop 1 .*\npeer 1 .*\ndevice .*\n|hop 1 closed\n){2}\Z")
        self.assertIsNone(neighbour.heard)

    def test_a_station_serves_on_without_a_reader_of_its_reports(self):
        self.expect_served_without_a_reader("--report=1")


class Numbers(Stations):
    def test_the_greatest_numbers(self):
        """A device has as many commands as a spool ever accepts, and a link counts on from 0."""
        self.expect("format", "device", *SMALL, output="formatted 165880\n")
        device = bytearray(self.read("device"))
        counts = [(LAST, 8, 77), (LAST, 8, 85), (LAST, 6, 127), (DROPPED, 6, 133), (LAST - DROPPED - EXPIRED, 6, 139), (EXPIRED, 6, 145)]
        for number, size, place in counts:
            device[place : place + size] = number.to_bytes(size, "big")
        self.write("device", device)
        output, _errors = self.served("--turns=1", "--report=100000")
        released, none = LAST - DROPPED - EXPIRED, "heard 0 custody 0 refused 0 malformed 0"
        shown = f"first 0 next 0 count 0 last 0 dropping no moment 0 expired {EXPIRED} contact closed"
        self.assertEqual(output.split("\n", 1)[1], f"""\
hop 1 taken {LAST} queued 0 flight 0 dropped {DROPPED} released {released} {shown} wrong 0 {none} repeats 0 heards 0
peer 1 {none} wrong 0 repeats 0 heards 0
device seq {LAST} rounds 0 segments 0
""")
