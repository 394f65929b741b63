"""`rly serve --events`: the lines of hops while a station serves, and the modem that examples/modem switches by them."""
import re
import subprocess
import time

from program import SECONDS, TOP
from test_serve import ANSWERS, CODEL, CUSTODY, DATA, PLAN, SERVED, Stations, bound, free_ports, greatest_plan, sent_until
from test_sleeps import Clock

# What examples/modem runs for lines of hops, with the hops that it is for.
MODEMS = [
    ("", "", ["off"]),
    ("", "hop 1 closed\n", ["off"]),
    ("", "hop 1 closed\nhop 1 opens in 30 s\nhop 1 open\nhop 1 idle\nhop 1 busy\nhop 1 closed\n", ["off", "on", "off", "on", "off"]),
    ("", "hop 1 open\n", ["on", "off"]),
    ("", "hop 1 open\nhop 2 open\nhop 1 idle\nhop 2 closed\nhop 1 busy\n", ["on", "off", "on", "off"]),
    ("2", "hop 1 open\nhop 2 closed\nhop 12 open\nhop 2 opens in 1 s\n", ["off", "on", "off"]),
    ("1 3", "hop 2 open\nhop 3 open\nhop 1 open\nhop 3 closed\nhop 1 closed\n", ["on", "off"]),
    ("", "report 5\nhop 1 taken 1 queued 1 flight 0\nhop 1 refused 11 broken\npeer 1 heard 0\nhop 1 open\n", ["on", "off"]),
]
# A line of an event, and all lines of one report.
EVENT = r"hop 1 (closed|opens in \d+ s|open|idle|busy)\n"
REPORT = r"report \d+\nhop 1 taken .*\npeer 1 .*\ndevice .*\n"


class EventLines(Stations):
    def setUp(self):
        super().setUp()
        self.lines = []

    def write_plan(self, contacts, *keys):
        """Writes the plan with these contacts of its hop, and these keys more."""
        text = PLAN.format(*self.ports).replace("[[100, 200], [300, 350]]", "\n".join([contacts, *keys]))
        self.write("plan", text)

    def give(self):
        """Gives the station a datagram, which it acknowledges."""
        with bound(self.ports[1]) as peer:
            relay = "127.0.0.1", self.ports[0]
            self.assertEqual(sent_until(peer, relay, DATA, lambda packet: packet == CUSTODY), CUSTODY)

    def take(self, hop):
        """Takes a datagram as the hop does, and acknowledges it."""
        hop.recv(64)
        hop.sendto(ANSWERS[0], ("127.0.0.1", self.ports[2]))

    def line(self, run):
        """The next line of a run, and when it came. What came with it is kept for the next call."""
        if not self.lines:
            self.lines = self.answer(run).decode().splitlines(keepends=True)
        return self.lines.pop(0), time.time()

    def end(self, run):
        """Ends a run; what it put out since the last line, which is only whole lines."""
        run.terminate()
        output, _errors = run.communicate(timeout=SECONDS)
        return "".join(self.lines) + output.decode()


class Events(EventLines):
    def test_a_contact_has_its_lines_in_order(self):
        """A datagram was given before its contact, and is taken in it."""
        self.make_small("device")
        begin = int(time.time() * 1_000_000) + 4_000_000
        self.write_plan(f"[[{begin}, {begin + 3_000_000}]]", "lead = 1")
        run = self.start("serve", "device", "plan", "--events")
        with bound(self.ports[3]) as hop:
            self.assertEqual(self.line(run)[0], "hop 1 closed\n")
            self.give()
            told, soon = self.line(run)
            self.assertEqual(told, "hop 1 opens in 1 s\n")
            told, opened = self.line(run)
            self.assertEqual(told, "hop 1 open\n")
            self.take(hop)
            self.assertEqual(self.line(run)[0], "hop 1 idle\n")
            told, closed = self.line(run)
            self.assertEqual(told, "hop 1 closed\n")
        moments = [soon + 1, opened, closed - 3]
        self.assertLessEqual(begin / 1_000_000, min(moments) + 0.001)
        self.assertEqual(self.end(run), "")

    def test_a_sender_that_rests_is_idle_until_it_is_busy(self):
        self.make_small("device")
        self.write_plan("[[0, 4503599627370495]]")
        run = self.start("serve", "device", "plan", "--events")
        with bound(self.ports[3]) as hop:
            self.assertEqual(self.line(run)[0], "hop 1 open\n")
            self.assertEqual(self.line(run)[0], "hop 1 idle\n")
            # A packet that the hop's station didn't send for this makes nobody busy.
            hop.sendto(ANSWERS[4], ("127.0.0.1", self.ports[2]))
            self.give()
            self.assertEqual(self.line(run)[0], "hop 1 busy\n")
            self.take(hop)
            self.assertEqual(self.line(run)[0], "hop 1 idle\n")
        self.assertEqual(self.end(run), "")

    def test_a_hop_that_never_opens_has_one_line(self):
        """With bounded turns the events end as the relay does."""
        self.make_small("device")
        self.write_plan("[]", "lead = 86400")
        self.expect("serve", "device", "plan", "--turns=20", "--events", output="hop 1 closed\n", errors=SERVED.replace(CODEL, ""))

    def test_each_hop_has_its_first_line(self):
        words = ["--hops=64", "--peers=64", "--items=16", "--bytes=4096"]
        self.expect("format", "device", *words, output="formatted 340680\n")
        self.write("plan", greatest_plan(self.ports[0]))
        output, _errors = self.served("--turns=1", "--events")
        self.assertEqual(output, "".join(f"hop {hop} closed\n" for hop in range(1, 65)))

    def test_events_and_reports_are_whole(self):
        self.make_small("device")
        self.write_plan("[[0, 4503599627370495]]")
        output, _errors = self.served("--turns=150", "--report=1", "--events")
        self.assertRegex(output, rf"\A({EVENT}|{REPORT})+\Z")
        self.assertTrue(output.startswith("hop 1 open\n") or "\nhop 1 open\n" in output, output)
        self.assertEqual(re.findall(EVENT, output)[:2], ["open", "idle"])

    def test_a_station_serves_on_without_a_reader(self):
        self.write_plan("[]")
        self.expect_served_without_a_reader("--events")

    def test_a_modem_is_switched_by_the_lines(self):
        for hops, lines, wanted in MODEMS:
            with self.subTest(hops=hops, lines=lines):
                words = [f"{TOP}/examples/modem", "echo on", "echo off", *hops.split()]
                run = subprocess.run(words, input=lines.encode(), capture_output=True, timeout=SECONDS)
                self.assertEqual((run.returncode, run.stderr), (0, b""))
                self.assertEqual(run.stdout.decode().split(), wanted)

    def test_a_modem_that_fails_is_tried_again(self):
        failing = f"echo on >> {self.path('tried')}; false"
        words = [f"{TOP}/examples/modem", failing, "echo off"]
        run = subprocess.run(words, input=b"hop 1 open\nhop 1 busy\nhop 1 closed\n", capture_output=True, timeout=SECONDS)
        self.assertEqual((run.returncode, run.stdout, self.read("tried")), (0, b"off\n", b"on\non\n"))
        self.assertEqual(run.stderr.decode().splitlines(), [f"{words[0]}: failed: {failing}"] * 2)


# A second hop, for destination 13, with a contact without an end.
SECOND_HOP = """[[hop]]
id = 2
station = 10
listen = "127.0.0.1:{}"
remote = "127.0.0.1:{}"
contacts = [[0, 4503599627370495]]
[[route]]
destination = 13
hop = 2
"""


class TwoHops(EventLines):
    """Two hops that are open without an end. Each has its own lines."""

    def give_to(self, peer, number, destination):
        """Gives the station a datagram for a destination."""
        packet = DATA[:8] + number.to_bytes(8, "big") + DATA[16:18] + destination.to_bytes(2, "big") + DATA[20:]
        peer.sendto(packet, ("127.0.0.1", self.ports[0]))

    def acknowledge(self, hop, station, number, port):
        """Takes a datagram as a hop does, and acknowledges it."""
        hop.recv(64)
        custody = ANSWERS[0][:4] + station.to_bytes(2, "big") + ANSWERS[0][6:8] + number.to_bytes(8, "big")
        hop.sendto(custody, ("127.0.0.1", port))

    def test_each_sender_marks_its_hop(self):
        """The line of a sender that begins to work, or to rest, comes at once, and the other hop has none. The peer has none either."""
        self.rly("format", "device", "--hops=2", "--peers=1", "--items=16", "--bytes=4096")
        self.write_plan("[[0, 4503599627370495]]")
        self.ports += free_ports(2)
        self.write("plan", self.read("plan").decode() + SECOND_HOP.format(*self.ports[4:]))
        run = self.start("serve", "device", "plan", "--events")
        opened = [self.line(run)[0] for _ in range(4)]
        self.assertEqual(sorted(opened), ["hop 1 idle\n", "hop 1 open\n", "hop 2 idle\n", "hop 2 open\n"])
        with bound(self.ports[1]) as peer, bound(self.ports[3]) as first, bound(self.ports[5]) as second:
            ends = {12: (first, 9, self.ports[2], 1), 13: (second, 10, self.ports[4], 2)}
            for number, destination, count in [(1, 13, 1), (2, 12, 1), (3, 12, 2), (4, 13, 2)]:
                end, station, port, hop = ends[destination]
                began = time.time()
                self.give_to(peer, number, destination)
                told, moment = self.line(run)
                self.assertEqual(told, f"hop {hop} busy\n")
                self.acknowledge(end, station, count, port)
                self.assertEqual(self.line(run)[0], f"hop {hop} idle\n")
                self.assertLess(moment - began, 0.9)
        self.assertEqual(self.end(run), "")


# Moments of a wall clock that is set, in seconds, with the lines that come then. The contacts and their lead are in thousands of
# seconds, so that those of the test don't count.
K = 1_000
CONTACTS = [[100 * K, 200 * K], [203 * K, 210 * K]]
LEAD = 5 * K
SET = [
    (10, "hop 1 closed\n"),
    (94 * K, ""),
    (95 * K + 100, f"hop 1 opens in {5 * K - 100} s\n"),
    (99 * K, ""),
    (100 * K + 100, "hop 1 open\nhop 1 idle\n"),
    (199 * K, ""),
    # The gap is shorter than the lead.
    (200 * K + 500, f"hop 1 closed\nhop 1 opens in {2 * K + 500} s\n"),
    (203 * K + 100, "hop 1 open\nhop 1 idle\n"),
    (210 * K + 100, "hop 1 closed\n"),
    # The clock is set back: into the lead, into a contact, and past an end and a beginning.
    (10 * K, ""),
    (97 * K, f"hop 1 opens in {3 * K} s\n"),
    (150 * K, "hop 1 open\nhop 1 idle\n"),
    (204 * K, ""),
    (250 * K, "hop 1 closed\n"),
    (50 * K, ""),
]


class SetClock(EventLines):
    def expect_lines(self, run, wanted):
        """The next lines. The seconds up to an opening may be a few less, since the clock goes on until it is read."""
        for line in wanted.splitlines(keepends=True):
            told, seconds = self.line(run)[0], re.search(r"in (\d+) s", line)
            if seconds:
                found = re.search(r"in (\d+) s", told)
                self.assertTrue(found and 0 <= int(seconds[1]) - int(found[1]) <= 3, told)
                told = told.replace(found[0], seconds[0])
            self.assertEqual(told, line)

    def test_each_change_of_a_set_clock_has_its_lines(self):
        """The clock is read once a second. A start within a contact, or before one, says so."""
        environment = self.preload(CLOCK_FILE=self.path("clock"))
        clock = Clock(self.path("clock"))
        self.write_plan(str([[begin * 1_000_000, end * 1_000_000] for begin, end in CONTACTS]), f"lead = {LEAD}")
        self.make_small("device")
        clock.set(SET[0][0] - time.time())
        run = self.start("serve", "device", "plan", "--events", env=environment)
        for moment, wanted in SET:
            with self.subTest(moment):
                clock.set(moment - time.time())
                self.expect_lines(run, wanted)
                if not wanted:
                    # (longer than the time between two readings)
                    time.sleep(1.5)
        self.assertEqual(self.end(run), "")
        for moment, wanted in SET[4:5] + SET[2:3]:
            clock.set(moment - time.time())
            run = self.start("serve", "device", "plan", "--events", env=environment)
            first = "" if wanted.startswith("hop 1 open\n") else "hop 1 closed\n"
            self.expect_lines(run, first + wanted)
            self.assertEqual(self.end(run), "")
