"""`rly serve` over lossy links to neighbours of the protocol before kind 05: they neither send nor know a Heard."""
import os
import random
import socket
import struct
import time

from program import SECONDS, Rows
from test_serve import PLAN, free_ports

# Stations: the one that gives, `rly`, and the one that takes; and the destination of all datagrams.
GIVING, RELAY, TAKING, TARGET = 3, 7, 9, 12
DATA, CUSTODY, REFUSED, HEARD = 1, 2, 3, 5
# How many datagrams go over, and how many of ten packets arrive.
COUNT, OF_TEN = 120, 9
# A device on which nothing is dropped for its time in the queue.
CODEL = ["--target=3600000000", "--interval=3600000000"]
WORDS = ["--hops=1", "--peers=1", "--items=256", "--bytes=65536", "--window=16", *CODEL]
# The end of a contact, in microseconds: in the year 2096.
END = 4_000_000_000_000_000


def payload(number):
    return struct.pack(">HQ", TARGET, number)


def data(number):
    return struct.pack(">2sBBHHQH", b"RL", 1, DATA, GIVING, RELAY, number, len(payload(number))) + payload(number)


def custody(last):
    return struct.pack(">2sBBHHQ", b"RL", 1, CUSTODY, TAKING, RELAY, last)


class OldEnd:
    """An end of a link without Heards. Of ten packets each way one is lost."""

    def __init__(self, port, station, seed):
        self.station, self.dice = ("127.0.0.1", station), random.Random(seed)
        self.socket = socket.socket(socket.AF_INET, socket.SOCK_DGRAM)
        self.socket.bind(("127.0.0.1", port))
        self.socket.settimeout(0.01)

    def say(self, packet):
        if self.dice.randrange(10) < OF_TEN:
            self.socket.sendto(packet, self.station)

    def packet(self):
        """A packet of the station, or None: none has come, or it was lost."""
        try:
            packet = self.socket.recv(2_000)
        except TimeoutError:
            return None
        return packet if self.dice.randrange(10) < OF_TEN else None


class Taking(OldEnd):
    """An end that takes datagrams in order, and answers each Data by its cumulative custody. One that `keeps` holds up
    to 64 that came ahead of a gap too."""

    def __init__(self, port, station, keeps):
        super().__init__(port, station, 1)
        self.keeps, self.last, self.ahead, self.payloads, self.sent = keeps, 0, set(), {}, 0

    def turn(self):
        packet = self.packet()
        if packet is None:
            return
        _, _, kind, origin, target, number, length = struct.unpack(">2sBBHHQH", packet[:18])
        assert (kind, origin, target, len(packet)) == (DATA, RELAY, TAKING, 18 + length), packet
        # A number never stands for two payloads.
        assert self.payloads.setdefault(number, packet[18:]) == packet[18:], number
        self.sent += 1
        if number == self.last + 1 or self.keeps and self.last < number <= self.last + 64:
            self.ahead.add(number)
        while self.last + 1 in self.ahead:
            self.last += 1
            self.ahead.remove(self.last)
        self.say(custody(self.last))


class Giving(OldEnd):
    """An end that gives datagrams, up to 16 at once. If none is acknowledged for 50 ms it sends all of them again."""

    def __init__(self, port, station):
        super().__init__(port, station, 2)
        self.last, self.next, self.began, self.unknown = 0, 1, 0, 0

    def turn(self):
        packet = self.packet()
        if packet is not None:
            self.hear(*struct.unpack(">2sBBHHQ", packet[:16]))
        if self.began + 0.05 < time.monotonic():
            self.next, self.began = self.last + 1, time.monotonic()
        while self.next <= min(COUNT, self.last + 16):
            self.say(data(self.next))
            self.next += 1

    def hear(self, _magic, _version, kind, origin, target, number):
        assert (origin, target) == (RELAY, GIVING), (origin, target)
        if kind == CUSTODY and self.last < number < self.next:
            self.last, self.began = number, time.monotonic()
        # Of a kind that it doesn't know nothing comes.
        self.unknown += kind not in (CUSTODY, REFUSED)


class OldNeighbours(Rows):
    def setUp(self):
        super().setUp()
        self.ports = free_ports(4)
        self.assertEqual(self.rly("format", "device", *WORDS).returncode, 0)

    def serve(self, contacts):
        """Serves the device, whose hop has these contacts, until the test ends it."""
        hop = f"resend = 20\ncontacts = {contacts}"
        plan = PLAN.format(*self.ports).replace("contacts = [[100, 200], [300, 350]]", hop)
        self.write("plan", plan)
        run = self.start("serve", "device", "plan", "--report=1")
        os.set_blocking(run.stdout.fileno(), False)
        return run

    def run_until(self, run, end, is_over):
        """Lets an end have its turns, and ends the run."""
        began = time.monotonic()
        self.addCleanup(end.socket.close)
        while not is_over():
            end.turn()
            self.assertIsNone(run.poll())
            self.assertLess(time.monotonic(), began + SECONDS, f"{end.last} of {COUNT}")
        run.kill()
        run.wait()

    def expect_books(self, hop):
        """What an audit tells of the hop and the peer, whose last number is that of all."""
        audit = self.rly("audit", "device").stdout.decode().splitlines()
        self.assertEqual(audit[:2], [f"hop 1 taken {COUNT} {hop}", f"peer 1 last {COUNT}"])

    def expect_taken(self, keeps):
        """All datagrams of a device come to an old end that takes them, and are released."""
        lines = "".join(f"take 1 {number} 1 0 {payload(number).hex()}\n" for number in range(1, COUNT + 1))
        self.assertEqual(self.rly("play", "device", input=lines).returncode, 0)
        run = self.serve([[int(time.time() * 1_000_000), END]])
        end = Taking(self.ports[3], self.ports[2], keeps)
        told = bytearray()

        def is_over():
            told.extend(run.stdout.read() or b"")
            return b" released %d " % COUNT in told

        self.run_until(run, end, is_over)
        self.assertEqual(end.payloads, {number: payload(number) for number in range(1, COUNT + 1)})
        self.expect_books(f"queued 0 flight 0 dropped 0 released {COUNT}")

    def test_an_old_end_that_keeps_what_comes_ahead_takes_all(self):
        self.expect_taken(True)

    def test_an_old_end_that_takes_only_in_order_takes_all(self):
        self.expect_taken(False)

    def test_all_of_an_old_end_that_gives_are_taken(self):
        """It hears of gaps by a kind that it doesn't know."""
        run = self.serve([])
        end = Giving(self.ports[1], self.ports[0])
        self.run_until(run, end, lambda: end.last == COUNT)
        self.assertGreater(end.unknown, 0)
        self.expect_books(f"queued {COUNT} flight 0 dropped 0 released 0")
