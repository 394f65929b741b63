"""A link between two stations that stands still says why, at the end that knows it, in one line of its log."""
import os
import select
import socket
import threading
import time

from program import KEY, Rows

# The sending station, and the receiving one behind it.
FIRST, SECOND = 4, 7
END = 2**52 - 1
# A payload for destination 12.
PAYLOAD = "000c" + "41" * 62
# A link that says why it stands still does so within this time.
MINUTE = 60.0
# A minute of silence ends with the Data that goes out next: its wait has doubled six times.
SILENT = 90.0
# A Data goes out ten times within eight waits that double. Where the first is 160 ms, as without `resend`, that takes 41 seconds;
# where a slow machine makes the round trip long it takes more, and as long as this at most.
TENTH, SOON = 240.0, 'resend = 20\n'


def end_of(kind, station, listen, remote, more):
    ends = f'listen = "127.0.0.1:{listen}"\nremote = "127.0.0.1:{remote}"\n'
    contacts = f"contacts = [[0, {END}]]\n" if kind == "hop" else ""
    return f"[[{kind}]]\nid = 1\nstation = {station}\n{ends}{more}{contacts}"


class Log:
    """The lines of a run's standard error."""

    def __init__(self, run):
        self.run, self.text = run, b""

    def wait_for(self, front, seconds):
        """The first line with this front, which has to come within this time."""
        limit = time.monotonic() + seconds
        while time.monotonic() < limit:
            for line in self.text.decode().splitlines(keepends=True):
                if line.startswith(front) and line.endswith("\n"):
                    return line[:-1]
            if select.select([self.run.stderr], [], [], 0.2)[0]:
                self.text += os.read(self.run.stderr.fileno(), 65536)
        return f"{front} is missing in:\n{self.text.decode()}"


class Cutter:
    """Two ports between two stations: what comes to one goes out at the other. Toward the second station a packet that is
    longer than those of the link is lost, as where fragments don't pass."""

    def __init__(self, ports, first, second, longest):
        self.ends = [socket.socket(socket.AF_INET, socket.SOCK_DGRAM) for _ in ports]
        self.targets, self.longest, self.ended = (second, first), longest, False
        for end, port in zip(self.ends, ports):
            end.bind(("127.0.0.1", port))
        self.thread = threading.Thread(target=self.run)
        self.thread.start()

    def run(self):
        while not self.ended:
            for end in select.select(self.ends, [], [], 0.2)[0]:
                packet, side = end.recv(65536), self.ends.index(end)
                if side == 1 or len(packet) <= self.longest:
                    self.ends[1 - side].sendto(packet, ("127.0.0.1", self.targets[side]))

    def end(self):
        self.ended = True
        self.thread.join()
        for end in self.ends:
            end.close()


class SilentLinks(Rows):
    def setUp(self):
        super().setUp()
        ends = [socket.socket(socket.AF_INET, socket.SOCK_DGRAM) for _ in range(8)]
        for end in ends:
            end.bind(("127.0.0.1", 0))
        self.ports = [end.getsockname()[1] for end in ends]
        for end in ends:
            end.close()

    def device(self, name, *options, given=""):
        """A device for one peer and one hop, which was given these commands."""
        self.rly("format", name, "--hops=1", "--peers=1", "--items=16", "--bytes=65536", *options)
        self.rly("play", name, input=given)

    def sender(self, *options, listen=None, remote=None, more="", payloads=(PAYLOAD,)):
        """A station with datagrams for the hop; its log."""
        own, other, spare, nobody = self.ports[:4]
        text = end_of("peer", 3, spare, nobody, "") + end_of("hop", SECOND, listen or own, remote or other, more)
        self.write("first.plan", f"station = {FIRST}\n{text}[[route]]\ndestination = 12\nhop = 1\n")
        given = [f"take 1 {number} 1 0 {payload}\n" for number, payload in enumerate(payloads, 1)]
        self.device("first", *options, given="".join(given))
        return Log(self.start("serve", "first", "first.plan"))

    def receiver(self, *options, remote=None, peer=FIRST, key="", destination=12, hop=9):
        """A station that hears the sender, with a route for a destination; its log."""
        own, other, _, nobody, spare = self.ports[:5]
        text = end_of("peer", peer, other, remote or own, key) + end_of("hop", hop, spare, nobody, "")
        self.write("second.plan", f"station = {SECOND}\n{text}[[route]]\ndestination = {destination}\nhop = 1\n")
        self.device("second", *options)
        log = Log(self.start("serve", "second", "second.plan"))
        log.wait_for("rly: serving", MINUTE)
        return log

    def expect_line(self, log, front, wanted, seconds=MINUTE):
        self.assertEqual(log.wait_for(front, seconds), wanted)

    def test_a_destination_without_a_route(self):
        """Both ends say which Data, and that there is no route; the one without it says for which station."""
        second = self.receiver(destination=13)
        first = self.sender()
        self.expect_line(second, "rly: peer 1: refused", "rly: peer 1: refused 2 nohop: no route to station 12 (Data 1, 1 so far)")
        self.expect_line(first, "rly: hop 1: station", "rly: hop 1: station 7 refuses Data 1: 2 nohop: no route (1 so far)")

    def test_a_payload_above_the_neighbours(self):
        second = self.receiver("--payload=63")
        first = self.sender()
        words = "5 toolong: payload above --payload"
        self.expect_line(second, "rly: peer 1: refused", f"rly: peer 1: refused {words} (Data 1, 1 so far)")
        self.expect_line(first, "rly: hop 1: station", f"rly: hop 1: station 7 refuses Data 1: {words} (1 so far)")

    def test_a_key_at_the_sending_end_alone(self):
        second = self.receiver()
        self.write("link.key", KEY)
        self.sender(more='key = "link.key"\n')
        self.expect_line(second, "rly: peer 1: packet", "rly: peer 1: packet 1 has 16 bytes too many: a key at the other end?")

    def test_a_key_at_the_receiving_end_alone(self):
        self.write("link.key", KEY)
        second = self.receiver(key='key = "link.key"\n')
        self.sender()
        self.expect_line(second, "rly: peer 1: wrong", "rly: peer 1: wrong tag (1 so far): the same key at both ends?")

    def test_a_wrong_station_number(self):
        second = self.receiver(peer=3)
        self.sender()
        self.expect_line(second, "rly: peer 1: packet", "rly: peer 1: packet 1 is from 4 to 7, this link is from 3 to 7")

    def test_packets_from_another_address(self):
        """The sender's port isn't the one that the receiver sends to, as behind an address translator."""
        second = self.receiver()
        self.sender(listen=self.ports[5])
        wanted = f"packets come from 127.0.0.1:{self.ports[5]}, remote is 127.0.0.1:{self.ports[0]} (1 so far)"
        self.expect_line(second, "rly: peer 1: packets", f"rly: peer 1: {wanted}")

    def test_a_route_that_leads_back(self):
        """The receiver's route for the datagram's destination is by a hop to the sender's station."""
        second = self.receiver(hop=FIRST)
        self.sender()
        wanted = "station 12's route leads back to station 4 (hop 1), which gave it (Data 1, 1 so far)"
        self.expect_line(second, "rly: peer 1: station", f"rly: peer 1: {wanted}")

    def test_fragments_that_are_dropped(self):
        """Short datagrams arrive, and the long one before them never does."""
        here, there = self.ports[6:8]
        own, other = self.ports[:2]
        cutter = Cutter((here, there), own, other, 1472)
        self.addCleanup(cutter.end)
        self.receiver("--payload=8192", remote=there)
        payloads = (PAYLOAD, "000c" + "42" * 1998, PAYLOAD, PAYLOAD)
        first = self.sender("--payload=8192", "--keep-all", remote=here, more=SOON, payloads=payloads)
        wanted = "Data 2 of 2000 bytes is lost, shorter ones arrive: do fragments pass? (1 so far)"
        self.expect_line(first, "rly: hop 1: Data", f"rly: hop 1: {wanted}", TENTH)

    def test_a_neighbour_that_is_silent(self):
        """What is in flight is sent again and again, and nothing is heard for a minute."""
        line = self.sender().wait_for("rly: hop 1: nothing", SILENT)
        self.assertEqual(line, "rly: hop 1: nothing heard for 60 s with 1 in flight (1 so far)")

    def test_a_link_that_stands_well_says_nothing(self):
        second = self.receiver()
        first = self.sender()
        time.sleep(3)
        first.wait_for("rly: serving", MINUTE)
        for log in (first, second):
            log.wait_for("none such", 0.5)
            self.assertEqual([line for line in log.text.decode().splitlines() if "rly: serving" not in line], OPEN)


# What either station says at its start, after its first line.
OPEN = [
    "rly: links without a key: peer 1, hop 1",
    "rly: hop 1: CoDel drops what waited more than 5 ms over 100 ms of open contact",
]
