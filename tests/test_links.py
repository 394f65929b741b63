"""Packets that a station receives and sends over sockets, up to the longest ones (`docs/PROTOCOL.md`)."""
import ctypes
import hashlib
import hmac
import os
import signal
import socket
import time

from program import KEY, SECONDS
from test_serve import CUSTODY, DATA, LIMITED, PLAN, Stations, bound, custody, last_of

# A contact without an end.
ALWAYS = "[[0, 4503599627370495]]"

# The longest Data: with a limit of an hour, and with 8,192 bytes for destination 12; 8,215 bytes, and 8,231 with its tag. The
# greatest limit is below 2^40.
LIMIT = 3_600_000_000
GREATEST = 2**40 - 1
PAYLOAD = b"\0\x0c" + bytes(range(256)) * 31 + bytes(254)

# The receive buffer that a peer's link wants, by the longest payload of its station, and the sizes that it has, with the line of
# each (docs/COMMANDS.md, "Receive buffers").
BUFFERS = [
    ([], 158_592, 158_591, True),
    ([], 158_592, 158_592, False),
    (["--payload=8192"], 1_053_568, 212_992, True),
    (["--payload=8192"], 1_053_568, 1_053_567, True),
    (["--payload=8192"], 1_053_568, 1_053_568, False),
]


# What a packet is refused with that has no route: number 1 of station 3, and refusal 2. Payloads of these have none: two
# destinations, no destination, and half of one.
NO_ROUTE = bytes.fromhex("524c01030007000300000000000000") + b"\1\2"
WITHOUT_ROUTE = [b"\xff\xff", b"\0\x0dA", b"", b"\x0c"]

# What is no Data of station 3 for station 7: one of another station, one that is cut at any byte, with a limit and without, no
# message, and a Data whose length is above 8,192, or more than there is.
STRAYS = [
    DATA[:5] + b"\4" + DATA[6:],
    *[DATA[:length] for length in range(1, len(DATA))],
    *[LIMITED[:length] for length in range(1, len(LIMITED))],
    b"LR" + DATA[2:],
    DATA[:2] + b"\2" + DATA[3:],
    DATA[:3] + b"\7" + DATA[4:],
    DATA[:4] + b"\0\0" + DATA[6:],
    DATA[:16] + b"\x20\1" + DATA[18:],
    DATA[:16] + b"\4\xb1" + DATA[18:],
    DATA + b"\0",
    LIMITED[:16] + bytes(5) + LIMITED[21:],
]


def data(source, target, number, payload, limit=0):
    """A Data from one station to another."""
    ends = source.to_bytes(2, "big") + target.to_bytes(2, "big") + number.to_bytes(8, "big")
    front = b"RL\1\4" + ends + limit.to_bytes(5, "big") if limit else b"RL\1\1" + ends
    return front + len(payload).to_bytes(2, "big") + payload


def longest(source, target, number):
    """The longest Data from one station to another."""
    return data(source, target, number, PAYLOAD, LIMIT)


def sealed(message):
    """A message with its tag under the worked key."""
    return message + hmac.digest(bytes.fromhex(KEY), message, hashlib.sha256)[:16]


class OpenLinks(Stations):
    """Tests of a station whose hop is open, and whose neighbours are played here."""

    def setUp(self):
        super().setUp()
        self.relay = "127.0.0.1", self.ports[0]

    def serve(self, *options, keys=("", "")):
        """A station of the plan with an open contact, whose peer and hop have these keys; its ends are `self.peer` and `self.hop`."""
        words = ["--hops=1", "--peers=1", *(options if "--items=64" in options else ["--items=16", "--bytes=65536", *options])]
        self.assertEqual(self.rly("format", "device", *words).returncode, 0)
        text = self.read("plan").decode().replace("[[100, 200], [300, 350]]", ALWAYS)
        self.write("plan", text.replace("[[hop]]", keys[0] + "[[hop]]").replace("[[route]]", keys[1] + "[[route]]"))
        self.peer, self.hop = (self.enterContext(bound(port)) for port in (self.ports[1], self.ports[3]))
        run = self.start("serve", "device", "plan", "--report=1")
        self.assertIn(b"rly: serving station 7", self.log_line(run))
        return run

    def wait_for_counts(self, run, counts):
        """Waits for a report whose line of the peer has these counts."""
        line, due = "", time.monotonic() + SECONDS
        while counts not in line:
            self.assertLess(time.monotonic(), due, line)
            line = last_of(self.answer(run).decode(), "peer 1 ")


class Links(OpenLinks):
    def test_packets_come_from_any_address_and_go_to_the_neighbour_s(self):
        """A Data that another socket sends has its custody, at the peer's address."""
        self.serve()
        with socket.socket(socket.AF_INET, socket.SOCK_DGRAM) as other:
            other.sendto(DATA, self.relay)
            self.assertEqual(self.peer.recv(99), CUSTODY)
            other.settimeout(0.2)
            self.assertRaises(TimeoutError, other.recv, 99)
        data = self.hop.recv(99)
        self.assertEqual((data[:8], data[-3:]), (b"RL\1\1\0\7\0\x09", DATA[-3:]))

    def carry(self, keys, seal, length):
        """Data go through byte for byte, but for their stations: with the greatest limit, with the longest payload and a limit, with
        1,200 bytes, and with none."""
        self.write("link.key", KEY)
        self.serve("--payload=8192", keys=keys)
        rows = [(b"\0\x0cA", GREATEST), (PAYLOAD, LIMIT), (PAYLOAD[:1_200], 0), (PAYLOAD, 0), (b"\0\x0c", 0)]
        for number, (payload, limit) in enumerate(rows, 1):
            self.peer.sendto(seal(data(3, 7, number, payload, limit)), self.relay)
            self.assertEqual(self.peer.recv(99), seal(custody(3, number)))
            self.assertEqual(self.hop.recv(9_000), seal(data(7, 9, number, payload, limit)))
            self.hop.sendto(seal(b"RL\1\2\0\x09\0\7" + number.to_bytes(8, "big")), ("127.0.0.1", self.ports[2]))
        self.assertEqual(len(seal(longest(3, 7, 2))), length)

    def test_the_longest_packets_are_carried(self):
        self.carry(("", ""), bytes, 8_215)

    def test_the_longest_packets_with_a_tag_are_carried(self):
        key = 'key = "link.key"\n'
        self.carry((key, key), sealed, 8_231)

    def test_what_has_no_route_is_refused(self):
        """A payload that has a route is taken under the same number after that."""
        self.serve()
        for payload in WITHOUT_ROUTE:
            self.peer.sendto(data(3, 7, 1, payload), self.relay)
            self.assertEqual(self.peer.recv(99), NO_ROUTE)
        self.peer.sendto(DATA, self.relay)
        self.assertEqual(self.peer.recv(99), CUSTODY)

    def test_what_has_no_route_takes_that_of_the_rest(self):
        self.write("plan", self.read("plan").decode() + '[[route]]\ndestination = "rest"\nhop = 1\n')
        self.serve()
        for number, payload in enumerate(WITHOUT_ROUTE, 1):
            self.peer.sendto(data(3, 7, number, payload), self.relay)
            self.assertEqual(self.peer.recv(99), custody(3, number))
            self.assertEqual(self.hop.recv(99), data(7, 9, number, payload))
            self.hop.sendto(b"RL\1\2\0\x09\0\7" + number.to_bytes(8, "big"), ("127.0.0.1", self.ports[2]))

    def test_the_rest_never_leads_back(self):
        """The rest's hop leads to the station that gives: what has no route is refused, and what has one is taken."""
        plan = self.read("plan").decode().replace("station = 9", "station = 3")
        self.write("plan", plan + '[[route]]\ndestination = "rest"\nhop = 1\n')
        self.serve()
        for payload in WITHOUT_ROUTE:
            self.peer.sendto(data(3, 7, 1, payload), self.relay)
            self.assertEqual(self.peer.recv(99), NO_ROUTE)

    def test_strays_are_dropped(self):
        """Each is counted as malformed and brings no answer."""
        run = self.serve()
        for packet in STRAYS:
            self.peer.sendto(packet, self.relay)
        self.wait_for_counts(run, f" heard {len(STRAYS)} custody 0 refused 0 malformed {len(STRAYS)} wrong 0 repeats 0 ")
        self.peer.sendto(DATA, self.relay)
        self.assertEqual(self.peer.recv(99), CUSTODY)

    def test_a_window_of_the_longest_packets(self):
        """64 of them come at once, and the last one's custody is that of all. Ten of them go out at first, since none is acknowledged,
        each byte for byte but for what is left of its limit."""
        run = self.serve("--payload=8192", "--window=64", "--items=64", "--bytes=524288")
        run.send_signal(signal.SIGSTOP)
        for number in range(1, 65):
            self.peer.sendto(longest(3, 7, number), self.relay)
        run.send_signal(signal.SIGCONT)
        while self.peer.recv(99) != CUSTODY[:8] + (64).to_bytes(8, "big"):
            pass
        for number in range(1, 11):
            heard = self.hop.recv(9_000)
            message = longest(7, 9, number)
            self.assertEqual(heard, message[:16] + heard[16:21] + message[21:])

    def test_what_came_ahead_of_a_gap_is_given_again(self):
        """Data 2 to 4, of which the longest and one with a limit come whole, wait for Data 1, and then all have one custody. Each goes
        out as it came."""
        self.serve("--payload=8192")
        rows = [(b"\0\x0cA", 0), (PAYLOAD, LIMIT), (PAYLOAD[:1_200], 0), (b"\0\x0cB", GREATEST)]
        packets = [data(3, 7, number, payload, limit) for number, (payload, limit) in enumerate(rows, 1)]
        for packet in packets[:0:-1]:
            self.peer.sendto(packet, self.relay)
        heard = b""
        while heard[:16] != CUSTODY[:3] + b"\5" + CUSTODY[4:8] + bytes(8) or heard[16] != 0b0111_0000:
            heard = self.peer.recv(99)
        self.peer.sendto(packets[0], self.relay)
        while self.peer.recv(99) != custody(3, 4):
            pass
        for number, (payload, limit) in enumerate(rows, 1):
            self.assertEqual(self.hop.recv(9_000), data(7, 9, number, payload, limit))

    def test_longer_packets_are_dropped(self):
        """A byte too many, more than the buffer holds, and the most that UDP carries: each is heard, and is no message."""
        run = self.serve("--payload=8192")
        for count in (8_216, 8_300, 8_400, 65_507):
            self.peer.sendto(longest(3, 7, 1) + bytes(count - 8_215), self.relay)
        self.wait_for_counts(run, " heard 4 custody 0 refused 0 malformed 4 ")
        self.peer.sendto(longest(3, 7, 1), self.relay)
        self.assertEqual(self.peer.recv(99), CUSTODY)

    def test_empty_packets_are_dropped(self):
        """They are none to a link, and no fault."""
        run = self.serve()
        for _packet in range(200):
            self.peer.sendto(b"", self.relay)
        self.peer.sendto(DATA, self.relay)
        self.assertEqual(self.peer.recv(99), CUSTODY)
        self.wait_for_counts(run, " heard 1 custody 1 refused 0 malformed 0 ")

    def test_a_smaller_receive_buffer_is_told(self):
        """A line at the start if the system says that it is smaller than what is wanted, with both sizes."""
        for options, wanted, has, is_told in BUFFERS:
            with self.subTest(wanted=wanted, has=has):
                self.assertEqual(self.rly("format", "device", "--force", "--hops=1", "--peers=1", *options).returncode, 0)
                run = self.start("serve", "device", "plan", "--turns=1", env=self.preload(BUFFER=has))
                errors = run.communicate(timeout=SECONDS)[1].decode()
                self.assertEqual(run.returncode, 0, errors)
                line = f"rly: receive buffer of {has} bytes: set net.core.rmem_max to {wanted}\n"
                self.assertEqual("receive buffer" in errors, is_told, errors)
                self.assertEqual(line in errors, is_told, errors)

    def expect_buffer(self, wanted, *options):
        """The socket of the station's peer has a receive buffer of this size, or as large as the system grants at most."""
        run = self.serve(*options)
        with open("/proc/sys/net/core/rmem_max") as setting:
            granted = min(wanted, int(setting.read()))
        libc = ctypes.CDLL(None)
        # pidfd_open, and pidfd_getfd, which gives a copy of a run's file.
        process, sizes = libc.syscall(434, run.pid, 0), []
        for name in os.listdir(f"/proc/{run.pid}/fd"):
            if os.readlink(f"/proc/{run.pid}/fd/{name}").startswith("socket:"):
                own = libc.syscall(438, process, int(name), 0)
                if own < 0:
                    self.skipTest("the system hands out no copy of a run's socket")
                with socket.socket(fileno=own) as copy:
                    if copy.getsockname() == self.relay:
                        sizes.append(copy.getsockopt(socket.SOL_SOCKET, socket.SO_RCVBUF) // 2)
        self.assertEqual(sizes, [granted])

    def test_a_receive_buffer_grows(self):
        self.expect_buffer(158_592)

    def test_a_receive_buffer_for_the_longest_payloads_grows(self):
        self.expect_buffer(1_053_568, "--payload=8192")


# The worked sealed packets of docs/PROTOCOL.md: the Data and its custody, each with its tag under the worked key.
SEALED_DATA = DATA + bytes.fromhex("b574d7131b0ecc867c481fa1d6bb0f53")
SEALED_CUSTODY = CUSTODY + bytes.fromhex("952a13be36ad45c816aa705217e0151e")

# Another key.
OTHER = "f0e1d2c3b4a5968778695a4b3c2d1e0ff0e1d2c3b4a5968778695a4b3c2d1e0f\n"

# Texts of a key's file under which the worked packets are right, and whether its custody is the worked one: the first line's key
# is used to send, and both are heard.
KEY_TEXTS = [
    (KEY, True),
    (KEY.strip(), True),
    (KEY.upper(), True),
    (KEY + OTHER, True),
    ((KEY + OTHER).strip(), True),
    (OTHER + KEY, False),
]


def flipped(packet):
    """A packet with each of its bits changed, one at a time."""
    for place in range(len(packet)):
        for bit in range(8):
            yield packet[:place] + bytes([packet[place] ^ 1 << bit]) + packet[place + 1 :]


class Sealed(OpenLinks):
    """Packets of a link with a key."""

    def serve_with(self, text):
        self.write("link.key", text)
        self.write("plan", PLAN.format(*self.ports))
        return self.serve(keys=('key = "link.key"\n', ""))

    def test_the_worked_packets_are_heard_and_sent(self):
        self.assertEqual((sealed(DATA), sealed(CUSTODY)), (SEALED_DATA, SEALED_CUSTODY))
        for text, is_worked in KEY_TEXTS:
            with self.subTest(text):
                run = self.serve_with(text)
                self.peer.sendto(SEALED_DATA, self.relay)
                answer = self.peer.recv(99)
                wanted = SEALED_CUSTODY if is_worked else CUSTODY + hmac.digest(bytes.fromhex(OTHER), CUSTODY, hashlib.sha256)[:16]
                self.assertEqual(answer, wanted)
                run.kill()
                run.wait()
                self.peer.close()
                self.hop.close()
                os.remove(self.path("device"))

    def test_packets_without_a_right_tag_are_dropped_and_counted(self):
        """Each bit of a packet is under its tag: one that is changed, cut anywhere, without a tag, with the tag of another message or
        of another key, or of another length, is none. Whatever came is counted, and brings no answer."""
        run = self.serve_with(KEY)
        other = DATA + hmac.digest(bytes.fromhex(OTHER), DATA, hashlib.sha256)[:16]
        packets = [*flipped(SEALED_DATA), *(SEALED_DATA[:length] for length in range(1, len(SEALED_DATA)))]
        packets += [DATA, DATA + SEALED_CUSTODY[16:], other, SEALED_DATA + b"\0", bytes(8_300)]
        for number, packet in enumerate(packets, 1):
            self.peer.sendto(packet, self.relay)
            if number % 50 == 0:
                self.wait_for_counts(run, f" wrong {number} ")
        self.wait_for_counts(run, f"heard 0 custody 0 refused 0 malformed 0 wrong {len(packets)} ")
        self.peer.sendto(SEALED_DATA, self.relay)
        self.assertEqual(self.peer.recv(99), SEALED_CUSTODY)
