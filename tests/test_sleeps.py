"""`rly serve` asleep: what has to wake it does, and nothing else. `preloaded.c` sets its clock and slows its calls."""
import mmap
import os
import random
import resource
import select
import shutil
import signal
import socket
import struct
import subprocess
import time
import unittest

from program import SECONDS, TOP, Rows

# This station, its first peer and its first hop; the others of a plan have numbers after these.
OWN, PEER, HOP = 7, 1_000, 2_000
END = 2**52 - 1
DATA, CUSTODY = 1, 2
# What nothing wakes a worker for is done never. Else it is done within milliseconds, and within this time on a busy machine.
LATEST = 3.0
# The greatest number of seconds between two readings of the wall clock.
WATCH = 1.0


def in_micros(seconds):
    return int(seconds * 1_000_000)


def data(number, peer=0, hop=0):
    """A peer's datagram for a hop."""
    return struct.pack(">2sBBHHQHH", b"RL", 1, DATA, PEER + peer, OWN, number, 2, HOP + hop)


def custody(number, hop=0):
    return struct.pack(">2sBBHHQ", b"RL", 1, CUSTODY, HOP + hop, OWN, number)


def is_answer(packet, kind, number):
    return packet[3] == kind and int.from_bytes(packet[8:16], "big") == number


class Clock:
    """The wall clock of a station, in a file that `preloaded.c` reads."""

    def __init__(self, path):
        with open(path, "w+b") as file:
            file.truncate(24)
            self.numbers = mmap.mmap(file.fileno(), 24)

    def put(self, place, number):
        self.numbers[8 * place : 8 * place + 8] = struct.pack("=q", number)

    def get(self, place):
        return struct.unpack_from("=q", self.numbers, 8 * place)[0]

    def set(self, seconds):
        """It shows this much more than the system's."""
        self.put(0, int(seconds * 1e9))

    def slew(self, part):
        """From now on it is faster by this part of the time."""
        self.put(1, time.monotonic_ns())
        self.put(2, int(part * 1e9))

    def now(self):
        passed = time.monotonic_ns() - self.get(1)
        return (time.time_ns() + self.get(0)) / 1e9 + passed * self.get(2) / 1e18


class Sleeping(Rows):
    """Tests of a relay with neighbours, whose sockets are `peers` and `hops`. It receives at `peer_ports` and `hop_ports`."""

    def setUp(self):
        super().setUp()
        self.number = 0

    def bound(self):
        """A socket at a port that the system picks, which nobody else has."""
        end = self.enterContext(socket.socket(socket.AF_INET, socket.SOCK_DGRAM))
        end.bind(("0.0.0.0", 0))
        return end

    def free_ports(self, count):
        """So many ports that are free, held until all are found."""
        ends = [self.bound() for _ in range(count)]
        ports = [end.getsockname()[1] for end in ends]
        for end in ends:
            end.close()
        return ports

    def neighbours(self, count, contacts, listen="127.0.0.1"):
        """The plan of so many peers and hops; each hop has these contacts, in seconds, and receives at this address."""
        self.peers, self.hops = [self.bound() for _ in range(count)], [self.bound() for _ in range(count)]
        ports = self.free_ports(2 * count)
        self.peer_ports, self.hop_ports = ports[:count], ports[count:]
        text = f"station = {OWN}\n"
        for at in range(count):
            text += self.link("peer", at, PEER, f"127.0.0.1:{self.peer_ports[at]}", self.peers[at])
        for at in range(count):
            text += self.link("hop", at, HOP, f"{listen}:{self.hop_ports[at]}", self.hops[at])
            text += f"contacts = {[[in_micros(begin), in_micros(end)] for begin, end in contacts]}\n"
        text += "".join(f"[[route]]\ndestination = {HOP + at}\nhop = {at + 1}\n" for at in range(count))
        self.write("plan", text)

    @staticmethod
    def link(kind, at, station, listen, end):
        remote = f"127.0.0.1:{end.getsockname()[1]}"
        return f'[[{kind}]]\nid = {at + 1}\nstation = {station + at}\nlisten = "{listen}"\nremote = "{remote}"\n'

    def serve(self, *words, options=("--items=64", "--bytes=65536"), preload=None, **how):
        """A relay of the plan on a new device, which has told what it serves."""
        count = len(self.peers)
        self.rly("format", "device", f"--hops={count}", f"--peers={count}", *options)
        run = self.start("serve", "device", "plan", *words, env={**os.environ, **(preload or {})}, **how)
        self.assertIn(b"rly: serving station 7", self.log_line(run))
        return run

    def give(self, peer=0, hop=0):
        """Sends a peer's next datagram; the moment at which its custody came."""
        self.number += 1
        self.peers[peer].sendto(data(self.number, peer, hop), ("127.0.0.1", self.peer_ports[peer]))
        return self.heard(self.peers[peer], CUSTODY, self.number)

    def heard(self, end, kind, number, within=SECONDS):
        """The moment of the monotonic clock at which a message of this kind and number came, if it did."""
        due = time.monotonic() + within
        while select.select([end], [], [], max(0.0, due - time.monotonic()))[0]:
            if is_answer(end.recv(2_048), kind, number):
                return time.monotonic()
        return None

    def silent(self, end, seconds):
        """Whether nothing comes for so long."""
        return not select.select([end], [], [], seconds)[0]

    def empty(self, end):
        while not self.silent(end, 0):
            end.recv(2_048)

    def acknowledge(self, number, hop=0):
        self.hops[hop].sendto(custody(number, hop), ("127.0.0.1", self.hop_ports[hop]))


@unittest.skipUnless(shutil.which("cc"), "there is no C compiler")
class Preloaded(Sleeping):
    """Tests of a relay whose clock is set, or whose calls are slow."""

    def setUp(self):
        super().setUp()
        self.library = self.path("preloaded.so")
        words = ["cc", "-O1", "-shared", "-fPIC", "-o", self.library, f"{TOP}/tests/preloaded.c", "-ldl"]
        subprocess.run(words, check=True)
        self.clock = Clock(self.path("clock"))

    def served(self):
        return self.serve(preload={"LD_PRELOAD": self.library, "CLOCK_FILE": self.path("clock")})


class Wakes(Preloaded):
    def handed_on(self, count, longest):
        """Gives datagrams at random moments, each after the one before was acknowledged. For each the time from its custody to the
        next hop's Data."""
        times = []
        for _ in range(count):
            time.sleep(random.uniform(0.0, longest))
            taken = self.give()
            sent = self.heard(self.hops[0], DATA, self.number, LATEST)
            self.assertIsNotNone(sent, f"datagram {self.number} doesn't go out")
            times.append(sent - taken)
            self.acknowledge(self.number)
        return sorted(times)

    def expect_soon(self, times):
        self.assertLess(times[9 * len(times) // 10], 0.1)

    def test_a_datagram_that_is_taken_goes_out_at_once(self):
        """The sender looks for datagrams, and sleeps where none is there: none is left behind in between."""
        self.neighbours(1, [(0, END / 1e6)])
        self.serve()
        self.expect_soon(self.handed_on(600, 0.003))

    def test_a_datagram_between_the_look_and_the_sleep_goes_out_at_once(self):
        """The same where each sleep begins late, so that many datagrams are taken before it."""
        self.neighbours(1, [(0, END / 1e6)])
        self.serve(preload={"LD_PRELOAD": self.library, "SLOW_MICROS": "5000"})
        self.expect_soon(self.handed_on(200, 0.015))


class Ends(Sleeping):
    def test_a_relay_that_broke_ends_though_its_workers_sleep(self):
        """One datagram comes, whose group can't be written. No packet comes after it, and all the others sleep without an end."""
        self.neighbours(3, [(0, 1)])
        run = self.serve(options=["--items=16", "--bytes=4096", "--segments=2"], restore_signals=False)
        # (after the first reading of the clock, which wakes all)
        time.sleep(WATCH + 0.5)
        resource.prlimit(run.pid, resource.RLIMIT_FSIZE, (64, 64))
        self.peers[1].sendto(data(1, 1), ("127.0.0.1", self.peer_ports[1]))
        _output, errors = run.communicate(timeout=LATEST)
        self.assertEqual(run.returncode, 1)
        self.assertTrue(errors.endswith(b"refused 11 broken\nrly: room: device: File too large (os error 27)\n"), errors)

    def test_a_signal_ends_a_relay_that_sleeps(self):
        self.neighbours(3, [(0, END / 1e6)])
        run = self.serve()
        time.sleep(0.3)
        run.terminate()
        self.assertEqual(run.wait(LATEST), -signal.SIGTERM)


class SetClocks(Preloaded):
    """A wall clock that is set while all workers sleep. The last of three hops has a datagram, from the last of three peers."""

    def waiting(self, contacts, seconds=WATCH + 0.5):
        """Such a relay, whose hops have these contacts, after so long."""
        self.neighbours(3, contacts)
        self.served()
        self.give(2, 2)
        time.sleep(seconds)

    def expect_opening(self, seconds):
        """Sets the clock by this much, over the beginning of a contact."""
        self.assertTrue(self.silent(self.hops[2], 0))
        self.clock.set(seconds)
        self.assertIsNotNone(self.heard(self.hops[2], DATA, 1, WATCH + LATEST), "the contact isn't seen")

    def test_ahead_into_a_contact(self):
        now = time.time()
        self.waiting([(now + 3_600, now + 7_200)])
        self.expect_opening(5_000)

    def test_ahead_into_a_contact_soon_after_the_start(self):
        """The senders have read the clock, and that which watches it hasn't."""
        now = time.time()
        self.waiting([(now + 3_600, now + 7_200)], 0.2)
        self.expect_opening(5_000)

    def test_back_into_a_contact(self):
        """No contact comes after that one."""
        now = time.time()
        self.waiting([(now - 7_200, now - 3_600)])
        self.expect_opening(-5_000)

    def expect_closing(self, seconds):
        """The datagram goes out again by Timeouts, until the clock is set by this much over an edge of the contact. Then neither it
        does, nor another one."""
        now = time.time()
        self.waiting([(now - 3_600, now + 3_600)])
        for _ in range(2):
            self.assertIsNotNone(self.heard(self.hops[2], DATA, 1))
        self.clock.set(seconds)
        time.sleep(WATCH + 0.5)
        self.empty(self.hops[2])
        self.give(2, 2)
        self.assertTrue(self.silent(self.hops[2], 2.0))

    def test_ahead_out_of_a_contact(self):
        self.expect_closing(5_000)

    def test_back_out_of_a_contact(self):
        self.expect_closing(-5_000)


class SlewedClocks(Preloaded):
    """A wall clock that goes at another rate, and is never far from what it showed a second before: nothing wakes for that."""

    def expect_opening(self, part):
        """The Data goes out as the clock shows the beginning of a contact, 40 s after now."""
        begin = time.time() + 40.0
        self.neighbours(1, [(begin, begin + 60.0)])
        self.served()
        self.give()
        time.sleep(0.5)
        self.clock.slew(part)
        sent = self.heard(self.hops[0], DATA, 1)
        self.assertIsNotNone(sent)
        late = self.clock.now() - begin
        self.assertTrue(0.0 <= late < 0.25, f"{late:.3f} s late")

    def test_a_fast_clock(self):
        self.expect_opening(0.2)

    def test_a_slow_clock(self):
        self.expect_opening(-0.2)


class Addresses(Sleeping):
    """A relay whose address goes and comes back, as that of a modem does."""

    def ip(self, verb):
        words = ["ip", "addr", verb, f"{self.address}/32", "dev", "lo"]
        return subprocess.run(words, capture_output=True, text=True)

    def setUp(self):
        super().setUp()
        self.address = f"10.98.{random.randrange(256)}.{random.randrange(1, 255)}"
        if not shutil.which("ip"):
            self.skipTest("there is no `ip`")
        added = self.ip("add")
        if added.returncode:
            self.skipTest(f"no address may be added: {added.stderr.strip()}")
        self.addCleanup(self.ip, "del")

    def expect_back(self, seconds):
        """The address is away for so long, in which a datagram is taken. It goes out soon after that, though Timeouts passed."""
        self.ip("del")
        self.give()
        time.sleep(seconds)
        self.assertTrue(self.silent(self.hops[0], 0))
        self.ip("add")
        self.assertIsNotNone(self.heard(self.hops[0], DATA, self.number, 2.0))
        self.hops[0].sendto(custody(self.number), (self.address, self.hop_ports[0]))
        time.sleep(0.3)

    def test_a_datagram_goes_out_once_the_address_is_back(self):
        self.neighbours(1, [(0, END / 1e6)], listen=self.address)
        self.serve()
        self.give()
        self.assertIsNotNone(self.heard(self.hops[0], DATA, 1))
        self.hops[0].sendto(custody(1), (self.address, self.hop_ports[0]))
        time.sleep(0.3)
        for seconds in 1.0, 12.0:
            with self.subTest(seconds):
                self.expect_back(seconds)

    def test_nothing_goes_out_after_the_contact(self):
        """The contact ends while the address is away."""
        end = time.time() + 3.0
        self.neighbours(1, [(0, end)], listen=self.address)
        self.serve()
        self.ip("del")
        self.give()
        time.sleep(end + 0.5 - time.time())
        self.ip("add")
        self.assertTrue(self.silent(self.hops[0], 2.5))


class Turns(Sleeping):
    def test_bounded_turns_keep_their_pace(self):
        """Each of 100 turns waits 10 ms for a packet, whether a contact is open or not."""
        for contacts in [(0, 1)], [(0, END / 1e6)]:
            with self.subTest(contacts):
                self.neighbours(2, contacts)
                began = time.monotonic()
                run = self.serve("--turns=100")
                self.assertEqual(run.wait(SECONDS), 0)
                self.assertTrue(0.9 < time.monotonic() - began < 10.0)


class Idle(Sleeping):
    def switches(self, run):
        """How often each thread has slept, by its id."""
        found = {}
        for task in os.listdir(f"/proc/{run.pid}/task"):
            with open(f"/proc/{run.pid}/task/{task}/status") as file:
                found[task] = int(next(line for line in file if line.startswith("voluntary")).split()[1])
        return found

    def wakes(self, run, seconds):
        """How often each thread that woke did so in a time, the greatest first."""
        before = self.switches(run)
        time.sleep(seconds)
        after = self.switches(run)
        return sorted((after[it] - before[it] for it in before if after[it] > before[it]), reverse=True)

    def idle(self, *words):
        self.neighbours(4, [(0, END / 1e6)])
        run = self.serve(*words)
        # (the first reading of the clock, a second after the start, wakes all)
        time.sleep(WATCH + 1.0)
        return run

    def test_one_thread_wakes_once_a_second(self):
        """That which reads the wall clock."""
        wakes = self.wakes(self.idle(), 5.0)
        self.assertEqual(len(wakes), 1, wakes)
        self.assertTrue(3 <= wakes[0] <= 10, wakes)

    def test_a_report_wakes_no_worker(self):
        """Its own thread wakes, and the one that answers it."""
        wakes = self.wakes(self.idle("--report=1"), 5.0)
        self.assertTrue(2 <= len(wakes) <= 3, wakes)
        self.assertLess(sum(wakes), 50, wakes)
