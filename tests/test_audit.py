"""Reports on devices: those that commands made, and those of which bytes were changed (`docs/COMMANDS.md`, "rly audit")."""
import resource
import subprocess

from program import RLY, SECONDS, Rows

ONE = ["--hops=1", "--peers=1", "--segments=2"]
# One hop and one peer in the least device that holds 16 datagrams and 4,096 bytes of payload.
SMALL = [*ONE, "--items=16", "--bytes=4096"]
SMALL_SIZE = 165_880
# One hop and one peer in the least device for the default limits.
DEFAULT_SIZE = 2_309_272
# As many hops and peers as a spool may have.
WIDE = ["--hops=64", "--peers=64", "--segments=2", "--items=16", "--bytes=4096"]
WIDE_SIZE = 175_834

# The report on a new device with one hop and one peer.
NEW = """hop 1 taken 0 queued 0 flight 0 dropped 0 released 0
peer 1 last 0
seq 0
balance ok
"""

# As many commands as a spool ever accepts, and how many datagrams of as many were dropped, and expired.
LAST = 281_474_976_710_655
DROPPED = 140_737_488_355_328
EXPIRED = 70_368_744_177_664


def take(number, limit, payload):
    """A line that takes a datagram of so many zero bytes from peer 1 to hop 1 at moment 0, which may wait so long."""
    return f"take 1 {number} 1 0 {'00' * payload} {limit}\n"


class Audits(Rows):
    def make(self, options, size):
        """A new device of so many bytes."""
        self.expect("format", self.path("device"), *options, output=f"formatted {size}\n")

    def play(self, lines, replies):
        """Plays lines, each in a round of its own, and compares the first word of each reply."""
        run = self.rly("play", self.path("device"), input="".join(lines))
        self.assertEqual((run.returncode, run.stderr), (0, b""))
        self.assertEqual([reply.split()[0] for reply in run.stdout.decode().splitlines()], replies)

    def change(self, *changes):
        """Puts other bytes at places of the device."""
        device = bytearray(self.read("device"))
        for place, content in changes:
            device[place : place + len(content)] = content
        self.write("device", device)

    def expect_audit(self, **wanted):
        """Compares all that an audit puts out. The device then reads as before."""
        before = self.read("device")
        self.expect("audit", self.path("device"), **wanted)
        self.assertTrue(self.read("device") == before)

    def audit_to(self, output, room):
        """An audit whose output is a file that has room for so many bytes. A write past them fails, since the signal that would
        end the program is ignored."""
        limits = (room, resource.RLIM_INFINITY)
        return subprocess.run(
            [RLY, "audit", self.path("device")],
            stdout=output,
            stderr=subprocess.PIPE,
            timeout=SECONDS,
            restore_signals=False,
            preexec_fn=lambda: resource.setrlimit(resource.RLIMIT_FSIZE, limits),
        )


class Reports(Audits):
    def test_a_new_device_has_nothing(self):
        self.make(SMALL, SMALL_SIZE)
        self.expect_audit(output=NEW)

    def test_six_taken_and_three_picked(self):
        """The datagrams have 1,000 bytes each. CoDel lets three into flight."""
        self.make(ONE, DEFAULT_SIZE)
        takes = [take(number, 0, 1_000) for number in range(1, 7)]
        picks = [f"pick 1 {now}\n" for now in (10_000, 110_000, 210_000)]
        self.play(takes + picks, ["taken"] * 6 + ["picked"] * 3)
        self.expect_audit(output="""hop 1 taken 6 queued 1 flight 3 dropped 2 released 0
peer 1 last 6
seq 9
balance ok
""")

    def test_one_of_three_expired(self):
        """A hop's line ends with how many expired, and they are in the balance. The second datagram has no limit."""
        self.make(SMALL, SMALL_SIZE)
        self.play([take(1, 10, 1), take(2, 0, 1), take(3, 10, 1), "pick 1 11\n"], ["taken"] * 3 + ["picked"])
        self.expect_audit(output="""hop 1 taken 3 queued 1 flight 1 dropped 0 released 0 expired 1
peer 1 last 3
seq 4
balance ok
""")

    def test_sixty_four_hops_and_peers(self):
        self.make(WIDE, WIDE_SIZE)
        hops = "".join(f"hop {hop} taken 0 queued 0 flight 0 dropped 0 released 0\n" for hop in range(1, 65))
        peers = "".join(f"peer {peer} last 0\n" for peer in range(1, 65))
        self.expect_audit(output=f"{hops}{peers}seq 0\nbalance ok\n")

    def test_the_greatest_numbers(self):
        """The head of a device may have numbers as great as these: all that was taken was dropped, expired or was let go."""
        self.make(SMALL, SMALL_SIZE)
        self.change(
            (77, LAST.to_bytes(8, "big")),
            (85, LAST.to_bytes(8, "big")),
            (127, LAST.to_bytes(6, "big")),
            (133, DROPPED.to_bytes(6, "big")),
            (139, (LAST - DROPPED - EXPIRED).to_bytes(6, "big")),
            (145, EXPIRED.to_bytes(6, "big")),
        )
        self.expect_audit(output="""hop 1 taken 281474976710655 queued 0 flight 0 dropped 140737488355328 \
released 70368744177663 expired 70368744177664
peer 1 last 281474976710655
seq 281474976710655
balance ok
""")

    def test_the_greatest_numbers_of_the_first_form(self):
        """A head of the first form has eight bytes for each, and nothing expired. Its body is 87 bytes long, and the gate behind
        it is closed."""
        self.make(SMALL, SMALL_SIZE)
        self.change(
            (73, (87).to_bytes(4, "big")),
            (77, LAST.to_bytes(8, "big")),
            (85, LAST.to_bytes(8, "big")),
            (134, LAST.to_bytes(8, "big")),
            (142, DROPPED.to_bytes(8, "big")),
            (150, (LAST - DROPPED).to_bytes(8, "big")),
        )
        self.expect_audit(output="""\
hop 1 taken 281474976710655 queued 0 flight 0 dropped 140737488355328 released 140737488355327
peer 1 last 281474976710655
seq 281474976710655
balance ok
""")


class Faults(Audits):
    def test_a_file_of_63_bytes_is_no_device(self):
        self.write("device", bytes(63))
        self.expect_audit(errors=f"refused 20 notadevice\nrly: device: {self.path('device')}: not a device; `rly format` makes one\n", status=1)

    def test_devices_that_do_not_open(self):
        device = self.path("device")
        for place, errors in [
            (0, f"refused 20 notadevice\nrly: device: {device}: not a device; `rly format` makes one\n"),
            (12, f"refused 21 badgeometry\nrly: device: {device}: header value out of limits, or file too short\n"),
            (64, f"refused 22 damaged 64\nrly: device: {device}: damaged at byte 64\n"),
        ]:
            with self.subTest(place=place):
                self.make(SMALL, SMALL_SIZE)
                self.change((place, b"\0"))
                self.expect_audit(errors=errors, status=1)

    def test_an_output_that_fails_has_its_line(self):
        self.make(SMALL, SMALL_SIZE)
        self.expect_stuck("audit", self.path("device"))

    def test_an_output_that_fails_at_each_byte(self):
        """What was written is then a prefix of the report, and the device reads as before."""
        self.make(SMALL, SMALL_SIZE)
        before = self.read("device")
        for room in range(len(NEW)):
            with self.subTest(room=room):
                with open(self.path("report"), "wb") as report:
                    run = self.audit_to(report, room)
                self.assertEqual((run.returncode, run.stderr), (1, b"rly: output failed\n"))
                self.assertEqual(self.read("report").decode(), NEW[:room])
        self.assertTrue(self.read("device") == before)
        self.expect_audit(output=NEW)
