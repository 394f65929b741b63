"""What CoDel of a device does at the hops of a plan: `format --keep-all`, `audit --made`, `plan --device`, and that it is so on `sim`."""
import fcntl
import os
import re

from program import Rows, plan_of

DEFAULTS = "made hops 4 peers 4 window 8 items 1024 bytes 1048576 maxpacket 1500 target 5000 interval 100000 payload 1200 "
KEPT = "made hops 1 peers 1 window 8 items 16 bytes 4096 maxpacket 65535 target 3600000000 interval 3600000000 payload 1200 "
OTHERS = ["--hops=2", "--peers=3", "--window=5", "--items=17", "--bytes=5000", "--maxpacket=6", "--target=70", "--interval=800"]
OTHERS_MADE = "made hops 2 peers 3 window 5 items 17 bytes 5000 maxpacket 6 target 70 interval 800 payload 90 segments 3 length 100000\n"

# CoDel's options, the hop's rate in bytes a second, and the bytes of each datagram.
BACKLOGS = [
    ({"target": 5_000, "interval": 100_000, "maxpacket": 1_500}, 12_000, 20),
    ({"target": 5_000, "interval": 100_000, "maxpacket": 1_500}, 1_000_000, 500),
    ({"target": 2_000_000, "interval": 10_000_000, "maxpacket": 1_500}, 1_200, 100),
    ({"target": 1, "interval": 1_000_000, "maxpacket": 0}, 10_000, 50),
]


def words_of(options):
    return [f"--{name}={value}" for name, value in options.items()]


def drained(backlog, rate, length):
    """Lines that take a backlog of so many bytes before a contact, and picks and releases at this rate from its opening on."""
    count = backlog // length
    takes = [f"take 1 {number} 1 0 {'00' * length}" for number in range(1, count + 1)]
    picks = [f"pick 1 {index * length * 1_000_000 // rate}\ndone 1 {index + 1}" for index in range(count)]
    return "".join(f"{line}\n" for line in takes + picks + ["show 1"])


class Codel(Rows):
    def write_plan(self, *more, peers=1, hops=1):
        return self.write("plan.toml", plan_of(peers, hops, "127.0.0.1:4049", "127.0.0.1:4050").replace(
            "contacts = []\n", "contacts = [[100, 200]]\n" + "".join(f"{line}\n" for line in more)
        ))

    def told(self, *words):
        """What `plan --device` says of the device on standard error, after the plan's warnings; the plan and these are as without it."""
        plain = self.rly("plan", "plan.toml", "--at=150")
        run = self.rly("plan", "plan.toml", "--at=150", "--device=device", *words)
        self.assertEqual((run.returncode, run.stdout), (0, plain.stdout), run.stderr)
        self.assertTrue(run.stderr.startswith(plain.stderr), run.stderr)
        return run.stderr[len(plain.stderr):].decode()

    def make(self, *words):
        self.write("device", b"")
        self.assertEqual(self.rly("format", "device", *words).returncode, 0)

    def test_what_a_device_was_made_with(self):
        self.make()
        self.expect("audit", "device", "--made", output=DEFAULTS + "segments 4 length 455790\n")
        self.make(*OTHERS, "--payload=90", "--segments=3", "--length=100000")
        self.expect("audit", "device", "--made", output=OTHERS_MADE)
        self.expect("audit", "device", "--made", "--copy", output=OTHERS_MADE)

    def test_a_device_that_keeps_all(self):
        self.make("--hops=1", "--peers=1", "--items=16", "--bytes=4096", "--keep-all")
        self.assertTrue(self.rly("audit", "device", "--made").stdout.decode().startswith(KEPT))

    def test_a_damaged_device_was_made_with_something(self):
        self.make()
        device = self.read("device")
        self.write("device", device[:64] + b"\0" + device[65:])
        self.assertEqual(self.rly("audit", "device").returncode, 1)
        self.expect("audit", "device", "--made", output=DEFAULTS + "segments 4 length 455790\n")

    def test_a_copy_is_read_beside_a_lock(self):
        """A file that another process has locked is read as a copy, and stays as it was."""
        self.make_small("device")
        plain, before = self.rly("audit", "device").stdout, self.read("device")
        with open(self.path("device"), "r+b") as device:
            fcntl.flock(device, fcntl.LOCK_EX | fcntl.LOCK_NB)
            self.assertEqual(self.rly("audit", "device").returncode, 1)
            self.expect("audit", "device", "--copy", output=plain)
        os.chmod(self.path("device"), 0o400)
        self.expect("audit", "device", "--copy", output=plain)
        self.assertEqual(self.read("device"), before)

    def test_codel_in_words(self):
        self.make("--hops=1", "--peers=1")
        self.write_plan()
        line = "rly: hop 1: CoDel drops what waited more than 5 ms over 100 ms of open contact"
        self.assertEqual(self.told(), f"{line}\n")
        self.write_plan("rate = 12000")
        self.assertEqual(self.told(), f"{line}: a backlog above 2760 bytes is dropped\n")
        self.make("--hops=1", "--peers=1", "--target=1500", "--interval=2000001")
        self.assertEqual(
            self.told(),
            "rly: hop 1: CoDel drops what waited more than 1500 us over 2000001 us of open contact: "
            "a backlog above 25518 bytes is dropped\n",
        )

    def test_a_hop_without_contacts_has_no_line(self):
        self.make("--hops=2", "--peers=1")
        self.write("plan.toml", plan_of(1, 2, "127.0.0.1:4049", "127.0.0.1:4050"))
        self.assertEqual(self.told(), "")

    def test_a_device_that_keeps_all_and_has_more_room(self):
        self.make("--hops=1", "--peers=1", "--keep-all", "--items=16384", "--bytes=16777216")
        self.write_plan("rate = 1200")
        first, second = self.told().splitlines()
        self.assertTrue(first.endswith(": a backlog above 8705535 bytes is dropped"), first)
        self.assertEqual(second, "rly: hop 1: --keep-all keeps 8705535 bytes at rate 1200, but the device has --bytes 16777216")
        self.write_plan("rate = 12000")
        self.assertEqual(len(self.told().splitlines()), 1)

    def test_a_plan_of_more_neighbours(self):
        self.make("--hops=1", "--peers=1")
        self.write_plan(peers=3, hops=1)
        first = self.told().splitlines()[0]
        self.assertEqual(first, "rly: plan: 3 peers and 1 hops, but the device has --peers 1 and --hops 1")

    def test_the_backlog_that_is_told_is_kept(self):
        """Of a backlog of N bytes that is drained at the hop's rate nothing is dropped, and of one of 1.1 N something is."""
        for options, rate, length in BACKLOGS:
            with self.subTest(options, rate=rate):
                room = ["--hops=1", "--peers=1", "--items=16384", "--bytes=1048576"]
                self.make(*room, *words_of(options))
                self.write_plan(f"rate = {rate}")
                most = int(re.search(r"a backlog above (\d+) bytes is dropped", self.told())[1])
                for backlog, drops in [(most, False), (most * 11 // 10, True)]:
                    run = self.rly("sim", *room, *words_of(options), input=drained(backlog, rate, length))
                    dropped = int(re.search(rb"dropped (\d+) released", run.stdout)[1])
                    self.assertEqual(dropped > 0, drops, f"{dropped} of {backlog} bytes")
