"""Rows of `rly play` on devices in files, in rounds of several lengths, and with the program stopped between any two lines."""
import os
import tempfile

from program import Rows, parted
from test_sim import LONGEST, SIX_TAKES, TEN_TAKES

NARROW = ["--hops=1", "--peers=1"]
# 16 items and 4,096 bytes.
SMALL = [*NARROW, "--items=16", "--bytes=4096"]
# The longest payloads.
LONG_SMALL = [*NARROW, "--items=16", "--bytes=8192", "--payload=8192"]


class Plays(Rows):
    """The replies are the same for every batch, and go on where the device was left."""

    def make(self, name, options):
        """Formats a file as a device of two segments of the least length."""
        run = self.rly("format", name, "--segments=2", *options)
        self.assertEqual((run.returncode, run.stderr), (0, b""))

    def plays(self, options, commands, replies):
        """`rly play` on a new device answers each command with its reply."""
        for batch in (1, 7, 64):
            with self.subTest(batch=batch):
                name = f"batch_{batch}.rly"
                self.make(name, options)
                self.expect("play", name, f"--batch={batch}", input=commands, output=replies)
        with self.subTest("stopped and started again between any two lines"):
            self.make("stopped.rly", options)
            for command, reply in zip(commands.splitlines(True), replies.splitlines(True), strict=True):
                self.expect("play", "stopped.rly", input=command, output=reply)

    def test_six_takes_and_three_picks_on_a_device(self):
        self.plays(NARROW, *parted(SIX_TAKES))

    def test_ten_takes_and_a_late_pick_on_a_device(self):
        self.plays(NARROW, *parted(TEN_TAKES))

    def test_limits_are_kept_on_a_device(self):
        """Limits outlive the program: an item's, in the queue and in flight, and the count of those that expired."""
        self.plays(SMALL, *parted("""
            take 1 1 1 0 41 5000          -> taken 1 1
            take 1 2 1 0 42 6000          -> taken 1 2
            take 1 3 1 0 43               -> taken 1 3
            take 1 4 1 0 44 1099511627776 -> refused 3 badmoment
            pick 1 5001                   -> picked 1 1 2 expired 1
            fetch 1 1                     -> bytes 1 1 42 6000
            take 1 4 1 0 - 10             -> taken 1 5
            pick 1 5011                   -> picked 1 2 3
            pick 1 5012                   -> nothing 1 expired 5
            show 1                        -> hop 1 taken 4 queued 0 flight 2 dropped 0 released 0
                                             first 0 next 0 count 0 last 0 dropping no moment 5012 expired 2
            done 1 2                      -> released 1 2
        """))

    def test_refused_lines_stand_in_their_places(self):
        """The last line has no newline."""
        commands, replies = parted("""
                            -> refused 16 line
            show            -> refused 16 line
            take 1 1 1 0 41 -> taken 1 1
            no              -> refused 16 line
            take 1 1 1 0 41 -> already 1 1
                            -> refused 16 line
                            -> refused 16 line
                            -> refused 16 line
                            -> refused 16 line
                            -> refused 16 line
                            -> refused 16 line
            window 1        -> window 1 1 1
            no              -> refused 16 line
        """)
        self.plays(SMALL, commands.removesuffix("\n"), replies)

    def test_the_longest_payload_comes_back_from_a_device(self):
        """Of two segments, each has 534,492 bytes."""
        self.expect("format", "long.rly", "--segments=2", *LONG_SMALL, output=f"formatted {64 + 2 * 534_492}\n")
        self.plays(LONG_SMALL, *parted(LONGEST))


class LongRun(Rows):
    """2,500 datagrams of 200 bytes, each of which is stored, picked, fetched and released: 15,000 lines, for which many segments
    are opened. The device stands in memory, since a slow disk takes minutes for that many syncs."""

    def setUp(self):
        super().setUp()
        memory = "/dev/shm" if os.path.isdir("/dev/shm") else None
        self.folder = self.enterContext(tempfile.TemporaryDirectory(prefix="rly-tests-", dir=memory))
        lines = []
        for number in range(1, 2_501):
            payload = "".join(f"{(number + at) % 256:02x}" for at in range(200))
            lines += [f"take 1 {number} 1 {number} {payload}", f"pick 1 {number + 7}", f"fetch 1 {number}"]
            lines += ["window 1", f"done 1 {number}", "show 1"]
        self.lines = "".join(f"{line}\n" for line in lines)

    def generation(self):
        """The greatest generation of a segment, one more than were opened."""
        image = self.read("device")
        segments, length = int.from_bytes(image[17:19], "big"), int.from_bytes(image[19:23], "big")
        places = range(64, 64 + segments * length, length)
        return max(int.from_bytes(image[place + 1 : place + 9], "big") for place in places)

    def test_a_long_run_opens_segments_and_answers_as_sim(self):
        replies = self.rly("sim", *SMALL, input=self.lines).stdout
        self.assertEqual(replies.count(b"\n"), 15_000)
        self.assertNotIn(b"refused", replies)
        for batch in (1, 7, 64):
            with self.subTest(batch=batch):
                self.expect("format", "device", "--segments=2", *SMALL, output="formatted 165880\n")
                self.expect("play", "device", f"--batch={batch}", input=self.lines, output=replies)
                self.assertTrue(100 < self.generation() - 1 < 1_000, self.generation())
