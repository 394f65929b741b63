"""`format`, `play` and `audit` on files: a device's bytes, what is durable, what is refused, and how great a device may be."""
import fcntl
import os

from program import NO_DEVICE, SECONDS, Rows, bad_option

# The header of the small device.
SMALL_HEADER = bytes.fromhex(
    "a5524c594445563031000200010001000800040001"
    "39310000001000001000000005dc000000000000138800000000000186a004b0"
)
# What follows its header: the head's gate, generation and length, and the zeros of its body and of the first group's gate.
SMALL_HEAD = b"\xa5\0\0\0\0\0\0\0\x01\x80\0\0\x50" + bytes(81)

# The header of a device of one hop, one peer, two segments, 16 items and 8,192 bytes, for payloads of 8,192 bytes, and the group
# of its first take up to the payload.
LONG_HEADER = bytes.fromhex(
    "a5524c594445563031000200010001000800020008"
    "27dc0000001000002000000005dc000000000000138800000000000186a02000"
)
LONG_TAKE = bytes.fromhex("a50000201900010100010000000000000001000100000000000000002000")

# Lines of several runs of `play` on one device, and what each writes.
RUNS = [
    ("take 1 1 1 0 41\n", "taken 1 1\n"),
    ("take 1 1 1 0 41\n", "already 1 1\n"),
    ("pick 1 5", "picked 1 1 1\n"),
    ("fetch 1 1\n", "bytes 1 1 41\n"),
    ("done 1 1\nno\n", "released 1 1\nrefused 16 line\n"),
]

# The same with limits, and what `audit` tells then.
LIMITED_RUNS = [
    ("take 1 1 1 0 41 5000\ntake 1 2 1 0 42 6000\n", "taken 1 1\ntaken 1 2\n"),
    ("pick 1 5001\n", "picked 1 1 2 expired 1\n"),
    ("fetch 1 1\n", "bytes 1 1 42 6000\n"),
]
LIMITED_BOOKS = """hop 1 taken 2 queued 0 flight 1 dropped 0 released 0 expired 1
peer 1 last 2
seq 3
balance ok
"""

# What `play` writes for six takes of 1,000 bytes and three picks, and what `audit` tells then.
BUSY_REPLIES = """taken 1 1
taken 1 2
taken 1 3
taken 1 4
taken 1 5
taken 1 6
picked 1 1 1
picked 1 2 3 dropped 2
picked 1 3 5 dropped 4
"""
BUSY_BOOKS = """hop 1 taken 6 queued 1 flight 3 dropped 2 released 0
peer 1 last 6
seq 9
balance ok
"""

# What `audit` tells of a device on which 64 datagrams wait.
MANY_BOOKS = """hop 1 taken 64 queued 64 flight 0 dropped 0 released 0
peer 1 last 64
seq 64
balance ok
"""

# Options of geometries that are out of their limits, and these.
BAD_GEOMETRIES = [
    ("--hops=65537", 1, 64),
    ("--items=0", 1, 16_384),
    ("--payload=0", 1, 8_192),
    ("--payload=8193", 1, 8_192),
    ("--segments=257", 2, 256),
    ("--segments=1", 2, 256),
    ("--segments=18446744073709551615", 2, 256),
    ("--length=455789", 455_790, 2**31 - 1),
    ("--length=2147483648", 455_790, 2**31 - 1),
    ("--length=18446744073709551615", 455_790, 2**31 - 1),
]

# Numbers of segments, and what `format` prints for a small device of so many.
SEGMENTS = [
    ("--segments=2", "formatted 165880\n"),
    ("--segments=3", "formatted 242644\n"),
    ("--segments=256", "formatted 20180032\n"),
]

# Places of the small device, and what is told where the byte there is 0.
NOT_A_DEVICE = "refused 20 notadevice\nrly: device: device: not a device; `rly format` makes one\n"
DAMAGES = [(64, "refused 22 damaged 64\nrly: device: device: damaged at byte 64\n"), (0, NOT_A_DEVICE), (10, NOT_A_DEVICE)]

# What is told of a file that is no device, of a device that is a byte too short, and of one that another program has.
SHORT = "refused 21 badgeometry\nrly: device: device: header value out of limits, or file too short\n"
HELD = "refused 23 device\nrly: lock: device: locked by another process\n"


def living(count, name="device"):
    """What is told where a device that holds so many live datagrams would be formatted."""
    return f"refused 23 device\nrly: device: {name}: live datagrams: {count}; --force formats it, and they are lost\n"


def takes(count, length):
    """Takes 1 to `count` of `length` zero bytes each, from peer 1 to hop 1 at moment 0."""
    return "".join(f"take 1 {number} 1 0 {'00' * length}\n" for number in range(1, count + 1))


class Devices(Rows):
    """Tests of devices, each of which has one at `device`."""

    def make_default(self, *words):
        """Formats a device of one hop and one peer, with the defaults for the rest."""
        self.expect("format", "device", "--hops=1", "--peers=1", *words, output="formatted 1822276\n")

    def play(self, lines, output):
        self.expect("play", "device", input=lines, output=output)

    def expect_runs(self):
        for lines, output in RUNS:
            self.play(lines, output)

    def expect_books(self, books, name="device"):
        self.expect("audit", name, output=books)

    def expect_refused(self, *words, errors):
        self.expect(*words, input="show 1\n", errors=errors, status=1)

    def expect_bytes(self, place, wanted):
        self.assertEqual(self.read("device")[place : place + len(wanted)], wanted)


class Formatting(Devices):
    def test_a_new_device_is_as_the_format_says(self):
        self.make_small("device")
        self.assertEqual(len(self.read("device")), 320_772)
        self.expect_bytes(0, SMALL_HEADER)
        self.expect_bytes(64, SMALL_HEAD)

    def test_geometries_out_of_limits_touch_no_file(self):
        for option, least, most in BAD_GEOMETRIES:
            with self.subTest(option):
                self.expect_refused("format", "device", option, errors=bad_option(option, least, most))
                self.assertFalse(os.path.lexists(self.path("device")))

    def test_a_device_takes_its_room_at_once(self):
        """With `--allocate` its blocks are there, or standard error says how many are; the device is the same, and so is what is refused."""
        sizes = ["--hops=1", "--peers=1", "--items=16", "--bytes=4096"]
        self.make_small("device")
        run = self.rly("format", "room", *sizes, "--allocate")
        self.assertEqual((run.returncode, run.stdout), (0, b"formatted 320772\n"), run.stderr)
        self.assertEqual(self.read("room"), self.read("device"))
        if os.stat(self.path("room")).st_blocks * 512 >= 320_772:
            self.assertEqual(run.stderr, b"")
        else:
            self.assertRegex(run.stderr, rb"\Arly: room: room: \d+ of 320772 bytes are taken, ")
        self.expect("play", "room", input="take 1 1 1 0 41\n", output="taken 1 1\n")
        taken = self.read("room")
        self.assertEqual(self.rly("format", "room", *sizes, "--allocate").returncode, 1)
        self.assertEqual(self.read("room"), taken)
        self.expect("format", "room", *sizes, "--allocate", "--force", output="formatted 320772\n", errors=run.stderr)
        self.assertEqual(self.read("room"), self.read("device"))

    def test_format_never_shortens_a_file(self):
        self.write("device", b"\7" * 400_000)
        self.make_small("device")
        self.assertEqual(len(self.read("device")), 400_000)
        self.expect_bytes(320_772, b"\7" * 79_228)

    def test_a_device_with_nothing_live_is_formatted(self):
        """It is formatted as a new one is, and so is one that is damaged."""
        self.make_small("device")
        self.play("take 1 1 1 0 41\npick 1 5\ndone 1 1\n", "taken 1 1\npicked 1 1 1\nreleased 1 1\n")
        self.make_small("device")
        self.play("take 1 1 1 0 41\n", "taken 1 1\n")
        device = self.read("device")
        self.write("device", device[:64] + b"\0" + device[65:])
        self.make_small("device")

    def test_live_datagrams_are_lost_by_force_alone(self):
        """A device on which a datagram waits, and one on which it is in flight, stays as it was without force."""
        self.make_small("device")
        for lines, output in [("take 1 1 1 0 41\n", "taken 1 1\n"), ("pick 1 5\n", "picked 1 1 1\n")]:
            self.play(lines, output)
            before = self.read("device")
            self.expect_refused("format", "device", "--hops=1", "--peers=1", errors=living(1))
            self.assertEqual(self.read("device"), before)
        self.play("fetch 1 1\n", "bytes 1 1 41\n")
        self.make_default("--force")
        self.play("window 1\n", "window 1 1 1\n")


class Playing(Devices):
    def test_play_goes_on_where_it_stopped(self):
        self.make_small("device")
        self.expect_runs()

    def test_limits_outlive_the_program(self):
        self.make_small("device")
        for lines, output in LIMITED_RUNS:
            self.play(lines, output)
        self.expect_books(LIMITED_BOOKS)

    def test_the_longest_payload_is_taken(self):
        """A device for the longest payloads takes one, and none that is longer."""
        words = ["--hops=1", "--peers=1", "--segments=2", "--items=16", "--bytes=8192", "--payload=8192"]
        self.expect("format", "device", *words, output="formatted 1069048\n")
        self.play(takes(1, 8_193), "refused 5 toolong\n")
        self.play(takes(1, 8_192), "taken 1 1\n")
        self.assertEqual(len(self.read("device")), 1_069_048)
        self.expect_bytes(0, LONG_HEADER)
        self.expect_bytes(157, LONG_TAKE + bytes(8_193))
        self.play("take 1 2 1 0 41\n", "refused 6 full\n")

    def test_a_device_of_version_1_is_played(self):
        """It takes payloads of 1,200 bytes, and none that is longer. Its header stays as it is. It has no field after its
        interval, and what stands there isn't read."""
        self.make_small("device")
        device = self.read("device")
        first = device[:10] + b"\1" + device[11:51] + b"\xff\xff" + device[53:]
        self.write("device", first)
        self.play(takes(1, 1_201), "refused 5 toolong\n")
        self.play(takes(1, 1_200), "taken 1 1\n")
        self.expect_bytes(0, first[:64])

    def test_audit_tells_what_play_left(self):
        """The books of a device are what `play` left, whatever runs there were; other files have none."""
        self.expect_refused("audit", "device", errors=NO_DEVICE)
        self.make_default()
        lines = takes(6, 1_000) + "pick 1 10000\npick 1 110000\npick 1 210000\n"
        self.expect("play", "device", "--batch=7", input=lines, output=BUSY_REPLIES)
        self.expect_books(BUSY_BOOKS)
        self.expect_stuck("audit", "device")
        self.write("device", self.read("device")[:63])
        self.expect_refused("audit", "device", errors=NOT_A_DEVICE)


class Refusals(Devices):
    def test_a_file_that_is_no_device_is_refused(self):
        self.expect_refused("play", "device", errors=NO_DEVICE)
        self.write("device", b"\xa5" * 63)
        self.expect_refused("play", "device", errors=NOT_A_DEVICE)

    def test_a_damaged_device_is_refused(self):
        self.make_small("device")
        device = self.read("device")
        for place, errors in DAMAGES:
            with self.subTest(place):
                self.write("device", device[:place] + b"\0" + device[place + 1 :])
                self.expect_refused("play", "device", errors=errors)
        self.write("device", device[:-1])
        self.expect_refused("play", "device", errors=SHORT)

    def expect_held(self):
        """Checks that a device which another process has is neither played, nor audited, nor formatted."""
        self.expect_refused("play", "device", errors=HELD)
        self.expect_refused("audit", "device", errors=HELD)
        self.expect_refused("format", "device", "--force", errors=HELD)

    def test_a_device_is_one_process_s(self):
        """`play` has it until its input ends."""
        self.make_small("device")
        run = self.start("play", "device")
        run.stdin.write(b"take 1 1 1 0 41\n")
        self.assertEqual(self.answer(run), b"taken 1 1\n")
        self.expect_held()
        run.stdin.close()
        self.assertEqual(run.wait(SECONDS), 0)
        self.play("take 1 1 1 0 41\n", "already 1 1\n")

    def test_a_device_that_is_locked_is_left_alone(self):
        self.make_small("device")
        with open(self.path("device"), "r+b") as device:
            fcntl.flock(device, fcntl.LOCK_EX | fcntl.LOCK_NB)
            self.expect_held()


class Extremes(Devices):
    def test_a_device_has_as_many_segments_as_are_asked_for(self):
        """It has 2 to 256."""
        words = ["--hops=1", "--peers=1", "--items=16", "--bytes=4096", "--force"]
        for option, formatted in SEGMENTS:
            with self.subTest(option):
                self.expect("format", "device", *words, option, output=formatted)
                self.expect_runs()

    def test_the_longest_device_is_as_any_other(self):
        """The second of its two segments begins past 2 GiB, and it is reached by a path of 3,900 bytes."""
        device = self.long_path("device")
        words = ["--hops=1", "--peers=1", "--items=64", "--bytes=4096", "--segments=2", "--length=2147483647"]
        self.expect("format", device, *words, output="formatted 4294967358\n")
        taken = "".join(f"taken 1 {number}\n" for number in range(1, 65))
        self.expect("play", device, "--batch=64", input=takes(64, 1), output=taken)
        self.expect_books(MANY_BOOKS, device)
        self.expect_refused("format", device, *words, errors=living(64, device))
