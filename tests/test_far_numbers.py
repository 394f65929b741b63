"""Devices at numbers where a bound of the code's own would hide: a head past the first MiB, generations past 65,535, the last
command of a spool's life, and the greatest numbers."""
from device_bytes import head
from journals import SECOND_GATE, SIZE, SMALL, Journals, take

# The small device with segments of 1 MiB, and the place of its second segment's gate.
FAR = {**SMALL, "segments": 2, "length": 1_048_576}
FAR_SIZE = 2_097_216
FAR_GATE = 1_048_640
FAR_FETCHED = ("fetch 1 1", f"bytes 1 1 {'41' * 1_200}")

# As many commands as a spool ever accepts.
LAST = 281_474_976_710_655

# What a hop shows that sent one datagram, by CoDel as at first.
ONE_SENT = "hop 1 taken 1 queued 0 flight 1 dropped 0 released 0 first 0 next 0 count 0 last 0 dropping no moment 0"

# The greatest numbers, and 0, on an empty device, and the reply to each.
GREATEST = [
    ("take 1 18446744073709551615 1 0 00", "refused 4 gap 1"),
    ("take 1 1 1 18446744073709551615 00", "refused 3 badmoment"),
    ("take 1 0 1 0 00", "already 1 0"),
    ("pick 1 18446744073709551615", "refused 3 badmoment"),
    ("done 1 18446744073709551615", "refused 9 neversent"),
    ("done 1 0", "unchanged 1"),
    ("fetch 1 18446744073709551615", "refused 9 neversent"),
    ("fetch 1 0", "refused 10 notinflight"),
]


def passing(number, seq):
    """A round in which a datagram of 1,200 bytes passes through after `seq` commands."""
    return [
        (take(number, 0, 1_200, 0x41), f"taken 1 {seq + 1}"),
        ("pick 1 0", f"picked 1 {number} {seq + 1}"),
        (f"done 1 {number}", "released 1 1"),
    ]


class FarNumbers(Journals):
    def put_head(self, gate, generation, seq):
        """Puts a head of the empty state after so many commands on a device, which keeps all else."""
        device = self.read("device")
        new = head(2, generation, 80, accepted=seq)
        self.write("device", device[:gate] + new + device[gate + len(new) :])

    def test_generations_past_65535(self):
        """A datagram of 1,200 bytes passes through in each round of 1,252 bytes. Each segment has four of them: the offset 5,101
        and 78,280 exceed 82,908. So nine segments are opened for forty rounds."""
        self.make_two()
        self.put_head(64, 65_533, 70_000)
        self.expect_told(*[passing(number, 70_000 + 3 * (number - 1)) for number in range(1, 41)])
        self.assertEqual(len(self.read("device")), SIZE)
        self.expect_bytes(SECOND_GATE + 1, (65_542).to_bytes(8, "big"))
        shown = "hop 1 taken 40 queued 0 flight 0 dropped 0 released 40 first 0 next 0 count 0 last 0 dropping no moment 0"
        self.expect_told([("show 1", shown), ("window 1", "window 1 41 41")])

    def test_a_head_past_the_first_mib(self):
        """The newest head is that of the second segment, of generation 2, in the empty state after one accepted command. A
        datagram is taken, picked and fetched, and fetched again after an opening."""
        self.make(FAR, FAR_SIZE)
        self.put_head(FAR_GATE, 2, 1)
        self.expect_told(
            [(take(1, 0, 1_200, 0x41), "taken 1 2"), ("pick 1 0", "picked 1 1 2"), FAR_FETCHED, ("show 1", ONE_SENT)]
        )
        self.expect_told([FAR_FETCHED, ("show 1", ONE_SENT), ("window 1", "window 1 1 2")])

    def test_the_last_command(self):
        """Two commands are left of a spool's life. So a datagram is taken and picked, and the others are refused. The device
        takes no command after that, also once it is opened again."""
        self.make_two()
        self.put_head(64, LAST - 1, LAST - 2)
        questions = [("fetch 1 1", "bytes 1 1 41"), ("show 1", ONE_SENT)]
        self.expect_told([
            ("take 1 1 1 0 41", f"taken 1 {LAST - 1}"),
            ("pick 1 0", f"picked 1 1 {LAST - 1}"),
            ("done 1 1", "refused 15 spent"),
            *questions,
        ])
        self.expect_books(f"hop 1 taken 1 queued 0 flight 1 dropped 0 released 0\npeer 1 last 1\nseq {LAST}\nbalance ok\n")
        self.expect_told(
            [("done 1 1", "refused 15 spent")],
            [
                ("take 1 1 1 0 41", "already 1 1"),
                ("pick 1 0", "refused 8 empty"),
                ("done 1 1", "refused 15 spent"),
                *questions,
            ],
        )

    def test_the_greatest_numbers(self):
        self.make_two()
        self.expect_told(*[[row] for row in GREATEST])
