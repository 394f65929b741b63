"""Worked rounds on devices: copies, what expires, payloads of every length, and a spool of 64 hops and peers."""
from device_bytes import CLOSED, OPEN, fields, group, head, header, take_record
from journals import FIRST_GROUP, FIRST_HEADER, FIRST_TAKE, SMALL, STORED, Journals, parameter_lines, take

# Payloads of up to 8,192 bytes, on two segments of the least length for them.
LONG = {**SMALL, "bytes": 8_192, "payload": 8_192}
LONG_SIZE = 1_069_048
LONG_HEADER = header(2, 534_492, 8_192) + (8_192).to_bytes(2, "big")
# The group of its first datagram: 8,217 bytes after the length, the closed gate behind the payload, and no byte more.
LONG_GROUP = group(8_217, take_record(1, 0, b"\x01" * 8_192)) + b"\0\0"

# As many hops and peers as there may be, with a datagram for each.
BROAD = {"hops": 64, "peers": 64, "items": 64, "bytes": 65_536}
BROAD_SIZE = 301_306
IDS = range(1, 65)
# Each hop has the one datagram of the peer of its number in flight. It has 66 to 1,200 bytes.
BROAD_FETCHES = [(f"fetch {id} 1", f"bytes {id} 1 {'41' * (id * 18 + 48)}") for id in IDS]


def broad_books(shown, seq):
    """What `audit` tells where each hop's line goes on so, and each peer gave one datagram."""
    return "".join([*[f"hop {id} {shown}\n" for id in IDS], *[f"peer {id} last 1\n" for id in IDS], f"seq {seq}\nbalance ok\n"])


# Other parameters than those of the small device.
OTHERS = {
    "hops": (2,),
    "peers": (2,),
    "window": (7, 9),
    "items": (15, 17),
    "bytes": (4_095, 4_097),
    "maxpacket": (1_499, 1_501),
    "target": (4_999, 5_001),
    "interval": (99_999, 100_001),
    "payload": (1_199, 1_201),
}


class Rounds(Journals):
    def test_two_copies_in_one_round(self):
        """The first datagram is taken once."""
        self.make_two()
        self.expect_told([(FIRST_TAKE, "taken 1 1"), (FIRST_TAKE, "already 1 1")])
        self.expect_bytes(157, FIRST_GROUP)
        self.expect_books("hop 1 taken 1 queued 1 flight 0 dropped 0 released 0\npeer 1 last 1\nseq 1\nbalance ok\n")

    def test_a_record_that_is_given_up(self):
        """A group of three records. One that is refused leaves nothing: the next record takes its place."""
        self.make_two()
        self.expect_told([
            ("take 1 1 1 10 070809", "taken 1 1"),
            ("take 1 3 1 10 0102", "refused 4 gap 2"),
            ("take 1 2 1 10 -", "taken 1 2"),
            ("take 1 3 1 10 05", "taken 1 3"),
        ])
        records = take_record(1, 10, b"\x07\x08\x09") + take_record(2, 10, b"") + take_record(3, 10, b"\x05")
        self.expect_bytes(157, fields((1, OPEN), (4, 75), (2, 3)) + records + CLOSED)
        picks = [("pick 1 10", f"picked 1 {number} {number}") for number in (1, 2, 3)]
        self.expect_told(picks, [("fetch 1 1", "bytes 1 1 070809"), ("fetch 1 2", "bytes 1 2 -"), ("fetch 1 3", "bytes 1 3 05")])

    def test_what_expired_is_listed(self):
        """Each reply lists what has expired before what went into flight."""
        self.make_two()
        self.expect_told(
            [(take(1, 0, 1_200, limit=10), "taken 1 1")],
            [(take(2, 0, 1_200), "taken 1 2")],
            [(take(3, 0, 1_200, limit=1_099_511_627_775), "taken 1 3")],
            [("pick 1 11", "picked 1 1 2 expired 1")],
            [("fetch 1 2", "refused 9 neversent")],
        )

    def test_sixty_four_hops_and_peers(self):
        """Each hop's datagram is taken, picked and fetched, and after an opening it is fetched again and released."""
        self.make_two(BROAD, BROAD_SIZE)
        takes = [(f"take {id} 1 {id} 0 {'41' * (id * 18 + 48)}", f"taken {id} {id}") for id in IDS]
        picks = [(f"pick {id} 0", f"picked {id} 1 {id}") for id in IDS]
        self.expect_told(takes, picks, BROAD_FETCHES)
        self.expect_books(broad_books("taken 1 queued 0 flight 1 dropped 0 released 0", 128))
        self.expect_told(BROAD_FETCHES, [(f"done {id} 1", f"released {id} 1") for id in IDS])
        self.expect_books(broad_books("taken 1 queued 0 flight 0 dropped 0 released 1", 192))


class Payloads(Journals):
    """The longest payload of a device: what it takes, by its header, and the bytes of what has 8,192."""

    def test_payloads_of_1200_bytes(self):
        """The small device takes them and no more, whatever the version of its header, and whatever stands after the fields of
        one of version 1."""
        self.make_two()
        devices = {"version 2": self.read("device")}
        for after in (0x00, 0x20, 0xFF):
            devices[f"version 1, and {after} after its fields"] = FIRST_HEADER + bytes([after]) * 13 + STORED[64:]
        for what, device in devices.items():
            with self.subTest(what):
                self.put(device)
                self.expect_parameters(1)
                self.put(device)
                self.expect_told([
                    (take(1, 0, 1_201), "refused 5 toolong"),
                    (take(1, 0, 1_200), "taken 1 1"),
                    (take(2, 0, 1_201), "refused 5 toolong"),
                    (take(2, 0, 8_192), "refused 5 toolong"),
                ])

    def test_payloads_of_8192_bytes(self):
        """A device takes them and no more, and a second one finds no room. What it took is sent, also after an opening."""
        self.make_two(LONG, LONG_SIZE)
        new = self.read("device")
        self.assertEqual(len(new), LONG_SIZE)
        self.expect_bytes(0, LONG_HEADER + bytes(11))
        self.expect_bytes(64, head(2, 1, 80))
        self.expect_told([
            (take(1, 0, 8_193), "refused 5 toolong"),
            (take(1, 0, 8_192), "taken 1 1"),
            (take(2, 0, 8_192), "refused 6 full"),
            (take(2, 0, 8_193), "refused 5 toolong"),
        ])
        self.assertEqual(len(self.read("device")), LONG_SIZE)
        self.expect_bytes(157, LONG_GROUP)
        self.expect_told([("pick 1 0", "picked 1 1 1"), ("fetch 1 1", f"bytes 1 1 {'01' * 8_192}")])
        self.write("device", new)
        self.expect_parameters(1, most=8_192, payload=8_192)


class Parameters(Journals):
    def test_replies_tell_each_parameter(self):
        """What the lines of `parameter_lines` are told is told by no spool of which one parameter is another."""
        lines = parameter_lines(1)
        self.stand_for(SMALL)
        told = self.machine(*lines)
        for name, values in OTHERS.items():
            for value in values:
                with self.subTest(f"--{name}={value}"):
                    self.stand_for({**SMALL, name: value})
                    self.assertNotEqual(self.machine(*lines), told)
