"""A device with a header of version 1 and heads of form 1, as the program wrote it before age limits (commit facb250).
`crates/test_journal_stops/src/old_device.rt` has the commands that wrote it. 64 datagrams are in flight: 33 to 64 lie in the head of
the third segment, and 65 to 96 are inline in that of the first, the newest."""
import hashlib

from device_bytes import CLOSED, group, limited_record, release_record
from journals import Journals, take

SIZE = 355_588
DIGEST = "d3be1477eadb5de2a7311051167891a84eef35d5642efcae0f4f44d0faceda95"

# The newest head ends here. A group of a Release has 18 bytes.
GATE = 40_036


def text(digits):
    """The same bytes in each item of a run."""
    return lambda index: bytes.fromhex(digits)


def number(first, more):
    """A number of eight bytes, greater by `more` in each next item."""
    return lambda index: (first + more * index).to_bytes(8, "big")


def payload(first):
    """1,200 times a byte, which is greater by one in each next item."""
    return lambda index: bytes([first + index]) * 1_200


# In the order of their writes: a place, how many items there are from there on, how far apart, and the bytes of each. All others are 0.
ITEMS = [
    # the header
    (0, 1, 0, text(
        "a5524c594445563031000100010001004000030001ceec0000004000012c00000005dc000000000000138800000000000186"
        "a0"
    )),
    # the end of the first generation: a group of Takes
    (39_673, 32, 1_223, text("010001")),
    (39_676, 32, 1_223, number(33, 1)),
    (39_684, 32, 1_223, text("0001000000000000000004b0")),
    (39_696, 32, 1_223, payload(33)),
    # over it the fourth, and a closed gate
    (64, 1, 0, text(
        "a5000000000000000400009c1700000000000000c10000000000000060000000000000000000000000000000000000000000"
        "00000000000000000000000000000000000000000000000000000060000000000000000000000000000000200040"
    )),
    (164, 32, 27, number(65, 1)),
    (180, 32, 27, text("04b001")),
    (183, 32, 27, number(237_199, 1_219)),
    (1_028, 32, 1_219, number(130, 1)),
    (1_044, 32, 1_219, text("04b0")),
    (1_047, 32, 1_219, payload(65)),
    (40_036, 1, 0, text("00")),
    # the second: a head, and groups of Picks, of a Release and of Takes
    (118_572, 1, 0, text(
        "a500000000000000020000071700000000000000600000000000000040000000000000000000000000000000000000000000"
        "0000000000000000000000000000000000000000000000000000004000000000000000000000000000000000002000000020"
    )),
    (118_672, 32, 27, number(1, 1)),
    (118_688, 32, 27, text("04b001")),
    (118_691, 32, 27, number(194, 1_223)),
    (119_536, 32, 27, number(65, 1)),
    (119_552, 32, 27, text("04b001")),
    (119_555, 32, 27, number(39_696, 1_223)),
    (120_400, 1, 0, text("a5000001620020")),
    (120_407, 32, 11, text("020001")),
    (120_759, 1, 0, text("a50000000d00010300010000000000000020a5000098e20020")),
    (120_784, 32, 1_223, text("010001")),
    (120_787, 32, 1_223, number(65, 1)),
    (120_795, 32, 1_223, text("0001000000000000000004b0")),
    # the third: a head, and a group of Picks
    (120_807, 32, 1_223, payload(65)),
    (237_080, 1, 0, text(
        "a5000000000000000300009c1700000000000000a10000000000000060000000000000000000000000000000000000000000"
        "0000000000000000000000000000000000000000000000000000006000000000000000000000000000000020002000000020"
    )),
    (237_180, 32, 1_219, number(65, 1)),
    (237_196, 32, 1_219, text("04b0")),
    (237_199, 32, 1_219, payload(33)),
    (276_188, 32, 27, number(130, 1)),
    (276_204, 32, 27, text("04b001")),
    (276_207, 32, 27, number(120_807, 1_223)),
    (277_052, 1, 0, text("a5000001620020")),
    (277_059, 32, 11, text("020001")),
]


def stored():
    device = bytearray(SIZE)
    for first, count, apart, item in ITEMS:
        for index in range(count):
            place, part = first + apart * index, item(index)
            device[place : place + len(part)] = part
    return bytes(device)


def fetches(first, last):
    """The fetch of each of these numbers, and what it is told: 1,200 times its lowest byte."""
    return [(f"fetch 1 {number}", f"bytes 1 {number} {bytes([number & 0xFF] * 1_200).hex()}") for number in range(first, last + 1)]


# The one datagram that has a limit, its line, and its group with the closed gate after it.
LIMITED = take(97, 0, 1, limit=5_000)
LIMITED_GROUP = group(26, limited_record(97, 0, 5_000, bytes([97]))) + CLOSED


class OldDevice(Journals):
    def setUp(self):
        super().setUp()
        self.write("device", stored())

    def books(self, taken, queued, flight, released, seq, expired=""):
        hop = f"hop 1 taken {taken} queued {queued} flight {flight} dropped 0 released {released}{expired}"
        self.expect_books(f"{hop}\npeer 1 last {taken}\nseq {seq}\nbalance ok\n")

    def take_limited(self):
        """Before the older 32 are released none fits."""
        rows = [(LIMITED, "refused 6 full"), ("done 1 64", "released 1 32"), (LIMITED, "taken 1 195")]
        self.expect_told(fetches(33, 96), *[[row] for row in rows])

    def test_it_is_as_it_was_written_and_all_in_flight_is_fetched(self):
        """Its payloads by place are read at the places of a head of form 1, and the inline ones at its entries."""
        self.assertEqual(hashlib.sha256(stored()).hexdigest(), DIGEST)
        self.books(96, 0, 64, 32, 193)
        self.expect_told(fetches(33, 96), [("fetch 1 32", "refused 10 notinflight"), ("fetch 1 97", "refused 9 neversent")])
        self.assertEqual(self.read("device"), stored())

    def test_a_limit_is_recorded_at_once_and_kept(self):
        """A record with a limit follows a head of form 1. At its limit the datagram is sent, and is fetched with its limit."""
        self.take_limited()
        self.expect_bytes(64, stored()[64:GATE])
        self.expect_bytes(GATE, group(13, release_record(64)) + LIMITED_GROUP)
        self.books(97, 1, 32, 64, 195)
        self.expect_told(fetches(65, 96), [("pick 1 5000", "picked 1 97 195")], [("fetch 1 97", "bytes 1 97 61 5000")])

    def test_a_microsecond_later_it_has_expired(self):
        self.take_limited()
        self.expect_told([("pick 1 5001", "nothing 1 expired 195")], fetches(65, 96))
        self.books(97, 0, 32, 64, 196, " expired 1")
