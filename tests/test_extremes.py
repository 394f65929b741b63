"""Devices where a bound of the code's own would hide: 64 of the longest datagrams in a round, heads above 64 KiB, and the
greatest spool on two segments and on three."""
from device_bytes import FORM_2, OPEN, fields, take_record
from journals import Journals, take

# Room for 128 datagrams of 1,200 bytes.
WIDE = {"hops": 1, "peers": 1, "window": 64, "items": 128, "bytes": 153_600, "maxpacket": 65_535}
WIDE_SIZE = 470_936

# Room for 64 datagrams of the longest that there are.
LONG = {**WIDE, "items": 64, "bytes": 524_288, "payload": 8_192}
LONG_SIZE = 2_103_832

# Its first group, of 64 Takes of 8,192 bytes, has 525,762 bytes after its length. This is its front, and its first record up to
# the payload's first byte. Behind the last byte of the last payload is the group of 64 Picks, of 706 bytes.
LONG_GROUP = fields((1, OPEN), (4, 525_762), (2, 64)) + take_record(1, 0, b"\x01" * 8_192)[:24]
PICKS_GROUP = b"\x40" + fields((1, OPEN), (4, 706), (2, 64), (1, 2), (2, 1))

# Room for 16,384 datagrams and 16,777,216 bytes.
FULL = {**WIDE, "items": 16_384, "bytes": 16_777_216}

PICKS = ["pick 1 0"] * 64


def takes(first, length):
    """A round of 64 takes of so many bytes, from a number on."""
    return [take(number, 0, length) for number in range(first, first + 64)]


def fetches(first):
    """A round of 64 fetches, from a number on."""
    return [f"fetch 1 {number}" for number in range(first, first + 64)]


def generation_and_length(generation, length):
    """What follows the gate of a head of form 2."""
    return fields((8, generation), (4, FORM_2 + length))


def turns(count):
    """Rounds that send 64 of 16,384 datagrams on and take 64 more, so often."""
    for number in range(64, 64 * count + 1, 64):
        yield PICKS
        yield [f"done 1 {number}"]
        yield takes(16_321 + number, 1_024)


class LongRounds(Journals):
    """Those in flight are fetched from their group, and from the head, each time after an opening."""

    def test_sixty_four_of_the_longest_in_a_round(self):
        """The head of the second segment has 128 datagrams: 156,368 bytes, which are 80 and 1,221 for each. The segment is due in
        the round after the first fetches."""
        self.make_two(WIDE, WIDE_SIZE)
        self.expect_same(takes(1, 1_200), takes(65, 1_200), PICKS)
        self.expect_same(fetches(1), ["done 1 1"])
        self.expect_books("hop 1 taken 128 queued 64 flight 63 dropped 0 released 1\npeer 1 last 128\nseq 193\nbalance ok\n")
        self.assertEqual(len(self.read("device")), WIDE_SIZE)
        self.expect_bytes(235_501, generation_and_length(2, 156_368))
        self.expect_same(fetches(1), ["show 1", "window 1", "done 1 64", "pick 1 0", "fetch 1 65", "show 1"])

    def test_sixty_four_of_8192_bytes_in_a_round(self):
        """One of a byte more is too long. Then 64 are taken in a round, one more has no room, and 64 are picked. A segment is due
        in the round after the first fetches: the offset 526,571 and 525,768 exceed 1,051,884. Its head has 64 datagrams: 525,712
        bytes, which are 80 and 8,213 for each."""
        self.make_two(LONG, LONG_SIZE)
        self.expect_same([take(1, 0, 8_193)], takes(1, 8_192), [take(65, 0, 1)], PICKS, fetches(1))
        self.expect_same(["done 1 1"])
        self.expect_books("hop 1 taken 64 queued 0 flight 63 dropped 0 released 1\npeer 1 last 64\nseq 129\nbalance ok\n")
        self.assertEqual(len(self.read("device")), LONG_SIZE)
        self.expect_bytes(157, LONG_GROUP)
        self.expect_bytes(525_923, PICKS_GROUP)
        self.expect_bytes(1_051_949, generation_and_length(2, 525_712))
        last = ["show 1", "window 1", take(65, 0, 8_192), "done 1 64", "pick 1 0", "fetch 1 65", "show 1"]
        self.expect_same(fetches(1), last)


class FullSpools(Journals):
    """The last head that is written has as many datagrams and as many bytes as a spool may have."""

    def expect_full(self, size, count, heads, books):
        """Fills the device by 16,384 datagrams of 1,024 bytes and so many turns, and sends one more on. Then it is opened, and
        sends one more on. These heads are found: the place after a gate, the generation and the length."""
        sent = 64 * count + 1
        filling = [takes(first, 1_024) for first in range(1, 16_385, 64)]
        self.expect_same(*filling, *turns(count), ["pick 1 0", f"fetch 1 {sent}"])
        self.expect_books(books)
        self.assertEqual(len(self.read("device")), size)
        for place, generation, length in heads:
            self.expect_bytes(place, generation_and_length(generation, length))
        last = ["show 1", "window 1", f"fetch 1 {sent}", f"done 1 {sent}", "pick 1 0", f"fetch 1 {sent + 1}", "show 1"]
        self.expect_same(last)

    def test_the_greatest_spool(self):
        """A segment is due after the first turn: the offset 17,223,677 and 78,280 exceed 17,297,964. Its head has 17,121,360
        bytes, which are 80 and 1,045 for each of 16,384."""
        self.make({**FULL, "segments": 2}, 34_595_992)
        books = "hop 1 taken 16448 queued 16383 flight 1 dropped 0 released 64\npeer 1 last 16448\nseq 16514\nbalance ok\n"
        self.expect_full(34_595_992, 1, [(17_298_029, 2, 17_121_360)], books)

    def test_the_greatest_spool_on_three_segments(self):
        """The second segment is opened where 8,448 datagrams lie in the first: a head of 219,728 bytes, which are 80 and 26 for
        each of them. The third is after five turns: the offset 8,868,321 and 78,280 exceed 8,909,356. The 8,128 that are left in
        the first are moved into its head, of 8,708,496 bytes: 80, 1,045 for each of them, and 26 for each of the other 8,256."""
        self.make({**FULL, "segments": 3}, 26_728_132)
        books = "hop 1 taken 16704 queued 16383 flight 1 dropped 0 released 320\npeer 1 last 16704\nseq 17030\nbalance ok\n"
        self.expect_full(26_728_132, 5, [(8_909_421, 2, 219_728), (17_818_777, 3, 8_708_496)], books)
