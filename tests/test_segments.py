"""Devices of two, three and 256 segments, which are opened in turn: what they tell, beside the plain machine, and their heads."""
from device_bytes import FORM_2, OPEN, fields, group, pick_record, take_record
from journals import SECOND_GATE, SMALL, Journals, lines_of, take, words_of
from program import bad_option

# Room for 64 datagrams of 1,200 bytes, on three segments of the least length and on two, and the bytes of these devices.
SPOOL = {"hops": 1, "peers": 1, "window": 64, "items": 64, "bytes": 76_800}
THREE = {**SPOOL, "segments": 3, "length": 118_508}
THREE_SIZE = 355_588
TWO = {**SPOOL, "segments": 2, "length": 156_908}
TWO_SIZE = 313_880

# A group of a Take of the payload "abc" at moment 5, and one of a Pick at moment 6.
TAKEN_AND_PICKED = group(28, take_record(1, 5, b"abc")) + group(13, pick_record(6))

# A group whose body spells no record, and one of a Pick that the state refuses.
DAMAGED = [fields((1, OPEN), (4, 2), (2, 0)), group(13, pick_record(6))]

# Two hops and two peers, 330 datagrams and 10,240 bytes, on 256 segments of the least length.
MANY = {"hops": 2, "peers": 2, "window": 64, "items": 330, "bytes": 10_240, "segments": 256, "length": 87_409}
MANY_SIZE = 22_376_768
# Options of a spool, its number of segments, and their least length, which has the room of a group and goes by the longest payload.
LEASTS = [
    (SMALL, 2, 82_908),
    ({**SMALL, "payload": 1}, 2, 6_172),
    ({**SMALL, "payload": 1_201}, 2, 82_972),
    ({**SMALL, "payload": 8_192}, 2, 530_396),
    ({**SMALL, "bytes": 8_192, "payload": 8_192}, 2, 534_492),
    (SPOOL, 2, 156_908),
    (SPOOL, 3, 118_508),
    (SPOOL, 256, 80_409),
    ({}, 4, 455_790),
    ({"payload": 8_192}, 4, 903_278),
]

MANY_BOOKS = """hop 1 taken 320 queued 0 flight 32 dropped 0 released 288
hop 2 taken 2560 queued 0 flight 0 dropped 0 released 2560
peer 1 last 320
peer 2 last 2560
seq 6089
balance ok
"""


def books(taken, flight, released, seq):
    """What `audit` tells of a device of one hop and one peer on which nothing waits."""
    hop = f"hop 1 taken {taken} queued 0 flight {flight} dropped 0 released {released}"
    return f"{hop}\npeer 1 last {taken}\nseq {seq}\nbalance ok\n"


def payload(number, length):
    """So many bytes, each a number's lowest."""
    return f"{number & 0xFF:02x}" * length


def fetches(numbers, length):
    """The fetch of each of these numbers, and what it is told."""
    return [(f"fetch 1 {number}", f"bytes 1 {number} {payload(number, length)}") for number in numbers]


def cycle(index):
    """The rounds of a worked cycle, counted from 1: 32 datagrams are taken, they are picked, all in flight are fetched, which are
    64 from the second cycle on, and the 32 older ones are released."""
    first = 32 * index - 31
    taken = [take(number, 0, 1_200) for number in range(first, first + 32)]
    fetched = [f"fetch 1 {number}" for number in range(max(1, first - 32), first + 32)]
    released = [[f"done 1 {first - 1}"]] if index > 1 else []
    return [taken, ["pick 1 0"] * 32, fetched, *released]


def cycles(first, last):
    return [asked for index in range(first, last + 1) for asked in cycle(index)]


def passing(index):
    """A round that takes a byte which stays at hop 1, while eight datagrams of 1,200 bytes pass through hop 2. Its group has
    9,914 bytes, and the head before it 165 at least. So a segment is due then: 10,079 and 78,280 exceed 87,409."""
    numbers = range(8 * index - 7, 8 * index + 1)
    through = [[f"take 2 {number} 2 0 {payload(number, 1_200)}", "pick 2 0"] for number in numbers]
    return [take(index, 0, 1), *lines_of(through), f"done 2 {8 * index}"]


def short_turn(number):
    """Rounds of a line each: a datagram of 1,000 bytes is taken and picked, and the one 20 before it is released."""
    released = [[f"done 1 {number - 20}"]] if number > 20 else []
    return [[take(number, number, 1_000)], [f"pick 1 {number}"], *released]


class Openings(Journals):
    def put_at_first_gate(self, groups):
        """A new device of three segments, on which these bytes stand after the first head."""
        self.make(THREE, THREE_SIZE)
        device = self.read("device")
        self.write("device", device[:157] + groups + device[157 + len(groups) :])

    def test_a_new_device_holds_nothing(self):
        self.make(THREE, THREE_SIZE)
        self.expect_books(books(0, 0, 0, 0))

    def test_groups_are_made_again(self):
        """The datagram is in flight, and is read where its group has it."""
        self.put_at_first_gate(TAKEN_AND_PICKED)
        self.expect_books(books(1, 1, 0, 2))
        self.expect_told([("fetch 1 1", "bytes 1 1 616263"), ("fetch 1 2", "refused 9 neversent")])

    def test_groups_that_are_damage(self):
        """What is refused isn't made again."""
        for damage in DAMAGED:
            with self.subTest(damage.hex()):
                self.put_at_first_gate(damage)
                self.expect("audit", "device", errors="refused 22 damaged 157\nrly: device: device: damaged at byte 157\n", status=1)

    def test_segments_that_are_too_short(self):
        """Segments of one byte less than the least are refused, and nothing is written."""
        for options, short, size in [(THREE, 118_507, THREE_SIZE), (TWO, 156_907, TWO_SIZE)]:
            with self.subTest(short):
                self.write("device", bytes(THREE_SIZE))
                words = words_of({**options, "length": short})
                errors = bad_option(f"--length={short}", short + 1, 2**31 - 1)
                self.expect("format", "device", *words, errors=errors, status=1)
                self.assertEqual(self.read("device"), bytes(THREE_SIZE))
                self.expect("format", "device", *words_of(options), output=f"formatted {size}\n")

    def test_the_least_length_of_segments(self):
        """And not a byte less."""
        for options, segments, least in LEASTS:
            with self.subTest(options=options, segments=segments):
                self.write("device", b"")
                words = words_of({**options, "segments": segments})
                short = bad_option(f"--length={least - 1}", least, 2**31 - 1)
                self.expect("format", "device", *words, f"--length={least - 1}", errors=short, status=1)
                self.expect("format", "device", *words, f"--length={least}", output=f"formatted {64 + segments * least}\n")

    def test_a_segment_is_due_where_the_largest_group_has_no_room(self):
        """Of 78,280 bytes: after the offset 4,628 of 82,908 none is, and after 4,629 one is. With payloads of 8,192 bytes it has 525,768:
        after 8,724 of 534,492 none is."""
        for length in (779, 780):
            self.make_two()
            first = [[take(number, 0, 1_200)] for number in (1, 2, 3)]
            self.expect_same(*first, ["pick 1 0"], ["done 1 1"], [take(4, 0, length)], ["pick 1 0"])
            self.assertEqual(self.read("device")[SECOND_GATE] == OPEN, length == 780)
        for length in (343, 344):
            self.make_two({**SMALL, "bytes": 8_192, "payload": 8_192}, 1_069_048)
            self.expect_same([take(1, 0, 8_192)], ["pick 1 0"], ["done 1 1"], [take(2, 0, length)], ["pick 1 0"])
            self.assertEqual(self.read("device")[534_556] == OPEN, length == 344)

    def test_a_datagram_is_there_again(self):
        """It is taken and picked, the device is opened again, and the datagram is fetched and released."""
        self.make(THREE, THREE_SIZE)
        self.expect_told([(take(1, 1, 100), "taken 1 1")], [("pick 1 1", "picked 1 1 1")])
        self.expect_books(books(1, 1, 0, 2))
        self.expect_told(
            [*fetches([1], 100), ("fetch 1 2", "refused 9 neversent")],
            [("done 1 1", "released 1 1")],
            [("fetch 1 1", "refused 10 notinflight")],
        )


class Segments(Journals):
    def expect_closed(self, first):
        """All segments from one on, counted from 0, have a closed gate."""
        device = self.read("device")
        for segment in range(first, 3):
            self.assertNotEqual(device[64 + 118_508 * segment], OPEN, f"segment {segment}")

    def expect_opened(self, segment, index, length):
        """A segment is opened with the picks of a cycle, and all in flight are fetched then. Its head has so many bytes after the
        length."""
        taken, picked, fetched, _ = cycle(index)
        self.make(THREE, THREE_SIZE)
        self.expect_same(*cycles(1, index - 1), taken)
        self.expect_closed(segment)
        self.expect_same(picked, fetched)
        self.expect_bytes(64 + 118_508 * segment, fields((1, OPEN), (8, segment + 1), (4, FORM_2 + length)))
        self.expect_closed(segment + 1)

    def test_the_second_and_the_third_segment_are_opened(self):
        """The second has a head of 1,757 bytes, 13 of them before the state, and no payload in it. Into that of the third, of
        39,997 bytes, the 32 payloads are moved that live in the first."""
        self.expect_opened(1, 2, 1_744)
        self.expect_opened(2, 3, 39_984)

    def test_fifty_cycles(self):
        """The last 32 are fetched again once the device was opened again."""
        for options, size in [(THREE, THREE_SIZE), (TWO, TWO_SIZE)]:
            with self.subTest(size):
                self.make(options, size)
                self.expect_same(*cycles(1, 50))
                self.expect_books(books(1_600, 32, 1_568, 3_249))
                self.expect_told([*fetches(range(1_569, 1_601), 1_200), ("fetch 1 1568", "refused 10 notinflight")])

    def test_payloads_stay_while_segments_are_opened(self):
        """Each segment is opened several times. What is in flight is fetched as it was taken, also once the device was opened
        again."""
        self.make(THREE, THREE_SIZE)
        last = [[row] for row in fetches(range(281, 301), 1_000)]
        turns = [asked for number in range(1, 301) for asked in short_turn(number)]
        self.expect_same(*turns, *[[line] for [(line, _)] in last])
        self.expect_books(books(300, 20, 280, 880))
        self.expect_told(*last)

    def test_two_hundred_and_fifty_six_segments(self):
        """The first 256 rounds leave a byte in each segment, one after the other. Before the last of them and each later one the
        segment that is opened is the only one without a live byte, and a byte is moved into its head. So generation 256 is in the
        last segment, and generation 320 in number 63. Then ten cycles send what is left."""
        self.make(MANY, MANY_SIZE)
        self.expect_same(*[passing(index) for index in range(1, 321)])
        self.assertEqual(len(self.read("device")), MANY_SIZE)
        self.expect_bytes(22_289_359, fields((1, OPEN), (8, 256)))
        self.expect_bytes(5_506_831, fields((1, OPEN), (8, 320)))
        self.expect_same(*[asked for index in range(1, 11) for asked in cycle(index)[1:]])
        self.expect_books(MANY_BOOKS)
