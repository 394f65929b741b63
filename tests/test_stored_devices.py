"""Devices byte by byte, as docs/FORMATS.md writes them out: with a header of version 1 and heads of form 1, as they were written
before there were limits and longer payloads, and with a header of version 2 and heads of form 2.

One of them was written while a journal kept every payload inline. It opens as it is, and is carried on with heads of form 2."""
from device_bytes import (
    CLOSED, entry, fields, group, head, laid_out, limited_record, pick_record, release_record, take_record,
)
from journals import (
    FIRST_GROUP, FIRST_HEADER, FIRST_TAKE, HEADER, SECOND_GATE, SIZE, SMALL, STORED, STORED_TAKEN, Journals, take, words_of,
)

# A datagram with a limit, its group, and the closed gate after it.
LIMITED_TAKE = "take 1 2 1 0 42 5000"
LIMITED_GROUP = group(26, limited_record(2, 0, 5_000, b"\x42")) + CLOSED

# The first of three datagrams has a limit, and so has the third.
THREE = [take(1, 0, 1_200, limit=10), take(2, 0, 1_200), take(3, 0, 1_200, limit=1_099_511_627_775)]

# Then the first has expired, the second is sent, and another is taken. So the next segment is due: the offset 5,031 and 78,280
# exceed 82,908. It is opened before the release.
LATE = ["pick 1 11", take(4, 11, 1_200), "done 1 1"]

# The second head then, the entry of the second datagram up to its payload, and that of the third, with the greatest limit.
EXPIRED_HEAD = head(2, 2, 3_743, accepted=5, last=4, moment=11, taken=4, expired=1, in_flight=1, waiting=2)
SECOND_ENTRY = entry(2, 2, b"\x02" * 1_200)[:21]
THIRD_ENTRY = entry(2, 3, b"\x03" * 1_200, limit=0xFF_FFFF_FFFF)[:21]

# Nine rounds of a line each wrote the device of two heads. The second segment is opened before the eighth: the offset 5,074 of
# the gate and 78,280 exceed 82,908, and so does 5,067 where the first head is of form 2.
NINE = [
    take(1, 0, 1_200), take(2, 0, 1_200), take(3, 0, 1_200), "pick 1 0", "pick 1 0", "done 1 1",
    take(4, 0, 1_200), take(5, 7, 0), take(6, 9, 3),
]


def long_take(number):
    """A group of one Take of 1,200 bytes, each the datagram's number."""
    return group(1_225, take_record(number, 0, bytes([number]) * 1_200))


PICKED = group(13, pick_record(0))
RELEASED = group(13, release_record(1))

# The groups of the first seven rounds, and the closed gate.
FIRST_GROUPS = b"".join([long_take(1), long_take(2), long_take(3), PICKED, PICKED, RELEASED, long_take(4), CLOSED])

# Those after the second head, a Take without payload and one of three bytes, and the closed gate.
LAST_GROUPS = group(25, take_record(5, 7, b"")) + group(28, take_record(6, 9, b"\x06" * 3)) + CLOSED


def two_heads(form, length):
    """The second segment with a head of this form, whose body has so many bytes. The payload of each entry stands inline."""
    entries = [entry(form, id, bytes([number]) * 1_200) for id, number in [(2, 2), (3, 3), (7, 4)]]
    front = head(form, 2, length, accepted=7, last=4, taken=4, released=1, in_flight=1, waiting=2)
    return b"".join([front, *entries, LAST_GROUPS])


# The device as it was written with a header of version 1 and heads of form 1, and as it is written today.
OLD_TWO = laid_out(SIZE, {0: FIRST_HEADER, 64: head(1, 1, 87), 164: FIRST_GROUPS, SECOND_GATE: two_heads(1, 3_744)})
NEW_TWO = laid_out(SIZE, {0: HEADER, 64: head(2, 1, 80), 157: FIRST_GROUPS, SECOND_GATE: two_heads(2, 3_743)})


def one_inline(header, form, length):
    """A device whose head has one datagram that waits, with its one byte inline."""
    front = head(form, 1, length, accepted=1, last=1, taken=1, waiting=1)
    return laid_out(SIZE, {0: header, 64: front + entry(form, 1, b"\x41")})


# Such devices with heads of both forms.
ONE_INLINE = [one_inline(FIRST_HEADER, 1, 107), one_inline(HEADER, 2, 102)]

# The first datagram is sent, and then the one with a limit, or the hop is asked too late for it.
KEPT = [
    ["pick 1 5000", "pick 1 5000", "fetch 1 1", "fetch 1 2", "show 1"],
    ["pick 1 5000", "pick 1 5001", "show 1", "window 1"],
]


def next_round(sent):
    """A release, a take, a pick and a fetch, in which a datagram is sent under this number."""
    return [f"done 1 {sent - 1}", take(sent + 4, 9, 800), "pick 1 9", f"fetch 1 {sent}", "show 1"]


class StoredDevices(Journals):
    def expect_device(self, wanted):
        """The device is of these bytes, from its beginning to its end."""
        device = self.read("device")
        differing = [place for place, pair in enumerate(zip(device, wanted)) if pair[0] != pair[1]]
        self.assertEqual((len(device), differing[:10]), (len(wanted), []), "places that differ")

    def put_taken(self, is_stored):
        """The small device after its first take, with a header of version 1 or as it is written today."""
        if is_stored:
            self.put(STORED_TAKEN)
        else:
            self.make_two()
            self.expect_told([(FIRST_TAKE, "taken 1 1")])

    def put_limited(self, is_stored):
        """The same after the take of a datagram with a limit, the second one."""
        self.put_taken(is_stored)
        self.expect_told([(LIMITED_TAKE, "taken 1 2")])
        self.stand_for(SMALL, FIRST_TAKE, LIMITED_TAKE)


class Written(StoredDevices):
    def test_a_device_that_was_formatted(self):
        self.make_two()
        self.expect_device(laid_out(SIZE, {0: HEADER, 64: head(2, 1, 80)}))

    def test_a_format_writes_no_other_byte(self):
        """Over a file of gates that read open, of closed ones, and a device of version 1 with other bytes where it wrote none."""
        filled = {51: b"\xff" * 13, 165: b"\xff" * (SIZE - 165)}
        first = laid_out(SIZE, {0: FIRST_HEADER, 64: head(1, 1, 87) + CLOSED, **filled, SECOND_GATE: CLOSED})
        for old in (b"\xa5" * SIZE, bytes(SIZE), first):
            with self.subTest(old=old[:13].hex()):
                self.write("device", old)
                self.expect("format", "device", *words_of({**SMALL, "segments": 2}), output=f"formatted {SIZE}\n")
                wanted = bytearray(old)
                for place, part in {0: HEADER, 64: head(2, 1, 80) + CLOSED, SECOND_GATE: CLOSED}.items():
                    wanted[place : place + len(part)] = part
                self.expect_device(bytes(wanted))

    def test_a_device_that_took_one_datagram(self):
        self.put_taken(False)
        self.expect_device(laid_out(SIZE, {0: HEADER, 64: head(2, 1, 80), 157: FIRST_GROUP}))

    def test_a_record_of_a_limit(self):
        """Its group stands behind the first one, whose gate is at 164 after a head of form 1, and at 157 after one of form 2."""
        for is_stored, gate in [(True, 164), (False, 157)]:
            with self.subTest(gate):
                self.put_limited(is_stored)
                self.expect_bytes(gate, FIRST_GROUP[:31] + LIMITED_GROUP)

    def test_a_head_has_limits(self):
        """What has expired and the limits that are left stand in the next head, and are read of it."""
        self.make_two()
        self.ask(*[[line] for line in THREE + LATE])
        self.expect_bytes(82_972, EXPIRED_HEAD + SECOND_ENTRY)
        self.expect_bytes(84_286, THIRD_ENTRY)
        self.stand_for(SMALL, *THREE, *LATE)
        self.expect_state()

    def test_a_device_with_two_heads(self):
        self.make_two()
        self.ask(*[[line] for line in NINE])
        self.expect_device(NEW_TWO)

    def test_a_header_stays_as_it_is(self):
        """Neither a round nor an opening of a segment writes to it, whatever stands after the fields of one of version 1."""
        self.make_two()
        for device in [STORED[:51] + b"\xff" * 13 + STORED[64:], self.read("device")]:
            with self.subTest(version=device[10]):
                self.put(device)
                self.ask(*[[line] for line in NINE])
                self.expect_bytes(0, device[:64])
                # the second segment was opened
                self.expect_bytes(82_972, fields((1, 0xA5), (8, 2)))


class Read(StoredDevices):
    def test_a_limit_is_there_again(self):
        """The limit stands on the device, whatever the form of its head."""
        for lines in KEPT:
            for is_stored in (True, False):
                with self.subTest(lines=lines, is_stored=is_stored):
                    self.put_limited(is_stored)
                    self.expect_same(lines)
                    self.expect_state()

    def test_a_device_with_two_heads_opens_as_it_is(self):
        self.put(OLD_TWO)
        self.stand_for(SMALL, *NINE)
        self.expect_books("hop 1 taken 6 queued 4 flight 1 dropped 0 released 1\npeer 1 last 6\nseq 9\nbalance ok\n")
        self.expect_state()

    def test_a_device_with_two_heads_is_carried_on(self):
        """Twelve rounds of a release, a take, a pick and a fetch go on from there. Each takes one, which has room once the one
        before it is released. Both segments are opened again and again, with heads of form 2: the top bit of a head's length says
        so. The header stays as it is, of version 1."""
        self.put(OLD_TWO)
        self.stand_for(SMALL, *NINE)
        self.expect_same(*[next_round(sent) for sent in range(3, 15)])
        device = self.read("device")
        for gate in (64, SECOND_GATE):
            self.assertGreaterEqual(device[gate + 9], 0x80, f"the form of the head at {gate}")
        self.expect_bytes(0, FIRST_HEADER)
        self.expect_state()

    def test_a_head_of_one_inline(self):
        """It is the head that is refused where that byte is by place (`test_refused_devices`)."""
        for device in ONE_INLINE:
            with self.subTest(version=device[10]):
                self.put(device)
                self.stand_for(SMALL, FIRST_TAKE)
                self.expect_state()
