"""Changed devices, and what opening answers to each (docs/FORMATS.md, "What opening checks")."""
from device_bytes import entry, fields, group, head, placed_entry, take_record
from journals import FIRST_GROUP, FIRST_TAKE, SIZE, SMALL, STORED, STORED_TAKEN, Journals, words_of

NOT_A_DEVICE = "refused 20 notadevice\nrly: device: device: not a device; `rly format` makes one\n"
BAD_GEOMETRY = "refused 21 badgeometry\nrly: device: device: header value out of limits, or file too short\n"


def damaged(place):
    return f"refused 22 damaged {place}\nrly: device: device: damaged at byte {place}\n"


def placed(form, body, place, length=1):
    """A head of one datagram that waits, whose bytes are by place."""
    return head(form, 1, body, accepted=1, last=1, taken=1, waiting=1) + placed_entry(form, 1, length, place)


def inline(form, body, taken=1, expired=0):
    """A head of one datagram that waits, whose one byte is inline, of so many that were taken."""
    return head(form, 1, body, accepted=taken, last=taken, taken=taken, expired=expired, waiting=1) + entry(form, 1, b"\x41")


# A byte by place in the other segment, and one in the head's own, in either form.
PLACED, OWN = placed(2, 106, 82_985), placed(2, 106, 1_000)
FIRST_PLACED, FIRST_OWN = placed(1, 114, 82_985), placed(1, 114, 1_000)

# Changes of the small device and of the small device after its first take, with headers of both versions and heads of both forms:
# what a row is of, the device that it begins with, and what is put at which places. These open to the empty state.
OPENED = [
    ("nothing is changed", "formatted", {}),
    ("as of version 1 its longest payload has 1,200 bytes too", "formatted", {10: b"\x01"}),
    ("what may stand after a header of version 2", "formatted", {53: b"\xff" * 11}),
    ("the other segment's gate is open, of generation 0", "formatted", {82_972: b"\xa5"}),
    ("the group's gate is closed", "taken", {157: b"\xa4"}),
    ("a header of version 1, and heads of form 1", "stored", {}),
    ("after a header of version 1 the places of the longest payload hold anything too", "stored", {51: b"\xff" * 13}),
    ("as of version 2 its longest payload has 1,200 bytes", "stored", {10: b"\x02", 51: b"\x04\xb0"}),
    ("the group's gate is closed behind a head of form 1", "stored and taken", {164: b"\xa4"}),
]

# And these are refused.
REFUSED = [
    ("the header's gate is closed", "formatted", {0: b"\x00"}, NOT_A_DEVICE),
    ("its gate is closed, and no hops", "formatted", {0: b"\x00", 12: b"\x00"}, NOT_A_DEVICE),
    ("version 3", "formatted", {10: b"\x03"}, NOT_A_DEVICE),
    ("version 255", "formatted", {10: b"\xff"}, NOT_A_DEVICE),
    ("version 258", "formatted", {9: b"\x01"}, NOT_A_DEVICE),
    ("version 512", "formatted", {9: b"\x02\x00"}, NOT_A_DEVICE),
    ("the longest payload has 0 bytes", "formatted", {51: b"\x00\x00"}, BAD_GEOMETRY),
    ("the longest payload has 8,193 bytes", "formatted", {51: b"\x20\x01"}, BAD_GEOMETRY),
    ("the longest payload has 65,535 bytes", "formatted", {51: b"\xff\xff"}, BAD_GEOMETRY),
    ("no hops", "formatted", {12: b"\x00"}, BAD_GEOMETRY),
    ("no open segment", "formatted", {64: b"\x00"}, damaged(64)),
    ("generation 0", "formatted", {72: b"\x00"}, damaged(64)),
    ("generation 2, and no accepted command", "formatted", {72: b"\x02"}, damaged(64)),
    ("two heads of generation 1", "formatted", {82_972: b"\xa5", 82_980: b"\x01"}, damaged(82_972)),
    ("a head of generation 2 without a body", "formatted", {82_972: b"\xa5", 82_980: b"\x02"}, damaged(82_972)),
    ("a group without a body", "formatted", {157: b"\xa5"}, damaged(157)),
    ("a group with a count of 0", "formatted", {157: b"\xa5", 161: b"\x02"}, damaged(157)),
    ("one that expired and was never taken", "formatted", {150: b"\x01"}, damaged(64)),
    ("two were taken, of which one waits", "formatted", {64: inline(2, 102, taken=2)}, damaged(64)),
    ("one was taken, one waits and one expired", "formatted", {64: inline(2, 102, expired=1)}, damaged(64)),
    ("its bytes as a head of form 1", "formatted", {73: b"\x00"}, damaged(64)),
    ("the bytes of one that waits as a head of form 1", "formatted", {64: inline(2, 102), 73: b"\x00"}, damaged(64)),
    ("a byte by place: of two segments none is left then", "formatted", {64: PLACED}, damaged(64)),
    ("a byte by place in the head's own segment", "formatted", {64: OWN}, damaged(64)),
    ("a group that is a byte longer", "taken", {161: b"\x1b"}, damaged(157)),
    ("the record of a limit of 0", "taken", {164: b"\x05"}, damaged(157)),
    ("the header comes first, whatever was taken", "taken", {51: b"\x00\x00"}, BAD_GEOMETRY),
    ("version 0", "stored", {10: b"\x00"}, NOT_A_DEVICE),
    ("version 3 of what was version 1", "stored", {10: b"\x03"}, NOT_A_DEVICE),
    ("version 257", "stored", {9: b"\x01"}, NOT_A_DEVICE),
    ("as of version 2 its longest payload has 0 bytes", "stored", {10: b"\x02"}, BAD_GEOMETRY),
    # For 1,201 bytes the segments are 64 bytes too short.
    ("as of version 2 its longest payload has 1,201 bytes", "stored", {10: b"\x02", 51: b"\x04\xb1"}, BAD_GEOMETRY),
    ("generation 0 of form 1", "stored", {72: b"\x00"}, damaged(64)),
    ("generation 2 of form 1, and no accepted command", "stored", {72: b"\x02"}, damaged(64)),
    ("its bytes as a head of form 2", "stored", {73: b"\x80"}, damaged(64)),
    ("the bytes of one that waits as a head of form 2", "stored", {64: inline(1, 107), 73: b"\x80"}, damaged(64)),
    ("a group without a body behind a head of form 1", "stored", {164: b"\xa5"}, damaged(164)),
    ("a group with a count of 0 behind a head of form 1", "stored", {164: b"\xa5", 168: b"\x02"}, damaged(164)),
    ("a byte by place in a head of form 1", "stored", {64: FIRST_PLACED}, damaged(64)),
    ("a byte by place in its own segment in one of form 1", "stored", {64: FIRST_OWN}, damaged(64)),
    ("a group that is a byte longer behind a head of form 1", "stored and taken", {168: b"\x1b"}, damaged(164)),
]

# How many bytes are left of a device, and why it isn't opened.
SHORT = [(53, NOT_A_DEVICE), (63, NOT_A_DEVICE), (165_879, BAD_GEOMETRY)]

# The longest payload of a spool on three segments of the least length, the bytes of that device, how many bytes of a payload lie by
# place in the second segment, and whether the head of the first is read then.
LENGTHS = [
    (7, 13_588, 7, True),
    (7, 13_588, 8, False),
    (1_200, 242_644, 1_200, True),
    (1_200, 242_644, 1_201, False),
    (1_201, 242_836, 1_201, True),
]

# Places in the state of a head of one datagram that waits, with its one byte inline, and a byte there that no state has.
FOREIGN = {
    2: [
        # fewer commands than datagrams, and more than the maximum; a peer's number above the number of datagrams taken
        (7, 0), (1, 1), (15, 2),
        # times out of range; CoDel's times, its counts, and a flag that is none
        (16, 0xFF), (16, 0x10), (23, 0xFF), (30, 0xFF), (42, 1), (48, 1), (49, 2),
        # counts that don't add up; more entries than bytes
        (50, 0xFF), (61, 1), (67, 1), (73, 1), (74, 0xFF), (76, 0xFF),
        # an id of 0, one above all, and a stamp above the hop's time; a length that isn't the payload's, and another form
        (85, 0), (85, 2), (92, 1), (99, 0), (100, 1),
    ],
    1: [
        (7, 0), (1, 1), (15, 2), (16, 0xFF), (24, 0xFF), (47, 1), (56, 2), (57, 0xFF), (64, 2), (72, 1), (81, 0xFF), (83, 0xFF),
        (94, 0), (94, 2), (102, 1), (104, 0), (105, 1),
    ],
}

# The state after the last command, which took a datagram at the latest time, and what is put at which of its places: the peer sent,
# and the hop took, as many datagrams as there may be, all of which but one were dropped, or released, or have expired; CoDel's counts
# are equal to that; its times are an interval after the last one, and one of them a microsecond later.
LAST = head(2, 1, 102, accepted=2**48 - 1, last=1, moment=2**52 - 1, taken=1, waiting=1) + fields(
    (6, 2**48 - 1), (7, 2**52 - 1), (5, 0), (2, 1), (1, 0), (1, 0x41)
)
MOST, LESS = (2**48 - 1).to_bytes(6, "big"), (2**48 - 2).to_bytes(6, "big")
ALL = {10: MOST, 50: MOST}
INTERVAL, LATER = (2**52 - 1 + 100_000).to_bytes(7, "big"), (2**52 + 100_000).to_bytes(7, "big")
GREATEST = [
    ("the greatest limit", {93: b"\xff" * 5}, True),
    ("all were dropped", {**ALL, 56: LESS}, True),
    ("all were released", {**ALL, 62: LESS}, True),
    ("all have expired", {**ALL, 68: LESS}, True),
    ("CoDel's counts are those that were dropped", {**ALL, 56: LESS, 37: LESS, 43: LESS}, True),
    ("CoDel's counts are those that were released", {**ALL, 62: LESS, 37: LESS, 43: LESS}, False),
    ("CoDel's counts are those that have expired", {**ALL, 68: LESS, 37: LESS, 43: LESS}, False),
    ("an interval after the last time", {23: INTERVAL, 30: INTERVAL}, True),
    ("a microsecond later", {23: INTERVAL, 30: LATER}, False),
]

# Ids of three datagrams, the first of which is in flight, and whether they are in order.
IDS = [((1, 2, 3), True), ((1, 1, 3), False), ((3, 2, 4), False), ((0, 2, 3), False)]

# The longest payload of a spool on two segments, the length of one inline, and whether the head is read then.
INLINE_LENGTHS = [
    (1, 1, True), (1, 2, False), (7, 7, True), (7, 8, False), (1_200, 1_200, True), (1_200, 1_201, False), (8_192, 8_192, True),
    (8_192, 8_193, False),
]

# The body of the first take: a count, and a record. A kind that isn't 1, 2, 3 or 5 is none.
TAKE_BODY = fields((2, 1)) + take_record(1, 0, b"\x41")
KINDS = [0x00, 0x04, 0xFF]

# What `audit` tells of a device on which one datagram waits.
ONE_WAITS = "hop 1 taken 1 queued 1 flight 0 dropped 0 released 0\npeer 1 last 1\nseq 1\nbalance ok\n"


class RefusedDevices(Journals):
    def setUp(self):
        """The devices that rows begin with. Those that are stored were written before there were limits and longer payloads."""
        super().setUp()
        self.make_two()
        formatted = self.read("device")
        self.expect_told([(FIRST_TAKE, "taken 1 1")])
        taken = self.read("device")
        self.devices = {"formatted": formatted, "taken": taken, "stored": STORED, "stored and taken": STORED_TAKEN}

    def changed(self, base, changes):
        device = bytearray(self.devices[base])
        for place, content in changes.items():
            device[place : place + len(content)] = content
        self.assertEqual(len(device), SIZE)
        return bytes(device)

    def expect_refused(self, device, errors):
        """A device isn't opened, and stays as it was."""
        self.put(device)
        self.expect("audit", "device", errors=errors, status=1)
        self.assertTrue(self.read("device") == device)

    def test_changed_devices_that_open(self):
        for what, base, changes in OPENED:
            with self.subTest(what):
                self.put(self.changed(base, changes))
                self.expect_state()

    def test_changed_devices_that_are_refused(self):
        for what, base, changes, errors in REFUSED:
            with self.subTest(what):
                self.expect_refused(self.changed(base, changes), errors)

    def test_a_device_that_is_too_short(self):
        for size, errors in SHORT:
            with self.subTest(size):
                self.expect_refused(self.devices["formatted"][:size], errors)

    def test_a_payload_by_place_is_as_long_as_the_longest(self):
        """It isn't longer."""
        for longest, size, length, is_read in LENGTHS:
            with self.subTest(longest=longest, length=length):
                self.make({**SMALL, "segments": 3, "payload": longest}, size)
                part = placed(2, 106, size // 2, length)
                device = self.read("device")
                device = device[:64] + part + device[64 + len(part) :]
                if is_read:
                    self.write("device", device)
                    self.expect("audit", "device", output=ONE_WAITS)
                else:
                    self.expect_refused(device, damaged(64))

    def test_a_group_that_stands_twice(self):
        """A group that was made before is refused at its own gate: its Take is not accepted again."""
        self.expect_refused(self.changed("stored and taken", {195: FIRST_GROUP[:31]}), damaged(195))

    def put_head(self, head):
        device = self.devices["formatted"]
        self.put(device[:64] + head + device[64 + len(head) :])

    def expect_head(self, head, is_read):
        self.put_head(head)
        if is_read:
            run = self.rly("audit", "device")
            self.assertEqual((run.returncode, run.stdout.decode().splitlines()[-1]), (0, "balance ok"))
        else:
            self.expect_refused(self.read("device"), damaged(64))

    def test_each_foreign_byte_of_a_head(self):
        """And a length that isn't that of the state."""
        for form, places in FOREIGN.items():
            whole = inline(form, 102 if form == 2 else 107)
            self.expect_head(whole, True)
            for place, byte in places:
                with self.subTest(form=form, place=place):
                    self.expect_head(whole[: 13 + place] + bytes([byte]) + whole[14 + place :], False)
            for length in (0, len(whole) - 14, len(whole) - 12):
                with self.subTest(form=form, length=length):
                    self.expect_head(inline(form, length) + b"\x41", False)

    def test_the_greatest_numbers_of_a_head(self):
        for what, changes, is_read in GREATEST:
            with self.subTest(what):
                changed = bytearray(LAST)
                for place, content in changes.items():
                    changed[13 + place : 13 + place + len(content)] = content
                self.expect_head(bytes(changed), is_read)

    def test_ids_are_in_order(self):
        for ids, is_read in IDS:
            with self.subTest(ids):
                entries = b"".join(entry(2, id, b"\x41") for id in ids)
                front = head(2, 1, 80 + len(entries), accepted=5, last=3, taken=3, in_flight=1, waiting=2)
                self.expect_head(front + entries, is_read)

    def test_an_inline_payload_is_as_long_as_the_longest(self):
        for longest, length, is_read in INLINE_LENGTHS:
            with self.subTest(longest=longest, length=length):
                self.write("device", b"")
                self.rly("format", "device", *words_of({**SMALL, "bytes": 16_384, "segments": 2, "payload": longest}))
                self.devices["formatted"] = self.read("device")
                for form, front in ((2, 80), (1, 87)):
                    payload = entry(form, 1, b"\x41" * length)
                    self.expect_head(head(form, 1, front + len(payload), accepted=1, last=1, taken=1, waiting=1) + payload, is_read)

    def test_bodies_of_groups_that_are_damage(self):
        """Each cut of a body, a byte after it, and another kind of record. A group ends in its segment."""
        bodies = [TAKE_BODY[:length] for length in range(len(TAKE_BODY))]
        bodies += [TAKE_BODY + b"\x41", *[TAKE_BODY[:2] + bytes([kind]) + TAKE_BODY[3:] for kind in KINDS]]
        device = self.devices["formatted"]
        for body in bodies:
            with self.subTest(body.hex()):
                part = fields((1, 0xA5), (4, len(body))) + body
                self.expect_refused(device[:157] + part + device[157 + len(part) :], damaged(157))
        for length in (82_908, 82_972 - 157 - 4, 2**32 - 1):
            with self.subTest(length=length):
                part = group(length, TAKE_BODY[2:])
                self.expect_refused(device[:157] + part + device[157 + len(part) :], damaged(157))
