"""Payloads that a head has by place: where they may lie, 64 of them all over the longest device, and those that are moved on devices
of 64 hops and of 256 segments, with numbers far above 2^32."""
import os

from device_bytes import FORM_2, OPEN, fields, head, header, placed_entry
from journals import Journals, take, words_of

# Room for 64 datagrams of 1,200 bytes, on three segments of the least length and on two, and the bytes of these devices.
WIDE = {"hops": 1, "peers": 1, "window": 64, "items": 64, "bytes": 76_800}
THREE = {**WIDE, "segments": 3, "length": 118_508}
THREE_SIZE = 355_588
TWO = {**WIDE, "segments": 2, "length": 156_908}
TWO_SIZE = 313_880

# The device, the segment of the head, a place, and whether two bytes in flight may lie there. The three segments begin at 64, 118,572
# and 237,080, and the last one ends at 355,588.
PLACES = [
    (THREE, 1, 64, True),
    (THREE, 1, 500, True),
    (THREE, 1, 118_570, True),
    (THREE, 1, 237_080, True),
    (THREE, 1, 355_586, True),
    (THREE, 1, 0, False),
    (THREE, 1, 63, False),
    (THREE, 1, 118_571, False),
    (THREE, 1, 118_572, False),
    (THREE, 1, 200_000, False),
    (THREE, 1, 237_078, False),
    (THREE, 1, 237_079, False),
    (THREE, 1, 355_587, False),
    (THREE, 1, 355_588, False),
    (THREE, 1, 2**40 - 1, False),
    (THREE, 0, 118_572, True),
    (TWO, 1, 64, False),
]

# 64 hops and peers, with heads of the first form: 2^40 commands were accepted, and each hop dropped 2^33 datagrams.
HOPS = range(1, 65)
COMMANDS = 2**40
DROPPED = 2**33
MOMENT = 2**50


def broad_head(generation, last, hops):
    """A head of the first form. Peer 1 sent all datagrams; a hop has the number taken, dropped and released, and the entries in flight
    and waiting."""
    body = fields((8, COMMANDS), (8, last), *[(8, 0)] * 63)
    for taken, dropped, released, flight, queue in hops:
        body += fields((8, MOMENT), (33, 0), (8, taken), (8, dropped), (8, released), (2, len(flight)), (4, len(queue)))
        body += b"".join([*flight, *queue])
    return fields((1, OPEN), (8, generation), (4, len(body))) + body


def broad_entry(id, length, place):
    """An entry by place, stamped at the last moment."""
    return fields((8, id), (8, MOMENT), (2, length), (1, 1), (8, place))


def inline_entry(id, payload):
    return fields((8, id), (8, MOMENT), (2, len(payload)), (1, 0)) + payload


class Devices(Journals):
    def make_at(self, options, size, segment, newest):
        """A new device, whose newest head is this one."""
        self.write("device", b"")
        self.expect("format", "device", *words_of(options), output=f"formatted {size}\n")
        self.put_at(64 + options["length"] * segment, newest)

    def put_at(self, place, content):
        with open(self.path("device"), "r+b") as device:
            device.seek(place)
            device.write(content)

    def bytes_at(self, place, count):
        with open(self.path("device"), "rb") as device:
            device.seek(place)
            return device.read(count)


class Places(Devices):
    def test_a_payload_lies_wholly_in_another_segment(self):
        for options, segment, place, may_lie in PLACES:
            for form in (1, 2):
                with self.subTest(form=form, segments=options["segments"], place=place):
                    body = placed_entry(form, 1, 2, place)
                    front = head(form, 2, (87 if form == 1 else 80) + len(body), accepted=2, last=1, taken=1, in_flight=1)
                    self.make_at(options, THREE_SIZE if options is THREE else TWO_SIZE, segment, front + body)
                    if may_lie:
                        self.expect_told([("fetch 1 1", f"bytes 1 1 {self.bytes_at(place, 2).hex()}")])
                    else:
                        gate = 64 + options["length"] * segment
                        told = f"refused 22 damaged {gate}\nrly: device: device: damaged at byte {gate}\n"
                        self.expect("audit", "device", errors=told, status=1)

    def test_sixty_four_far_away(self):
        """Those of a round, at the end of every fourth segment of the longest device. Every second one has 8,192 bytes."""
        length = 2**31 - 1
        options = {**WIDE, "bytes": 524_288, "payload": 8_192, "segments": 256, "length": length}
        lengths = [8_192 if index % 2 == 0 else 19 * index for index in range(64)]
        places = [64 + length * (4 * index + 4) - size for index, size in enumerate(lengths)]
        entries = b"".join(placed_entry(2, COMMANDS - 63 + index, size, place) for index, (size, place) in enumerate(zip(lengths, places)))
        front = head(
            2, 2, 80 + len(entries), accepted=COMMANDS + 64, last=DROPPED + 64, taken=DROPPED + 64, released=DROPPED, in_flight=64
        )
        try:
            self.make_at(options, 64 + 256 * length, 1, front + entries)
        except AssertionError:
            self.skipTest("needs a file system with files of 512 GiB")
        for index, (size, place) in enumerate(zip(lengths, places)):
            self.put_at(place, bytes([index + 1]) * size)
        numbers = [DROPPED + 1 + index for index in range(64)]
        fetched = [(f"fetch 1 {number}", f"bytes 1 {number} {f'{index + 1:02x}' * lengths[index]}") for index, number in enumerate(numbers)]
        self.expect_told(fetched)
        os.remove(self.path("device"))


class Broad(Devices):
    """Devices of 64 hops and peers."""

    def test_each_hop_takes_one(self):
        """The newest head is in the last of 256 segments, far out. Each hop takes a datagram, picks and fetches it, and after an opening
        it is fetched again and released. With the releases the next segment is opened, the first one: its head has 6,280 bytes after
        the length, which are 8, 8 for each peer, 64 for each hop, and 26 for each datagram by place."""
        taken = 2 * DROPPED
        options = {"hops": 64, "peers": 64, "window": 64, "items": 256, "bytes": 153_000, "segments": 256, "length": 162_000}
        hops = [(taken, DROPPED, DROPPED, [], [])] * 64
        # each peer sent as many
        body = fields((8, COMMANDS), *[(8, taken)] * 64) + broad_head(1, 0, hops)[13 + 8 * 65 :]
        self.make_at(options, 41_472_064, 255, fields((1, OPEN), (8, COMMANDS), (4, len(body))) + body)
        payload = {id: f"{id:02x}" * 1_200 for id in HOPS}
        takes = [(f"take {id} {taken + 1} {id} {MOMENT} {payload[id]}", f"taken {id} {COMMANDS + id}") for id in HOPS]
        number = DROPPED + 1
        picks = [(f"pick {id} {MOMENT}", f"picked {id} {number} {COMMANDS + id}") for id in HOPS]
        fetches = [(f"fetch {id} {number}", f"bytes {id} {number} {payload[id]}") for id in HOPS]
        self.expect_told(takes, picks, fetches)
        self.expect_told(fetches, [(f"done {id} {number}", f"released {id} 1") for id in HOPS])
        self.expect_bytes(64, fields((1, OPEN), (8, COMMANDS + 1), (4, FORM_2 + 6_280)))

    def passing(self, index):
        """A round in which 20 datagrams of 1,200 bytes pass through hop 2, which had one in flight before the first."""
        first, before = 20 * index, COMMANDS + 20 + 41 * index
        rows = [(f"take 1 {64 * DROPPED + 174 + first + it} 2 {MOMENT} {'aa' * 1_200}", f"taken 1 {before + 1 + it}") for it in range(20)]
        rows += [(f"pick 2 {MOMENT}", f"picked 2 {first + 2 + it} {before + 1 + it}") for it in range(20)]
        return [*rows, (f"done 2 {first + 21}", f"released 2 {21 if index == 0 else 20}")]

    def test_payloads_of_many_hops_are_moved(self):
        """On three segments, of which the second has the head's payloads by place: hops 1 to 63 have one in flight, two of them of
        1,200 bytes, and hop 64 has 40 in flight, the first two inline with 1,200 bytes and none, and 50 that wait, of 100 bytes each.
        The first one gets more live bytes than these 17,300. So the third is opened with a head that has them all inline."""
        options = {"hops": 64, "peers": 64, "window": 64, "items": 256, "bytes": 153_000, "segments": 3, "length": 170_000}
        second = 170_064
        sizes = {hop: 1_200 if hop in (1, 63) else 100 for hop in range(1, 64)}
        places = {hop: second + 1_200 * hop - 1_200 for hop in sizes}
        hops = [(DROPPED + 1, DROPPED, 0, [broad_entry(1, sizes[hop], places[hop])], []) for hop in sizes]
        lines = [broad_entry(id, 100, second + 75_600 + 100 * id) for id in range(3, 91)]
        flight = [inline_entry(1, b"\xee" * 1_200), inline_entry(2, b""), *lines[:38]]
        hops.append((DROPPED + 90, DROPPED, 0, flight, lines[38:]))
        self.make_at(options, 510_064, 0, broad_head(1, 64 * DROPPED + 153, hops))
        for hop in sizes:
            self.put_at(places[hop], bytes([hop]) * sizes[hop])
        for id in range(3, 91):
            self.put_at(second + 75_600 + 100 * id, bytes([id]) * 100)
        fetched = [(f"fetch {hop} 1", f"bytes {hop} 1 {f'{hop:02x}' * sizes[hop]}") for hop in sizes]
        last = [("fetch 64 1", f"bytes 64 1 {'ee' * 1_200}"), ("fetch 64 2", "bytes 64 2 -")]
        last += [(f"fetch 64 {id}", f"bytes 64 {id} {f'{id:02x}' * 100}") for id in range(3, 41)]
        kept = [(f"take 1 {64 * DROPPED + 154 + it} 1 {MOMENT} {'aa' * 1_200}", f"taken 1 {COMMANDS + 1 + it}") for it in range(20)]
        # a segment is due once these filled the first one, whose room ends at the offset 91,720
        self.expect_told(fetched, last, kept, *[self.passing(index) for index in range(3)], [("done 3 1", "released 3 1")])
        self.assertEqual(self.bytes_at(340_064, 9), fields((1, OPEN), (8, 2)))
        # nothing is read of the second one any more
        self.put_at(second, bytes(170_000))
        self.expect_told([row for row in fetched if row[0] not in ("fetch 2 1", "fetch 3 1")], last)

    def test_the_segment_with_the_fewest_bytes_is_emptied(self):
        """Of 256 segments the second is free, number 200 has a byte, and each other one two. The second is opened, and has that byte."""
        length = 87_409
        options = {**WIDE, "items": 330, "bytes": 10_240, "segments": 256, "length": length}
        starts = [64 + length * segment for segment in range(256)]
        order = [200, *[segment for segment in range(2, 256) if segment != 200]]
        sizes = [1, *[2] * 253]
        entries = b"".join(placed_entry(2, index + 1, sizes[index], starts[segment] + 500) for index, segment in enumerate(order))
        front = head(2, 1, 80 + len(entries), accepted=300, last=254, taken=254, in_flight=64, waiting=190)
        self.make_at(options, 64 + 256 * length, 0, front + entries)
        for index, segment in enumerate(order):
            self.put_at(starts[segment] + 500, bytes([index + 1] * sizes[index]))
        fetched = [(f"fetch 1 {number}", f"bytes 1 {number} {f'{number:02x}' * sizes[number - 1]}") for number in range(1, 65)]
        self.expect_told([(take(255 + index, 0, 1_200), f"taken 1 {301 + index}") for index in range(3)], [("done 1 0", "unchanged 1")])
        self.assertEqual(self.bytes_at(starts[1], 9), fields((1, OPEN), (8, 2)))
        self.put_at(starts[200] + 500, b"\0")
        self.expect_told(fetched)
