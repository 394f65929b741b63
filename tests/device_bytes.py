"""The bytes of a device of one hop and one peer, field by field as docs/FORMATS.md has them."""
OPEN = 0xA5
CLOSED = b"\0"
# The top bit of a head's length says that it is of form 2.
FORM_2 = 1 << 31


def fields(*pairs):
    """Fields of so many bytes with these values, big-endian."""
    return b"".join(value.to_bytes(size, "big") for size, value in pairs)


def header(version, length, most):
    """Places 0 to 50: a header of 16 items and `most` bytes, on two segments of this length, but for the longest payload."""
    return fields(
        (1, OPEN),
        (8, 0x524C594445563031),  # the text RLYDEV01
        (2, version),
        (2, 1),  # hops
        (2, 1),  # peers
        (2, 8),  # window
        (2, 2),  # segments
        (4, length),
        (4, 16),  # items
        (4, most),  # bytes
        (4, 1_500),  # maxpacket
        (8, 5_000),  # target
        (8, 100_000),  # interval
    )


def head(form, generation, length, accepted=0, last=0, moment=0, taken=0, released=0, expired=0, in_flight=0, waiting=0):
    """A head up to its entries, of a hop that dropped nothing and whose CoDel is as at first. `length` is that of the body."""
    moments, counts = (8, 8) if form == 1 else (7, 6)
    return fields(
        (1, OPEN),
        (8, generation),
        (4, length if form == 1 else FORM_2 + length),
        (8, accepted),
        (8, last),  # the peer's last number
        (moments, moment),  # the hop's last moment
        (moments, 0),  # first_above_time
        (moments, 0),  # drop_next
        (counts, 0),  # count
        (counts, 0),  # lastcount
        (1, 0),  # dropping
        (counts, taken),
        (counts, 0),  # dropped
        (counts, released),
        (0 if form == 1 else counts, expired),
        (2, in_flight),
        (4, waiting),
    )


def entry(form, id, payload, limit=0):
    """An entry of a head, stamped 0, whose payload stands inline."""
    front = [(8, id), (8, 0)] if form == 1 else [(6, id), (7, 0), (5, limit)]
    return fields(*front, (2, len(payload)), (1, 0)) + payload


def placed_entry(form, id, length, place):
    """An entry of a head, stamped 0 and without a limit, whose payload lies at this place."""
    front = [(8, id), (8, 0)] if form == 1 else [(6, id), (7, 0), (5, 0)]
    return fields(*front, (2, length), (1, 1), (8 if form == 1 else 5, place))


def take_record(number, stamp, payload):
    """A Take without a limit."""
    return fields((1, 1), (2, 1), (8, number), (2, 1), (8, stamp), (2, len(payload))) + payload


def limited_record(number, stamp, limit, payload):
    """A Take with a limit."""
    return fields((1, 5), (1, 1), (6, number), (1, 1), (7, stamp), (5, limit), (2, len(payload))) + payload


def pick_record(moment):
    return fields((1, 2), (2, 1), (8, moment))


def release_record(number):
    return fields((1, 3), (2, 1), (8, number))


def group(length, record):
    """A group of one record up to the next gate. `length` is that of its body."""
    return fields((1, OPEN), (4, length), (2, 1)) + record


def laid_out(size, parts):
    """A device of so many bytes, on which these parts stand at their places, and zeros elsewhere."""
    device = bytearray(size)
    for place, part in parts.items():
        device[place : place + len(part)] = part
    return bytes(device)
