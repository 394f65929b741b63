"""What tests of a device start from that compare it with the plain machine: `rly play`, and `rly sim` with the same options."""
from device_bytes import CLOSED, group, head, header, laid_out, take_record
from program import NOTE, Rows

# The small device: one hop, one peer, 16 items and 4,096 bytes on two segments of the least length, 82,908 bytes.
SMALL = {"hops": 1, "peers": 1, "items": 16, "bytes": 4_096}
SIZE = 165_880
SECOND_GATE = 82_972

# Its header: of version 2 as it is made, and of version 1, which has no field for the longest payload.
HEADER = header(2, 82_908, 4_096) + (1_200).to_bytes(2, "big")
FIRST_HEADER = header(1, 82_908, 4_096)

# The line of its first take, and the group of that with the closed gate after it.
FIRST_TAKE = "take 1 1 1 0 41"
FIRST_GROUP = group(26, take_record(1, 0, b"\x41")) + CLOSED

# As it was made with a header of version 1 and a head of form 1, and the same once the first datagram was taken.
STORED = laid_out(SIZE, {0: FIRST_HEADER, 64: head(1, 1, 87)})
STORED_TAKEN = laid_out(SIZE, {0: FIRST_HEADER, 64: head(1, 1, 87), 164: FIRST_GROUP})

# Replies to commands that were accepted.
ACCEPTED = ("taken", "picked", "nothing", "released")


def words_of(options):
    return [f"--{name}={value}" for name, value in options.items()]


def take(number, stamp, length, byte=None, limit=0):
    """A line that takes so many bytes, all the same: where nothing else is said, the last byte of the datagram's number."""
    payload = f"{number & 0xFF if byte is None else byte:02x}" * length or "-"
    return f"take 1 {number} 1 {stamp} {payload}{f' {limit}' if limit else ''}"


def lines_of(rounds):
    return [line for lines in rounds for line in lines]


def parameter_lines(number, most=4_096, payload=1_200):
    """A round whose replies tell each parameter of a small device on which nothing lives, `number` being the peer's next one."""
    moment = 10_000_000
    # They are as many bytes as there may be. After the third 1,501 of them wait, and after the fourth 1,500.
    lengths = [most - 2_896, 1_195, 200, 1, 1_200, 300]
    takes = [take(number + index, moment, length) for index, length in enumerate(lengths)]
    empty = [take(number + index, moment, 0) for index in range(6, 17)]
    early, late = f"pick 1 {moment + 4_999}", f"pick 1 {moment + 5_000}"
    return [
        "show 2",
        "take 2 1 1 0 -",
        take(number, moment, payload + 1),
        *takes,
        take(number + 6, moment, 1),
        *empty,
        *[early, "show 1", late, "show 1", late, "show 1", late, "show 1"],
        *[late] * 5,
    ]


def turn(number, moment):
    """A round in which one datagram is picked, fetched and released."""
    return [f"pick 1 {moment}", "show 1", f"fetch 1 {number}", f"done 1 {number}", "show 1"]


class Journals(Rows):
    """Tests of a device at `device`. The plain machine beside it has the options `self.spool` and was asked `self.asked`."""

    def make(self, options, size):
        """Formats a new file as a device of so many bytes. The plain machine is a new one."""
        self.write("device", b"")
        self.expect("format", "device", *words_of(options), output=f"formatted {size}\n")
        self.stand_for({name: value for name, value in options.items() if name not in ("segments", "length")})

    def make_two(self, options=SMALL, size=SIZE):
        """The same on two segments."""
        self.make({**options, "segments": 2}, size)

    def put(self, device):
        """A small device of these bytes."""
        self.write("device", device)
        self.stand_for(SMALL)

    def stand_for(self, spool, *asked):
        self.spool, self.asked = spool, list(asked)

    def machine(self, *more):
        """What the plain machine tells to all that it was asked, and to these lines."""
        run = self.rly("sim", *words_of(self.spool), input="".join(f"{line}\n" for line in [*self.asked, *more]))
        self.assertEqual((run.returncode, run.stderr), (0, b""))
        return run.stdout.decode().splitlines()

    def ask(self, *rounds):
        """Opens the device and asks these rounds of it, of up to 64 lines each. The replies to the lines.

        A round of `play --batch=64` ends after 64 lines, and lines that are no command count among them. So these fill up a round
        that has fewer."""
        lines = [line for asked in rounds for line in [*asked, *[""] * (64 - len(asked))]]
        run = self.rly("play", "device", "--batch=64", input="".join(f"{line}\n" for line in lines))
        self.assertEqual((run.returncode, NOTE.sub(b"", run.stderr)), (0, b""))
        told = list(zip(lines, run.stdout.decode().splitlines(), strict=True))
        self.assertEqual({reply for line, reply in told if not line} - {"refused 16 line"}, set())
        return [reply for line, reply in told if line]

    def expect_replies(self, lines, replies, wanted):
        for line, reply, told in zip(lines, replies, wanted, strict=True):
            if reply != told:
                self.fail(f"`{line[:60]}` is told `{reply[:300]}`, and not `{told[:300]}`")

    def expect_told(self, *rounds):
        """Opens the device and asks these rounds of it, each of lines and the reply to each."""
        lines = [[line for line, _ in rows] for rows in rounds]
        self.expect_replies(lines_of(lines), self.ask(*lines), [reply for rows in rounds for _, reply in rows])

    def expect_same(self, *rounds):
        """Opens the device and asks these rounds of it and of the plain machine, which tells the same. The replies."""
        before = len(self.asked)
        self.asked += lines_of(rounds)
        replies = self.ask(*rounds)
        self.expect_replies(self.asked[before:], replies, self.machine()[before:])
        return replies

    def expect_bytes(self, place, wanted):
        self.assertEqual(self.read("device")[place : place + len(wanted)].hex(), wanted.hex(), f"from place {place} on")

    def expect_books(self, books):
        self.expect("audit", "device", output=books)

    def expect_state(self):
        """Expects of a small device all that the plain machine's state tells: its numbers, what is in flight, what waits, by
        picks at late moments until nothing is left, and then its parameters. Both go on from there."""
        told = [reply.split() for reply in self.machine("show 1", "window 1")]
        shown, (_, _, first, after) = told[-2:]
        taken = sum(words[0] == "taken" for words in told)
        accepted = sum(words[0] in ACCEPTED for words in told)
        # The counts begin a line of `show`, and what has expired ends it.
        counts = " ".join(shown[:12] + shown[24:])
        self.expect_books(f"{counts}\npeer 1 last {taken}\nseq {accepted}\nbalance ok\n")
        first, after = int(first), int(after)
        numbers = ["show 1", "window 1", f"fetch 1 {first}", f"fetch 1 {after}"]
        fetches = [f"fetch 1 {number}" for number in range(after + 1)]
        live = int(shown[5]) + int(shown[7])
        turns = [turn(first + index, 1_000_000 + 60_000 * index) for index in range(live)]
        replies = self.expect_same(numbers, fetches, *turns, ["show 1"])
        self.assertIn(" queued 0 flight 0 ", replies[-1])
        self.expect_parameters(taken + 1)

    def expect_parameters(self, number, **limits):
        """Expects of a device on which nothing lives that it has the plain machine's parameters."""
        replies = self.expect_same(parameter_lines(number, **limits))
        # The window is full in the end, so the takes before it were taken.
        self.assertEqual(replies[-1], "refused 7 windowfull")
