"""Rows of `rly sim`: command lines and their reply lines (docs/COMMANDS.md).

They were given with the language, or worked out from the definitions (docs/reference/DEFINITIONS.md). None is taken from the program.
"""
from program import Rows, parted


def takes(count):
    """Rows of takes 1 to `count` of 1,000 zero bytes each, from peer 1 to hop 1 at moment 0."""
    return "".join(f"take 1 {number} 1 0 {'00' * 1_000} -> taken 1 {number}\n" for number in range(1, count + 1))


# CoDel drops one, and then another that ends its phase.
SIX_TAKES = takes(6) + """
    pick 1 10000  -> picked 1 1 1
    show 1        -> hop 1 taken 6 queued 5 flight 1 dropped 0 released 0
                     first 110000 next 0 count 0 last 0 dropping no moment 10000
    pick 1 110000 -> picked 1 2 3 dropped 2
    show 1        -> hop 1 taken 6 queued 3 flight 2 dropped 1 released 0
                     first 110000 next 210000 count 1 last 1 dropping yes moment 110000
    pick 1 210000 -> picked 1 3 5 dropped 4
    show 1        -> hop 1 taken 6 queued 1 flight 3 dropped 2 released 0
                     first 0 next 210000 count 2 last 1 dropping no moment 210000
    done 1 3      -> released 1 3
    done 1 3      -> unchanged 1
    window 1      -> window 1 4 4
    done 1 4      -> refused 9 neversent
    fetch 1 3     -> refused 10 notinflight
    pick 1 300000 -> picked 1 4 6
    pick 1 300000 -> refused 8 empty
"""

# Four drops are due at once.
TEN_TAKES = takes(10) + """
    pick 1 10000  -> picked 1 1 1
    pick 1 110000 -> picked 1 2 3 dropped 2
    pick 1 400000 -> picked 1 3 8 dropped 4 5 6 7
    show 1        -> hop 1 taken 10 queued 2 flight 3 dropped 5 released 0
                     first 110000 next 433166 count 5 last 1 dropping yes moment 400000
"""


def payload_of(size):
    """The digits of so many bytes, which count from 0 to 250 and begin anew."""
    return bytes(at % 251 for at in range(size)).hex()


# The longest payload, there and back.
LONGEST = f"""
    take 1 1 1 0 {payload_of(8_192)} -> taken 1 1
    pick 1 0                         -> picked 1 1 1
    fetch 1 1                        -> bytes 1 1 {payload_of(8_192)}
"""


# Each number of the largest spool.
LARGEST = [
    "--hops=64", "--peers=64", "--window=64", "--items=16384", "--bytes=16777216", "--maxpacket=65535", "--target=3600000000",
    "--interval=3600000000", "--payload=8192",
]


class Sim(Rows):
    """What a spool in memory answers."""

    def answers(self, rows, *options):
        """`rly sim` with these options answers each command of the rows with its reply."""
        commands, replies = parted(rows)
        self.expect("sim", *options, input=commands, output=replies)


# Lines that ask nothing.
NO_COMMANDS = [
    "",
    "take",
    "take ",
    "take 1 1 1 0 4",
    "take 1 1 1 0 4g",
    "take 1 1 1 0 ",
    "take 1 1 1 0 41 ",
    "take 1  1 1 0 41",
    "take 1 1 1 0 41 -",
    "take 1 1 1 0 41 01",
    "take 1 1 1 0 41 +5",
    "take 1 1 1 0 41 18446744073709551616",
    "take 1 1 1 0 41 5000 ",
    "take 1 1 1 0 41 5000 1",
    "take 1 1 1 0 41  5000",
    "take 1 1 1 0 41 5000\r",
    "take 1 1 1 0 4 5000",
    " take 1 1 1 0 41",
    "take 1 01 1 0 41",
    "take 1 +1 1 0 41",
    "take 65536 1 1 0 41",
    "take 1 18446744073709551616 1 0 41",
    "Take 1 1 1 0 41",
    "take 1 1 1 0 41\r",
    "show",
    "show 1 1",
    "pick 1",
    "fetch 1 1 1",
    "window 65536",
    "done 1 -1",
    "drop 1 1",
]


class Lines(Sim):
    """What is a command, and what isn't."""

    def test_lines_that_are_no_command_are_refused(self):
        for line in NO_COMMANDS:
            with self.subTest(line=line):
                self.expect("sim", input=f"{line}\n", output="refused 16 line\n")

    def test_greatest_numbers_are_read(self):
        self.answers("""
            take 1 18446744073709551615 1 0 aBCd -> refused 4 gap 1
            take 65535 1 1 0 41                  -> refused 1 nopeer
            done 65535 0                         -> refused 2 nohop
        """)

    def test_a_last_line_without_a_newline_counts(self):
        self.expect("sim", input="take 1 1 1 0 41\ndone 1 0", output="taken 1 1\nunchanged 1\n")

    def test_lines_are_bounded(self):
        """Lines of as many digits as a command may have bytes, of one more, and of many more, and a command after them."""
        lines = ["0" * length for length in (20_480, 20_481, 150_000)]
        self.expect("sim", input="\n".join([*lines, "done 1 0"]), output="refused 16 line\n" * 3 + "unchanged 1\n")

    def test_the_longest_take(self):
        """The longest take of the longest payload is a command: 16,464 bytes."""
        greatest = 2**64 - 1
        take = f"take 65535 {greatest} 65535 {greatest} {payload_of(8_192)} {greatest}"
        self.assertEqual(len(take), 16_464)
        self.answers(f"{take} -> refused 1 nopeer", "--payload=8192")

    def test_the_longest_line(self):
        """A line of 20,480 bytes is still read: a take that is too long for any spool. One of 20,481 isn't."""
        longest, longer = f"take 1 1 1 10 {payload_of(10_233)}", f"take 1 1 1 0 {payload_of(10_234)}"
        self.assertEqual((len(longest), len(longer)), (20_480, 20_481))
        self.answers(f"{longest} -> refused 5 toolong", "--payload=8192")
        self.answers(f"{longer} -> refused 16 line", "--payload=8192")


class Spools(Sim):
    """What commands do, and why they are refused."""

    def test_a_datagram_passes_through(self):
        """Two datagrams are taken at two hops. One of them is picked, fetched and released."""
        self.answers("""
            take 1 1 1 900 41 -> taken 1 1
            take 1 2 2 0 -    -> taken 1 2
            take 1 2 2 0 -    -> already 1 2
            pick 1 50         -> picked 1 1 1
            fetch 1 1         -> bytes 1 1 41
            window 1          -> window 1 1 2
            done 1 1          -> released 1 1
            window 1          -> window 1 2 2
            fetch 1 1         -> refused 10 notinflight
            fetch 2 1         -> refused 9 neversent
            show 1            -> hop 1 taken 1 queued 0 flight 0 dropped 0 released 1
                                 first 0 next 0 count 0 last 0 dropping no moment 900
        """)

    def test_a_second_copy_is_already_taken(self):
        self.answers("""
            take 1 1 1 0 41 -> taken 1 1
            take 1 1 1 0 41 -> already 1 1
        """)

    def test_a_number_left_out_is_a_gap(self):
        self.answers("""
            take 1 1 1 0 41 -> taken 1 1
            take 1 3 1 0 41 -> refused 4 gap 2
        """)

    def test_one_item_fills_a_spool_of_one(self):
        self.answers("""
            take 1 1 1 0 41 -> taken 1 1
            take 1 2 1 0 41 -> refused 6 full
        """, "--items=1")

    def test_refusals_of_a_take(self):
        self.answers(f"take 1 1 1 0 {'00' * 1_201} -> refused 5 toolong")
        self.answers("take 5 1 1 0 41 -> refused 1 nopeer")
        self.answers("take 1 0 1 0 41 -> already 1 0")

    def test_refusals_of_a_pick(self):
        self.answers("""
            take 1 1 1 0 41         -> taken 1 1
            take 1 2 1 0 41         -> taken 1 2
            pick 1 0                -> picked 1 1 1
            pick 1 0                -> refused 7 windowfull
            pick 5 0                -> refused 2 nohop
            pick 1 4503599627370496 -> refused 3 badmoment
        """, "--window=1")

    def test_releases_of_an_empty_flight(self):
        self.answers("""
            done 1 0 -> unchanged 1
            done 1 1 -> refused 9 neversent
        """)

    def test_show_tells_all_numbers(self):
        self.answers("""
            take 1 1 1 900 41 -> taken 1 1
            show 1            -> hop 1 taken 1 queued 1 flight 0 dropped 0 released 0
                                 first 0 next 0 count 0 last 0 dropping no moment 900
        """)

    def test_six_takes_and_three_picks(self):
        self.answers(SIX_TAKES)

    def test_ten_takes_and_a_late_pick(self):
        self.answers(TEN_TAKES)

    def test_an_empty_queue_answers_nothing_once(self):
        self.answers(takes(3) + """
            pick 1 10000  -> picked 1 1 1
            pick 1 110000 -> picked 1 2 3 dropped 2
            pick 1 120000 -> nothing 1
            pick 1 120000 -> refused 8 empty
        """, "--maxpacket=500")

    def test_stamps_and_payloads_are_kept(self):
        self.answers("""
            take 1 1 1 900 41fE -> taken 1 1
            take 1 2 1 100 -    -> taken 1 2
            pick 1 50           -> picked 1 1 1
            fetch 1 1           -> bytes 1 1 41fe
            pick 1 50           -> picked 1 2 2
            fetch 1 2           -> bytes 1 2 -
        """)

    def test_the_last_hop_and_peer(self):
        """As many hops and peers as a spool may have."""
        self.answers("""
            take 64 1 64 0 41 -> taken 64 1
            pick 64 0         -> picked 64 1 1
            fetch 64 1        -> bytes 64 1 41
            show 64           -> hop 64 taken 1 queued 0 flight 1 dropped 0 released 0
                                 first 0 next 0 count 0 last 0 dropping no moment 0
            take 65 1 1 0 41  -> refused 1 nopeer
            window 65         -> refused 2 nohop
        """, "--hops=64", "--peers=64")

    def test_the_largest_spool(self):
        """A queue holds 16,384 datagrams, the first of which has the longest payload, and a window holds 64."""
        longest, short = "07" * 8_192, "07" * 24
        taken = "".join(f"take 64 {number} 64 {number} {short} -> taken 64 {number}\n" for number in range(2, 16_385))
        picked = "".join(f"pick 64 16384 -> picked 64 {number} {number}\n" for number in range(1, 65))
        self.answers(f"""
            take 64 1 64 1 {longest} -> taken 64 1
            {taken}
            take 64 16385 64 16385 - -> refused 6 full
            {picked}
            pick 64 16384            -> refused 7 windowfull
            fetch 64 1               -> bytes 64 1 {longest}
            fetch 64 64              -> bytes 64 64 {short}
        """, *LARGEST)


class Limits(Sim):
    """A pick finds what is past its limit at the front of the queue, looks once, and does so before CoDel."""

    def test_at_its_limit_a_datagram_still_goes_out(self):
        self.answers("""
            take 1 1 1 0 41 5000 -> taken 1 1
            take 1 2 1 0 42      -> taken 1 2
            pick 1 5000          -> picked 1 1 1
            show 1               -> hop 1 taken 2 queued 1 flight 1 dropped 0 released 0
                                    first 0 next 0 count 0 last 0 dropping no moment 5000
        """)

    def test_past_its_limit_it_is_expired(self):
        self.answers("""
            take 1 1 1 0 41 5000 -> taken 1 1
            take 1 2 1 0 42      -> taken 1 2
            pick 1 5001          -> picked 1 1 2 expired 1
            show 1               -> hop 1 taken 2 queued 0 flight 1 dropped 0 released 0
                                    first 0 next 0 count 0 last 0 dropping no moment 5001 expired 1
        """)

    def test_what_expired_leaves_its_room(self):
        """One datagram is live then, of one byte."""
        for option in ("--items=2", "--bytes=2"):
            with self.subTest(option=option):
                self.answers("""
                    take 1 1 1 0 41 5000 -> taken 1 1
                    take 1 2 1 0 42      -> taken 1 2
                    take 1 3 1 0 43      -> refused 6 full
                    pick 1 5001          -> picked 1 1 2 expired 1
                    take 1 3 1 0 43      -> taken 1 4
                    take 1 4 1 0 44      -> refused 6 full
                """, option)

    def test_nothing_is_left_of_a_queue_that_expired(self):
        """A pick that finds nothing else is accepted. The next one finds an empty queue."""
        self.answers("""
            take 1 1 1 0 41 10 -> taken 1 1
            pick 1 11          -> nothing 1 expired 1
            show 1             -> hop 1 taken 1 queued 0 flight 0 dropped 0 released 0
                                  first 0 next 0 count 0 last 0 dropping no moment 11 expired 1
            pick 1 11          -> refused 8 empty
        """)
        # Two commands were accepted before the last one, and no datagram was live.
        self.answers("""
            take 1 1 1 0 07 10 -> taken 1 1
            pick 1 11          -> nothing 1 expired 1
            pick 1 12          -> refused 8 empty
            take 1 2 1 0 07    -> taken 1 3
        """, "--items=1", "--bytes=1")

    def test_the_greatest_limit(self):
        """A limit is below 2^40."""
        self.answers("""
            take 1 1 1 0 41 1099511627776        -> refused 3 badmoment
            take 1 1 1 0 41 18446744073709551615 -> refused 3 badmoment
            take 1 1 1 0 41 1099511627775        -> taken 1 1
            pick 1 1099511627775                 -> picked 1 1 1
            fetch 1 1                            -> bytes 1 1 41 1099511627775
            take 1 2 1 0 42 1099511627775        -> taken 1 3
            pick 1 2199023255550                 -> picked 1 2 3
            pick 1 2199023255551                 -> refused 8 empty
        """)
        self.answers("""
            take 1 1 1 0 07 1099511627775 -> taken 1 1
            take 1 2 1 0 07 1099511627775 -> taken 1 2
            pick 1 1099511627775          -> picked 1 1 1
            pick 1 1099511627776          -> nothing 1 expired 2
        """)

    def test_a_bad_limit_is_told_before_a_gap(self):
        """A limit is looked at behind the peer and the hop, and before the number."""
        self.answers("""
            take 1 9 1 0 41 1099511627776 -> refused 3 badmoment
            take 9 1 1 0 41 1099511627776 -> refused 1 nopeer
            take 1 1 9 0 41 1099511627776 -> refused 2 nohop
        """)

    def test_a_limit_of_0_is_none(self):
        self.answers("""
            take 1 1 1 0 41 0       -> taken 1 1
            pick 1 4503599627370495 -> picked 1 1 1
            fetch 1 1               -> bytes 1 1 41
        """)

    def test_fetch_tells_the_limit(self):
        self.answers("""
            take 1 1 1 0 41fE 5000 -> taken 1 1
            take 1 2 1 0 - 1       -> taken 1 2
            pick 1 0               -> picked 1 1 1
            pick 1 0               -> picked 1 2 2
            fetch 1 1              -> bytes 1 1 41fe 5000
            fetch 1 2              -> bytes 1 2 - 1
        """)

    def test_only_the_front_expires(self):
        """What stands behind a datagram without a limit, or behind one that isn't past it, isn't looked at."""
        self.answers("""
            take 1 1 1 0 41    -> taken 1 1
            take 1 2 1 0 42 10 -> taken 1 2
            pick 1 11          -> picked 1 1 1
            pick 1 11          -> nothing 1 expired 2
        """)
        self.answers("""
            take 1 1 1 0 41 10 -> taken 1 1
            take 1 2 1 0 42 20 -> taken 1 2
            take 1 3 1 0 43 10 -> taken 1 3
            pick 1 15          -> picked 1 1 2 expired 1
            pick 1 15          -> nothing 1 expired 3
        """)
        self.answers("""
            take 1 1 1 0 07 5    -> taken 1 1
            take 1 2 1 0 07 6    -> taken 1 2
            take 1 3 1 0 07      -> taken 1 3
            take 1 4 1 0 07 5    -> taken 1 4
            take 1 5 1 0 07 1000 -> taken 1 5
            take 1 6 1 0 07 5    -> taken 1 6
            pick 1 100           -> picked 1 1 3 expired 1 2
            pick 1 100           -> picked 1 2 5 expired 4
            pick 1 100           -> nothing 1 expired 6
        """)

    def test_several_expire_at_once(self):
        self.answers("""
            take 1 1 1 0 41 10 -> taken 1 1
            take 1 2 1 0 42 20 -> taken 1 2
            take 1 3 1 0 43 10 -> taken 1 3
            take 1 4 1 0 44    -> taken 1 4
            pick 1 21          -> picked 1 1 4 expired 1 2 3
        """)

    def test_a_limit_counts_between_effective_moments(self):
        """A moment before the hop's last one counts as that one, in a take and in a pick."""
        self.answers("""
            take 1 1 1 100 41  -> taken 1 1
            take 1 2 1 0 42 10 -> taken 1 2
            pick 1 105         -> picked 1 1 1
            pick 1 110         -> picked 1 2 2
        """)
        self.answers("""
            take 1 1 1 100 41  -> taken 1 1
            take 1 2 1 0 42 10 -> taken 1 2
            pick 1 111         -> picked 1 1 1
            pick 1 0           -> nothing 1 expired 2
        """)
        # The second and the third are stamped 1000. Their picks are at 1005 and, since a take moved the last moment, at 1006.
        self.answers("""
            take 1 1 1 1000 07 -> taken 1 1
            take 1 2 1 0 07 5  -> taken 1 2
            take 1 3 1 0 07 5  -> taken 1 3
            pick 1 1005        -> picked 1 1 1
            pick 1 10          -> picked 1 2 2
            take 1 4 1 1006 07 -> taken 1 6
            pick 1 10          -> picked 1 3 6 expired 3
        """)

    def test_behind_a_full_window_nothing_expires(self):
        """A refused pick takes nothing away."""
        self.answers("""
            take 1 1 1 0 41    -> taken 1 1
            take 1 2 1 0 42 10 -> taken 1 2
            pick 1 0           -> picked 1 1 1
            pick 1 11          -> refused 7 windowfull
            show 1             -> hop 1 taken 2 queued 1 flight 1 dropped 0 released 0
                                  first 0 next 0 count 0 last 0 dropping no moment 0
            done 1 1           -> released 1 1
            pick 1 11          -> nothing 1 expired 2
        """, "--window=1")
        self.answers("""
            take 1 1 1 0 07         -> taken 1 1
            take 1 2 1 0 07 5       -> taken 1 2
            pick 1 0                -> picked 1 1 1
            pick 1 100              -> refused 7 windowfull
            pick 1 4503599627370496 -> refused 3 badmoment
            show 1                  -> hop 1 taken 2 queued 1 flight 1 dropped 0 released 0
                                       first 0 next 0 count 0 last 0 dropping no moment 0
        """, "--window=1")
        self.answers("""
            take 1 1 1 0 07   -> taken 1 1
            take 1 2 1 0 07 5 -> taken 1 2
            pick 1 0          -> picked 1 1 1
            done 1 1          -> released 1 1
            pick 1 100        -> nothing 1 expired 2
        """, "--window=1")

    def test_what_is_in_flight_does_not_expire(self):
        """Its limit counts no more, and is told with the payload."""
        self.answers("""
            take 1 1 1 0 41 10 -> taken 1 1
            take 1 2 1 0 42 10 -> taken 1 2
            pick 1 5           -> picked 1 1 1
            pick 1 100         -> nothing 1 expired 2
            fetch 1 1          -> bytes 1 1 41 10
            window 1           -> window 1 1 2
        """)
        self.answers("""
            take 1 1 1 0 07 5  -> taken 1 1
            pick 1 0           -> picked 1 1 1
            take 1 2 1 1000 07 -> taken 1 3
            pick 1 1000        -> picked 1 2 3
            fetch 1 1          -> bytes 1 1 07 5
            fetch 1 2          -> bytes 1 2 07
        """)

    def behind(self, limits, rows):
        """The rows after takes of 1,000 zero bytes each at moment 0, with these limits."""
        front = "".join(
            f"take 1 {number} 1 0 {'00' * 1_000} {limit} -> taken 1 {number}\n" for number, limit in enumerate(limits, 1)
        )
        self.answers(front + rows)

    def test_one_pick_expires_and_drops(self):
        """CoDel goes on with what is left, as after six takes without limits: it drops the first of it, the next goes out."""
        self.behind([0, 50_000, 0, 0, 0, 0], """
            pick 1 10000  -> picked 1 1 1
            pick 1 110000 -> picked 1 2 4 expired 2 dropped 3
            show 1        -> hop 1 taken 6 queued 2 flight 2 dropped 1 released 0
                             first 110000 next 210000 count 1 last 1 dropping yes moment 110000 expired 1
        """)

    def test_all_expire_while_codel_drops(self):
        """All that is left expires while CoDel drops: it sees an empty queue, and ends."""
        self.behind([0, 0, 0, 150_000, 150_000, 150_000], """
            pick 1 10000  -> picked 1 1 1
            pick 1 110000 -> picked 1 2 3 dropped 2
            pick 1 150001 -> nothing 1 expired 4 5 6
            show 1        -> hop 1 taken 6 queued 0 flight 2 dropped 1 released 0
                             first 0 next 210000 count 1 last 1 dropping no moment 150001 expired 3
            pick 1 150001 -> refused 8 empty
        """)

    def test_what_codel_does_not_drop_goes_out_past_its_limit(self):
        """At the first pick the first has waited for 10,000, with 4,800 bytes behind it.

        An interval later the second is past its limit. CoDel drops the third, and behind the fourth there are only 1,200 bytes.
        So the fourth is sent, though it is past its limit too. At the last pick all that is left expires.
        """
        long = "07" * 1_200
        self.answers(f"""
            take 1 1 1 0 {long}         -> taken 1 1
            take 1 2 1 100 {long} 20000 -> taken 1 2
            take 1 3 1 200 {long}       -> taken 1 3
            take 1 4 1 200 {long} 5     -> taken 1 4
            take 1 5 1 200 {long} 5     -> taken 1 5
            pick 1 10000                -> picked 1 1 1
            pick 1 120000               -> picked 1 2 4 expired 2 dropped 3
            show 1                      -> hop 1 taken 5 queued 1 flight 2 dropped 1 released 0
                                           first 0 next 220000 count 1 last 1 dropping yes moment 120000 expired 1
            pick 1 120000               -> nothing 1 expired 5
            show 1                      -> hop 1 taken 5 queued 0 flight 2 dropped 1 released 0
                                           first 0 next 220000 count 1 last 1 dropping no moment 120000 expired 2
        """)


class Payloads(Sim):
    """What a payload may be."""

    def sizes(self, rows, *options):
        """Takes of these numbers and of so many bytes 07, one after the other, are answered so."""
        self.answers("".join(f"take 1 {number} 1 0 {'07' * size or '-'} -> {reply}\n" for number, size, reply in rows), *options)

    def test_the_longest_payload_comes_back(self):
        self.answers(LONGEST, "--payload=8192")

    def test_a_payload_of_8193_bytes_is_too_long(self):
        self.answers(f"take 1 1 1 0 {payload_of(8_193)} -> refused 5 toolong", "--payload=8192")

    def test_a_spool_of_one_byte(self):
        """A payload's length is looked at before its number and the room."""
        self.answers("""
            take 1 1 1 0 -    -> taken 1 1
            take 1 2 1 0 41   -> taken 1 2
            take 1 1 1 0 4142 -> refused 5 toolong
            take 1 9 1 0 4142 -> refused 5 toolong
            take 1 3 1 0 4142 -> refused 5 toolong
            take 1 3 1 0 41   -> refused 6 full
        """, "--payload=1", "--items=2")

    def test_what_is_too_long_is_told_before_what_it_would_be_told_else(self):
        """Seven bytes are the most.

        A payload of eight is too long whether its number was taken before, skips one or comes next, and whether there is room for
        it or not.
        """
        self.sizes([
            (1, 8, "refused 5 toolong"),
            (1, 7, "taken 1 1"),
            (1, 8, "refused 5 toolong"),
            (1, 7, "already 1 1"),
            (3, 8, "refused 5 toolong"),
            (3, 7, "refused 4 gap 2"),
            (2, 8, "refused 5 toolong"),
            (2, 7, "refused 6 full"),
            (2, 3, "taken 1 2"),
        ], "--hops=1", "--peers=1", "--bytes=10", "--payload=7")

    def test_payloads_of_one_byte(self):
        """The least longest payload has one byte. One without any is shorter."""
        self.sizes([
            (1, 2, "refused 5 toolong"),
            (1, 1, "taken 1 1"),
            (2, 0, "taken 1 2"),
        ], "--hops=1", "--peers=1", "--bytes=4096", "--payload=1")

    def test_payloads_of_1200_bytes(self):
        """Where nothing else is said they have at most 1,200 bytes."""
        self.sizes([
            (1, 1_201, "refused 5 toolong"),
            (1, 1_200, "taken 1 1"),
            (2, 8_192, "refused 5 toolong"),
        ])

    def test_payloads_of_8192_bytes(self):
        """The longest that there are have 8,192. Two of them fit in 16,384 bytes."""
        self.sizes([
            (1, 8_193, "refused 5 toolong"),
            (1, 8_192, "taken 1 1"),
            (2, 8_192, "taken 1 2"),
            (3, 8_193, "refused 5 toolong"),
            (3, 8_192, "refused 6 full"),
        ], "--hops=1", "--peers=1", "--bytes=16384", "--payload=8192")

    def test_more_than_a_spool_has_room_for(self):
        """A spool may be for fewer bytes than its longest payload has. What it has no room for isn't too long then."""
        self.sizes([
            (1, 4_097, "refused 6 full"),
            (1, 8_193, "refused 5 toolong"),
            (1, 4_096, "taken 1 1"),
        ], "--hops=1", "--peers=1", "--bytes=4096", "--payload=8192")
