"""`rly sim` and `rly play` on inputs and outputs that fail, and when their replies are handed on (`docs/COMMANDS.md`)."""
import os
import resource
import socket
import subprocess
import tty

from program import RLY, SECONDS, Rows

OPTIONS = ["--hops=1", "--peers=1", "--items=16", "--bytes=4096", "--segments=2"]

# Two lines, of which the first alone is whole, and the reply to it.
CUT = b"take 1 1 1 0 41\ndone 1"
FIRST = b"taken 1 1\n"

# Seven lines, the last of them no command.
SEVEN = b"take 1 1 1 0 41\ntake 1 2 1 0 42\npick 1 0\nwindow 1\nfetch 1 1\ndone 1 1\nno\n"

SEVEN_REPLIES = b"taken 1 1\ntaken 1 2\npicked 1 1 1\nwindow 1 1 2\nbytes 1 1 41\nreleased 1 1\nrefused 16 line\n"

# Commands, the lines that somebody types at once, and how many replies come before the next ones are typed.
TYPED = [
    (["sim"], [b"take 1 1 1 0 41\n", b"pick 1 0\n", SEVEN], [1, 1, 7]),
    (["play", "device"], [b"take 1 1 1 0 41\n", b"no\n", b"pick 1 0\n"], [1, 1, 1]),
    (["play", "device", "--batch=7"], [SEVEN, SEVEN], [7, 7]),
]

# Three rounds of two lines each, of which the last one has a query too.
THREE_ROUNDS = b"take 1 1 1 0 41\nno\ntake 1 2 1 0 42\nno\nno\nshow 1\n"
# The replies where the second round's first sync fails.
UNSURE_ROUND = b"""taken 1 1
refused 16 line
refused 12 unsure
refused 16 line
refused 16 line
refused 11 broken
"""
# `play` opens a device by two syncs, and each round that writes has two writes with a sync each.
OPENING, ROUND = 2, 4


class OnDevice(Rows):
    def setUp(self):
        super().setUp()
        self.expect("format", "device", *OPTIONS, output="formatted 165880\n")


class Streams(OnDevice):
    def replies(self, run, count):
        """So many replies of a run, the next ones."""
        text = b""
        while text.count(b"\n") < count:
            text += self.answer(run)
        self.assertEqual(text.count(b"\n"), count, text)

    def test_lines_are_answered_before_a_wait(self):
        """What was typed is answered before the next lines are waited for: each line, and each round of `play`."""
        for words, typed, counts in TYPED:
            with self.subTest(words):
                run = self.start(*words)
                for lines, count in zip(typed, counts):
                    run.stdin.write(lines)
                    self.replies(run, count)
                run.stdin.close()
                self.assertEqual((run.stdout.read(), run.wait(SECONDS)), (b"", 0))

    def test_an_input_that_fails(self):
        """A terminal that is gone, after a line and a half: the line is answered, and that is told."""
        for words in (["sim"], ["play", "device"]):
            with self.subTest(words):
                near, far = os.openpty()
                tty.setraw(far)
                os.write(far, CUT)
                os.close(far)
                run = subprocess.run([RLY, *words], stdin=near, capture_output=True, timeout=SECONDS, cwd=self.folder)
                os.close(near)
                self.assertEqual((run.returncode, run.stdout, run.stderr), (1, FIRST, b"rly: input failed\n"))

    def test_an_input_that_comes_in_bytes(self):
        """Each byte is read alone, and before it the read is interrupted."""
        for words in (["sim"], ["play", "device"]):
            with self.subTest(words):
                run = self.start(*words, env=self.preload(BYTEWISE=1))
                output, errors = run.communicate(SEVEN, timeout=SECONDS)
                self.assertEqual((run.returncode, output), (0, SEVEN_REPLIES))
                self.assertTrue(errors.startswith(b"rly: line 7: "), errors)

    def test_an_output_that_fails_at_a_byte(self):
        """What was written is a prefix of the replies. A write past the file's limit fails, since its signal is ignored."""
        input, replies = b"take 1 1 1 0 41\ndone 1 0\n", b"taken 1 1\nunchanged 1\n"
        for room in (0, 1, 9, 10, 16, 21):
            with self.subTest(room=room), open(self.path("replies"), "wb") as output:
                limits = (room, resource.RLIM_INFINITY)
                run = subprocess.run(
                    [RLY, "sim"],
                    input=input,
                    stdout=output,
                    stderr=subprocess.PIPE,
                    timeout=SECONDS,
                    restore_signals=False,
                    preexec_fn=lambda: resource.setrlimit(resource.RLIMIT_FSIZE, limits),
                )
                self.assertEqual((run.returncode, run.stderr), (1, b"rly: output failed\n"))
                self.assertEqual(self.read("replies"), replies[:room])

    def test_an_output_that_takes_all_and_hands_on_nothing(self):
        for words in (["sim"], ["play", "device"]):
            with self.subTest(words), open("/dev/full", "wb") as full:
                run = subprocess.run([RLY, *words], input=b"window 1\n", stdout=full, stderr=subprocess.PIPE, timeout=SECONDS, cwd=self.folder)
                self.assertEqual((run.returncode, run.stderr), (1, b"rly: output failed\n"))

    def test_replies_that_grow_much_are_written_in_parts(self):
        """84,000 bytes of replies to an input that is there at once: each write is a packet of its own, of 65,544 bytes at most."""
        with open(self.write("lines", b"done 1 0\n" * 7_000), "rb") as lines:
            near, far = socket.socketpair(socket.AF_UNIX, socket.SOCK_SEQPACKET)
            with near, far, subprocess.Popen([RLY, "sim"], stdin=lines, stdout=far) as run:
                far.close()
                lengths = []
                while part := near.recv(1_000_000):
                    lengths.append(len(part))
                self.assertEqual((run.wait(SECONDS), sum(lengths), max(lengths)), (0, 84_000, 65_544))


class Rounds(OnDevice):
    """Rounds of `play` on a device of which one write or sync fails, or none is to be made."""

    def play(self, call, input, *words):
        """The replies of a run on the device of which the call of this number fails."""
        run = self.start("play", "device", *words, env=self.preload(FAIL_CALL=call))
        return run.communicate(input, timeout=SECONDS)[0]

    def test_lines_that_ask_nothing_make_no_call_of_the_device(self):
        """The first write or sync after the opening would fail: lines that are none, and queries, make none."""
        refused = b"refused 16 line\n"
        self.assertEqual(self.play(OPENING + 1, b"no\n" * 3, "--batch=64"), refused * 3)
        self.assertEqual(self.play(OPENING + 1, b"no\nwindow 1\n", "--batch=2"), refused + b"window 1 1 1\n")
        self.assertEqual(self.play(OPENING + 1, b"take 1 1 1 0 41\n"), b"refused 12 unsure\n")

    def test_a_failed_sync_leaves_the_round_unsure(self):
        """The first round is answered, the second one is unsure, and the journal is broken in the third. The third sync is that
        of the second round's group."""
        self.assertEqual(self.play(OPENING + ROUND + 2, THREE_ROUNDS, "--batch=2"), UNSURE_ROUND)
