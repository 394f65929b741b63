"""Options of `sim` that reach the machine, and when a line is answered."""
from program import SECONDS, Rows, bad_option

# Options whose values are out of their limits, and these.
OUT_OF_LIMITS = [
    ("--hops=65537", 1, 64),
    ("--hops=0", 1, 64),
    ("--items=16385", 1, 16_384),
    ("--target=100001", 1, 100_000),
    ("--window=65", 1, 64),
    ("--payload=0", 1, 8_192),
    ("--payload=8193", 1, 8_192),
]


class Options(Rows):
    def test_an_empty_input_has_an_empty_output(self):
        self.expect("sim")

    def test_options_reach_the_machine(self):
        lines = "take 1 1 1 0 41\ntake 1 2 1 0 41\n"
        self.expect("sim", "--items", "1", input=lines, output="taken 1 1\nrefused 6 full\n")

    def test_the_longest_payload_reaches_the_machine(self):
        lines = "take 1 1 1 0 4142\ntake 1 2 1 0 414243\n"
        self.expect("sim", "--payload", "2", input=lines, output="taken 1 1\nrefused 5 toolong\n")

    def test_the_last_hop_is_the_machine_s(self):
        lines = "take 64 1 64 0 41\ntake 1 1 65 0 41\n"
        self.expect("sim", "--hops=64", "--peers=64", input=lines, output="taken 64 1\nrefused 2 nohop\n")

    def test_options_out_of_limits_are_refused(self):
        for option, least, most in OUT_OF_LIMITS:
            with self.subTest(option):
                self.expect("sim", option, input="done 1 0\n", errors=bad_option(option, least, most), status=1)


class Typist(Rows):
    def test_each_line_is_answered_before_the_next(self):
        """Somebody types a line once the one before it was answered, three in all."""
        run = self.start("sim")
        for _line in range(3):
            run.stdin.write(b"done 1 0\n")
            self.assertEqual(self.answer(run).count(b"\n"), 1)
        run.stdin.close()
        self.assertEqual((run.stdout.read(), run.wait(SECONDS)), (b"", 0))
