"""Command lines that ask for nothing, and questions for help (`docs/COMMANDS.md`, "Status")."""
import os

from program import NO_DEVICE, Rows, bad_option, plan_of

BAD_WORDS = [
    ([], "no command"),
    (["simulate"], "another command"),
    (["sim", "1"], "a word too many"),
    (["sim", "--lanes=1"], "an unknown option"),
    (["sim", "--hops=x"], "hops of letters"),
    (["sim", "--hops=-1"], "hops below 0"),
    (["sim", "--hops=18446744073709551616"], "too many hops"),
    (["sim", "--hops=1", "--hops=1"], "a repeated option"),
    (["audit"], "no file"),
    (["audit", "spool", "twice"], "a word too many"),
    (["audit", "spool", "--batch=1"], "an unknown option"),
    (["play", "--batch=1"], "no file"),
    (["play", "spool", "twice"], "a word too many"),
    (["play", "spool", "--hops=1"], "a device has its own"),
    (["play", "spool", "--batch=0"], "too small a batch"),
    (["play", "spool", "--batch=65"], "too great a batch"),
    (["play", "spool", "--batch=-1"], "a batch below 0"),
    (["play", "spool", "--batch=x"], "a batch of letters"),
    (["play", "spool", "--batch="], "an empty batch"),
    (["format"], "no file"),
    (["format", "spool", "--length=x"], "a length of letters"),
    (["format", "spool", "--segments=-1"], "segments below 0"),
    (["format", "spool", "--force=1"], "a flag with a number"),
    (["format", "spool", "--force=true"], "a flag with a word"),
    (["format", "spool", "--forced"], "another option"),
    (["format", "spool", "-f"], "a short option"),
    (["play", "spool", "--batch=1", "--batch=1"], "a repeated option"),
]

BAD_PAYLOADS = [
    (["sim", "--payload=x"], "letters"),
    (["sim", "--payload=-1"], "below 0"),
    (["sim", "--payload="], "empty"),
    (["sim", "--payload=18446744073709551616"], "too great"),
    (["format", "spool", "--payload=x"], "letters"),
    (["format", "spool", "--payload=-1"], "below 0"),
    (["format", "spool", "--payload="], "empty"),
    (["format", "spool", "--payload=18446744073709551616"], "too great"),
    (["sim", "--payload=1", "--payload=1"], "a repeated option"),
    (["format", "spool", "--payload=1", "--payload=1"], "a repeated option"),
    (["play", "spool", "--payload=1"], "a device has its own"),
]

BAD_SERVES = [
    (["serve"], "no file"),
    (["serve", "spool"], "no plan"),
    (["serve", "spool", "plan.toml", "more"], "a word too many"),
    (["serve", "spool", "plan.toml", "--turns=x"], "turns of letters"),
    (["serve", "spool", "plan.toml", "--turns=-1"], "turns below 0"),
    (["serve", "spool", "plan.toml", "--turns="], "empty turns"),
    (["serve", "spool", "plan.toml", "--turns=18446744073709551616"], "too many turns"),
    (["serve", "spool", "plan.toml", "--report=x"], "a report of letters"),
    (["serve", "spool", "plan.toml", "--report=-1"], "a report below 0"),
    (["serve", "spool", "plan.toml", "--report=0.5"], "half a report"),
    (["serve", "spool", "plan.toml", "--gather=x"], "a pause of letters"),
    (["serve", "spool", "plan.toml", "--gather=-1"], "a pause below 0"),
    (["serve", "spool", "plan.toml", "--gather="], "an empty pause"),
    (["serve", "spool", "plan.toml", "--gather=60001"], "too long a pause"),
    (["serve", "spool", "plan.toml", "--gather=18446744073709551616"], "a pause past 64 bits"),
    (["play", "spool", "--gather=1"], "an option of serve alone"),
    (["serve", "spool", "plan.toml", "--events=1"], "a flag with a number"),
    (["serve", "spool", "plan.toml", "--event"], "another option"),
    (["serve", "--events", "spool", "plan.toml", "--events"], "a repeated flag"),
    (["play", "spool", "--events"], "a flag of serve alone"),
    (["serve", "spool", "plan.toml", "--batch=1"], "an unknown option"),
    (["serve", "--turns=1", "spool", "plan.toml", "--turns=1"], "a repeated option"),
    (["serve", "--gather=1", "spool", "plan.toml", "--gather=1"], "a repeated option"),
]

BAD_KEYS = [
    (["key", "hop.key"], "a file"),
    (["key", "--turns=1"], "an unknown option"),
    (["keys"], "another word"),
]

BAD_PLANS = [
    (["plan"], "no plan"),
    (["plan", "plan.toml", "more"], "a word too many"),
    (["plan", "plan.toml", "--at=x"], "letters"),
    (["plan", "plan.toml", "--at=-1"], "below 0"),
    (["plan", "plan.toml", "--at="], "empty"),
    (["plan", "plan.toml", "--at=4503599627370496"], "too great"),
    (["plan", "plan.toml", "--at=2026-11-25T04:38:17Z"], "a date"),
    (["plan", "plan.toml", "--turns=1"], "an unknown option"),
    (["plan", "--at=1", "plan.toml", "--at=1"], "a repeated option"),
]

# Questions for the version, and for help.
QUESTIONS = [
    ["--version"],
    ["--help"],
    ["sim", "--help"],
    ["format", "--help"],
    ["play", "--help"],
    ["audit", "--help"],
    ["serve", "--help"],
    ["key", "--help"],
    ["plan", "--help"],
]

# The fields of a device's header behind its version, and the bytes of each (docs/FORMATS.md, "The device").
FIELDS = [
    ("hops", 2), ("peers", 2), ("window", 2), ("segments", 2), ("length", 4), ("items", 4), ("bytes", 4), ("maxpacket", 4),
    ("target", 8), ("interval", 8), ("payload", 2),
]

# What a device has where nothing else is said, but for the length of its segments.
DEFAULTS = {
    "hops": 4, "peers": 4, "window": 8, "segments": 4, "items": 1_024, "bytes": 1_048_576, "maxpacket": 1_500,
    "target": 5_000, "interval": 100_000, "payload": 1_200,
}

# Words of `format` behind its name, options before and after the file, with a blank and with `=`; and what they change of a device.
FORMATS = [
    (["spool"], {}),
    (["--length=1200000", "spool", "--segments", "3", "--window", "64", "--payload=8192"],
        {"length": 1_200_000, "segments": 3, "window": 64, "payload": 8_192}),
    (["--force", "spool", "--items=16"], {"items": 16}),
    (["spool", "--keep-all", "--window=64", "--allocate", "--bytes=4096"],
        {"window": 64, "maxpacket": 65_535, "target": 3_600_000_000, "interval": 3_600_000_000, "bytes": 4_096}),
    (["--hops=64", "--peers", "63", "--maxpacket=0", "--target=1", "spool", "--interval=3600000000"],
        {"hops": 64, "peers": 63, "maxpacket": 0, "target": 1, "interval": 3_600_000_000}),
]

# Options of a spool or a device, and their limits. A target's last one is the interval.
LIMITS = [
    ("hops", 1, 64),
    ("peers", 1, 64),
    ("window", 1, 64),
    ("items", 1, 16_384),
    ("bytes", 1, 16_777_216),
    ("maxpacket", 0, 65_535),
    ("target", 1, 100_000),
    ("interval", 1, 3_600_000_000),
    ("payload", 1, 8_192),
    ("segments", 2, 256),
]
LAST = 2**64 - 1

# Words that are right, on files that aren't there.
GOOD_WORDS = [
    ["play", "--batch", "64", "spool"],
    ["play", "--batch=1", "spool"],
    ["audit", "--copy", "spool"],
    ["audit", "spool", "--made"],
    ["serve", "--turns", "20", "--report=15", "spool", "--gather", "60000", "--events", "--renumber", "plan.toml"],
    ["serve", "spool", "plan.toml", "--turns=0", "--report=0", "--gather=0"],
    ["serve", "spool", "plan.toml", f"--turns={LAST}", f"--report={LAST}"],
    ["plan", "plan.toml", "--was", "old.toml", "--device=spool", "--at", "4503599627370495"],
    ["put", "--destination=65535", "nowhere", "--lines", "--wait", "7", "--limit=1099511627"],
    ["put", "nowhere", "--destination=1", f"--wait={LAST}", "--limit=1"],
    ["get", "--raw", "nowhere", "--follow", "--count=9"],
    ["get", "nowhere", f"--count={LAST}", "--lines"],
]


class CommandLines(Rows):
    def expect_bad(self, rows):
        """Each row is a bad command line: it says so on standard error, and makes no file."""
        for words, why in rows:
            with self.subTest(words=words, why=why):
                run = self.rly(*words)
                self.assertEqual((run.returncode, run.stdout), (2, b""))
                self.assertNotEqual(run.stderr, b"")
                self.assertEqual(os.listdir(self.folder), [])

    def test_bad_words_are_refused(self):
        self.expect_bad(BAD_WORDS)

    def test_a_bad_payload_is_refused(self):
        self.expect_bad(BAD_PAYLOADS)

    def test_bad_words_behind_serve_are_refused(self):
        self.expect_bad(BAD_SERVES)

    def test_words_behind_key_are_refused(self):
        self.expect_bad(BAD_KEYS)

    def test_bad_words_behind_plan_are_refused(self):
        self.expect_bad(BAD_PLANS)

    def test_what_is_given_is_made(self):
        """A device has what its options say, and the defaults for the rest."""
        for words, changes in FORMATS:
            with self.subTest(words):
                self.write("spool", b"")
                run = self.rly("format", *words)
                self.assertEqual((run.returncode, run.stderr), (0, b""))
                header, place, found = self.read("spool"), 11, {}
                for name, size in FIELDS:
                    found[name] = int.from_bytes(header[place : place + size], "big")
                    place += size
                wanted = {**DEFAULTS, "length": found["length"], **changes}
                self.assertEqual(found, wanted)
                self.assertEqual(len(header), 64 + found["segments"] * found["length"])

    def test_numbers_are_read_as_they_are(self):
        """0 and the last number of 64 bits are told as what is out of the limits, and not as bad words."""
        for name, least, most in LIMITS:
            for number in (0, LAST):
                for words in (["format", "spool"], ["sim"]) if name != "segments" else (["format", "spool"],):
                    option = f"--{name}={number}"
                    with self.subTest(words=words, option=option):
                        bad = not least <= number <= most
                        errors = bad_option(option, least, most) if bad else b""
                        if bad:
                            self.expect(*words, option, errors=errors, status=1)
                            self.assertEqual(os.listdir(self.folder), [])
        self.expect("sim", "--maxpacket=0", input="show 1\n", output="hop 1 taken 0 queued 0 flight 0 dropped 0 released 0 first 0 \
next 0 count 0 last 0 dropping no moment 0\n")

    def test_good_words_are_not_refused(self):
        """The file or the folder is looked for, or the plan's keys, peers and hops are."""
        self.write("plan.toml", plan_of(1, 1, "127.0.0.1:4049", "127.0.0.1:4050"))
        self.write("old.toml", plan_of(1, 1, "127.0.0.1:4049", "127.0.0.1:4050"))
        for words in GOOD_WORDS:
            with self.subTest(words=words):
                run = self.rly(*words)
                missing = "spool" if "spool" in words or "--device=spool" in words else "nowhere"
                self.assertEqual(run.returncode, 1)
                self.assertIn(f"{missing}: No such file or directory (os error 2)", run.stderr.decode())

    def test_paths_are_read_as_they_are(self):
        """A path may have any characters and be long, or be `-`."""
        for path in ("Spule für Müller 1", "-"):
            with self.subTest(path):
                self.make_small(path)
                self.expect("play", path, input="take 1 1 1 0 41\n", output="taken 1 1\n")
                self.expect("serve", "spool", path, errors=self.no_plan(path), status=1)
        long = "a" * 5_000
        told = "File name too long (os error 36)"
        self.expect("play", long, errors=f"refused 23 device\nrly: device: {long}: {told}\n", status=1)
        self.expect("serve", "spool", long, errors=f"rly: plan failed\nrly: plan: {long}: {told}\n", status=1)
        self.write("plan.toml", plan_of(1, 1, "127.0.0.1:4049", "127.0.0.1:4050"))
        self.expect("serve", "device", "plan.toml", errors=NO_DEVICE, status=1)

    @staticmethod
    def no_plan(path):
        """What is told where a device stands in the place of the plan."""
        return f"rly: plan failed\nrly: plan: {path}: a device, not a plan; `rly serve FILE PLAN` has the device first\n"

    def test_help_and_the_version_are_questions(self):
        for words in QUESTIONS:
            with self.subTest(words=words):
                run = self.rly(*words)
                self.assertEqual((run.returncode, run.stderr), (0, b""))
                self.assertNotEqual(run.stdout, b"")

    def test_the_version_is_told(self):
        self.expect("--version", output="rly 0.1.0\n")

    def test_help_is_handed_on(self):
        """Help that isn't shown has status 1, and so has the version."""
        self.expect_stuck("sim", "--help")
        self.expect_stuck("--version")
