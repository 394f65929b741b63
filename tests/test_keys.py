"""`rly key`, and the files of links' keys."""
from program import KEY, SECONDS, Rows, plan_of

# Another key.
OTHER = "f0e1d2c3b4a5968778695a4b3c2d1e0ff0e1d2c3b4a5968778695a4b3c2d1e0f\n"

# Permissions of a file whose key may be used, and those of others, with what others than the owner have of them.
OWNERS = [0o400, 0o600, 0o700]
SHARED = [(0o640, "40"), (0o604, "4"), (0o620, "20"), (0o601, "1"), (0o644, "44")]

# What is told of a file that isn't of a key's form.
FORM = "not one or two lines of 64 hex digits; `rly key` makes one"

# Texts that are no keys; a second line is a whole key.
NO_KEYS = [
    "",
    "\n",
    "00",
    "00\n",
    KEY[:-2] + "\n",
    KEY.strip() + "0\n",
    KEY[:-2] + "g\n",
    KEY.strip() + "\r\n",
    KEY + "\n",
    " " + KEY.strip(),
    KEY + "00\n",
    KEY.strip() + " " + OTHER,
    KEY + OTHER[:-2] + "z\n",
    KEY + OTHER + "\n",
]

# Files that hold no key for a link: their text, their permissions, and what is told of them.
FAULTS = [
    *((text, 0o600, FORM) for text in NO_KEYS),
    (KEY, 0o640, "permissions 40 for group or others; must be 0: chmod 600 {key}"),
    (KEY, 0o604, "permissions 4 for group or others; must be 0: chmod 600 {key}"),
]

# What is told of a device that isn't there.
NOWHERE = "refused 23 device\nrly: device: /nowhere/device: No such file or directory (os error 2); `rly format` makes it\n"

# What is told of a file that isn't there.
NO_FILE = "No such file or directory (os error 2)"


class Keys(Rows):
    def write_plan(self, key):
        """A plan whose hop has a key in this file; its path."""
        return self.write("plan.toml", plan_of(1, 1, "127.0.0.1:4049", "127.0.0.1:4049") + f'key = "{key}"\n')

    def expect_served(self, plan, errors):
        """Checks what is told of a relay whose device isn't there: the keys are looked at before it."""
        self.expect("serve", "/nowhere/device", plan, "--turns=1", errors=errors, status=1)

    def expect_fault(self, plan, key, told):
        self.expect_served(plan, f"rly: key failed\nrly: hop 1: key {key}: {told.format(key=key)}\n")

    def expect_right(self, name, mode):
        """Checks that a relay gets as far as its device with a key of these permissions, whose file its plan calls so."""
        self.write("hop.key", KEY, mode)
        self.expect_served(self.write_plan(name), NOWHERE)

    def test_the_program_writes_new_keys(self):
        """They are keys that a link may have, and each time another one. No input is needed."""
        first = self.rly("key", input="unread")
        second = self.rly("key", input="unread")
        self.assertEqual((first.returncode, first.stderr), (0, b""))
        self.assertRegex(first.stdout, rb"\A[0-9a-f]{64}\n\Z")
        self.assertNotEqual(first.stdout, second.stdout)
        self.write("hop.key", first.stdout)
        self.expect_served(self.write_plan("hop.key"), NOWHERE)

    def test_a_key_is_the_system_s_randomness(self):
        """Its digits are those of the 32 bytes that the system gives, and where it gives none there is no key."""
        for kind, wanted in [
            ("count", (0, KEY, "")),
            ("none", (1, "", "rly: key failed\nrly: randomness: Input/output error (os error 5)\n")),
        ]:
            with self.subTest(kind):
                run = self.start("key", env=self.preload(RANDOM_KEY=kind))
                output, errors = run.communicate(timeout=SECONDS)
                self.assertEqual((run.returncode, output.decode(), errors.decode()), wanted)

    def test_a_relay_needs_its_keys(self):
        """It isn't started where a key's file isn't there, isn't of a key's form, or isn't its owner's alone. What is told names
        the file."""
        key = self.path("hop.key")
        plan = self.write_plan(key)
        self.expect_fault(plan, key, NO_FILE)
        for text, mode, told in FAULTS:
            with self.subTest(text=text, mode=mode):
                self.write("hop.key", text, mode)
                self.expect_fault(plan, key, told)
        self.expect_fault(self.write_plan("/"), "/", "Is a directory (os error 21)")
        self.expect_right(key, 0o600)

    def test_a_key_lies_beside_its_plan(self):
        """A path that isn't absolute begins at the plan's folder."""
        self.expect_fault(self.write_plan("hop.key"), self.path("hop.key"), NO_FILE)
        self.expect_right("hop.key", 0o400)

    def test_a_key_is_its_owners(self):
        """A key is taken only from a file that nobody but its owner can use. Its permissions are looked at before its text."""
        key = self.path("hop.key")
        for mode in OWNERS:
            with self.subTest(mode=oct(mode)):
                self.expect_right(key, mode)
        plan = self.write_plan(key)
        for text in [KEY, "key"]:
            for mode, others in SHARED:
                with self.subTest(text, mode=oct(mode)):
                    self.write("hop.key", text, mode)
                    self.expect_fault(plan, key, f"permissions {others} for group or others; must be 0: chmod 600 {key}")
        self.write("hop.key", "key", 0o600)
        self.expect_fault(plan, key, FORM)
