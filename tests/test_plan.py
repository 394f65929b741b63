"""`rly plan`: a plan in a file as text."""
import os

from program import KEY, Rows

# A hop that is open from 100 to 200 and from 300 to 350, and one that is never open.
PLAN = """station = 7
peer = [{ id = 1, station = 3, listen = '127.0.0.1:4001', remote = '127.0.0.1:4002' }]
hop = [
  { id = 1, station = 9, listen = '127.0.0.1:4003', remote = '127.0.0.1:4004', contacts = [[100, 200], [300, 350]] },
  { id = 2, station = 10, listen = '127.0.0.1:4005', remote = '127.0.0.1:4006', key = 'ten.key', contacts = [] },
]
route = [{ destination = 12, hop = 2 }]
"""

# What is told of it from the second line on, where that of its first link's contact goes on so.
TOLD = """station 7
peer 1 station 3 listen 127.0.0.1:4001 remote 127.0.0.1:4002
hop 1 station 9 listen 127.0.0.1:4003 remote 127.0.0.1:4004
hop 1 resend 160 contacts 2 open 150
hop 1 contact {}
hop 2 station 10 listen 127.0.0.1:4005 remote 127.0.0.1:4006 key ten.key
hop 2 resend 160 contacts 0 open 0
hop 2 contact closed
route 12 hop 2
"""

# What is told while its first link is open, between its contacts, and after the last of them but for the first line.
OPEN = f"at 1970-01-01T00:00:00.00015Z 150\n{TOLD.format('open until 1970-01-01T00:00:00.0002Z 200')}"
CLOSED = f"at 1970-01-01T00:00:00.00025Z 250\n{TOLD.format('closed until 1970-01-01T00:00:00.0003Z 300')}"
PASSED = TOLD.format("closed").encode()

# What standard error says of it: its contacts lie in 1970.
WARNED = "rly: plan: hop[1].contacts: all end before the year 2000; write microseconds since 1970, not seconds\n"

# Plans that are refused, and what is told.
REFUSED = [
    ("station = 7\n", "refused 50 plan\nrly: plan: at peer: missing; write 1 to 64 tables [[peer]]\n"),
    ("color = 7\n", "refused 54 plan\nrly: plan: at the top: unknown key color; write station, peer, hop, route\n"),
    ("station = \n", "refused 50 plan\nrly: plan: at line 1, column 11: not TOML from here on\n"),
    ("", "refused 50 plan\nrly: plan: at station: missing; write 1 to 65535\n"),
]
NO_PLAN = "rly: plan failed\nrly: plan: nowhere.toml: No such file or directory (os error 2)\n"

# Files that hold no key: their text, their permissions, and what is told of them.
NO_KEYS = [
    ("00\n", 0o600, "not one or two lines of 64 hex digits; `rly key` makes one"),
    (KEY, 0o640, "permissions 40 for group or others; must be 0: chmod 600 {key}"),
]

# A plan of 64 peers and 64 hops, each of whose links has a key.
LINK = "id = {0}\nstation = {0}\nlisten = ''\nremote = ''\nkey = 'greatest.key'\n"
PEERS = "".join("[[peer]]\n" + LINK.format(id) for id in range(1, 65))
HOPS = "".join("[[hop]]\n" + LINK.format(id) + "contacts = []\n" for id in range(1, 65))
GREATEST = f"station = 7\n{PEERS}{HOPS}"


class Plans(Rows):
    def expect_told(self, plan):
        """Checks what is told of a plan at moments, and now, which is after its contacts."""
        self.expect("plan", plan, "--at", "150", output=OPEN, errors=WARNED)
        self.expect("plan", plan, "--at", "250", output=CLOSED, errors=WARNED)
        now = self.rly("plan", plan)
        self.assertEqual((now.returncode, now.stderr.decode()), (0, WARNED))
        first, rest = now.stdout.split(b"\n", 1)
        self.assertTrue(first.startswith(b"at 20"), first)
        self.assertEqual(rest, PASSED)

    def test_a_plan_is_told(self):
        """Keys of links are read from beside the plan, and aren't told. The plan's path may have 3,900 bytes."""
        self.write("ten.key", KEY)
        self.expect_told(self.write("plan.toml", PLAN))
        self.expect_told(self.long_path("plan.toml"))

    def expect_no_key(self, plan, told):
        """Checks that nothing is put out of a plan whose hop 2 has no key in its file, and what is told."""
        errors = f"rly: key failed\nrly: hop 2: key {self.path('ten.key')}: {told.format(key=self.path('ten.key'))}\n"
        self.expect("plan", plan, "--at=150", errors=errors, status=1)

    def test_a_plan_needs_its_keys(self):
        """A plan whose keys `serve` would refuse is refused."""
        plan = self.write("plan.toml", PLAN)
        self.expect_no_key(plan, "No such file or directory (os error 2)")
        for text, mode, told in NO_KEYS:
            with self.subTest(told):
                self.write("ten.key", text, mode)
                self.expect_no_key(plan, told)

    def test_a_plan_that_is_none_is_refused(self):
        """Nothing is put out of a plan that is refused, or isn't there."""
        for text, errors in REFUSED:
            with self.subTest(text):
                self.write("plan.toml", text)
                self.expect("plan", "plan.toml", errors=errors, status=1)
        self.expect("plan", "nowhere.toml", errors=NO_PLAN, status=1)

    def test_a_pipe_is_no_plan_and_no_key(self):
        """A plan or a key that is a pipe is refused. Its opening would wait for a writer."""
        os.mkfifo(self.path("pipe"), 0o600)
        self.expect("plan", "pipe", errors="rly: plan failed\nrly: plan: pipe: not a regular file\n", status=1)
        plan = self.write("plan.toml", PLAN)
        os.mkfifo(self.path("ten.key"), 0o600)
        self.expect_no_key(plan, "not a regular file")

    def test_the_greatest_plan_is_told(self):
        """Each of 128 links of a plan may have a key, and all are told: the moment, the station, 64 peers, and three lines for
        each of 64 hops."""
        self.write("greatest.key", KEY)
        told = self.rly("plan", self.write("plan.toml", GREATEST), "--at=0")
        self.assertEqual(told.returncode, 0)
        for line in told.stderr.splitlines():
            self.assertTrue(line.startswith(b"rly: plan: "), line)
        self.assertEqual(told.stdout.count(b"\n"), 258)
        last = b"\nhop 64 resend 160 contacts 0 open 0\nhop 64 contact closed\n"
        self.assertTrue(told.stdout.endswith(last), told.stdout[-200:])
