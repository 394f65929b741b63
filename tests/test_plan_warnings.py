"""What `rly plan` warns of on standard error (`docs/COMMANDS.md`, "rly plan")."""
from plans import WHOLE, changed
from program import Rows

# A plan without a warning: its contact ends in 2112.
PLAN = WHOLE.replace("resend = 160\n", "").replace("[[100, 200], [300, 350]]", "[[0, 4503599627370495]]")

# The year 2000 and a second of 2027, in microseconds.
YEAR_2000 = 946_684_800_000_000
NOW = 1_800_000_000_000_000

OWN = "this station's own number; write the neighbour's"
NO_PORT = "no port, or port 0; write ADDRESS:PORT"
FAMILIES = "IPv4 beside IPv6; write listen and remote in one of them"
LONG_AGO = "all end before the year 2000; write microseconds since 1970, not seconds"
PAST = "all are past; write later ones, or nothing goes out"
BACK = '"rest" leads back here: what this station gives without a route is refused (2); lead "rest" elsewhere'
CONTACTS = "[[0, 4503599627370495]]"

# What is changed, what it is changed to, and the warnings.
CHANGES = [
    ("station = 3", "station = 7", [f"peer[1].station: {OWN}"]),
    ("station = 9", "station = 7", [f"hop[1].station: {OWN}"]),
    ("station = 9", "station = 3", []),
    ("127.0.0.1:4001", "127.0.0.1", [f"peer[1].listen: {NO_PORT}"]),
    ("127.0.0.1:4001", "127.0.0.1:", [f"peer[1].listen: {NO_PORT}"]),
    ("127.0.0.1:4001", "127.0.0.1:0", [f"peer[1].listen: {NO_PORT}"]),
    ("127.0.0.1:4001", "127.0.0.1:000", [f"peer[1].listen: {NO_PORT}"]),
    ("127.0.0.1:4001", "127.0.0.1:4x", [f"peer[1].listen: {NO_PORT}"]),
    ("127.0.0.1:4001", "127.0.0.1:10", []),
    ("127.0.0.1:4001", "", [f"peer[1].listen: {NO_PORT}"]),
    ("127.0.0.1:4003", "[::1]", [f"hop[1].listen: {NO_PORT}", f"hop[1].remote: {FAMILIES}"]),
    ("127.0.0.1:4003", "[::1]:4003", [f"hop[1].remote: {FAMILIES}"]),
    ("127.0.0.1:4004", "[::1]:4003", [f"hop[1].remote: {FAMILIES}"]),
    ("127.0.0.1:4004", "localhost:4003", []),
    ("127.0.0.1:4003", "127.0.0.1:4001", ["hop[1].listen: the same as peer[1].listen; give each link a port of its own"]),
    (CONTACTS, f"[[0, {YEAR_2000}]]", [f"hop[1].contacts: {LONG_AGO}"]),
    (CONTACTS, f"[[0, {YEAR_2000 + 1}]]", [f"hop[1].contacts: {PAST}"]),
    (CONTACTS, "[[1800000000, 1800000060]]", [f"hop[1].contacts: {LONG_AGO}"]),
    (CONTACTS, f"[[{NOW - 2}, {NOW - 1}], [{NOW - 1}, {NOW}]]", [f"hop[1].contacts: {PAST}"]),
    (CONTACTS, f"[[{NOW - 2}, {NOW - 1}], [{NOW - 1}, {NOW + 1}]]", []),
    (CONTACTS, "[]", []),
    ("destination = 12", 'destination = "rest"', []),
]

# A plan whose rest leads to a peer's station, and three links that listen at one address, one of them a folder's neighbour.
SEVERAL = """station = 7
peer = [
  { id = 1, station = 3, listen = '0.0.0.0:1', remote = '10.0.0.3:1' },
  { id = 2, station = 9, listen = '0.0.0.0:1', remote = '10.0.0.9:1' },
  { id = 3, station = 4, folder = 'in' },
]
hop = [
  { id = 1, station = 9, listen = '0.0.0.0:2', remote = '10.0.0.9:2', contacts = [] },
  { id = 2, station = 5, listen = '0.0.0.0:1', remote = '10.0.0.5:2', contacts = [] },
]
route = [{ destination = 12, hop = 2 }, { destination = 'rest', hop = 1 }]
"""
SEVERAL_WARNED = [
    f"peer[2].station: {BACK}",
    "peer[2].listen: the same as peer[1].listen; give each link a port of its own",
    "hop[2].listen: the same as peer[2].listen; give each link a port of its own",
]


class Warnings(Rows):
    def expect_warned(self, text, warned):
        """A plan is printed, and warned of in these lines."""
        run = self.rly("plan", self.write("plan.toml", text), "--at", str(NOW))
        self.assertEqual(run.returncode, 0)
        self.assertTrue(run.stdout.startswith(b"at 2027-01-15T08:00:00Z "), run.stdout)
        self.assertEqual(run.stderr.decode(), "".join(f"rly: plan: {line}\n" for line in warned))

    def test_a_plan_without_a_mistake_has_no_warning(self):
        self.expect_warned(PLAN, [])

    def test_each_mistake_is_warned_of_where_it_is(self):
        for old, new, warned in CHANGES:
            with self.subTest(old=old, new=new):
                self.expect_warned(changed(old, new, PLAN), warned)

    def test_warnings_come_in_the_order_of_the_plan(self):
        self.expect_warned(SEVERAL, SEVERAL_WARNED)
