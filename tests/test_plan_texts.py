"""What `rly plan` says of plans, at moments before, in, between and after their contacts (`docs/COMMANDS.md`, "rly plan")."""
import os

from plans import FOLDERS, WHOLE, changed, neighbours
from program import KEY, Rows

# Moments, and their dates as `date -u` and Python's `datetime` have them.
DATES = [
    (0, "1970-01-01T00:00:00Z"),
    (1, "1970-01-01T00:00:00.000001Z"),
    (946_684_799_999_999, "1999-12-31T23:59:59.999999Z"),
    (951_827_400_000_000, "2000-02-29T12:30:00Z"),
    (1_709_251_199_250_000, "2024-02-29T23:59:59.25Z"),
    (1_709_251_200_000_000, "2024-03-01T00:00:00Z"),
    (1_795_581_497_000_000, "2026-11-25T04:38:17Z"),
    (4_107_542_399_000_000, "2100-02-28T23:59:59Z"),
    (4_107_542_400_000_000, "2100-03-01T00:00:00Z"),
    (4_503_599_627_370_495, "2112-09-17T23:53:47.370495Z"),
]

# What the whole plan says before and after the state of its hop.
FRONT = """station 7
peer 1 station 3 listen 127.0.0.1:4001 remote 127.0.0.1:4002
hop 1 station 9 listen 127.0.0.1:4003 remote 127.0.0.1:4004
hop 1 resend 160 contacts 2 open 150
hop 1 contact """
BACK = "route 12 hop 1\n"

# A moment, its line, and the state of the hop: contacts from 100 to 200 and from 300 to 350.
STATES = [
    (0, "at 1970-01-01T00:00:00Z 0\n", "closed until 1970-01-01T00:00:00.0001Z 100\n"),
    (99, "at 1970-01-01T00:00:00.000099Z 99\n", "closed until 1970-01-01T00:00:00.0001Z 100\n"),
    (100, "at 1970-01-01T00:00:00.0001Z 100\n", "open until 1970-01-01T00:00:00.0002Z 200\n"),
    (199, "at 1970-01-01T00:00:00.000199Z 199\n", "open until 1970-01-01T00:00:00.0002Z 200\n"),
    (200, "at 1970-01-01T00:00:00.0002Z 200\n", "closed until 1970-01-01T00:00:00.0003Z 300\n"),
    (349, "at 1970-01-01T00:00:00.000349Z 349\n", "open until 1970-01-01T00:00:00.00035Z 350\n"),
    (350, "at 1970-01-01T00:00:00.00035Z 350\n", "closed\n"),
    (4_503_599_627_370_495, "at 2112-09-17T23:53:47.370495Z 4503599627370495\n", "closed\n"),
]

# Two peers and three hops: keys, no contact, contacts that touch, and the longest. FOLDER stands for the folder of the plan.
SEVERAL = """station = 65_535
peer = [
  { id = 1, station = 3, listen = '127.0.0.1:1', remote = '127.0.0.1:2' },
  { id = 2, station = 4, listen = '[::1]:3', remote = '[::1]:4', key = 'keys/four' },
]
hop = [
  { id = 1, station = 9, listen = '', remote = '', contacts = [] },
  { id = 2, station = 10, listen = 'a', remote = 'b', contacts = [[10, 20], [20, 30], [30, 31], [40, 41]], key = 'FOLDER/k' },
  { id = 3, station = 11, listen = 'c', remote = 'd', resend = 10, rate = 1_200, contacts = [[0, 4_503_599_627_370_495]] },
]
route = [{ destination = 12, hop = 3 }, { destination = "rest", hop = 2 }, { destination = 5, hop = 1 }]
"""
TOLD = """at 1970-01-01T00:00:00.000015Z 15
station 65535
peer 1 station 3 listen 127.0.0.1:1 remote 127.0.0.1:2
peer 2 station 4 listen [::1]:3 remote [::1]:4 key keys/four
hop 1 station 9 listen  remote \n\
hop 1 resend 160 contacts 0 open 0
hop 1 contact closed
hop 2 station 10 listen a remote b key FOLDER/k
hop 2 resend 160 contacts 4 open 22
hop 2 contact open until 1970-01-01T00:00:00.000031Z 31
hop 3 station 11 listen c remote d
hop 3 resend 10 rate 1200 contacts 1 open 4503599627370495
hop 3 contact open until 2112-09-17T23:53:47.370495Z 4503599627370495
route 12 hop 3
route rest hop 2
route 5 hop 1
"""

# A hop of that plan, a moment, and when its link changes next.
CHANGES = [
    (1, 0, None),
    (2, 0, 10),
    (2, 9, 10),
    (2, 10, 31),
    (2, 30, 31),
    (2, 31, 40),
    (2, 40, 41),
    (2, 41, None),
    (3, 0, 4_503_599_627_370_495),
]

# A peer and a hop with keys, and a peer and a hop without.
KEYS = """station = 7
peer = [
  { id = 1, station = 3, listen = '', remote = '', key = 'three.key' },
  { id = 2, station = 4, listen = '', remote = '' },
]
hop = [
  { id = 1, station = 9, listen = '', remote = '', contacts = [] },
  { id = 2, station = 10, key = 'FOLDER/ten.key', listen = '', remote = '', contacts = [] },
]
"""

# Three hops, of which the second doesn't say its `resend`.
RESENDS = """station = 7
peer = [{ id = 1, station = 3, listen = '', remote = '' }]
hop = [
  { id = 1, station = 9, listen = '', remote = '', resend = 10, contacts = [] },
  { id = 2, station = 10, listen = '', remote = '', contacts = [] },
  { id = 3, station = 11, listen = '', remote = '', contacts = [], resend = 3_600_000 },
]
"""

# Three hops, of which the second has no `rate`.
RATES = """station = 7
peer = [{ id = 1, station = 3, listen = '', remote = '' }]
hop = [
  { id = 1, station = 9, listen = '', remote = '', rate = 1, contacts = [] },
  { id = 2, station = 10, listen = '', remote = '', contacts = [] },
  { id = 3, station = 11, listen = '', remote = '', contacts = [], rate = 1_000_000_000 },
]
"""


# Four hops, of which the second has no `lead`, and the fourth one of no time.
LEADS = """station = 7
peer = [{ id = 1, station = 3, listen = '', remote = '' }]
hop = [
  { id = 1, station = 9, listen = '', remote = '', lead = 1, contacts = [] },
  { id = 2, station = 10, listen = '', remote = '', contacts = [] },
  { id = 3, station = 11, listen = '', remote = '', contacts = [], lead = 86_400, rate = 5 },
  { id = 4, station = 12, listen = '', remote = '', contacts = [], lead = 0 },
]
"""

# What the plan of folders says while its hop is open.
FOLDERS_TOLD = """at 1970-01-01T00:00:00.00015Z 150
station 7
peer 1 station 3 folder in destination 12 limit 60000
hop 1 station 9 folder out
hop 1 resend 160 lead 30 most 100 contacts 2 open 150
hop 1 contact open until 1970-01-01T00:00:00.0002Z 200
route 12 hop 1
"""


class PlanTexts(Rows):
    def here(self, text):
        """A text with the folder of this test in place of its word."""
        return text.replace("FOLDER", self.folder)

    def expect_told(self, text, moment, told):
        self.assertEqual(self.told(text, moment), told)

    def told(self, text, moment):
        """What is told of a plan, beside its warnings."""
        run = self.rly("plan", self.write("plan.toml", text), "--at", str(moment))
        self.assertEqual(run.returncode, 0, run.stderr[:1000])
        for line in run.stderr.splitlines():
            self.assertTrue(line.startswith(b"rly: plan: "), line)
        return run.stdout.decode()

    def lines_with(self, word, text, moment=0):
        """The lines in which this word is the third."""
        return [line for line in self.told(text, moment).splitlines() if line.split()[2:3] == [word]]

    def write_several(self):
        """Writes the keys of the plan of several, and answers its text."""
        os.mkdir(self.path("keys"))
        self.write("keys/four", KEY)
        self.write("k", KEY)
        return self.here(SEVERAL)

    def test_moments_have_dates(self):
        for moment, date in DATES:
            with self.subTest(moment=moment):
                self.assertTrue(self.told(WHOLE, moment).startswith(f"at {date} {moment}\n"))

    def test_a_plan_is_told_at_a_moment(self):
        for moment, line, state in STATES:
            with self.subTest(moment=moment):
                self.expect_told(WHOLE, moment, f"{line}{FRONT}{state}{BACK}")

    def test_a_link_is_open_in_its_contacts(self):
        for moment, is_open in [(100, True), (199, True), (200, False), (299, False), (300, True), (350, False)]:
            with self.subTest(moment=moment):
                [line] = self.lines_with("contact", WHOLE, moment)
                self.assertEqual(line.split()[3], "open" if is_open else "closed")

    def test_each_table_has_its_lines(self):
        self.expect_told(self.write_several(), 15, self.here(TOLD))

    def test_links_change_where_they_open_or_close(self):
        text = self.write_several()
        for hop, moment, change in CHANGES:
            with self.subTest(hop=hop, moment=moment):
                words = self.lines_with("contact", text, moment)[hop - 1].split()
                self.assertEqual(int(words[-1]) if "until" in words else None, change)

    def test_a_link_is_open_for_so_long_in_all(self):
        lines = self.lines_with("resend", self.write_several())
        self.assertEqual([int(line.split()[-1]) for line in lines], [0, 22, 4_503_599_627_370_495])

    def test_a_neighbour_has_its_key_file(self):
        self.write("three.key", KEY)
        self.write("ten.key", KEY)
        self.assertEqual(self.lines_with("station", self.here(KEYS)), [
            "peer 1 station 3 listen  remote  key three.key",
            "peer 2 station 4 listen  remote ",
            "hop 1 station 9 listen  remote ",
            self.here("hop 2 station 10 listen  remote  key FOLDER/ten.key"),
        ])

    def test_a_folder_stands_in_place_of_the_addresses(self):
        """Nothing is asked of the folder. Without `most` it is full at 1,024 files."""
        self.expect_told(FOLDERS, 150, FOLDERS_TOLD)
        text = changed("most = 100\n", "", changed("destination = 12\nlimit = 60000\n", "", FOLDERS))
        self.assertEqual(self.lines_with("station", text), ["peer 1 station 3 folder in", "hop 1 station 9 folder out"])
        self.assertEqual(self.lines_with("resend", text), ["hop 1 resend 160 lead 30 most 1024 contacts 2 open 150"])

    def test_each_hop_has_its_resend(self):
        self.assertEqual(self.lines_with("resend", RESENDS), [
            "hop 1 resend 10 contacts 0 open 0",
            "hop 2 resend 160 contacts 0 open 0",
            "hop 3 resend 3600000 contacts 0 open 0",
        ])

    def test_each_hop_has_its_rate(self):
        self.assertEqual(self.lines_with("resend", RATES), [
            "hop 1 resend 160 rate 1 contacts 0 open 0",
            "hop 2 resend 160 contacts 0 open 0",
            "hop 3 resend 160 rate 1000000000 contacts 0 open 0",
        ])

    def test_each_hop_has_its_lead(self):
        self.assertEqual(self.lines_with("resend", LEADS), [
            "hop 1 resend 160 lead 1 contacts 0 open 0",
            "hop 2 resend 160 contacts 0 open 0",
            "hop 3 resend 160 rate 5 lead 86400 contacts 0 open 0",
            "hop 4 resend 160 contacts 0 open 0",
        ])

    def test_the_greatest_plan_is_told(self):
        """It has 64 peers, 64 hops with a contact each, and a route to each destination from 1 to 20,000. Two lines are at its
        head. Each peer has one, each hop three, and each route one."""
        peers = neighbours(64)
        hops = neighbours(64, ", contacts = [[0, 10]]")
        routes = "".join(f"{{ destination = {destination}, hop = 64 }}," for destination in range(1, 20_001))
        told = self.told(f"station = 7\npeer = [{peers}]\nhop = [{hops}]\nroute = [{routes}]\n", 5)
        self.assertEqual(told.count("\n"), 2 + 64 + 3 * 64 + 20_000)
        self.assertEqual(told[-20:], "\nroute 20000 hop 64\n")

    def test_long_words_are_told_whole(self):
        """Addresses of 5,000 bytes, and the path of a key that is nearly the longest that the system opens."""
        address = "abcde" * 1_000
        key = "./" * 1_900 + "k"
        self.write("k", KEY)
        peer = f"{{ id = 1, station = 3, listen = '{address}', remote = '{address}', key = '{key}' }}"
        hop = "{ id = 1, station = 9, listen = 'c', remote = 'd', contacts = [] }"
        told = self.told(f"station = 7\npeer = [{peer}]\nhop = [{hop}]\n", 0)
        wanted = f"""at 1970-01-01T00:00:00Z 0
station 7
peer 1 station 3 listen {address} remote {address} key {key}
hop 1 station 9 listen c remote d
hop 1 resend 160 contacts 0 open 0
hop 1 contact closed
"""
        # (`assertEqual` would look for minutes for what differs)
        self.assertTrue(told == wanted, told[:200])
