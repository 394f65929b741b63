"""Texts that are no plan: the refusal of each, where its first fault is, and what to write there (`docs/FORMATS.md`, "The plan")."""
import re

from plans import FOLDERS, WHOLE, changed, neighbours
from program import KEY, Rows

# All that is said of a text that is no plan.
REFUSED = re.compile(r"refused (5[0-4]) plan\nrly: plan: at ([^:\n]+): ([^\n]+)\n")

# What to write in place of an address, a contact, contacts, and a route's hop.
LISTEN = 'write an address with a port, such as "0.0.0.0:4001"'
REMOTE = 'write an address with a port, such as "10.0.0.3:4001"'
CONTACT = "write [BEGIN, END] in microseconds since 1970, 0 <= BEGIN < END < 4503599627370496"
CONTACTS = "write an array of at most 4096 contacts [BEGIN, END]"
HOP = "write 1 to 1, the id of a hop"

# The keys of a peer and of a hop.
PEER_KEYS = "write id, station, listen, remote, key"
HOP_KEYS = f"{PEER_KEYS}, resend, rate, lead, contacts"


class Texts(Rows):
    """Tests that give `rly plan` a text."""

    def run_plan(self, text):
        return self.rly("plan", self.write("plan.toml", text), "--at=0")

    def fault(self, text):
        """The refusal's number, where the fault is, and what is said of it: 0 and nothing for a plan."""
        run = self.run_plan(text)
        if run.returncode == 0:
            self.assertTrue(run.stdout.startswith(b"at 1970-01-01T00:00:00Z 0\n"))
            self.assertNotIn(b"refused", run.stderr.replace(b"is refused (2)", b""))
            return 0, "", ""
        refused = REFUSED.fullmatch(run.stderr.decode())
        self.assertIsNotNone(refused, run.stderr[:1000])
        self.assertEqual((run.returncode, run.stdout), (1, b""))
        return int(refused[1]), refused[2], refused[3]

    def expect_number(self, number, text, /, **row):
        with self.subTest(**row):
            self.assertEqual(self.fault(text)[0], number)

    def expect_numbers(self, rows):
        """Each change of the whole plan gets its number."""
        for old, new, number in rows:
            self.expect_number(number, changed(old, new), old=old, new=new)

    def expect_place(self, wanted, text, /, **row):
        """The number and the place in one text, which is empty for a plan."""
        with self.subTest(**row):
            number, place = self.fault(text)[:2]
            self.assertEqual(f"{number} {place}" if number else "", wanted)

    def expect_places(self, rows, text=WHOLE):
        """Each change of the text gets its number and its place."""
        for old, new, wanted in rows:
            self.expect_place(wanted, changed(old, new, text), old=old, new=new)


class Numbers(Texts):
    def test_changes_of_the_whole_plan(self):
        self.expect_numbers([
            ("", "", 0),
            ("[[100, 200], [300, 350]]", "[[100, 200], [50, 60]]", 51),
            ("[[100, 200], [300, 350]]", "[[100, 200], [150, 300]]", 52),
            ("[[100, 200], [300, 350]]", "[[100, 200], [200, 300]]", 0),
            ("[[100, 200], [300, 350]]", "[[200, 200]]", 53),
            ("hop = 1\n", "hop = 2\n", 54),
            ("hop = 1\n", "hop = 65\n", 53),
            ('remote = "127.0.0.1:4002"', "color = 1", 54),
        ])

    def test_what_is_no_plan_is_50(self):
        self.expect_numbers([
            ("station = 7", "station = ", 50),
            ("station = 7", "station = 9223372036854775808", 50),
            ("station = 7", "station = 7\nstation = 7", 50),
            ("station = 7\n", "", 50),
            ("station = 7", 'station = "7"', 50),
            ("station = 7", "station = 7.0", 50),
            ("station = 7", "station = {}", 50),
            ("station = 3\n", "", 50),
            ("station = 9\n", "", 50),
            ("id = 1\n", "", 50),
            ('listen = "127.0.0.1:4001"\n', "", 50),
            ('remote = "127.0.0.1:4004"\n', "", 50),
            ('listen = "127.0.0.1:4003"', "listen = 4003", 50),
            ("station = 3", "station = 3\nkey = 3", 50),
            ("station = 9", "station = 9\nkey = ['a']", 50),
            ("contacts = [[100, 200], [300, 350]]\n", "", 50),
            ("[[100, 200], [300, 350]]", "100", 50),
            ("[300, 350]", "300", 50),
            ("[300, 350]", "[300]", 50),
            ("[300, 350]", "[300, 350, 400]", 50),
            ("[300, 350]", "[300, 350.5]", 50),
            ("destination = 12\n", "", 50),
            ("hop = 1\n", "", 50),
            ("hop = 1\n", "hop = true\n", 50),
        ])
        for text, number in [
            ("", 50),
            ("station = 7\npeer = []\n", 50),
            ("station = 7\nhop = []\n", 50),
            ("station = 7\npeer = 1\nhop = []\n", 50),
            ("station = 7\npeer = [1]\nhop = []\n", 50),
            ("station = 7\npeer = {}\nhop = []\n", 50),
            ("station = 7\npeer = []\nhop = []\nroute = 5\n", 50),
            ("station = 7\npeer = []\nhop = []\nroute = []\n", 53),
        ]:
            self.expect_number(number, text, text=text)

    def test_a_key_that_is_not_known_is_54(self):
        self.expect_numbers([
            ("station = 7", "station = 7\nid = 1", 54),
            ("station = 7", "station = { x = 1 }", 54),
            ("station = 3", "station = 3\ncontacts = []", 54),
            ("station = 9", "station = 9\ncolor = 1", 54),
            ("station = 9", "station = 9\nkey = { file = 'a' }", 54),
            ("hop = 1\n", "hop = 1\nkey = 'a'\n", 54),
            ("station = 7", "station = 7\nkey = 'a'", 54),
            ("hop = 1\n", "hop = 1\nid = 1\n", 54),
            ("[[peer]]", "[peer]", 54),
            ("[[hop]]", "[hop]", 54),
            ("[[route]]", "[route]", 54),
            ("[300, 350]", "{ begin = 300, end = 350 }", 54),
            ("[300, 350]", "[{ x = 1 }, 350]", 54),
            ("destination = 12", "destination = [[{ x = 1 }]]", 54),
            ("[[route]]", "[[peers]]", 54),
        ])

    def test_a_number_out_of_its_range_is_53(self):
        self.expect_numbers([
            ("station = 7", "station = 0", 53),
            ("station = 7", "station = -7", 53),
            ("station = 7", "station = 65536", 53),
            ("station = 7", "station = 65535", 0),
            ("station = 3", "station = 0", 53),
            ("station = 9", "station = 65536", 53),
            ("station = 3", "station = 65535", 0),
            ("station = 9", "station = 65535", 0),
            ("id = 1\n", "id = 2\n", 53),
            ("id = 1\nstation = 9", "id = 0\nstation = 9", 53),
            ("destination = 12", "destination = 0", 53),
            ("destination = 12", "destination = 65536", 53),
            ("destination = 12", "destination = 65535", 0),
            ("hop = 1\n", "hop = 0\n", 53),
            ("[300, 350]", "[300, 300]", 53),
            ("[300, 350]", "[350, 300]", 53),
            ("[100, 200]", "[-1, 200]", 53),
            ("[300, 350]", "[300, 4503599627370496]", 53),
            ("[300, 350]", "[300, 4503599627370495]", 0),
            ("[[100, 200], [300, 350]]", "[]", 0),
        ])

    def test_rate_is_a_whole_number_in_its_range(self):
        self.expect_numbers([
            ("resend = 160", "rate = 1", 0),
            ("resend = 160", "rate = 1000000000", 0),
            ("resend = 160", "resend = 160\nrate = 160", 0),
            ("resend = 160", "rate = 0", 53),
            ("resend = 160", "rate = 1000000001", 53),
            ("resend = 160", "rate = -1", 53),
            ("resend = 160", "rate = 4294967297", 53),
            ("resend = 160", "rate = '160'", 50),
            ("resend = 160", "rate = 160.0", 50),
            ("resend = 160", "rate = { bytes = 160 }", 54),
            ("destination", "rate = 160\ndestination", 54),
            ("station = 3", "station = 3\nrate = 160", 54),
            ("station = 7", "station = 7\nrate = 160", 54),
        ])

    def test_lead_is_a_whole_number_in_its_range(self):
        self.expect_numbers([
            ("resend = 160", "lead = 0", 0),
            ("resend = 160", "lead = 30", 0),
            ("resend = 160", "lead = 86400", 0),
            ("resend = 160", "resend = 160\nrate = 160\nlead = 160", 0),
            ("resend = 160", "lead = 86401", 53),
            ("resend = 160", "lead = -1", 53),
            ("resend = 160", "lead = 4294967297", 53),
            ("resend = 160", "lead = '30'", 50),
            ("resend = 160", "lead = 30.0", 50),
            ("resend = 160", "lead = { seconds = 30 }", 54),
            ("resend = 160", "lead = 30\nlead = 30", 50),
            ("destination", "lead = 30\ndestination", 54),
            ("station = 3", "station = 3\nlead = 30", 54),
            ("station = 7", "station = 7\nlead = 30", 54),
        ])

    def test_resend_is_a_whole_number_in_its_range(self):
        self.expect_numbers([
            ("resend = 160\n", "", 0),
            ("resend = 160", "resend = 10", 0),
            ("resend = 160", "resend = 3600000", 0),
            ("resend = 160", "resend = 9", 53),
            ("resend = 160", "resend = 3600001", 53),
            ("resend = 160", "resend = 0", 53),
            ("resend = 160", "resend = -160", 53),
            ("resend = 160", "resend = 4294967306", 53),
            ("resend = 160", "resend = '160'", 50),
            ("resend = 160", "resend = 160.0", 50),
            ("resend = 160", "resend = [160]", 50),
            ("resend = 160", "resend = { ms = 160 }", 54),
            ("resend = 160", "resend = 160\nresend = 160", 50),
            ("destination", "resend = 160\ndestination", 54),
            ("station = 3", "station = 3\nresend = 160", 54),
            ("station = 7", "station = 7\nresend = 160", 54),
            ("resend = 160\ncontacts", "resend = 9\nroutes", 54),
            ("resend = 160\ncontacts = [[100, 200], [300, 350]]", "resend = 9", 50),
            ("160\ncontacts = [[100, 200], [300, 350]]", "9\ncontacts = [[2, 3], [1, 2]]", 53),
        ])

    def test_the_rest_is_a_destination(self):
        """`"rest"` stands where a number stands. No other text does, and it stands once."""
        self.expect_numbers([
            ("destination = 12\n", 'destination = "rest"\n', 0),
            ("destination = 12\n", "destination = 'rest'\n", 0),
            ("destination = 12\n", 'destination = "Rest"\n', 50),
            ("destination = 12\n", 'destination = "rest "\n', 50),
            ("destination = 12\n", 'destination = ""\n', 50),
            ("destination = 12\n", 'destination = "12"\n', 50),
            ("destination = 12\n", 'destination = ["rest"]\n', 50),
            ("destination = 12\nhop = 1\n", 'destination = "rest"\nhop = 2\n', 54),
            ("destination = 12\nhop = 1\n", 'destination = "rest"\nhop = 65\n', 53),
            ("destination = 12\nhop = 1\n", 'destination = "rest"\n', 50),
            ("station = 3\n", 'station = "rest"\n', 50),
            ("[[route]]\n", '[[route]]\ndestination = "rest"\nhop = 1\n[[route]]\n', 0),
        ])
        twice = '[[route]]\ndestination = "rest"\nhop = 1\n' * 2
        self.expect_places([
            ("[[route]]\n", f"{twice}[[route]]\n", "52 route[1].destination"),
            ("destination = 12\n", 'destination = "other"\n', "50 route[1].destination"),
            ("destination = 12\nhop = 1\n", 'destination = "rest"\nhop = 2\n', "54 route[1].hop"),
        ])

    def test_what_is_there_twice_is_52(self):
        peer = "[[peer]]\nid = 2\nlisten = ''\nremote = ''\nstation = "
        hop = "[[hop]]\nid = 2\nlisten = ''\nremote = ''\ncontacts = []\nstation = "
        route = "[[route]]\nhop = 1\ndestination = "
        for tail, station, number in [(peer, 3, 52), (peer, 9, 0), (hop, 9, 52), (hop, 3, 0), (route, 12, 52), (route, 7, 0)]:
            self.expect_number(number, f"{WHOLE}{tail}{station}\n", tail=tail, station=station)

    def test_counts_are_met_and_not_passed(self):
        """The text of the second plan has more than a million bytes."""
        for peers, hops, each, number in [
            (64, 64, 1, 0),
            (64, 64, 1_300, 0),
            (1, 1, 4_096, 0),
            (65, 1, 1, 53),
            (1, 65, 1, 53),
            (1, 1, 4_097, 53),
        ]:
            contacts = "".join(f"[{id}0, {id}5]," for id in range(1, each + 1))
            hop = neighbours(hops, f", contacts = [{contacts}]")
            text = f"station = 7\npeer = [{neighbours(peers)}]\nhop = [{hop}]\n"
            self.expect_number(number, text, peers=peers, hops=hops, contacts=each)

    def test_many_destinations_may_have_a_route(self):
        routes = "".join(f"[[route]]\ndestination = {destination}\nhop = 1\n" for destination in range(1, 20_001))
        self.expect_number(0, changed("[[route]]\ndestination = 12\nhop = 1\n", "") + routes)

    def test_addresses_have_any_length(self):
        for length in (0, 1, 64, 255, 10_000):
            self.expect_number(0, changed('"127.0.0.1:4003"', f'"{"n" * length}"'), length=length)

    def test_paths_of_keys_have_any_length(self):
        """A plan is judged before its keys are read. An empty path leads to no file, and one of 10,000 bytes is too long for the
        system: the fault is then the key's."""
        for length in (1, 64, 255):
            self.write("n" * length, KEY)
            self.expect_number(0, changed('"127.0.0.1:4003"', f"''\nkey = \"{'n' * length}\""), length=length)
        for length in (0, 10_000):
            with self.subTest(length=length):
                run = self.run_plan(changed('"127.0.0.1:4003"', f"''\nkey = \"{'n' * length}\""))
                front = f"rly: key failed\nrly: hop 1: key {self.path('n' * length)}"
                self.assertEqual((run.returncode, run.stdout), (1, b""))
                self.assertEqual(run.stderr[: len(front)].decode(), front)

    def test_a_plan_has_any_length(self):
        for length in (0, 70_000, 1_100_000):
            self.expect_number(0, f"{WHOLE}# {'n' * length}", length=length)

    def test_the_earlier_pass_wins(self):
        self.expect_numbers([
            ("station = 7\n", "color = 1\n", 54),
            ("station = 7\n[[peer]]\nid = 1", "[[peer]]\nid = 2", 50),
            (
                "contacts = [[100, 200], [300, 350]]\n[[route]]\ndestination = 12",
                "contacts = [[2, 3], [1, 2]]\n[[route]]\ndestination = 0",
                53,
            ),
            ("[[100, 200], [300, 350]]", "[[100, 200], [150, 250], [120, 130]]", 51),
            (
                "contacts = [[100, 200], [300, 350]]\n[[route]]\ndestination = 12\nhop = 1",
                "contacts = [[1, 3], [2, 4]]\n[[route]]\ndestination = 12\nhop = 2",
                52,
            ),
        ])


class Places(Texts):
    def test_a_text_that_toml_refuses_has_a_line_and_a_column(self):
        self.expect_places([
            ("", "", ""),
            ("station = 7", "station = ", "50 line 1, column 11"),
            ("station = 7\n", "station = 7\n\n = 7\n", "50 line 3, column 2"),
            ('"127.0.0.1:4001"', '"\u00e9\u20ac" x', "50 line 5, column 15"),
        ])

    def test_a_key_that_is_not_known_has_its_table(self):
        self.expect_places([
            ("station = 7", "station = 7\ncolor = 1", "54 the top"),
            ("station = 7", "station = { x = 1 }", "54 station"),
            ("[[peer]]", "[peer]", "54 peer"),
            ("station = 3", "station = 3\ncolor = 1", "54 peer[1]"),
            ("station = 3", "station = 3\nresend = 160", "54 peer[1].resend"),
            ("station = 3", "station = 3\nrate = 1", "54 peer[1].rate"),
            ("station = 3", "station = 3\nlead = 1", "54 peer[1].lead"),
            ("[300, 350]", "{ begin = 300, end = 350 }", "54 hop[1].contacts"),
            ("station = 9", "station = 9\nkey = { file = 'a' }", "54 hop[1].key"),
            ("hop = 1\n", "hop = 1\nid = 1\n", "54 route[1].id"),
        ])

    def test_what_is_missing_or_of_another_type_has_its_key(self):
        self.expect_places([
            ("station = 7\n", "", "50 station"),
            ("station = 7", 'station = "7"', "50 station"),
            ("id = 1\n", "", "50 peer[1].id"),
            ("station = 3\n", "", "50 peer[1].station"),
            ('listen = "127.0.0.1:4003"', "listen = 4003", "50 hop[1].listen"),
            ('remote = "127.0.0.1:4004"\n', "", "50 hop[1].remote"),
            ("station = 3", "station = 3\nkey = 3", "50 peer[1].key"),
            ("resend = 160", "resend = '160'", "50 hop[1].resend"),
            ("resend = 160", "rate = '160'", "50 hop[1].rate"),
            ("resend = 160", "lead = '160'", "50 hop[1].lead"),
            ("contacts = [[100, 200], [300, 350]]\n", "", "50 hop[1].contacts"),
            ("[[100, 200], [300, 350]]", "100", "50 hop[1].contacts"),
            ("[300, 350]", "[300]", "50 hop[1].contacts[2]"),
            ("[100, 200]", "[100, 200.5]", "50 hop[1].contacts[1]"),
            ("destination = 12\n", "", "50 route[1].destination"),
            ("hop = 1\n", "", "50 route[1].hop"),
        ])
        for text, wanted in [
            ("", "50 station"),
            ("station = 7\npeer = []\n", "50 hop"),
            ("station = 7\npeer = 1\nhop = []\n", "50 peer"),
            ("station = 7\npeer = [1]\nhop = []\n", "50 peer[1]"),
            ("station = 7\npeer = []\nhop = []\nroute = 5\n", "50 route"),
        ]:
            self.expect_place(wanted, text, text=text)

    def test_a_number_out_of_its_range_has_its_key(self):
        self.expect_places([
            ("station = 7", "station = 0", "53 station"),
            ("id = 1\n", "id = 2\n", "53 peer[1].id"),
            ("station = 3", "station = 65536", "53 peer[1].station"),
            ("id = 1\nstation = 9", "id = 0\nstation = 9", "53 hop[1].id"),
            ("resend = 160", "resend = 9", "53 hop[1].resend"),
            ("resend = 160", "rate = 0", "53 hop[1].rate"),
            ("resend = 160", "lead = 86401", "53 hop[1].lead"),
            ("[300, 350]", "[300, 300]", "53 hop[1].contacts[2]"),
            ("[100, 200]", "[-1, 200]", "53 hop[1].contacts[1]"),
            ("destination = 12", "destination = 0", "53 route[1].destination"),
            ("hop = 1\n", "hop = 65\n", "53 route[1].hop"),
        ])
        self.expect_place("53 peer", "station = 7\npeer = []\nhop = []\n")

    def test_a_folder_has_its_own_keys(self):
        """A table with `folder` has none of the keys of a socket, and each of its own may stand only there."""
        self.expect_places([
            ('folder = "in"\n', 'folder = "in"\nlisten = ""\n', "54 peer[1].listen"),
            ('folder = "in"\n', 'folder = "in"\nremote = ""\n', "54 peer[1].remote"),
            ('folder = "in"\n', 'folder = "in"\nkey = "k"\n', "54 peer[1].key"),
            ('folder = "in"\n', 'folder = "in"\nmost = 5\n', "54 peer[1].most"),
            ('folder = "in"\n', 'folder = "in"\nlead = 5\n', "54 peer[1].lead"),
            ('folder = "in"\n', 'folder = { path = "in" }\n', "54 peer[1].folder"),
            ('folder = "in"\n', "", "54 peer[1].destination"),
            ('folder = "in"\ndestination = 12\n', "", "54 peer[1].limit"),
            ('folder = "in"\ndestination = 12\nlimit = 60000\n', "", "50 peer[1].listen"),
            ('folder = "out"\n', 'folder = "out"\nlisten = ""\n', "54 hop[1].listen"),
            ('folder = "out"\n', 'folder = "out"\nkey = "k"\n', "54 hop[1].key"),
            ('folder = "out"\n', 'folder = "out"\nresend = 160\n', "54 hop[1].resend"),
            ('folder = "out"\n', 'folder = "out"\nrate = 160\n', "54 hop[1].rate"),
            ('folder = "out"\n', 'folder = "out"\ndestination = 12\n', "54 hop[1].destination"),
            ('folder = "out"\n', 'folder = "out"\nlimit = 12\n', "54 hop[1].limit"),
            ('folder = "out"\n', "", "54 hop[1].most"),
        ], FOLDERS)
        self.expect_places([
            ("station = 7", "station = 7\nfolder = 'a'", "54 the top"),
            ("station = 3", "station = 3\nfolder = 'a'", "54 peer[1].listen"),
            ("station = 3", "station = 3\ndestination = 12", "54 peer[1].destination"),
            ("station = 3", "station = 3\nlimit = 12", "54 peer[1].limit"),
            ("station = 9", "station = 9\nfolder = 'a'", "54 hop[1].listen"),
            ("station = 9", "station = 9\nmost = 12", "54 hop[1].most"),
            ("hop = 1\n", "hop = 1\nfolder = 'a'\n", "54 route[1].folder"),
        ])

    def test_the_keys_of_a_folder_have_their_types_and_ranges(self):
        self.expect_places([
            ("", "", ""),
            ("destination = 12\n", "", ""),
            ("limit = 60000\n", "", ""),
            ("most = 100\n", "", ""),
            ('"in"', '""', ""),
            ('"in"', "3", "50 peer[1].folder"),
            ('"out"', "['out']", "50 hop[1].folder"),
            ("destination = 12", "destination = '12'", "50 peer[1].destination"),
            ("destination = 12", "destination = 1", ""),
            ("destination = 12", "destination = 65535", ""),
            ("destination = 12", "destination = 0", "53 peer[1].destination"),
            ("destination = 12", "destination = 65536", "53 peer[1].destination"),
            ("destination = 12", "destination = -12", "53 peer[1].destination"),
            ("limit = 60000", "limit = 60000.0", "50 peer[1].limit"),
            ("limit = 60000", "limit = 1", ""),
            ("limit = 60000", "limit = 1099511627", ""),
            ("limit = 60000", "limit = 0", "53 peer[1].limit"),
            ("limit = 60000", "limit = 1099511628", "53 peer[1].limit"),
            ("limit = 60000", "limit = -1", "53 peer[1].limit"),
            ("most = 100", "most = [100]", "50 hop[1].most"),
            ("most = 100", "most = 1", ""),
            ("most = 100", "most = 1000000", ""),
            ("most = 100", "most = 0", "53 hop[1].most"),
            ("most = 100", "most = 1000001", "53 hop[1].most"),
            ("most = 100", "most = -1", "53 hop[1].most"),
            ("most = 100", "most = 4294967297", "53 hop[1].most"),
            ("lead = 30", "lead = 86401", "53 hop[1].lead"),
        ], FOLDERS)

    def test_contacts_out_of_order_have_the_later_one(self):
        hop = "[[hop]]\nid = 2\nstation = 10\nlisten = ''\nremote = ''\ncontacts = "
        for contacts, wanted in [
            ("[[1, 2], [3, 4], [4, 9], [9, 12]]", ""),
            ("[[1, 2], [3, 4], [2, 3], [1, 2]]", "51 hop[2].contacts[3]"),
            ("[[1, 2], [3, 5], [5, 9], [8, 12]]", "52 hop[2].contacts[4]"),
            ("[[1, 2], [3, 5], [4, 9], [2, 3]]", "51 hop[2].contacts[4]"),
        ]:
            self.expect_place(wanted, f"{WHOLE}{hop}{contacts}\n", contacts=contacts)

    def test_what_is_there_twice_has_the_first_of_them(self):
        for tail, wanted in [
            (
                "[[peer]]\nid = 2\nstation = 5\nlisten = ''\nremote = ''\n"
                "[[peer]]\nid = 3\nstation = 5\nlisten = ''\nremote = ''\n",
                "52 peer[2].station",
            ),
            ("[[hop]]\nid = 2\nstation = 9\nlisten = ''\nremote = ''\ncontacts = []\n", "52 hop[1].station"),
            (
                "[[route]]\ndestination = 13\nhop = 1\n"
                "[[route]]\ndestination = 14\nhop = 1\n"
                "[[route]]\ndestination = 13\nhop = 1\n",
                "52 route[2].destination",
            ),
            ("[[route]]\ndestination = 13\nhop = 2\n", "54 route[2].hop"),
        ]:
            self.expect_place(wanted, f"{WHOLE}{tail}", tail=tail)

    def test_a_fault_may_be_far_down(self):
        """The fault stands behind 70,000 empty lines."""
        newlines = "\n" * 70_000
        self.expect_place("50 line 70017, column 2", f"{WHOLE}{newlines} = 7\n")

    def test_the_last_hop_has_its_place(self):
        """The last of 64 hops has the fault, behind its addresses."""
        peer = "{ id = 1, station = 3, listen = '', remote = '' }"
        hops = neighbours(63, ", contacts = []")
        for more, wanted in [
            (", contacts = []", ""),
            (", contacts = [], color = 1", "54 hop[64]"),
            ("", "50 hop[64].contacts"),
            (", contacts = [], resend = 9", "53 hop[64].resend"),
            (", contacts = [[5, 6], [1, 2]]", "51 hop[64].contacts[2]"),
            (", contacts = [[1, 3], [2, 4]]", "52 hop[64].contacts[2]"),
        ]:
            last = f"{{ id = 64, station = 64, listen = '', remote = ''{more} }}"
            self.expect_place(wanted, f"station = 7\npeer = [{peer}]\nhop = [{hops}{last}]\n", more=more)


class Advice(Texts):
    """What is said of a fault behind its place: what is there, and what to write."""

    def expect_said(self, rows, text=WHOLE):
        """Each change of the text gets its place and what is said there."""
        for old, new, said in rows:
            with self.subTest(old=old, new=new):
                self.assertEqual("{1}: {2}".format(*self.fault(changed(old, new, text))), said)

    def test_a_key_that_is_not_known_is_named_with_those_that_are(self):
        """A name that would need quotes isn't printed."""
        self.expect_said([
            ("station = 7", "station = 7\ncolor = 1", "the top: unknown key color; write station, peer, hop, route"),
            ("station = 7", "station = 7\n'a b' = 1", "the top: unknown key; write station, peer, hop, route"),
            ("station = 7", "station = 7\n'' = 1", "the top: unknown key; write station, peer, hop, route"),
            ("station = 7", f"station = 7\n{'n' * 65} = 1", "the top: unknown key; write station, peer, hop, route"),
            ("station = 7", f"station = 7\n{'n' * 64} = 1", f"the top: unknown key {'n' * 64}; write station, peer, hop, route"),
            ("station = 3", "station = 3\nA-z_0 = 1", f"peer[1]: unknown key A-z_0; {PEER_KEYS}"),
            ("station = 3", "station = 3\nrate = 1", f"peer[1].rate: unknown key rate; {PEER_KEYS}"),
            ("station = 9", "station = 9\nreserd = 1", f"hop[1]: unknown key reserd; {HOP_KEYS}"),
            ("station = 9", "station = 9\nlimit = 1", f"hop[1].limit: unknown key limit; {HOP_KEYS}"),
            ("hop = 1\n", "hop = 1\nid = 1\n", "route[1].id: unknown key id; write destination, hop"),
        ])
        self.expect_said([
            ('"in"\n', '"in"\nkey = ""\n', "peer[1].key: unknown key key; write id, station, folder, destination, limit"),
            ('"out"\n', '"out"\nrate = 1\n', "hop[1].rate: unknown key rate; write id, station, folder, most, lead, contacts"),
            ('"out"\n', '"out"\nx = 1\n', "hop[1]: unknown key x; write id, station, folder, most, lead, contacts"),
        ], FOLDERS)

    def test_what_is_missing_or_of_another_type_is_named_with_what_to_write(self):
        self.expect_said([
            ("station = 7", "station = ", "line 1, column 11: not TOML from here on"),
            ("station = 7\n", "", "station: missing; write 1 to 65535"),
            ("station = 7", 'station = "7"', "station: a value of type string; write 1 to 65535"),
            ("station = 7", "station = { x = 1 }", "station: a value of type table; write 1 to 65535"),
            ("[[peer]]", "[peer]", "peer: a value of type table; write 1 to 64 tables [[peer]]"),
            ("[[route]]", "[route]", "route: a value of type table; write tables [[route]]"),
            ("id = 1\n", "", "peer[1].id: missing; write 1"),
            ('listen = "127.0.0.1:4003"', "listen = 4003", f"hop[1].listen: 4003; {LISTEN}"),
            ('remote = "127.0.0.1:4004"\n', "", f"hop[1].remote: missing; {REMOTE}"),
            ("station = 3", "station = 3\nkey = 3", 'peer[1].key: 3; write the path of a key\'s file, such as "link.key"'),
            ("resend = 160", "resend = '9'", "hop[1].resend: a value of type string; write 10 to 3600000 (milliseconds)"),
            ("resend = 160", "rate = 160.0", "hop[1].rate: a value of type float; write 1 to 1000000000 (bytes a second)"),
            ("resend = 160", "lead = 2026-12-01", "hop[1].lead: a value of type datetime; write 0 to 86400 (seconds)"),
            ("[[100, 200], [300, 350]]", "100", f"hop[1].contacts: 100; {CONTACTS}"),
            ("[300, 350]", "[300]", f"hop[1].contacts[2]: an array of 1; {CONTACT}"),
            ("[300, 350]", "[300, '350']", f"hop[1].contacts[2]: an array of 2; {CONTACT}"),
            ("[300, 350]", "{ begin = 300, end = 350 }", f"hop[1].contacts: an array of 2; {CONTACTS}"),
            ("destination = 12\n", "", 'route[1].destination: missing; write 1 to 65535, or "rest"'),
            ("hop = 1\n", "hop = true\n", f"route[1].hop: a value of type boolean; {HOP}"),
        ])
        self.expect_said([
            ('"in"', "3", 'peer[1].folder: 3; write the path of a folder, such as "out"'),
            ("most = 100", "most = '9'", "hop[1].most: a value of type string; write 1 to 1000000 (files)"),
        ], FOLDERS)
        self.expect_said([("[1]", "[1]", "peer[1]: 1; write a table [[peer]]")], "station = 7\npeer = [1]\nhop = []\n")

    def test_a_number_out_of_its_limits_is_named_with_them(self):
        self.expect_said([
            ("station = 7", "station = -7", "station: -7; write 1 to 65535"),
            ("station = 3", "station = 65536", "peer[1].station: 65536; write 1 to 65535"),
            ("id = 1\nstation = 9", "id = 4\nstation = 9", "hop[1].id: 4; write 1"),
            ("resend = 160", "resend = 9", "hop[1].resend: 9; write 10 to 3600000 (milliseconds)"),
            ("resend = 160", "rate = 1000000001", "hop[1].rate: 1000000001; write 1 to 1000000000 (bytes a second)"),
            ("resend = 160", "lead = 86401", "hop[1].lead: 86401; write 0 to 86400 (seconds)"),
            ("[300, 350]", "[300, 300]", f"hop[1].contacts[2]: [300, 300]; {CONTACT}"),
            ("[100, 200]", "[-1, 200]", f"hop[1].contacts[1]: [-1, 200]; {CONTACT}"),
            ("destination = 12", "destination = 0", 'route[1].destination: 0; write 1 to 65535, or "rest"'),
            ("hop = 1\n", "hop = 65\n", f"route[1].hop: 65; {HOP}"),
            ("hop = 1\n", "hop = 2\n", f"route[1].hop: 2; {HOP}"),
        ])
        self.expect_said([
            ("destination = 12", "destination = 0", "peer[1].destination: 0; write 1 to 65535"),
            ("limit = 60000", "limit = 0", "peer[1].limit: 0; write 1 to 1099511627 (milliseconds)"),
            ("most = 100", "most = 1000001", "hop[1].most: 1000001; write 1 to 1000000 (files)"),
        ], FOLDERS)

    def test_a_count_out_of_its_limits_is_named_with_them(self):
        contacts = "".join(f"[{id}0, {id}5]," for id in range(1, 4_098))
        many = self.fault(changed("[100, 200], [300, 350]", contacts))
        self.assertEqual(many[1:], ("hop[1].contacts", f"an array of 4097; {CONTACTS}"))
        for peers, hops, said in [
            (0, 1, "peer: an array of 0; write 1 to 64 tables [[peer]]"),
            (65, 1, "peer: an array of 65; write 1 to 64 tables [[peer]]"),
            (1, 65, "hop: an array of 65; write 1 to 64 tables [[hop]]"),
        ]:
            text = f"station = 7\npeer = [{neighbours(peers)}]\nhop = [{neighbours(hops, ', contacts = []')}]\n"
            with self.subTest(said):
                self.assertEqual("{1}: {2}".format(*self.fault(text)), said)

    def test_what_is_out_of_order_or_there_twice_is_named_with_the_other_one(self):
        peer = "[[peer]]\nid = 2\nlisten = ''\nremote = ''\nstation = 4\n[[peer]]\nid = 3\nlisten = ''\nremote = ''\nstation = 3\n"
        hop = "[[hop]]\nid = 2\nlisten = ''\nremote = ''\ncontacts = []\nstation = 9\n"
        rest = '[[route]]\nhop = 1\ndestination = "rest"\n'
        order = "ends; write contacts in order"
        self.expect_said([
            ("[300, 350]", "[50, 60]", f"hop[1].contacts[2]: [50, 60] begins before [100, 200] {order}"),
            ("[300, 350]", "[150, 350]", f"hop[1].contacts[2]: [150, 350] begins before [100, 200] {order}"),
            ("[[route]]", f"{peer}[[route]]", "peer[1].station: 3, the same as peer[3].station; write another"),
            ("[[route]]", f"{hop}[[route]]", "hop[1].station: 9, the same as hop[2].station; write another"),
            (
                "[[route]]",
                f"[[route]]\ndestination = 12\nhop = 1\n{rest}[[route]]",
                "route[1].destination: 12, the same as route[3].destination; write another",
            ),
            ("[[route]]", f"{rest}{rest}[[route]]", 'route[1].destination: "rest", the same as route[2].destination; write another'),
        ])
