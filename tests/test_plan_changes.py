"""`rly plan --was`: what differs from another plan, and whether an id names another station."""
from program import Rows

# Peers at a socket and at a folder, hops of both kinds, and routes.
OLD = """station = 7
[[peer]]
id = 1
station = 3
listen = "127.0.0.1:4001"
remote = "127.0.0.1:4002"
[[peer]]
id = 2
station = 4
folder = "in"
[[hop]]
id = 1
station = 9
listen = "127.0.0.1:4003"
remote = "127.0.0.1:4004"
contacts = [[1795581000000000, 1795581600000000], [1795586400000000, 1795587000000000]]
[[hop]]
id = 2
station = 10
folder = "out"
contacts = [[1795581000000000, 1795581600000000]]
[[route]]
destination = 12
hop = 1
[[route]]
destination = "rest"
hop = 2
"""

# A hop more.
THIRD = '[[hop]]\nid = 3\nstation = 11\nfolder = "third"\ncontacts = []\n'

# What stands in the old plan, in its place in the new one, and what is told of that.
CHANGES = [
    ("", "", ""),
    ("station = 7", "station = 8", "station: 7 -> 8\n"),
    ("127.0.0.1:4001", "0.0.0.0:5001", "peer[1].listen: 127.0.0.1:4001 -> 0.0.0.0:5001\n"),
    ("127.0.0.1:4004", "127.0.0.1:5004", "hop[1].remote: 127.0.0.1:4004 -> 127.0.0.1:5004\n"),
    ('folder = "in"', 'folder = "into"', "peer[2].folder: in -> into\n"),
    ('folder = "in"', 'folder = "in"\ndestination = 12\nlimit = 5', "peer[2].destination: none -> 12\npeer[2].limit: none -> 5\n"),
    ('folder = "out"', 'folder = "out"\nmost = 5', "hop[2].most: 1024 -> 5\n"),
    ("id = 1\nstation = 9", "id = 1\nstation = 9\nresend = 200\nrate = 1200\nlead = 30",
     "hop[1].resend: 160 -> 200\nhop[1].rate: none -> 1200\nhop[1].lead: 0 -> 30\n"),
    # a contact less, a longer one, and one that is cut in two
    (", [1795586400000000, 1795587000000000]", "",
     "hop[1].contacts: 2 -> 1\nhop[1].contacts: from 1795586400000000 until 1795587000000000: open -> closed\n"),
    ("1795587000000000", "1795587000000001",
     "hop[1].contacts: from 1795587000000000 until 1795587000000001: closed -> open\n"),
    ("[1795586400000000, 1795587000000000]", "[1795586400000000, 1795586500000000], [1795586500000000, 1795587000000000]",
     "hop[1].contacts: 2 -> 3\n"),
    ("[1795586400000000,", "[1795586300000000,",
     "hop[1].contacts: from 1795586300000000 until 1795586400000000: closed -> open\n"),
    # routes, by their destinations
    ("destination = 12\nhop = 1", "destination = 12\nhop = 2", "route[1].hop: 1 -> 2\n"),
    ("destination = 12", "destination = 13", "route[1]: destination 12 hop 1 -> none\nroute[1]: none -> destination 13 hop 1\n"),
    ('"rest"', "5", "route[2]: destination rest hop 2 -> none\nroute[2]: none -> destination 5 hop 2\n"),
    # a hop more
    ("[[route]]\ndestination = 12", THIRD + "[[route]]\ndestination = 12", "hop[3].station: none -> 11\n"),
    # a folder in place of a socket
    ('listen = "127.0.0.1:4001"\nremote = "127.0.0.1:4002"', 'folder = "first"',
     "peer[1].listen: 127.0.0.1:4001 -> none\npeer[1].remote: 127.0.0.1:4002 -> none\n"
     "peer[1].folder: none -> first\npeer[1].most: none -> 1024\n"),
]

# The same where an id names another station.
RENUMBERED = [
    ("station = 10", "station = 11", "hop[2].station: 10 -> 11: the id names another station\n", "hop 2 named station 10, and names station 11"),
    ("station = 3", "station = 5", "peer[1].station: 3 -> 5: the id names another station\n", "peer 1 named station 3, and names station 5"),
]

# What standard error says of the plan, as `rly plan` does at all times.
AT = "--at=1795581000000000"


class Changes(Rows):
    def test_what_differs(self):
        self.write("old", OLD)
        for old, new, told in CHANGES:
            with self.subTest(new):
                self.write("new", OLD.replace(old, new, 1))
                self.expect("plan", "new", "--was", "old", AT, output=told)

    def test_ids_that_name_another_station(self):
        """All is listed, and the status is 1, also where the two plans are exchanged."""
        self.write("old", OLD)
        for old, new, told, word in RENUMBERED:
            with self.subTest(new):
                self.write("new", OLD.replace(old, new, 1))
                self.expect("plan", "new", "--was=old", AT, output=told, errors=f"rly: plan: {word}\n", status=1)
                run = self.rly("plan", "old", "--was=new", AT)
                self.assertEqual((run.returncode, run.stdout.count(b"names another station")), (1, 1))

    def test_an_id_of_one_plan_alone(self):
        """A hop that is dropped is listed, and no fault."""
        self.write("old", OLD.replace("[[route]]", THIRD + "[[route]]", 1))
        self.write("new", OLD)
        self.expect("plan", "new", "--was=old", AT, output="hop[3].station: 11 -> none\n")

    def test_plans_that_are_none(self):
        """Nothing is listed, and what is said of the old plan says so."""
        self.write("plan", OLD)
        self.write("none", "station = 7\n")
        self.expect("plan", "none", "--was=plan", errors="refused 50 plan\nrly: plan: at peer: missing; write 1 to 64 tables [[peer]]\n", status=1)
        self.expect("plan", "plan", "--was=none", errors="refused 50 plan\nrly: plan: at peer\nrly: plan: that is the one of --was\n", status=1)
        self.expect("plan", "plan", "--was=nowhere", errors="rly: plan failed\nrly: plan: No such file or directory (os error 2)\nrly: plan: that is the one of --was\n", status=1)
