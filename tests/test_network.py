"""`rly network`: what plans disagree on that were written by hand, what is found in a network file, and what is written for it
(`docs/NETWORK.md`). Which of the two a planted disagreement is looked for in stands in its table: `PLANTED`, `DEVICES` and `REFUSED`
are of plans, `IN_FILE` and the tests of ids of a network file."""
import os
import re
import shutil
import stat
import subprocess
import tomllib
import unittest

from program import RLY, TOP, Rows

ALWAYS = "contacts = [[0, 4503599627370495]]"

# A buoy, two gateways in a row with a folder each, and a shore station.
BUOY = f"""station = 3
peer = [{{ id = 1, station = 103, folder = "in", destination = 9 }}]
hop = [{{ id = 1, station = 7, listen = "127.0.0.1:7011", remote = "127.0.0.1:7021", key = "a.key", {ALWAYS} }}]
route = [{{ destination = "rest", hop = 1 }}]
"""

GATEWAY = f"""station = 7
peer = [
  {{ id = 1, station = 3, listen = "127.0.0.1:7021", remote = "127.0.0.1:7011", key = "a.key" }},
  {{ id = 2, station = 8, listen = "[::]:7022", remote = "127.0.0.1:7034" }},
]
hop = [
  {{ id = 1, station = 8, listen = "127.0.0.1:7023", remote = "127.0.0.1:7031", {ALWAYS} }},
  {{ id = 2, station = 107, folder = "out", {ALWAYS} }},
]
route = [
  {{ destination = 9, hop = 1 }},
  {{ destination = 7, hop = 2 }},
  {{ destination = "rest", hop = 2 }},
]
"""

SATELLITE = f"""station = 8
peer = [
  {{ id = 1, station = 7, listen = "0.0.0.0:7031", remote = "127.0.0.1:7023" }},
  {{ id = 2, station = 9, listen = "127.0.0.1:7032", remote = "127.0.0.1:7042" }},
]
hop = [
  {{ id = 1, station = 9, listen = "127.0.0.1:7033", remote = "127.0.0.1:7041", key = "b.key", {ALWAYS} }},
  {{ id = 2, station = 7, listen = "127.0.0.1:7034", remote = "127.0.0.1:7022", {ALWAYS} }},
]
route = [
  {{ destination = 9, hop = 1 }},
  {{ destination = 7, hop = 2 }},
]
"""

SHORE = f"""station = 9
peer = [{{ id = 1, station = 8, listen = "127.0.0.1:7041", remote = "127.0.0.1:7033", key = "b.key" }}]
hop = [
  {{ id = 1, station = 109, folder = "out", {ALWAYS} }},
  {{ id = 2, station = 8, listen = "127.0.0.1:7042", remote = "127.0.0.1:7032", {ALWAYS} }},
]
route = [
  {{ destination = 9, hop = 1 }},
  {{ destination = 7, hop = 2 }},
]
"""

PLANS = {"buoy": BUOY, "gateway": GATEWAY, "satellite": SATELLITE, "shore": SHORE}
CLOSED = "contacts = []"
NO_WAY = "destination 9 stops at station"
FROM_BUOY = "station 3: peer[1].destination: "
FROM_GATEWAY = "station 7: route[1].hop: "
FROM_SATELLITE = "station 8: route[1].hop: "

# What was planted: the plan, a part of it and what stands in its place, and the lines.
PLANTED = [
    ("a route left out at the first gateway: the rest takes it elsewhere", "gateway", "  { destination = 9, hop = 1 },\n", "",
     f"{FROM_BUOY}destination 9 ends at station 7, which isn't its own\n"),
    ("a route left out on the way", "satellite", "  { destination = 9, hop = 1 },\n", "",
     f"{FROM_BUOY}{NO_WAY} 8, which has no route for it\n{FROM_GATEWAY}{NO_WAY} 8, which has no route for it\n"),
    ("a route left out at its own station", "shore", "  { destination = 9, hop = 1 },\n", "",
     f"{FROM_BUOY}{NO_WAY} 9, which has no route for it\n{FROM_GATEWAY}{NO_WAY} 9, which has no route for it\n"
     f"{FROM_SATELLITE}{NO_WAY} 9, which has no route for it\n"),
    ("a route of the station's own into the wrong hop: a circle", "shore", "{ destination = 9, hop = 1 }", "{ destination = 9, hop = 2 }",
     # The fifth station of each way over four: 3, 7, 8, 9, 8, and so on.
     f"{FROM_BUOY}destination 9 goes in a circle through station 8\n{FROM_GATEWAY}destination 9 goes in a circle through station 9\n"
     f"{FROM_SATELLITE}destination 9 goes in a circle through station 8\nstation 9: route[1].hop: destination 9 goes in a circle through station 9\n"),
    ("a route back: a circle of two", "satellite", "{ destination = 9, hop = 1 }", "{ destination = 9, hop = 2 }",
     f"{FROM_BUOY}destination 9 goes in a circle through station 8\n{FROM_GATEWAY}destination 9 goes in a circle through station 7\n"
     f"{FROM_SATELLITE}destination 9 goes in a circle through station 8\n"),
    ("a route into another folder", "gateway", "{ destination = 9, hop = 1 }", "{ destination = 9, hop = 2 }",
     f"{FROM_BUOY}destination 9 ends at station 7, which isn't its own\n{FROM_GATEWAY}destination 9 ends at station 7, which isn't its own\n"),
    ("no rest behind a rest", "gateway", "  { destination = \"rest\", hop = 2 },\n", "",
     "station 3: route[1].hop: \"rest\" stops at station 7, which has no route for it\n"),
    ("a rest that leads back", "shore", "  { destination = 7, hop = 2 },\n", "  { destination = \"rest\", hop = 2 },\n",
     "station 9: route[2].hop: \"rest\" stops at station 8, which has no route for it\n"),
    ("a rest into a hop without contacts", "gateway", f"\"out\", {ALWAYS}", f"\"out\", {CLOSED}",
     "station 3: route[1].hop: \"rest\" stops at station 7, whose hop for it has no contacts\n"
     "station 7: route[2].hop: destination 7 stops at station 7, whose hop for it has no contacts\n"
     "station 7: route[3].hop: \"rest\" stops at station 7, whose hop for it has no contacts\n"
     "station 8: route[2].hop: destination 7 stops at station 7, whose hop for it has no contacts\n"
     "station 9: route[2].hop: destination 7 stops at station 7, whose hop for it has no contacts\n"),
    ("a link without contacts on the way", "satellite", f"key = \"b.key\", {ALWAYS}", f"key = \"b.key\", {CLOSED}",
     f"{FROM_BUOY}{NO_WAY} 8, whose hop for it has no contacts\n{FROM_GATEWAY}{NO_WAY} 8, whose hop for it has no contacts\n"
     f"{FROM_SATELLITE}{NO_WAY} 8, whose hop for it has no contacts\n"),
    ("another port of the peer", "gateway", "listen = \"127.0.0.1:7021\"", "listen = \"127.0.0.1:7020\"",
     "station 3: hop[1].remote: not where station 7 listens for this one\n"),
    ("another address of the peer", "shore", "listen = \"127.0.0.1:7041\"", "listen = \"127.0.0.2:7041\"",
     "station 8: hop[1].remote: not where station 9 listens for this one\n"),
    ("a name in place of its address", "buoy", "remote = \"127.0.0.1:7021\"", "remote = \"localhost:7021\"",
     "station 3: hop[1].remote: not where station 7 listens for this one\n"),
    ("a port of any address that isn't the remote's", "satellite", "listen = \"0.0.0.0:7031\"", "listen = \"0.0.0.0:703\"",
     "station 7: hop[1].remote: not where station 8 listens for this one\n"),
    ("the answers go elsewhere", "gateway", "remote = \"127.0.0.1:7011\"", "remote = \"127.0.0.1:7012\"",
     "station 3: hop[1].listen: not where station 7 sends to this one\n"),
    ("addresses that aren't crossed", "gateway", "listen = \"127.0.0.1:7021\", remote = \"127.0.0.1:7011\"",
     "listen = \"127.0.0.1:7011\", remote = \"127.0.0.1:7021\"",
     "station 3: hop[1].remote: not where station 7 listens for this one\nstation 3: hop[1].listen: not where station 7 sends to this one\n"),
    ("a key that the hop lacks", "buoy", ", key = \"a.key\"", "", "station 3: hop[1].key: only one of this station and station 7 has a key\n"),
    ("a key that the peer lacks", "shore", ", key = \"b.key\"", "", "station 8: hop[1].key: only one of this station and station 9 has a key\n"),
    ("a key that only one end has", "satellite", "remote = \"127.0.0.1:7022\"", "remote = \"127.0.0.1:7022\", key = \"b.key\"",
     "station 8: hop[2].key: only one of this station and station 7 has a key\n"),
    ("a peer that names another station", "gateway", "station = 3,", "station = 4,",
     "station 3: hop[1].station: station 7 has no peer at a socket for this station\n"),
    ("a hop that names another station", "buoy", "station = 7,", "station = 9,",
     "station 3: hop[1].station: station 9 has no peer at a socket for this station\n"
     "station 3: route[1].hop: \"rest\" stops at station 9, which has no route for it\n"),
    ("a hop that names a station without a plan", "shore", "id = 2, station = 8,", "id = 2, station = 18,",
     "station 9: hop[2].station: no plan of station 18 is given\n"),
    ("a folder in place of the peer", "shore", "listen = \"127.0.0.1:7041\", remote = \"127.0.0.1:7033\", key = \"b.key\"", "folder = \"back\"",
     "station 8: hop[1].station: station 9 has no peer at a socket for this station\n"),
    ("an application whose destination has no route", "buoy", "destination = 9", "destination = 19",
     f"{FROM_BUOY}destination 19 ends at station 7, which isn't its own\n"),
    ("an application at a station without any route", "buoy", "route = [{ destination = \"rest\", hop = 1 }]\n", "",
     f"{FROM_BUOY}{NO_WAY} 3, which has no route for it\n"),
    ("the station of a destination has another number", "shore", "station = 9\n", "station = 19\n",
     "station 8: hop[1].station: no plan of station 9 is given\n"
     "station 19: hop[2].station: station 8 has no peer at a socket for this station\n"),
]

# Two that can't be seen in the plans alone: the device of a plan, by the options that it is formatted with, and the lines.
DEVICES = [
    ("fewer hops than the plan", "gateway", "--hops=1", "station 7: hop: the device has only 1\n"),
    ("fewer peers than the plan", "satellite", "--peers=1", "station 8: peer: the device has only 1\n"),
    ("shorter payloads on the way", "satellite", "--payload=1199",
     "station 7: hop[1].station: station 8 takes only shorter payloads\nstation 9: hop[2].station: station 8 takes only shorter payloads\n"),
]

# Plans that are refused, one by one, before the network is looked at.
REFUSED = [
    ("two next hops for one destination", "satellite", "{ destination = 7, hop = 2 }", "{ destination = 9, hop = 2 }", "refused 52 plan\n"),
    ("contacts outside the limits", "shore", "4503599627370495]", "4503599627370496]", "refused 53 plan\n"),
    ("a route to a hop that isn't there", "buoy", "\"rest\", hop = 1", "\"rest\", hop = 2", "refused 54 plan\n"),
]


class OfPlans(Rows):
    def plans(self, name="", old="", new=""):
        """Writes the plans, one of them changed; their paths."""
        for plan, text in PLANS.items():
            if plan == name:
                self.assertIn(old, text)
                text = text.replace(old, new, 1)
            self.write(f"{plan}.toml", text)
        return [f"{plan}.toml" for plan in PLANS]

    def check(self, names, lines):
        self.expect("network", "check", *names, output=lines, status=1 if lines else 0)

    def test_plans_that_agree(self):
        self.check(self.plans(), "")

    def test_planted_disagreements(self):
        for what, name, old, new, lines in PLANTED:
            with self.subTest(what):
                self.check(self.plans(name, old, new), lines)

    def test_devices(self):
        for what, name, option, lines in DEVICES:
            with self.subTest(what):
                names = self.plans()
                self.rly("format", "device", "--force", option)
                names = [f"{it}=device" if it == f"{name}.toml" else it for it in names]
                self.check(names, lines)

    def test_refused_plans(self):
        for what, name, old, new, first in REFUSED:
            with self.subTest(what):
                run = self.rly("network", "check", *self.plans(name, old, new))
                self.assertEqual((run.returncode, run.stdout), (1, b""))
                self.assertTrue(run.stderr.decode().startswith(f"{first}rly: plan: "), run.stderr)

    def test_two_plans_of_one_number(self):
        names = self.plans()
        self.check([*names, names[3]], "station 9: station: another plan has this number\n")

    def test_a_file_that_is_not_there(self):
        names = self.plans()
        missing = "No such file or directory (os error 2)"
        self.expect("network", "check", *names, "none.toml", errors=f"rly: plan failed\nrly: plan: none.toml: {missing}\n", status=1)
        errors = f"refused 23 device\nrly: device: none: {missing}; `rly format` makes it\n"
        self.expect("network", "check", "buoy.toml=none", *names, errors=errors, status=1)
        self.write("text", "no device")
        errors = "refused 20 notadevice\nrly: device: text: a text, not a device; `rly serve FILE PLAN` has the device first\n"
        self.expect("network", "check", "buoy.toml=text", *names, errors=errors, status=1)

    def test_the_examples_agree(self):
        for name in ("buoy", "relay", "shore"):
            shutil.copy(f"{TOP}/examples/{name}.toml", self.path(f"{name}.toml"))
        sensor = f"""station = 1
peer = [{{ id = 1, station = 101, folder = "in", destination = 12 }}]
hop = [{{ id = 1, station = 3, listen = "127.0.0.1:7010", remote = "127.0.0.1:7011", {ALWAYS} }}]
route = [{{ destination = 12, hop = 1 }}]
"""
        desk = f"""station = 12
peer = [{{ id = 1, station = 9, listen = "127.0.0.1:7041", remote = "127.0.0.1:7040" }}]
hop = [{{ id = 1, station = 112, folder = "out", {ALWAYS} }}]
route = [{{ destination = 12, hop = 1 }}]
"""
        self.write("sensor.toml", sensor)
        self.write("desk.toml", desk)
        self.check(["sensor.toml", "buoy.toml", "relay.toml", "shore.toml", "desk.toml"], "")

    def test_words(self):
        """Words that are no network command."""
        for words in [[], ["check"], ["look", "buoy.toml"], ["write", "net.toml"], ["write", "net.toml", "a", "b"],
                      ["draw", "net.toml", "more"], ["check", "--changed", "buoy.toml"], ["draw", "net.toml", "--changed"]]:
            with self.subTest(words):
                run = self.rly("network", *words)
                self.assertEqual((run.returncode, run.stdout), (2, b""))
                self.assertTrue(run.stderr)
        names = self.plans()
        self.check(["--", *names], "")

    def test_the_output_fails(self):
        self.plans("shore", ", key = \"b.key\"", "")
        self.expect_stuck("network", "check", *(f"{plan}.toml" for plan in PLANS))


with open(f"{TOP}/examples/network.toml") as file:
    NETWORK = file.read()
DESK = 'via = [["buoy", "relay", "shore"]]'
AT_RELAY = 'name = "relay", address = "127.0.0.1"'
FROM_SENSOR = "folder[1].destination: station 3: peer[2].destination: destination 12 "

# The same of `examples/network.toml`: what was planted, a part of it and what stands in its place, and the lines.
IN_FILE = [
    ("a path that stops short", DESK, 'via = [["buoy", "relay"]]', "path[1]: station 7 has neither a link nor a folder to 12\n"),
    ("a station without a route for what its own application sends", DESK, 'via = [["relay", "shore"]]',
     f"{FROM_SENSOR}stops at station 3, which has no route for it\n"),
    ("a path that leads on from its end", DESK, f"{DESK}\nnext = {{ shore = \"relay\" }}",
     # The fourth station of each way over three: 3, 7, 9, 7, and so on.
     f"{FROM_SENSOR}goes in a circle through station 7\npath[1]: station 3: route[1].hop: destination 12 goes in a circle through station 7\n"
     "path[1]: station 7: route[1].hop: destination 12 goes in a circle through station 9\n"
     "path[1]: station 9: route[1].hop: destination 12 goes in a circle through station 7\n"),
    ("a loop", DESK, 'via = [["buoy", "relay", "buoy"]]',
     f"{FROM_SENSOR}goes in a circle through station 7\npath[1]: station 3: route[1].hop: destination 12 goes in a circle through station 7\n"
     "path[1]: station 7: route[1].hop: destination 12 goes in a circle through station 3\n"),
    ("a path over stations without a link", DESK, 'via = [["buoy", "shore"]]', "path[1]: station 3 has neither a link nor a folder to 9\n"),
    ("two next hops for one destination", DESK, 'via = [["buoy", "relay", "shore"], ["relay", "buoy"]]',
     "path[1].via[2]: two next hops of station 7: 3, and 9 by path[1]\n"),
    ("a destination that nobody is", 'destination = "desk"', "destination = 99",
     "folder[1].destination: station 3: peer[2].destination: destination 99 stops at station 3, which has no route for it\n"),
    ("a name that nobody has", 'to = "desk"', 'to = "desks"', "path[1].to: nothing is called desks\n"),
    ("a link to a station that isn't there", 'to = "relay"', "to = 8", "link[1].to: no station has the number 8\n"),
    ("a link twice", '[[folder]]\nat = "buoy"', '[[link]]\nfrom = "buoy"\nto = "relay"\n\n[[folder]]\nat = "buoy"',
     "link[3]: link[1] already leads from station 3 to station 7\n"),
    ("no link for the way back", 'to = "shore"\nboth = true', 'to = "shore"', "path[2]: station 9 has neither a link nor a folder to 7\n"),
    ("two stations of one number", "number = 7, name", "number = 9, name", "station[3].number: another station has it\n"),
    ("two stations of one name", 'name = "relay"', 'name = "shore"', "station[3].name: another station has it\n"),
    ("a payload that shrinks", AT_RELAY, f"{AT_RELAY}, payload = 500",
     "link[1].to: station 3: hop[1].station: station 7 takes only shorter payloads\n"
     "link[2].to: station 9: hop[1].station: station 7 takes only shorter payloads\n"),
    ("more hops than the device", AT_RELAY, f"{AT_RELAY}, hops = 1", "station[2]: station 7: hop: the device has only 1\n"),
    ("more peers than the device", AT_RELAY, f"{AT_RELAY}, peers = 1", "station[2]: station 7: peer: the device has only 1\n"),
    ("contacts outside the limits", "1803924600000000]]", "4503599627370496]]",
     "contacts.satellite[2]: a contact is [from, to] in microseconds since the Unix epoch, from before to, below 2^52\n"),
    ("contacts that overlap", "[1803924000000000,", "[1803881000000000,",
     "contacts.satellite[2]: it begins before the one before it ends; write contacts in order\n"),
    ("a link that never opens", 'contacts = "satellite"', "contacts = []",
     f"{FROM_SENSOR}stops at station 7, whose hop for it has no contacts\n"
     "path[1]: station 3: route[1].hop: destination 12 stops at station 7, whose hop for it has no contacts\n"
     "path[1]: station 7: route[1].hop: destination 12 stops at station 7, whose hop for it has no contacts\n"
     "folder[2].destination: station 9: peer[2].destination: destination 1 stops at station 9, whose hop for it has no contacts\n"
     "path[2]: station 9: route[1].hop: destination 1 stops at station 9, whose hop for it has no contacts\n"),
    ("a rate that can't carry the load", 'destination = "desk"', 'destination = "desk"\nload = 1300',
     "link[1].rate: 1300 bytes a second go from station 3 to 7, and contacts at this rate carry less\n"),
    ("a station that nothing comes to", "    { number = 9, name", '    { number = 8, name = "alone", address = "::1" },\n    { number = 9, name',
     "station[3]: nothing comes to it: no link leads here, and no folder has an `in`\n"),
    ("a folder with the number of a neighbour", 'number = 12\nname = "desk"', 'number = 7\nname = "desk"',
     "folder[2].number: another neighbour of the station has it; write another\n"),
]


PASSES = """# Two passes of a satellite.
hop,begin,end,where

2,2027-03-01T06:00:00Z,2027-03-01T07:10:00+01:00,high
2, 1803924000000000 ,"2027-03-01T18:10:00Z",low
"""
AS_CONTACT = ": a contact is [from, to] in microseconds since the Unix epoch, from before to, below 2^52"
AS_TIME = ": write times with Z or an offset, or microseconds since the Unix epoch"
IN_ORDER = ":5: it begins before the one before it ends; write contacts in order"

# The same of a file of passes.
IN_PASSES = [
    ("a pass that ends before it begins", "18:10:00Z", "17:10:00Z", f":5{AS_CONTACT}"),
    ("a pass without a length", "18:10:00Z", "18:00:00Z", f":5{AS_CONTACT}"),
    ("a pass too late for a plan", "2027-03-01T18:10:00Z", "4503599627370496", f":5{AS_CONTACT}"),
    ("a pass before 1970", "2027-03-01T06:00:00Z", "-1", f":4{AS_CONTACT}"),
    ("passes that overlap", "1803924000000000", "1803881399999999", IN_ORDER),
    ("passes out of order", ' 1803924000000000 ,"2027-03-01T18:10:00Z"', "1,2", IN_ORDER),
    ("no number", "1803924000000000", "soon", f":5{AS_TIME}"),
    ("a number with a fraction", "1803924000000000", "1803924000000000.5", f":5{AS_TIME}"),
    ("an empty cell", " 1803924000000000 ", "", f":5{AS_TIME}"),
    ("a time without an offset", "06:00:00Z", "06:00:00", f":4{AS_TIME}"),
    ("a day that isn't there", "2027-03-01T06", "2027-02-29T06", f":4{AS_TIME}"),
    ("a cell too few", ",low", "", ":5: write a cell for each column"),
    ("a cell too many", ",low", ",low,east", ":5: write a cell for each column"),
    ("passes of two hops", "2, 18", "3, 18", ":5: it is of another hop; write a file for each"),
    ("no such column", "begin", "from", ":2: name the columns begin and end"),
    ("no pass", PASSES[PASSES.index("2,2027"):], "", ": no pass follows"),
    ("an empty file", PASSES, "", ": no pass follows"),
]


class OfNetworks(Rows):
    def network(self, old="", new=""):
        self.assertIn(old, NETWORK)
        self.write("network.toml", NETWORK.replace(old, new, 1))

    def files(self):
        """The bytes, the mode and the moment of each file below `stations`, and of the ids."""
        found = {}
        for top, _, names in os.walk(self.path("stations")):
            for path in (f"{top}/{name}" for name in names):
                with open(path, "rb") as file:
                    state = os.stat(path)
                    found[os.path.relpath(path, self.folder)] = (file.read(), stat.S_IMODE(state.st_mode), state.st_mtime_ns)
        return {**found, "network.ids": (self.read("network.ids"),)}

    def expect_written(self, *names):
        self.expect("network", "write", "network.toml", "stations", "--changed", output="".join(f"{name}\n" for name in names))

    def expect_found(self, lines):
        self.expect("network", "check", "network.toml", output=lines, status=1 if lines else 0)

    def test_the_examples_pass(self):
        self.network()
        self.expect_found("")
        self.expect("network", "check", f"{TOP}/examples/fifty.toml")

    def test_planted_disagreements(self):
        for what, old, new, lines in IN_FILE:
            with self.subTest(what):
                self.network(old, new)
                self.expect_found(lines)
                errors = f"rly: network failed\nrly: network: network.toml: {lines}"
                self.expect("network", "write", "network.toml", "stations", errors=errors, status=1)
                self.assertFalse(os.path.exists(self.path("stations")))
                self.assertFalse(os.path.exists(self.path("network.ids")))

    def test_a_second_write_changes_nothing(self):
        self.network()
        self.expect_written("buoy", "relay", "shore")
        before = self.files()
        self.assertEqual(len(before), 3 * 3 + 2 * 4 + 1)
        self.expect_written()
        self.assertEqual(self.files(), before)
        self.expect("network", "write", "network.toml", "stations")
        self.assertEqual(self.files(), before)

    def test_the_same_bytes_for_the_same_file(self):
        self.network()
        self.expect("network", "write", "network.toml", "stations")
        before = self.files()
        self.expect("network", "write", "network.toml", "others")
        for path, (text, *_) in before.items():
            if path != "network.ids" and not path.endswith(".key"):
                self.assertEqual(self.read(path.replace("stations", "others", 1)), text, path)

    def test_what_is_written_serves(self):
        """Each plan is read with its keys, and each device is made as its `format` says."""
        self.network()
        self.expect("network", "write", "network.toml", "stations")
        for name, number in [("buoy", 3), ("relay", 7), ("shore", 9)]:
            run = self.rly("plan", f"stations/{name}/plan.toml")
            self.assertEqual((run.returncode, run.stderr), (0, b""))
            self.assertIn(f"\nstation {number}\n".encode(), run.stdout)
            words = self.read(f"stations/{name}/format").decode().split()
            self.assertEqual(words[:3], ["rly", "format", "device.rly"])
            self.rly("format", f"{name}.rly", *words[3:])
        names = [f"stations/{name}/plan.toml={name}.rly" for name in ("buoy", "relay", "shore")]
        self.expect("network", "check", *names)

    def test_keys(self):
        """Both ends have one key, only its owner may read it, and one that is there stays."""
        self.network()
        self.expect("network", "write", "network.toml", "stations")
        found = {path: file for path, file in self.files().items() if path.endswith(".key")}
        self.assertEqual({file[1] for file in found.values()}, {0o600})
        keys = {path: file[0] for path, file in found.items()}
        self.assertEqual(len(keys), 8)
        self.assertEqual(len(set(keys.values())), 4)
        for text in keys.values():
            self.assertRegex(text, rb"\A[0-9a-f]{64}\n\Z")
        self.assertEqual(self.read("stations/buoy/buoy-to-relay.key"), self.read("stations/relay/buoy-to-relay.key"))
        own = self.path("stations/relay/relay-to-shore.key")
        with open(own, "w") as file:
            file.write("mine\n")
        os.remove(self.path("stations/shore/relay-to-shore.key"))
        before = os.stat(own)
        self.expect_written("shore")
        self.assertEqual(self.read("stations/relay/relay-to-shore.key"), b"mine\n")
        self.assertEqual((os.stat(own).st_ino, os.stat(own).st_mtime_ns), (before.st_ino, before.st_mtime_ns))
        self.assertEqual(self.read("stations/shore/relay-to-shore.key"), b"mine\n")

    def test_a_key_of_many(self):
        """A key that several links share is one, also where only the last station has it."""
        self.write("network.toml", NETWORK.replace("both = true", 'both = true\nkey = "all.key"'))
        os.makedirs(self.path("stations/shore"))
        self.write("stations/shore/all.key", "theirs\n")
        self.expect_written("buoy", "relay", "shore")
        for name in ("buoy", "relay", "shore"):
            self.assertEqual(self.read(f"stations/{name}/all.key"), b"theirs\n")

    def test_a_change_touches_its_stations_alone(self):
        self.network()
        self.expect_written("buoy", "relay", "shore")
        before = self.files()
        self.network("rate = 1200", "rate = 2400")
        self.expect_written("buoy", "relay")
        after = self.files()
        self.assertEqual({path for path in before if before[path] != after[path]}, {"stations/buoy/plan.toml", "stations/relay/plan.toml"})

    def ids_of(self, name, array):
        """The id of each neighbour of a station's plan."""
        plan = tomllib.loads(self.read(f"stations/{name}/plan.toml").decode())
        return {it["station"]: it["id"] for it in plan[array]}

    def test_an_id_keeps_its_meaning(self):
        """A link is taken out and another one added: no id is another neighbour's, and one that was taken out keeps its own."""
        ring = '[[link]]\nfrom = "shore"\nto = "buoy"\nboth = true\n\n[[folder]]\nat = "buoy"'
        self.network('[[folder]]\nat = "buoy"', ring)
        self.expect_written("buoy", "relay", "shore")
        first = {array: self.ids_of("buoy", array) for array in ("peer", "hop")}
        text = self.read("network.toml").decode()
        # The first link goes, with the path over it; a new station comes.
        text = text.replace('[[link]]\nfrom = "buoy"\nto = "relay"\nboth = true\nrate = 1200\n', "")
        text = text.replace('via = [["buoy", "relay", "shore"]]', 'via = [["buoy", "shore"]]').replace('via = [["shore", "relay", "buoy"]]', 'via = [["shore", "buoy"]]')
        text = text.replace("]\n\n# Two", '    { number = 11, name = "ship", address = "127.0.0.1" },\n]\n\n# Two')
        text = text.replace('[[folder]]\nat = "buoy"', '[[link]]\nfrom = "ship"\nto = "buoy"\nboth = true\n\n[[folder]]\nat = "buoy"', 1)
        self.write("network.toml", text)
        run = self.rly("network", "write", "network.toml", "stations")
        self.assertEqual(run.stderr, b"")
        for array in ("peer", "hop"):
            then = self.ids_of("buoy", array)
            self.assertEqual({it: then[it] for it in first[array]}, first[array])
            self.assertEqual(set(then) - set(first[array]), {11})
            self.assertGreater(then[11], max(first[array].values()))
        gone = tomllib.loads(self.read("stations/buoy/plan.toml").decode())["hop"][first["hop"][7] - 1]
        self.assertEqual((gone["station"], gone["contacts"]), (7, []))

    def test_ids_that_are_gone(self):
        self.network()
        self.expect("network", "write", "network.toml", "stations")
        before = self.files()
        os.rename(self.path("network.ids"), self.path("kept"))
        errors = "not there, but plans were written with it; put it back, or write to another folder"
        self.expect("network", "write", "network.toml", "stations", errors=f"rly: network failed\nrly: network: network.ids: {errors}\n", status=1)
        self.assertFalse(os.path.exists(self.path("network.ids")))
        os.rename(self.path("kept"), self.path("network.ids"))
        self.assertEqual(self.files(), before)
        self.write("network.ids", "no ids")
        run = self.rly("network", "write", "network.toml", "stations")
        self.assertEqual(run.returncode, 1)
        self.assertTrue(run.stderr.startswith(b"rly: network failed\nrly: network: network.toml: "), run.stderr)

    def test_files_that_fail(self):
        missing = "rly: network failed\nrly: network: network.toml: "
        for words in [("write", "network.toml", "stations"), ("draw", "network.toml")]:
            run = self.rly("network", *words)
            self.assertEqual((run.returncode, run.stdout), (1, b""))
            self.assertTrue(run.stderr.decode().startswith(missing), run.stderr)
        self.network()
        self.write("stations", "a file")
        run = self.rly("network", "write", "network.toml", "stations")
        self.assertEqual(run.returncode, 1)
        self.assertTrue(run.stderr.startswith(b"rly: network failed\nrly: network: "), run.stderr)
        self.expect_stuck("network", "draw", "network.toml")

    def passes(self, text, name="passes.csv", to="passes.csv"):
        self.network('contacts = "satellite"', f'contacts = "{to}"')
        self.write(name, text)

    def test_contacts_from_a_file(self):
        """The plans are those that the same contacts in the network file give, and a changed file changes its stations alone."""
        self.network()
        self.expect("network", "write", "network.toml", "stations")
        before = self.files()
        self.passes(PASSES)
        self.expect_found("")
        self.expect_written()
        self.assertEqual(self.files(), before)
        self.write("passes.csv", PASSES.replace("18:10:00Z", "18:20:00Z"))
        self.expect_written("relay", "shore")
        after = self.files()
        self.assertEqual({path for path in before if before[path] != after[path]}, {"stations/relay/plan.toml", "stations/shore/plan.toml"})
        for name, hop in (("relay", 2), ("shore", 1)):
            plan = tomllib.loads(self.read(f"stations/{name}/plan.toml").decode())
            contacts = [[1803880800000000, 1803881400000000], [1803924000000000, 1803925200000000]]
            self.assertEqual([it["contacts"] for it in plan["hop"] if "remote" in it][hop - 1], contacts)
        run = self.rly("network", "draw", "network.toml")
        self.assertIn(b"passes.csv 2 contacts", run.stdout)

    def test_the_path_of_a_file_of_passes(self):
        """It begins at the folder of the network file, or it is absolute; a folder's `out` has one, too."""
        os.makedirs(self.path("net/passes"))
        for to in ("passes/a.csv", "./passes/a.csv", self.path("net/passes/a.csv")):
            self.passes(PASSES, "net/passes/a.csv", to)
            text = self.read("network.toml").decode().replace('out = "desk/out"', f'out = "desk/out"\ncontacts = "{to}"')
            self.write("net/network.toml", text)
            self.expect("network", "check", "net/network.toml")
        self.expect("network", "write", "net/network.toml", "stations")
        plan = tomllib.loads(self.read("stations/shore/plan.toml").decode())
        self.assertEqual([len(it["contacts"]) for it in plan["hop"]], [2, 2])

    def test_refused_passes(self):
        for what, old, new, line in IN_PASSES:
            with self.subTest(what):
                self.assertIn(old, PASSES)
                self.passes(PASSES.replace(old, new, 1))
                self.expect_found(f"link[2].contacts: passes.csv{line}\n")
        many = "\n".join(f"{2 * it},{2 * it + 1}" for it in range(4097))
        self.passes(f"begin,end\n{many}\n")
        self.expect_found("link[2].contacts: passes.csv: a hop has at most 4096 contacts\n")
        os.remove(self.path("passes.csv"))
        self.expect_found("link[2].contacts: passes.csv: not there\n")
        errors = "rly: network failed\nrly: network: passes.csv: "
        self.write("passes.csv", b"begin,end\n\xff\n")
        self.expect("network", "check", "network.toml", errors=f"{errors}not UTF-8\n", status=1)
        os.remove(self.path("passes.csv"))
        os.makedirs(self.path("passes.csv"))
        for words in (("check", "network.toml"), ("write", "network.toml", "stations"), ("draw", "network.toml")):
            self.expect("network", *words, errors=f"{errors}invalid input parameter\n", status=1)
        self.assertFalse(os.path.exists(self.path("stations")))

    @unittest.skipUnless(os.path.exists("/usr/bin/strace"), "there is no strace")
    def test_new_folders_are_durable(self):
        """Each folder that gets a new one is synced before anything is written in the new one."""
        self.network()
        words = ["strace", "-f", "-y", "-e", "trace=mkdir,mkdirat,fsync,rename,renameat,renameat2", "-o", self.path("trace")]
        run = subprocess.run([*words, RLY, "network", "write", "network.toml", "a/b"], capture_output=True, timeout=60, cwd=self.folder)
        self.assertEqual((run.returncode, run.stderr), (0, b""))
        lines = self.read("trace").decode().splitlines()
        for folder in ("", "/a", "/a/b"):
            synced = [at for at, line in enumerate(lines) if re.search(rf"fsync\(\d+<{re.escape(self.folder)}{folder}>", line)]
            made = [at for at, line in enumerate(lines) if "mkdir" in line and "= 0" in line]
            put = [at for at, line in enumerate(lines) if "rename" in line and "a/b/buoy/" in line]
            self.assertTrue(any(max(at for at in made if at < put[0]) < it < put[0] for it in synced), (folder, lines))

    def test_draw(self):
        self.network()
        run = self.rly("network", "draw", "network.toml")
        self.assertEqual((run.returncode, run.stderr), (0, b""))
        text = run.stdout.decode()
        self.assertTrue(text.startswith("digraph ") and text.endswith("}\n"), text)
        for part in ("buoy", "relay", "shore", "desk", "sensor", "satellite"):
            self.assertIn(part, text)
