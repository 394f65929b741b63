"""A station says which datagrams CoDel drops and which expire, and how full its spool is."""
import os
import re
import socket
import time

from program import Rows
from test_silent_links import END, MINUTE, Log

# A payload for destination 12, and how many of them are put before the contact.
PAYLOAD = b"\x00\x0c" + b"A" * 62
COUNT = 600
# How many bytes a second go out to the hop: 600 of these payloads take more than CoDel's interval by far.
RATE = 12_000
# Seconds until the contact opens, in which all are stored.
BEFORE = 15
# The spool has room for a few more than are put: they are 93 % of it.
ITEMS = 640


class Discards(Rows):
    def setUp(self):
        super().setUp()
        ends = [socket.socket(socket.AF_INET, socket.SOCK_DGRAM) for _ in range(2)]
        for end in ends:
            end.bind(("127.0.0.1", 0))
        self.ports = [end.getsockname()[1] for end in ends]
        for end in ends:
            end.close()

    def receiver(self):
        """A station behind the hop, which hands all out to a folder."""
        own, other = self.ports
        os.mkdir(self.path("out"))
        peer = f'[[peer]]\nid = 1\nstation = 4\nlisten = "127.0.0.1:{other}"\nremote = "127.0.0.1:{own}"\n'
        hop = f'[[hop]]\nid = 1\nstation = 9\nfolder = "out"\ncontacts = [[0, {END}]]\n'
        self.write("second.plan", f"station = 7\n{peer}{hop}[[route]]\ndestination = 12\nhop = 1\n")
        self.rly("format", "second", "--hops=1", "--peers=1", "--keep-all")
        Log(self.start("serve", "second", "second.plan")).wait_for("rly: serving", MINUTE)

    def sender(self, opens, *options, more="", given=""):
        """A station whose peer is a folder, and whose contact opens then, in microseconds; its log."""
        own, other = self.ports
        os.mkdir(self.path("in"))
        peer = f'[[peer]]\nid = 1\nstation = 3\nfolder = "in"\n{more}'
        ends = f'listen = "127.0.0.1:{own}"\nremote = "127.0.0.1:{other}"\nrate = {RATE}\n'
        hop = f"[[hop]]\nid = 1\nstation = 7\n{ends}contacts = [[{opens}, {END}]]\n"
        self.write("first.plan", f"station = 4\n{peer}{hop}[[route]]\ndestination = 12\nhop = 1\n")
        self.rly("format", "first", "--hops=1", "--peers=1", f"--items={ITEMS}", *options)
        self.rly("play", "first", input=given)
        log = Log(self.start("serve", "first", "first.plan"))
        log.wait_for("rly: serving", MINUTE)
        return log

    def put_all(self):
        self.expect("put", "in", "--lines", "--destination=12", input=(PAYLOAD[2:] + b"\n") * COUNT)

    def test_codel_drops_a_backlog(self):
        """The first drop is told with its origin, 90 % of the spool before it, and less than 80 % after it."""
        self.receiver()
        log = self.sender(int((time.time() + BEFORE) * 1_000_000))
        self.put_all()
        full = log.wait_for("rly: spool:", MINUTE)
        self.assertRegex(full, rf"^rly: spool: (5[7-9]\d|600) of {ITEMS} datagrams, \d+ of 1048576 bytes: 90 % full$")
        crowd = log.wait_for("rly: hop 1: 321", MINUTE)
        self.assertEqual(crowd, f"rly: hop 1: 321 of {ITEMS} datagrams are for it: more than half of the spool")
        first = log.wait_for("rly: hop 1: CoDel dropped", MINUTE)
        wanted = r"^rly: hop 1: CoDel dropped datagram \d+ of peer 1 for station 12 after (\d+) ms of open contact \(1 so far\)$"
        self.assertRegex(first, wanted)
        # It waited longer than CoDel's interval, and no longer than the contact was open.
        self.assertIn(int(re.match(wanted, first)[1]), range(100, 8_000))
        log.wait_for("none such", 10)
        lines = log.text.decode().splitlines()
        self.assertEqual(sum("CoDel dropped" in line for line in lines), 1)
        self.assertRegex("\n".join(lines), rf"rly: spool: \d+ of {ITEMS} datagrams, \d+ of 1048576 bytes: under 80 %")

    def test_what_waited_longer_than_its_limit(self):
        self.receiver()
        log = self.sender(int((time.time() + BEFORE) * 1_000_000), "--keep-all", more="limit = 500\n")
        self.put_all()
        first = log.wait_for("rly: hop 1: datagram", MINUTE)
        wanted = r"^rly: hop 1: datagram \d+ of peer 1 for station 12 expired after (\d+) ms of open contact \(1 so far\)$"
        self.assertRegex(first, wanted)
        self.assertIn(int(re.match(wanted, first)[1]), range(500, 1_500))

    def test_what_was_stored_before_the_start(self):
        self.receiver()
        takes = [f"take 1 {number} 1 0 {PAYLOAD.hex()}\n" for number in range(1, COUNT + 1)]
        log = self.sender(0, given="".join(takes))
        first = log.wait_for("rly: hop 1: CoDel dropped", MINUTE)
        self.assertRegex(first, r"^rly: hop 1: CoDel dropped datagram \d+, stored before this start or long ago \(1 so far\)$")
