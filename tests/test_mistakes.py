"""Mistakes of a user over all commands: each is answered by a text that names the file, the option or the key, and what to do.

A row has a name, the words after `rly`, what the text said before messages named all that, where that isn't the same for the whole table,
and what the text has to name. `UNNAMED` lists those that name less, with the reason. `tests/test_mistakes.py` as a program prints the
table: each mistake, what was said of it before, and what is said now."""
import os
import socket
import subprocess

from plans import changed
from program import KEY, RLY, SECONDS, Rows, plan_of
from test_plan_warnings import PLAN

# What was said of a file that isn't there, of a pipe, and of a file that is no device.
NO_FILE = "refused 23 device, No such file or directory"
INVALID = "refused 23 device, Invalid argument"
FOREIGN = "refused 20 notadevice"

# Options out of their limits. Before: `refused 21 badgeometry`, `rly: options: value out of limits`, whichever it was.
OPTIONS = [
    ("no hops", ["sim", "--hops=0"], ["--hops", " 0", "1 to 64"]),
    ("65 hops", ["sim", "--hops=65"], ["--hops", "65", "1 to 64"]),
    ("65 peers", ["sim", "--peers=65"], ["--peers", "65", "1 to 64"]),
    ("a window of 65", ["sim", "--window=65"], ["--window", "65", "1 to 64"]),
    ("no items", ["sim", "--items=0"], ["--items", "1 to 16384"]),
    ("bytes above 16 MiB", ["sim", "--bytes=16777217"], ["--bytes", "16777217", "1 to 16777216"]),
    ("a maxpacket above 65535", ["sim", "--maxpacket=65536"], ["--maxpacket", "0 to 65535"]),
    ("a target above the interval", ["sim", "--target=100001"], ["--target", "1 to 100000"]),
    ("an interval of two hours", ["sim", "--interval=7200000000"], ["--interval", "1 to 3600000000"]),
    ("a payload above 8192", ["sim", "--payload=8193"], ["--payload", "8193", "1 to 8192"]),
    ("format: 65 hops", ["format", "new", "--hops=65"], ["--hops", "65", "1 to 64"]),
    ("format: one segment", ["format", "new", "--segments=1"], ["--segments", "2 to 256"]),
    ("format: a short length", ["format", "new", "--length=1000"], ["--length", "1000", "455790 to 2147483647"]),
    ("format: a long length", ["format", "new", "--length=2147483648"], ["--length", "455790 to 2147483647"]),
]

# Files of devices. Before, the path was nowhere.
DEVICES = [
    ("play: no file", ["play", "nowhere"], NO_FILE, ["nowhere", "rly format"]),
    ("audit: no file", ["audit", "nowhere"], NO_FILE, ["nowhere", "rly format"]),
    ("audit: no copy", ["audit", "nowhere", "--copy"], NO_FILE, ["nowhere", "rly format"]),
    ("serve: no device", ["serve", "nowhere", "plan.toml"], NO_FILE, ["nowhere", "rly format"]),
    ("plan: no device", ["plan", "plan.toml", "--device=nowhere"], NO_FILE, ["nowhere", "rly format"]),
    ("format: no folder", ["format", "no/device"], NO_FILE, ["no/device", "folder"]),
    ("play: a folder", ["play", "."], "refused 23 device, Is a directory", ["rly: device: .: Is a directory"]),
    ("audit: a short file", ["audit", "short"], FOREIGN, ["short", "rly format"]),
    ("audit: a plan", ["audit", "plan.toml"], FOREIGN, ["plan.toml", "text", "device first"]),
    ("play: a plan", ["play", "plan.toml"], FOREIGN, ["plan.toml", "text"]),
    ("serve: plan and device swapped", ["serve", "plan.toml", "device"], "rly: plan failed", ["device", "a device, not a plan", "FILE PLAN"]),
    ("plan: a device", ["plan", "device"], "rly: plan failed", ["device", "a device, not a plan"]),
    ("plan: a plan as its device", ["plan", "plan.toml", "--device=plan.toml"], FOREIGN, ["plan.toml", "text"]),
    ("audit: a damaged device", ["audit", "damaged"], "refused 22 damaged 64", ["damaged", "byte 64"]),
    ("audit: a cut device", ["audit", "cut"], "refused 21 badgeometry", ["rly: device: cut", "too short"]),
    ("format: live datagrams", ["format", "busy"], "refused 23 device", ["busy", "live datagrams: 1", "--force"]),
    ("serve: a plan of more peers", ["serve", "device", "big.toml"], "refused 21 badgeometry", ["3 peers", "2 hops", "--peers 1", "--hops 1"]),
    ("serve: a plan of more hops", ["serve", "device", "hops.toml"], "refused 21 badgeometry", ["1 peers", "2 hops", "--hops 1"]),
    ("play: a pipe", ["play", "pipe"], INVALID, ["rly: device: pipe", "not a file or a block device"]),
    ("audit: a pipe", ["audit", "pipe"], INVALID, ["rly: device: pipe", "not a file or a block device"]),
    ("audit: a pipe as a copy", ["audit", "pipe", "--copy"], "new", ["rly: device: pipe", "not a file or a block device"]),
    ("audit: a folder as a copy", ["audit", ".", "--copy"], "new", ["rly: device: .: Is a directory"]),
    ("format: a pipe", ["format", "pipe"], INVALID, ["rly: device: pipe", "not a file or a block device"]),
    ("serve: a pipe as its device", ["serve", "pipe", "plan.toml"], INVALID, ["rly: device: pipe", "not a file or a block device"]),
    ("plan: a pipe as its device", ["plan", "plan.toml", "--device=pipe"], "new", ["rly: device: pipe", "not a file or a block device"]),
    ("audit: a terminal or /dev/null", ["audit", "/dev/null"], INVALID, ["/dev/null", "not a file or a block device"]),
    ("play: a socket", ["play", "socket"], "refused 23 device, No such device or address", ["socket", "not a file or a block device"]),
]

# Keys.
KEYS = [
    ("a key for all", ["plan", "shared.toml"], "permissions 44", ["shared.key", "chmod 600"]),
    ("serve: a key for all", ["serve", "device", "shared.toml"], "permissions 44", ["shared.key", "chmod 600"]),
    ("a key of another form", ["plan", "form.toml"], "not one or two lines", ["form.key", "64 hex digits", "rly key"]),
    ("a key that isn't there", ["plan", "missing.toml"], "No such file", ["missing.key", "No such file"]),
    ("a pipe as a key", ["plan", "pipe.toml"], "nothing: it waited for a writer", ["pipe.key", "not a regular file"]),
    ("serve: a pipe as a key", ["serve", "device", "pipe.toml"], "nothing: it waited for a writer", ["pipe.key", "not a regular file"]),
]

# Files of plans. Before, the path was nowhere. What a plan that can be read has wrong is in test_plan_faults.py.
PLANS = [
    ("plan: no file", ["plan", "nowhere.toml"], "rly: plan failed, No such file or directory", ["nowhere.toml", "No such file"]),
    ("serve: no plan's file", ["serve", "device", "nowhere.toml"], "rly: plan failed, No such file or directory", ["nowhere.toml"]),
    ("plan: a folder", ["plan", "."], "rly: plan failed, Is a directory", ["rly: plan: .: Is a directory"]),
    ("plan: a pipe", ["plan", "pipe"], "nothing: it waited for a writer", ["rly: plan: pipe: not a regular file"]),
    ("serve: a pipe as its plan", ["serve", "device", "pipe"], "nothing: it waited for a writer", ["rly: plan: pipe: not a regular file"]),
    ("plan: no UTF-8", ["plan", "latin.toml"], "rly: plan failed, invalid UTF-8", ["rly: plan: latin.toml", "UTF-8"]),
]

# Folders of `put` and `get`. Before, the path was nowhere.
FOLDERS = [
    ("put: no folder", ["put", "nowhere"], "rly: folder: No such file or directory", ["nowhere", "No such file"]),
    ("get: no folder", ["get", "nowhere"], "rly: folder: No such file or directory", ["nowhere", "No such file"]),
    ("put: a file", ["put", "device"], "rly: folder: not a folder", ["rly: folder: device: not a folder"]),
    ("get: a file", ["get", "device"], "rly: folder: not a folder", ["rly: folder: device: not a folder"]),
]

# Changes of a plan, and where `rly plan` warns. Before, nothing was said of any.
WARNED = [
    ("a peer with the station's own number", "station = 3", "station = 7", ["peer[1].station", "own number"]),
    ("a hop with the station's own number", "station = 9", "station = 7", ["hop[1].station", "own number"]),
    ("a peer without a port", "127.0.0.1:4001", "127.0.0.1", ["peer[1].listen", "ADDRESS:PORT"]),
    ("a hop that listens at port 0", "127.0.0.1:4003", "127.0.0.1:0", ["hop[1].listen", "port 0"]),
    ("one `listen` twice", "127.0.0.1:4003", "127.0.0.1:4001", ["hop[1].listen", "peer[1].listen", "a port of its own"]),
    ("IPv4 beside IPv6", "127.0.0.1:4004", "[::1]:4004", ["hop[1].remote", "IPv4 beside IPv6"]),
    ("contacts in seconds", "[0, 4503599627370495]", "[1795581000, 1795581600]", ["hop[1].contacts", "not seconds"]),
    ("contacts that are past", "[0, 4503599627370495]", "[0, 946684800000001]", ["hop[1].contacts", "past"]),
]

# Addresses that `serve` refuses.
ADDRESSES = [
    ("serve: no port", "127.0.0.1:4001", "127.0.0.1", "rly: link failed", ["peer 1: listen 127.0.0.1"]),
    ("serve: port 0", "127.0.0.1:4003", "127.0.0.1:0", "rly: link failed", ["hop 1: listen 127.0.0.1:0"]),
    ("serve: another machine's address", "127.0.0.1:4001", "192.0.2.1:4001", "rly: link failed", ["peer 1: listen 192.0.2.1:4001", "assign"]),
    ("serve: one `listen` twice", "127.0.0.1:4003", "127.0.0.1:4001", "rly: link failed", ["hop 1: listen 127.0.0.1:4001", "in use"]),
]

# Lines of `sim` and `play`: what is wrong with the second. Before, standard error had nothing.
LINES = [
    ("an empty line", "", ["line 2", "word 1", "take"]),
    ("another command", "push 1", ["line 2", "word 1"]),
    ("a capital", "Take 1 1 1 0 41", ["line 2", "word 1"]),
    ("too few words", "take 1 1 1", ["line 2", "4 words", "PAYLOAD"]),
    ("too many words", "show 1 1", ["line 2", "3 words", "show HOP"]),
    ("a peer above 65535", "take 65536 1 1 0 41", ["line 2", "word 2", "PEER", "65535"]),
    ("a sign", "take 1 -1 1 0 41", ["line 2", "word 3", "NUMBER"]),
    ("a leading zero", "pick 01 5", ["line 2", "word 2", "HOP"]),
    ("odd digits", "take 1 1 1 0 4", ["line 2", "word 6", "PAYLOAD", "hexadecimal"]),
    ("two spaces", "pick  1 5", ["line 2", "word 2"]),
    ("a carriage return", "show 1\r", ["line 2", "carriage return"]),
    ("a long line", "0" * 20_481, ["line 2", "20480"]),
]

# Command lines: status 2. Before: the same, but for `--keep-all`, which is new.
COMMANDS = [
    ("no command", [], ["Usage", "sim"]),
    ("another command", ["serv"], ["serv"]),
    ("another option", ["sim", "--hop=1"], ["--hop"]),
    ("an option without a number", ["sim", "--hops"], ["--hops"]),
    ("a word for a number", ["sim", "--hops=two"], ["--hops", "two"]),
    ("an option twice", ["sim", "--hops=1", "--hops=2"], ["--hops"]),
    ("no file", ["format"], ["FILE"]),
    ("no plan", ["serve", "device"], ["PLAN"]),
    ("a batch of 65", ["play", "device", "--batch=65"], ["--batch", "65", "64"]),
    ("a moment past the last", ["plan", "plan.toml", "--at=4503599627370496"], ["--at", "4503599627370495"]),
    ("keep-all beside a target", ["format", "new", "--keep-all", "--target=5000"], ["--keep-all", "--target"]),
    ("keep-all beside an interval", ["format", "new", "--keep-all", "--interval=5000"], ["--keep-all", "--interval"]),
    ("keep-all beside a maxpacket", ["format", "new", "--keep-all", "--maxpacket=5000"], ["--keep-all", "--maxpacket"]),
    ("a destination above 65535", ["put", ".", "--destination=65536"], ["--destination", "65535"]),
]

# Texts that name less, and why.
UNNAMED = [
    ("refused 14 memory", "it is no value of the user's; which growth was refused depends on the moment"),
    ("rly: input failed, rly: output failed", "the readers and writers of the contracts keep no word of the system"),
    ("rly: worker failed", "it names the peer or hop and the limits; the word of the system isn't handed on by the thread that wasn't made"),
    ("status 2", "the parser of command lines has texts of its own: they name the word, and `--help`"),
]


class Mistakes(Rows):
    def setUp(self):
        super().setUp()
        self.make_small("device")
        device = self.read("device")
        self.write("damaged", device[:64] + b"\0" + device[65:])
        self.write("cut", device[:-1])
        self.write("short", b"\xa5" * 63)
        self.write("latin.toml", b"station = 7 # \xff\n")
        for name in ("pipe", "pipe.key"):
            os.mkfifo(self.path(name), 0o600)
        with socket.socket(socket.AF_UNIX) as end:
            end.bind(self.path("socket"))
        self.make_small("busy")
        self.expect("play", "busy", input="take 1 1 1 0 41\n", output="taken 1 1\n")
        ends = ("127.0.0.1:4049", "127.0.0.1:4050")
        self.write("plan.toml", plan_of(1, 1, *ends))
        self.write("big.toml", plan_of(3, 2, *ends))
        self.write("hops.toml", plan_of(1, 2, *ends))
        for name, text, mode in [("shared", KEY, 0o644), ("form", "key\n", 0o600)]:
            self.write(f"{name}.key", text, mode)
        for name in ("shared", "form", "missing", "pipe"):
            self.write(f"{name}.toml", plan_of(1, 1, *ends) + f'key = "{name}.key"\n')

    def expect_named(self, words, status, named, input=""):
        run = self.rly(*words, input=input)
        told = run.stderr.decode()
        self.told = told
        self.assertEqual(run.returncode, status, told)
        self.assertTrue(told.endswith("\n"), told)
        for word in named:
            self.assertIn(word, told, f"rly {' '.join(words)}")
        return run

    def test_options(self):
        for name, words, named in OPTIONS:
            with self.subTest(name):
                run = self.expect_named(words, 1, named)
                self.assertEqual(run.stdout, b"")
                self.assertTrue(run.stderr.startswith(b"refused 21 badgeometry\nrly: options: --"), run.stderr)
        self.assertFalse(os.path.exists(self.path("new")))

    def test_devices(self):
        for name, words, _before, named in DEVICES:
            with self.subTest(name):
                run = self.expect_named(words, 1, named)
                self.assertEqual((run.stdout, run.stderr.count(b"\n")), (b"", 2), run.stderr)

    def test_keys(self):
        for name, words, _before, named in KEYS:
            with self.subTest(name):
                self.expect_named(words, 1, named)

    def test_plans(self):
        for name, words, _before, named in PLANS:
            with self.subTest(name):
                run = self.expect_named(words, 1, named)
                self.assertEqual((run.stdout, run.stderr.count(b"\n")), (b"", 2), run.stderr)

    def test_folders(self):
        for name, words, _before, named in FOLDERS:
            with self.subTest(name):
                self.expect_named(words, 1, ["rly: folder failed\n", *named])

    def test_what_a_plan_is_warned_of(self):
        for name, old, new, named in WARNED:
            with self.subTest(name):
                run = self.expect_named(["plan", self.write("changed.toml", changed(old, new, PLAN))], 0, named)
                self.assertEqual(run.stderr.count(b"\n"), 1, run.stderr)

    def test_addresses(self):
        for name, old, new, _before, named in ADDRESSES:
            with self.subTest(name):
                plan = self.write("changed.toml", changed(old, new, PLAN))
                self.expect_named(["serve", "device", plan, "--turns=1"], 1, ["rly: link failed\n", *named])

    def test_lines(self):
        for name, line, named in LINES:
            for words in (["sim"], ["play", "device"], ["play", "device", "--batch=64"]):
                with self.subTest(name, words=words):
                    run = self.expect_named(words, 0, named, input=f"show 1\n{line}\nshow 1\n")
                    self.assertEqual(run.stdout.splitlines()[1], b"refused 16 line")
                    self.assertEqual(run.stderr.count(b"\n"), 1, run.stderr)

    def test_commands(self):
        for name, words, named in COMMANDS:
            with self.subTest(name):
                run = self.expect_named(words, 2, named)
                self.assertEqual(run.stdout, b"")

    def test_a_user_without_permission(self):
        """A user who may read the device, and not write it, may audit it as a copy."""
        os.chmod(self.path("device"), 0o444)
        os.chmod(self.folder, 0o755)
        # The superuser may write all, and so becomes another user.
        other = {"user": 65_534} if os.geteuid() == 0 else {}
        plain, copy = (
            subprocess.run([RLY, "audit", "device", *words], capture_output=True, timeout=SECONDS, cwd=self.folder, **other)
            for words in ([], ["--copy"])
        )
        self.assertEqual((plain.returncode, plain.stdout), (1, b""))
        self.assertIn(b"rly: permission: device: Permission denied", plain.stderr)
        self.assertIn(b"read and write", plain.stderr)
        self.assertEqual((copy.returncode, copy.stderr), (0, b""))
        os.chmod(self.path("device"), 0)
        if other:
            run = subprocess.run([RLY, "audit", "device", "--copy"], capture_output=True, timeout=SECONDS, cwd=self.folder, **other)
            self.assertIn(b"able to read it", run.stderr)

    def test_there_are_enough(self):
        tables = OPTIONS, DEVICES, KEYS, PLANS, FOLDERS, WARNED, ADDRESSES, LINES, COMMANDS
        self.assertGreaterEqual(sum(map(len, tables)), 73)


class FullPipe(Rows):
    """Nobody reads standard error, and its pipe is full: each command ends."""

    def ends(self, *words, status):
        reader, writer = os.pipe()
        try:
            os.set_blocking(writer, False)
            try:
                while True:
                    os.write(writer, b"x" * 65_536)
            except BlockingIOError:
                pass
            os.set_blocking(writer, True)
            run = subprocess.run(
                [RLY, *words], input=b"no\n" * 2_000, stdout=subprocess.DEVNULL, stderr=writer, timeout=SECONDS, cwd=self.folder
            )
            self.assertEqual(run.returncode, status, words)
        finally:
            os.close(reader)
            os.close(writer)

    def test_each_command_ends(self):
        """`plan --device` says something of the device, which can't be written."""
        self.make_small("device")
        contacts = "contacts = [[0, 4503599627370495]]"
        self.write("plan.toml", plan_of(1, 1, "127.0.0.1:4049", "127.0.0.1:4050").replace("contacts = []", contacts))
        for words, status in [
            (["audit", "nowhere"], 1),
            (["format", "new", "--hops=65"], 1),
            (["plan", "nowhere"], 1),
            (["plan", "plan.toml", "--device=device"], 1),
            (["serve", "device", "nowhere"], 1),
            (["sim"], 0),
            (["play", "device"], 0),
            (["sim", "--hop=1"], 2),
            ([], 2),
        ]:
            with self.subTest(words):
                self.ends(*words, status=status)


class Lines(Rows):
    """Each line on standard error is one write."""

    def test_each_line_is_one_write(self):
        """A socket of packets keeps writes apart."""
        import socket

        near, far = socket.socketpair(socket.AF_UNIX, socket.SOCK_SEQPACKET)
        with near, far:
            for words, status in [(["audit", "nowhere"], 1), (["sim", "--hops=65"], 1), (["sim", "--hop=1"], 2)]:
                run = subprocess.run([RLY, *words], stdin=subprocess.DEVNULL, stdout=subprocess.DEVNULL, stderr=far, cwd=self.folder)
                self.assertEqual(run.returncode, status)
                near.setblocking(False)
                pieces = []
                try:
                    while True:
                        pieces.append(near.recv(65_536))
                except BlockingIOError:
                    pass
                self.assertTrue(pieces)
                for piece in pieces:
                    self.assertTrue(piece.endswith(b"\n") and piece.count(b"\n") == 1, pieces)


def rows():
    """Each mistake: its name, what was said before, the words after `rly`, its input, and the change of a plan that makes its file."""
    limits = "refused 21 badgeometry, rly: options: value out of limits"
    for name, words, _named in OPTIONS:
        yield name, limits, words, "", None
    for name, words, before, _named in (*DEVICES, *KEYS, *PLANS, *FOLDERS):
        yield name, before, words, "", None
    for name, old, new, _named in WARNED:
        yield name, "nothing", ["plan", "changed.toml"], "", (old, new)
    for name, old, new, before, _named in ADDRESSES:
        yield name, before, ["serve", "device", "changed.toml", "--turns=1"], "", (old, new)
    for name, line, _named in LINES:
        yield f"sim: {name}", "nothing", ["sim"], f"show 1\n{line}\nshow 1\n", None
    for name, words, _named in COMMANDS:
        yield name, "new" if "--keep-all" in words else "the same", words, "", None


def print_table():
    """Prints the table of mistakes, before and after."""
    case = Mistakes()
    case.setUp()
    print("| mistake | before | now |\n|---|---|---|")
    for name, before, words, text, change in rows():
        if change:
            case.write("changed.toml", changed(*change, PLAN))
        told = case.rly(*words, input=text).stderr.decode().strip().splitlines()
        print(f"| {name} | {before} | {' / '.join(filter(str.strip, told[:3]))} |")
    for name, why in UNNAMED:
        print(f"| {name} | the same | {why} |")
    case.doCleanups()


if __name__ == "__main__":
    print_table()
