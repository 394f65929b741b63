"""What each test of the program starts from: a run of the built `rly` in a folder of its own, and what it has to put out."""
import os
import re
import select
import shutil
import subprocess
import tempfile
import unittest

TOP = os.path.dirname(os.path.dirname(os.path.abspath(__file__)))
RLY = f"{TOP}/crates/rly/out/rly"
# A run that takes longer than this has failed.
SECONDS = 60
# What is told of a device's file that isn't there.
NO_FILE = "No such file or directory (os error 2); `rly format` makes it"
NO_DEVICE = f"refused 23 device\nrly: device: device: {NO_FILE}\n"
# A line on standard error on a line of the input that is no command.
NOTE = re.compile(rb"rly: line \d+: [^\n]+\n")
# The worked key of docs/PROTOCOL.md.
KEY = "000102030405060708090a0b0c0d0e0f101112131415161718191a1b1c1d1e1f\n"


def as_bytes(text):
    return text.encode() if isinstance(text, str) else text


def bad_option(option, least, most):
    """What is told of an option `--NAME=VALUE` that is out of its limits."""
    name, value = option.split("=")
    return f"refused 21 badgeometry\nrly: options: {name} {value}: {least} to {most}\n"


def plan_of(peers, hops, listen, remote):
    """A plan of so many peers and hops, whose links all have these addresses."""
    ends = f'listen = "{listen}"\nremote = "{remote}"\n'
    peer = "".join(f"[[peer]]\nid = {id}\nstation = {id}\n{ends}" for id in range(1, peers + 1))
    hop = "".join(f"[[hop]]\nid = {id}\nstation = {id}\n{ends}contacts = []\n" for id in range(1, hops + 1))
    return f"station = 7\n{peer}{hop}"


def parted(rows):
    """The input and the output of rows `COMMAND -> REPLY`. A line without an arrow goes on with the reply above it."""
    commands, replies = [], []
    for line in filter(str.strip, rows.splitlines()):
        command, arrow, reply = line.partition("->")
        if arrow:
            commands.append(command.strip())
            replies.append(reply.strip())
        else:
            replies[-1] += f" {line.strip()}"
    return "".join(f"{it}\n" for it in commands), "".join(f"{it}\n" for it in replies)


class Rows(unittest.TestCase):
    """Tests whose files stand in `self.folder`, which is gone after each test."""

    maxDiff = 4000

    def setUp(self):
        folder = tempfile.TemporaryDirectory(prefix="rly-tests-")
        self.addCleanup(folder.cleanup)
        self.folder = folder.name

    def path(self, name):
        return f"{self.folder}/{name}"

    def read(self, name):
        with open(self.path(name), "rb") as file:
            return file.read()

    def write(self, name, content, mode=0o600):
        """Writes a file anew; its path."""
        path = self.path(name)
        if os.path.lexists(path):
            os.remove(path)
        with open(path, "wb") as file:
            file.write(as_bytes(content))
        os.chmod(path, mode)
        return path

    def rly(self, *words, input=b""):
        """A finished run: `returncode`, and the bytes of `stdout` and `stderr`."""
        return subprocess.run([RLY, *words], input=as_bytes(input), capture_output=True, timeout=SECONDS, cwd=self.folder)

    def expect(self, *words, input=b"", output=b"", errors=b"", status=0):
        """Runs `rly` on these words, and compares all that it puts out. Of each line that is no command standard error has a line."""
        run = self.rly(*words, input=input)
        refused = run.stdout.count(b"refused 16 line\n")
        # More of them may fill the pipe, and what that has no room for is left out.
        if words[0] in ("sim", "play") and refused < 500:
            self.assertEqual(len(NOTE.findall(run.stderr)), refused, f"rly {' '.join(words)}")
        found = {"status": run.returncode, "output": run.stdout, "errors": NOTE.sub(b"", run.stderr)}
        wanted = {"status": status, "output": as_bytes(output), "errors": as_bytes(errors)}
        self.assertEqual(found, wanted, f"rly {' '.join(words)}")

    def long_path(self, name):
        """The path of a file by 1,900 steps more, each of which stays in its folder: more than 3,800 bytes."""
        return f"{self.folder}{'/.' * 1900}/{name}"

    def make_small(self, name):
        """Formats a file as the small device: one hop, one peer, 16 items, 4,096 bytes."""
        words = ["--hops=1", "--peers=1", "--items=16", "--bytes=4096"]
        self.expect("format", name, *words, output="formatted 320772\n")

    def expect_stuck(self, *words):
        """Checks that a command fails whose output takes all that is written, and can't hand it on."""
        with open("/dev/full", "wb") as full:
            run = subprocess.run(
                [RLY, *words], stdin=subprocess.DEVNULL, stdout=full, stderr=subprocess.PIPE, timeout=SECONDS, cwd=self.folder
            )
        self.assertEqual((run.returncode, run.stderr), (1, b"rly: output failed\n"), f"rly {' '.join(words)}")

    def preload(self, **how):
        """The environment of a run with `preloaded.c` in front of the C library, which is told this."""
        if not shutil.which("cc"):
            self.skipTest("there is no C compiler")
        library = self.path("preloaded.so")
        subprocess.run(["cc", "-O1", "-shared", "-fPIC", "-o", library, f"{TOP}/tests/preloaded.c", "-ldl"], check=True)
        return {**os.environ, "LD_PRELOAD": library, **{name: str(value) for name, value in how.items()}}

    def start(self, *words, **how):
        """A run that goes on beside the test, until its end at most. `how` are words of `Popen`."""
        streams = {"stdin": subprocess.PIPE, "stdout": subprocess.PIPE, "stderr": subprocess.PIPE, "bufsize": 0}
        run = self.enterContext(subprocess.Popen([RLY, *words], **streams, cwd=self.folder, **how))
        self.addCleanup(run.kill)
        return run

    def answer(self, run):
        """What such a run puts out next, up to the end of a line."""
        text = b""
        while not text.endswith(b"\n"):
            ready, _, _ = select.select([run.stdout], [], [], SECONDS)
            self.assertTrue(ready, f"no answer within {SECONDS} seconds")
            part = run.stdout.read(4096)
            self.assertTrue(part, "the output has ended")
            text += part
        return text

    def log_line(self, run):
        """The next line that such a run writes on standard error; none once it has ended."""
        ready, _, _ = select.select([run.stderr], [], [], SECONDS)
        self.assertTrue(ready, f"no line within {SECONDS} seconds")
        return run.stderr.readline()
