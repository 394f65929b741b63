"""Standard error of `rly`: each line is one write, which nothing waits for."""
import os
import resource
import subprocess
import time
import unittest

from program import NO_FILE, RLY, SECONDS, Rows, plan_of
from test_serve import CUSTODY, FIRST_GROUP, Stations

TOO_MANY = b"x" * 65536


class Unread:
    """What tests of a standard error that nobody reads have in common."""

    def full_pipe(self):
        """A pipe that nobody reads, with no room: its ends."""
        reads, writes = os.pipe()
        self.addCleanup(os.close, reads)
        self.addCleanup(os.close, writes)
        os.set_blocking(writes, False)
        try:
            while True:
                os.write(writes, TOO_MANY)
        except BlockingIOError:
            os.set_blocking(writes, True)
        return reads, writes

    def run_on(self, writes, *words, **how):
        return subprocess.run([RLY, *words], stdin=subprocess.DEVNULL, stdout=subprocess.PIPE, stderr=writes, timeout=SECONDS, cwd=self.folder, **how)


class FullPipe(Unread, Stations):
    def test_a_station_takes_a_datagram(self):
        reads, writes = self.full_pipe()
        self.make_small("device")
        with self.neighbour() as neighbour:
            self.assertEqual(self.run_on(writes, "serve", "device", "plan", "--turns=20").returncode, 1)
        self.assertEqual(neighbour.heard, CUSTODY)

    def test_a_station_ends_once_its_device_broke(self):
        """Its first write fails. It has no limit of turns, and ends all the same."""
        reads, writes = self.full_pipe()
        self.rly("format", "device", "--hops=1", "--peers=1", "--items=16", "--bytes=4096", "--segments=2")
        streams = {"stdin": subprocess.DEVNULL, "stdout": subprocess.DEVNULL, "stderr": writes}
        # (a write past the limit ends no program that ignores its signal, as Python does)
        run = subprocess.Popen([RLY, "serve", "device", "plan"], **streams, cwd=self.folder, restore_signals=False)
        self.addCleanup(run.kill)
        resource.prlimit(run.pid, resource.RLIMIT_FSIZE, (FIRST_GROUP, FIRST_GROUP))
        with self.neighbour() as neighbour:
            self.assertEqual(run.wait(SECONDS), 1)
        self.assertIsNone(neighbour.heard)

    def test_other_commands_end(self):
        """Of a refused value, file, plan or folder, of lines that are none, and of what `plan` says of a plan and a device."""
        reads, writes = self.full_pipe()
        self.make_small("device")
        self.write("warned", plan_of(1, 1, "127.0.0.1", "127.0.0.1:4050"))
        for words, status in [
            (["format", "new", "--hops=65"], 1),
            (["format", "nowhere/new"], 1),
            (["play", "nowhere"], 1),
            (["audit", "plan"], 1),
            (["audit", "device"], 0),
            (["audit", "device", "--made"], 0),
            (["serve", "plan", "device"], 1),
            (["serve", "device", "nowhere"], 1),
            (["plan", "warned"], 1),
            (["plan", "plan", "--device=device"], 1),
            (["put", "nowhere"], 1),
            (["get", "nowhere"], 1),
            (["key", "more"], 2),
            (["--help"], 0),
        ]:
            with self.subTest(words):
                self.assertEqual(self.run_on(writes, *words).returncode, status)


class LogLines(Unread, Rows):
    def test_nothing_waits_for_a_full_pipe(self):
        """A station serves its turns and ends, with status 1 since nothing was told; other commands end as they do."""
        reads, writes = self.full_pipe()
        self.make_small("device")
        self.write("plan", plan_of(1, 1, "127.0.0.1:4049", "127.0.0.1:4050").replace("4049", "4051", 1))
        self.assertEqual(self.run_on(writes, "serve", "device", "plan", "--turns=3").returncode, 1)
        for words, status in [(["audit", "nowhere"], 1), (["plan", "nowhere"], 1), (["format"], 2), (["no"], 2)]:
            with self.subTest(words):
                self.assertEqual(self.run_on(writes, *words).returncode, status)

    def test_lost_lines_are_counted(self):
        """A pipe of a page has room again once it is read: the next line says how many were lost."""
        reads, writes = self.full_pipe()
        self.make_small("device")
        self.write("plan", plan_of(1, 1, "127.0.0.1:4049", "127.0.0.1:4050").replace("4049", "4051", 1))
        words = [RLY, "serve", "device", "plan", "--turns=300"]
        run = subprocess.Popen(words, stdin=subprocess.DEVNULL, stdout=subprocess.PIPE, stderr=writes, cwd=self.folder)
        self.addCleanup(run.kill)
        time.sleep(1)
        os.set_blocking(reads, False)
        try:
            while os.read(reads, 65536):
                pass
        except BlockingIOError:
            pass
        self.assertEqual(run.wait(SECONDS), 1)
        run.stdout.close()
        self.assertEqual(os.read(reads, 65536), b"rly: 1 line of this log was lost\nrly: output failed\n")

    def journal(self, *words):
        """What a run tells the system's journal."""
        reads, writes = os.pipe()
        found = os.fstat(writes)
        env = {**os.environ, "JOURNAL_STREAM": f"{found.st_dev}:{found.st_ino}"}
        run = self.run_on(writes, *words, env=env)
        os.close(writes)
        with open(reads, "rb") as told:
            return run.returncode, told.read().decode()

    def test_the_journal_gets_priorities(self):
        self.make_small("device")
        self.write("plan", plan_of(1, 1, "127.0.0.1:4049", "127.0.0.1:4050").replace("4049", "4051", 1))
        told = "<6>rly: serving station 7, 1 peers, 1 hops, device 320772 bytes, 0 of 16 live\n"
        told += "<6>rly: links without a key: peer 1, hop 1\n<6>rly: ended after 2 turns\n"
        self.assertEqual(self.journal("serve", "device", "plan", "--turns=2"), (0, told))
        failed = f"<3>refused 23 device\n<3>rly: device: nowhere: {NO_FILE}\n"
        self.assertEqual(self.journal("audit", "nowhere"), (1, failed))

    def test_another_stream_gets_none(self):
        env = {**os.environ, "JOURNAL_STREAM": "1:1"}
        run = subprocess.run([RLY, "audit", "nowhere"], capture_output=True, timeout=SECONDS, cwd=self.folder, env=env)
        self.assertEqual(run.stderr.decode(), f"refused 23 device\nrly: device: nowhere: {NO_FILE}\n")

    @unittest.skipUnless(os.path.exists("/usr/bin/strace"), "there is no strace")
    def test_a_line_is_one_write(self):
        self.make_small("device")
        self.write("plan", plan_of(1, 1, "127.0.0.1:4049", "127.0.0.1:4050").replace("4049", "4051", 1))
        words = ["strace", "-f", "-e", "trace=write", "-e", "write=none", "-o", self.path("trace")]
        subprocess.run([*words, RLY, "serve", "device", "plan", "--turns=2"], capture_output=True, timeout=SECONDS, cwd=self.folder)
        lines = [line for line in self.read("trace").decode().splitlines() if "write(2, " in line]
        self.assertEqual(len(lines), 3, lines)
