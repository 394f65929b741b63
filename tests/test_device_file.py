"""The file of a device that is removed, replaced or cut short while `rly serve` has it."""
import os
import re
import shutil

from program import SECONDS
from test_folder_station import SERVED, Folders

# What is done to the file of the device, and what is told of it.
LOSSES = [
    ("removed", lambda path: os.remove(path), "removed or replaced while it was served"),
    ("renamed", lambda path: os.rename(path, path + ".old"), "renamed while it was served"),
    ("renamed and made anew", lambda path: (os.rename(path, path + ".old"), shutil.copy(path + ".old", path)), "renamed while it was served"),
    ("replaced", lambda path: (shutil.copy(path, path + ".new"), os.rename(path + ".new", path)), "removed or replaced while it was served"),
    ("cut to nothing", lambda path: os.truncate(path, 0), "cut short while it was served"),
    ("cut to half", lambda path: os.truncate(path, os.path.getsize(path) // 2), "cut short while it was served"),
]


class Losses(Folders):
    def lose(self, loss):
        """A station that took a datagram on a new device, and then lost its file."""
        for name in ("device", "device.old", "device.ids"):
            if os.path.exists(self.path(name)):
                os.remove(self.path(name))
        for name in ("in", "out"):
            shutil.rmtree(self.path(name))
            os.mkdir(self.path(name))
        self.make_small("device")
        run = self.serve()
        self.put(1, b"\0\14first")
        self.wake()
        self.wait_for(lambda: self.names("out/out") == ["00000000000000000001"])
        self.wait_for(lambda: not self.names("in/new") + self.names("in/sent"))
        loss(self.path("device"))
        return run

    def expect_end(self, run, word, seconds):
        ended = self.wait_for(lambda: run.poll() is not None, SECONDS)
        told = run.stderr.read()
        wanted = f"refused 11 broken\nrly: device: device: {word}\n".encode()
        # (a spool that fills has lines before these)
        self.assertEqual((run.returncode, told[-len(wanted):]), (1, wanted))
        self.assertLess(ended, seconds)

    def test_nothing_more_is_acknowledged(self):
        """The next datagram isn't taken: its file stays, and the station ends within a second."""
        for name, loss, word in LOSSES:
            with self.subTest(name):
                run = self.lose(loss)
                self.put(2, b"\0\14second")
                self.wake()
                self.expect_end(run, word, 1.0)
                self.assertEqual(self.names("in/new") + self.names("in/sent"), ["00000000000000000002"])
                self.assertEqual(self.names("out/out"), ["00000000000000000001"])

    def test_under_load(self):
        """Each file that is gone from the folder was taken onto the device, which is still there under another name."""
        run = self.lose(lambda path: None)
        for number in range(2, 1000):
            self.put(number, b"\0\14" + b"x" * 200)
        self.wake()
        self.wait_for(lambda: len(self.names("in/new")) < 990)
        os.rename(self.path("device"), self.path("device.old"))
        self.expect_end(run, "renamed while it was served", 1.0)
        left = len(self.names("in/new")) + len(self.names("in/sent"))
        taken = re.search(rb"peer 1 last (\d+)", self.rly("audit", "device.old").stdout)
        self.assertGreaterEqual(int(taken[1]), 999 - left)

    def test_a_name_may_end_as_the_system_tells_of_a_removed_file(self):
        self.make_small("device (deleted)")
        run = self.start("serve", "device (deleted)", "plan")
        self.assertEqual(b"".join(self.log_line(run) for _ in SERVED.splitlines()), SERVED)
        self.put(1, b"\0\14first")
        self.wake()
        self.wait_for(lambda: self.names("out/out") == ["00000000000000000001"])
        os.remove(self.path("device (deleted)"))
        self.put(2, b"\0\14second")
        self.wake()
        self.wait_for(lambda: run.poll() is not None, SECONDS)
        told = b"refused 11 broken\nrly: device: device (deleted): removed or replaced while it was served\n"
        self.assertTrue(run.stderr.read().endswith(told))

    def test_a_device_that_grows_is_none_that_is_lost(self):
        run = self.lose(lambda path: os.truncate(path, os.path.getsize(path) + 4096))
        self.put(2, b"\0\14second")
        self.wake()
        self.wait_for(lambda: len(self.names("out/out")) == 2)
        run.terminate()
        self.assertEqual((run.wait(SECONDS), run.stderr.read()), (-15, b""))
