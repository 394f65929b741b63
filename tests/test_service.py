"""The unit of `examples/rly.service` under a systemd of its own, in namespaces of its own: whatever ends the station, it serves again."""
import os
import select
import shutil
import signal
import socket
import struct
import subprocess
import sys
import time
import unittest
from importlib.machinery import SourceFileLoader
from importlib.util import module_from_spec, spec_from_loader

from program import RLY, TOP, Rows

SYSTEMD = "/lib/systemd/systemd"
OWN, PEER = 7, 3
# How long it may take until a station that ended serves again: the unit's pause is 5 seconds.
AGAIN = 10.0
# The number of the station's user and group, which have one name, and that of a user of the group.
STATION, APPLICATION = 64001, 64002
NAME = "rly-of-the-test"
# The namespaces, and in them systemd with one unit. Nothing of the machine's own units is started.
START = """
mount --make-rprivate /
mount -t tmpfs tmpfs /run
mkdir -p /run/systemd/system/rly.service.d
cp "$1"/try.target "$1"/rly.service /run/systemd/system
cp "$1"/place.conf /run/systemd/system/rly.service.d
mount --bind "$1"/passwd /etc/passwd
mount --bind "$1"/group /etc/group
container=docker exec /lib/systemd/systemd --system --unit=try.target --log-target=console --show-status=no
"""
NAMESPACES = ["unshare", "--fork", "--kill-child", "--pid", "--mount", "--uts", "--ipc", "--mount-proc"]


def may_run():
    """Whether this machine has a systemd that may have namespaces of its own."""
    if not os.path.exists(SYSTEMD) or shutil.which("unshare") is None:
        return False
    return subprocess.run([*NAMESPACES, "mount", "--make-rprivate", "/"], capture_output=True).returncode == 0


def packaged_unit():
    """The unit as the package has it."""
    sys.dont_write_bytecode = True
    loader = SourceFileLoader("package", f"{TOP}/package")
    made = module_from_spec(spec_from_loader("package", loader))
    loader.exec_module(made)
    return made.unit(*made.UNIT)


@unittest.skipUnless(may_run(), "no systemd that may have namespaces of its own")
class Units(Rows):
    """A systemd with the unit."""

    # Who runs the station, and in what group.
    user, group = "root", "root"

    def free_port(self):
        with socket.socket(socket.AF_INET, socket.SOCK_DGRAM) as keeper:
            keeper.bind(("127.0.0.1", 0))
            return keeper.getsockname()[1]

    def serve(self):
        """Starts systemd with the unit, once it has started another program under the same restrictions."""
        self.start_unit(f"/bin/touch {self.path('started')}", "Restart=no\n").kill()
        if not os.path.exists(self.path("started")):
            self.skipTest("this systemd starts no program under the unit's restrictions")
        self.start_unit(f"{RLY} serve {self.path('device.rly')} {self.path('plan.toml')}")

    def start_unit(self, command, more=""):
        """Starts systemd with the unit, whose program, files and user alone are the test's. Of a trial it waits for the file."""
        place = f"[Unit]\nDefaultDependencies=no\n[Service]\nExecStart=\nExecStart={command}\nDynamicUser=no\n"
        place += f"User={self.user}\nGroup={self.group}\n"
        place += f"PrivateTmp=no\nReadWritePaths={self.folder}\nStandardError=file:{self.path('errors')}\n"
        place += f"CapabilityBoundingSet=~\nPrivateDevices=no\nProtectHome=no\n{more}"
        self.write("place.conf", place, 0o644)
        with open("/etc/passwd") as passwd, open("/etc/group") as group:
            self.write("passwd", f"{passwd.read()}{NAME}:x:{STATION}:{STATION}::/:/usr/sbin/nologin\n", 0o644)
            self.write("group", f"{group.read()}{NAME}:x:{STATION}:\n", 0o644)
        self.write("try.target", "[Unit]\nDefaultDependencies=no\nWants=rly.service\n", 0o644)
        self.write("rly.service", self.unit, 0o644)
        with open(self.path("log"), "wb") as log:
            run = subprocess.Popen([*NAMESPACES, "sh", "-c", START, "sh", self.folder], stdout=log, stderr=log)
        self.addCleanup(run.wait)
        self.addCleanup(run.kill)
        until = time.monotonic() + AGAIN
        while more and not os.path.exists(self.path("started")) and time.monotonic() < until:
            time.sleep(0.05)
        return run


class Services(Units):
    """A station of one peer, whose neighbour is this test."""

    def setUp(self):
        super().setUp()
        os.chmod(self.folder, 0o755)
        self.neighbour = socket.socket(socket.AF_INET, socket.SOCK_DGRAM)
        self.addCleanup(self.neighbour.close)
        self.neighbour.bind(("127.0.0.1", 0))
        self.port, hop_port = self.free_port(), self.free_port()
        remote = self.neighbour.getsockname()[1]
        self.plan = (
            f'station = {OWN}\n[[peer]]\nid = 1\nstation = {PEER}\nlisten = "127.0.0.1:{self.port}"\n'
            f'remote = "127.0.0.1:{remote}"\n[[hop]]\nid = 1\nstation = 9\nlisten = "127.0.0.1:{hop_port}"\nremote = "127.0.0.1:9"\n'
            "contacts = []\n[[route]]\ndestination = 12\nhop = 1\n"
        )
        self.write("plan.toml", self.plan, 0o644)
        self.make_small("device.rly")
        with open(f"{TOP}/examples/rly.service") as file:
            self.unit = file.read()

    def is_answered(self):
        """Whether the station answers a Data with number 0 at once."""
        ask = struct.pack(">2sBBHHQHH", b"RL", 1, 1, PEER, OWN, 0, 2, 12)
        try:
            self.neighbour.sendto(ask, ("127.0.0.1", self.port))
            if not select.select([self.neighbour], [], [], 0.2)[0]:
                return False
            return self.neighbour.recv(64)[3] == 2
        except ConnectionRefusedError:
            return False

    def expect_served(self, within=AGAIN):
        """Waits until the station answers, and fails with systemd's log if it doesn't in this time."""
        until = time.monotonic() + within
        while not self.is_answered():
            if time.monotonic() > until:
                self.fail(self.read("errors").decode()[-2_000:] if os.path.exists(self.path("errors")) else "it wasn't started")

    def stations(self):
        """The processes that serve this test's device."""
        found = []
        for number in filter(str.isdigit, os.listdir("/proc")):
            try:
                with open(f"/proc/{number}/cmdline", "rb") as file:
                    words = file.read().split(b"\0")
            except OSError:
                continue
            if b"serve" in words and self.path("device.rly").encode() in words:
                found.append(int(number))
        return found

    def end(self, number):
        """Sends the station a signal, and waits until it has ended."""
        stations = self.stations()
        self.assertEqual(len(stations), 1)
        os.kill(stations[0], number)
        until = time.monotonic() + 5.0
        while stations[0] in self.stations():
            self.assertLess(time.monotonic(), until, f"signal {number} doesn't end it")
            time.sleep(0.02)

    def test_it_serves_again_after_each_signal(self):
        self.serve()
        self.expect_served()
        for number in (signal.SIGHUP, signal.SIGTERM, signal.SIGINT, signal.SIGKILL):
            with self.subTest(number.name):
                self.end(number)
                self.expect_served()

    def test_it_serves_once_its_plan_is_mended(self):
        self.serve()
        self.expect_served()
        self.write("plan.toml", self.plan.replace("station = 9", "station = nine"), 0o644)
        self.end(signal.SIGTERM)
        time.sleep(7.0)
        self.assertFalse(self.is_answered())
        self.write("plan.toml", self.plan, 0o644)
        self.expect_served()


class Folders(Units):
    """A station of two folders under the packaged unit, and an application of another user of its group."""

    user = group = NAME

    def setUp(self):
        super().setUp()
        os.chmod(self.folder, 0o755)
        self.unit = packaged_unit()
        self.write(
            "plan.toml",
            f'station = {OWN}\npeer = [{{id = 1, station = {PEER}, folder = "spool/in", destination = 12}}]\n'
            'hop = [{id = 1, station = 9, folder = "spool/out", contacts = [[0, 4503599627370495]]}]\n'
            "route = [{destination = 12, hop = 1}]\n",
            0o644,
        )
        self.make_small("device.rly")
        # As the package leaves /var/spool/rly; the application makes its own folders there.
        os.mkdir(self.path("spool"))
        for name in ("", "device.rly", "spool"):
            os.chown(self.path(name), STATION, STATION)
        os.chmod(self.path("spool"), 0o2770)
        self.application("mkdir", self.path("spool/in"), self.path("spool/out"), umask=0o007)

    def application(self, *words, input=b"", umask=0o022):
        done = subprocess.run(
            words, input=input, capture_output=True, timeout=AGAIN, user=APPLICATION, group=APPLICATION, extra_groups=[STATION], umask=umask
        )
        self.assertEqual((done.returncode, done.stderr), (0, b""))
        return done.stdout

    def test_another_user_of_its_group_puts_and_gets(self):
        self.serve()
        for payload in (b"wave!", b"calm."):
            self.application(RLY, "put", self.path("spool/in"), "--wait", "8", input=payload)
            self.assertEqual(self.application(RLY, "get", self.path("spool/out"), "--count", "1", "--follow"), payload)
        self.assertEqual([os.stat(self.path(f"spool/{it}/new")).st_mode & 0o7777 for it in ("in", "out")], [0o2770, 0o2770])


if __name__ == "__main__":
    unittest.main()
