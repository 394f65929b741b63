"""`rly serve` on a device of which one write or sync fails (`preloaded.c`)."""
import os
import shutil
import signal
import socket
import subprocess
import unittest

from journals import SMALL, words_of
from program import SECONDS, TOP, Rows
from test_serve import CUSTODY, DATA, NONE_TAKEN, ONE_TAKEN, PLAN, SECOND_PEER, free_ports


@unittest.skipUnless(shutil.which("cc"), "there is no C compiler")
class Failing(Rows):
    """A station of two peers and a hop, whose first peer's end is played here."""

    def setUp(self):
        super().setUp()
        self.library = self.path("preloaded.so")
        words = ["cc", "-O1", "-shared", "-fPIC", "-o", self.library, f"{TOP}/tests/preloaded.c", "-ldl"]
        subprocess.run(words, check=True)
        self.peer = self.enterContext(socket.socket(socket.AF_INET, socket.SOCK_DGRAM))
        self.peer.bind(("127.0.0.1", 0))
        listen, *others = free_ports(5)
        self.listen = ("127.0.0.1", listen)
        plan = PLAN.format(listen, self.peer.getsockname()[1], *others[:2])
        self.write("plan", plan.replace("[[hop]]", SECOND_PEER.format(*others[2:]) + "[[hop]]"))
        self.rly("format", "device", *words_of({**SMALL, "peers": 2, "segments": 2}))
        self.rly("serve", "device", "plan", "--turns=1")
        self.ids = self.read("device.ids")

    def serve(self, call):
        """A station on a new device whose call of this number fails; nothing if it doesn't begin."""
        self.rly("format", "device", "--force", *words_of({**SMALL, "peers": 2, "segments": 2}))
        # The ids are there, so the calls are the device's alone.
        self.write("device.ids", self.ids)
        run = self.start("serve", "device", "plan", env={**os.environ, "LD_PRELOAD": self.library, "FAIL_CALL": str(call)})
        return run if self.log_line(run).startswith(b"rly: serving station 7") else None

    def first_after_opening(self):
        """The number of the first call after those without which a station doesn't begin."""
        for call in range(1, 99):
            run = self.serve(call)
            if run is not None:
                run.kill()
                run.wait()
                return call

    def give_copies(self, run):
        """Two copies of one datagram, which are there when the station looks."""
        run.send_signal(signal.SIGSTOP)
        for _ in range(2):
            self.peer.sendto(DATA, self.listen)
        run.send_signal(signal.SIGCONT)

    def expect_nothing(self):
        """No packet came."""
        self.peer.settimeout(0.1)
        self.assertRaises(TimeoutError, self.peer.recv, 99)

    def expect_books(self, *books):
        audited = self.rly("audit", "device").stdout.decode()
        self.assertIn(audited, [it.replace("\nseq", "\npeer 2 last 0\nseq") for it in books])

    def broken(self, call):
        """Whether such a station ended with a broken journal. Then it sent no custody, and else one."""
        run = self.serve(call)
        if run is None:
            return False
        self.give_copies(run)
        self.peer.settimeout(SECONDS)
        if call > self.last:
            self.assertEqual(self.peer.recv(99), CUSTODY)
            run.kill()
            run.wait()
            self.expect_books(ONE_TAKEN)
            return False
        errors = run.communicate(timeout=SECONDS)[1]
        self.assertEqual(run.returncode, 1)
        self.assertIn(b"\nrefused 11 broken\n", errors)
        self.expect_nothing()
        self.expect_books(ONE_TAKEN, NONE_TAKEN)
        return True

    def test_copies_in_a_round_that_fails(self):
        """A round has four calls of its device: the body and the gate are written, each with a sync. Whichever of them fails, both
        copies are unsure: no custody goes out, and the station ends, the workers too that heard nothing. Else both have custody."""
        opening = self.first_after_opening()
        self.last = opening + 3
        self.assertEqual([self.broken(call) for call in range(1, opening + 6)], [False] * (opening - 1) + [True] * 4 + [False] * 2)


class Audited(Rows):
    """A device of which one read fails."""

    def test_each_read_of_an_audit(self):
        """The read that fails is told, and nothing of a report; the device then reads as before. It has a group, so it is opened by
        eight reads and more, of which the last one finds the gate behind it closed."""
        self.rly("format", "device", *words_of({**SMALL, "segments": 2}))
        self.expect("play", "device", input="take 1 1 1 0 41\n", output="taken 1 1\n")
        device, told = self.read("device"), b"refused 23 device\nrly: device: device: Input/output error (os error 5)\n"
        failed = 0
        for call in range(1, 99):
            run = self.start("audit", "device", env=self.preload(FAIL_READ=call))
            output, errors = run.communicate(timeout=SECONDS)
            if run.returncode == 0:
                break
            self.assertEqual((run.returncode, output, errors), (1, b"", told))
            failed = call
        self.assertEqual((output.decode(), errors), (ONE_TAKEN, b""))
        self.assertGreaterEqual(failed, 9)
        self.assertTrue(self.read("device") == device)
