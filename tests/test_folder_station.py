"""`rly serve` with folders as neighbours: files in, files out."""
import os
import random
import select
import socket
import subprocess
import time

from program import RLY, SECONDS, Rows

# Station 7, with a folder that plays station 3 upstream, and one that plays station 9 as the next hop.
PLAN = """station = 7
[[peer]]
id = 1
station = 3
folder = "in"
[[hop]]
id = 1
station = 9
folder = "out"
contacts = [[0, 4000000000000000]]
[[route]]
destination = 12
hop = 1
"""

# What is told at the start on a new small device.
SERVING = b"rly: serving station 7, 1 peers, 1 hops, device 320772 bytes, 0 of 16 live\n"

# The same of a hop with a contact.
SERVED = SERVING + b"rly: hop 1: CoDel drops what waited more than 5 ms over 100 ms of open contact\n"

# The longest time in which a station looks at a folder again, and some for a busy machine.
LATEST = 4.0

# The same of a folder that nobody tells it of: its clock is read once a second.
WATCHED = 2.0


class Folders(Rows):
    """Tests of a station whose plan names the folders `in` and `out` beside it."""

    def setUp(self):
        super().setUp()
        for name in ("in", "out"):
            os.mkdir(self.path(name))
        self.write("plan", PLAN)
        self.make_small("device")

    def serve(self, *words, told=SERVED):
        """A relay that has told what it serves."""
        run = self.start("serve", "device", "plan", *words)
        self.assertEqual(b"".join(self.log_line(run) for _ in told.splitlines()), told)
        return run

    def put(self, number, payload, folder="in"):
        """Puts a file into a folder as any program may: hidden first, then under its name."""
        hidden = self.write(f"{folder}/.own", payload)
        os.rename(hidden, self.path(f"{folder}/new/{number:020}"))

    def wake(self, folder="in"):
        """Sends an empty packet to the address in a folder's `.wake`."""
        host, port = self.read(f"{folder}/.wake").decode().strip().split(":")
        with socket.socket(socket.AF_INET, socket.SOCK_DGRAM) as end:
            end.sendto(b"", (host, int(port)))

    def names(self, folder):
        return sorted(name for name in os.listdir(self.path(folder)) if not name.startswith("."))

    def wait_for(self, is_so, seconds=SECONDS):
        """Waits until something is so, and returns how long that took."""
        began = time.monotonic()
        while not is_so():
            self.assertLess(time.monotonic() - began, seconds, "it didn't come")
            time.sleep(0.005)
        return time.monotonic() - began

    def expect_files(self, folder, payloads, seconds=SECONDS, limits={}):
        """Waits for files under the numbers from 1 on, with these limits in microseconds, and compares their bytes."""
        wanted = [f"{number:020}" + (f".limit-{limits[number]:020}" if number in limits else "") for number in range(1, len(payloads) + 1)]
        took = self.wait_for(lambda: self.names(folder) == wanted, seconds)
        self.assertEqual([self.read(f"{folder}/{name}") for name in wanted], payloads)
        return took


class Served(Folders):
    def test_a_file_goes_through(self):
        """A file that is put while nobody serves, and one while it is served, come out in order, and nothing stays behind."""
        self.rly("serve", "device", "plan", "--turns=1")
        self.put(1, b"\0\x0cfirst")
        self.serve()
        self.expect_files("out/out", [b"\0\x0cfirst"], LATEST)
        self.put(2, b"\0\x0csecond")
        self.expect_files("out/out", [b"\0\x0cfirst", b"\0\x0csecond"], LATEST)
        self.wait_for(lambda: self.names("in/new") + self.names("in/sent") == [])
        self.assertEqual(self.names("in/refused"), [])

    def test_a_packet_to_its_address_wakes_it(self):
        """A station looks at once where it is told to, and not only after a second."""
        self.serve()
        payloads, took = [], []
        for number in range(1, 6):
            time.sleep(0.2)
            payloads.append(b"\0\x0c%d" % number)
            self.put(number, payloads[-1])
            self.wake()
            took.append(self.expect_files("out/out", payloads, LATEST))
        self.assertLess(sorted(took)[2], 0.5)

    def test_files_are_made_of_the_plan(self):
        """Files get the destination and the age limit of the plan, and a folder that is full takes the rest once it is read."""
        plan = PLAN.replace('"in"\n', '"in"\ndestination = 12\nlimit = 60000\n').replace('"out"\n', '"out"\nmost = 2\n')
        self.write("plan", plan)
        self.serve()
        for number in range(1, 4):
            self.put(number, b"%d" % number)
        self.wake()
        limits = {1: 60_000_000, 2: 60_000_000}
        self.expect_files("out/out", [b"\0\x0c1", b"\0\x0c2"], LATEST, limits)
        self.wait_for(lambda: self.names("in/new") + self.names("in/sent") == [])
        self.assertEqual(len(self.names("out/out")), 2)
        for name in self.names("out/out"):
            os.remove(self.path(f"out/out/{name}"))
        self.wake("out")
        third = f"{3:020}.limit-{60_000_000:020}"
        self.wait_for(lambda: self.names("out/out") == [third], LATEST)
        self.assertEqual(self.read(f"out/out/{third}"), b"\0\x0c3")

    def test_a_file_has_a_limit_of_its_own(self):
        """The limit in a file's name comes before the plan's, and goes through the station into the name in `out`."""
        self.write("plan", PLAN.replace('"in"\n', '"in"\ndestination = 12\nlimit = 60000\n'))
        self.serve()
        self.expect("put", "in", "--limit=90000", input=b"first")
        self.expect("put", "in", "--limit=1099511627", input=b"second")
        self.expect("put", "in", input=b"third")
        limits = {1: 90_000_000, 2: 1_099_511_627_000, 3: 60_000_000}
        self.expect_files("out/out", [b"\0\x0cfirst", b"\0\x0csecond", b"\0\x0cthird"], LATEST, limits)
        self.wait_for(lambda: self.names("in/new") + self.names("in/sent") == [])
        self.expect("get", "out", "--lines", output=b"first\nsecond\nthird\n")
        self.assertEqual(self.names("out/out"), [])

    def test_a_refused_file_keeps_its_limit(self):
        self.serve()
        self.expect("put", "in", "--limit=5", input=b"\0\x0d")
        self.wait_for(lambda: self.names("in/refused") == [f"{1:020}.limit-{5_000:020}.no-route"], LATEST)

    def test_one_folder_may_play_both(self):
        """A peer and a hop may share a folder: the lock is of each."""
        self.write("plan", PLAN.replace('"out"', '"in"'))
        self.serve()
        self.put(1, b"\0\x0cround")
        self.expect_files("in/out", [b"\0\x0cround"], LATEST)

    def test_files_that_no_station_takes_go_aside(self):
        """Files without a route, too short or too long are moved aside, and the file after them goes on."""
        self.serve()
        for number, payload in enumerate([b"\0\x0d-", b"\0", b"\0\x0c" + bytes(5_000), b"\0\x0cgood"], 1):
            self.put(number, payload)
        self.expect_files("out/out", [b"\0\x0cgood"], LATEST)
        wanted = [f"{1:020}.{reason}" for reason in ("no-route", "too-long", "too-short")]
        self.assertEqual(self.names("in/refused"), wanted)

    def test_a_refused_file_replaces_no_other(self):
        """It gets a number that no refused file has for that reason."""
        self.rly("serve", "device", "plan", "--turns=1")
        there = [self.write(f"in/refused/{number:020}.no-route", b"other") for number in (1, 5)]
        self.serve()
        self.put(7, b"\0\x0d-")
        self.wait_for(lambda: len(self.names("in/refused")) == 3, LATEST)
        self.assertEqual(self.names("in/refused")[-1], f"{6:020}.no-route")
        self.assertEqual([self.read(it.removeprefix(f"{self.folder}/")) for it in there], [b"other"] * 2)

    def test_the_longest_file_with_a_destination(self):
        """8,190 bytes and the two of its destination are the longest payload. A byte more goes aside."""
        self.write("plan", PLAN.replace('"in"\n', '"in"\ndestination = 12\n'))
        self.rly("format", "device", "--force", "--hops=1", "--peers=1", "--items=16", "--bytes=65536", "--payload=8192")
        run = self.start("serve", "device", "plan")
        self.assertIn(b"rly: serving station 7", self.log_line(run))
        for number, length in enumerate((8_191, 8_190), 1):
            self.put(number, b"x" * length)
        self.expect_files("out/out", [b"\0\x0c" + b"x" * 8_190], LATEST)
        self.assertEqual(self.names("in/refused"), [f"{1:020}.too-long"])

    def test_the_rest_takes_what_has_no_route(self):
        """With a route of `"rest"` files without a route and those too short for a destination come out, as from a dead-letter box.
        What is too long goes aside."""
        self.write("plan", PLAN.replace("destination = 12", 'destination = "rest"'))
        self.serve()
        for number, payload in enumerate([b"\0\x0d-", b"\0", b"\0\x0c" + bytes(5_000), b"", b"\0\x0cgood"], 1):
            self.put(number, payload)
        self.expect_files("out/out", [b"\0\x0d-", b"\0", b"", b"\0\x0cgood"], LATEST)
        self.assertEqual(self.names("in/refused"), [f"{1:020}.too-long"])

    def test_the_rest_never_leads_back(self):
        """Where the rest's hop is of the peer's own station its files without a route go aside, and those with one go on."""
        rest = '[[route]]\ndestination = "rest"\nhop = 1\n'
        self.write("plan", PLAN.replace("station = 9", "station = 3") + rest)
        self.serve()
        for number, payload in enumerate([b"\0\x0d-", b"\0", b"\0\x0cgood"], 1):
            self.put(number, payload)
        self.expect_files("out/out", [b"\0\x0cgood"], LATEST)
        self.assertEqual(self.names("in/refused"), [f"{1:020}.{reason}" for reason in ("no-route", "too-short")])

    def test_hidden_files_of_killed_programs_go(self):
        """A start removes what a killed put left more than a day ago, and nothing else."""
        for name, age in ((".put-1-1", 90_000), (".put-2-2", 80_000), (".other", 90_000)):
            path = self.write(f"in/{name}", b"")
            then = time.time() - age
            os.utime(path, (then, then))
        self.serve()
        there = os.listdir(self.path("in"))
        self.assertEqual([name in there for name in (".put-1-1", ".put-2-2", ".other")], [False, True, True])

    def test_what_was_in_flight_at_a_kill_comes_once(self):
        """A station that is killed at any moment hands out each file once, in order, after it was started anew."""
        payloads = []
        for number in range(1, 13):
            run = self.start("serve", "device", "plan")
            self.assertIn(b"rly: serving", self.log_line(run))
            payloads.append(b"\0\x0c%d" % number)
            self.put(number, payloads[-1])
            self.wake()
            time.sleep(0.003 * number)
            run.kill()
            run.wait()
        self.start("serve", "device", "plan")
        self.expect_files("out/out", payloads)

    def test_folders_that_are_emptied_lose_nothing_else(self):
        """All files are removed by hand while the station serves. What is put then comes out under the next numbers."""
        self.serve()
        self.put(1, b"\0\x0cfirst")
        self.wake()
        self.expect_files("out/out", [b"\0\x0cfirst"], LATEST)
        for folder in ("in/new", "in/sent", "in/refused", "out/out"):
            for name in self.names(folder):
                os.remove(self.path(f"{folder}/{name}"))
        for number in (2, 3):
            self.put(number, b"\0\x0c%d" % number)
        self.wake()
        self.wait_for(lambda: self.names("out/out") == [f"{number:020}" for number in (2, 3)], LATEST)

    def test_a_full_file_system_delays_what_is_handed_out(self):
        """A hop's folder that has no room says so, and gets each datagram once, in order, once there is some."""
        if subprocess.run(["mount", "-t", "tmpfs", "-o", "size=64k", "tmpfs", self.path("out")], capture_output=True).returncode:
            self.skipTest("needs a mount")
        self.addCleanup(subprocess.run, ["umount", "--lazy", self.path("out")])
        run = self.serve()
        room = os.open(self.path("out/out/.room"), os.O_CREAT | os.O_WRONLY)
        os.write(room, bytes(65_536))
        os.close(room)
        for number in (1, 2):
            self.put(number, b"\0\x0c%d" % number)
        self.wake()
        self.assertEqual(self.log_line(run), b"rly: hop 1: folder call failed (1 so far): No space left on device (os error 28)\n")
        os.remove(self.path("out/out/.room"))
        self.expect_files("out/out", [b"\0\x0c1", b"\0\x0c2"])


class Watched(Folders):
    """Folders that other programs change by plain file calls, without a packet to the address in `.wake`."""

    # Station 7 with a second folder for station 4 upstream, and in place of the first one a socket of station 3.
    SECOND = '[[peer]]\nid = 2\nstation = 4\nfolder = "more"\n'
    SOCKET = 'listen = "127.0.0.1:0"\nremote = "127.0.0.1:9"'

    def setUp(self):
        super().setUp()
        os.mkdir(self.path("more"))
        self.rly("format", "device", "--force", "--hops=1", "--peers=2", "--items=64", "--bytes=65536")

    def serve_two(self, first='folder = "in"'):
        """A relay of two peers, the second a folder, that has been idle for a while."""
        plan = PLAN.replace("[[hop]]", f"{self.SECOND}[[hop]]").replace('folder = "in"', first)
        self.write("plan", plan)
        run = self.start("serve", "device", "plan")
        self.assertIn(b"rly: serving station 7", self.log_line(run))
        while b"CoDel" not in self.log_line(run):
            pass
        # (the first look, a second after the start, wakes all)
        time.sleep(2.5)
        return run

    def expect_seen(self, folders):
        """Files that are put at random moments, each alone, come out within the time of a look and some for the machine."""
        for number, folder in enumerate(folders, 1):
            # (the time of the folder is old, or the next look comes a second after the last one anyway)
            time.sleep(random.uniform(2.0, 3.0))
            self.put(number, b"\0\x0c%d" % number, folder)
            self.wait_for(lambda: len(self.names("out/out")) == number, WATCHED)

    def test_each_folder_is_watched(self):
        self.serve_two()
        self.expect_seen(["in", "more", "more", "in"])

    def test_a_folder_is_watched_though_the_first_peer_is_a_socket(self):
        with socket.socket(socket.AF_INET, socket.SOCK_DGRAM) as end:
            end.bind(("127.0.0.1", 0))
            port = end.getsockname()[1]
        self.serve_two(self.SOCKET.replace(":0", f":{port}"))
        self.expect_seen(["more", "more", "more"])

    def test_two_files_within_a_look_are_both_taken(self):
        """The second one may leave the folder the same time, if that isn't exact."""
        self.serve_two()
        for number in range(1, 31):
            self.put(number, b"\0\x0c%d" % number, "more")
            time.sleep(0.1)
        self.wait_for(lambda: len(self.names("out/out")) == 30, LATEST)

    def test_room_that_nobody_tells_of_is_seen(self):
        """A hop whose folder was full for six seconds goes on within two of the room, which a reader made and told nobody of."""
        self.write("plan", PLAN.replace('"out"\n', '"out"\nmost = 2\n'))
        self.rly("format", "device", "--force", "--hops=1", "--peers=1", "--items=64", "--bytes=65536")
        run = self.start("serve", "device", "plan")
        self.assertIn(b"rly: serving station 7", self.log_line(run))
        for number in range(1, 6):
            self.put(number, b"\0\x0c%d" % number)
        self.wake()
        self.expect_files("out/out", [b"\0\x0c1", b"\0\x0c2"], LATEST)
        # The hop gives the third again after ever longer waits, and the fourth and fifth are answered by a Custody meanwhile.
        time.sleep(6.0)
        self.assertEqual(len(self.names("out/out")), 2)
        for name in self.names("out/out"):
            os.remove(self.path(f"out/out/{name}"))
        self.wait_for(lambda: self.names("out/out") == [f"{3:020}", f"{4:020}"], 2.0)

    def test_a_folder_that_is_away_is_tried_again(self):
        """The sub-folder of the second peer goes, and comes back with a file and the time that it had."""
        run = self.serve_two()
        then = os.stat(self.path("more/new")).st_mtime_ns - 10**10
        os.rename(self.path("more/new"), self.path("more/gone"))
        wanted = b"rly: peer 2: folder call failed (1 so far): No such file or directory (os error 2)\n"
        self.assertEqual(self.log_line(run), wanted)
        self.put(1, b"\0\x0cback", "in")
        self.wait_for(lambda: len(self.names("out/out")) == 1, WATCHED)
        hidden = self.write("more/.own", b"\0\x0cmore")
        os.rename(hidden, self.path(f"more/gone/{1:020}"))
        os.utime(self.path("more/gone"), ns=(then, then))
        os.rename(self.path("more/gone"), self.path("more/new"))
        self.wait_for(lambda: len(self.names("out/out")) == 2, LATEST)

    def test_two_idle_folders_wake_little(self):
        """Two folders upstream and one downstream, a contact open, nothing moving: the thread that watches, once or twice a second."""
        run = self.serve_two()
        self.put(1, b"\0\x0cone", "more")
        self.wait_for(lambda: len(self.names("out/out")) == 1, WATCHED)
        time.sleep(4.0)
        before = self.switches(run)
        time.sleep(6.0)
        after = self.switches(run)
        woken = sorted(after[it] - before[it] for it in before if after[it] > before[it])
        self.assertEqual(len(woken), 1, woken)
        self.assertLess(sum(woken), 12, woken)

    @staticmethod
    def switches(run):
        """How often each thread has slept, by its id."""
        found = {}
        for task in os.listdir(f"/proc/{run.pid}/task"):
            with open(f"/proc/{run.pid}/task/{task}/status") as file:
                found[task] = int(next(line for line in file if line.startswith("voluntary")).split()[1])
        return found


class Refused(Folders):
    """Folders that can't play a neighbour: a relay of a turn ends with a message."""

    def expect_end(self, errors):
        self.expect("serve", "device", "plan", "--turns=1", errors=f"rly: folder failed\nrly: {errors}\n", status=1)

    def test_a_folder_has_to_be_one(self):
        os.rmdir(self.path("in"))
        self.expect_end("peer 1: folder in: No such file or directory (os error 2)")
        self.write("in", "")
        self.expect_end("peer 1: folder in: not a folder")
        os.remove(self.path("in"))
        os.mkdir(self.path("in"))
        os.rmdir(self.path("out"))
        self.expect_end("hop 1: folder out: No such file or directory (os error 2)")

    def test_a_folder_has_to_be_writable(self):
        """The station runs as another user, who may read the folder, and may do all with the device and the other one."""
        if os.getuid() != 0:
            self.skipTest("needs root to become another user")
        os.chmod(self.folder, 0o755)
        os.chmod(self.path("plan"), 0o644)
        for name in ("device", "out"):
            os.chown(self.path(name), 65534, 65534)
        done = subprocess.run(
            [RLY, "serve", "device", "plan", "--turns=1"], capture_output=True, timeout=SECONDS, cwd=self.folder, user=65534, group=65534
        )
        denied = b"Permission denied (os error 13)\n"
        told = b"rly: ids: device.ids: not written, so a later change of what they mean isn't seen: " + denied
        told += b"rly: folder failed\nrly: peer 1: folder in: sent: " + denied
        self.assertEqual((done.returncode, done.stderr), (1, told))

    def test_a_path_begins_at_the_plan(self):
        os.mkdir(self.path("etc"))
        os.rename(self.path("plan"), self.path("etc/plan"))
        run = self.rly("serve", "device", "etc/plan", "--turns=1")
        self.assertIn(b"rly: peer 1: folder etc/in: No such file or directory (os error 2)\n", run.stderr)
        self.write("etc/plan", PLAN.replace('"in"', f'"{self.path("in")}"').replace('"out"', f'"{self.path("out")}"'))
        self.expect("serve", "device", "etc/plan", "--turns=1", errors=SERVED + b"rly: ended after 1 turns\n")

    def test_a_folder_has_one_station(self):
        """A second station is refused while the first serves, and no longer after its end."""
        run = self.serve()
        self.rly("format", "other", "--hops=1", "--peers=1", "--items=16", "--bytes=4096")
        second = self.rly("serve", "other", "plan", "--turns=1")
        wanted = b"rly: folder failed\nrly: peer 1: folder in: locked by another process\n"
        self.assertEqual((second.returncode, second.stderr), (1, wanted))
        run.kill()
        run.wait()
        self.expect("serve", "device", "plan", "--turns=1", errors=SERVED + b"rly: ended after 1 turns\n")

    def test_two_peers_of_one_folder_are_refused(self):
        second = PLAN[PLAN.index("[[peer]]") : PLAN.index("[[hop]]")].replace("id = 1", "id = 2").replace("= 3", "= 4")
        self.write("plan", PLAN.replace("[[hop]]", f"{second}[[hop]]"))
        self.rly("format", "device", "--force", "--hops=1", "--peers=2", "--items=16", "--bytes=4096")
        self.expect_end("peer 2: folder in: locked by another process")


class Warned(Folders):
    """What a station tells of its folders while it serves."""

    def test_a_foreign_name_is_told_once(self):
        run = self.serve()
        self.write("in/new/note.txt", "")
        self.wake()
        self.assertEqual(self.log_line(run), b"rly: peer 1: foreign name in the folder ignored\n")
        self.write("in/new/again.txt", "")
        self.put(1, b"\0\x0cgood")
        self.expect_files("out/out", [b"\0\x0cgood"], LATEST)
        self.assertEqual(select.select([run.stderr], [], [], 0)[0], [])

    def test_numbers_that_do_not_go_on_are_told(self):
        """Numbered files of another device are left alone; put back as told, they go out."""
        self.rly("serve", "device", "plan", "--turns=1")
        for number in (5, 6):
            self.write(f"in/sent/{number:020}", b"\0\x0c%d" % number)
        run = self.serve()
        wanted = b"rly: peer 1: sent has 5 to 6, not from 0: mv -n sent/* new\n"
        self.assertEqual(self.log_line(run), wanted)
        self.put(7, b"\0\x0c7")
        self.wake()
        time.sleep(0.3)
        self.assertEqual((self.names("in/new"), self.names("in/sent")), ([f"{7:020}"], [f"{5:020}", f"{6:020}"]))
        run.kill()
        run.wait()
        for name in self.names("in/sent"):
            os.rename(self.path(f"in/sent/{name}"), self.path(f"in/new/{name}"))
        self.serve()
        self.expect_files("out/out", [b"\0\x0c5", b"\0\x0c6", b"\0\x0c7"], LATEST)

    def test_a_plan_without_routes_gives_nothing(self):
        self.write("plan", PLAN[: PLAN.index("[[route]]")])
        run = self.serve()
        self.assertEqual(self.log_line(run), b"rly: peer 1: last number refused (2)\n")

    def test_a_failed_call_is_told(self):
        """A sub-folder that is gone while the station serves is told of, and found again once it is back."""
        run = self.serve()
        os.rename(self.path("in/new"), self.path("in/gone"))
        self.wake()
        wanted = b"rly: peer 1: folder call failed (1 so far): No such file or directory (os error 2)\n"
        self.assertEqual(self.log_line(run), wanted)
        os.rename(self.path("in/gone"), self.path("in/new"))
        self.put(1, b"\0\x0cback")
        self.expect_files("out/out", [b"\0\x0cback"], 2 * LATEST)
