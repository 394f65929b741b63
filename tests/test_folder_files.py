"""Files of a folder: their names, their permissions, and what `rly put`, `rly get` and `rly serve` do with those that others made."""
import os
import subprocess
import tempfile

import test_folder_station
import test_put_get
from program import SECONDS
from test_folder_station import LATEST, SERVED, SERVING
from test_put_get import FAILED, SUBS

# Names of files in `out`, and the number of each; 0 if it is foreign. A number has 20 digits, is 1 at least and below 2^64. A limit
# has 20 digits, is 1 at least and below 2^40, and only the names of refused files have a reason behind it.
NAMES = [
    ("00000000000000000012", 12),
    ("18446744073709551615", 2**64 - 1),
    ("18446744073709551616", 0),
    ("00000000000000000000", 0),
    ("0000000000000000001", 0),
    ("+0000000000000000001", 0),
    ("00000000000000000003.no-route", 0),
    ("00000000000000000012.limit-00000000000000060000", 12),
    ("00000000000000000012.limit-00000001099511627775", 12),
    ("00000000000000000012.limit-00000001099511627776", 0),
    ("00000000000000000012.limit-00000000000000000000", 0),
    ("00000000000000000012.limit-60000", 0),
    ("00000000000000000012.limit-", 0),
    ("00000000000000000000.limit-00000000000000060000", 0),
    ("00000000000000000012.limit-00000000000000060000.no-route", 0),
]

# Names of refused files, and what a put that waits says of the file; nothing if the name isn't one of a refused file.
REFUSED = [
    ("00000000000000000003.no-route", "its destination has no route"),
    ("00000000000000000009.limit-00000000000000000001.too-short", "too short for a destination"),
    ("00000000000000000007.limit-00000001099511627775.no-route", "its destination has no route"),
    ("00000000000000000003.too-wide", None),
    ("00000000000000000003", None),
]

# The number before the greatest that a put gives.
LATE = 2**64 - 9


class Names(test_put_get.Folders):
    def test_names_in_out(self):
        """A get prints a file whose name has a number, and keeps that. A foreign one stays."""
        for name, number in NAMES:
            with self.subTest(name):
                self.hand_out()
                self.write(f"spool/out/{name}", b"\0\1x")
                self.expect("get", "spool", output=b"x" if number else b"")
                self.assertEqual(self.names("out"), [] if number else [name])
                self.assertEqual(self.hidden("out"), [f".printed-{number:020}"] if number else [])
                for left in os.listdir(self.path("spool/out")):
                    os.remove(self.path(f"spool/out/{left}"))

    def test_names_of_refused_files(self):
        """A put that waits finds its file there by the reason in its name, whatever number and limit it has now."""
        for name, told in REFUSED:
            with self.subTest(name):
                run = self.start("put", "spool", "--wait=30" if told else "--wait=1")
                run.stdin.write(b"x")
                run.stdin.close()
                self.wait_for(lambda: os.path.exists(self.path("spool/new")) and self.names("new"))
                os.rename(self.path(f"spool/new/{self.names('new')[0]}"), self.path(f"spool/refused/{name}"))
                wanted = f"rly: file refused\nrly: folder: spool: file 1: {told}; it is in refused/\n"
                errors = run.stderr.read().decode()
                status = run.wait(SECONDS)
                self.assertEqual((status, errors) == (1, wanted), told is not None, errors)
                os.remove(self.path(f"spool/refused/{name}"))


class Puts(test_put_get.Folders):
    def put_lines(self, *words, before):
        """A put of two lines, before the second of which another program takes a name; the names then, and the text of each."""
        self.hand_out()
        self.write(f"spool/new/{LATE:020}", b"late")
        run = self.start("put", "spool", "--lines", *words)
        run.stdin.write(b"first\n")
        self.wait_for(lambda: len(self.names("new")) == 2)
        self.write(f"spool/new/{before}", b"other")
        run.stdin.write(b"second\n")
        run.stdin.close()
        self.assertEqual((run.wait(SECONDS), run.stderr.read()), (0, b""))
        return {name: self.read(f"spool/new/{name}") for name in self.names("new")}

    def test_a_taken_name(self):
        """The file that has the name stays, and the put takes the next one. A number has one file, whatever limits the two have."""
        limit = f".limit-{5_000:020}"
        for words, taken, own in [([], "", ""), (["--limit=5"], "", limit), ([], limit, ""), (["--limit=5"], f".limit-{6:020}", limit)]:
            with self.subTest(words=words, taken=taken):
                self.assertEqual(self.put_lines(*words, before=f"{LATE + 2:020}{taken}"), {
                    f"{LATE:020}": b"late",
                    f"{LATE + 1:020}{own}": b"first",
                    f"{LATE + 2:020}{taken}": b"other",
                    f"{LATE + 3:020}{own}": b"second",
                })
                for name in self.names("new"):
                    os.remove(self.path(f"spool/new/{name}"))

    def test_permissions_are_those_of_the_folder(self):
        """Also where the `umask` allows less."""
        os.chmod(self.path("spool"), 0o770)
        before = os.umask(0o077)
        try:
            self.expect("put", "spool", input=b"x")
            self.expect("get", "spool")
        finally:
            os.umask(before)
        modes = {name: os.stat(self.path(f"spool/{name}")).st_mode & 0o777 for name in [*SUBS, f"new/{self.names('new')[0]}", ".get.lock"]}
        self.assertEqual(list(modes.values()), [0o770] * 4 + [0o640, 0o660], modes)

    def test_a_missing_folder_is_not_made(self):
        for command in ("put", "get"):
            self.expect(command, "nowhere", errors=test_put_get.MISSING, status=1)
            self.assertFalse(os.path.exists(self.path("nowhere")))

    def test_a_sub_folder_is_a_folder_of_the_same_file_system(self):
        self.write("spool/sent", "")
        run = self.rly("put", "spool")
        self.assertEqual((run.returncode, run.stdout), (1, b""))
        self.assertTrue(run.stderr.startswith(FAILED.encode() + b"spool: sent: "), run.stderr)
        os.remove(self.path("spool/sent"))
        self.hand_out()
        if not os.path.isdir("/dev/shm") or os.stat("/dev/shm").st_dev == os.stat(self.folder).st_dev:
            self.skipTest("needs another file system at /dev/shm")
        other = self.enterContext(tempfile.TemporaryDirectory(prefix="rly-tests-", dir="/dev/shm"))
        os.rmdir(self.path("spool/refused"))
        os.symlink(other, self.path("spool/refused"))
        self.expect("put", "spool", errors=FAILED + "spool: refused is on another file system\n", status=1)


class Stations(test_folder_station.Folders):
    def test_a_number_has_one_file(self):
        """Of two files of a number that other programs made the one without a limit comes first."""
        self.rly("serve", "device", "plan", "--turns=1")
        self.write(f"in/new/{1:020}.limit-{90_000_000:020}", b"\0\x0clater")
        self.write(f"in/new/{1:020}", b"\0\x0cfirst")
        self.serve()
        self.expect_files("out/out", [b"\0\x0cfirst", b"\0\x0clater"], LATEST, {2: 90_000_000})
        self.wait_for(lambda: self.names("in/new") + self.names("in/sent") == [])

    def test_what_has_a_number_keeps_its_limit(self):
        """A device that is full takes no more. Its files wait in `sent` under the numbers that they were given."""
        self.write("plan", test_folder_station.PLAN.replace("[[0, 4000000000000000]]", "[]"))
        self.serve(told=SERVING)
        for number in range(1, 18):
            self.put(number, b"\0\x0cx")
        self.expect("put", "in", "--limit=90000", input=b"\0\x0clast")
        names = [f"{17:020}", f"{18:020}.limit-{90_000_000:020}"]
        self.wait_for(lambda: self.names("in/new") == [] and self.names("in/sent") == names, LATEST)
        self.assertEqual(self.read(f"in/sent/{names[1]}"), b"\0\x0clast")

    def test_numbers_go_on_after_the_greatest(self):
        """What `.greatest-N` in `out` says was handed out before isn't handed out again."""
        self.rly("serve", "device", "plan", "--turns=1")
        self.write(f"out/out/.greatest-{2:020}", b"")
        self.serve()
        for number in (1, 2, 3):
            self.put(number, b"\0\x0c%d" % number)
        self.wait_for(lambda: self.names("out/out") == [f"{3:020}"], LATEST)

    def test_another_kind_of_file_is_foreign(self):
        """A folder that has a file's name isn't taken. A hidden file isn't told of."""
        self.rly("serve", "device", "plan", "--turns=1")
        self.write("in/new/.hidden", b"\0\x0cx")
        run = self.serve()
        self.put(1, b"\0\x0cfirst")
        self.expect_files("out/out", [b"\0\x0cfirst"], LATEST)
        os.mkdir(self.path(f"in/new/{2:020}"))
        self.wake()
        self.assertEqual(self.log_line(run), b"rly: peer 1: foreign name in the folder ignored\n")
        self.assertEqual(self.names("in/new"), [f"{2:020}"])

    def test_a_missing_sub_folder_is_a_failed_call(self):
        """The file that can't be moved there stays, and goes on once the sub-folder is back."""
        run = self.serve()
        os.rmdir(self.path("in/sent"))
        self.put(1, b"\0\x0cfirst")
        self.wake()
        wanted = b"rly: peer 1: folder call failed (1 so far): No such file or directory (os error 2)\n"
        self.assertEqual(self.log_line(run), wanted)
        self.assertEqual(self.read(f"in/new/{1:020}"), b"\0\x0cfirst")
        os.mkdir(self.path("in/sent"))
        self.expect_files("out/out", [b"\0\x0cfirst"], 2 * LATEST)

    def test_a_second_station_disturbs_nothing(self):
        """It is refused, and the first one takes files as before."""
        self.serve()
        self.rly("format", "other", "--hops=1", "--peers=1", "--items=16", "--bytes=4096")
        for number in range(1, 9):
            self.put(number, b"\0\x0c%d" % number)
            self.wake()
            second = self.rly("serve", "other", "plan", "--turns=1")
            self.assertEqual(second.stderr, b"rly: folder failed\nrly: peer 1: folder in: locked by another process\n")
        self.expect_files("out/out", [b"\0\x0c%d" % number for number in range(1, 9)], LATEST)

    def test_hidden_files_are_removed_after_a_day(self):
        """Of 86,400 seconds, if their names begin so."""
        ages = {".put-1": 86_410, ".put-2.link": 86_410, ".put-3": 86_000, ".get": 86_410, "put-4": 86_410}
        now = os.stat(self.path("in")).st_mtime
        for name, age in ages.items():
            self.write(f"in/{name}", b"x")
            os.utime(self.path(f"in/{name}"), (now - age, now - age))
        self.expect("serve", "device", "plan", "--turns=1", errors=SERVED + b"rly: ended after 1 turns\n")
        there = os.listdir(self.path("in"))
        self.assertEqual([name for name in ages if name in there], [".put-3", ".get", "put-4"])
