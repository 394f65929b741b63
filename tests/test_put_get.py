"""`rly put` and `rly get`: files into a folder and out of it (`docs/COMMANDS.md`). The station is played by renaming and removing files."""
import os
import signal
import socket
import subprocess
import threading
import time

from program import RLY, SECONDS, TOP, Rows

FAILED = "rly: folder failed\nrly: folder: "
MISSING = FAILED + "nowhere: No such file or directory (os error 2)\n"
SUBS = ["new", "out", "refused", "sent"]
# The longest file: a destination, and the longest payload of any station.
LONGEST = 8_194

BAD_WORDS = [
    (["put"], "no folder"),
    (["put", "spool", "twice"], "a word too many"),
    (["put", "spool", "--destination=0"], "no station"),
    (["put", "spool", "--destination=65536"], "too great a station"),
    (["put", "spool", "--destination=x"], "a station of letters"),
    (["put", "spool", "--destination="], "an empty station"),
    (["put", "spool", "--wait=-1"], "a wait below 0"),
    (["put", "spool", "--wait=0.5"], "half a second"),
    (["put", "spool", "--wait=18446744073709551616"], "too long a wait"),
    (["put", "spool", "--limit=0"], "no limit"),
    (["put", "spool", "--limit=1099511628"], "too long a limit"),
    (["put", "spool", "--limit=0.5"], "half a millisecond"),
    (["put", "spool", "--limit=1", "--limit=1"], "a repeated limit"),
    (["get", "spool", "--limit=1"], "a limit of get"),
    (["put", "spool", "--raw"], "an option of get alone"),
    (["put", "spool", "--lines", "--lines"], "a repeated flag"),
    (["get"], "no folder"),
    (["get", "spool", "twice"], "a word too many"),
    (["get", "spool", "--count=-1"], "a count below 0"),
    (["get", "spool", "--count=x"], "a count of letters"),
    (["get", "spool", "--wait=1"], "an option of put alone"),
    (["get", "spool", "--follow=1"], "a flag with a number"),
]


class Folders(Rows):
    """Tests in a folder `spool`, which is empty."""

    def setUp(self):
        super().setUp()
        os.mkdir(self.path("spool"))

    def names(self, sub):
        """The names in a sub-folder, but hidden ones."""
        return sorted(it for it in os.listdir(self.path(f"spool/{sub}")) if not it.startswith("."))

    def hidden(self, sub="."):
        return sorted(it for it in os.listdir(self.path(f"spool/{sub}")) if it.startswith("."))

    def put_files(self):
        """The contents of `new`, in order."""
        return [self.read(f"spool/new/{it}") for it in self.names("new")]

    def hand_out(self, *files, first=1):
        """Adds files to `out`, as a station does."""
        for sub in SUBS:
            os.makedirs(self.path(f"spool/{sub}"), exist_ok=True)
        for number, content in enumerate(files, first):
            self.write("spool/.station", content)
            os.link(self.path("spool/.station"), self.path(f"spool/out/{number:020}"))
            os.remove(self.path("spool/.station"))

    def expect_put(self, *words, input=b"", files):
        self.expect("put", "spool", *words, input=input)
        self.assertEqual(self.put_files(), files)

    def wait_for(self, what):
        """Waits until a condition holds."""
        end = time.monotonic() + SECONDS
        while not what():
            self.assertLess(time.monotonic(), end)
            time.sleep(0.01)

    def as_nobody(self, *words, input=b""):
        """A run by another user than the owner of all files."""
        if os.getuid() != 0:
            self.skipTest("needs root to become another user")
        os.chmod(self.folder, 0o755)
        return subprocess.run([RLY, *words], input=input, capture_output=True, timeout=SECONDS, cwd=self.folder, user=65534, group=65534)


class Words(Rows):
    def test_bad_words_are_refused(self):
        for words, what in BAD_WORDS:
            run = self.rly(*words)
            self.assertEqual((run.returncode, run.stdout), (2, b""), what)
            self.assertTrue(run.stderr.startswith(b"error: "), what)


class Puts(Folders):
    def test_all_of_the_input_is_one_file(self):
        """The sub-folders are made, the file has a name of 20 digits, and nothing hidden is left."""
        self.expect_put(input=b"two\nlines\n", files=[b"two\nlines\n"])
        self.assertEqual(sorted(os.listdir(self.path("spool"))), SUBS)
        self.assertRegex(self.names("new")[0], r"\A[0-9]{20}\Z")

    def test_an_empty_input_is_an_empty_file(self):
        self.expect_put(files=[b""])
        self.expect_put("--lines", files=[b""])

    def test_each_line_is_a_file(self):
        self.expect_put("--lines", input=b"one\n\nthree\r\nlast", files=[b"one", b"", b"three\r", b"last"])

    def test_a_destination_comes_first(self):
        self.expect_put("--destination=12", input=b"12 at the front", files=[b"\x00\x0c12 at the front"])
        self.expect("put", "spool", "--destination", "65535", "--lines", input=b"a\nb\n")
        self.assertEqual(self.put_files()[1:], [b"\xff\xffa", b"\xff\xffb"])

    def test_a_limit_is_in_the_name(self):
        """In microseconds; a file with a limit and one without have numbers of their own."""
        self.expect_put("--limit", "1", input=b"a", files=[b"a"])
        self.expect_put("--limit=1099511627", "--lines", input=b"b\nc\n", files=[b"a", b"b", b"c"])
        self.expect_put(input=b"d", files=[b"a", b"b", b"c", b"d"])
        names = self.names("new")
        self.assertEqual([name[20:] for name in names], [f".limit-{1_000:020}", *[f".limit-{1_099_511_627_000:020}"] * 2, ""])
        self.assertEqual(len({name[:20] for name in names}), 4)

    def test_names_are_moments_and_go_up(self):
        """Also where a file has a number of the future."""
        before = time.time_ns() // 1000
        self.expect("put", "spool", "--lines", input=b"a\nb\n")
        first, second = map(int, self.names("new"))
        self.assertTrue(before <= first < second <= time.time_ns() // 1000)
        self.write(f"spool/new/{2**64 - 3:020}", b"later")
        self.expect("put", "spool", input=b"c")
        self.assertEqual(self.names("new")[-1], f"{2**64 - 2:020}")
        self.expect("put", "spool", input=b"d")
        told = FAILED + "spool: new/18446744073709551615: no number is greater; rename this file\n"
        self.expect("put", "spool", input=b"e", errors=told, status=1)
        self.assertEqual(self.put_files()[2:], [b"later", b"c", b"d"])

    def test_the_longest_payload(self):
        told = "rly: input failed\nrly: input: a payload of more than 8192 bytes\n"
        long = b"x" * (LONGEST + 1)
        self.expect("put", "spool", input=long, errors=told, status=1)
        self.expect("put", "spool", "--destination=1", input=long[3:] + b"y", errors=told, status=1)
        self.assertEqual(self.put_files(), [])
        self.expect_put(input=long[1:], files=[long[1:]])
        self.expect("put", "spool", "--destination=1", input=long[3:])
        lines = b"a\n" + long + b"\nb\n"
        self.expect("put", "spool", "--lines", input=lines, errors=told, status=1)
        self.assertEqual(self.put_files()[1:], [b"\0\1" + long[3:], b"a"])
        self.expect("put", "spool", "--lines", input=b"c\n" + b"x" * 100_000, errors=told, status=1)
        self.assertEqual(self.put_files()[3:], [b"c"])

    def test_a_full_folder(self):
        os.mkdir(self.path("spool/new"))
        for number in range(1, 16_385):
            with open(self.path(f"spool/new/{number:020}"), "wb"):
                pass
        full = FAILED + "spool: new: full, at least 16384 files wait; the station that has the folder as a peer takes them\n"
        self.expect("put", "spool", input=b"no", errors=full, status=1)
        os.remove(self.path(f"spool/new/{7:020}"))
        self.expect("put", "spool", "--lines", input=b"yes\nno\n", errors=full, status=1)
        self.assertEqual(self.put_files()[-1], b"yes")

    def test_refused_folders(self):
        self.write("file", "")
        self.expect("put", "nowhere", errors=MISSING, status=1)
        self.expect("put", "file", errors=FAILED + "file: not a folder\n", status=1)
        self.expect("put", "", errors=MISSING.replace("nowhere", ""), status=1)
        self.write("spool/new", "")
        run = self.rly("put", "spool")
        self.assertEqual((run.returncode, run.stdout), (1, b""))
        self.assertIn(b"rly: folder: spool: new: ", run.stderr)

    def test_a_folder_of_another_user(self):
        self.hand_out()
        run = self.as_nobody("put", "spool", input=b"x")
        self.assertEqual((run.returncode, run.stdout), (1, b""))
        self.assertRegex(run.stderr.decode(), r"\Arly: folder failed\nrly: folder: spool: .*Permission denied \(os error 13\)\n\Z")

    def test_a_file_system_without_hard_links(self):
        library = self.path("preloaded.so")
        words = ["cc", "-O1", "-shared", "-fPIC", "-o", library, f"{TOP}/tests/preloaded.c", "-ldl"]
        if subprocess.run(words, capture_output=True).returncode:
            self.skipTest("no C compiler")
        for command in ["put", "get"]:
            run = self.start(command, "spool", env={**os.environ, "LD_PRELOAD": library, "NO_LINKS": "1"})
            output, errors = run.communicate(b"x", timeout=SECONDS)
            self.assertEqual((run.returncode, output), (1, b""))
            told = FAILED + "spool: the file system has no hard links: Operation not permitted (os error 1)\n"
            self.assertEqual(errors.decode(), told)

    def test_two_writers_at_once(self):
        """Each file has a name of its own, and each writer's are in order."""
        texts = [b"".join(b"%s %d\n" % (who, n) for n in range(100)) for who in (b"a", b"b")]
        runs = [self.start("put", "spool", "--lines") for _ in texts]
        feeders = [threading.Thread(target=run.communicate, args=(text,)) for run, text in zip(runs, texts)]
        for it in feeders:
            it.start()
        for it in feeders:
            it.join(SECONDS)
        self.assertEqual([run.returncode for run in runs], [0, 0])
        files = self.put_files()
        for text in texts:
            self.assertEqual([it for it in files if it[:1] == text[:1]], text.splitlines())
        self.assertEqual(len(files), 200)

    def test_a_killed_put_leaves_the_first_lines(self):
        lines = [b"line %d" % n for n in range(2_000)]
        for pause in (0.02, 0.1, 0.3):
            run = self.start("put", "spool", "--lines")
            feeder = threading.Thread(target=self.feed, args=(run, b"\n".join(lines)))
            feeder.start()
            time.sleep(pause)
            run.kill()
            run.wait(SECONDS)
            feeder.join(SECONDS)
            files = self.put_files() if os.path.exists(self.path("spool/new")) else []
            self.assertEqual(files, lines[: len(files)])
            for name in self.names("new") if files else []:
                os.remove(self.path(f"spool/new/{name}"))

    def feed(self, run, text):
        try:
            run.stdin.write(text)
            run.stdin.close()
        except BrokenPipeError:
            pass


class Waits(Folders):
    def take(self, name, number):
        """Takes a file, as a station does: its link gives it a number."""
        os.rename(self.path(f"spool/new/{name}"), self.path(f"spool/sent/{number:020}"))

    def begin(self, *words, input):
        """A put that waits; the names of its files."""
        run = self.start("put", "spool", *words)
        run.stdin.write(input)
        run.stdin.close()
        return run

    def ended(self, run):
        errors = run.stderr.read()
        return run.wait(SECONDS), errors.decode()

    def test_a_wait_that_is_over(self):
        began = time.monotonic()
        told = "rly: wait is over\nrly: folder: spool: file 1: not in custody yet; it stays in the folder\n"
        self.expect("put", "spool", "--wait=1", input=b"x", errors=told, status=3)
        self.assertGreaterEqual(time.monotonic() - began, 1)
        self.expect("put", "spool", "--wait=0", input=b"y", errors=told, status=3)
        self.assertEqual(self.put_files(), [b"x", b"y"])

    def test_a_wait_for_custody(self):
        """It follows the file, under whatever name: custody is the end of its last one."""
        run = self.begin("--wait=30", input=b"x")
        self.wait_for(lambda: os.path.exists(self.path("spool/new")) and self.names("new"))
        self.take(self.names("new")[0], 5)
        time.sleep(0.2)
        self.assertIsNone(run.poll())
        os.rename(self.path(f"spool/sent/{5:020}"), self.path(f"spool/new/{6:020}"))
        self.take(f"{6:020}", 1)
        time.sleep(0.2)
        self.assertIsNone(run.poll())
        os.remove(self.path(f"spool/sent/{1:020}"))
        self.assertEqual(self.ended(run), (0, ""))

    def test_a_wait_for_more_files_than_are_open(self):
        """300 lines, of which 256 are followed at a time."""
        run = self.begin("--lines", "--wait=30", input=b"".join(b"%d\n" % n for n in range(300)))
        taken = []
        while len(taken) < 300:
            self.wait_for(lambda: os.path.exists(self.path("spool/new")) and self.names("new"))
            for name in self.names("new"):
                taken.append(self.read(f"spool/new/{name}"))
                os.remove(self.path(f"spool/new/{name}"))
        self.assertEqual(self.ended(run), (0, ""))
        self.assertEqual(taken, [b"%d" % n for n in range(300)])

    def test_a_refused_file(self):
        """Another file of the same number in `refused/` isn't it."""
        reasons = [
            ("no-route", "its destination has no route"),
            ("too-long", "longer than the station takes"),
            ("too-short", "too short for a destination"),
        ]
        for reason, told in reasons:
            run = self.begin("--lines", "--wait=30", input=b"a\nb\n")
            self.wait_for(lambda: os.path.exists(self.path("spool/new")) and len(self.names("new")) == 2)
            first, second = self.names("new")
            os.remove(self.path(f"spool/new/{first}"))
            self.write(f"spool/refused/{second}.{reason}", b"another")
            time.sleep(0.2)
            self.assertIsNone(run.poll())
            os.rename(self.path(f"spool/new/{second}"), self.path(f"spool/refused/{3:020}.{reason}"))
            text = f"rly: file refused\nrly: folder: spool: file 2: {told}; it is in refused/\n"
            self.assertEqual(self.ended(run), (1, text))


class Wakes(Folders):
    def setUp(self):
        super().setUp()
        self.socket = self.enterContext(socket.socket(socket.AF_INET, socket.SOCK_DGRAM))
        self.socket.bind(("127.0.0.1", 0))
        self.socket.settimeout(SECONDS)
        self.wake = f"127.0.0.1:{self.socket.getsockname()[1]}\n"

    def test_a_put_and_a_get_wake_the_station(self):
        self.write("spool/.wake", self.wake)
        self.expect("put", "spool", "--lines", input=b"a\nb\n")
        self.assertEqual([self.socket.recv(9) for _ in "ab"], [b"", b""])
        self.hand_out(b"\0\1x")
        self.expect("get", "spool", output=b"x")
        self.assertEqual(self.socket.recv(9), b"")
        self.socket.settimeout(0.2)
        self.expect("get", "spool")
        self.assertRaises(TimeoutError, self.socket.recv, 9)

    def test_a_foreign_wake_is_no_error(self):
        port = self.wake.split(":")[1]
        for text in ["", "x", f"127.0.0.2:{port}", f"localhost:{port}", "127.0.0.1:", "127.0.0.1:65536", b"\xff" * 5_000]:
            self.write("spool/.wake", text)
            self.expect("put", "spool", input=b"a")
        os.remove(self.path("spool/.wake"))
        os.mkfifo(self.path("spool/.wake"))
        self.expect("put", "spool", input=b"a")
        os.remove(self.path("spool/.wake"))
        os.mkdir(self.path("spool/.wake"))
        self.expect("put", "spool", input=b"a")
        self.socket.settimeout(0.2)
        self.assertRaises(TimeoutError, self.socket.recv, 9)


class Gets(Folders):
    def test_nothing_is_there(self):
        self.expect("get", "spool")
        self.assertEqual(sorted(it for it in os.listdir(self.path("spool")) if not it.startswith(".")), SUBS)

    def test_payloads_are_printed_in_order_and_removed(self):
        self.hand_out(b"\0\1one\n", b"\0\2", b"\0\3three", first=9)
        self.expect("get", "spool", output=b"one\nthree")
        self.assertEqual((self.names("out"), self.hidden("out")), ([], [f".printed-{11:020}"]))

    def test_forms(self):
        for words, output in [
            (["--lines"], b"a\n\nb\n"),
            (["--raw"], b"\0\1a\0\2\0\3b"),
            (["--raw", "--lines"], b"\0\1a\n\0\2\n\0\3b\n"),
        ]:
            self.hand_out(b"\0\1a", b"\0\2", b"\0\3b", first=1 + len(self.hidden("out") if os.path.exists(self.path("spool/out")) else []) * 10)
            self.expect("get", "spool", *words, output=output)
            os.remove(self.path(f"spool/out/{self.hidden('out')[0]}"))

    def test_a_file_too_short_for_a_destination_has_no_payload(self):
        self.hand_out(b"", b"x", b"xyz")
        self.expect("get", "spool", "--lines", output=b"\n\nz\n")

    def test_at_most_a_count(self):
        self.hand_out(b"\0\1a", b"\0\1b", b"\0\1c")
        self.expect("get", "spool", "--count=0")
        self.expect("get", "spool", "--count=2", output=b"ab")
        self.assertEqual(self.names("out"), [f"{3:020}"])
        self.expect("get", "spool", "--count=9", output=b"c")

    def test_what_was_printed_is_not_printed_again(self):
        """A get that was killed after it kept the number left the file."""
        self.hand_out(b"\0\1a", b"\0\1b", b"\0\1c")
        self.write(f"spool/out/.printed-{2:020}", b"")
        self.expect("get", "spool", output=b"c")
        self.assertEqual(self.names("out"), [])

    def test_the_output_fails(self):
        self.hand_out(b"\0\1a", b"\0\1b")
        self.expect_stuck("get", "spool")
        self.assertEqual(len(self.names("out")), 2)
        self.expect("get", "spool", output=b"ab")

    def test_one_get_at_a_time(self):
        run = self.start("get", "spool", "--follow")
        self.wait_for(lambda: os.path.exists(self.path("spool/.get.lock")))
        time.sleep(0.2)
        self.expect("get", "spool", errors=FAILED + "spool: locked by another process\n", status=1)
        run.send_signal(signal.SIGINT)
        self.assertEqual(run.wait(SECONDS), -signal.SIGINT)
        self.expect("get", "spool")

    def test_a_get_that_follows(self):
        self.hand_out(b"\0\1a")
        run = self.start("get", "spool", "--follow", "--lines", "--count=3")
        self.assertEqual(self.answer(run), b"a\n")
        self.hand_out(b"\0\1b", first=2)
        self.assertEqual(self.answer(run), b"b\n")
        self.assertIsNone(run.poll())
        self.hand_out(b"\0\1c", b"\0\1d", first=3)
        self.assertEqual(self.answer(run), b"c\n")
        self.assertEqual((run.wait(SECONDS), run.stderr.read()), (0, b""))
        self.assertEqual(self.names("out"), [f"{4:020}"])

    def test_foreign_names_stay(self):
        self.hand_out(b"\0\1a")
        self.write("spool/out/notes", "x")
        self.write("spool/out/1", "x")
        self.expect("get", "spool", output=b"a")
        self.assertEqual(self.names("out"), ["1", "notes"])

    def test_a_file_of_no_station(self):
        """One of 65,536 bytes is printed all the same."""
        self.hand_out(b"\0\1a", b"x" * 65_536, b"x" * 65_537)
        told = FAILED + "spool: out: a file of more than 65536 bytes is no station's; remove it\n"
        self.expect("get", "spool", output=b"a" + b"x" * 65_534, errors=told, status=1)
        self.assertEqual(self.names("out"), [f"{3:020}"])

    def test_refused_folders(self):
        self.write("file", "")
        self.expect("get", "nowhere", errors=MISSING, status=1)
        self.expect("get", "file", errors=FAILED + "file: not a folder\n", status=1)

    def test_a_folder_of_another_user(self):
        self.hand_out(b"\0\1a")
        run = self.as_nobody("get", "spool")
        self.assertEqual((run.returncode, run.stdout), (1, b""))
        self.assertRegex(run.stderr.decode(), r"\Arly: folder failed\nrly: folder: spool: .*Permission denied \(os error 13\)\n\Z")

    def test_a_killed_get_prints_its_last_payload_again_at_most(self):
        count = 400
        self.hand_out(*(b"\0\1%03d" % n for n in range(count)))
        printed = b""
        for pause in (0.05, 0.1, 0.2):
            run = self.start("get", "spool")
            time.sleep(pause)
            run.kill()
            part = run.stdout.read()
            if printed and part[:3] == printed[-3:]:
                part = part[3:]
            printed += part
        run = self.rly("get", "spool")
        part = run.stdout
        if printed and part[:3] == printed[-3:]:
            part = part[3:]
        self.assertEqual(printed + part, b"".join(b"%03d" % n for n in range(count)))
        self.assertEqual(self.names("out"), [])
