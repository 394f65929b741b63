"""The ids that `rly serve` keeps beside a device: which station each one means."""
import os

from program import Rows, plan_of

# What keeps the stations 1 and 2 of two peers, and 1 of a hop.
KEPT = """# The station of each id. `rly serve` keeps them; docs/FORMATS.md says how.
peers = [
  1,
  2,
]
hops = [
  1,
]
"""

# Files that keep no ids.
BROKEN = [
    "",
    "peers = [1, 2]\n",
    "peers = [1, 2]\nhops = 1\n",
    "peers = [1, 2]\nhops = [0]\n",
    "peers = [1, 65536]\nhops = [1]\n",
    "peers = [1, \"2\"]\nhops = [1]\n",
    "peers = [1, 2]\nhops = [1\n",
    b"\xff",
]

BROKEN_TOLD = "rly: ids failed\nrly: ids: device.ids: not the ids of a device; remove it, and `rly serve` makes it from its plan\n"


def renumbered(old, new):
    return (
        f"rly: ids failed\nrly: ids: device.ids: {old}, and names {new} in the plan; --renumber allows it, "
        "and what waits there goes to that one\n"
    )


class Ids(Rows):
    def setUp(self):
        super().setUp()
        self.rly("format", "device", "--hops=2", "--peers=2", "--items=16", "--bytes=4096")
        self.plan(2, 1)

    def plan(self, peers, hops, old="", new=""):
        text = plan_of(peers, hops, "127.0.0.1:0", "127.0.0.1:4002")
        for row, count in (("in", peers), ("out", hops)):
            for id in range(1, count + 1):
                os.makedirs(self.path(f"{row}{id}"), exist_ok=True)
        parts = text.split('listen = "127.0.0.1:0"\nremote = "127.0.0.1:4002"\n')
        names = [f"in{id}" for id in range(1, peers + 1)] + [f"out{id}" for id in range(1, hops + 1)]
        text = "".join(part + (f'folder = "{name}"\n' if name else "") for part, name in zip(parts, names + [""]))
        self.write("plan", text.replace(old, new, 1))

    def serve(self, *words):
        return self.rly("serve", "device", "plan", "--turns=1", *words)

    def expect_served(self, *words):
        run = self.serve(*words)
        self.assertEqual(run.returncode, 0, run.stderr)

    def expect_refused(self, told, *words):
        """Nothing was started, and what is kept stays as it was."""
        before = self.read("device.ids")
        run = self.serve(*words)
        self.assertEqual((run.returncode, run.stdout, run.stderr), (1, b"", told.encode()))
        self.assertEqual(self.read("device.ids"), before)

    def test_they_are_made_from_the_plan(self):
        self.expect_served()
        self.assertEqual(self.read("device.ids"), KEPT.encode())
        self.assertEqual([it for it in os.listdir(self.folder) if it.startswith(".")], [])

    def test_the_same_plan_writes_nothing(self):
        def written():
            """Which file it is, and when it was written or renamed. (That it was read is no writing.)"""
            found = os.stat(self.path("device.ids"))
            return found.st_ino, found.st_mtime_ns, found.st_ctime_ns

        self.expect_served()
        before = written()
        self.expect_served()
        self.assertEqual(written(), before)

    def test_an_id_that_means_another_station(self):
        self.expect_served()
        for old, new, told in [
            ("id = 2\nstation = 2", "id = 2\nstation = 5", renumbered("peer 2 named station 2", "station 5")),
            ("contacts = []", "contacts = []", None),
        ]:
            self.plan(2, 1, old, new)
            if told:
                self.expect_refused(told)
            else:
                self.expect_served()
        self.write("plan", self.read("plan").replace(b"[[hop]]\nid = 1\nstation = 1", b"[[hop]]\nid = 1\nstation = 6"))
        self.expect_refused(renumbered("hop 1 named station 1", "station 6"))
        self.expect_served("--renumber")
        self.assertEqual(self.read("device.ids"), KEPT.replace("hops = [\n  1,", "hops = [\n  6,").encode())
        self.expect_served()

    def test_an_id_that_the_plan_drops_keeps_its_station(self):
        self.plan(2, 2)
        self.expect_served()
        self.plan(2, 1)
        self.expect_served()
        self.plan(2, 2)
        self.write("plan", self.read("plan").replace(b"[[hop]]\nid = 2\nstation = 2", b"[[hop]]\nid = 2\nstation = 9"))
        self.expect_refused(renumbered("hop 2 named station 2", "station 9"))

    def test_a_file_that_keeps_none(self):
        """`--renumber` doesn't help; to remove the file does."""
        for text in BROKEN:
            with self.subTest(text):
                self.write("device.ids", text)
                self.expect_refused(BROKEN_TOLD)
                self.expect_refused(BROKEN_TOLD, "--renumber")
        os.remove(self.path("device.ids"))
        self.expect_served()

    def test_a_plan_that_does_not_fit_keeps_none(self):
        self.plan(2, 3)
        self.assertEqual(self.serve().returncode, 1)
        self.assertFalse(os.path.exists(self.path("device.ids")))

    def test_what_is_no_device_has_none(self):
        self.write("device", "no device")
        self.assertEqual(self.serve().returncode, 1)
        self.assertFalse(os.path.exists(self.path("device.ids")))

    def test_a_device_that_is_formatted_anew_has_none(self):
        self.expect_served()
        self.rly("format", "device", "--hops=2", "--peers=2", "--items=16", "--bytes=4096")
        self.assertFalse(os.path.exists(self.path("device.ids")))

    def test_ids_that_are_no_file(self):
        """They can't be read, so nothing is started."""
        os.mkdir(self.path("device.ids"))
        run = self.serve()
        self.assertEqual((run.returncode, run.stderr), (1, b"rly: ids failed\nrly: ids: device.ids: not a regular file\n"))

    def test_a_folder_that_takes_none(self):
        """They can't be written, which is said, and the station serves."""
        os.mkdir(self.path(".device.ids.new"))
        run = self.serve()
        told = b"rly: ids: device.ids: not written, so a later change of what they mean isn't seen: Is a directory (os error 21)\n"
        self.assertEqual((run.returncode, run.stderr.startswith(told)), (0, True), run.stderr)
