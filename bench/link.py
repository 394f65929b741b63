"""A lossy link for `slow_link --pair` and `tcp_link`, and the best that a sender with a window can make of it."""
import heapq
import itertools
import os
import random
import signal
import sys
from importlib.machinery import SourceFileLoader
from importlib.util import module_from_spec, spec_from_loader
from multiprocessing import get_context
from multiprocessing.connection import wait
from typing import NamedTuple


class Contacts(NamedTuple):
    """A contact of `open` seconds begins every `every` seconds. All packets of its first `late` seconds are lost."""

    open: float = 1
    every: float = 1
    late: float = 0

    def carries(self, moment):
        return self.late <= moment % self.every < self.open

    def opening(self, moment):
        """The first moment in a contact, from this one."""
        return moment if moment % self.every < self.open else (moment // self.every + 1) * self.every

    def carrying(self, moment):
        """The first moment at which no packet is lost for the contact, from this one."""
        began = self.opening(moment) // self.every * self.every
        return max(moment, began + self.late)

    def open_time(self, seconds):
        """The seconds in contacts, up to a moment."""
        return seconds // self.every * self.open + min(self.open, seconds % self.every)


ALWAYS = Contacts()
# The minimum length of a row, in ways.
WAYS = 20


class Link(NamedTuple):
    """Bytes a second, bytes of the buffer, ms each way, percent lost, mean length of a burst, ms of reordering, percent
    duplicated."""

    rate: int = 12_000
    buffer: int = 16_384
    way: int = 300
    loss: float = 0
    burst: float = 1
    reorder: int = 0
    duplicate: float = 0
    contacts: Contacts = ALWAYS

    def __str__(self):
        parts = [f"{self.rate:9,} bytes a second, buffer {self.buffer:7,}, {self.way:5,} ms each way"]
        parts += [f"{self.loss:2g}% lost" + f" in bursts of {self.burst:g}" * (self.burst > 1)]
        parts += [f"reordered by up to {self.reorder:,} ms"] * (self.reorder > 0)
        parts += [f"{self.duplicate:g}% duplicated"] * (self.duplicate > 0)
        if self.contacts != ALWAYS:
            parts += ["contacts of {:g} s every {:g} s, the first {:g} s lost".format(*self.contacts)]
        return ", ".join(parts)


LOSSES = [*(Link(loss=loss) for loss in (0, 1, 5, 10)), Link(loss=10, burst=5), Link(loss=30)]
# The options of a link, each with its field.
OPTIONS = {
    "rates": "rate",
    "buffers": "buffer",
    "ways": "way",
    "losses": "loss",
    "bursts": "burst",
    "reorders": "reorder",
    "duplicates": "duplicate",
}


def links(options):
    """Each combination of the options, and none if none is given."""
    given = {field: getattr(options, name) for name, field in OPTIONS.items() if getattr(options, name) is not None}
    return [Link(**dict(zip(given, it))) for it in itertools.product(*given.values())] if given else []


class Losses:
    """Decides if each packet is lost: independently, or in bursts (Gilbert's model). A seed repeats its losses."""

    def __init__(self, link, seed):
        self.share, self.burst, self.dice, self.is_bad = link.loss / 100, link.burst, random.Random(seed), False

    def draw(self):
        """If the next packet is lost."""
        if self.burst <= 1:
            return self.dice.random() < self.share
        chance = 1 - 1 / self.burst if self.is_bad else self.share / (1 - self.share) / self.burst
        self.is_bad = self.dice.random() < chance
        return self.is_bad


class Direction:
    """One direction of a link."""

    def __init__(self, link, seed):
        self.link, self.losses, self.dice = link, Losses(link, seed), random.Random(f"{seed} ways")
        # The moment at which the first contact begins, and the one at which the buffer is empty.
        self.begin = self.idle = 0.0
        # A heap of the packets on their way, by arrival.
        self.on_way = []
        # Packets that entered and that the buffer dropped, and the delay that this script added to each delivery.
        self.entered = self.dropped = 0
        self.delays = []

    def enter(self, packet, size, now):
        """Sends a packet, whose size is with its headers."""
        self.entered += 1
        if max(0.0, self.idle - now) * self.link.rate + size > self.link.buffer:
            self.dropped += 1
            return
        self.idle = max(self.idle, now) + size / self.link.rate
        if self.losses.draw() or not self.link.contacts.carries(self.idle - self.begin):
            return
        for copy in range(2 if self.dice.random() * 100 < self.link.duplicate else 1):
            arrival = self.idle + (self.link.way + self.dice.random() * self.link.reorder) / 1_000
            heapq.heappush(self.on_way, (arrival, self.entered, copy, packet))

    def due(self):
        """The next arrival."""
        return self.on_way[0][0] if self.on_way else float("inf")

    def arrived(self, now):
        """The packets that have arrived."""
        while self.due() <= now:
            arrival, *_, packet = heapq.heappop(self.on_way)
            self.delays.append(now - arrival)
            yield packet


def lateness(there, back):
    """The delay that this script added to deliveries."""
    delays = sorted(there.delays + back.delays) or [0.0]
    return f"late by {delays[len(delays) * 99 // 100] * 1e3:.0f} ms at 99%, at most {delays[-1] * 1e3:.0f} ms"


class SelectiveRepeat:
    """The best sender with a window. It sends whenever the link is free, and repeats lost packets alone, the lowest
    number first. It learns of each arrival and each loss one way after the arrival was due."""

    def __init__(self, link, window, size, seed):
        self.link, self.window, self.size, self.way = link, window, size, link.way / 1_000
        self.losses, self.dice = Losses(link, seed), random.Random(f"{seed} ways")
        # Heaps by moment: arrivals, each with its number and if it is lost, and reports to the sender, each with the
        # last number that arrived in order, and with a lost number or 0.
        self.on_way, self.reports = [], []
        # The last number that arrived in order, and the last one that the sender knows of.
        self.last = self.known = 0
        self.next, self.sent, self.ahead, self.missing = 1, 0, set(), []

    def learn(self, now):
        while self.on_way and self.on_way[0][0] <= now:
            came, number, is_lost = heapq.heappop(self.on_way)
            if not is_lost and number > self.last:
                self.ahead.add(number)
            while self.last + 1 in self.ahead:
                self.last += 1
                self.ahead.discard(self.last)
            known = self.link.contacts.carrying(came) + self.way
            heapq.heappush(self.reports, (known, self.last, number if is_lost else 0))
        while self.reports and self.reports[0][0] <= now:
            _, last, lost = heapq.heappop(self.reports)
            self.known = max(self.known, last)
            if lost:
                heapq.heappush(self.missing, lost)

    def chosen(self):
        """The number to send, if there is one."""
        if self.missing:
            return heapq.heappop(self.missing)
        if self.next - self.known > self.window:
            return None
        self.next += 1
        return self.next - 1

    def send(self, number, now):
        """Sends a number. Returns the moment at which the link is free again."""
        self.sent += 1
        free = now + self.size / self.link.rate
        is_lost = self.losses.draw() or not self.link.contacts.carries(free)
        arrival = free + self.way + self.dice.random() * self.link.reorder / 1_000
        heapq.heappush(self.on_way, (arrival, number, is_lost))
        return free

    def run(self, seconds):
        """The part of the link that new datagrams use, and the packets for each."""
        now = 0.0
        while now < seconds:
            self.learn(now)
            number = self.chosen()
            if number is None:
                now = min(heap[0][0] for heap in (self.on_way, self.reports) if heap)
            else:
                now = self.send(number, now)
            now = self.link.contacts.opening(now)
        self.learn(seconds)
        part = self.last * self.size / self.link.rate / self.link.contacts.open_time(seconds)
        return part, self.sent / max(1, self.last)


def script(name):
    """Another script of this folder as a module."""
    loader = SourceFileLoader(name, f"{os.path.dirname(os.path.abspath(__file__))}/{name}")
    made = module_from_spec(spec_from_loader(name, loader))
    loader.exec_module(made)
    return made


def stop(*_):
    """Ends this process, after the stations that it started."""
    sys.exit(1)


def answer(end, measure, case):
    end.send(measure(case))


def in_processes(jobs, measure, cases):
    """The results of a function for all cases, in order. Each case has its own process, and at most `jobs` run at once."""
    for number in (signal.SIGINT, signal.SIGTERM):
        signal.signal(number, stop)
    fork, waiting, running, results = get_context("fork"), list(enumerate(cases)), {}, {}
    try:
        for number in range(len(waiting)):
            while number not in results:
                while waiting and len(running) < jobs:
                    started, case = waiting.pop(0)
                    ours, theirs = fork.Pipe()
                    process = fork.Process(target=answer, args=(theirs, measure, case))
                    process.start()
                    theirs.close()
                    running[ours] = started, process
                for end in wait(list(running)):
                    ended, process = running.pop(end)
                    results[ended] = end.recv()
                    process.join()
            yield results.pop(number)
    finally:
        for _, process in running.values():
            process.terminate()
            process.join()


def print_rows(jobs, measure, cases):
    """Prints the row of each case. Returns if all of them were measured."""
    is_good = True
    for line, is_measured in in_processes(jobs, measure, cases):
        print(line, flush=True)
        is_good = is_good and is_measured
    return is_good
