#!/usr/bin/env python3
"""Counts what the random schedules of test_disks do: the answer to a row `schedules COUNT STEPS SEED` over ten slots and a log without notes.

    tools/slot_schedules.py COUNT STEPS SEED

It knows the steps of a seed, and of the slots what docs/outside.md says of them ('Over a disk'): which steps have a meaning, and which of them
call the disk. Opening makes 18 calls: a sync of each area; reads of both headers and of the first gate; the length of area 0; its sync; the gate and
the length of the other area, which is closed, prepared and opened by a write and a sync each; and twice the length of area 0. The first read of one
of the ten slots is a call, and a commit makes four. Once a call has failed none is made any more."""
import sys

if __name__ == "__main__" and sys.argv[1:] == ["--help"]:
    print(__doc__.strip())
    sys.exit()

SLOTS, COMPARED, OPENING, COMMIT = 10, 24, 18, 4


class Random:
    """The numbers of a seed."""

    def __init__(self, seed):
        self.state = seed % 1_000_003 * 7_919 + 1

    def next(self, below):
        self.state = self.state % 2_147_483_647 * 48_271 % 2_147_483_647 + 1
        return self.state // 7 % below

    def step(self):
        client, verb = self.next(4), self.next(20)
        if verb < 4:
            return "begin", client, None
        if verb < 13:
            slot = self.next(COMPARED)
            self.next(256)
            return "write", client, slot
        return ("mark", "mark", "back", "back", "commit", "commit", "abandon")[verb - 13], client, None


class Failed(Exception):
    """The disk failed."""


class Disk:
    """Calls of a disk, of which one fails; 0 is none."""

    def __init__(self, fails):
        self.fails, self.calls, self.has_failed, self.framed = fails, 0, False, set()

    def call(self, count):
        if self.has_failed:
            raise Failed
        self.calls += count
        if self.calls - count < self.fails <= self.calls:
            self.has_failed = True
            raise Failed

    def read(self, slot):
        self.call(0 if slot >= SLOTS or slot in self.framed else 1)
        self.framed.add(slot)


class Client:
    def __init__(self):
        self.begun, self.written = False, set()


def has_meaning(clients, verb, client, slot):
    mine = clients[client]
    if verb == "begin":
        return not mine.begun
    others = [other for other in clients if other is not mine and other.begun]
    return mine.begun and not any(slot in other.written for other in others)


def schedule(random, steps, fails):
    """The steps and commits of a schedule, and whether the disk failed."""
    disk, clients, taken, commits = Disk(fails), [Client() for _ in range(4)], 0, 0
    try:
        disk.call(OPENING)
    except Failed:
        return 0, 0, 1
    for _ in range(steps):
        verb, client, slot = random.step()
        if has_meaning(clients, verb, client, slot):
            taken += 1
            mine = clients[client]
            try:
                if verb == "write":
                    disk.read(slot)
                    mine.written.add(slot)
                elif verb in ("begin", "back"):
                    disk.call(0)
                elif verb == "commit":
                    disk.call(COMMIT)
                    commits += 1
                if verb in ("begin", "commit", "abandon"):
                    mine.begun, mine.written = verb == "begin", set()
            except Failed:
                pass
        try:
            disk.read(random.next(COMPARED))
        except Failed:
            pass
    return taken, commits, int(disk.has_failed)


def main():
    count, steps, seed = map(int, sys.argv[1:])
    whole = [0, 0, 0]
    for number in range(count):
        random = Random(seed + number)
        fails = random.next(60) + 1 if number % 2 else 0
        whole = [a + b for a, b in zip(whole, schedule(random, steps, fails))]
    print("{} steps, {} commits, {} faults: each as the model".format(*whole))


main()
