#!/usr/bin/env python3
"""Writes the section `chains` of crates/test_machine: its calls in `stdin`, and the answers that must come in `stdout`.

The answers come from a map of rows kept here: a row's identity is the lowest free slot, a row of n
bytes takes one slot for each 240 bytes and at least one, and a slot that a transaction drew or freed
stays taken until it ends.
"""
import random
import sys

if __name__ == "__main__" and sys.argv[1:] == ["--help"]:
    print(__doc__.strip())
    sys.exit()

from sections import put


def data(length, seed):
    content, number = [], seed % 251
    for _ in range(length):
        content.append(number % 251)
        number = number % 251 + 7
    return bytes(content)


def summed(content):
    total = 7
    for byte in content:
        total = (total * 33 + byte) % 1000003
    return total


class Client:
    def __init__(self):
        self.begun, self.drawn, self.written = False, 0, 0
        self.log, self.touched = [], set()


FIRST, END = 8192, 1048576


class Model:
    def __init__(self):
        self.rows, self.taken = {}, set()
        self.clients = [Client() for _ in range(16)]
        self.lowest = FIRST  # no slot below it is free

    def is_full(self, count):
        return END - FIRST - len(self.taken) < count

    def free(self, count):
        found, slot = [], self.lowest
        while len(found) < count:
            if slot not in self.taken:
                found.append(slot)
            slot += 1
        self.lowest = found[0]
        return found

    def change(self, c, row, new, written, fresh):
        client = self.clients[c]
        old = self.rows.get(row)
        client.log.append((row, old))
        client.touched.update(fresh)
        if old:
            client.touched.update(old[2])
        self.taken.update(fresh)
        client.drawn += len(fresh)
        client.written += written
        if new is None:
            self.rows.pop(row, None)
        else:
            self.rows[row] = new

    def insert(self, c, table, content):
        count = max(1, (len(content) + 239) // 240)
        if self.is_full(count):
            return "full"
        if self.clients[c].written + count > 7989:
            return "transaction full"
        fresh = self.free(count)
        self.change(c, fresh[0], (table, content, fresh), count, fresh)
        return f"row {fresh[0]}"

    def many(self, c, table, content, count):
        last = 0
        for made in range(count):
            answer = self.insert(c, table, content)
            if answer == "transaction full":
                self.end(c)
                self.clients[c].begun = True
                answer = self.insert(c, table, content)
            if not answer.startswith("row"):
                return f"{made} rows, the last {last}, then {answer}"
            last = int(answer[4:])
        return f"{count} rows, the last {last}"

    def put(self, c, row, content):
        table, _, chain = self.rows[row]
        count = max(1, (len(content) + 239) // 240)
        written = max(count, len(chain))
        if self.is_full(count - len(chain)):
            return "full"
        if self.clients[c].written + written > 7989:
            return "transaction full"
        fresh = self.free(count - len(chain)) if count > len(chain) else []
        self.change(c, row, (table, content, (chain + fresh)[:count]), written, fresh)
        return "done"

    def delete(self, c, row):
        count = len(self.rows[row][2])
        if self.clients[c].written + count > 7989:
            return "transaction full"
        self.change(c, row, None, count, [])
        return "done"

    def back(self, c, mark):
        client = self.clients[c]
        while len(client.log) > mark:
            row, old = client.log.pop()
            if old is None:
                self.rows.pop(row, None)
            else:
                self.rows[row] = old

    def end(self, c):
        client = self.clients[c]
        live = set()
        for _, _, chain in self.rows.values():
            live.update(chain)
        self.taken -= {slot for slot in client.touched if slot not in live}
        self.lowest = FIRST
        self.clients[c] = Client()

    def get(self, row):
        if row not in self.rows:
            return "none"
        table, content, _ = self.rows[row]
        return f"table {table}, {len(content)} bytes, sum {summed(content)}"


class Rows:
    def __init__(self):
        self.model, self.lines, self.answers, self.marks = Model(), [], [], {}

    def say(self, line, answer):
        self.lines.append(line)
        self.answers.append(f"{line} = {answer}")

    def begin(self, c):
        self.model.clients[c].begun = True
        self.say(f"begin {c}", "done")

    def insert(self, c, table, length, seed):
        answer = self.model.insert(c, table, data(length, seed))
        self.say(f"insert {c} {table} {length} {seed}", answer)
        return int(answer[4:]) if answer.startswith("row") else None

    def many(self, c, table, length, seed, count):
        answer = self.model.many(c, table, data(length, seed), count)
        self.say(f"many {c} {table} {length} {seed} {count}", answer)

    def put(self, c, row, length, seed):
        self.say(f"put {c} {row} {length} {seed}", self.model.put(c, row, data(length, seed)))

    def delete(self, c, row):
        self.say(f"delete {c} {row}", self.model.delete(c, row))

    def mark(self, c):
        self.marks[c] = len(self.model.clients[c].log)
        self.say(f"mark {c}", "done")

    def back(self, c):
        self.model.back(c, self.marks[c])
        self.say(f"back {c}", "done")

    def commit(self, c):
        self.model.end(c)
        self.say(f"commit {c}", "done")

    def abandon(self, c):
        self.model.back(c, 0)
        self.model.end(c)
        self.say(f"abandon {c}", "done")

    def get(self, row):
        self.say(f"get {row}", self.model.get(row))

    def there(self, row):
        self.say(f"there {row}", "yes" if row in self.model.rows else "no")

    def counts(self, c):
        client = self.model.clients[c]
        self.say(f"counts {c}", f"drawn {client.drawn}, written {client.written}")

    def wrong(self, line, answer):
        self.say(line, answer)


def fixed(rows):
    lengths = [0, 1, 239, 240, 241, 480, 481, 30000]
    rows.wrong("insert 3 7 1 1", "no transaction")
    rows.wrong("begin 16", "no client")
    rows.counts(3)
    rows.begin(3)
    rows.wrong("begin 3", "begun")
    rows.wrong("insert 3 7 30001 1", "too long")
    rows.wrong("put 3 8192 1 1", "no row")
    rows.wrong("delete 3 1048576", "no row")
    made = []
    for number, length in enumerate(lengths):
        made.append(rows.insert(3, number, length, number))
        rows.counts(3)
    for row in made:
        rows.get(row)
        rows.there(row)
    for row in [0, 8191, 8197, 1048575, 1048576, 4294967295]:
        rows.get(row)
        rows.there(row)
    rows.commit(3)
    rows.counts(3)
    for row in made:
        rows.begin(3)
        for length in lengths:
            rows.mark(3)
            rows.put(3, row, length, length + 1)
            rows.get(row)
            rows.counts(3)
            rows.back(3)
            rows.get(row)
        rows.mark(3)
        rows.delete(3, row)
        rows.get(row)
        rows.there(row)
        rows.back(3)
        rows.get(row)
        rows.counts(3)
        rows.abandon(3)
    for row in made:
        rows.get(row)
    # a slot that was freed or drawn stays taken until its transaction ends
    rows.begin(1)
    rows.begin(2)
    rows.delete(1, made[3])
    second = rows.insert(2, 9, 241, 5)
    rows.get(second)
    first = rows.insert(1, 8, 700, 6)
    rows.put(2, second, 10, 1)
    rows.put(1, made[5], 1000, 2)
    rows.commit(1)
    third = rows.insert(2, 7, 900, 3)
    rows.abandon(2)
    for row in made + [first, second, third]:
        rows.get(row)
    rows.begin(2)
    for length in [10, 300, 5, 241]:
        rows.get(rows.insert(2, 6, length, length))
    rows.commit(2)
    for row in made + [first, second, third]:
        rows.get(row)


def chance(rows, seed, calls):
    draw = random.Random(seed)
    lengths = [0, 1, 100, 239, 240, 241, 479, 480, 481, 1000, 3000]
    owner = {}
    for _ in range(calls):
        c = draw.randrange(5)
        client = rows.model.clients[c]
        if not client.begun:
            rows.begin(c)
            rows.mark(c)
            continue
        mine = [row for row in rows.model.rows if owner.get(row, c) == c]
        what = draw.randrange(100)
        length, seed_of = draw.choice(lengths), draw.randrange(1000)
        if what < 35:
            row = rows.insert(c, draw.randrange(256), length, seed_of)
            owner[row] = c
        elif what < 55 and mine:
            row = draw.choice(mine)
            owner[row] = c
            rows.put(c, row, length, seed_of)
        elif what < 70 and mine:
            row = draw.choice(mine)
            owner[row] = c
            rows.delete(c, row)
        elif what < 78:
            rows.mark(c)
        elif what < 84:
            rows.back(c)
        elif what < 90:
            rows.commit(c) if draw.randrange(3) else rows.abandon(c)
            owner = {row: o for row, o in owner.items() if o != c}
        elif what < 92:
            rows.counts(c)
        elif rows.model.rows:
            rows.get(draw.choice(sorted(rows.model.rows)))
    for c in range(5):
        if rows.model.clients[c].begun:
            rows.commit(c)
    for row in sorted(rows.model.rows):
        rows.get(row)


# a transaction writes 7,989 slots at most
def crowded(rows):
    rows.begin(5)
    row = rows.insert(5, 1, 3, 4)
    rows.commit(5)
    rows.begin(4)
    for number in range(63):
        rows.insert(4, 1, 30000, number)
    rows.insert(4, 1, 27361, 99)
    rows.insert(4, 1, 27120, 98)
    rows.counts(4)
    rows.insert(4, 1, 0, 1)
    rows.put(4, row, 0, 1)
    rows.delete(4, row)
    rows.get(row)
    rows.abandon(4)


# 100,000 rows, and then rows of 125 fragments until all 1,040,384 slots are taken
def filled(rows):
    model = rows.model
    rows.begin(6)
    rows.many(6, 7, 40, 1, 100000)
    rows.many(6, 8, 30000, 2, 9000)
    left = END - FIRST - len(model.taken)
    rows.insert(6, 9, 240 * left + 1, 3)
    row = rows.insert(6, 9, 240 * (left - 1), 3)
    rows.put(6, row, 240 * (left + 1), 4)
    last = rows.insert(6, 10, 240, 5)
    assert last == END - 1
    for at in [row, last - 1, last, last + 1]:
        rows.get(at)
        rows.there(at)
    rows.insert(6, 11, 0, 6)
    rows.put(6, last, 241, 7)
    rows.put(6, last, 239, 8)
    rows.get(last)
    rows.delete(6, row)
    rows.insert(6, 11, 0, 6)
    rows.put(6, last, 241, 7)
    rows.counts(6)
    rows.commit(6)
    # the slots that it freed may be drawn now, each once
    rows.begin(7)
    rows.put(7, last, 241, 9)
    rows.get(last)
    rows.insert(7, 12, 240 * (left - 1), 9)
    rows.insert(7, 12, 240 * (left - 2), 9)
    rows.insert(7, 12, 0, 9)
    rows.delete(7, last)
    rows.insert(7, 12, 0, 9)
    rows.counts(7)
    rows.abandon(7)
    rows.get(last)
    rows.begin(7)
    rows.delete(7, last)
    rows.commit(7)
    rows.begin(8)
    rows.many(8, 13, 0, 1, 200)
    rows.abandon(8)


def main():
    rows = Rows()
    fixed(rows)
    chance(rows, 26, 1500)
    crowded(rows)
    filled(rows)
    put("test_machine", "chains", "".join(line + "\n" for line in rows.lines), "".join(answer + "\n" for answer in rows.answers))


main()
