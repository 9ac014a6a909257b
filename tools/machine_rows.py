#!/usr/bin/env python3
"""Writes the section `steps` of crates/test_machine: its rows in `stdin`, and the answers that must come in `stdout`.

The first rows are here with their answers, each worked by hand from docs/machine.md. After them come random steps of
three clients. Their answers are those of `Machine`, the machine of docs/machine.md as a plain program: whole copies in
place of undo lists, and no index. The rows worked by hand must have its answers too. No answer is one of the program's.

A heading opens the database anew, with three clients and the customers 1, 2 and 3, each named Ann, in the rows 8192,
8193 and 8194. Index 0 of customers is unique, on the number. Items have a code, a price and a lot: index 0 is unique,
on the code; index 1 is on the price, descending, and then the lot; index 2 is unique, on the lot. The first sequence
is one short of the greatest value of 64 bits, the second one short of the least. It runs from anywhere."""

import random
import sys

if __name__ == "__main__" and sys.argv[1:] == ["--help"]:
    print(__doc__.strip())
    sys.exit()

from sections import put

# A customer with a name of 29,900 bytes has 125 fragments. A transaction has 7,989 slot writes: 63 such rows and 112
# of one fragment leave two.

ROWS = """\
== share and exclusive locks conflict
0 share 8192 = Granted
1 share 8192 = Granted
2 try-exclusive 8192 = Busy 0 1
0 drop 8192 = Done
1 try-exclusive 8192 = Granted
1 share 8192 = Granted
0 try-share 8192 = Busy 1
0 exclusive 8192 = Blocked 1
0 exclusive 8192 = Refused
1 drop 8192 = Done
0 exclusive 8192 = Granted
0 exclusive 9000 = Gone
3 enter = no client
== of two that upgrade one row the later is answered the cycle
0 share 8192 = Granted
1 share 8192 = Granted
0 exclusive 8192 = Blocked 1
1 exclusive 8192 = Deadlock 1 0
1 drop 8192 = Done
0 exclusive 8192 = Granted
== three clients close a cycle
0 exclusive 8192 = Granted
1 exclusive 8193 = Granted
2 exclusive 8194 = Granted
0 exclusive 8193 = Blocked 1
1 share 8194 = Blocked 2
2 share 8192 = Deadlock 2 0 1
2 try-share 8192 = Busy 0
1 get 8194 = Row 3 Ann
2 share 8193 = Blocked 1
== three clients in transactions close a cycle
0 enter = Done
1 enter = Done
2 enter = Done
0 exclusive 8192 = Granted
1 exclusive 8193 = Granted
2 exclusive 8194 = Granted
0 exclusive 8193 = Blocked 1
1 exclusive 8194 = Blocked 2
2 exclusive 8192 = Deadlock 2 0 1
2 back 1 = Done
1 exclusive 8194 = Refused
2 leave = Committed
1 exclusive 8194 = Granted
0 exclusive 8193 = Blocked 1
1 leave 8194 = Committed
0 exclusive 8193 = Granted
0 share 8194 = Granted
0 exclusive 8194 = Blocked 1
1 end = Done
0 exclusive 8194 = Granted
== a lock that is held keeps its strength, and the request that is blocked ends with the next one
0 exclusive 8192 = Granted
0 share 8192 = Granted
1 try-share 8192 = Busy 0
1 exclusive 8192 = Blocked 0
1 get 8193 = Row 2 Ann
1 exclusive 8192 = Blocked 0
1 exclusive 8192 = Refused
1 share 8192 = Blocked 0
1 exclusive 8192 = Blocked 0
2 share 8193 = Granted
2 drop 8193 = Done
1 exclusive 8192 = Blocked 0
1 exclusive 8192 = Refused
0 enter = Done
0 drop 8192 = Done
1 exclusive 8192 = Refused
0 leave = Committed
1 exclusive 8192 = Granted
== a request that is not well formed is refused
0 leave = Refused
0 back 1 = Refused
0 insert 0 9 Bo = Refused
0 exclusive 8192 = Granted
0 put 8192 9 Bo = Refused
0 delete 8192 = Refused
0 enter = Done
0 back 0 = Refused
0 back 2 = Refused
0 put 8193 9 Bo = Refused
0 delete 8193 = Refused
0 share 8193 = Granted
0 put 8193 9 Bo = Refused
0 delete 8193 = Refused
0 insert 0 Bo Bo = Refused
0 insert 0 9 9 = Refused
0 insert 0 9 = Refused
0 insert 0 9 Bo 9 = Refused
0 insert 2 9 Bo = Refused
0 insert 1 a 5 1 = Refused
0 put 8192 $9 Bo = Refused
0 put 8192:2 9 Bo = Refused
0 get 8192:2 = Refused
0 share 8192:2 = Refused
0 delete 8192:2 = Refused
0 first 2 = Refused
0 first 0.1 = Refused
0 first 1.3 = Refused
0 next-value 2 = Refused
0 current-value 2 = Refused
0 put 8192 9 Bo = Done
0 leave = Committed
0 leave = Refused
0 enter = Done
0 end = Done
0 enter = no client
== a row of another table is gone
0 enter = Done
0 insert 1 a $5 1 = Inserted 8195
0 get 8195 = Gone
0 get 8195:1 = Row a $5 1
0 get 8192:1 = Gone
0 share 8195 = Gone
0 share 8192:1 = Gone
0 put 8195 9 Bo = Gone
0 delete 8195 = Gone
0 delete 8195:1 = Done
0 delete 8195:1 = Gone
0 get 8195:1 = Gone
0 exclusive 8195:1 = Gone
1 exclusive 8195:1 = Blocked 0
1 try-share 8195:1 = Busy 0
== a lock that conflicts comes before a row that is gone
0 enter = Done
0 exclusive 8192 = Granted
0 delete 8192 = Done
1 share 8192 = Blocked 0
2 try-share 8192 = Busy 0
2 get 8192 = Gone
0 leave 8192 = Committed
1 share 8192 = Gone
2 try-share 8192 = Gone
== a deleted key stays reserved until its transaction is undone
0 enter = Done
0 exclusive 8192 = Granted
0 delete 8192 = Done
1 enter = Done
1 insert 0 1 Ann = Blocked 0
1 insert 0 1 Ann = Refused
0 end = Done
1 insert 0 1 Ann = Duplicate 0 8192
== a deleted key stays reserved until its transaction is committed
0 enter = Done
0 exclusive 8192 = Granted
0 delete 8192 = Done
1 enter = Done
1 insert 0 1 Ann = Blocked 0
1 insert 0 1 Ann = Refused
0 leave = Committed
1 insert 0 1 Ann = Inserted 8192
== a key passed through stays reserved, and one left as it was is not
0 enter = Done
0 exclusive 8192 = Granted
0 put 8192 7 Ann = Done
0 put 8192 8 Ann = Done
0 exclusive 8193 = Granted
0 put 8193 2 Ann = Done
1 enter = Done
1 insert 0 1 Ann = Blocked 0
1 insert 0 7 Ann = Blocked 0
1 insert 0 8 Ann = Blocked 0
1 insert 0 2 Ann = Duplicate 0 8193
0 put 8192 3 Ann = Duplicate 0 8194
== a key on the way to another and back stays reserved until the transaction ends
0 enter = Done
0 insert 0 5 Ann = Inserted 8195
0 leave = Committed
0 enter = Done
0 exclusive 8195 = Granted
0 put 8195 6 Ann = Done
0 put 8195 5 Ann = Done
1 enter = Done
1 insert 0 6 Ann = Blocked 0
1 insert 0 6 Ann = Refused
1 insert 0 5 Ann = Blocked 0
2 first 0.0 6 = AtEnd
2 first 0.0 5 = Found 8195 5 Ann
0 leave = Committed
1 insert 0 5 Ann = Duplicate 0 8195
1 insert 0 6 Ann = Inserted 8196
== a key with unknown is never reserved
0 enter = Done
0 insert 0 ? Ann = Inserted 8195
1 enter = Done
1 insert 0 ? Ann = Inserted 8196
0 delete 8195 = Done
1 insert 0 ? Ann = Inserted 8197
0 put 8196 ? Bo = Refused
1 put 8196 4 Bo = Done
0 insert 0 4 Ann = Blocked 1
1 put 8196 ? Bo = Done
0 insert 0 4 Ann = Refused
1 leave = Committed
0 insert 0 4 Ann = Inserted 8198
2 first 0.0 ? = Found 8196 ? Bo
2 next 0.0 ? = Found 8197 ? Ann
2 next 0.0 ? = AtEnd
2 previous 0.0 = Found 8196 ? Bo
2 previous 0.0 = Found 8198 4 Ann
== two clients that wait for each other's keys
0 enter = Done
1 enter = Done
0 insert 0 4 Ann = Inserted 8195
1 insert 0 5 Ann = Inserted 8196
0 insert 0 5 Ann = Blocked 1
1 insert 0 4 Ann = Deadlock 1 0
1 insert 0 6 Ann = Inserted 8197
1 end = Done
0 insert 0 5 Ann = Inserted 8196
0 insert 0 6 Ann = Inserted 8197
== a cycle of a key and a lock
0 enter = Done
1 enter = Done
0 insert 0 4 Ann = Inserted 8195
1 exclusive 8192 = Granted
0 share 8192 = Blocked 1
1 insert 0 4 Ann = Deadlock 1 0
1 put 8192 4 Ann = Deadlock 1 0
1 put 8192 1 Bo = Done
1 back 1 = Done
1 leave 8192 = Committed
0 share 8192 = Granted
0 get 8192 = Row 1 Ann
== a key that its own transaction reserves is free for it
0 enter = Done
0 exclusive 8192 = Granted
0 delete 8192 = Done
0 insert 0 1 Bo = Inserted 8195
0 get 8195 = Row 1 Bo
1 enter = Done
1 insert 0 1 Cy = Blocked 0
0 back 1 = Done
0 get 8195 = Gone
0 get 8192 = Row 1 Ann
0 insert 0 1 Bo = Duplicate 0 8192
0 insert 0 4 Bo = Inserted 8196
0 leave = Committed
1 insert 0 1 Cy = Duplicate 0 8192
1 insert 0 4 Cy = Duplicate 0 8196
1 insert 0 5 Cy = Inserted 8195
== back frees no lock and no reserved key
0 enter = Done
0 enter = Done
0 exclusive 8192 = Granted
0 delete 8192 = Done
2 get 8192 = Gone
0 back 2 = Done
2 get 8192 = Row 1 Ann
2 try-share 8192 = Busy 0
1 enter = Done
1 insert 0 1 Ann = Blocked 0
0 back 1 = Done
1 insert 0 1 Ann = Refused
0 back 2 = Refused
0 leave = Committed
1 insert 0 1 Ann = Duplicate 0 8192
2 try-share 8192 = Granted
== levels are undone from the inside, and a level that was left with the one around it
0 enter = Done
0 exclusive 8192 = Granted
0 put 8192 1 Bo = Done
0 enter = Done
0 put 8192 1 Cy = Done
0 insert 0 4 Dee = Inserted 8195
0 enter = Done
0 delete 8192 = Done
0 put 8195 5 Dee = Done
1 get 8192 = Gone
1 get 8195 = Row 5 Dee
0 back 3 = Done
1 get 8192 = Row 1 Cy
1 get 8195 = Row 4 Dee
0 leave = Done
0 put 8195 6 Dee = Done
0 leave = Done
1 get 8195 = Row 6 Dee
0 back 2 = Refused
0 enter = Done
0 delete 8195 = Done
0 delete 8192 = Done
0 back 1 = Done
1 get 8192 = Row 1 Ann
1 get 8195 = Gone
0 put 8192 1 Eli = Done
0 leave = Committed
1 get 8192 = Row 1 Eli
0 enter = Done
0 exclusive 8192 = Granted
0 put 8192 1 Fay = Done
0 end = Done
1 get 8192 = Row 1 Eli
== a commit makes the locks to keep share, and frees the others
0 enter = Done
0 exclusive 8192 = Granted
0 exclusive 8193 = Granted
0 put 8192 9 Ann = Done
0 leave 8192 = Committed
1 share 8192 = Granted
1 try-exclusive 8192 = Busy 0
1 try-exclusive 8193 = Granted
1 enter = Done
1 insert 0 9 Ann = Duplicate 0 8192
1 insert 0 1 Ann = Inserted 8195
== a lock to keep on a row that is deleted goes, and one that is not held does not come
0 enter = Done
0 exclusive 8192 = Granted
0 share 8193 = Granted
0 delete 8192 = Done
0 leave 8192 8193 8194 = Committed
1 try-exclusive 8193 = Busy 0
1 try-exclusive 8194 = Granted
1 enter = Done
1 insert 0 1 Ann = Inserted 8192
1 try-exclusive 8192 = Granted
== a slot that a transaction freed or drew is not drawn again before its end
0 enter = Done
1 enter = Done
0 insert 0 4 Ann = Inserted 8195
0 delete 8195 = Done
0 insert 0 5 Ann = Inserted 8196
1 insert 0 6 Ann = Inserted 8197
0 back 1 = Done
0 insert 0 5 Ann = Inserted 8198
0 leave = Committed
1 insert 0 7 Ann = Inserted 8195
1 insert 0 8 Ann = Inserted 8196
1 insert 0 9 Ann = Inserted 8199
== searches see uncommitted changes in row order
0 enter = Done
0 insert 0 -5 Ann = Inserted 8195
0 exclusive 8194 = Granted
0 delete 8194 = Done
1 first 0.0 = Found 8195 -5 Ann
1 last 0.0 = Found 8193 2 Ann
1 first 0.0 2 = Found 8193 2 Ann
1 first 0.0 3 = AtEnd
0 back 1 = Done
1 first 0.0 = Found 8192 1 Ann
1 last 0.0 = Found 8194 3 Ann
== a search goes on from a row that moves or goes
0 first 0.0 = Found 8192 1 Ann
0 enter = Done
0 exclusive 8192 = Granted
0 put 8192 9 Ann = Done
0 next 0.0 = Found 8193 2 Ann
0 exclusive 8193 = Granted
0 delete 8193 = Done
0 next 0.0 = Found 8194 3 Ann
0 next 0.0 = Found 8192 9 Ann
0 next 0.0 = AtEnd
0 previous 0.0 = Found 8194 3 Ann
0 previous 0.0 = AtEnd
0 back 1 = Done
0 previous 0.0 = Found 8193 2 Ann
0 next 0 = AtEnd
0 previous 0 = Found 8194 3 Ann
== an index orders its components one by one, and equal keys by identity
0 enter = Done
0 insert 1 b $5 2 = Inserted 8195
0 insert 1 B_ $7 3 = Duplicate 0 8195
0 insert 1 a $5 1 = Inserted 8196
0 insert 1 c $7 3 = Inserted 8197
0 insert 1 ? $-1 ? = Inserted 8198
0 insert 1 ? ? ? = Inserted 8199
0 insert 1 ? $5 ? = Inserted 8200
0 insert 1 d $5 ? = Inserted 8201
0 first 1.0 = Found 8196 a $5 1
0 next 1.0 = Found 8195 b $5 2
0 next 1.0 = Found 8197 c $7 3
0 next 1.0 = Found 8201 d $5 ?
0 next 1.0 = Found 8198 ? $-1 ?
0 next 1.0 = Found 8199 ? ? ?
0 next 1.0 = Found 8200 ? $5 ?
0 next 1.0 = AtEnd
0 first 1.1 = Found 8199 ? ? ?
0 next 1.1 = Found 8197 c $7 3
0 next 1.1 = Found 8196 a $5 1
0 next 1.1 = Found 8195 b $5 2
0 next 1.1 = Found 8200 ? $5 ?
0 next 1.1 = Found 8201 d $5 ?
0 next 1.1 = Found 8198 ? $-1 ?
0 next 1.1 = AtEnd
0 first 1.1 $5 = Found 8196 a $5 1
0 last 1.1 $5 = Found 8201 d $5 ?
0 next 1.1 $5 = AtEnd
0 first 1.1 $5 ? = Found 8200 ? $5 ?
0 first 1.1 $5 1 = Found 8196 a $5 1
0 first 1.1 $5 9 = AtEnd
0 first 1.1 5 = AtEnd
0 first 1.0 A = Found 8196 a $5 1
0 first 1.2 1 2 = AtEnd
0 first 1 = Found 8195 b $5 2
0 last 1 = Found 8201 d $5 ?
0 first 1 a = AtEnd
== of two unique indexes the first with a duplicate is named
0 enter = Done
0 insert 1 a $1 1 = Inserted 8195
0 insert 1 b $1 2 = Inserted 8196
0 insert 1 a $1 2 = Duplicate 0 8195
0 insert 1 b $1 1 = Duplicate 0 8196
0 insert 1 c $1 1 = Duplicate 2 8195
0 put 8195:1 a $2 1 = Done
0 put 8195:1 b $2 1 = Duplicate 0 8196
0 put 8195:1 c $2 2 = Duplicate 2 8196
0 put 8195:1 A_ $2 1 = Done
0 put 8195:1 c $2 3 = Done
1 enter = Done
1 insert 1 a $1 9 = Blocked 0
1 insert 1 d $1 1 = Blocked 0
1 insert 1 d $1 9 = Inserted 8197
0 insert 1 d $1 1 = Blocked 1
== a key has at most 200 bytes
0 enter = Done
0 insert 1 a*197 $1 1 = Inserted 8195
0 insert 1 b*198 $1 2 = KeyTooLong 0
0 insert 1 b*197+_*100 $1 2 = Inserted 8196
0 insert 1 b*198+_*100 $1 3 = KeyTooLong 0
0 put 8195:1 a*198 $1 1 = KeyTooLong 0
0 insert 1 A*197 $1 3 = Duplicate 0 8195
0 get 8195:1 = Row *197 $1 1
0 get 8196:1 = Row *297 $1 2
1 enter = Done
1 insert 1 a*198 $1 1 = KeyTooLong 0
1 insert 1 a*197 $1 9 = Blocked 0
1 put 8195:1 a*198 $1 1 = Refused
0 first 1.0 a*197 = Found 8195 *197 $1 1
0 first 1.0 a*198 = AtEnd
== a row has at most 30,000 bytes
0 enter = Done
0 insert 0 4 n*29993 = Refused
0 insert 0 4 n*29992 = Inserted 8195
0 insert 0 5 Ann = Inserted 8320
0 insert 0 ? n*29997 = Refused
0 insert 0 ? n*29996 = Inserted 8321
0 put 8192 1 n*29993 = Refused
0 get 8195 = Row 4 *29992
0 put 8195 4 Ann = Done
0 insert 0 6 Ann = Inserted 8446
0 leave = Committed
0 enter = Done
0 insert 0 7 n*473 = Inserted 8196
0 insert 0 8 Ann = Inserted 8199
== sequences end at both ends of their range
0 current-value 0 = Value 9223372036854775806
0 enter = Done
0 next-value 0 = Value 9223372036854775807
0 back 1 = Done
1 next-value 0 = SequenceEnd
1 current-value 0 = Value 9223372036854775807
0 next-value 1 = Value -9223372036854775808
0 next-value 1 = SequenceEnd
0 next-value 2 = Refused
== a transaction is full just past its limit
0 enter = Done
0 many 100 163 29900 = Inserted 15945
0 many 200 312 3 = Inserted 16181
0 insert 0 4 Ann = Inserted 16182
0 delete 16182 = Done
0 insert 0 5 Ann = TxFull
0 exclusive 8192 = Granted
0 delete 8192 = TxFull
0 leave = Committed
0 enter = Done
0 delete 8192 = Refused
0 insert 0 5 Ann = Inserted 16182
== what a back undid still counts
0 enter = Done
0 enter = Done
0 many 100 163 29900 = Inserted 15945
0 back 2 = Done
0 insert 0 100 n*27353 = TxFull
0 insert 0 100 n*26872 = Inserted 16070
0 insert 0 4 Ann = Inserted 16182
0 delete 16182 = Done
0 put 16070 100 Ann = TxFull
0 back 1 = Done
0 insert 0 5 Ann = TxFull
0 leave = Committed
0 enter = Done
0 insert 0 5 Ann = Inserted 8195
0 back 1 = Done
0 first 0.0 = Found 8192 1 Ann
0 last 0.0 = Found 8194 3 Ann
"""

# ---- the machine as a plain program

FIRST, CLIENTS, MAX_WRITES, MAX_KEY, MAX_ROW = 8192, 3, 7989, 200, 30000
KINDS = [["Int", "Text"], ["Text", "Dec", "Int"]]
# for each index whether it is unique, and its components: a field, and whether it is descending
INDEXES = [[(True, [(0, False)])], [(True, [(0, False)]), (False, [(1, True), (2, False)]), (True, [(2, False)])]]
STEPS = [1, -1]


def value_of(word):
    if word == "?":
        return None
    if word.lstrip("-").isdigit():
        return ("Int", int(word))
    if word[0] == "$":
        return ("Dec", int(word[1:]))
    text = ""
    for part in word.split("+"):
        letters, _, count = part.partition("*")
        text += letters.replace("_", " ") * int(count or 1)
    return ("Text", text)


def text_of(value):
    if value is None:
        return "?"
    if value[0] == "Text":
        return value[1] if len(value[1]) <= 8 else f"*{len(value[1])}"
    return f"${value[1]}" if value[0] == "Dec" else str(value[1])


def row_bytes(values):
    sizes = {"Int": 5, "Dec": 17}
    return sum(1 if v is None else 3 + len(v[1]) if v[0] == "Text" else sizes[v[0]] for v in values)


def fragments(values):
    return max(1, (row_bytes(values) + 239) // 240)


def part_key(value, descending):
    if value is None:
        key = bytes([2])
    elif value[0] == "Text":
        key = b"\1" + value[1].lower().rstrip(" ").encode() + b"\0\0"
    elif value[0] == "Int":
        key = b"\1" + (value[1] + (1 << 63)).to_bytes(8, "big")
    else:
        key = b"\1" + (value[1] * 10**10 + (1 << 127)).to_bytes(16, "big")
    return bytes(255 - b for b in key) if descending else key


def key_of(table, index, values):
    return b"".join(part_key(values[field], descending) for field, descending in INDEXES[table][index][1])


def unique_keys(row):
    if row is None:
        return set()
    table, values, _ = row
    return {
        (table, number, key_of(table, number, values))
        for number, (unique, parts) in enumerate(INDEXES[table])
        if unique and all(values[field] is not None for field, _ in parts)
    }


class Client:
    def __init__(self):
        self.overlay, self.levels, self.keys, self.held = {}, [], set(), {}
        self.written, self.slots, self.blocked = 0, set(), None


class Machine:
    def __init__(self):
        self.committed = {FIRST + i: (0, (("Int", i + 1), ("Text", "Ann")), (FIRST + i,)) for i in range(3)}
        self.sequences = [2**63 - 2, 1 - 2**63]
        self.clients = {c: Client() for c in range(CLIENTS)}
        self.frees = 0

    def view(self, row):
        for client in self.clients.values():
            if row in client.overlay:
                return client.overlay[row]
        return self.committed.get(row)

    def rows(self):
        names = set(self.committed)
        for client in self.clients.values():
            names |= set(client.overlay)
        return {row: self.view(row) for row in sorted(names) if self.view(row)}

    def free(self, count):
        taken = {slot for row in self.committed.values() for slot in row[2]}
        for client in self.clients.values():
            taken |= client.slots
        found, slot = [], FIRST
        while len(found) < count:
            if slot not in taken:
                found.append(slot)
            slot += 1
        return found

    def conflicts(self, c, op):
        others = [d for d in self.clients if d != c]
        if op[0] == "lock":
            locks = {d: self.clients[d].held.get(op[2]) for d in others}
            return [d for d in others if locks[d] is not None and (locks[d] or op[3])]
        if op[0] in ("insert", "put"):
            old = unique_keys(self.view(op[2])) if op[0] == "put" else set()
            entered = unique_keys((op[1], op[-1], None)) - old
            return [d for d in others if entered & self.clients[d].keys]
        return []

    def cycle(self, c, against):
        paths = [[c]]
        for path in paths:
            if path[-1] == c:
                after = against
            else:
                blocked = self.clients[path[-1]].blocked
                after = self.conflicts(path[-1], blocked[0]) if blocked else []
            if c in after:
                return path
            reached = [p[-1] for p in paths]
            paths += [path + [d] for d in sorted(after) if d not in reached]
        return None

    def step(self, c, op):
        client = self.clients[c]
        answer = self.decide(c, op)
        if answer == "Refused":
            return answer
        client.blocked = (op, self.frees) if answer.startswith("Blocked") else None
        return answer

    def is_well_formed(self, client, op):
        depth, verb = len(client.levels), op[0]
        if verb in ("leave", "back") and depth == 0:
            return False
        if verb == "back":
            return 0 < op[1] <= depth
        if verb in ("next-value", "current-value"):
            return op[1] < len(self.sequences)
        if verb in ("search", "get", "lock", "insert", "put", "delete") and op[1] >= len(KINDS):
            return False
        if verb == "search":
            return op[2] is None or op[2] < len(INDEXES[op[1]])
        if verb in ("insert", "put"):
            kinds, values = KINDS[op[1]], op[-1]
            fits = len(kinds) == len(values) and all(v is None or v[0] == kind for v, kind in zip(values, kinds))
            if not fits or row_bytes(values) > MAX_ROW:
                return False
        if verb in ("insert", "put", "delete") and depth == 0:
            return False
        return verb not in ("put", "delete") or client.held.get(op[2]) is True

    def decide(self, c, op):
        client, verb = self.clients[c], op[0]
        if not self.is_well_formed(client, op) or client.blocked == (op, self.frees):
            return "Refused"
        against = self.conflicts(c, op)
        if verb in ("get", "put", "delete") or verb == "lock" and not against:
            row = self.view(op[2])
            if row is None or row[0] != op[1]:
                return "Gone"
        if verb in ("insert", "put"):
            for index in range(len(INDEXES[op[1]])):
                if len(key_of(op[1], index, op[-1])) > MAX_KEY:
                    return f"KeyTooLong {index}"
        if against:
            if verb == "lock" and not op[4]:
                return " ".join(["Busy", *map(str, against)])
            cycle = self.cycle(c, against)
            return " ".join([*(["Deadlock"] if cycle else ["Blocked"]), *map(str, cycle or against)])
        if verb in ("insert", "put", "delete"):
            return self.write(client, op)
        if verb == "search":
            return self.search(*op[1:])
        if verb == "next-value" and not -(2**63) <= self.sequences[op[1]] + STEPS[op[1]] < 2**63:
            return "SequenceEnd"
        return self.succeed(c, client, op)

    def write(self, client, op):
        old = None if op[0] == "insert" else self.view(op[2])
        row = None if op[0] == "delete" else (op[1], op[-1], None)
        for key in sorted(unique_keys(row)):
            for other, value in self.rows().items():
                if key in unique_keys(value) and (op[0] == "insert" or other != op[2]):
                    return f"Duplicate {key[1]} {other}"
        chain = old[2] if old else ()
        count = fragments(row[1]) if row else 0
        written = max(count, len(chain))
        if client.written + written > MAX_WRITES:
            return "TxFull"
        fresh = self.free(count - len(chain)) if count > len(chain) else []
        changed = (*chain, *fresh)
        client.written += written
        client.slots |= set(changed)
        client.keys |= unique_keys(old) ^ unique_keys(row)
        number = changed[0]
        client.overlay[number] = (op[1], op[-1], changed[:count]) if row else None
        if op[0] == "insert":
            client.held[number] = True
            return f"Inserted {number}"
        return "Done"

    def search(self, table, index, prefix, cursor, forward):
        found = []
        for row, (of, values, _) in self.rows().items():
            parts = [] if index is None else INDEXES[table][index][1]
            if of != table or len(prefix) > len(parts):
                continue
            pairs = list(zip(parts, prefix))
            if any(p is not None and p[0] != KINDS[table][field] for (field, _), p in pairs):
                continue
            if any(part_key(values[field], False) != part_key(p, False) for (field, _), p in pairs):
                continue
            place = (b"" if index is None else key_of(table, index, values), row)
            if cursor is None or (place > cursor if forward else place < cursor):
                found.append((place, values))
        if not found:
            return "AtEnd"
        place, values = min(found) if forward else max(found, key=lambda f: f[0])
        self.found = place
        return " ".join(["Found", str(place[1]), *map(text_of, values)])

    def succeed(self, c, client, op):
        verb = op[0]
        if verb == "enter":
            client.levels.append(dict(client.overlay))
        elif verb == "leave" and len(client.levels) > 1:
            client.levels.pop()
        elif verb == "leave":
            return self.commit(c, client, op[1])
        elif verb == "back":
            client.overlay = dict(client.levels[op[1] - 1])
            del client.levels[op[1] :]
        elif verb == "get":
            return " ".join(["Row", *map(text_of, self.view(op[2])[1])])
        elif verb == "lock":
            client.held[op[2]] = client.held.get(op[2], False) or op[3]
            return "Granted"
        elif verb == "drop" and not client.levels and op[2] in client.held:
            del client.held[op[2]]
            self.frees += 1
        elif verb == "next-value":
            self.sequences[op[1]] += STEPS[op[1]]
            return f"Value {self.sequences[op[1]]}"
        elif verb == "current-value":
            return f"Value {self.sequences[op[1]]}"
        elif verb == "end":
            self.frees += 1 if client.keys or client.held else 0
            del self.clients[c]
        return "Done"

    def commit(self, c, client, keep):
        for row, value in client.overlay.items():
            self.committed.pop(row, None)
            if value:
                self.committed[row] = value
        kept = {row: False for row in client.held if row in keep and row in self.committed}
        if client.keys or any(client.held[row] or row not in kept for row in client.held):
            self.frees += 1
        self.clients[c] = Client()
        self.clients[c].held = kept
        return "Committed"


class Rows:
    """Rows as the program reads them, answered by the machine."""

    def __init__(self):
        self.machine, self.found = Machine(), None

    def answer(self, line):
        words = line.split(" ")
        client, verb, rest = int(words[0]), words[1], words[2:]
        if client not in self.machine.clients:
            return "no client"
        if verb == "many":
            name = ("Text", "n" * int(rest[2]))
            for num in range(int(rest[0]), int(rest[1])):
                answer = self.machine.step(client, ("insert", 0, (("Int", num), name)))
            return answer
        self.machine.found = None
        answer = self.machine.step(client, self.op(verb, rest))
        self.found = self.machine.found or self.found
        return answer

    def op(self, verb, rest):
        if verb in ("back", "next-value", "current-value"):
            return (verb, int(rest[0]))
        if verb == "leave":
            return (verb, tuple(map(int, rest)))
        if verb in ("first", "last", "next", "previous"):
            table, _, index = rest[0].partition(".")
            cursor = self.found if verb in ("next", "previous") else None
            prefix = tuple(map(value_of, rest[1:]))
            return ("search", int(table), int(index) if index else None, prefix, cursor, verb in ("first", "next"))
        if verb == "insert":
            return (verb, int(rest[0]), tuple(map(value_of, rest[1:])))
        if not rest:
            return (verb,)
        row, _, table = rest[0].partition(":")
        place = (int(table or 0), int(row))
        if verb in ("share", "exclusive", "try-share", "try-exclusive"):
            return ("lock", *place, verb.endswith("exclusive"), not verb.startswith("try"))
        if verb == "put":
            return (verb, *place, tuple(map(value_of, rest[1:])))
        return (verb, *place)


# ---- random rows


def customer(chance):
    num = chance.choice(["1", "2", "3", "4", "5", "6", "?"])
    return f"{num} {chance.choice(['Ann', 'Bo', 'Cy', 'n*240', 'n*500'])}"


def item(chance):
    code, lot = chance.choice(["a", "B", "c", "a*197", "?"]), chance.choice(["1", "2", "3", "4", "?"])
    return f"{code} ${chance.randint(-2, 2)} {lot}"


def random_row(chance, rows):
    client = chance.choice([c for c in range(CLIENTS) if c in rows.machine.clients])
    present = rows.machine.rows()
    held = [row for row, lock in rows.machine.clients[client].held.items() if lock]
    some = chance.choice(held) if held and chance.random() < 0.7 else chance.choice([*present, FIRST + 1, FIRST + 7])
    table = present[some][0] if some in present and chance.random() < 0.95 else chance.randint(0, 1)
    place = f"{some}:1" if table == 1 else str(some)
    order = chance.choice(["0", "0.0", "1", "1.0", "1.1", "1.2"])
    kinds = {
        "enter": 7,
        "leave": 6,
        "back": 5,
        "end": 0.3,
        "share": 6,
        "exclusive": 16,
        "try-share": 2,
        "try-exclusive": 3,
        "insert": 18,
        "put": 16,
        "delete": 7,
        "drop": 4,
        "get": 4,
        "first": 2,
        "last": 2,
        "next": 4,
        "previous": 3,
    }
    blocked = rows.machine.clients[client].blocked
    verb = chance.choices(list(kinds), list(kinds.values()))[0]
    if verb == "end" and len(rows.machine.clients) == 1 or blocked and verb == "leave":
        verb = "back"
    words = {
        "leave": lambda: " ".join(map(str, sorted({some, FIRST + 1}))) if chance.random() < 0.6 else "",
        "back": lambda: str(chance.randint(1, max(1, len(rows.machine.clients[client].levels)))),
        "insert": lambda: f"0 {customer(chance)}" if chance.random() < 0.6 else f"1 {item(chance)}",
        "put": lambda: f"{place} {item(chance) if table == 1 else customer(chance)}",
    }
    if verb in words:
        rest = words[verb]()
    elif verb in ("enter", "end"):
        rest = ""
    else:
        rest = order if verb in ("first", "last", "next", "previous") else place
    return f"{client} {verb} {rest}".rstrip(" ")


def random_rows(seed, count):
    chance, rows = random.Random(seed), Rows()
    lines = [f"== random steps, {seed}"]
    for _ in range(count):
        line = random_row(chance, rows)
        lines.append(f"{line} = {rows.answer(line)}")
    return lines


def main():
    lines = ROWS.splitlines()
    for line in lines:
        if line.startswith("=="):
            rows = Rows()
            continue
        row, _, answer = line.partition(" = ")
        plain = rows.answer(row)
        assert plain == answer, f"{row}: by hand {answer}, by the machine {plain}"
    for seed in range(1, 7):
        lines += random_rows(seed, 150)
    put("test_machine", "steps", "".join(line.split(" = ")[0] + "\n" for line in lines), "".join(line + "\n" for line in lines))


main()
