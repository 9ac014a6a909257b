#!/usr/bin/env python3
"""Writes the section `locks` of crates/test_machine: its rows in `stdin`, and the answers that must come in `stdout`.

The rows are here with their answers, each worked by hand from docs/machine.md, and none from an answer of the
program. After a heading no client holds or waits for anything. `key N` says that the client waits for client N
by a key; `cycle N` asks for the cycle that would close if it waited for client N; `commit ROW` keeps the lock on
the row. It runs from anywhere."""

import sys

if __name__ == "__main__" and sys.argv[1:] == ["--help"]:
    print(__doc__.strip())
    sys.exit()
from sections import put

ROWS = """\
== three clients close a cycle
0 exclusive 8192 = Granted
1 exclusive 8193 = Granted
2 exclusive 8194 = Granted
0 exclusive 8193 = Blocked 1
1 share 8194 = Blocked 2
2 exclusive 8192 = Deadlock 2 0 1
0 end-wait = done
2 exclusive 8192 = Blocked 0
== requests of three clients for two rows
2 try-share 8192 = Granted
0 share 8192 = Granted
1 try-exclusive 8192 = Busy 0 2
0 exclusive 8192 = Blocked 2
1 exclusive 8193 = Granted
1 share 8193 = Granted
1 held 8193 = exclusive
2 exclusive 8192 = Deadlock 2 0
2 release 8192 = freed
2 release 8192 = nothing
0 exclusive 8192 = Granted
0 held 8192 = exclusive
2 try-share 8192 = Busy 0
0 commit 8192 = freed
0 commit 8192 = nothing
0 held 8192 = share
2 try-share 8192 = Granted
0 end = freed
0 held 8192 = none
1 commit 8192 = freed
1 end = nothing
== a wait for a key closes a cycle
0 exclusive 8192 = Granted
0 key 3 = waits
3 share 8192 = Deadlock 3 0
3 cycle 5 = none
"""

put("test_machine", "locks", "".join(line.split(" = ")[0] + "\n" for line in ROWS.splitlines()), ROWS)
