"""Judges a table, runs a setup, and replays the trace of the run, all in this process.

    python3 judge.py TABLE SETUP SCHEDULE     prints the verdict and the trace
"""

import pathlib
import sys

import futurebus

table, setup, schedule = (pathlib.Path(word).read_bytes() for word in sys.argv[1:])
status, verdict = futurebus.check(table)
print(f"{verdict.decode()}status {status}")
status, trace = futurebus.run(setup, schedule)
print(f"{trace.decode()}status {status}")
status, ending = futurebus.replay(setup, trace)
print(f"replayed: status {status}, and {'the ending of the run' if trace.endswith(ending) else 'another ending'}")
