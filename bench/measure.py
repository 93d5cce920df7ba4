"""Runs a command without its output, and prints its seconds of wall time and its peak of memory in MB.

The first word is the status that is wanted; with another one this ends with status 1.
"""
import os
import subprocess
import sys
import time

wanted, command = int(sys.argv[1]), sys.argv[2:]
begin = time.perf_counter()
child = subprocess.Popen(command, stdin=subprocess.DEVNULL, stdout=subprocess.DEVNULL)
_, status, usage = os.wait4(child.pid, 0)
seconds = time.perf_counter() - begin
got = os.waitstatus_to_exitcode(status)
if got != wanted:
    sys.exit(f"{' '.join(command)}: status {got}, wanted {wanted}")
print(f"{seconds:.3f} {usage.ru_maxrss / 1024:.1f}")
