"""until_idle.py WORDS..: runs a program until it ends, or, as a daemon does, uses no processor for
a while: then it is told to end. Tells the kibibytes that were resident at most. What the program
writes on its standard error is on this one's.
"""
import resource
import signal
import subprocess
import sys
import time

IDLE, TICK = 10, 0.2  # so many ticks, in seconds


def used(process):
    """How long it has used processors, if it waits now: what waits for a processor isn't idle."""
    with open(f"/proc/{process.pid}/stat", encoding="utf-8") as file:
        fields = file.read().rpartition(")")[2].split()
    return fields[11:13] if fields[0] == "S" else None


def main(*words):
    process, seen, idle = subprocess.Popen(words, stdout=subprocess.DEVNULL), None, 0
    while process.poll() is None and idle < IDLE:
        time.sleep(TICK)
        now = used(process)
        idle = idle + 1 if now and now == seen else 0
        seen = now
    if process.poll() is None:
        process.send_signal(signal.SIGTERM)
    process.wait()
    print(f"resident {resource.getrusage(resource.RUSAGE_CHILDREN).ru_maxrss}")


main(*sys.argv[1:])
