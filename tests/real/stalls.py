"""How long this machine stood still. The host of a virtual machine can take a processor away for a while: whoever ran on it, a server
or a client, then is late, and no program can tell that from one that hangs."""
import os
import subprocess
import sys

WATCH = """
import os, signal, sys, time
os.sched_setaffinity(0, {int(sys.argv[1])})
goes_on = True
def end(*_):
    global goes_on
    goes_on = False
signal.signal(signal.SIGTERM, end)
longest = 0.0
while goes_on:
    begun = time.monotonic()
    time.sleep(0.005)
    longest = max(longest, time.monotonic() - begun)
print(longest)
"""


class Stalls:
    """A watcher on each processor, that sleeps for 5 milliseconds and looks how long it slept."""

    def __init__(self):
        self.watchers = [self.watcher(processor) for processor in sorted(os.sched_getaffinity(0))]

    def watcher(self, processor):
        words = ["setpriv", "--pdeathsig", "KILL", sys.executable, "-c", WATCH, str(processor)]
        return subprocess.Popen(words, stdin=subprocess.DEVNULL, stdout=subprocess.PIPE)

    def end(self):
        """The longest time that one slept, in seconds. None is left."""
        for watcher in self.watchers:
            watcher.terminate()
        return max([0.0] + [float(watcher.communicate()[0] or 0) for watcher in self.watchers])
