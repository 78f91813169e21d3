"""How far the proofs of crates are: on a terminal a last line that is written anew each second, and elsewhere a line now and
then."""
import math
import os
import sys
import threading
import time

# How often it is told, in seconds: on a terminal, and elsewhere, as in the log of a run.
ON_TERMINAL, ELSEWHERE = 1, 60
PROCESSORS = os.cpu_count() or 1
# By so many processors a single crate is proved at most, whatever its jobs.
OF_ONE = 1.7
# At first it is taken for so many seconds as if all processors had been at work on proofs all along.
AT_FIRST = 120
ERASED = "\r\033[K"


def used_by(process):
    """How many seconds of a processor a process has used so far; none where it isn't there."""
    try:
        with open("/proc/%d/stat" % process) as reader:
            words = reader.read().rsplit(")", 1)[1].split()
    except OSError:
        return 0
    return (int(words[11]) + int(words[12])) / os.sysconf("SC_CLK_TCK")


class Output:
    """A terminal, whose last line is taken away before anything else is written."""

    def __init__(self, terminal):
        self.terminal, self.turn = terminal, threading.RLock()
        # Whether there is such a line, and whether what was written otherwise ends in the midst of one.
        self.has_line = self.is_within = False

    def write(self, text):
        with self.turn:
            self.put("")
            self.is_within = not text.endswith("\n") if text else self.is_within
            return self.terminal.write(text)

    def put(self, line):
        """Writes the last line anew, unless another one isn't whole yet."""
        with self.turn:
            if self.has_line or (line and not self.is_within):
                self.terminal.write(ERASED + line)
                self.terminal.flush()
                self.has_line = bool(line)

    def __getattr__(self, name):
        return getattr(self.terminal, name)


class Progress:
    """The progress of some crates, from when it is entered until it is left.

    `seconds` tells of each how many seconds of a processor its proof takes, and `below` what it stands on; `used` what was
    used so far of those that are under way, as far as that is known. `behind` are the seconds that other work takes once
    all are proved. Those of `made` are done from the start.
    """

    def __init__(self, seconds, below, made=(), used=dict, behind=0, clock=time.monotonic):
        self.seconds, self.used, self.behind, self.clock = seconds, used, behind, clock
        self.above = {name: [it for it in seconds if name in below[it]] for name in seconds}
        self.done = set(made)
        self.from_start = self.sum_of(self.done)
        # When it began, and when the last crate was proved.
        self.began = self.proved = clock()
        self.is_over = threading.Event()

    def sum_of(self, names):
        return sum(self.seconds[name] for name in names)

    def crate_done(self, name):
        if name in self.seconds and name not in self.done:
            self.done.add(name)
            self.proved = self.clock()

    def left(self):
        """About how many seconds are left.

        It goes by what was done until now in each second. And the crates that stand on one another are proved one after
        another, each by few processors.
        """
        done = set(self.done)
        used = self.used()
        left = {name: max(0.1 * whole, whole - used.get(name, 0)) for name, whole in self.seconds.items() if name not in done}
        if not left:
            return self.behind - (self.clock() - self.proved)
        here = sum(self.seconds.values()) - self.from_start - sum(left.values())
        rate = (here + AT_FIRST * PROCESSORS) / (self.clock() - self.began + AT_FIRST)
        chains = {}

        def chain(name):
            if name not in chains:
                chains[name] = left.get(name, 0) + max(map(chain, self.above[name]), default=0)
            return chains[name]

        of_each = rate / PROCESSORS
        return max(sum(left.values()) / rate, max(map(chain, left)) / (of_each * OF_ONE)) + self.behind

    def line(self):
        done = set(self.done)
        return "%d of %d crates, %s of %s s of a processor, about %d min left" % (
            len(done), len(self.seconds), format(round(self.sum_of(done)), ","),
            format(round(sum(self.seconds.values())), ","), max(1, math.ceil(self.left() / 60)))

    def tell(self):
        every = ON_TERMINAL if isinstance(sys.stdout, Output) else ELSEWHERE
        while not self.is_over.wait(every):
            if isinstance(sys.stdout, Output):
                sys.stdout.put(self.line())
            else:
                print(self.line(), flush=True)

    def __enter__(self):
        if sys.stdout.isatty():
            sys.stdout = Output(sys.stdout)
        self.teller = threading.Thread(target=self.tell, daemon=True)
        self.teller.start()
        return self

    def __exit__(self, *fault):
        self.is_over.set()
        self.teller.join()
        if isinstance(sys.stdout, Output):
            sys.stdout.put("")
            sys.stdout = sys.stdout.terminal
