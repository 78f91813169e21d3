#!/usr/bin/env python3
"""Times the RESP2 decoder on some 64 MB of commands in pieces of several sizes.

    bench/resp_pieces.py [PROGRAM]

Builds bench/resp_pieces.rattle, in a repository of its own in a temporary folder (which takes some minutes, since it is
proved first), or takes a program that was built so. Prints for each kind of commands and each size of pieces the best
of three times, by the processor's clock, and the megabytes and commands a second. It asserts nothing.
"""
import os
import shutil
import subprocess
import sys
import tempfile

HERE = os.path.dirname(os.path.abspath(__file__))
CRATES = os.path.join(os.path.dirname(HERE), "crates")
SIZES = (1, 7, 4096, 65536)
# a name, the items of a command, and rounds of about 64 MB
KINDS = (("small commands", 2.5, 22), ("values of 4,096 bytes", 3, 16), ("one of 128 such items", 128, 122))


def built():
    """The program, built in a repository of the crates that it stands on."""
    root = tempfile.mkdtemp(prefix="resp-pieces-")
    for name in ("rambo_names", "rambo_resp"):
        shutil.copytree(os.path.join(CRATES, name), os.path.join(root, "crates", name), ignore=shutil.ignore_patterns("out", "must-fail"))
    source = os.path.join(root, "crates", "resp_pieces", "src")
    os.makedirs(source)
    shutil.copy(os.path.join(HERE, "resp_pieces.rattle"), os.path.join(source, "main.rt"))
    with open(os.path.join(root, "crates.txt"), "w") as writer:
        writer.write("rambo_names: itoa\nrambo_resp: rambo_names bytes itoa\nresp_pieces: rambo_resp\n")
    folder = os.path.dirname(source)
    ran = subprocess.run(["rt", "run", "--", "0", "1", "65536"], cwd=folder, stdout=subprocess.PIPE, stderr=subprocess.STDOUT, text=True)
    if ran.returncode:
        raise SystemExit(ran.stdout)
    return os.path.join(folder, "out", "resp_pieces")


def measure(program, kind, rounds, size):
    """The best of three times, and what the program printed."""
    best, said = None, ""
    for _ in range(3):
        child = subprocess.Popen([program, str(kind), str(rounds), str(size)], stdout=subprocess.PIPE, text=True)
        said = child.stdout.read()
        _, status, usage = os.wait4(child.pid, 0)
        child.returncode = os.waitstatus_to_exitcode(status)
        if child.returncode:
            raise SystemExit("%s ended with status %d" % (program, child.returncode))
        spent = usage.ru_utime + usage.ru_stime
        best = spent if best is None else min(best, spent)
    return best, [int(word) for word in said.split()]


def main():
    if len(sys.argv) > 2:
        raise SystemExit(__doc__)
    program = sys.argv[1] if len(sys.argv) == 2 else built()
    for kind, (name, items, rounds) in enumerate(KINDS):
        for size in SIZES:
            seconds, (given, length) = measure(program, kind, rounds, size)
            rate = rounds * length / seconds / 1e6
            print("%-24s pieces of %5d: %6.3f s, %7.0f MB/s, %11.0f commands/s" % (name, size, seconds, rate, given / items / seconds))
    if len(sys.argv) == 1:
        print("built: %s" % program)


if __name__ == "__main__":
    main()
