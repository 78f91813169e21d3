#!/usr/bin/env python3
"""Times gets and sets of a store that holds few keys and many.

    bench/keys.py RAMBO [--operations 20000] [--runs 3]
    bench/keys.py RAMBO --count

Prints for `local` with 100 to 100,000 keys held how many microseconds a set of one of them takes, of keys picked at random,
and how that compares with 100 keys; and the same for `serve` of three founders with 100 to 10,000 keys, at 1 and at 8
clients, of sets and of gets, as redis-benchmark has them. Each figure is the best of so many runs. It asserts nothing.

With --count it prints how many instructions a set takes in `local`, by valgrind: these grow by no cache that is too small.
"""
import argparse
import os
import random
import re
import socket
import subprocess
import sys
import time

from serve import ask, free_port, wait_for

LOCAL_KEYS = (100, 1000, 10000, 100000)
SERVED_KEYS = (100, 1000, 10000)
CLIENTS = (1, 8)
STEPS = 1000000
# So many sets are counted.
COUNTED = 2000


def command(*words):
    return b"*%d\r\n" % len(words) + b"".join(b"$%d\r\n%s\r\n" % (len(word), word) for word in words)


def key(number):
    return b"key:%012d" % number


def filled(keys):
    return b"".join(command(b"SET", key(number), b"xxx") for number in range(keys))


def picked(keys, operations):
    """Sets of keys among those that are held."""
    picks = random.Random(keys)
    return b"".join(command(b"SET", key(picks.randrange(keys)), b"yyy") for _ in range(operations))


def spent_by_local(rambo, text):
    """Seconds of a processor."""
    child = subprocess.Popen([rambo, "local"], stdin=subprocess.PIPE, stdout=subprocess.DEVNULL)
    child.stdin.write(text)
    child.stdin.close()
    _, status, usage = os.wait4(child.pid, 0)
    child.returncode = os.waitstatus_to_exitcode(status)
    if child.returncode:
        sys.exit("rambo local ended with status %d" % child.returncode)
    return usage.ru_utime + usage.ru_stime


def local(rambo, keys, operations, runs):
    """Microseconds that a set takes where so many keys are held."""
    held, sets = filled(keys), picked(keys, operations)
    before = min(spent_by_local(rambo, held) for _ in range(runs))
    after = min(spent_by_local(rambo, held + sets) for _ in range(runs))
    return (after - before) / operations * 1e6


def served(rambo, keys, clients, operations):
    """Sets and gets a second of a server that holds so many keys."""
    port = free_port()
    words = [rambo, "serve", "--port", str(port), "--founders", "1,2,3", "--clients", "32", "--steps", str(STEPS)]
    server = subprocess.Popen(words, stdout=subprocess.DEVNULL, stderr=subprocess.DEVNULL)
    try:
        wait_for(port)
        with socket.create_connection(("127.0.0.1", port)) as client:
            reader = client.makefile("rb")
            for number in range(keys):
                client.sendall(command(b"SET", key(number), b"xxx"))
                if reader.readline() != b"+OK\r\n":
                    sys.exit("a set failed")
        asked = ["redis-benchmark", "-p", str(port), "-c", str(clients), "-n", str(operations), "-r", str(keys), "-t", "set,get", "-q"]
        said = subprocess.run(asked, capture_output=True, text=True, timeout=300).stdout
        rates = dict(re.findall(r"(SET|GET): ([0-9.]+) requests per second", said))
        ask(port, b"RAMBO", b"SHUTDOWN")
        server.wait(60)
        return {kind: float(rate) for kind, rate in rates.items()}
    finally:
        server.kill()


def watched(*words):
    return ["valgrind", "--tool=callgrind", "--callgrind-out-file=/dev/null", *words]


def spent_by_counted(rambo, text):
    ran = subprocess.run(watched(rambo, "local"), input=text, stdout=subprocess.DEVNULL, stderr=subprocess.PIPE)
    if ran.returncode:
        sys.exit("rambo local ended with status %d" % ran.returncode)
    return int(re.search(rb"Collected : (\d+)", ran.stderr).group(1))


def count(rambo):
    print("| local, keys held | instructions a set | to 100 keys |")
    print("|---:|---:|---:|")
    first = None
    for keys in LOCAL_KEYS:
        held = filled(keys)
        took = (spent_by_counted(rambo, held + picked(keys, COUNTED)) - spent_by_counted(rambo, held)) / COUNTED
        first = first or took
        print("| %d | %.0f | %.2f |" % (keys, took, took / first), flush=True)


def main():
    parser = argparse.ArgumentParser()
    parser.add_argument("rambo")
    parser.add_argument("--operations", type=int, default=20000)
    parser.add_argument("--runs", type=int, default=3)
    parser.add_argument("--count", action="store_true")
    asked = parser.parse_args()
    if asked.count:
        count(asked.rambo)
        return
    print("| local, keys held | microseconds a set | to 100 keys |")
    print("|---:|---:|---:|")
    first = None
    for keys in LOCAL_KEYS:
        took = local(asked.rambo, keys, asked.operations, asked.runs)
        first = first or took
        print("| %d | %.2f | %.2f |" % (keys, took, took / first), flush=True)
    print()
    print("| serve, keys held | clients | | a second | to 100 keys |")
    print("|---:|---:|---|---:|---:|")
    for clients in CLIENTS:
        firsts = {}
        for keys in SERVED_KEYS:
            best = {}
            for _ in range(asked.runs):
                for kind, rate in served(asked.rambo, keys, clients, asked.operations).items():
                    best[kind] = max(rate, best.get(kind, 0))
            for kind in ("SET", "GET"):
                firsts.setdefault(kind, best[kind])
                print("| %d | %d | %s | %.0f | %.2f |" % (keys, clients, kind, best[kind], best[kind] / firsts[kind]), flush=True)


if __name__ == "__main__":
    main()
