#!/usr/bin/env python3
"""Times `rambo serve` side by side with redis-server, both asked by redis-benchmark on this machine.

    bench/serve.py RAMBO [--operations 30000] [--runs 5] [--clients 1,8,32] [--sync FOLDER]

For each number of clients it prints the best of so many runs of SET and of GET, operations a second, of either server, the
ratio of the two, and how many steps of the book an operation took. Both are started anew for each run, on ports that the
system picks; redis-server keeps nothing on disk. The founders are 1, 2 and 3. It fails where a server replies an error, or
where the trace isn't written.

With --sync both tell the disk of a folder to keep what they did before they reply: `rambo serve --endless --trace --sync` and
`redis-server --appendfsync always`.
"""
import argparse
import os
import re
import socket
import subprocess
import sys
import tempfile
import time

STEPS = 1000000
PATIENCE = 30


def free_port():
    with socket.socket() as found:
        found.bind(("127.0.0.1", 0))
        return found.getsockname()[1]


def ask(port, *words):
    """The first line of the reply to a command."""
    spelled = b"*%d\r\n" % len(words) + b"".join(b"$%d\r\n%s\r\n" % (len(word), word) for word in words)
    with socket.create_connection(("127.0.0.1", port), timeout=PATIENCE) as client:
        client.sendall(spelled)
        return client.makefile("rb").readline()


def wait_for(port):
    until = time.monotonic() + PATIENCE
    while time.monotonic() < until:
        try:
            return ask(port, b"PING")
        except OSError:
            time.sleep(0.02)
    sys.exit("no server answers at port %d" % port)


def load(port, clients, operations):
    """Operations a second of SET and of GET, as redis-benchmark measures them."""
    words = ["redis-benchmark", "-p", str(port), "-t", "set,get", "-n", str(operations), "-c", str(clients), "--csv"]
    done = subprocess.run(words, stdout=subprocess.PIPE, stderr=subprocess.PIPE, text=True)
    found = dict(re.findall(r'^"(SET|GET)","([0-9.]+)"', done.stdout, re.M))
    if done.returncode != 0 or len(found) != 2 or "ERR" in done.stdout + done.stderr:
        sys.exit("redis-benchmark failed:\n%s%s" % (done.stdout, done.stderr))
    return {name: float(figure) for name, figure in found.items()}


def redis(clients, operations, folder):
    port = free_port()
    words = ["redis-server", "--port", str(port), "--bind", "127.0.0.1", "--save", "", "--appendonly", "yes" if folder else "no"]
    with tempfile.TemporaryDirectory(dir=folder) as kept:
        words += ["--appendfsync", "always", "--dir", kept]
        server = subprocess.Popen(words, stdout=subprocess.DEVNULL)
        try:
            wait_for(port)
            return load(port, clients, operations)
        finally:
            server.terminate()
            server.wait()


def rambo(program, clients, operations, folder):
    """The same of `rambo serve`, and its steps an operation."""
    port = free_port()
    with tempfile.NamedTemporaryFile(dir=folder) as trace:
        words = [program, "serve", "--port", str(port), "--founders", "1,2,3", "--clients", "32"]
        words += ["--endless", "--trace", trace.name, "--sync"] if folder else ["--steps", str(STEPS)]
        server = subprocess.Popen(words, stdout=trace, stderr=subprocess.DEVNULL)
        wait_for(port)
        figures = load(port, clients, operations)
        ask(port, b"RAMBO", b"SHUTDOWN")
        if server.wait() != 0:
            sys.exit("the server failed")
        with open(trace.name, "rb") as reader:
            first = [line.split(b" ", 1)[0] for line in reader]
    calls = sum(word in (b"get", b"set") for word in first)
    figures["steps"] = sum(word not in (b"rambo", b"founders") for word in first) / max(1, calls)
    return figures


def main():
    parser = argparse.ArgumentParser(description=__doc__.split("\n")[0])
    parser.add_argument("program")
    parser.add_argument("--operations", type=int, default=30000)
    parser.add_argument("--runs", type=int, default=5)
    parser.add_argument("--clients", default="1,8,32")
    parser.add_argument("--sync", metavar="FOLDER")
    told = parser.parse_args()
    program = os.path.abspath(told.program)
    print("| clients | | rambo | redis | ratio | steps an operation |")
    print("|---|---|---|---|---|---|")
    for clients in map(int, told.clients.split(",")):
        ours, theirs = [], []
        for _ in range(told.runs):
            ours.append(rambo(program, clients, told.operations, told.sync))
            theirs.append(redis(clients, told.operations, told.sync))
        steps = min(run["steps"] for run in ours)
        for name in ("SET", "GET"):
            best, other = max(run[name] for run in ours), max(run[name] for run in theirs)
            print("| %d | %s | %.0f | %.0f | %.2f | %.1f |" % (clients, name, best, other, best / other, steps), flush=True)


if __name__ == "__main__":
    main()
