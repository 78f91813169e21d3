#!/usr/bin/env python3
"""Writes long scripts for `rambo replay` to standard output.

    bench/scripts.py calls STEPS KEYS       one founder, sets and gets in turn, each advanced to its answer
    bench/scripts.py letters STEPS KEYS     three founders: each call is made, told to another one and back, and answered
    bench/scripts.py values STEPS KEYS      the same, where each set has a value of 4,096 bytes
    bench/scripts.py joined STEPS KEYS      64 nodes, ten of them founders, where the others join first: each call is made
                                            at any node, and its two phases ask as many founders as make a majority
    bench/scripts.py founders STEPS KEYS    the same among 64 founders, so that each phase asks 32 others
    bench/scripts.py moves STEPS KEYS       three members of five nodes: after each 16 calls the next three are chosen, and
                                            the old ones collected
"""
import sys


def key(number):
    return "%08x" % number


def call(turn, node, keys, spelling="%08x"):
    """The call of a turn at a node: sets and gets in turn, each kind over all keys in a circle."""
    name = key((turn // 2 * 7919) % keys)
    return "set %d %s %s" % (node, name, spelling % turn) if turn % 2 else "get %d %s" % (node, name)


def calls(steps, keys):
    out = ["founders 1"]
    number = 0
    while len(out) <= steps:
        number += 1
        out.append(call(number, 1, keys))
        out.append("advance 1.%d" % number)
        out.append("advance 1.%d" % number)
    return out[: steps + 1]


def letters(steps, keys, spelling="%08x"):
    out = ["founders 1,2,3"]
    made = {1: 0, 2: 0, 3: 0}
    sent = 0
    turn = 0
    while len(out) <= steps:
        turn += 1
        me = turn % 3 + 1
        others = [n for n in (1, 2, 3) if n != me]
        made[me] += 1
        out.append(call(turn, me, keys, spelling))
        for _phase in range(2):
            other = others[turn % 2]
            out.append("send %d %d" % (me, other))
            sent += 1
            out.append("deliver %d" % sent)
            out.append("send %d %d" % (other, me))
            sent += 1
            out.append("deliver %d" % sent)
            out.append("advance %d.%d" % (me, made[me]))
    return out[: steps + 1]


def values(steps, keys):
    return letters(steps, keys, "%08x" + "a5" * 4092)


def among(nodes, founders, steps, keys):
    """Calls at each of so many nodes, of which the first ones are founders."""
    members = ",".join(map(str, range(1, founders + 1)))
    out = ["founders " + members]
    made = [0] * (nodes + 1)
    sent = 0

    def ask(node, other):
        nonlocal sent
        out.append("send %d %d\ndeliver %d\nsend %d %d\ndeliver %d" % (node, other, sent + 1, other, node, sent + 2))
        sent += 2

    for newcomer in range(founders + 1, nodes + 1):
        out.append("join %d %s" % (newcomer, members))
        ask(newcomer, newcomer % founders + 1)
    written = nodes - founders + 2 * sent
    turn = 0
    while written < steps:
        turn += 1
        me = (turn * 37) % nodes + 1
        # the founders in a circle from another one on for each call, as many as a majority of them still needs
        wanted = founders // 2 + (me > founders)
        circle = ((turn * 7 + place) % founders + 1 for place in range(founders))
        others = [other for other in circle if other != me][:wanted]
        made[me] += 1
        out.append(call(turn, me, keys))
        for _phase in range(2):
            for other in others:
                ask(me, other)
            out.append("advance %d.%d" % (me, made[me]))
        written += 3 + 8 * wanted
    return "\n".join(out).split("\n")[: steps + 1]


def joined(steps, keys):
    return among(64, 10, steps, keys)


def founders(steps, keys):
    return among(64, 64, steps, keys)


def moves(steps, keys):
    out = ["founders 1,2,3"]
    made = dict.fromkeys(range(1, 6), 0)
    sent = 0

    def tell(sender, addressee):
        nonlocal sent
        sent += 1
        out.append("send %d %d" % (sender, addressee))
        out.append("deliver %d" % sent)

    def ask(node, other):
        tell(node, other)
        tell(other, node)

    def members(change):
        return [(change + place) % 5 + 1 for place in range(3)]

    for newcomer in (4, 5):
        out.append("join %d 1" % newcomer)
        ask(newcomer, 1)
    for other in (2, 3, 4):
        tell(1, other)
    change = turn = 0
    while len(out) <= steps:
        for _call in range(16):
            turn += 1
            present = members(change)
            me, other = present[turn % 3], present[(turn + 1 + turn % 2) % 3]
            made[me] += 1
            out.append(call(turn, me, keys))
            for _phase in range(2):
                ask(me, other)
                out.append("advance %d.%d" % (me, made[me]))
        # the middle one of three and the last of them stay; the middle one has the next three chosen
        _, lead, other = members(change)
        change += 1
        out.append("recon %d %s" % (lead, ",".join(map(str, sorted(members(change))))))
        for _phase in range(2):
            ask(lead, other)
            out.append("advance-recon %d" % lead)
        out.append("collect %d" % lead)
        for _phase in range(2):
            ask(lead, other)
            out.append("advance-collect %d" % lead)
        for member in members(change)[1:]:
            tell(lead, member)
    return out[: steps + 1]


KINDS = {"calls": calls, "letters": letters, "values": values, "joined": joined, "founders": founders, "moves": moves}


def script(kind, steps, keys):
    """The text of a script."""
    return "\n".join(KINDS[kind](steps, keys)) + "\n"


def main():
    if len(sys.argv) != 4 or sys.argv[1] not in KINDS:
        sys.stderr.write(__doc__)
        return 2
    sys.stdout.write(script(sys.argv[1], int(sys.argv[2]), int(sys.argv[3])))
    return 0


if __name__ == "__main__":
    sys.exit(main())
