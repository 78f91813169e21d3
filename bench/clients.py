#!/usr/bin/env python3
"""Times `rambo local` on 300,000 sets and gets, side by side with another program that takes the same words.

    bench/clients.py RAMBO [OTHER]
    bench/clients.py --count RAMBO [OTHER]

For founders 1 and for founders 1,2,3, and for 16 and 10,000 keys, prints the best of five times, commands a second and
peak memory of each program, how many bytes of that a command takes (over what the program has with no command), and
the ratios of the two. With --count it prints instructions in place of times, of 20,000 commands, by valgrind. It fails
where the programs reply differently.
"""
import os
import sys
import tempfile

from measuring import best, instructions, megabytes, ratio, table

COMMANDS = 300000
COUNTED = 20000
ABOUT = "`rambo local` on {:,} sets and gets in turn. The bytes a command are those over what the program has with no command.".format(COMMANDS)


def spelled(*items):
    return b"*%d\r\n" % len(items) + b"".join(b"$%d\r\n%s\r\n" % (len(item), item) for item in items)


def stream(commands, keys):
    """Sets and gets in turn, over so many keys."""
    parts = []
    for number in range(commands):
        key = b"key %08d" % ((number // 2 * 7919) % keys)
        parts.append(spelled(b"GET", key) if number % 2 else spelled(b"SET", key, b"value %08d" % number))
    return b"".join(parts)


class Row:
    """The figures of so many commands, and of none, for one number of keys and one set of founders."""

    def __init__(self, keys, founders, commands, figures, empty):
        self.keys, self.founders, self.commands, self.figures, self.empty = keys, founders, commands, figures, empty

    def name(self):
        return "founders %s, %s keys" % (self.founders, "{:,}".format(self.keys))

    def bytes_a_command(self):
        return [(figure[1] - empty[1]) / self.commands for figure, empty in zip(self.figures, self.empty)]


def compared(programs, commands, measure, shown):
    rows = []
    with tempfile.TemporaryDirectory(prefix="rambo-clients-") as folder:
        source = os.path.join(folder, "commands")
        targets = [os.path.join(folder, "replies %d" % place) for place in range(len(programs))]
        for keys in (16, 10000):
            with open(source, "wb") as writer:
                writer.write(stream(commands, keys))
            for founders in ("1", "1,2,3"):
                words = ["local", "--founders", founders]
                empty = measure(programs, words, os.devnull, targets)
                row = Row(keys, founders, commands, measure(programs, words, source, targets), empty)
                print("%-28s %s" % (row.name(), shown(row)), flush=True)
                rows.append(row)
                if len(programs) == 2 and open(targets[0], "rb").read() != open(targets[1], "rb").read():
                    raise SystemExit("the replies differ")
    return rows


def timed(programs):
    def shown(row):
        figures = zip(row.figures, row.bytes_a_command())
        text = "; ".join("%.2f s, %d commands a second, %s MB, %.0f bytes a command" % (spent, row.commands / spent, megabytes(peak), each)
                         for (spent, peak), each in figures)
        if len(programs) == 2:
            text += "; time x%.2f, memory x%.2f" % (ratio([spent for spent, _ in row.figures]), ratio([peak for _, peak in row.figures]))
        return text

    return compared(programs, COMMANDS, best, shown)


def counted(programs):
    def shown(row):
        text = "; ".join("%.1f million, %d a command" % (figure / 1e6, figure / row.commands) for figure in row.figures)
        return text + ("; x%.2f" % ratio(row.figures) if len(programs) == 2 else "")

    return compared(programs, COUNTED, instructions, shown)


def time_table(rows):
    heads = ["Work", "Time", "of the other", "ratio", "Memory", "of the other", "ratio", "Bytes a command", "of the other"]
    return table(heads, [
        [row.name()]
        + ["%.3f s" % row.figures[0][0], "%.3f s" % row.figures[1][0], "**%.2f**" % (row.figures[0][0] / row.figures[1][0])]
        + [megabytes(row.figures[0][1]) + " MB", megabytes(row.figures[1][1]) + " MB", "**%.2f**" % (row.figures[0][1] / row.figures[1][1])]
        + ["{:,.0f}".format(each) for each in row.bytes_a_command()]
        for row in rows])


def count_table(rows):
    return table(["Work", "Instructions a command", "of the other", "ratio"], [
        [row.name(), "{:,}".format(row.figures[0] // row.commands), "{:,}".format(row.figures[1] // row.commands), "**%.2f**" % ratio(row.figures)]
        for row in rows])


def main():
    words = sys.argv[1:]
    count = words[:1] == ["--count"]
    programs = words[1:] if count else words
    if len(programs) not in (1, 2) or any(word.startswith("-") for word in programs):
        sys.stderr.write(__doc__)
        return 2
    (counted if count else timed)(programs)
    return 0


if __name__ == "__main__":
    sys.exit(main())
