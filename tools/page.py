"""A diagram as a page for a browser, which loads nothing and can be zoomed and moved."""
import html
import json
import os

HERE = os.path.dirname(os.path.abspath(__file__))
# How high a row is: of a run, whose configurations stand below its line; and of bars, by their lanes.
ROW, LANE, MARGIN = 96, 20, 12


class Page:
    """A canvas: what is drawn is kept as lists, of which the page draws what is in view."""

    def __init__(self, title, unit):
        self.title, self.unit = title, unit
        self.rows, self.heights, self.titles = {}, [], []
        self.drawn = {kind: [] for kind in ("bands", "lives", "arrows", "lost", "bars", "marks", "labels", "red")}
        self.numbers, self.told, self.last = None, "", 0

    def row(self, row, title, lanes=None):
        self.rows[row] = len(self.rows)
        self.titles.append(title)
        self.heights.append(ROW if lanes is None else LANE * lanes + MARGIN)

    def life(self, row, until):
        self.drawn["lives"].append([self.rows[row], until])

    def band(self, row, lane, since, until, words, colour):
        self.drawn["bands"].append([self.rows[row], lane, since, until, words, colour])

    def label(self, row, at, words, size=10, colour="#222"):
        self.drawn["labels"].append([self.rows[row], at, words, colour])

    def mark(self, row, at, kind, colour="#222"):
        self.drawn["marks"].append([self.rows[row], at, kind, colour])

    def triangle(self, row, at, up):
        self.mark(row, at, "up" if up else "down")

    def dot(self, row, at, colour):
        self.mark(row, at, "dot", colour)

    def cross(self, row, at):
        self.mark(row, at, "cross", "#c02020")

    def stop(self, row, at):
        self.mark(row, at, "stop")

    def arrow(self, row, since, other, until, again):
        self.drawn["arrows"].append([self.rows[row], since, self.rows[other], until, int(again)])

    def lost(self, row, at, other):
        self.drawn["lost"].append([self.rows[row], at, 1 if self.rows[other] > self.rows[row] else -1])

    def bar(self, row, lane, since, until, words, colour, told):
        self.drawn["bars"].append([self.rows[row], lane, since, until, words, colour, told])

    def red(self, row, since, until):
        """Where what is red stands, to which the page goes first."""
        self.drawn["red"].append([since, until, self.rows[row]])

    def end(self, last):
        self.last = last

    def written(self):
        drawn = dict(self.drawn, rows=list(map(list, zip(self.titles, self.heights))), last=self.last, unit=self.unit,
                     numbers=self.numbers, told=self.told)
        # (nothing in it ends the script that it stands in)
        text = json.dumps(drawn, separators=(",", ":")).replace("<", "\\u003c")
        with open(os.path.join(HERE, "page.html"), encoding="utf-8") as reader:
            page = reader.read()
        return page.replace("{{title}}", html.escape(self.title), 2).replace("{{drawn}}", text, 1)
