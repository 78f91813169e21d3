"""A diagram as a picture in SVG, as wide as it has moments."""
import html

STEP, ROW, LEFT, TOP = 26, 96, 70, 46
# How high a row of bars is, by its lanes.
LANE, MARGIN = 20, 12


class Svg:
    """A canvas: moments go to the right, and each row has a line."""

    def __init__(self):
        # Of each row how far down it stands, and its title.
        self.rows, self.titles, self.down = {}, {}, TOP
        self.under, self.over, self.labels = [], [], {}
        self.last = 0

    def x(self, at):
        return LEFT + at * STEP

    def y(self, row):
        return self.rows[row]

    def text(self, x, y, words, size=10, colour="#222", anchor="middle"):
        self.over.append('<text x="%d" y="%d" font-size="%d" fill="%s" text-anchor="%s">%s</text>'
                         % (x, y, size, colour, anchor, html.escape(words)))

    def row(self, row, title, lanes=None):
        """A row for what a node does, or for bars: those are titled at once, and have no line."""
        self.rows[row], self.titles[row] = self.down, title
        self.down += ROW if lanes is None else LANE * lanes + MARGIN
        if lanes is not None:
            self.text(LEFT - 12, self.y(row) + 4, title, 12, anchor="end")

    def life(self, row, until):
        self.under.append('<line x1="%d" y1="%d" x2="%d" y2="%d" stroke="#444"/>'
                          % (LEFT, self.y(row), self.x(until), self.y(row)))
        self.text(LEFT - 12, self.y(row) + 4, self.titles[row], 12, anchor="end")

    def band(self, row, lane, since, until, words, colour):
        y = self.y(row) + 12 + 13 * lane
        self.under.append('<rect x="%d" y="%d" width="%d" height="11" rx="2" fill="%s" fill-opacity="0.28"/>'
                          % (self.x(since), y, max(self.x(until) - self.x(since), 4), colour))
        self.under.append('<text x="%d" y="%d" font-size="9" fill="#333">%s</text>'
                          % (self.x(since) + 4, y + 9, html.escape(words)))

    def label(self, row, at, words, size=10, colour="#222"):
        """Words over a row's line, higher where they would stand on others."""
        x, half = self.x(at), len(words) * size * 0.31
        last, lift = self.labels.get(row, (0, 0))
        lift = (lift + 11) % 33 if x - half < last else 0
        self.labels[row] = (x + half, lift)
        self.text(x, self.y(row) - 15 - lift, words, size, colour)

    def triangle(self, row, at, up):
        x, y = self.x(at), self.y(row)
        tip, base = (y - 11, y - 2) if up else (y - 2, y - 11)
        self.over.append('<path d="M%d %d L%d %d L%d %d Z" fill="#222"/>' % (x, tip, x - 5, base, x + 5, base))

    def dot(self, row, at, colour):
        self.over.append('<circle cx="%d" cy="%d" r="4" fill="%s"/>' % (self.x(at), self.y(row), colour))

    def cross(self, row, at):
        x, y = self.x(at), self.y(row)
        self.over.append('<path d="M%d %d l10 10 m0 -10 l-10 10" stroke="#c02020" stroke-width="2"/>' % (x - 5, y - 5))

    def stop(self, row, at):
        self.over.append('<path d="M%d %d v16" stroke="#222" stroke-width="3"/>' % (self.x(at), self.y(row) - 8))

    def arrow(self, row, since, other, until, again):
        self.under.append('<line x1="%d" y1="%d" x2="%d" y2="%d" stroke="#888" marker-end="url(#head)"%s/>'
                          % (self.x(since), self.y(row), self.x(until), self.y(other),
                             ' stroke-dasharray="4 3"' if again else ""))

    def lost(self, row, at, other):
        x, y = self.x(at), self.y(row)
        down = 1 if self.y(other) > y else -1
        self.under.append('<path d="M%d %d l9 %d m-5 3 l10 -6" stroke="#b0b0b0" fill="none"/>' % (x, y, 26 * down))

    def bar(self, row, lane, since, until, words, colour, told):
        y, width = self.y(row) - 12 + 20 * lane, max(self.x(until) - self.x(since), 6)
        self.under.append('<rect x="%d" y="%d" width="%d" height="16" rx="3" fill="%s"><title>%s</title></rect>'
                          % (self.x(since), y, width, colour, html.escape(told)))
        self.text(self.x(since) + 3, y + 12, words, 10, "white", "start")

    def red(self, row, since, until):
        """What is red is seen by its colour."""

    def end(self, last):
        self.last = last

    def written(self):
        width, height = self.x(self.last) + 30, self.down
        return "\n".join(
            ['<svg xmlns="http://www.w3.org/2000/svg" viewBox="0 0 %d %d" width="%d" height="%d" font-family="sans-serif">'
             % (width, height, width, height),
             '<defs><marker id="head" viewBox="0 0 8 8" refX="8" refY="4" markerWidth="8" markerHeight="8" orient="auto">'
             '<path d="M0 0 L8 4 L0 8 z" fill="#888"/></marker></defs>',
             '<rect width="100%" height="100%" fill="white"/>'] + self.under + self.over + ["</svg>"])
