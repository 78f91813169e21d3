"""A picture of ratios in SVG: for each work a bar of time and one of memory, with a line at 1 and a tick at each aim."""
import html
import math

LEFT, RIGHT, TOP, ROW, BAR = 330, 50, 92, 34, 11
WIDTH = 900
STYLE = """<style>
text { font-family: sans-serif; font-size: 13px; fill: #24292f }
.panel { fill: #ffffff; stroke: #d0d7de }
.grid { stroke: #d8dee4 }
.one { stroke: #24292f; stroke-width: 1.5 }
.time { fill: #3b76b5 }
.memory { fill: #c9772e }
.halo { stroke: #ffffff; stroke-width: 5 }
.aim { stroke: #1a7f37; stroke-width: 3 }
.ratio { font-size: 11px }
.head { font-size: 16px; font-weight: bold }
@media (prefers-color-scheme: dark) {
text { fill: #e6edf3 }
.panel { fill: #0d1117; stroke: #30363d }
.grid { stroke: #30363d }
.one { stroke: #e6edf3 }
.time { fill: #6ca6e0 }
.memory { fill: #e09a58 }
.halo { stroke: #0d1117 }
.aim { stroke: #4ac26b }
}
</style>"""


def drawn(rows):
    """Rows are a name and the pairs of a ratio and its aim: of time, and of memory."""
    greatest = max(max(figure, aim) for _, pairs in rows for figure, aim in pairs)
    step = 1 if greatest <= 10 else math.ceil(greatest / 10)
    end = step * math.ceil(greatest / step)
    unit = (WIDTH - LEFT - RIGHT) / end
    bottom = TOP + ROW * len(rows)
    height = bottom + 34
    out = ['<svg xmlns="http://www.w3.org/2000/svg" viewBox="0 0 %d %d" width="%d" height="%d">' % (WIDTH, height, WIDTH, height), STYLE]

    def line(name, x, top, end_at):
        out.append('<line class="%s" x1="%.1f" y1="%.1f" x2="%.1f" y2="%.1f"/>' % (name, x, top, x, end_at))

    def text(x, y, what, anchor="start", name=None):
        out.append('<text x="%.1f" y="%.1f" text-anchor="%s"%s>%s</text>' % (x, y, anchor, ' class="%s"' % name if name else "", html.escape(what)))

    def box(name, x, y, width, tall):
        out.append('<rect class="%s" x="%.1f" y="%.1f" width="%.1f" height="%.1f"/>' % (name, x, y, width, tall))

    out.append('<rect class="panel" x="0.5" y="0.5" width="%d" height="%d" rx="6"/>' % (WIDTH - 1, height - 1))
    text(16, 28, "rambo to the other program: less is better", name="head")
    box("time", 16, 43, 24, BAR)
    text(46, 53, "time")
    box("memory", 96, 43, 24, BAR)
    text(126, 53, "peak memory")
    line("aim", 228, 41, 56)
    text(236, 53, "what it is to come down to")
    line("one", 424, 41, 56)
    text(432, 53, "as fast, or as small, as the other")
    for mark in range(0, end + 1, step):
        x = LEFT + mark * unit
        if mark != 1:
            line("grid", x, TOP - 6, bottom)
        text(x, TOP - 12, str(mark), "middle")
        text(x, bottom + 18, str(mark), "middle")
    for place, (name, pairs) in enumerate(rows):
        top = TOP + ROW * place + 4
        text(LEFT - 10, top + 16, name, "end")
        for part, (figure, _) in enumerate(pairs):
            box(("time", "memory")[part], LEFT, top + part * (BAR + 1), figure * unit, BAR)
    line("one", LEFT + unit, TOP - 6, bottom)
    for place, (_, pairs) in enumerate(rows):
        top = TOP + ROW * place + 4
        for part, (figure, aim) in enumerate(pairs):
            at = top + part * (BAR + 1)
            for stroke in ("halo", "aim"):
                line(stroke, LEFT + aim * unit, at - 1, at + BAR + 1)
            beside = LEFT + figure * unit
            # not across a tick or the line at 1
            for mark in sorted({1, aim}):
                if beside - 3 < LEFT + mark * unit < beside + 30:
                    beside = LEFT + mark * unit
            text(beside + 5, at + BAR - 1.5, "%.2f" % figure, name="ratio")
    out.append("</svg>")
    return "\n".join(out) + "\n"
