"""The picture of a summary: how costs and waits are distributed, each number as often as it came."""

from collections import Counter

from svg import Drawing

LEFT, TOP, WIDE, HIGH = 70, 110, 400, 150
# From a panel's corner to the next one's.
RIGHTWARD, DOWNWARD = 500, 236
WIDTH, HEIGHT = LEFT + RIGHTWARD + WIDE + 30, TOP + DOWNWARD + HIGH + 54
COLOURS, MEDIAN, AXIS = ("#64b5f6", "#ce93d8", "#e57373"), "#b71c1c", "#455a64"
WAIT = "#ffca28"
# An axis has at least so many numbers, so that one bar alone does not fill the panel.
FEWEST = 10
MOST_BARS, MOST_NUMBERS, MOST_LEVELS = 70, 8, 5


def three(counts):
    """Least, median and most; of two in the middle the lower is the median."""
    if not counts:
        return "-", "-", "-"
    numbers, upto = sorted(counts), 0
    for median in numbers:
        upto += counts[median]
        if 2 * upto >= sum(counts.values()):
            return numbers[0], median, numbers[-1]


def round_step(most, parts):
    """The least of 1, 2, 5, 10, 20, 50 and so on of which so many parts reach beyond most."""
    power = 1
    while True:
        for step in (power, 2 * power, 5 * power):
            if step * parts > most:
                return step
        power *= 10


class Panel:
    """A distribution, with its parts in colours one on the other: bars over the numbers from 0 to most, `step` numbers to a bar."""

    def __init__(self, parts, most, name, what):
        self.parts, self.most, self.name, self.what = parts, max(most, FEWEST), name, what
        self.counts = sum((counts for _, counts, _ in parts), Counter())
        self.step = round_step(self.most, MOST_BARS)
        self.bars = self.most // self.step + 1

    def heights(self, counts):
        """How often numbers of each bar came."""
        heights = [0] * self.bars
        for number, count in counts.items():
            heights[number // self.step] += count
        return heights

    def numbers(self, bar):
        first, last = bar * self.step, (bar + 1) * self.step - 1
        return str(first) if first == last else f"{first} to {last}"


class Distributions(Drawing):
    """Costs, by kind of passage, in the left column; waits in the right one."""

    def __init__(self, title, cached, distributed, grants, events):
        super().__init__()
        self.title = title
        self.kinds = [kind for kind, _ in cached]
        cached, distributed = ([(kind, counts, colour) for (kind, counts), colour in zip(parts, COLOURS)] for parts in (cached, distributed))
        # Both models have the same axis, so that they can be compared.
        most = max((number for _, counts, _ in cached + distributed for number in counts), default=0)
        self.costs = [
            Panel(cached, most, "remote references, counted with caches", "passages"),
            Panel(distributed, most, "remote references, counted with memory beside each port", "passages"),
        ]
        self.waits = [
            Panel([("waited", counts, WAIT)], max(counts, default=0), name, "waits")
            for counts, name in ((grants, "grants to others"), (events, "events"))
        ]

    def panel(self, x, y, panel):
        bottom, unit = y + HIGH, WIDE / (panel.bars * panel.step)
        highest = max(panel.heights(panel.counts))
        scale = HIGH / (highest * 1.1 or 1)
        self.levels(x, bottom, highest, scale)
        self.bars(x, bottom, unit, scale, panel)
        for number in range(0, panel.most + 1, round_step(panel.most, MOST_NUMBERS)):
            # A number stands below the middle of its own room, whatever the width of a bar.
            middle = x + (number + 0.5) * unit
            self.put("line", x1=middle, x2=middle, y1=float(bottom), y2=float(bottom + 4), stroke=AXIS, stroke_width=1)
            self.label(middle, bottom + 16, str(number), 11, "middle", AXIS)
        self.put("line", x1=float(x), x2=float(x + WIDE), y1=float(bottom), y2=float(bottom), stroke=AXIS, stroke_width=1)
        self.label(x + WIDE / 2, bottom + 34, panel.name, 12, "middle")
        self.label(x - 50, y + HIGH / 2, panel.what, 12, "middle", transform=f"rotate(-90 {x - 50} {y + HIGH / 2:.0f})")
        self.figures(x, y, unit, panel)

    def levels(self, x, bottom, highest, scale):
        for count in range(0, highest + 1, round_step(highest, MOST_LEVELS)):
            level = bottom - count * scale
            self.put("line", x1=float(x), x2=float(x + WIDE), y1=level, y2=level, stroke="#cfd8dc", stroke_width=0.7)
            self.label(x - 6, level + 4, str(count), 11, "end", AXIS)

    def bars(self, x, bottom, unit, scale, panel):
        tops = [float(bottom)] * panel.bars
        for kind, counts, colour in panel.parts:
            for bar, count in enumerate(panel.heights(counts)):
                if count:
                    # What came once is seen, however high the highest bar is.
                    high = max(count * scale, 1.5)
                    tops[bar] -= high
                    title = f"{panel.numbers(bar)}: {count} {panel.what}, {kind}"
                    self.put("rect", title=title, x=x + bar * panel.step * unit + 0.3, y=tops[bar],
                             width=max(panel.step * unit - 0.6, 1.0), height=high, fill=colour)

    def figures(self, x, y, unit, panel):
        """Least, median and most, and a line at the median."""
        if not panel.counts:
            self.label(x + WIDE / 2, y + HIGH / 2, "none", 12, "middle", AXIS)
            return
        least, median, most = three(panel.counts)
        middle = x + (median + 0.5) * unit
        self.put("line", x1=middle, x2=middle, y1=float(y), y2=float(y + HIGH), stroke=MEDIAN, stroke_width=1.5, stroke_dasharray="5 3")
        self.label(x + WIDE, y - 6, f"least {least}, median {median}, most {most}", 11, "end", MEDIAN)

    def column(self, x, heading, panels):
        self.label(x, 64, f"{heading}: {sum(panels[0].counts.values())} {panels[0].what}", 13, font_weight="bold")
        for place, panel in enumerate(panels):
            self.out.append('<g class="panel">')
            self.panel(x, TOP + place * DOWNWARD, panel)
            self.out.append("</g>")

    def draw(self):
        self.label(LEFT, 34, self.title, 18, font_weight="bold")
        self.column(LEFT, "Cost", self.costs)
        self.column(LEFT + RIGHTWARD, "Wait, from the step at 6 until inside", self.waits)
        for place, (kind, colour) in enumerate(zip(self.kinds, COLOURS)):
            x = LEFT + 90 * place
            self.put("rect", x=float(x), y=74.0, width=12, height=12, fill=colour)
            self.label(x + 17, 84, kind, 11)
        return self.document(WIDTH, HEIGHT)
