"""The drawing of a plan: a row a board, a box a step, a line a message bundle between boards, the cover's chain in orange, the least's
in violet, results on their way to board 0 in green."""
from html import escape

from kelvrist.jobfile import OWN, WIRINGS
from kelvrist.results import arrivals
from kelvrist.walk import bundle_time

LEFT, RIGHT = 78, 44
LETTER, DIGIT = 6.6, 7.8  # about the width of a letter, and of a digit where it has to fit
STYLE = """
text { font: 12px system-ui, -apple-system, 'Segoe UI', 'DejaVu Sans', Arial, sans-serif; fill: #24292f; }
.title { font-size: 16px; font-weight: 600; }
.note { fill: #57606a; }
.wrong { fill: #b3261e; font-weight: 600; }
.row { fill: #f3f5f7; }
.grid { stroke: #d0d7de; stroke-width: 1; }
.end { stroke: #24292f; stroke-width: 1.5; stroke-dasharray: 2 3; }
.step { fill: #8cc4ee; stroke: #1f5f96; stroke-width: 1; }
.step.cover { fill: #f2a93b; stroke: #8a3d00; stroke-width: 2; }
.step.least { fill: #c9a6f5; stroke: #6b21a8; stroke-width: 2; }
.step.cover.least { fill: #f2a93b; stroke: #7e22ce; stroke-width: 4; }
.label { text-anchor: middle; pointer-events: none; paint-order: stroke; stroke: #8cc4ee; stroke-width: 3px; }
.label.least { font-weight: 700; stroke: #c9a6f5; }
.label.cover { font-weight: 700; stroke: #f2a93b; }
.message { fill: none; stroke: #57606a; stroke-width: 1; }
.link { fill: none; stroke: #c2410c; stroke-width: 2.4; }
.reckoned { fill: none; stroke: #c2410c; stroke-width: 1.8; stroke-dasharray: 5 4; }
.there { fill: #ffffff; stroke: #c2410c; stroke-width: 1.8; }
.link.least { stroke: #7e22ce; }
.reckoned.least, .there.least { stroke: #7e22ce; }
.link.least.both { stroke-width: 6; }
.reckoned.least.both { stroke-width: 5; }
.result { fill: none; stroke: #1a7f37; stroke-width: 1; }
.result.last { stroke-width: 2.4; }
.gate { fill: #1a7f37; stroke: #ffffff; stroke-width: 1; }
"""


def short(number):
    """A coordinate, to a tenth."""
    return f"{number:.1f}".removesuffix(".0")


def tag(name, title=None, text=None, **attributes):
    """An element. `cls` is its class; a number is a coordinate."""
    words = []
    for key, value in attributes.items():
        key = "class" if key == "cls" else key.replace("_", "-")
        words.append(f' {key}="{short(value) if isinstance(value, float) else escape(str(value))}"')
    inside = (f"<title>{escape(title, quote=False)}</title>" if title else "") + escape(text or "", quote=False)
    return f"<{name}{''.join(words)}>{inside}</{name}>" if inside else f"<{name}{''.join(words)}/>"


def some(count, what):
    """So many of a thing."""
    return f"{count:,} {what}" + ("" if count == 1 else "s")


def path(*points):
    """The way through some points."""
    return "M" + " L".join(f"{short(x)} {short(y)}" for x, y in points)


def tick_width(span, most):
    """The least of 1, 2, 5, 10, 20, 50 .. that parts the time into at most so many parts."""
    width = 1
    while span > most * width:
        width = width * 5 // 2 if str(width)[0] == "2" else width * 2
    return width


class Chart:
    """A plan and where things stand on the page. `job` is none where no job file is given, and then there are no walks. `alike`: the
    least's walk is the cover's, and one chain is drawn for both."""

    def __init__(self, listing, job=None, cover=None, least=None):
        self.listing, self.steps, self.job = listing, listing.steps, job
        self.cover, self.least, self.alike = cover, least, cover == least
        self.walks = {} if job is None else {"cover": cover} if self.alike else {"least": least, "cover": cover}
        self.results = arrivals(job, self.steps) if job else []
        n = listing.boards
        self.box, self.pitch = (34, 54) if n <= 5 else (28, 46) if n <= 9 else (22, 38)
        most = max(sum(row.board == p for row in self.steps) for p in range(n))
        self.width = max(840, min(1900, 48 * most))
        reckoned = [self.steps[move.predecessor].finish + move.time for walk in self.walks.values() for move in walk.moves]
        self.span = min(max([listing.end] + reckoned), -(-listing.end * 5 // 4))
        self.faint = 1 if listing.links <= 60 else 0.6 if listing.links <= 250 else 0.3
        self.top = 34 + 22 * len(list(self.captions()))
        self.bottom = self.top + n * self.pitch

    def x(self, tick):
        return LEFT + self.width * tick / self.span

    def y(self, board):
        """The upper edge of a board's boxes."""
        return float(self.top + board * self.pitch + (self.pitch - self.box) // 2)

    def chains(self, step):
        """The classes of a step by the chains that it is on."""
        return "".join(f" {name}" for name, walk in self.walks.items() if step in walk.steps())

    # ---- the parts of the drawing, each a list of elements

    def rows(self):
        for p in range(self.listing.boards):
            yield tag("rect", cls="row", x=LEFT, y=self.y(p), width=self.width, height=self.box)
            yield tag("text", x=LEFT - 12, y=self.y(p) + self.box / 2 + 4, text_anchor="end", text=f"board {p}")

    def axis(self):
        width = tick_width(self.span, self.width / max(70, 20 + LETTER * len(f"{self.span:,}")))
        for t in range(0, self.span + 1, width):
            yield tag("line", cls="grid", x1=self.x(t), y1=float(self.top), x2=self.x(t), y2=float(self.bottom + 4))
            yield tag("text", cls="note", x=self.x(t), y=self.bottom + 19, text_anchor="middle", text=f"{t:,}")
        yield tag("text", cls="note", x=LEFT - 12, y=self.bottom + 19, text_anchor="end", text="ticks")
        end = self.x(self.listing.end)
        yield tag("line", cls="end", x1=end, y1=float(self.top), x2=end, y2=float(self.bottom + 4))

    def boxes(self):
        for row in self.steps:
            wide = self.x(row.finish) - self.x(row.start)
            title = f"step {row.step}: board {row.board}, start {row.start}, finish {row.finish}"
            thin = {"style": "stroke-width: 0.4"} if wide < 6 else {}
            yield tag("rect", title, cls="step" + self.chains(row.step), x=self.x(row.start), y=self.y(row.board), width=max(wide, 0.6),
                      height=self.box, rx=min(3.0, wide / 4), **thin)

    def labels(self):
        """The steps' numbers, where a box has room for one. They stand above the lines, with the box's colour around them."""
        for row in self.steps:
            middle, wide = self.x((row.start + row.finish) / 2), self.x(row.finish) - self.x(row.start)
            if wide >= 4 + DIGIT * len(str(row.step)):
                yield tag("text", cls="label" + self.chains(row.step), x=middle, y=self.y(row.board) + self.box / 2 + 4, text=str(row.step))

    def way(self, before, arrival, row):
        """The way of a bundle: aslant until it is there, then along the row's edge until the step starts."""
        down = row.board > before.board
        leave, reach = self.y(before.board) + self.box * down, self.y(row.board) + self.box * (not down)
        edge = reach - 4 if down else reach + 4
        if before.board == row.board:
            if not any(other.board == row.board and before.finish <= other.start < row.start for other in self.steps):
                leave = reach = edge = self.y(row.board) + self.box / 2
            else:
                leave, arrival = reach, before.finish
        return path((self.x(before.finish), leave), (self.x(arrival), edge), (self.x(row.start), edge), (self.x(row.start), reach))

    def messages(self):
        for link in self.job.links if self.job else []:
            before, row = self.steps[link[0]], self.steps[link[1]]
            if before.board != row.board:
                there = before.finish + bundle_time(self.job, link, before.board, row.board)
                title = (f"link {link[0]} to {link[1]}: {some(link[2], 'message')}, from board {before.board} at {before.finish} "
                         f"to board {row.board} at {there}")
                yield tag("path", title, cls="message", stroke_opacity=self.faint, d=self.way(before, there, row))

    def reckoned(self, move):
        """The way of a move to its idle board, where that is neither the sender's nor the receiver's: from, to, and whether the
        drawing reaches so far."""
        before, row = self.steps[move.predecessor], self.steps[move.step]
        if move.board in (before.board, row.board):
            return None
        there, part = before.finish + move.time, 1
        if there > self.span:
            part = (self.span - before.finish) / move.time
        leave, reach = self.y(before.board) + self.box * (move.board > before.board), self.y(move.board) + self.box / 2
        return (self.x(before.finish), leave), (self.x(before.finish + part * move.time), leave + part * (reach - leave)), part == 1

    def link_way(self, move):
        """The way of the bundle that a move goes back along."""
        before, row = self.steps[move.predecessor], self.steps[move.step]
        (link,) = (link for link in self.job.links if link[:2] == (before.step, row.step))
        return self.way(before, before.finish + bundle_time(self.job, link, before.board, row.board), row)

    def idle_way(self, move):
        """The way of a move to its idle board, where there is one to draw."""
        found = self.reckoned(move)
        return found and path(*found[:2])

    def walked(self):
        """The moves of the walks. Those of the least are drawn before those of the cover, which hide them where both are in one place; so
        there they are wider."""
        for name, walk in self.walks.items():
            for move in walk.moves:
                yield from self.moved(name, move)

    def moved(self, name, move):
        """A move: the link that it goes back along, and the way to the idle board, with a circle where the messages would be there."""
        title = (f"{self.whose(name)} walk goes from step {move.step} back to {move.predecessor}: board {move.board} is idle at tick "
                 f"{move.tick}, and messages take {some(move.time, 'tick')} to it")
        least = " least" * (name == "least")
        for kind, way in (("link", self.link_way), ("reckoned", self.idle_way)):
            if place := way(move):
                both = " both" * (name == "least" and place in map(way, self.cover.moves))
                yield tag("path", title, cls=kind + least + both, d=place)
        _, there, whole = self.reckoned(move) or (None, None, False)
        if whole:
            yield tag("circle", title, cls="there" + least, cx=there[0], cy=there[1], r=4)

    def whose(self, name):
        """A walk's name; one walk can be that of both figures."""
        return "the cover's and the least's" if self.alike else f"the {name}'s"

    def delivered(self):
        """Each result on its way to board 0, and a mark on that board's row where it is there; one that makes the end stands out."""
        for result in self.results:
            last = " last" if result.there == self.listing.end else ""
            title = (f"result of step {result.step}: {some(result.messages, 'message')}, from board {result.board} at {result.leaves} "
                     f"to board 0 at {result.there}")
            x, y = self.x(result.there), self.y(0) + self.box
            if result.board != 0:
                yield tag("path", title, cls="result" + last, d=path((self.x(result.leaves), self.y(result.board)), (x, y)))
            yield tag("path", title, cls="gate", d=path((x - 5, y), (x, y - 6), (x + 5, y), (x, y + 6)) + " Z")

    def captions(self):
        """The lines above the plan, each with its class."""
        listing = self.listing
        title = f"end {listing.end:,}   cover {listing.cover:,}   least {listing.least:,}   dearest {listing.dearest:,}"
        if self.results:
            title += f"   dearest result {max(result.time for result in self.results):,}"
        yield "title", title.replace("   ", " \u00a0 ")
        counts = [some(len(self.steps), "step"), some(listing.links, "link")] + [some(len(self.results), "result")] * bool(self.results)
        yield "note", f"{some(listing.boards, 'board')}{self.rack_words()}; {', '.join(counts)}"
        if not self.job:
            return
        yield from (("wrong", words) for words in self.wrong())
        yield from (("note", self.walk_words(name, walk)) for name, walk in reversed(self.walks.items()))

    def wrong(self, form=","):
        """A line on each figure of the listing that is not its walk's sum, with numbers of this form."""
        for name, told, walk, which in (("cover", self.listing.cover, self.cover, "the walk's"),
                                        ("least", self.listing.least, self.least, "the least walk's")):
            if told != walk.total():
                yield f"the listing's {name} is {told:{form}}, but {which} sum is {walk.total():{form}}"

    def rack_words(self):
        """The rack's wiring and costs, where the job is known."""
        if not self.job:
            return ""
        _, wiring, unit = self.job.rack
        if wiring != OWN:
            return f", {WIRINGS[wiring]}, unit cost {unit}"
        costs = [wire[2] for wire in self.job.wires]
        return f", {some(len(costs), 'wire')} of cost {min(costs)} to {max(costs)}" if costs else ", no wires"

    def walk_words(self, name, walk):
        """A walk in words, as far as it fits."""
        words = f"{self.whose(name).removeprefix('the ')} walk: step {walk.first}"
        if not walk.moves:
            return f"{words}, which finishes last, and before which no tick is short"
        for at, move in enumerate(walk.moves):
            more = f"{', back to' if at == 0 else ','} {move.predecessor} ({move.time:,})"
            if LETTER * (len(words) + len(more)) > self.width - 90:
                return f"{words} and {len(walk.moves) - at} more"
            words += more
        return words

    def legend(self):
        """What stands for what."""
        for x, y, cls, text in self.legend_places():
            if cls.startswith("step"):
                yield tag("rect", cls=cls, x=x, y=y - 11, width=22, height=14, rx=3)
            else:
                yield tag("path", cls=cls, d=path((x, y - 4), (x + 22, y - 4)))
            yield tag("text", cls="note", x=x + 30, y=y, text=text)

    def legend_places(self):
        """Where the words of the legend stand: side by side, and where they do not fit on one line, on a second."""
        x, y = float(LEFT), float(self.bottom + 46)
        for cls, text in self.legend_words():
            if x + 30 + LETTER * len(text) > LEFT + self.width + RIGHT:
                x, y = float(LEFT), y + 22
            yield x, y, cls, text
            x += 30 + LETTER * len(text) + 24

    def legend_words(self):
        yield "step", "step"
        if self.job:
            yield from self.chain_words()
            yield "message", "messages"
        for name, walk in reversed(self.walks.items()):
            cls = " least" * (name == "least")
            if walk.moves:
                yield "link" + cls, f"link of {'the' if self.alike else self.whose(name)} chain"
            if any(self.reckoned(move) for move in walk.moves):
                yield "reckoned" + cls, "its time to the idle board"
        if self.results:
            yield "result", "result to board 0"
        yield "end", "end"

    def chain_words(self):
        """What the steps on the chains are: on one alone, or on both."""
        cover, least = self.cover.steps(), self.least.steps()
        if cover - least or self.alike:
            yield "step cover", f"step on {self.whose('cover')} chain"
        if least - cover:
            yield "step least", "step on the least's chain"
        if cover & least and not self.alike:
            yield "step cover least", "step on both chains"

    def svg(self):
        """The whole drawing."""
        width, height = LEFT + self.width + RIGHT, int(max(y for _, y, _, _ in self.legend_places())) + 18
        lines = [f'<svg xmlns="http://www.w3.org/2000/svg" width="{width}" height="{height}" viewBox="0 0 {width} {height}" role="img" '
                 f'aria-label="A plan of {len(self.steps)} steps on {self.listing.boards} boards">', f"<style>{STYLE}</style>"]
        lines.append(tag("rect", x="0.5", y="0.5", width=width - 1, height=height - 1, rx=8, fill="#ffffff", stroke="#d0d7de"))
        lines += [tag("text", cls=cls, x=20, y=32 + 22 * at, text=text) for at, (cls, text) in enumerate(self.captions())]
        for part in (self.rows, self.axis, self.messages, self.boxes, self.walked, self.delivered, self.labels, self.legend):
            lines += part()
        return "\n".join(lines) + "\n</svg>\n"
