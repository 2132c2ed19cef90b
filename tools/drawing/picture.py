"""The picture of a run, seen from above, as SVG: x to the right, y upwards."""

import html
import math
from collections import defaultdict
from dataclasses import dataclass

from .log import Ball, Inside, Near, Nears, Place, Update

# The foot has two lines, and one more of so many pixels for each further strip of colours.
WIDTH, HEIGHT, MARGIN, FOOT, LINE = 960, 720, 12, 58, 24
# Of the points of one kind that lie in the same square of the picture, with sides of so many pixels, one is drawn.
SQUARE = 5
# What was deleted has one of so many colours, by when. What is live has one of as many in version 2, by its intensity.
SHADES = 8
# The largest clusters have a colour each.
COLOURS = ["hsl(84,80%,40%)", "hsl(25,65%,32%)", "hsl(245,60%,62%)", "hsl(140,65%,36%)", "hsl(0,0%,15%)", "hsl(190,90%,38%)"]
# The outlines of the regions of poses, and those of the last ones.
REGION, LAST = "hsl(0,0%,72%)", "hsl(0,0%,30%)"
# A place that was asked for its nearest points has a ring of the first radius, and a lonely point one of the second.
SMALL, WIDE = 3, 7

# What is drawn, by its class, and its name in the legend.
NAMES = {
    "live": "live",
    "suspended": "suspended",
    "asked": "asked, and hits",
    "asked lonely": "lonely",
    "delete": "box to delete",
    "suspend": "to suspend",
    "restore": "to restore",
}

STYLE = """
text{font:13px sans-serif;fill:#333}
path,rect{fill:none}
.dots{stroke-linecap:round}
.sample{stroke-width:3}
.shade{stroke-width:8}
.live{stroke:#93a5b8}
.suspended,.suspend,.restore{stroke:#12a594}
.asked{stroke:#1d4ed8}
.delete{stroke:#b91c1c}
.delete,.suspend{stroke-dasharray:7 4}
.ground{fill:#fff}
.scale{stroke:#333;stroke-width:2}
"""


@dataclass(frozen=True)
class View:
    """The part of the ground that the picture shows: from where on, at so many pixels a millimetre, and its pixels."""

    left: float
    top: float
    scale: float
    width: int
    height: int

    @classmethod
    def of(cls, points, boxes):
        """The view of all these points with a margin, and of those sides of the boxes that aren't far from them."""
        west, east = min(p.x for p in points), max(p.x for p in points)
        south, north = min(p.y for p in points), max(p.y for p in points)
        near = max(east - west, north - south) / 8
        corners = [corner for box in boxes for corner in box]
        xs = [west, east, *(at.x for at in corners if west - near <= at.x <= east + near)]
        ys = [south, north, *(at.y for at in corners if south - near <= at.y <= north + near)]
        return cls.between((min(xs), max(xs)), (min(ys), max(ys)))

    @classmethod
    def between(cls, across, along):
        """The view between two places on each axis; a flat map has a height too, and a single point a width."""
        (west, east), (south, north) = across, along
        width = max(east - west, 1)
        height = max(north - south, width / 8)
        scale = min((WIDTH - 2 * MARGIN) / width, (HEIGHT - 2 * MARGIN) / height)
        left = (west + east - WIDTH / scale) / 2
        pixels = round(height * scale) + 2 * MARGIN
        return cls(left, (south + north + pixels / scale) / 2, scale, WIDTH, pixels)

    def at(self, point):
        """The pixel of a point."""
        return round((point[0] - self.left) * self.scale), round((self.top - point[1]) * self.scale)

    def box(self, box):
        """The pixels of a box's corners, cut a little outside of the picture."""
        (left, bottom), (right, top) = self.at(box.lo), self.at(box.hi)
        left, right = (min(max(at, -9), self.width + 9) for at in (left, right))
        top, bottom = (min(max(at, -9), self.height + 9) for at in (top, bottom))
        return left, top, right - left, bottom - top


def draw(log, result):
    """The text of the SVG of a log's run."""
    view = view_of(log, result.held)
    colours, label = Colours(log, result), html.escape(summary(result.held))
    strips = [*colours.strips(), *region_strips(log)]
    height = view.height + FOOT + LINE * len(strips)
    size = f'width="{view.width}" height="{height}"'
    drawn = [*points(view, log, result.held, colours), *boxes(view, log), *regions(view, log), *queries(view, log, result)]
    parts = [
        f'<svg xmlns="http://www.w3.org/2000/svg" viewBox="0 0 {view.width} {height}" role="img">',
        f"<title>{label}</title><style>{STYLE}</style>",
        f'<rect class="ground" {size}/><svg width="{view.width}" height="{view.height}">',
        *drawn,
        "</svg>",
        *legend(view, log, result.held, "".join(drawn)),
        *(part for row, words in enumerate(strips, 1) for part in strip(MARGIN, view.height + 22 + LINE * row, *words)),
        *foot(view, label, height - MARGIN),
        "</svg>",
    ]
    return "\n".join(parts) + "\n"


def view_of(log, held):
    """The view of all points that were ever held, of the places that were asked for theirs, and of boxes around."""
    seen = [point.place for point in (*held.live.values(), *held.suspended.values())]
    seen += [gone.place for gone in held.gone]
    seen += [command.place for command in log.commands if isinstance(command, Near | Ball)]
    seen += [place for command in log.commands if isinstance(command, Nears) for place in command.places]
    return View.of(seen or [Place(0, 0, 0)], [*(box for box, _ in outlines(log)), *(pose.region for pose in poses(log))])


def outlines(log):
    """The boxes that are drawn, each with its kind."""
    for command in log.commands:
        if isinstance(command, Inside):
            yield command.box, "asked"
        elif isinstance(command, Update) and command.word not in ("erase", "pose"):
            yield from ((box, command.word) for box in command.boxes)


class Colours:
    """The colours of live points: those of the larger clusters, and shades of intensities for the others in version 2."""

    def __init__(self, log, result):
        live, (_, clusters) = result.held.live, result.clusters
        self.count, self.larger = len(clusters), larger(clusters, live)
        # What was found and isn't live any more is drawn as what it is now.
        self.clusters = {
            colour: [live[number].place for number in numbers if number in live]
            for colour, numbers in zip(COLOURS, self.larger)
        }
        shown = {number for numbers in self.larger for number in numbers}
        self.others = {number: point for number, point in live.items() if number not in shown}
        seen = [point.intensity for point in self.others.values()] if log.version == 2 else []
        self.span = (min(seen), max(seen)) if seen else None

    def places(self):
        """The places by their colours, and those of live points that have none of their own."""
        shades = by_darkness(self.others, self.span) if self.span else {}
        plain = [] if self.span else [point.place for point in self.others.values()]
        return {**shades, **self.clusters}, plain

    def strips(self):
        """The colours that are shown, each strip of them with what it means."""
        strips = []
        if self.span:
            text = "live, of intensity " + " to ".join(f"{intensity:,}" for intensity in self.span)
            strips.append(([dark(step) for step in range(SHADES)], text))
        if self.larger:
            sizes = ", ".join(f"{len(numbers):,}" for numbers in self.larger)
            strips.append((COLOURS[: len(self.larger)], f"the largest of {self.count:,} clusters, of {sizes} points"))
        return strips


def larger(clusters, live):
    """The larger clusters that have a live point still, the largest first, and none of one point alone."""
    clusters = [numbers for numbers in clusters if len(numbers) > 1 and not live.keys().isdisjoint(numbers)]
    return sorted(clusters, key=len, reverse=True)[: len(COLOURS)]


def points(view, log, held, colours):
    """The points: what was deleted undermost, by its colours, then what is live, then what is suspended."""
    marks, deleted = log.updates(), defaultdict(list)
    for gone in held.gone:
        if gone.word != "thin":
            deleted[shade(gone.mark, marks)].append(gone.place)
    coloured, plain = colours.places()
    # A few points are drawn larger than many.
    yield f'<g class="dots" stroke-width="{7 if held.next < 1_000 else 3}">'
    yield from in_colours(view, deleted)
    yield from in_colours(view, coloured)
    for kind, places in (("live", plain), ("suspended", [point.place for point in held.suspended.values()])):
        if places:
            yield f'<path class="{kind}" d="{dots(view, places)}"/>'
    yield "</g>"


def in_colours(view, places):
    """The dots at places that stand by their colours."""
    for colour, at in places.items():
        yield f'<path stroke="{colour}" d="{dots(view, at)}"/>'


def shade(mark, marks):
    """The colour of what the update of this mark deleted: from yellow for the first updates to violet for the last."""
    step = (mark - 1) * SHADES // marks
    return f"hsl({(408 - 18 * step) % 360},85%,{60 - 2 * step}%)"


def by_darkness(live, span):
    """The places of live points by their colours, from pale for the least intensity to dark, which lies on top."""
    least, greatest = span
    places = defaultdict(list)
    for place, intensity in sorted(live.values(), key=lambda point: point.intensity):
        places[dark((intensity - least) * SHADES // (greatest - least + 1))].append(place)
    return places


def dark(step):
    """One of the colours of intensities, from pale to dark."""
    return f"hsl(211,{24 + 6 * step}%,{76 - 8 * step}%)"


def dots(view, places):
    """A path with a dot at the pixel of one point for each square of the picture, each told from the one before."""
    squares = {}
    for place in places:
        x, y = view.at(place)
        squares.setdefault((y // SQUARE, x // SQUARE), (x, y))
    text, last = [], (0, 0)
    for _, (x, y) in sorted(squares.items()):
        text.append(f"m{x - last[0]} {y - last[1]}h0")
        last = (x, y)
    return "".join(text)


def boxes(view, log):
    """The outlines of the boxes of updates and queries, those that look the same once."""
    for (x, y, width, height), kind in dict.fromkeys((view.box(box), kind) for box, kind in outlines(log)):
        yield f'<rect class="{kind}" x="{x}" y="{y}" width="{width}" height="{height}"/>'


def poses(log):
    """The poses of a log."""
    return [command for command in log.commands if isinstance(command, Update) and command.region]


def regions(view, log):
    """The outlines of the regions of poses, one after the other, and on top the last one of each caller; none twice."""
    last = {pose.caller: view.box(pose.region) for pose in poses(log)}
    looks = [(view.box(pose.region), REGION, 1) for pose in poses(log)] + [(box, LAST, 2) for box in last.values()]
    for (x, y, width, height), colour, stroke in dict.fromkeys(looks):
        yield f'<rect stroke="{colour}" stroke-width="{stroke}" x="{x}" y="{y}" width="{width}" height="{height}"/>'


def region_strips(log):
    """What the outlines of regions mean, where they are drawn."""
    return [([REGION, LAST], "regions of poses, and the last one of each caller")] if poses(log) else []


def queries(view, log, result):
    """A ring at each place that was asked for its nearest points, and lines from it to its hits; the outline of each ball; a
    wider ring at each point that was told as lonely."""
    places = {place: view.at(place) for place, _ in result.hits}
    lines = {(places[place], view.at(hit.place)) for place, hits in result.hits for hit in hits}
    rings = rings_at(SMALL, places.values())
    spokes = "".join(f"M{x} {y}L{to_x} {to_y}" for (x, y), (to_x, to_y) in sorted(lines))
    balls = "".join(dict.fromkeys(ball(view, command) for command in log.commands if isinstance(command, Ball)))
    if rings or balls:
        yield f'<path class="asked" d="{rings}{spokes}{balls}"/>'
    if result.lonely:
        yield f'<path class="asked lonely" d="{rings_at(WIDE, map(view.at, result.lonely))}"/>'


def rings_at(radius, pixels):
    """Rings of this radius, one for each pixel."""
    return "".join(ring(radius, *pixel) for pixel in sorted(set(pixels)))


def ring(radius, x, y):
    """A ring round a pixel."""
    half = f"a{radius} {radius} 0 1 0"
    return f"M{x - radius} {y}{half} {2 * radius} 0{half}-{2 * radius} 0"


def ball(view, query):
    """The outline of a ball, where it isn't wider than the picture."""
    radius = max(round(query.reach * view.scale), SMALL)
    return ring(radius, *view.at(query.place)) if radius < math.hypot(view.width, view.height) else ""


def legend(view, log, held, drawn):
    """What the colours mean that were drawn, in a line below the picture."""
    line, names = view.height + 22, [name for name in NAMES if f'{name}"' in drawn]
    for x, name in zip(range(MARGIN, view.width, 120), names):
        sample = ring(WIDE, x + 10, line - 4) if name == "asked lonely" else f"M{x} {line - 4}h20"
        yield f'<path class="sample {name}" d="{sample}"/><text x="{x + 26}" y="{line}">{NAMES[name]}</text>'
    x = MARGIN + 120 * len(names)
    if any(gone.word != "thin" for gone in held.gone):
        colours = [shade(step + 1, SHADES) for step in range(SHADES)]
        yield from strip(x, line, colours, f"deleted by update 1 to {log.updates()}")


def strip(x, line, colours, text):
    """Colours side by side, and what they mean."""
    for step, colour in enumerate(colours):
        yield f'<path class="shade" stroke="{colour}" d="M{x + 9 * step} {line - 4}h9"/>'
    yield f'<text x="{x + 9 * len(colours) + 6}" y="{line}">{text}</text>'


def foot(view, label, line):
    """The totals and the scale, at the foot."""
    length = round_length(WIDTH / 8 / view.scale)
    pixels = round(length * view.scale)
    x = WIDTH - MARGIN - pixels
    yield f'<text x="{MARGIN}" y="{line}">{label}</text>'
    yield f'<text x="{x - 8}" y="{line}" text-anchor="end">{metres(length)}</text>'
    yield f'<path class="scale" d="M{x} {line - 9}v9h{pixels}v-9"/>'


def summary(held):
    """One line on what the picture shows."""
    thinned = sum(gone.word == "thin" for gone in held.gone)
    parts = [f"{held.next:,} points: {len(held.live):,} live", f"{len(held.suspended):,} suspended"]
    parts += [f"{len(held.gone) - thinned:,} deleted", f"{thinned:,} thinned away (not drawn)"]
    return ", ".join(parts)


def round_length(length):
    """The largest of 1, 2, 5, 10, 20, .. millimetres that isn't longer than this, and 1 at least."""
    power = 10 ** max(math.floor(math.log10(length)), 0)
    return max(power * factor for factor in (1, 2, 5) if power * factor <= max(length, 1))


def metres(length):
    """A length with its unit."""
    return f"{length // 1000:,} m" if length >= 1000 else f"{length} mm"
