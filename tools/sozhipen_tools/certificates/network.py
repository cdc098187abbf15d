"""The drawing of one network as SVG: two points for each condition, one below the other; on the right the path, on the
left all other edges."""

from __future__ import annotations

from dataclasses import dataclass
from html import escape

from ..reference.certificates.confirm import point_text
from .proofs import Edge, Part, Point, Sheet, condition_words, edge_words, origins, point_words, words

# The place of the points; how high a condition is, and where its points stand in it.
POINTS, BAND, START, END, RADIUS = 132, 104, 44, 82, 11
FIRST_LANE, CORNER = 30, 7
LETTER, NAME_SHOWN = 7, 18


@dataclass(frozen=True)
class Lane:
    """An edge of the path, and how far right it runs."""
    edge: Edge
    lane: int


def rows_of(network: list[Edge]) -> dict[Point, int]:
    """How high each point of the network stands."""
    places = sorted({point[0] for edge in network for point in edge[:2]})
    return {(k, point): n * BAND + height for n, k in enumerate(places) for point, height in (("s", START), ("e", END))}


def lanes_of(path: tuple[Edge, ...], rows: dict[Point, int]) -> list[Lane]:
    """Edges that run beside one another have lanes of their own, the shorter ones within."""
    taken: list[list[tuple[int, int]]] = []
    found = []
    for edge in sorted(path, key=lambda edge: abs(rows[edge[0]] - rows[edge[1]])):
        low, high = sorted((rows[edge[0]], rows[edge[1]]))
        lane = next((k for k, runs in enumerate(taken) if all(high <= a or b <= low for a, b in runs)), len(taken))
        if lane == len(taken):
            taken.append([])
        taken[lane].append((low, high))
        found.append(Lane(edge, lane))
    return found


def label_of(bound: int) -> tuple[str, str]:
    """A bound in words, and in milliseconds where these say more."""
    return words(bound), f"{bound} ms".replace("-", "−") if abs(bound) >= 1000 else ""


def lane_width_of(path: tuple[Edge, ...]) -> int:
    """How wide a lane is, with the longest label of the path."""
    return max(58, int(max(len(text) for _, _, bound in path for text in label_of(bound)) * LETTER) + 16)


def path_edge(lane: Lane, rows: dict[Point, int], width: int) -> str:
    """Right from its first point, along its lane, and back to its second one."""
    x, y, _ = lane.edge
    right = POINTS + FIRST_LANE + lane.lane * width
    step = 1 if rows[y] > rows[x] else -1
    top, low = rows[x] + 5 * step, rows[y] - 5 * step
    bend = CORNER * step
    line = (f"M{POINTS + RADIUS} {top}H{right - CORNER}Q{right} {top} {right} {top + bend}V{low - bend}"
            f"Q{right} {low} {right - CORNER} {low}H{POINTS + RADIUS + 3}")
    return f'<path class="path" d="{line}"><title>{escape(edge_words(lane.edge))}</title></path>'


def path_label(lane: Lane, rows: dict[Point, int], width: int) -> str:
    """The bound beside the lane, between two rows."""
    x, y, bound = lane.edge
    left = POINTS + FIRST_LANE + lane.lane * width + 7
    low, high = sorted((rows[x], rows[y]))
    passed = [row for row in sorted(rows.values()) if low <= row <= high]
    between = [(a + b) // 2 for a, b in zip(passed, passed[1:])]
    middle = min(between, key=lambda height: abs(low + high - 2 * height))
    text, exact = label_of(bound)
    below = f'<tspan class="exact" x="{left}" dy="13">{exact}</tspan>' if exact else ""
    return f'<text class="bound" x="{left}" y="{middle + (-2 if exact else 4)}">{text}{below}</text>'


def other_edge(edge: Edge, rows: dict[Point, int], depth: float) -> str:
    """Straight where it joins start and end of one event, else round on the left."""
    x, y, _ = edge
    step = 1 if rows[y] > rows[x] else -1
    if x[0] == y[0]:
        line = f"M{POINTS + 3 * step} {rows[x] + (RADIUS - 1) * step}V{rows[y] - (RADIUS + 2) * step}"
    else:
        near, left = POINTS - RADIUS + 1, round(POINTS - RADIUS - depth * 4 / 3)
        line = (f"M{near} {rows[x] + 3 * step}C{left} {rows[x] + 10 * step} {left} {rows[y] - 10 * step} {near - 3} "
                f"{rows[y] - 3 * step}")
    return f'<path class="other" d="{line}"><title>{escape(edge_words(edge))}</title></path>'


def others(network: list[Edge], path: tuple[Edge, ...], rows: dict[Point, int]) -> str:
    rest = [edge for edge in dict.fromkeys(network) if edge not in path]
    far = sorted((edge for edge in rest if edge[0][0] != edge[1][0]),
                 key=lambda edge: abs(rows[edge[0]] - rows[edge[1]]))
    depth = {edge: 20 + min(12, 84 / max(1, len(far) - 1)) * n for n, edge in enumerate(far)}
    return "".join(other_edge(edge, rows, depth.get(edge, 0)) for edge in rest)


def bands(rows: dict[Point, int], width: int) -> str:
    tops = [row - START for (_, point), row in rows.items() if point == "s"]
    return "".join(f'<rect class="band" y="{top + 2}" width="{width}" height="{BAND - 4}" rx="5"/>' for top in tops)


def names(sheet: Sheet, part: Part, rows: dict[Point, int]) -> str:
    """The number of each condition, its variable and type, cut where the lanes begin."""
    found = []
    for k in dict.fromkeys(place for place, _ in rows):
        text = condition_words(sheet.condition(part, k))
        shown = text if len(text) <= NAME_SHOWN else text[:NAME_SHOWN - 1] + "…"
        found.append(f'<text x="10" y="{rows[k, "s"] - START + 20}"><title>{escape(text)}</title>'
                     f'<tspan class="number">{k + 1}</tspan> {escape(shown)}</text>')
    return "".join(found)


def points(part: Part, rows: dict[Point, int]) -> str:
    passed = {point for edge in part.edges for point in edge[:2]}
    ends = {part.edges[0][0], part.edges[-1][1]}

    def drawn(point: Point, row: int) -> str:
        sort = "point" + (" passed" if point in passed else "") + (" outer" if point in ends else "")
        return (f'<g class="{sort}"><title>{point_words(point)}</title><circle cx="{POINTS}" cy="{row}" r="{RADIUS}"/>'
                f'<text x="{POINTS}" y="{row + 4}">{point_text(point)}</text></g>')

    return "".join(drawn(point, row) for point, row in rows.items())


def drawing(sheet: Sheet, part: Part) -> str:
    """The network of a part, and its path or cycle in it."""
    network = list(origins(sheet.program, part))
    rows = rows_of(network)
    lanes, lane_width = lanes_of(part.edges, rows), lane_width_of(part.edges)
    width = POINTS + FIRST_LANE + (max(lane.lane for lane in lanes) + 1) * lane_width + 10
    height = len(rows) // 2 * BAND
    sort, told = ("network cycle", "cycle") if part.cycle else ("network", "path")
    return (f'<svg class="{sort}" role="img" aria-label="The network, and in it the {told} that is told beside it" '
            f'width="{width}" height="{height}" viewBox="0 0 {width} {height}">'
            + bands(rows, width) + others(network, part.edges, rows) + names(sheet, part, rows)
            + "".join(drawn(lane, rows, lane_width) for drawn in (path_edge, path_label) for lane in lanes)
            + points(part, rows) + "</svg>")
