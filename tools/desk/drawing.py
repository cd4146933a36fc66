"""A scene as SVG text, without a script and without a font file.

Shapes tell all apart, so that no colour is needed, and there is a light and a dark dress.
"""

from collections.abc import Iterator
from html import escape
from pathlib import Path

from tools.desk import clock
from tools.desk.model import Landing, Objective, Plan, Span
from tools.desk.scene import Frame, Row, Scene

WIDTH = 1_200
ROW = 18
TOP = 60  # where the rows begin
MIDDLE = 12  # from there to the middle of the first row
FIELD = 340  # the left side of the field of time
MARGIN = 32  # beside the seconds of the frame
INNER = WIDTH - FIELD - 2 * MARGIN
LEAST_BAR = 2  # the width of what would be narrower
LEAST_SEEN = 12  # a window no wider is drawn as a beam, whose ends are seen above and below a ring

STYLE = Path(__file__).with_name("picture.css").read_text("ascii")
HATCHING = (
    "<pattern id='z' width='7' height='7' patternUnits='userSpaceOnUse' patternTransform='rotate(45)'>"
    "<path stroke-opacity='.6' d='M3 0V7'/></pattern><rect class='g' width='100%' height='100%'/>\n"
)
COLUMNS = (
    "<text y='56'><tspan x='8'>flight</tspan><tspan x='70'>cat</tspan><tspan class='n' x='122'>rank</tspan>"
    "<tspan class='n' x='160'>place</tspan><tspan class='n' x='198'>shift</tspan><tspan x='210'>lands</tspan>"
    "<tspan class='n' x='326'>delay</tspan></text>\n"
)
RING = "m-5 0a5 5 0 1 0 10 0a5 5 0 1 0-10 0z"
RHOMB = "m0-6l6 6-6 6-6-6z"
STROKE = "m0-6v12"
BEAM = "m-6-8h12m-6 0v16m-6 0h12"
SQUARE = "m-8-8h16v16h-16z"
LEFTWARD = "m0 0l6-5v10z"
RIGHTWARD = "m0 0l-6-5v10z"
KEY = (
    "<rect class='w' x='340' y='14' width='24' height='8'/><text x='369' y='22'>window</text>"
    f"<path class='e' d='M428 18{STROKE}'/><text x='435' y='22'>estimate</text>"
    "<path class='d' d='M508 18h24'/><text x='537' y='22'>delay</text>"
    f"<path class='m' d='M591 18{RING}'/><text x='601' y='22'>waiting</text>"
    f"<path class='f' d='M669 18{RHOMB}'/><text x='680' y='22'>frozen</text>"
    "<path class='s' d='M740 18h24'/><text x='769' y='22'>separation</text>"
    "<path class='h' d='M855 10v16'/><text x='862' y='22'>horizon</text>"
    "<path class='c' d='M928 11h18v14h-18z'/><text x='951' y='22'>closed</text>"
    f"<path class='x' d='M1017 18{SQUARE}'/><text x='1030' y='22'>a finding</text>\n"
)


def svg(scene: Scene) -> str:
    """The picture."""
    return "".join(_parts(scene))


def _parts(scene: Scene) -> Iterator[str]:
    verdict = _verdict(scene)
    bottom = TOP + ROW * len(scene.rows) + 6
    height = bottom + 22 + ROW * len(verdict)
    yield f"<svg xmlns='http://www.w3.org/2000/svg' width='{WIDTH}' height='{height}' viewBox='0 0 {WIDTH} {height}'>\n"
    yield f"<title>{title(scene.plan)}</title>\n<style>\n{STYLE}</style>\n{HATCHING}{COLUMNS}{KEY}"
    yield f"<text class='t' x='8' y='22'>{title(scene.plan)}</text>\n"
    yield f"<text x='8' y='40'>{_remarks(scene)}</text>\n"
    yield from _field(scene, bottom)
    for number, row in enumerate(scene.rows):
        middle = TOP + MIDDLE + ROW * number
        yield _words(row, middle)
        yield from _shapes(row, scene.frame, middle)
    for number, line in enumerate(verdict):
        style = " class='x'" if scene.findings else ""
        yield f"<text{style} x='8' y='{bottom + 28 + ROW * number}'>{escape(line)}</text>\n"
    yield "</svg>\n"


def title(plan: Plan | None) -> str:
    """The objective and its value, of the makespan also on the clock."""
    if plan is None:
        return "infeasible"
    if plan.objective is Objective.MAKESPAN:
        return f"{plan.objective} {plan.value}, {clock.shown(plan.value)}"
    return f"{plan.objective} {plan.value}"


def _remarks(scene: Scene) -> str:
    """The horizon, and the closures that are not seen."""
    said = [f"horizon {clock.shown(scene.horizon)}"] if scene.horizon else []
    unseen = [it for it in scene.closures if it.last <= scene.frame.first or scene.frame.last < it.first]
    said += [f"closed {clock.shown(it.first)} to {clock.shown(it.last)}" for it in unseen[:6]]
    said += [f"and {len(unseen) - 6} closures more"] if len(unseen) > 6 else []
    return ", ".join(said)


def _verdict(scene: Scene) -> list[str]:
    if scene.plan is None:
        return ["audit: infeasible claimed"]
    return [f"audit: {it}" for it in scene.findings or ("ok",)]


def _place(frame: Frame, second: int) -> float:
    """How far from the left a second stands. A second far outside stands at the field's side."""
    along = FIELD + MARGIN + (second - frame.first) * INNER / frame.seconds
    return round(min(max(along, FIELD), WIDTH), 1)


def _between(frame: Frame, first: int, end: int) -> tuple[float, float]:
    """The left side and the width of a bar from a second to the beginning of another, 0 where it is not seen."""
    left, right = _place(frame, first), _place(frame, end)
    return left, round(max(right - left, LEAST_BAR), 1) if left < WIDTH and right > FIELD else 0


def _field(scene: Scene, bottom: int) -> Iterator[str]:
    """What stands over all rows."""
    for span in scene.closures:
        left, width = _between(scene.frame, span.first, span.last)
        if width:
            said = _hint(f"closed {_moment(span.first)} to {_moment(span.last)}")
            yield f"<rect class='c' x='{left:g}' y='{TOP}' width='{width:g}' height='{bottom - TOP}'>{said}</rect>\n"
    for second in scene.frame.ticks():
        along, said = _place(scene.frame, second), clock.shown(second)
        yield f"<path class='k' d='M{along:g} {TOP}V{bottom}'/><text class='k' x='{along:g}' y='56'>{said}</text>"
        yield f"<text class='k' x='{along:g}' y='{bottom + 13}'>{said}</text>\n"
    if scene.horizon and scene.frame.holds(scene.horizon):
        along = _place(scene.frame, scene.horizon)
        yield f"<path class='h' d='M{along:g} {TOP}V{bottom}'>{_hint(f'horizon {_moment(scene.horizon)}')}</path>\n"


def _words(row: Row, middle: int) -> str:
    """The words of a row, and the line below it."""
    cells = [f"<tspan x='8'>{row.callsign}</tspan>"]
    if row.flight:
        cells.append(f"<tspan x='70'>{row.flight.category}</tspan>")
    for along, number in ((122, row.rank), (160, row.place), (198, _shift(row))):
        if number is not None:
            cells.append(f"<tspan class='n' x='{along}'>{number}</tspan>")
    if row.landing:
        cells.append(f"<tspan x='210'>{clock.shown(row.landing.second)}</tspan>")
        if row.flight:
            late = clock.duration(row.landing.second - row.flight.eta)
            cells.append(f"<tspan class='n' x='326'>{late}</tspan>")
    style = " class='x'" if row.flagged else ""
    line = f"<path class='r' d='M8 {middle + 9}H{WIDTH}'/>"
    return f"<text{style} y='{middle + 4}'>{''.join(cells)}</text>{line}\n"


def _shift(row: Row) -> str | None:
    """How many places later than its rank a waiting flight lands, with its sign."""
    if row.place is None or row.rank is None:
        return None
    return f"{row.place - row.rank:+}" if row.place != row.rank else "0"


def _shapes(row: Row, frame: Frame, middle: int) -> Iterator[str]:
    """What a row draws in the field."""
    if row.flight:
        for span in row.flight.windows:
            yield _window(row.callsign, span, frame, middle)
        yield _estimate(row.callsign, row.flight.eta, frame, middle)
    if row.landing is None:
        return
    along = _place(frame, row.landing.second)
    if row.flight and row.flight.eta != row.landing.second:
        from_, late = _place(frame, row.flight.eta), clock.duration(row.landing.second - row.flight.eta)
        yield f"<path class='d' d='M{from_:g} {middle}H{along:g}'>{_hint(f'{row.callsign} delay {late}')}</path>\n"
    if row.owed is not None:
        said = _hint(f"behind {row.callsign} the next may land at {_moment(row.owed)}")
        yield f"<path class='s' d='M{along:g} {middle + 7}H{_place(frame, row.owed):g}'>{said}</path>\n"
    yield _mark(row.landing, along, middle)
    if row.flagged:
        yield f"<path class='x' d='M{along:g} {middle}{SQUARE}'/>\n"


def _window(callsign: str, span: Span, frame: Frame, middle: int) -> str:
    """A window's bar. One that is not seen leaves a mark at the field's side."""
    left, width = _between(frame, span.first, span.last + 1)
    said = _hint(f"{callsign} window {_moment(span.first)} to {_moment(span.last)}")
    if width > LEAST_SEEN:
        return f"<rect class='w' x='{left:g}' y='{middle - 4}' width='{width:g}' height='8'>{said}</rect>\n"
    if width:
        return f"<path class='v' d='M{left + width / 2:g} {middle}{BEAM}'>{said}</path>\n"
    form = RIGHTWARD if left == WIDTH else LEFTWARD
    return f"<path class='o' d='M{left:g} {middle}{form}'>{said}</path>\n"


def _estimate(callsign: str, eta: int, frame: Frame, middle: int) -> str:
    """An estimate's stroke. One that is not seen leaves a mark at the field's side."""
    along, said = _place(frame, eta), _hint(f"{callsign} estimate {_moment(eta)}")
    if FIELD < along < WIDTH:
        return f"<path class='e' d='M{along:g} {middle}{STROKE}'>{said}</path>\n"
    form = RIGHTWARD if along == WIDTH else LEFTWARD
    return f"<path class='f' d='M{along:g} {middle}{form}'>{said}</path>\n"


def _mark(landing: Landing, along: float, middle: int) -> str:
    style, form = ("f", RHOMB) if landing.frozen else ("m", RING)
    said = _hint(f"{landing.callsign} lands {_moment(landing.second)}, {'frozen' if landing.frozen else 'waiting'}")
    return f"<path class='{style}' d='M{along:g} {middle}{form}'>{said}</path>\n"


def _hint(words: str) -> str:
    return f"<title>{words}</title>"


def _moment(second: int) -> str:
    """A second on the clock and as a number."""
    return f"{clock.shown(second)} ({second})"
