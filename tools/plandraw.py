# Draws a plan before and after settling as SVG: a lane for each resource, a row for each task in it.

from dataclasses import dataclass
from xml.sax.saxutils import escape

from planwords import RANGES, SENSES, count, sense_words, set_words
from plansettle import REFUSALS, headline, narrowed, refusal_words

TASK_COLOURS = (
    "#2f6db5", "#13806f", "#7b52ab", "#b83b78", "#5b8a1f", "#8a5a3c", "#1f8fb0", "#5a6478",
)
INK, MUTED, FAINT, GRID, PAPER, LANE = "#1d2733", "#5d6977", "#9aa5b1", "#e3e8ee", "#ffffff", "#f5f7fa"
MARK, ALARM = "#b4500b", "#c0202c"
LEVEL, LEVEL_SURE, LEVEL_WRONG = "#e1e5ea", "#b5bdc7", "#eda9ae"
BARE, BARE_WRONG = "#ffe7a3", "#f9d9db"
FONT = "'Helvetica Neue', Helvetica, Arial, 'DejaVu Sans', sans-serif"
BOLD = 1.12  # bold letters are this much wider

MARGIN = 32
LABELS = 86
DAYS = 440
GAP = 44
ROW = 26
TALLEST = 30000
BAR = 14
LANE_HEAD = 34
HEAD_LINE = 18
LIMITS = 16
HELD = 18
STRIP = 46
LANE_GAP = 18
AXIS = 30
LEGEND = 26


@dataclass(frozen=True)
class Scale:
    """Turns days into places across a panel."""

    first: int
    last: int
    left: float

    def x(self, day):
        """Where a day begins."""
        return self.left + DAYS * (day - self.first) / (self.last - self.first)

    def width(self):
        """The width of one day."""
        return DAYS / (self.last - self.first)


@dataclass(frozen=True)
class Lane:
    """A lane: its resource's place (None for tasks on no listed resource), tasks, top, lines of its heading, limits, and whether it is held."""

    place: object
    tasks: tuple
    top: float
    heading: tuple = ("",)
    limits: tuple = ()
    held: bool = False

    def rows_top(self):
        """Where the rows of tasks begin."""
        return self.top + LANE_HEAD + HEAD_LINE * (len(self.heading) - 1)

    def rows(self):
        """How many rows the lane has; an empty one keeps a row for its remark."""
        return max(1, len(self.tasks))

    def limits_top(self):
        """Where the numbers of limits that change begin."""
        return self.rows_top() + ROW * self.rows() + 6

    def held_top(self):
        """Where the row of a held resource's days begins."""
        return self.limits_top() + (LIMITS if self.numbered() else 0)

    def strip_top(self):
        """Where the strip of the level begins."""
        return self.held_top() + (HELD if self.held and self.tasks else 0)

    def numbered(self):
        """The stretches of a limit that changes which are wide enough for its number."""
        if len(self.limits) < 2 or not self.tasks:
            return []
        day = DAYS / (self.limits[-1][1] - self.limits[0][0])
        return [step for step in self.limits if width_of(str(step[2]), 11) + 4 <= day * (step[1] - step[0])]

    def bottom(self):
        """Where the lane ends."""
        return self.strip_top() + (STRIP + 12 if self.place is not None and self.tasks else 0)


@dataclass(frozen=True)
class Panel:
    """One of the drawing's halves: its heading, its tasks, and where its columns stand."""

    heading: str
    tasks: tuple
    scale: Scale
    columns: tuple
    right: float
    after: bool


# Parts of SVG


def number(value):
    """A coordinate, short."""
    return f"{value:.2f}".rstrip("0").rstrip(".")


def element(tag, inner="", **attributes):
    """An SVG element; underscores in names become hyphens."""
    shown = []
    for name, value in attributes.items():
        value = number(value) if isinstance(value, (int, float)) else escape(str(value), {'"': "&quot;"})
        shown.append(f' {name.rstrip("_").replace("_", "-")}="{value}"')
    return f"<{tag}{''.join(shown)}>{inner}</{tag}>" if inner else f"<{tag}{''.join(shown)}/>"


def text(x, y, words, size=12, fill=INK, anchor="start", weight="normal", **more):
    """A line of text."""
    return element(
        "text", escape(words), x=x, y=y, font_size=size, fill=fill, text_anchor=anchor, font_weight=weight, **more
    )


def box(x, y, width, height, **more):
    """A rectangle."""
    return element("rect", x=x, y=y, width=width, height=height, **more)


def line(x1, y1, x2, y2, stroke=GRID, **more):
    """A straight line."""
    return element("line", x1=x1, y1=y1, x2=x2, y2=y2, stroke=stroke, **more)


def width_of(words, size=12):
    """About how wide a text is, on the safe side."""
    wide = {**dict.fromkeys("iljtfrI.,:;'|()- ", 0.38), **dict.fromkeys("mwMW", 0.9)}
    return size * sum(wide.get(letter, 0.63) for letter in words)


def tint(colour):
    """A colour mixed with much white, so that nothing behind shows through."""
    parts = [int(colour[k : k + 2], 16) for k in (1, 3, 5)]
    return "#" + "".join(f"{round(255 - 0.34 * (255 - part)):02x}" for part in parts)


# Days


def possible(task):
    """The days that the task may cover, as low and the day after the last."""
    return task.origin.low, task.end.high


def sure(task, place):
    """The days that the task surely covers on its only resource, or None."""
    if task.places != 1 << place or task.origin.high >= task.end.low or twisted(task):
        return None
    return task.origin.high, task.end.low


def held_span(tasks, place):
    """The days on which a held resource is checked whatever is chosen, or None."""
    # by the tasks that can be nowhere else: one has begun on each of these days, and one ends later
    alone = [task for task in tasks if task.places == 1 << place and not twisted(task)]
    if not alone:
        return None
    first, last = min(task.origin.high for task in alone), max(task.end.low for task in alone)
    return (first, last) if first < last else None


def bare_spans(tasks, place):
    """The days of the held span on which no task is sure: there a plain resource is not checked."""
    span, bare = held_span(tasks, place), []
    if not span:
        return bare
    day, last = span
    for first, after in sorted(found for found in (sure(task, place) for task in tasks) if found):
        bare.append((day, first))
        day = max(day, after)
    bare.append((day, last))
    return [found for found in bare if found[0] < found[1]]


def day_span(plan):
    """The first day drawn and the day after the last one."""
    days = [day for task in plan.tasks for day in (*possible(task), task.origin.high, task.end.low)]
    if not days:
        return 0, 7
    first, last = min(days), max(days)
    room = max(1, (last - first) // 40) if last > first else 1
    return first - room, last + room


def tick_step(first, last):
    """The step between labelled days: 1, 2 or 5 times a power of ten, wide enough for its labels."""
    wide = max(width_of(str(first), 11), width_of(str(last), 11)) + 14
    power = 1
    while True:
        for step in (power, 2 * power, 5 * power):
            if DAYS * step / (last - first) >= wide:
                return step
        power *= 10


def ticks(first, last):
    """The labelled days."""
    step = tick_step(first, last)
    return range(-(-first // step) * step, last, step)


# Levels


def level_steps(tasks, place, sense, held=None):
    """The best level left, as (first day, day after, level, whether it is checked: where a task is sure, and on held days)."""
    changes, steps = level_changes(tasks, place, sense), []
    add_span(changes, held, (0, 0, 1))
    level = may = must = 0
    days = sorted(changes)
    for first, last in zip(days, days[1:]):
        level, may, must = (a + b for a, b in zip((level, may, must), changes[first]))
        step = (first, last, level, must > 0)
        if not may and not must:
            continue
        if steps and steps[-1][1:] == (first, *step[2:]):
            step = (steps.pop()[0], *step[1:])
        steps.append(step)
    return steps


def level_changes(tasks, place, sense):
    """What changes on which day: the best level, the tasks possible and the tasks sure."""
    changes = {}
    for task in tasks:
        if not task.on(place) or twisted(task):
            continue
        height = task.height.high if sense == 1 else task.height.low
        helps = height > 0 if sense == 1 else height < 0
        add_span(changes, possible(task), (height if helps else 0, 1, 0))
        add_span(changes, sure(task, place), (0 if helps else height, 0, 1))
    return changes


def add_span(changes, span, amounts):
    """Adds amounts on the first day of a span and takes them off after its last."""
    if span and span[0] < span[1]:
        for day, sign in zip(span, (1, -1)):
            old = changes.get(day, (0, 0, 0))
            changes[day] = tuple(a + sign * b for a, b in zip(old, amounts))


def limit_on(plan, place, day):
    """The limit of a resource on a day: that of its last band whose first day is not after it, else its own."""
    begun = [band.limit for _, band in plan.bands_of(place) if band.first <= day]
    return begun[-1] if begun else plan.resources[place].limit


def limit_steps(plan, place, first, last):
    """The limits of the days drawn, as (first day, day after, limit); a band that changes nothing makes no step."""
    starts = {band.first for _, band in plan.bands_of(place) if first < band.first < last}
    steps, days = [], sorted({first, last} | starts)
    for day, after in zip(days, days[1:]):
        limit = limit_on(plan, place, day)
        if steps and steps[-1][2] == limit:
            day = steps.pop()[0]
        steps.append((day, after, limit))
    return tuple(steps)


def against_limits(steps, limits):
    """The steps of a level cut where the limit changes: (first day, day after, level, whether it is checked, limit)."""
    for first, last, level, checked in steps:
        for begins, ends, limit in limits:
            if max(first, begins) < min(last, ends):
                yield max(first, begins), min(last, ends), level, checked, limit


def breaks(level, limit, sense):
    """Whether a level is on the wrong side of the limit."""
    return level < limit if sense == 1 else level > limit


# Layout


def make_lanes(plan, top, right):
    """The lanes from top to bottom; tasks on no listed resource get one of their own."""
    lanes, days = [], day_span(plan)
    for place in range(len(plan.resources)):
        tasks = tuple(k for k, task in enumerate(plan.tasks) if task.on(place))
        heading = wrap(limits_told(plan, place), right - heading_left(plan.resources[place]), 12, "  ·  ")
        lanes.append(Lane(place, tasks, top, tuple(heading), limit_steps(plan, place, *days), plan.resources[place].held()))
        top = lanes[-1].bottom() + LANE_GAP
    listed = (1 << len(plan.resources)) - 1
    lost = tuple(k for k, task in enumerate(plan.tasks) if not task.places or task.places & ~listed)
    if lost:
        lanes.append(Lane(None, lost, top))
    return lanes


def limits_told(plan, place):
    """A resource's place, its kind if it is held, and its limits, from which day which: the pieces of its heading."""
    resource = plan.resources[place]
    own = [f"place {place}", *(["held"] if resource.held() else []), f"{sense_words(plan.sense)} {resource.limit}"]
    return [*own, *(f"{band.limit} from day {band.first}" for _, band in plan.bands_of(place))]


def heading_left(resource):
    """Where the limits stand in a lane's heading, after the resource's name."""
    return MARGIN + width_of(f"Resource {resource.identifier}", BOLD * 14) + 8


def column_widths(tasks):
    """The widths of the columns for duration and height."""
    return [
        max([width_of(name, 11)] + [width_of(getattr(task, name).words(), 12) for task in tasks])
        for name in ("duration", "height")
    ]


def make_panels(plan, answer):
    """The panel before and, unless the plan is refused, the panel after."""
    first, last = day_span(plan)
    widths = column_widths(plan.tasks + answer.tasks)
    halves = [("Before", plan.tasks)] + ([] if answer.refusal else [("After settling", answer.tasks)])
    panels, left = [], MARGIN + LABELS
    for heading, tasks in halves:
        after = bool(panels)
        columns, x = [], left + DAYS + 16
        for width in widths:
            columns.append(x + width)
            x += width + 16
        if after:
            columns.append(x)
            x += changes_width(plan, answer)
        panels.append(Panel(heading, tasks, Scale(first, last, left), tuple(columns), x, after))
        left = x + GAP
    return panels


def changes_width(plan, answer):
    """The width of the column that names what was narrowed."""
    shown = [changes(old, new) for old, new in zip(plan.tasks, answer.tasks)]
    return max([width_of("narrowed", 11)] + [width_of(words, 12) for words in shown])


def changes(old, new):
    """What was narrowed in a task, in words."""
    return ", ".join(narrowed(old, new))


# Bars


def bar(scale, span, y, height=BAR, **more):
    """A bar over days; one too thin to be seen gets a visible width."""
    x, end = scale.x(span[0]), scale.x(span[1])
    return box(x, y, max(end - x, 2), height, **more)


def task_bars(panel, lane, task_place, old, y):
    """The bars of one task in one lane of one panel."""
    task, colour = panel.tasks[task_place], TASK_COLOURS[task_place % len(TASK_COLOURS)]
    top, parts = y + (ROW - BAR) / 2, []
    here = lane.place is None or task.on(lane.place)
    if panel.after:
        parts += [was_bar(panel.scale, span, top) for span in taken_away(old, task, here)]
    if here and twisted(task):
        parts.append(twisted_label(panel.scale.left, y))
    elif here and task.origin.low < task.end.high:
        parts.append(bar(panel.scale, possible(task), top, class_="possible", rx=2, fill=tint(colour)))
    elif here:
        parts.append(no_day(panel.scale.x(task.origin.low), top, colour))
    must = sure(task, lane.place) if here and lane.place is not None else None
    if must:
        parts.append(bar(panel.scale, must, top, class_="sure", rx=2, fill=colour))
    if not here:
        parts.append(left_label(panel, possible(old), y, task.places))
    title = element("title", escape(task_title(task_place, task)))
    return element("g", title + "".join(parts), class_="task")


def taken_away(old, new, here):
    """The days that were possible and no longer are, all of them if the task has left the lane."""
    if not here:
        return [possible(old)]
    (was, until), (low, high) = possible(old), possible(new)
    return [span for span in ((was, low), (high, until)) if span[0] < span[1]]


def twisted(task):
    """Whether a range has its low above its high, so that it means no days."""
    return any(getattr(task, name).low > getattr(task, name).high for name in RANGES)


def twisted_label(left, y):
    """A remark in place of the bars that can't be drawn."""
    return text(left + 10, y + 17, "low above high", 12, ALARM, font_style="italic")


def was_bar(scale, span, top):
    """The outline of the days that were possible before."""
    return bar(
        scale, span, top, class_="was", rx=2, fill="url(#hatch)", stroke=MARK, stroke_width=1, stroke_dasharray="3 2"
    )


def no_day(x, top, colour):
    """The sign of a task that can cover no day."""
    middle = top + BAR / 2
    path = f"M{number(x)} {number(middle - 6)} l6 6 l-6 6 l-6 -6 z"
    return element("path", d=path, class_="none", fill=PAPER, stroke=colour, stroke_width=2)


def left_label(panel, span, y, places):
    """A remark on a task that has left this lane: after its old days, before them, or on them."""
    words = f"left for place{'s' if places & (places - 1) else ''} {set_words(places)}"
    wide, left, right = width_of(words, 11), panel.scale.x(span[0]), panel.scale.x(span[1])
    if right + 8 + wide <= panel.scale.left + DAYS:
        return text(right + 8, y + 17, words, 11, MARK)
    if left - 8 - wide >= panel.scale.left:
        return text(left - 8, y + 17, words, 11, MARK, "end")
    middle = (left + right) / 2
    back = box(middle - wide / 2 - 5, y + (ROW - BAR) / 2 + 1, wide + 10, BAR - 2, fill=PAPER)
    return back + text(middle, y + 17, words, 11, MARK, "middle")


def task_title(place, task):
    """The text that a pointer over the bar shows."""
    ranges = ", ".join(f"{name} {getattr(task, name).words()}" for name in RANGES)
    return f"task {place}: on {set_words(task.places)}, {ranges}"


# Rows, strips and lanes


def row(panel, plan, lane, task_place, y):
    """One task's row in a panel: bars and columns."""
    old, task = plan.tasks[task_place], panel.tasks[task_place]
    names = narrowed(old, task)
    parts = [task_bars(panel, lane, task_place, old, y)]
    here = lane.place is None or task.on(lane.place)
    for name, x in zip(("duration", "height") if here else (), panel.columns):
        new = name in names
        words = getattr(task, name).words()
        parts.append(text(x, y + 17, words, 12, MARK if new else INK, "end", "bold" if new else "normal"))
    if panel.after:
        words = changes(old, task)
        parts.append(text(panel.columns[2], y + 17, words or "–", 12, MARK if words else FAINT))
    return "".join(parts)


def strip(panels, lane, plan):
    """The strips of the level below a lane's rows, on one scale in all panels."""
    known = plan.sense < len(SENSES)
    spans = [held_span(panel.tasks, lane.place) if lane.held else None for panel in panels]
    steps = [level_steps(panel.tasks, lane.place, plan.sense, span) if known else [] for panel, span in zip(panels, spans)]
    levels = [0] + [step[2] for found in (*steps, lane.limits) for step in found]
    low, high = min(levels), max(levels)
    if low == high:
        high += 1

    def y(level):
        return lane.strip_top() + 4 + (STRIP - 8) * (high - level) / (high - low)

    return "".join(strip_half(panel, found, lane, plan.sense, y) for panel, found in zip(panels, steps))


def strip_half(panel, steps, lane, sense, y):
    """One panel's strip: the best level left, and the limit of each day."""
    scale, parts = panel.scale, []
    bare = bare_spans(panel.tasks, lane.place) if lane.held else []
    for first, last, level, checked, limit in against_limits(steps, lane.limits):
        wrong = checked and breaks(level, limit, sense)
        parts += [bare_ground(scale, days, lane, wrong) for days in within(bare, first, last)]
        fill = LEVEL_WRONG if wrong else LEVEL_SURE if checked else LEVEL
        top, low = min(y(level), y(0)), max(y(level), y(0))
        x, wide = scale.x(first), scale.x(last) - scale.x(first)
        parts.append(box(x, top, wide, low - top, fill=fill))
        parts.append(line(x, y(level), x + wide, y(level), ALARM if wrong else INK, stroke_width=1.6))
    parts.append(line(scale.left, y(0), scale.left + DAYS, y(0), FAINT, stroke_width=1))
    parts.append(limit_line([(scale.x(first), scale.x(last), y(limit)) for first, last, limit in lane.limits]))
    parts += limit_labels(scale, lane, y)
    return element("g", "".join(parts), class_="level")


def within(spans, first, last):
    """What of the spans lies between two days."""
    cut = [(max(first, begins), min(last, ends)) for begins, ends in spans]
    return [span for span in cut if span[0] < span[1]]


def bare_ground(scale, span, lane, wrong):
    """The ground of days that are checked though no task is sure there; the level itself may be 0 then, which has no height."""
    x, top = scale.x(span[0]), lane.strip_top()
    return box(x, top, scale.x(span[1]) - x, STRIP, class_="bare", fill=BARE_WRONG if wrong else BARE)


def held_row(panel, lane):
    """The days on which a held resource is checked whatever is chosen."""
    span, y = held_span(panel.tasks, lane.place), lane.held_top()
    if not span:
        return text(panel.scale.left + 10, y + 12, "no day is sure to be held", 11, MUTED, font_style="italic")
    title = element("title", escape(f"held: days {span[0]} to {span[1] - 1} are checked, whatever is chosen"))
    return element("g", title + held_bar(panel.scale, span, bare_spans(panel.tasks, lane.place), y + 4), class_="held")


def held_bar(scale, span, bare, y):
    """The bar of held days, light on the bare ones."""
    light = [bar(scale, days, y, 8, fill=BARE, stroke=INK, stroke_width=1) for days in bare]
    return bar(scale, span, y, 8, fill=INK) + "".join(light)


def limit_line(steps):
    """The line of the limit, from (left, right, height on the page) of each stretch of days."""
    path = f"M{number(steps[0][0])} {number(steps[0][2])}"
    path += "".join(f" V{number(y)} H{number(right)}" for _, right, y in steps)
    return element("path", d=path, class_="limit", fill="none", stroke=ALARM, stroke_width=1.2, stroke_dasharray="6 3")


def limit_labels(scale, lane, y):
    """A limit that stays is told beside its line; limits that change stand above their days, where these have room."""
    if len(lane.limits) == 1:
        limit = lane.limits[0][2]
        return [text(scale.left + DAYS + 8, y(limit) + 4, f"limit {limit}", 11, ALARM)]
    parts = []
    for first, last, limit in lane.numbered():
        middle = (scale.x(first) + scale.x(last)) / 2
        parts.append(text(middle, lane.limits_top() + 11, str(limit), 11, ALARM, "middle"))
    return parts


def lane_svg(panels, lane, plan, answer):
    """A whole lane over all panels."""
    left, right = MARGIN - 12, panels[-1].right + 12
    parts = [box(left, lane.top, right - left, lane.bottom() - lane.top, rx=6, fill=LANE)]
    parts.append(lane_heading(lane, plan, answer))
    for panel in panels:
        parts.append(lane_paper(panel, lane))
        if not lane.tasks:
            x, y = panel.scale.left + DAYS / 2, lane.rows_top() + 17
            parts.append(text(x, y, "no task may stand here", 12, MUTED, "middle", font_style="italic"))
    for k, task_place in enumerate(lane.tasks):
        y = lane.rows_top() + ROW * k
        parts.append(row_label(task_place, y, answer))
        parts += [row(panel, plan, lane, task_place, y) for panel in panels]
    if lane.place is not None and lane.tasks:
        if lane.numbered():
            parts.append(text(MARGIN, lane.limits_top() + 11, "limit", 11, ALARM))
        if lane.held:
            parts.append(text(MARGIN, lane.held_top() + 12, "held", 11, INK))
            parts += [held_row(panel, lane) for panel in panels]
        parts.append(text(MARGIN, lane.strip_top() + STRIP / 2 + 4, "level", 11, MUTED))
        parts.append(strip(panels, lane, plan))
    return element("g", "".join(parts), class_="lane")


def lane_heading(lane, plan, answer):
    """A lane's resource with its limits, in as many lines as these need."""
    y = lane.top + 22
    if lane.place is None:
        return text(MARGIN, y, "On no listed resource", 14, ALARM, weight="bold")
    resource = plan.resources[lane.place]
    wrong = resource_meant(plan, answer) == lane.place
    # of a refused band the words below the title name which it is: its resource's other bands are not wrong
    told = ALARM if wrong and REFUSALS[answer.refusal][0] == "resource" else MUTED
    parts = [text(MARGIN, y, f"Resource {resource.identifier}", 14, ALARM if wrong else INK, weight="bold")]
    for k, words in enumerate(lane.heading):
        parts.append(text(heading_left(resource), y + HEAD_LINE * k, words, 12, told))
    return "".join(parts)


def resource_meant(plan, answer):
    """The place of the resource that a refusal is about, by itself or by its band, or None."""
    kind = REFUSALS.get(answer.refusal, ("",))[0]
    if kind == "band" and answer.place < len(plan.bands):
        return plan.bands[answer.place].place
    return answer.place if kind == "resource" else None


def row_label(place, y, answer):
    """The name of a row's task."""
    wrong = REFUSALS.get(answer.refusal, ("",))[0] == "task" and answer.place == place
    colour = TASK_COLOURS[place % len(TASK_COLOURS)]
    dot = element("circle", cx=MARGIN + 4, cy=y + ROW / 2, r=4, fill=colour)
    fill, weight = (ALARM, "bold") if wrong else (INK, "normal")
    return dot + text(MARGIN + 15, y + 17, f"task {place}", 12, fill, weight=weight)


def lane_paper(panel, lane):
    """The white ground of a lane's days with its day lines."""
    scale, top = panel.scale, lane.rows_top()
    bottom = lane.bottom() - 8 if lane.place is not None and lane.tasks else lane.bottom() - 6
    parts = [box(scale.left, top, DAYS, bottom - top, fill=PAPER)]
    for day in ticks(scale.first, scale.last) if lane.tasks else ():
        parts.append(line(scale.x(day), top, scale.x(day), bottom))
    return "".join(parts)


# Head and foot


def axis(panel, y, labelled):
    """The heading of a panel and its days."""
    scale, parts = panel.scale, []
    parts.append(text(scale.left, y - 22, panel.heading, 15, weight="bold"))
    if labelled:
        for name, x in zip(("duration", "height", "narrowed"), panel.columns):
            parts.append(text(x, y, name, 11, MUTED, "start" if name == "narrowed" else "end"))
        if not panel.after:
            parts.append(text(MARGIN, y, "day", 11, MUTED))
        for day in ticks(scale.first, scale.last):
            parts.append(text(scale.x(day) + scale.width() / 2, y, str(day), 11, MUTED, "middle"))
    return element("g", "".join(parts), class_="axis")


def legend_entries(plan, settled):
    """The signs of the legend, each with its words."""
    colour = TASK_COLOURS[0]
    best = {1: "highest level still possible", 0: "lowest level still possible"}
    checked = "checked" if plan.held() else "a task is sure"
    entries = [
        (lambda x, y: box(x, y, 26, BAR, rx=2, fill=tint(colour)), "possible days"),
        (lambda x, y: box(x, y, 26, BAR, rx=2, fill=colour), "sure days"),
    ]
    if settled:
        entries.append((lambda x, y: was_bar(Scale(0, DAYS, x), (0, 26), y), "was possible before"))
    if any(task.origin.low >= task.end.high and not twisted(task) for task in plan.tasks):
        entries.append((lambda x, y: no_day(x + 13, y, colour), "covers no day"))
    if plan.sense < len(SENSES):
        entries.append((level_sign, f"{best[plan.sense]} (darker: {checked})"))
    if plan.held():
        entries.append((held_sign, "held days: all are checked (light: no task is sure)"))
    if plan.bands:
        entries.append((lambda x, y: limit_line([(x, x + 13, y + 11), (x + 13, x + 26, y + 3)]), "limit of the day"))
    else:
        entries.append((lambda x, y: limit_line([(x, x + 26, y + BAR / 2)]), "limit"))
    return entries


def level_sign(x, y):
    """The legend's sign of the level."""
    light = box(x, y + 3, 13, BAR - 3, fill=LEVEL)
    dark = box(x + 13, y + 3, 13, BAR - 3, fill=LEVEL_SURE)
    return light + dark + line(x, y + 3, x + 26, y + 3, INK, stroke_width=1.6)


def held_sign(x, y):
    """The legend's sign of held days."""
    return held_bar(Scale(0, DAYS, x), (0, 26), [(8, 18)], y + 3)


def legend(plan, settled, y, right):
    """The legend, in as many lines as it needs, and its height."""
    parts, x, top = [], MARGIN, y
    for sign, words in legend_entries(plan, settled):
        wide = 34 + width_of(words, 12) + 24
        if x + wide > right and x > MARGIN:
            x, y = MARGIN, y + LEGEND
        parts.append(sign(x, y) + text(x + 34, y + 11, words, 12, MUTED))
        x += wide
    return element("g", "".join(parts), class_="legend"), y - top + LEGEND


def wrap(pieces, room, size, glue=" "):
    """Pieces of text, as the words of a sentence, joined into lines that fit the room."""
    lines = []
    for piece in pieces:
        longer = f"{lines[-1]}{glue}{piece}" if lines else piece
        if lines and width_of(longer, size) <= room:
            lines[-1] = longer
        else:
            lines.append(piece)
    return lines


def banner(answer, y, right):
    """The refusal's words, and their height."""
    lines = wrap(refusal_words(answer).split(" "), right - MARGIN - 12, BOLD * 13)
    high = 16 + 18 * len(lines)
    parts = [box(MARGIN - 12, y, right - MARGIN + 24, high, rx=6, fill=ALARM, fill_opacity=0.1)]
    parts.append(box(MARGIN - 12, y, 4, high, fill=ALARM))
    parts += [text(MARGIN + 4, y + 22 + 18 * k, words, 13, ALARM, weight="bold") for k, words in enumerate(lines)]
    return element("g", "".join(parts), class_="refusal"), high + 18


def subtitle(plan, answer):
    """The line below the title."""
    end = "refused" if answer.refusal else f"settled after {count(answer.passes, 'pass')}"
    return "  ·  ".join([*headline(plan).split(", "), end])


def hatch():
    """The pattern of what was taken away."""
    stroke = line(0, 0, 0, 6, MARK, stroke_width=1.2, stroke_opacity=0.45)
    pattern = element(
        "pattern", stroke, id="hatch", width=6, height=6, patternUnits="userSpaceOnUse", patternTransform="rotate(45)"
    )
    return element("defs", pattern)


def drawing(plan, answer, title):
    """The whole drawing as SVG text."""
    panels = make_panels(plan, answer)
    right = panels[-1].right
    parts = [text(MARGIN, 44, title, 22, weight="bold"), text(MARGIN, 66, subtitle(plan, answer), 13, MUTED)]
    y = 84
    if answer.refusal:
        part, high = banner(answer, y, right)
        parts.append(part)
        y += high
    part, high = legend(plan, not answer.refusal, y, right)
    parts.append(part)
    y += high + 14 + AXIS
    parts += [axis(panel, y, bool(plan.tasks)) for panel in panels]
    lanes = make_lanes(plan, y + 12, right)
    parts += [lane_svg(panels, lane, plan, answer) for lane in lanes]
    bottom = (lanes[-1].bottom() if lanes else y) + MARGIN
    return whole(parts, right + MARGIN, bottom, title)


def whole(parts, width, height, title):
    """The drawing's outermost element."""
    ground = box(0, 0, width, height, fill=PAPER)
    inner = "\n".join([element("title", escape(title)), hatch(), ground, *parts])
    shown = min(1, TALLEST / height)  # a plan of many tasks on many resources is shown smaller: viewers refuse what is taller
    return '<?xml version="1.0" encoding="UTF-8"?>\n' + element(
        "svg", f"\n{inner}\n", xmlns="http://www.w3.org/2000/svg", width=width * shown, height=height * shown,
        viewBox=f"0 0 {number(width)} {number(height)}", font_family=FONT,
    ) + "\n"
