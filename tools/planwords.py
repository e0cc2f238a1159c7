# The plan file format and the plan in words: reading and writing both, without judging the plan.

import re
import struct
from dataclasses import dataclass

PLAN_RECORD = struct.Struct("<2sBBH")
RESOURCE_RECORD = struct.Struct("<2sii")
BAND_RECORD = struct.Struct("<2sHii")
TASK_RECORD = struct.Struct("<2sH8i")
KINDS = {"plain": b"RS", "held": b"RH"}  # the kinds of resources, each with its mark
MARKS = {PLAN_RECORD: (b"PL",), RESOURCE_RECORD: tuple(KINDS.values()), BAND_RECORD: (b"LB",), TASK_RECORD: (b"TK",)}

MOST_RESOURCES = 255
MOST_TASKS = 65535
LAST_PLACE = 65535
SET_BITS = 16
RANGES = ("origin", "duration", "end", "height")
SENSES = ("at most", "at least")

INTEGER = re.compile(r"[+-]?[0-9]+")
BINDING = re.compile(r"(?<=[0-9])\s*(,|\.\.)\s*(?=[0-9+-])")


class PlanError(Exception):
    """Something that can't be read or written; the text says where and why."""


@dataclass(frozen=True)
class Range:
    """A lowest and a highest value; low above high is kept as it is."""

    low: int
    high: int

    def words(self):
        """The range as it stands in a plan in words."""
        return str(self.low) if self.low == self.high else f"{self.low}..{self.high}"


@dataclass(frozen=True)
class Resource:
    """A resource: its identifier, its limit on the days before its first band, and its kind."""

    identifier: int
    limit: int
    kind: str = "plain"

    def held(self):
        """Whether its limit has to hold between tasks too."""
        return self.kind == "held"


@dataclass(frozen=True)
class Band:
    """A band: the limit of the resource at this place from a first day on, until its next band."""

    place: int
    first: int
    limit: int


@dataclass(frozen=True)
class Task:
    """A task: the set of places as a number, and its four ranges."""

    places: int
    origin: Range
    duration: Range
    end: Range
    height: Range

    def on(self, place):
        """Whether the task may stand on the resource at this place."""
        return bool(self.places >> place & 1)


@dataclass(frozen=True)
class Plan:
    """A plan as its file holds it; the sense is the file's byte."""

    sense: int
    resources: tuple
    bands: tuple
    tasks: tuple

    def held(self):
        """The places of the held resources."""
        return [k for k, resource in enumerate(self.resources) if resource.held()]

    def bands_of(self, place):
        """The bands of the resource at this place, each with its own place in the list."""
        return [(k, band) for k, band in enumerate(self.bands) if band.place == place]


# Bytes


def to_bytes(plan):
    """The plan file of a plan."""
    parts = [PLAN_RECORD.pack(b"PL", plan.sense, len(plan.resources), len(plan.tasks))]
    for resource in plan.resources:
        parts.append(RESOURCE_RECORD.pack(KINDS[resource.kind], resource.identifier, resource.limit))
    for band in plan.bands:
        parts.append(BAND_RECORD.pack(b"LB", band.place, band.first, band.limit))
    for task in plan.tasks:
        ends = [value for name in RANGES for value in ends_of(task, name)]
        parts.append(TASK_RECORD.pack(b"TK", task.places, *ends))
    return b"".join(parts)


def ends_of(task, name):
    """Low and high of one of a task's ranges."""
    kept = getattr(task, name)
    return kept.low, kept.high


def from_bytes(data, name):
    """The plan in a plan file; an error if the file hasn't the format's shape."""
    _, sense, resource_count, task_count = take(data, 0, PLAN_RECORD, name)
    place = PLAN_RECORD.size
    resources = []
    for _ in range(resource_count):
        mark, identifier, limit = take(data, place, RESOURCE_RECORD, name)
        resources.append(Resource(identifier, limit, kind_of(mark)))
        place += RESOURCE_RECORD.size
    bands = []
    while data[place : place + 2] in MARKS[BAND_RECORD]:  # no count says how many: they last as long as their marks
        bands.append(Band(*take(data, place, BAND_RECORD, name)[1:]))
        place += BAND_RECORD.size
    tasks = []
    for _ in range(task_count):
        tasks.append(task_from_numbers(take(data, place, TASK_RECORD, name)[1:]))
        place += TASK_RECORD.size
    if place < len(data):
        left = count(len(data) - place, "byte")
        raise PlanError(f"{name}: byte {place}: {left} left over after the last record")
    return Plan(sense, tuple(resources), tuple(bands), tuple(tasks))


def take(data, place, record, name):
    """The mark and the values of the record that is due at this byte."""
    left = len(data) - place
    found = bytes(data[place : place + 2])
    due = " or ".join(mark.decode() for mark in MARKS[record])
    if left >= 2 and found not in MARKS[record]:
        shown = found.decode("ascii") if found.isalnum() else found.hex(" ")
        raise PlanError(f"{name}: byte {place}: the mark {due} is due, found {shown}")
    if left < record.size:
        cut = found.decode() if left >= 2 else due
        raise PlanError(
            f"{name}: byte {place}: cut short, {'an' if cut[0] in 'LR' else 'a'} {cut} record takes "
            f"{record.size} bytes and {left} are left"
        )
    return record.unpack_from(data, place)


def kind_of(mark):
    """The kind of the resources that have this mark."""
    return next(kind for kind, own in KINDS.items() if own == mark)


def task_from_numbers(numbers):
    """A task from its set and the eight ends of its ranges."""
    places, *ends = numbers
    return Task(places, *(Range(*ends[k : k + 2]) for k in range(0, 8, 2)))


# Words


def to_words(plan):
    """The plan in its canonical words."""
    lines = [sense_words(plan.sense)]
    lines += [resource_words(resource) for resource in plan.resources]
    lines += [band_words(band) for band in plan.bands]
    lines += [task_words(task) for task in plan.tasks]
    return "".join(line + "\n" for line in lines)


def sense_words(sense):
    """The sense in words; a byte that means nothing keeps its number."""
    return SENSES[sense] if sense < len(SENSES) else f"sense {sense}"


def resource_words(resource):
    """The line of a resource; a plain one is not called so."""
    return f"resource {resource.identifier} {resource.limit}" + (" held" if resource.held() else "")


def band_words(band):
    """The line of a band."""
    return f"band {band.place} from {band.first} limit {band.limit}"


def set_words(places):
    """A set of places in words."""
    return ",".join(str(k) for k in range(SET_BITS) if places >> k & 1) or "none"


def task_words(task):
    """The line of a task."""
    ranges = "".join(f"  {name} {getattr(task, name).words()}" for name in RANGES)
    return f"task on {set_words(task.places)}{ranges}"


def from_words(data, name):
    """The plan that the bytes of a words file say; errors carry the line's number."""
    reader = WordsReader()
    lines = data.split(b"\n")
    for number, raw in enumerate(lines, 1):
        try:
            reader.line(split_line(raw))
        except ValueError as problem:
            raise PlanError(f"{name}:{number}: {problem}") from None
    if reader.sense is None:
        last = len(lines) - 1 if len(lines) > 1 and not lines[-1] else len(lines)
        raise PlanError(f"{name}:{last}: the plan ends without its sense, 'at least' or 'at most'")
    return Plan(reader.sense, tuple(reader.resources), tuple(reader.bands), tuple(reader.tasks))


def split_line(raw):
    """The words of a line, without its comment; commas and dots bind the numbers beside them."""
    try:
        text = raw.decode("utf-8")
    except UnicodeDecodeError:
        raise ValueError("not text in UTF-8") from None
    text = text.lstrip("\ufeff").split("#", 1)[0]
    return BINDING.sub(r"\1", text).split()


class WordsReader:
    """Takes the lines of a plan in words one after another."""

    def __init__(self):
        self.sense = None
        self.resources = []
        self.bands = []
        self.tasks = []
        self.takers = {"resource": self.take_resource, "band": self.take_band, "task": self.take_task}

    def line(self, words):
        """Takes one line; a ValueError says what is wrong with it."""
        if not words:
            return
        if words[0] in ("at", "sense"):
            self.take_sense(words)
        elif words[0] not in self.takers:
            raise ValueError(
                f"'{words[0]}' is not understood; a line begins with "
                "'at least', 'at most', 'resource', 'band' or 'task'"
            )
        elif self.sense is None:
            raise ValueError("the sense comes first: 'at least' or 'at most'")
        else:
            self.takers[words[0]](words)

    def take_sense(self, words):
        """Takes the line of the sense."""
        if self.sense is not None:
            raise ValueError("a second line for the sense")
        self.sense = read_sense(words)

    def take_resource(self, words):
        """Takes a resource's line."""
        if self.tasks:
            raise ValueError("a resource after a task; all resources come first")
        if len(words) not in (3, 4):
            raise ValueError("a resource is written 'resource IDENTIFIER LIMIT', a held one 'resource IDENTIFIER LIMIT held'")
        if len(self.resources) == MOST_RESOURCES:
            raise ValueError(f"resource {MOST_RESOURCES + 1}: the file's count ends at {MOST_RESOURCES}")
        identifier = read_number(words[1], "the identifier")
        limit = read_number(words[2], "the limit")
        self.resources.append(Resource(identifier, limit, *map(read_kind, words[3:])))

    def take_band(self, words):
        """Takes a band's line; it may stand right below its resource, since the file has all bands after all resources anyway."""
        if self.tasks:
            raise ValueError("a band after a task; all bands come before the tasks")
        if len(words) != 6 or words[2::2] != ["from", "limit"]:
            raise ValueError("a band is written 'band PLACE from DAY limit LIMIT'")
        place = read_number(words[1], "the band's place", 0, LAST_PLACE, "2 bytes")
        first = read_number(words[3], "the band's first day")
        self.bands.append(Band(place, first, read_number(words[5], "the band's limit")))

    def take_task(self, words):
        """Takes a task's line."""
        if len(self.tasks) == MOST_TASKS:
            raise ValueError(f"task {MOST_TASKS + 1}: the file's count ends at {MOST_TASKS}")
        self.tasks.append(read_task(words[1:]))


def read_sense(words):
    """The sense byte that a line names."""
    line = " ".join(words)
    if line in SENSES:
        return SENSES.index(line)
    if words[0] == "sense" and len(words) == 2:
        return read_number(words[1], "the sense", 0, 255, "1 byte")
    raise ValueError(f"'{line}' is not understood; the sense is 'at least' or 'at most'")


def read_kind(word):
    """A resource's kind; 'plain' may be said, though it need not be."""
    if word not in KINDS:
        raise ValueError(f"'{word}' is not understood; the kind of a resource is 'plain' or 'held'")
    return word


def read_task(words):
    """A task from the words after 'task': five names, each with its value."""
    given = {}
    for k in range(0, len(words), 2):
        name = words[k]
        if name != "on" and name not in RANGES:
            raise ValueError(f"'{name}' is not understood in a task; it has on, {', '.join(RANGES)}")
        if name in given:
            raise ValueError(f"'{name}' is given twice")
        if k + 1 == len(words):
            raise ValueError(f"'{name}' has no value")
        given[name] = read_set(words[k + 1]) if name == "on" else read_range(words[k + 1], name)
    missing = [name for name in ("on", *RANGES) if name not in given]
    if missing:
        raise ValueError(f"the task lacks {', '.join(missing)}")
    return Task(given["on"], *(given[name] for name in RANGES))


def read_set(text):
    """The set that a list of places says, as a number."""
    if text == "none":
        return 0
    places = 0
    for part in text.split(","):
        place = read_number(part, "a place in the set", 0, SET_BITS - 1, f"a set of {SET_BITS} bits")
        if places >> place & 1:
            raise ValueError(f"place {place} stands twice in the set")
        places |= 1 << place
    return places


def read_range(text, name):
    """A range written LOW..HIGH, or as its single value."""
    parts = text.split("..")
    if len(parts) > 2:
        raise ValueError(f"{name} '{text}' is not understood; write LOW..HIGH or one value")
    ends = [read_number(part, name) for part in parts]
    return Range(ends[0], ends[-1])


def read_number(text, what, low=-(2**31), high=2**31 - 1, room="4 bytes"):
    """A whole number that fits its field."""
    if not INTEGER.fullmatch(text):
        raise ValueError(f"{what}: '{text}' is not a whole number")
    digits = text.lstrip("+-").lstrip("0") or "0"
    number = int(digits[:20]) * (-1 if text[0] == "-" else 1)
    if not low <= number <= high:
        shown = text if len(text) <= 24 else text[:20] + "..."
        raise ValueError(f"{what}: {shown} does not fit {room} ({low}..{high})")
    return number


def count(number, noun):
    """A number with its noun, as '1 task' or '2 tasks'."""
    if number == 1:
        return f"1 {noun}"
    return f"{number} {noun}es" if noun.endswith("s") else f"{number} {noun}s"
