# Calling the planner, reading its answer, and the tables that show a plan and what was narrowed.

import re
import subprocess
from dataclasses import dataclass

from planwords import RANGES, PlanError, band_words, count, resource_words, sense_words, set_words, task_from_numbers, task_words

REFUSALS = {
    1: ("", "more than 256 tasks"),
    2: ("", "no resource, or more than 16"),
    3: ("resource", "an identifier repeats an earlier one"),
    4: ("resource", "a limit outside its ends"),
    5: ("task", "a task's range is outside its ends, or low above high"),
    6: ("task", "a task's set is empty or names a place beyond the resource list"),
    7: ("", "a step finds no plan"),
    8: ("byte", "in a file, not the mark that is due, or a sense byte above 1"),
    9: ("byte", "in a file, cut short, or bytes left over"),
    10: ("", "output buffer shorter than the file"),
    11: ("", "a list lent to the reader is shorter than the file's count, or has no room for a band"),
    12: ("", "a resource step names a place not in the list"),
    13: ("band", "a band out of order, beyond its ends, naming no resource, or a 65th"),
}

# What a band may be: one of so many, a day and a limit between minus this and this
MOST_BANDS, MOST_DAY, MOST_POWER = 64, 100_000, 1_000_000


@dataclass(frozen=True)
class Answer:
    """The planner's answer: passes and tasks if settled, else the refusal's number and place."""

    passes: int = 0
    tasks: tuple = ()
    refusal: int = 0
    place: int = 0


# The planner


def call_planner(path, data):
    """The planner's output for the bytes of a plan file."""
    try:
        done = subprocess.run([path], input=data, capture_output=True, check=False)
    except OSError as problem:
        raise PlanError(f"{path}: the planner can't be started: {problem.strerror}") from None
    if not done.stdout:
        said = done.stderr.decode("utf-8", "replace").strip()
        raise PlanError(f"{path}: no output, exit status {done.returncode}" + (f": {said}" if said else ""))
    return done.stdout.decode("utf-8", "replace")


def read_answer(text, name):
    """The answer that the planner's output says."""
    if not text.endswith("\n"):
        raise PlanError(f"{name}: the output does not end with a line feed")
    lines = text.split("\n")[:-1]
    if lines[0].startswith("refused "):
        return read_refusal(lines, name)
    passes = numbers_of(lines[0].removeprefix("settled "), 1)
    if not lines[0].startswith("settled ") or passes is None:
        raise PlanError(f"{name}:1: '{lines[0]}' is neither 'settled PASSES' nor 'refused NUMBER PLACE'")
    return Answer(passes=passes[0], tasks=tuple(read_tasks(lines[1:], name)))


def read_refusal(lines, name):
    """The refusal in the planner's only line."""
    numbers = numbers_of(lines[0].removeprefix("refused "), 2)
    if numbers is None or numbers[0] not in REFUSALS or len(lines) != 1:
        raise PlanError(f"{name}:1: '{lines[0]}' is not one line 'refused NUMBER PLACE'")
    return Answer(refusal=numbers[0], place=numbers[1])


def read_tasks(lines, name):
    """The tasks in the planner's task lines."""
    for place, line in enumerate(lines):
        numbers = numbers_of(line, 10)
        if numbers is None or numbers[0] != place:
            raise PlanError(f"{name}:{place + 2}: '{line}' is not the line of task {place}")
        yield task_from_numbers(numbers[1:])


def numbers_of(text, wanted):
    """The numbers in a line with single spaces, or None if there are not as many as wanted."""
    words = text.split(" ")
    if len(words) != wanted or not all(re.fullmatch(r"-?[0-9]{1,12}", word) for word in words):
        return None
    return [int(word) for word in words]


def check_fits(plan, answer, name):
    """An error if the answer has not one line for each of the plan's tasks."""
    if not answer.refusal and len(answer.tasks) != len(plan.tasks):
        has, wants = count(len(answer.tasks), "task"), len(plan.tasks)
        raise PlanError(f"{name}: the answer has {has} and the plan {wants}")


def narrowed(old, new):
    """The names of the values that differ between a task and its settled form."""
    names = ["set"] if old.places != new.places else []
    return names + [name for name in RANGES if getattr(old, name) != getattr(new, name)]


def refusal_words(answer):
    """A refusal with its meaning in words."""
    kind, meaning = REFUSALS[answer.refusal]
    where = f" at {kind} {answer.place}" if kind else ""
    return f"Refused with number {answer.refusal}{where}: {meaning}."


# Tables


def table(heads, rows, right):
    """Lines of a table with its columns aligned; those named in right end together."""
    widths = [max(len(row[k]) for row in [heads, *rows]) for k in range(len(heads))]
    rule = ["-" * width for width in widths]
    return [table_line(row, widths, right) for row in [heads, rule, *rows]]


def table_line(row, widths, right):
    """One line of a table."""
    cells = [c.rjust(w) if k in right else c.ljust(w) for k, (c, w) in enumerate(zip(row, widths))]
    return "  ".join(cells).rstrip()


def headline(plan):
    """The plan's sense and counts in a few words."""
    counts = [resource_count(plan), count(len(plan.tasks), "task")]
    if plan.bands:
        counts.insert(1, count(len(plan.bands), "band"))
    return ", ".join([sense_words(plan.sense), *counts])


def resource_count(plan):
    """How many resources there are, and how many of them are held if any is."""
    held = f" ({len(plan.held())} held)" if plan.held() else ""
    return count(len(plan.resources), "resource") + held


def resource_table(plan):
    """The resources, each with its kind and its limit and, below it, the limits that its bands set."""
    heads = ["place", "resource", "kind", f"limit ({sense_words(plan.sense)})", "from day", "band"]
    rows = []
    for place, resource in enumerate(plan.resources):
        rows.append([str(place), str(resource.identifier), resource.kind, str(resource.limit), "", ""])
        rows += [["", "", "", *band_cells(*found)] for found in plan.bands_of(place)]
    lost = [(k, band) for k, band in enumerate(plan.bands) if band.place >= len(plan.resources)]
    rows += [[str(band.place), "none", "", *band_cells(k, band)] for k, band in lost]
    shown = columns_needed(plan)
    heads, *rows = [[row[k] for k in shown] for row in [heads, *rows]]
    return table(heads, rows, set(range(len(shown))))


def columns_needed(plan):
    """The columns that a plan's resources need: kinds if one is held, first days and places of bands if there are any."""
    return [0, 1, *([2] if plan.held() else []), 3, *([4, 5] if plan.bands else [])]


def band_cells(place, band):
    """A band's limit, its first day, and its place in the list, by which a refusal names it."""
    return [str(band.limit), str(band.first), str(place)]


def task_table(cells):
    """The tasks, from each one's cells for set and ranges."""
    rows = [[str(k), *row] for k, row in enumerate(cells)]
    return table(["task", "on places", *RANGES], rows, {0})


def cells_of(task):
    """A task's set and ranges as words."""
    return [set_words(task.places)] + [getattr(task, name).words() for name in RANGES]


def cells_beside(old, new):
    """A task's cells with what was narrowed marked and the new beside the old."""
    pairs = zip(cells_of(old), cells_of(new))
    return [before if before == after else f"{before} -> {after} *" for before, after in pairs]


def show_text(plan, name):
    """A plan as tables for people."""
    lines = [f"{name}: {headline(plan)}", "", *resource_table(plan), ""]
    lines += task_table([cells_of(task) for task in plan.tasks]) if plan.tasks else ["no tasks"]
    return "".join(line + "\n" for line in lines)


def settled_text(plan, answer, name):
    """The settled plan beside the old one."""
    lines = [f"{name}: {headline(plan)}", f"Settled after {count(answer.passes, 'pass')}."]
    lines += ["", *resource_table(plan), ""]
    pairs = list(zip(plan.tasks, answer.tasks))
    lines += task_table([cells_beside(*pair) for pair in pairs]) if pairs else ["no tasks"]
    lines += ["", narrowed_line([narrowed(*pair) for pair in pairs])]
    return "".join(line + "\n" for line in lines)


def narrowed_line(names):
    """How much was narrowed, in a sentence."""
    values, tasks = sum(map(len, names)), sum(map(bool, names))
    if not values:
        return "Nothing was narrowed."
    were = "was" if values == 1 else "were"
    return f"{count(values, 'value')} in {count(tasks, 'task')} {were} narrowed (marked *, old -> new)."


def refused_text(plan, answer, name):
    """The refusal in words, with the lines it is about if the plan is known."""
    lines = [f"{name}: {headline(plan)}"] if plan else [f"{name}:"]
    lines.append(refusal_words(answer))
    lines += [f"  {words}" for words in (lines_meant(plan, answer) if plan else ())]
    return "".join(line + "\n" for line in lines)


def band_fault(plan, place):
    """What is wrong with a band, in a line: one too many, a place, a day, a limit, or the one that it has to follow."""
    band = plan.bands[place]
    if place >= MOST_BANDS:
        return [f"there are {len(plan.bands)} bands, at most {MOST_BANDS} are allowed"]
    if band.place >= len(plan.resources):
        return [f"no resource has place {band.place}: there {'is' if len(plan.resources) == 1 else 'are'} {len(plan.resources)}"]
    for what, value, most in (("day", band.first, MOST_DAY), ("limit", band.limit, MOST_POWER)):
        if abs(value) > most:
            return [f"{what} {value} is outside -{most}..{most}"]
    return [f"not after the band before it: {band_words(plan.bands[place - 1])}"] if place else []


def lines_meant(plan, answer):
    """The lines of a plan in words that a refusal is about: a resource comes with its bands, a band with what is wrong with it."""
    kind, place = REFUSALS[answer.refusal][0], answer.place
    if kind == "resource" and place < len(plan.resources):
        return [resource_words(plan.resources[place]), *(band_words(band) for _, band in plan.bands_of(place))]
    if kind == "band" and place < len(plan.bands):
        return [band_words(plan.bands[place]), *band_fault(plan, place)]
    if kind == "task" and place < len(plan.tasks):
        return [task_words(plan.tasks[place])]
    return []
