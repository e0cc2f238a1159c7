"""Reads the measurements of bench/run and writes bench/results.txt and bench/ratios.svg.

usage: report.py FOLDER ARCHIVE SEED
"""

import hashlib
import math
import os
import platform
import subprocess
import sys

SIZES = (10, 50, 100, 256)
AIM = 0.15
BANDS_AIM = 2  # times the time without bands
HERE = os.path.dirname(os.path.abspath(__file__))


class Plan:
    """One line of the measurements."""

    def __init__(self, names, words):
        for name, word in zip(names, words):
            setattr(self, name, word if name in ("kind", "sense") else float(word))

    def settled(self):
        return self.refusal == 0

    def both_settled(self):
        return self.settled() and self.gecode_no_plan == 0


def read_plans(path):
    with open(path) as lines:
        names = next(lines).split()
        return [Plan(names, line.split()) for line in lines]


def part(values, share):
    """The value below which that share of all values lies."""
    values = sorted(values)
    return values[min(len(values) - 1, int(share * len(values)))]


def spread(values):
    return part(values, 0.5), part(values, 0.9), max(values)


def ratios(plans, against, side="ours"):
    return [getattr(plan, side) / getattr(plan, against) for plan in plans]


# ---- the text


def heading(text):
    return f"\n{text}\n{'-' * len(text)}\n"


def said_by(command):
    try:
        return subprocess.run(command, capture_output=True, text=True).stdout.splitlines()[0].strip()
    except (OSError, IndexError):
        return "unknown"


def processor():
    try:
        with open("/proc/cpuinfo") as lines:
            for line in lines:
                if line.startswith("model name"):
                    return line.split(":", 1)[1].strip()
    except OSError:
        pass
    for line in subprocess.run(["lscpu"], capture_output=True, text=True).stdout.splitlines():
        if line.startswith("Model name"):
            return line.split(":", 1)[1].strip()
    return "unknown processor"


PLAIN_KINDS = {
    ("table", "most"): "Table 2, at most",
    ("table", "least"): "Table 2, at least",
    ("crews", "most"): "crews, at most",
    ("feeders", "least"): "feeders, at least",
}
STEPPED_KINDS = {("stepped", "most"): "64 bands, crews", ("stepped", "least"): "64 bands, feeders"}
BANDED_KINDS = {("season", "least"): "crane season, feeders", **STEPPED_KINDS}


def of_kind(plans, size, kind):
    return [plan for plan in plans if (plan.size, (plan.kind, plan.sense)) == (size, kind)]


def head(archive, seed, peers, plans):
    with open(archive, "rb") as data:
        digest = hashlib.sha256(data.read()).hexdigest()[:16]
    shown = os.path.relpath(archive, os.path.dirname(HERE))
    shown = archive if shown.startswith("..") else shown
    text = "Settling: the engine's static library" + (" and Gecode 6.2's cumulatives\n" if peers else ", alone (Gecode is not here)\n")
    text += f"machine   {platform.machine()}, {processor()}\n"
    text += f"archive   {shown} (sha256 {digest})\n"
    text += f"compiler  {said_by(['g++', '--version'])}\n"
    plain = [plan for plan in plans if not plan.bands]
    more = (len(plans) - len(plain)) // len(SIZES)
    text += f"plans     seed {seed}, {len(plain) // len(SIZES)} of each size: Table 2's 576 patterns and 300 service plans"
    text += f"; {more} with bands apart\n" if more else "\n"
    text += f"turns     {min(plan.turns for plan in plans):.0f} to {max(plan.turns for plan in plans):.0f} a plan, each side's best is taken\n"
    text += """
Ours is one call of gristwaltz_settle: the plan file in memory is read and checked, settled, and the settled plan's file written.
"""
    if peers:
        text += """Gecode's whole job goes from the plan in memory (no file) to the narrowed tasks in memory: variables and posting (one cumulatives,
and origin + duration = end for each task), status() to the fixpoint, reading the ends back, releasing the space. Where all
machines, durations or heights of a plan are single values, Gecode is given numbers for them, which is its faster form. Its time
without the reading back and the release, and its propagation alone, stand beside it. Both sides take turns on each plan, and each
timing follows a run of the same side that is not timed.
"""
    return text


def row(words, widths):
    return "".join(f"{word:>{width}}" for word, width in zip(words, widths)) + "\n"


def ratio_table(plans, against):
    widths = (8, 8, 10, 10, 10)
    text = row(("tasks", "plans", "median", "90 %", "worst"), widths)
    for size in SIZES:
        group = [plan for plan in plans if plan.size == size]
        cells = [f"{value:.3f}" for value in spread(ratios(group, against))]
        text += row((size, len(group), *cells), widths)
    return text


def kind_table(plans, names):
    widths = (8, 22, 8, 10, 10, 10, 12, 12)
    text = row(("tasks", "plans", "", "median", "90 %", "worst", "ours us", "Gecode us"), widths)
    for size in SIZES:
        for kind, name in names.items():
            group = of_kind(plans, size, kind)
            cells = [f"{value:.3f}" for value in spread(ratios(group, "gecode"))]
            medians = [f"{part([getattr(plan, side) for plan in group], 0.5) / 1000:.2f}" for side in ("ours", "gecode")]
            text += row((size, name, len(group), *cells, *medians), widths)
    return text


def cost_table(plans):
    """Ours beside ours on the same plan without its bands: with bands that change nothing, and with the plan's own."""
    widths = (8, 23, 6, 10, 11, 10, 10, 8, 8, 10, 8, 8, 9, 8)
    text = row(("tasks", "plans", "", "us none", "unchanged", "changed", "unchanged", "/ none", "", "changed", "/ none", "", "passes", ""), widths)
    text += row(("", "", "", "median", "median", "median", "median", "90 %", "worst", "median", "90 %", "worst", "none", "changed"), widths)
    for size in SIZES:
        for kind, name in BANDED_KINDS.items():
            group = of_kind(plans, size, kind)
            times = [f"{part([getattr(plan, side) for plan in group], 0.5) / 1000:.2f}" for side in ("bare", "level", "ours")]
            cells = [f"{value:.2f}" for side in ("level", "ours") for value in spread(ratios(group, "bare", side))]
            settled = [plan for plan in group if plan.settled() and plan.bare_refusal == 0]
            passes = [f"{sum(getattr(plan, side) for plan in settled) / max(1, len(settled)):.2f}" for side in ("bare_passes", "passes")]
            text += row((size, name, len(group), *times, *cells, *passes), widths)
    return text


def cost_text(plans):
    compared = sum(plan.compared == 1 for plan in plans)
    return f"""None: the same tasks and limits without the bands. Unchanged: as many bands on the same days, each at its resource's own limit, so that
settling leaves the same after the same passes: what reading and sweeping the bands costs. Changed: the plan as it is, whose bands ask for
more, so that settling may take more passes. Passes are the mean of the plans that settle.
Gecode gets fixed tasks that stand in for the changed levels, made before its time begins (bench/stand_ins.cpp says why that is exact).
{compared} of {len(plans)} plans with bands were also settled by ours with these tasks for the bands: the same ranges after the same passes.
"""


# Table 2's characteristics: how many ways each has, in the order in which bench/plans.cpp counts them, and their names.
WAYS = (
    ("tasks", ("nearly fixed", "nearly free")),
    ("machine", ("single", "full set", "subset", "fixed, several")),
    ("consumption", ("fixed", "variable", "positive or negative")),
    ("duration", ("fixed small", "fixed small or large", "variable small", "variable small or large")),
    ("origin", ("full", "random earliest start", "fixed")),
)


def ways_of(plan):
    """Which way of each characteristic a plan of Table 2 has."""
    number, ways = int(plan.number) // 2, {}
    for name, kinds in WAYS:
        number, ways[name] = divmod(number, len(kinds))
    return ways


def pattern_table(plans):
    widths = (14, 28, 10, 10, 10, 10)
    text = row(("", "tasks:", *SIZES), widths)
    table = [(plan, ways_of(plan)) for plan in plans if plan.kind == "table"]
    for name, kinds in WAYS:
        for way, kind in enumerate(kinds):
            groups = [[plan for plan, ways in table if plan.size == size and ways[name] == way] for size in SIZES]
            text += row((name, kind, *(f"{part(ratios(group, 'gecode'), 0.5):.3f}" for group in groups)), widths)
    return text


def time_table(plans, sides):
    widths = (8, 34, 12, 12, 12)
    text = row(("tasks", "microseconds", "median", "90 %", "worst"), widths)
    for size in SIZES:
        group = [plan for plan in plans if plan.size == size]
        for side, name in sides:
            cells = [f"{value / 1000:.2f}" for value in spread([getattr(plan, side) for plan in group])]
            text += row((size, name, *cells), widths)
    return text


def growth(plans, sides):
    text = ""
    for side, name in sides:
        medians = [part([getattr(plan, side) for plan in plans if plan.size == size], 0.5) for size in SIZES]
        text += f"{name:>34}:"
        for (small, large), (before, after) in zip(zip(SIZES, SIZES[1:]), zip(medians, medians[1:])):
            text += f"  {small} to {large}: n^{math.log(after / before) / math.log(large / small):.2f}"
        text += "\n"
    return text


def removed_table(plans):
    widths = (8, 14, 12, 14, 14, 14, 12, 12)
    text = row(("tasks", "both settled", "narrowed by", "", "values removed", "", "more by", ""), widths)
    text += row(("", "", "ours", "Gecode", "ours", "Gecode", "ours", "Gecode"), widths)
    for size in SIZES:
        group = [plan for plan in plans if plan.size == size and plan.both_settled()]
        ours, theirs = [plan.ours_removed for plan in group], [plan.gecode_removed for plan in group]
        cells = (
            sum(value > 0 for value in ours),
            sum(value > 0 for value in theirs),
            f"{sum(ours):.0f}",
            f"{sum(theirs):.0f}",
            sum(mine > other for mine, other in zip(ours, theirs)),
            sum(mine < other for mine, other in zip(ours, theirs)),
        )
        text += row((size, len(group), *cells), widths)
    holes = sum(plan.holes for plan in plans if plan.both_settled())
    values = sum(plan.values for plan in plans if plan.both_settled())
    text += f"of {values:.0f} values. Gecode also took {holes:.0f} values out of the middle of ranges, which our ranges cannot say.\n"
    return text


def no_plan_table(plans):
    widths = (8, 10, 14, 16)
    text = row(("tasks", "by both", "by ours alone", "by Gecode alone"), widths)
    for size in SIZES:
        group = [plan for plan in plans if plan.size == size]
        both = sum(plan.refusal == 7 and plan.gecode_no_plan == 1 for plan in group)
        ours = sum(plan.refusal == 7 for plan in group) - both
        theirs = sum(plan.gecode_no_plan == 1 for plan in group) - both
        text += row((size, both, ours, theirs), widths)
    return text


def instruction_table(path, plans):
    with open(path) as lines:
        rows = [line.split() for line in lines if len(line.split()) >= 3]
    if not rows:
        return "not counted: valgrind is not here\n"
    kinds = {plan.number: {**PLAIN_KINDS, **BANDED_KINDS}[plan.kind, plan.sense] for plan in plans}
    widths = (8, 10, 12, 12, 10, 24)
    text = row(("tasks", "plan", "ours", "Gecode", "ratio", ""), widths)
    for words in rows:
        size, number, ours = words[:3]
        theirs = words[3] if len(words) > 3 else "-"
        ratio = f"{int(ours) / int(theirs):.3f}" if theirs != "-" else "-"
        text += row((size, number, ours, theirs, ratio, kinds[float(number)]), widths)
    return text


def verdict(plans, which=""):
    medians = {size: part(ratios([plan for plan in plans if plan.size == size], "gecode"), 0.5) for size in SIZES}
    missed = [str(size) for size in SIZES if medians[size] > AIM]
    slower = [plan for plan in plans if plan.ours > plan.gecode]
    text = f"{which}median at most {AIM} of Gecode's time at every size: " + ("reached\n" if not missed else f"NOT reached with {', '.join(missed)} tasks\n")
    text += f"{which}no plan slower than Gecode: " + ("reached\n" if not slower else f"NOT reached, {len(slower)} of {len(plans)} are slower\n")
    for plan in slower[:10]:
        text += f"  {plan.size:.0f} tasks, plan {plan.number:.0f} ({plan.kind}, at {plan.sense}): {plan.ours / plan.gecode:.2f}\n"
    return text


def bands_verdict(plans):
    text = ""
    for side, name in (("level", "unchanged levels"), ("ours", "changed levels")):
        medians = [part(ratios(of_kind(plans, size, kind), "bare", side), 0.5) for size in SIZES for kind in STEPPED_KINDS]
        text += f"with 64 bands, {name}: median at most {BANDS_AIM} times the time of none at every size, crews and feeders: "
        text += ("reached" if max(medians) <= BANDS_AIM else "NOT reached") + f", {min(medians):.2f} to {max(medians):.2f}\n"
    return text


def bands_results(plans, peers):
    text = heading("With bands: ours beside the same plans without") + cost_table(plans) + cost_text(plans)
    if peers:
        text += heading("With bands: ours / Gecode's whole job") + kind_table(plans, BANDED_KINDS)
        text += heading("With bands: narrowing, by ends of ranges and sets") + removed_table(plans)
        text += heading("With bands: no plan found") + no_plan_table(plans)
    return text


def results(all_plans, instructions, archive, seed):
    plans, banded = [plan for plan in all_plans if not plan.bands], [plan for plan in all_plans if plan.bands]
    peers = plans[0].gecode >= 0
    sides = [("ours", "ours")]
    if peers:
        sides += [("gecode", "Gecode, whole job"), ("posted", "Gecode, setup and propagation"), ("propagation", "Gecode, propagation alone")]
    text = head(archive, seed, peers, all_plans) + heading("To reach")
    text += (verdict(plans) if peers else "") + (verdict(banded, "with bands, ") if peers and banded else "")
    text += bands_verdict(banded) if banded else "with bands: not measured, the archive refuses them\n"
    if peers:
        text += heading("Ratio: ours / Gecode's whole job") + ratio_table(plans, "gecode")
        text += heading("Ratio: ours / Gecode's setup and propagation") + ratio_table(plans, "posted")
        text += heading("Ratio: ours, file read and written / Gecode's propagation alone") + ratio_table(plans, "propagation")
    text += heading("Times") + time_table(plans, sides)
    if peers:
        text += heading("By kind of plan (whole job)") + kind_table(plans, PLAIN_KINDS)
        text += heading("By the ways of Table 2 (whole job, median)") + pattern_table(plans)
    text += heading("Growth of the median with the tasks") + growth(plans, sides)
    text += heading("Instructions (callgrind), whole job, second call") + instruction_table(instructions, all_plans)
    if peers:
        text += heading("Narrowing, by ends of ranges and sets") + removed_table(plans)
        text += heading("No plan found") + no_plan_table(plans)
    return text + (bands_results(banded, peers) if banded else "")


# ---- the picture

OURS, GECODE, GREY, INK = "#1b6ca8", "#c2571a", "#c8ccd0", "#22282e"


class Picture:
    def __init__(self, width, height):
        self.parts = [
            f'<svg xmlns="http://www.w3.org/2000/svg" viewBox="0 0 {width} {height}" width="{width}" height="{height}" font-family="Helvetica, Arial, sans-serif" font-size="13">',
            f'<rect width="{width}" height="{height}" fill="white"/>',
        ]

    def text(self, x, y, words, anchor="start", size=13, colour=INK, weight="normal"):
        self.parts.append(f'<text x="{x:.1f}" y="{y:.1f}" text-anchor="{anchor}" font-size="{size}" fill="{colour}" font-weight="{weight}">{words}</text>')

    def line(self, x, y, to_x, to_y, colour=GREY, width=1.0, dash=""):
        dashed = f' stroke-dasharray="{dash}"' if dash else ""
        self.parts.append(f'<line x1="{x:.1f}" y1="{y:.1f}" x2="{to_x:.1f}" y2="{to_y:.1f}" stroke="{colour}" stroke-width="{width}"{dashed}/>')

    def path(self, points, fill="none", stroke="none", width=2.0, opacity=1.0, dash="", closed=False):
        words = "M" + " L".join(f"{x:.1f},{y:.1f}" for x, y in points) + (" Z" if closed else "")
        dashed = f' stroke-dasharray="{dash}"' if dash else ""
        self.parts.append(f'<path d="{words}" fill="{fill}" stroke="{stroke}" stroke-width="{width}" opacity="{opacity}" stroke-linejoin="round"{dashed}/>')

    def dot(self, x, y, radius, colour):
        self.parts.append(f'<circle cx="{x:.1f}" cy="{y:.1f}" r="{radius}" fill="{colour}"/>')

    def write(self, path):
        with open(path, "w") as out:
            out.write("\n".join(self.parts + ["</svg>", ""]))


def log_scale(low, high, start, end):
    return lambda value: start + (math.log(value) - math.log(low)) / (math.log(high) - math.log(low)) * (end - start)


def hill(picture, across, sides, base, pitch, values):
    """The hill of one size, with its median, nine tenths and worst."""
    left, right = sides
    bins = 46
    counts = [0] * bins
    for value in values:
        counts[min(bins - 1, int((across(value) - left) / (right - left) * bins))] += 1
    tall = (pitch - 26) / max(counts)
    points = [(left + (k + 0.5) * (right - left) / bins, base - tall * count) for k, count in enumerate(counts)]
    picture.path([(left, base), *points, (right, base)], fill=OURS, opacity=0.28, closed=True)
    picture.line(left, base, right, base, GREY)
    median, ninety, worst = spread(values)
    picture.line(across(median), base - pitch + 24, across(median), base, OURS, 2)
    picture.text(across(median) - 5, base - pitch + 34, f"{median:.2f}", "end", 12, OURS, "bold")
    picture.line(across(ninety), base - 16, across(ninety), base, OURS, 1.5)
    picture.dot(across(worst), base, 3.5, OURS)


def hills(picture, plans):
    """One hill a size: how many plans have which ratio."""
    left, right, top, bottom = 90, 560, 96, 420
    low, high = 0.02, 2.0
    across = log_scale(low, high, left, right)
    picture.text(left, 40, "Time of settling: ours / Gecode's whole job", size=16, weight="bold")
    picture.text(left, 60, "how many plans have which ratio; to the left is faster", colour="#5a646e")
    for tick in (0.02, 0.05, 0.1, 0.2, 0.5, 1, 2):
        picture.line(across(tick), top, across(tick), bottom, "#e8eaec")
        picture.text(across(tick), bottom + 20, f"{tick:g}", "middle")
    picture.line(across(1), top - 8, across(1), bottom, INK, 1.2)
    picture.text(across(1), top - 13, "Gecode's time", "middle", 12)
    picture.line(across(AIM), top - 8, across(AIM), bottom, OURS, 1.2, "4 3")
    picture.text(across(AIM), top - 13, f"aim for the median, {AIM:g}", "middle", 12, OURS)
    pitch = (bottom - top) / len(SIZES)
    for place, size in enumerate(SIZES):
        base = top + pitch * (place + 1) - 8
        values = [min(max(value, low), high) for value in ratios([plan for plan in plans if plan.size == size], "gecode")]
        hill(picture, across, (left, right), base, pitch, values)
        picture.text(left - 12, base - 4, f"{size}", "end", 15, weight="bold")
    picture.text(left - 12, top - 6, "tasks", "end", 12, "#5a646e")
    picture.text(left, bottom + 44, "long line: median; short line: nine in ten lie left of it; dot: worst plan", size=12, colour="#5a646e")


def lines(picture, plans):
    """How the times grow with the tasks."""
    left, right, top, bottom = 660, 960, 96, 420
    sides = [("ours", "ours", OURS, ""), ("gecode", "Gecode", GECODE, ""), ("propagation", "its propagation", GECODE, "5 4")]
    shown = [side for side in sides if plans[0].gecode >= 0 or side[0] == "ours"]
    times = [getattr(plan, side) / 1000 for plan in plans for side, _, _, _ in shown]
    low, high = 10 ** math.floor(math.log10(part(times, 0.02))), 10 ** math.ceil(math.log10(part(times, 0.98)))
    across, up = log_scale(SIZES[0], SIZES[-1], left, right), log_scale(low, high, bottom, top)
    picture.text(left, 40, "Microseconds a plan", size=16, weight="bold")
    picture.text(left, 60, "median, and four plans in five in the shade", colour="#5a646e")
    tick = low
    while tick <= high * 1.001:
        picture.line(left, up(tick), right, up(tick), "#e8eaec")
        picture.text(left - 8, up(tick) + 4, f"{tick:g}", "end")
        tick *= 10
    for size in SIZES:
        picture.line(across(size), bottom, across(size), bottom + 5, INK)
        picture.text(across(size), bottom + 20, str(size), "middle")
    picture.text((left + right) / 2, bottom + 44, "tasks", "middle", 12, "#5a646e")
    for side, name, colour, dash in shown:
        groups = [[getattr(plan, side) / 1000 for plan in plans if plan.size == size] for size in SIZES]
        if not dash:
            band = [(across(size), up(part(group, 0.9))) for size, group in zip(SIZES, groups)]
            band += [(across(size), up(part(group, 0.1))) for size, group in reversed(list(zip(SIZES, groups)))]
            picture.path(band, fill=colour, opacity=0.13, closed=True)
        points = [(across(size), up(part(group, 0.5))) for size, group in zip(SIZES, groups)]
        picture.path(points, stroke=colour, width=1.5 if dash else 2.5, dash=dash)
        if not dash:
            for x, y in points:
                picture.dot(x, y, 3.5, colour)
        picture.text(points[-1][0] + 10, points[-1][1] + 4, name, "start", 13, colour, "normal" if dash else "bold")


def draw(plans, path):
    picture = Picture(1090, 490)
    if plans[0].gecode >= 0:
        hills(picture, plans)
    lines(picture, plans)
    picture.write(path)


def main():
    folder, archive, seed = sys.argv[1:4]
    plans = read_plans(os.path.join(folder, "times.txt"))
    text = results(plans, os.path.join(folder, "instructions.txt"), archive, seed)
    with open(os.path.join(HERE, "results.txt"), "w") as out:
        out.write(text)
    draw([plan for plan in plans if not plan.bands], os.path.join(HERE, "ratios.svg"))


if __name__ == "__main__":
    main()
