#!/usr/bin/env python3
# Tests of the command plan; run with: python3 tools/test_plan.py

import itertools
import os
import random
import stat
import subprocess
import sys
import tempfile
import unittest
import xml.etree.ElementTree as ElementTree
from pathlib import Path

sys.dont_write_bytecode = True
TOOLS = Path(__file__).resolve().parent
EXAMPLES = TOOLS.parent / "examples"
sys.path.insert(0, str(TOOLS))

import plandraw
import plansettle
import planwords
from planwords import Band, Plan, PlanError, Range, Resource, Task

CASE9_WORDS = """\
at least
resource 7 4
resource 9 3
task on 0  origin 1..2  duration 2  end 3..4  height 0..1
task on 0,1  origin 0..6  duration 2  end 2..8  height 0..4
"""

CASE9_BYTES = bytes.fromhex(
    "504c 01 02 0200"
    "5253 07000000 04000000"
    "5253 09000000 03000000"
    "544b 0100 01000000 02000000 02000000 02000000 03000000 04000000 00000000 01000000"
    "544b 0300 00000000 06000000 02000000 02000000 02000000 08000000 00000000 04000000"
)

# Case 9 with bands at the ends of what their fields hold
BANDS_WORDS = """\
at least
resource 7 4
resource 9 3
band 0 from -100000 limit -1000000
band 0 from 3 limit 5
band 65535 from 2147483647 limit -2147483648
task on 0  origin 1..2  duration 2  end 3..4  height 0..1
task on 0,1  origin 0..6  duration 2  end 2..8  height 0..4
"""

BANDS_BYTES = CASE9_BYTES[:26] + bytes.fromhex(
    "4c42 0000 6079feff c0bdf0ff"
    "4c42 0000 03000000 05000000"
    "4c42 ffff ffffff7f 00000080"
) + CASE9_BYTES[26:]

# The level is 2, from day 4 it is 5, from day 7 it is 1; another resource between them has none
SEASON_WORDS = """\
at least
resource 7 2
resource 8 0
resource 9 3
band 0 from 4 limit 5
band 0 from 7 limit 1
band 2 from -2 limit 6
task on 0  origin 0  duration 9  end 9  height 3..4
"""

# Case 9 with its second resource held
HELD_WORDS = CASE9_WORDS.replace("resource 9 3", "resource 9 3 held")
HELD_BYTES = CASE9_BYTES[:16] + b"RH" + CASE9_BYTES[18:]

# Case 6, its days 3 and 4 bare, on a held resource; a plain one beside it
BETWEEN_WORDS = """\
at least
resource 7 2 held
resource 8 2
task on 0  origin 1  duration 2  end 3  height 2
task on 0  origin 5  duration 2  end 7  height 2
task on 1  origin 1  duration 2  end 3  height 2
task on 1  origin 5  duration 2  end 7  height 2
"""

CASE9_ANSWER = "settled 3\n0 1 1 2 2 2 3 4 0 1\n1 1 1 2 2 2 3 4 3 4\n"


BAD_BANDS = [
    *((band, "a band is written 'band PLACE from DAY limit LIMIT'") for band in (
        "band", "band 0", "band 0 from 1", "band 0 from 1 limit", "band 0 limit 2 from 1", "band 0 from 1 limit 2 3",
        "band 0 from 1 to 2", "band 0 at 1 limit 2", "band 0 From 1 limit 2", "band from 1 limit 2", "band 0 from limit 2",
    )),
    ("band x from 1 limit 2", "the band's place: 'x' is not a whole number"),
    ("band -1 from 1 limit 2", "the band's place: -1 does not fit 2 bytes (0..65535)"),
    ("band 65536 from 1 limit 2", "the band's place: 65536 does not fit 2 bytes (0..65535)"),
    ("band 0 from 1.5 limit 2", "the band's first day: '1.5' is not a whole number"),
    ("band 0 from 1..5 limit 2", "the band's first day: '1..5' is not a whole number"),
    ("band 0 from 2147483648 limit 2", "the band's first day: 2147483648 does not fit 4 bytes"),
    ("band 0 from 1 limit two", "the band's limit: 'two' is not a whole number"),
    ("band 0 from 1 limit -2147483649", "the band's limit: -2147483649 does not fit 4 bytes"),
]


RESOURCE_FORM = "a resource is written 'resource IDENTIFIER LIMIT', a held one 'resource IDENTIFIER LIMIT held'"

BAD_KINDS = [
    *((f"resource 1 2 {word}", f"'{word}' is not understood; the kind of a resource is 'plain' or 'held'") for word in (
        "hold", "Held", "HELD", "holds", "held,", "heldheld", "'held'", "Plain", "RS", "RH", "3", "-", "limit",
    )),
    *((line, RESOURCE_FORM) for line in ("resource", "resource 1", "resource held", "resource 1 2 held held", "resource 1 2 held 3")),
    ("resource held 1 2", "the identifier: 'held' is not a whole number"),
    ("resource 1 held", "the limit: 'held' is not a whole number"),
    ("resource 1 held 2", "the limit: 'held' is not a whole number"),
    ("held 1 2", "'held' is not understood; a line begins with 'at least', 'at most', 'resource', 'band' or 'task'"),
    ("band 0 from 1 limit 2 held", "a band is written 'band PLACE from DAY limit LIMIT'"),
]


def words_plan(text):
    """The plan that a text says."""
    return planwords.from_words(text.encode(), "words")


def answer_of(text):
    """The answer that a planner's output says."""
    return plansettle.read_answer(text, "answer")


def run(*arguments, data=b"", **environment):
    """Runs the command and hands back its exit status, output and messages."""
    done = subprocess.run(
        [sys.executable, str(TOOLS / "plan"), *map(str, arguments)],
        input=data, capture_output=True, env={**os.environ, **environment}, check=False,
    )
    return done.returncode, done.stdout, done.stderr.decode()


def random_number(dice):
    """A number of any size that fits 4 bytes, mostly small."""
    return dice.choice([dice.randint(-9, 9), dice.randint(-(2**31), 2**31 - 1), -(2**31), 2**31 - 1])


def random_range(dice):
    """A range that may be a single value or have its low above its high."""
    low = random_number(dice)
    return Range(low, dice.choice([low, random_number(dice)]))


def random_plan(dice):
    """A plan of the format's shape, mostly a bad one."""
    resources = [
        Resource(random_number(dice), random_number(dice), dice.choice(["plain", "held"]))
        for _ in range(dice.choice([0, 1, 2, 5, 255]))
    ]
    bands = [
        Band(dice.choice([0, 1, dice.randrange(65536)]), random_number(dice), random_number(dice))
        for _ in range(dice.choice([0, 1, 3, 64, 65, 300]))
    ]
    tasks = [
        Task(dice.choice([0, 1, 65535, dice.randrange(65536)]), *(random_range(dice) for _ in range(4)))
        for _ in range(dice.choice([0, 1, 3, 300]))
    ]
    return Plan(dice.choice([0, 1, 1, dice.randrange(256)]), tuple(resources), tuple(bands), tuple(tasks))


def good_plan(dice):
    """A small plan without low above high, and a narrower list of its tasks."""
    resources = tuple(Resource(k, dice.randint(-4, 4), dice.choice(["plain", "held"])) for k in range(dice.randint(1, 4)))
    starts = sorted({(dice.randrange(len(resources)), dice.randint(-12, 12)) for _ in range(dice.randint(0, 5))})
    bands = tuple(Band(place, first, dice.randint(-4, 4)) for place, first in starts)
    old, new = [], []
    for _ in range(dice.randint(0, 6)):
        places = dice.randrange(1, 1 << len(resources))
        ranges = [Range(low, low + dice.randint(0, 9)) for low in (dice.randint(-9, 9) for _ in range(4))]
        kept = dice.choice([places, places & -places])
        cuts = [Range(dice.randint(r.low, r.high), r.high) for r in ranges]
        old.append(Task(places, *ranges))
        new.append(Task(kept, *cuts))
    return Plan(dice.randint(0, 1), resources, bands, tuple(old)), tuple(new)


class Words(unittest.TestCase):
    """Packing and unpacking."""

    def test_case_9_bytes(self):
        self.assertEqual(len(CASE9_BYTES), 6 + 2 * 10 + 2 * 36)
        self.assertEqual(planwords.to_bytes(words_plan(CASE9_WORDS)), CASE9_BYTES)
        self.assertEqual(planwords.to_words(planwords.from_bytes(CASE9_BYTES, "file")), CASE9_WORDS)

    def test_bytes_of_bands(self):
        self.assertEqual(len(BANDS_BYTES), len(CASE9_BYTES) + 3 * 12)
        self.assertEqual(planwords.to_bytes(words_plan(BANDS_WORDS)), BANDS_BYTES)
        self.assertEqual(planwords.to_words(planwords.from_bytes(BANDS_BYTES, "file")), BANDS_WORDS)

    def test_bytes_of_kinds(self):
        self.assertEqual(HELD_BYTES[6:26], bytes.fromhex("5253 07000000 04000000 5248 09000000 03000000"))
        self.assertEqual(planwords.to_bytes(words_plan(HELD_WORDS)), HELD_BYTES)
        self.assertEqual(planwords.to_words(planwords.from_bytes(HELD_BYTES, "file")), HELD_WORDS)
        self.assertEqual([resource.kind for resource in words_plan(HELD_WORDS).resources], ["plain", "held"])

    def test_every_mixture_of_kinds(self):
        marks = {"": b"RS", " held": b"RH"}
        for mixture in itertools.product(marks, repeat=4):
            text = "at most\n" + "".join(f"resource {k} 2{word}\n" for k, word in enumerate(mixture)) + "band 3 from 1 limit 4\n"
            data = planwords.to_bytes(words_plan(text))
            self.assertEqual([data[6 + 10 * k : 8 + 10 * k] for k in range(4)], [marks[word] for word in mixture])
            self.assertEqual(planwords.to_words(planwords.from_bytes(data, "file")), text)

    def test_plain_may_be_said(self):
        said = CASE9_WORDS.replace("resource 7 4", "resource 7 4 plain").replace("resource 9 3", "  resource 9 3   plain # so")
        self.assertEqual(planwords.to_bytes(words_plan(said)), CASE9_BYTES)
        self.assertEqual(planwords.to_words(words_plan(said)), CASE9_WORDS)

    def test_bands_of_held_resources(self):
        text = BANDS_WORDS.replace("resource 7 4\n", "resource 7 4 held\n")
        self.assertEqual(planwords.to_bytes(words_plan(text)), BANDS_BYTES[:6] + b"RH" + BANDS_BYTES[8:])
        self.assertEqual(planwords.to_words(words_plan(text)), text)

    def test_kinds_that_are_not_understood(self):
        for line, problem in BAD_KINDS:
            with self.subTest(line=line), self.assertRaises(PlanError) as caught:
                words_plan(f"at least\nresource 7 4\n{line}\n")
            self.assertEqual(str(caught.exception), f"words:3: {problem}")

    def test_longest_file(self):
        task = "task on 0 origin 1 duration 1 end 2 height 0\n"
        bands = "".join(f"band 0 from {k} limit 1\n" for k in range(64))
        text = "at least\n" + "resource 1 1\n" * 16 + bands + task * 256
        self.assertEqual(len(planwords.to_bytes(words_plan(text))), 10150)
        self.assertEqual(len(planwords.to_bytes(words_plan(text.replace("resource 1 1", "resource 1 1 held")))), 10150)

    def test_bands_without_tasks(self):
        plan = words_plan("at most\nresource 1 2\nband 0 from 3 limit 4\n")
        self.assertEqual((plan.bands, plan.tasks), ((Band(0, 3, 4),), ()))
        self.assertEqual(planwords.from_bytes(planwords.to_bytes(plan), "file"), plan)

    def test_bands_that_are_refused_are_written_too(self):
        # out of order by place, by day, a repeat, beyond the ends, naming no resource, and more than 64
        bands = ["band 1 from 2 limit 3", "band 0 from 5 limit 3", "band 0 from 4 limit 3", "band 0 from 4 limit 3"]
        bands += ["band 0 from 100001 limit 1000001", "band 2 from 1 limit 1"] + ["band 9 from 0 limit 0"] * 65
        text = "at least\nresource 1 1\nresource 2 1\n" + "".join(band + "\n" for band in bands)
        data = planwords.to_bytes(words_plan(text))
        self.assertEqual(len(data), 6 + 2 * 10 + 71 * 12)
        self.assertEqual(planwords.to_words(planwords.from_bytes(data, "file")), text)

    def test_signed_and_little_endian(self):
        plan = words_plan("at most\nresource -2 -2147483648\ntask on 15 origin 258 duration 0 end 1 height -1\n")
        data = planwords.to_bytes(plan)
        self.assertEqual(data[:16], bytes.fromhex("504c00010100 5253 feffffff 00000080"))
        self.assertEqual(data[16:24], bytes.fromhex("544b 0080 02010000"))
        self.assertEqual(data[-8:], b"\xff" * 8)

    def test_round_trips_of_random_plans(self):
        dice = random.Random(1)
        for _ in range(150):
            plan = random_plan(dice)
            data, text = planwords.to_bytes(plan), planwords.to_words(plan)
            self.assertEqual(planwords.from_bytes(data, "file"), plan)
            self.assertEqual(words_plan(text), plan)
            self.assertEqual(planwords.to_words(planwords.from_bytes(planwords.to_bytes(words_plan(text)), "")), text)

    def test_every_sense_byte(self):
        for sense in range(256):
            data = bytes([0x50, 0x4C, sense, 0, 0, 0])
            text = planwords.to_words(planwords.from_bytes(data, "file"))
            self.assertEqual(planwords.to_bytes(words_plan(text)), data)

    def test_free_writing(self):
        free = (
            "\ufeff# a remark\r\n\n  at   least # sense\r\n\tresource +7 004\nresource 9 3\n"
            "task height 0 .. 1 on 0 end 3..4 duration 2..2 origin 1..2\n"
            "task on 1 , 0 origin 0..6 duration 2 end 2..8 height -0..4#last"
        )
        self.assertEqual(planwords.to_bytes(words_plan(free)), CASE9_BYTES)
        below = BANDS_WORDS.replace("resource 9 3\n", "").replace("limit 5\n", "limit +05  # season\n\n  resource 9 3\n")
        self.assertEqual(planwords.to_bytes(words_plan(below)), BANDS_BYTES)

    def test_bad_plans_can_be_written(self):
        text = "at least\ntask on none  origin 9..3  duration -1  end 0  height 2147483647\n"
        self.assertEqual(planwords.to_words(words_plan(text)), text)

    def test_errors_carry_the_line(self):
        task = "task on 0 origin 1 duration 1 end 2 height 0"
        for text, line, part in [
            ("", 1, "without its sense"),
            ("# only\n# remarks\n", 2, "without its sense"),
            ("resource 1 2\n", 1, "sense comes first"),
            ("at least\nat most\n", 2, "second line for the sense"),
            ("at noon\n", 1, "'at noon'"),
            ("sense 256\n", 1, "1 byte"),
            ("at least\n\nresources 1 2\n", 3, "'resources' is not understood"),
            ("at least\nresource 1\n", 2, "IDENTIFIER LIMIT"),
            ("at least\nresource 2147483648 1\n", 2, "does not fit 4 bytes"),
            ("at least\nresource 1 -2147483649\n", 2, "does not fit 4 bytes"),
            ("at least\nresource 1 " + "9" * 9000 + "\n", 2, "does not fit 4 bytes"),
            ("at least\nresource 1 1_0\n", 2, "not a whole number"),
            ("at least\nresource 1 \u0663\n", 2, "not a whole number"),
            (f"at least\n{task}\nresource 1 2\n", 3, "after a task"),
            ("band 0 from 1 limit 2\n", 1, "sense comes first"),
            ("at least\nbands 0 from 1 limit 2\n", 2, "'resource', 'band' or 'task'"),
            (f"at least\n{task}\n# so late\nband 0 from 1 limit 2\n", 4, "a band after a task"),
            *((f"at least\nresource 1 2\n{band}\n", 3, part) for band, part in BAD_BANDS),
            (f"at least\n{task} on 1\n", 2, "given twice"),
            (f"at least\n{task} colour 1\n", 2, "'colour'"),
            ("at least\ntask on 0 origin 1\n", 2, "lacks duration, end, height"),
            ("at least\ntask on 0 origin\n", 2, "'origin' has no value"),
            (f"at least\n{task.replace('on 0', 'on 16')}\n", 2, "16 bits"),
            (f"at least\n{task.replace('on 0', 'on 1,1')}\n", 2, "stands twice"),
            (f"at least\n{task.replace('on 0', 'on 0,')}\n", 2, "not"),
            (f"at least\n{task.replace('end 2', 'end 1..2..3')}\n", 2, "LOW..HIGH"),
            (f"at least\n{task.replace('end 2', 'end ..3')}\n", 2, "not a whole number"),
            ("at least\n" + "resource 1 1\n" * 256, 257, "ends at 255"),
            ("at least\n" + f"{task}\n" * 65536, 65537, "ends at 65535"),
        ]:
            with self.subTest(text=text[:60]), self.assertRaises(PlanError) as caught:
                words_plan(text)
            self.assertTrue(str(caught.exception).startswith(f"words:{line}: "), str(caught.exception))
            self.assertIn(part, str(caught.exception))

    def test_text_that_is_not_utf_8(self):
        with self.assertRaisesRegex(PlanError, "words:2: not text"):
            planwords.from_words(b"at least\n\xff\n", "words")

    def test_shape_errors_carry_the_byte(self):
        for data, place in [
            (b"", 0), (b"P", 0), (b"XX", 0), (CASE9_BYTES[:5], 0), (CASE9_BYTES[:7], 6), (CASE9_BYTES[:15], 6),
            (CASE9_BYTES[:-1], 62), (CASE9_BYTES + b"T", 98), (CASE9_BYTES[:26] + b"RS" + CASE9_BYTES[28:], 26),
            # A band cut short; one byte of a mark, which is a task's then; a band before all resources and one after a task.
            (BANDS_BYTES[:28], 26), (BANDS_BYTES[:49], 38), (BANDS_BYTES[:51], 50), (BANDS_BYTES[:63], 62),
            (BANDS_BYTES[:6] + BANDS_BYTES[26:], 6), (CASE9_BYTES[:62] + BANDS_BYTES[26:38] + CASE9_BYTES[62:], 62),
        ]:
            with self.subTest(data=data), self.assertRaisesRegex(PlanError, f"^file: byte {place}: "):
                planwords.from_bytes(data, "file")

    def test_shape_errors_of_resources(self):
        for data, problem in [
            (HELD_BYTES[:6] + b"RT" + HELD_BYTES[8:], "byte 6: the mark RS or RH is due, found RT"),
            (HELD_BYTES[:6] + b"rh" + HELD_BYTES[8:], "byte 6: the mark RS or RH is due, found rh"),
            (HELD_BYTES[:6] + HELD_BYTES[26:], "byte 6: the mark RS or RH is due, found TK"),
            (HELD_BYTES[:26] + HELD_BYTES[16:], "byte 26: the mark TK is due, found RH"),
            (HELD_BYTES[:7], "byte 6: cut short, an RS or RH record takes 10 bytes and 1 are left"),
            (HELD_BYTES[:15], "byte 6: cut short, an RS record takes 10 bytes and 9 are left"),
            (HELD_BYTES[:18], "byte 16: cut short, an RH record takes 10 bytes and 2 are left"),
        ]:
            with self.subTest(problem=problem), self.assertRaises(PlanError) as caught:
                planwords.from_bytes(data, "file")
            self.assertEqual(str(caught.exception), f"file: {problem}")


class Answers(unittest.TestCase):
    """The planner's output and the tables."""

    def test_case_9(self):
        text = plansettle.settled_text(words_plan(CASE9_WORDS), answer_of(CASE9_ANSWER), "case9")
        self.assertIn("Settled after 3 passes.", text)
        for cell in ("0,1 -> 0 *", "0..6 -> 1..2 *", "2..8 -> 3..4 *", "0..4 -> 3..4 *"):
            self.assertIn(cell, text)
        self.assertEqual(text.count("->"), 5)
        self.assertIn("4 values in 1 task were narrowed", text)

    def test_nothing_narrowed(self):
        text = plansettle.settled_text(words_plan("at least\nresource 1 3\n"), answer_of("settled 1\n"), "empty")
        self.assertIn("Settled after 1 pass.", text)
        self.assertIn("Nothing was narrowed.", text)

    def test_every_refusal_has_words(self):
        for number in range(1, 14):
            self.assertIn(f"number {number}", plansettle.refusal_words(answer_of(f"refused {number} 0\n")))

    def test_refusal_shows_its_line(self):
        plan = words_plan(CASE9_WORDS)
        self.assertIn("resource 9 3", plansettle.refused_text(plan, answer_of("refused 3 1\n"), "x"))
        self.assertIn("task on 0,1 ", plansettle.refused_text(plan, answer_of("refused 5 1\n"), "x"))
        text = plansettle.refused_text(words_plan(HELD_WORDS), answer_of("refused 3 1\n"), "x")
        self.assertTrue(text.startswith("x: at least, 2 resources (1 held), 2 tasks\n"), text)
        self.assertTrue(text.endswith("\n  resource 9 3 held\n"), text)

    def test_refusal_13_names_the_band(self):
        plan = words_plan(SEASON_WORDS.replace("from 7", "from 4"))
        text = plansettle.refused_text(plan, answer_of("refused 13 1\n"), "season")
        self.assertEqual(text, (
            "season: at least, 3 resources, 3 bands, 1 task\n"
            "Refused with number 13 at band 1: a band out of order, beyond its ends, naming no resource, or a 65th.\n"
            "  band 0 from 4 limit 1\n"
            "  not after the band before it: band 0 from 4 limit 5\n"
        ))
        text = plansettle.refused_text(plan, answer_of("refused 13 0\n"), "season")
        self.assertTrue(text.endswith("  band 0 from 4 limit 5\n"), text)
        for old, new, place, fault in (
            ("band 0 from 4", "band 7 from 4", 0, "no resource has place 7: there are 3"),
            ("band 0 from 4", "band 0 from -100001", 0, "day -100001 is outside -100000..100000"),
            ("limit 5", "limit 1000001", 0, "limit 1000001 is outside -1000000..1000000"),
        ):
            plan_of = words_plan(SEASON_WORDS.replace(old, new, 1))
            self.assertTrue(plansettle.refused_text(plan_of, answer_of(f"refused 13 {place}\n"), "x").endswith(f"  {fault}\n"), fault)
        many = words_plan("at least\nresource 1 1\n" + "".join(f"band 0 from {k} limit 0\n" for k in range(65)))
        self.assertIn("there are 65 bands, at most 64 are allowed", plansettle.refused_text(many, answer_of("refused 13 64\n"), "x"))
        # A damaged file has no list to look the band up in.
        self.assertIn("at band 64: ", plansettle.refused_text(None, answer_of("refused 13 64\n"), "torn"))
        self.assertEqual(plansettle.refused_text(plan, answer_of("refused 13 3\n"), "x").count("\n"), 2)

    def test_refused_resource_comes_with_its_bands(self):
        text = plansettle.refused_text(words_plan(SEASON_WORDS), answer_of("refused 4 0\n"), "season")
        self.assertTrue(text.endswith("  resource 7 2\n  band 0 from 4 limit 5\n  band 0 from 7 limit 1\n"), text)

    def test_table_of_bands(self):
        plan = words_plan(SEASON_WORDS.replace("band 2", "band 3"))
        self.assertEqual(plansettle.resource_table(plan), [
            "place  resource  limit (at least)  from day  band",
            "-----  --------  ----------------  --------  ----",
            "    0         7                 2",
            "                                5         4     0",
            "                                1         7     1",
            "    1         8                 0",
            "    2         9                 3",
            "    3      none                 6        -2     2",
        ])
        answer = plansettle.Answer(passes=1, tasks=plan.tasks)
        for text in (plansettle.show_text(plan, "season"), plansettle.settled_text(plan, answer, "season")):
            self.assertTrue(text.startswith("season: at least, 3 resources, 3 bands, 1 task\n"), text)
            self.assertIn("".join(line + "\n" for line in plansettle.resource_table(plan)), text)

    def test_table_without_bands(self):
        self.assertEqual(plansettle.resource_table(words_plan(CASE9_WORDS)), [
            "place  resource  limit (at least)",
            "-----  --------  ----------------",
            "    0         7                 4",
            "    1         9                 3",
        ])

    def test_table_of_kinds(self):
        plan = words_plan(HELD_WORDS)
        self.assertEqual(plansettle.resource_table(plan), [
            "place  resource   kind  limit (at least)",
            "-----  --------  -----  ----------------",
            "    0         7  plain                 4",
            "    1         9   held                 3",
        ])
        answer = plansettle.Answer(passes=1, tasks=plan.tasks)
        for text in (plansettle.show_text(plan, "case9"), plansettle.settled_text(plan, answer, "case9")):
            self.assertTrue(text.startswith("case9: at least, 2 resources (1 held), 2 tasks\n"), text)
            self.assertIn("".join(line + "\n" for line in plansettle.resource_table(plan)), text)

    def test_table_of_kinds_and_bands(self):
        plan = words_plan(SEASON_WORDS.replace("resource 7 2", "resource 7 2 held").replace("band 2", "band 3"))
        self.assertEqual(plansettle.headline(plan), "at least, 3 resources (1 held), 3 bands, 1 task")
        self.assertEqual(plansettle.resource_table(plan), [
            "place  resource   kind  limit (at least)  from day  band",
            "-----  --------  -----  ----------------  --------  ----",
            "    0         7   held                 2",
            "                                       5         4     0",
            "                                       1         7     1",
            "    1         8  plain                 0",
            "    2         9  plain                 3",
            "    3      none                        6        -2     2",
        ])

    def test_output_that_is_not_understood(self):
        for text in [
            "", "settled 1", "settled\n", "settled x\n", "refused 7\n", "refused 14 0\n", "refused 7 0\n\n", "done 1\n",
            "settled 1\n1 1 1 2 2 2 3 4 0 1\n", "settled 1\n0 1 1 2 2 2 3 4 0\n", "settled 1\n0  1 1 2 2 2 3 4 0 1\n",
        ]:
            with self.subTest(text=text), self.assertRaises(PlanError):
                answer_of(text)


class Drawings(unittest.TestCase):
    """The drawings are well-formed and hold the bars they should."""

    def drawn(self, plan, answer):
        """The outermost element of a drawing."""
        return ElementTree.fromstring(plandraw.drawing(plan, answer, "a <plan> & more").encode())

    def bars(self, plan, answer):
        """How many elements of each class a drawing has, and its texts."""
        root = self.drawn(plan, answer)
        counts, texts = {}, []
        for found in root.iter():
            counts[found.get("class")] = counts.get(found.get("class"), 0) + 1
            texts.append(found.text or "")
        return counts, texts

    def test_case_9(self):
        counts, texts = self.bars(words_plan(CASE9_WORDS), answer_of(CASE9_ANSWER))
        # Before: task 0 once, task 1 in both lanes. After: both in the first lane only.
        self.assertEqual(counts["possible"], 3 + 2)
        # Before: task 0 on day 2. After: both on day 2.
        self.assertEqual(counts["sure"], 1 + 2)
        # Task 1 lost day 0 and days 4 to 7 in the first lane, and all in the second; one in the legend.
        self.assertEqual(counts["was"], 2 + 1 + 1)
        self.assertEqual((counts["lane"], counts["axis"], counts.get("refusal", 0)), (2, 2, 0))
        for words in ("a <plan> & more", "Resource 7", "Resource 9", "left for place 0", "limit 4", "After settling"):
            self.assertIn(words, texts)

    def test_random_plans(self):
        dice = random.Random(2)
        for _ in range(100):
            plan, tasks = good_plan(dice)
            counts, _ = self.bars(plan, plansettle.Answer(passes=2, tasks=tasks))
            wanted = sum(
                bin(task.places).count("1")
                for task in plan.tasks + tasks
                if task.origin.low < task.end.high
            )
            self.assertEqual(counts.get("possible", 0), wanted)
            self.assertEqual(counts["lane"], len(plan.resources))

    def test_refusal_draws_only_before(self):
        counts, texts = self.bars(words_plan(CASE9_WORDS), answer_of("refused 7 0\n"))
        self.assertEqual((counts["possible"], counts["axis"], counts["refusal"]), (3, 1, 1))
        self.assertNotIn("was", counts)
        self.assertTrue(any("a step finds no plan" in words for words in texts))

    def test_odd_plans(self):
        dice = random.Random(3)
        for _ in range(30):
            self.bars(random_plan(dice), answer_of("refused 5 0\n"))
        for text in ("at least\n", "at most\nresource 1 0\nresource 2 -3\n"):
            counts, _ = self.bars(words_plan(text), answer_of("settled 1\n"))
            self.assertNotIn("possible", counts)

    def test_task_that_covers_no_day(self):
        plan = words_plan("at least\nresource 1 0\ntask on 0 origin 5 duration 0 end 5 height -1\n")
        counts, _ = self.bars(plan, plansettle.Answer(passes=1, tasks=plan.tasks))
        # One in each panel and one in the legend.
        self.assertEqual((counts.get("possible", 0), counts.get("none", 0)), (0, 3))

    def test_ticks(self):
        for first, last in [(0, 7), (-3, 12), (-100000, 100000), (-(2**31), 2**31), (99990, 100001)]:
            days = list(plandraw.ticks(first, last))
            self.assertTrue(1 <= len(days) <= 32, (first, last, days))
            self.assertTrue(all(first <= day < last for day in days))

    def test_held_span(self):
        task = "task on {} origin {} duration 0..9 end {} height 1\n"
        for tasks, span, bare in [
            ([], None, []),
            # one task alone: the days on which it is sure
            ([(0, "1..2", "5..6")], (2, 5), []),
            ([(0, "1..5", "5..6")], None, []),
            # two tasks: the days between them too; of the third pair neither is sure on any day
            ([(0, "1", "3"), (0, "5", "7")], (1, 7), [(3, 5)]),
            ([(0, "1", "7"), (0, "3", "4")], (1, 7), []),
            ([(0, "1..4", "3..6"), (0, "5..9", "8..11")], (4, 8), [(4, 8)]),
            # tasks that cover no day take part in both ends
            ([(0, "0", "0"), (0, "3", "5"), (0, "9", "9")], (0, 9), [(0, 3), (5, 9)]),
            ([(0, "4", "4")], None, []),
            ([(0, "4", "4"), (0, "4..6", "6..7")], (4, 6), [(4, 6)]),
            # tasks that may be elsewhere, or are, take part in none; nor do those with their low above their high
            ([(0, "1", "3"), ("0,1", "5", "7"), (1, "8", "9")], (1, 3), []),
            ([("0,1", "1", "3"), (1, "5", "7")], None, []),
            ([(0, "1", "3"), (0, "9..5", "9")], (1, 3), []),
        ]:
            with self.subTest(tasks=tasks):
                plan = words_plan("at least\nresource 1 1 held\nresource 2 1\n" + "".join(task.format(*parts) for parts in tasks))
                self.assertEqual(plandraw.held_span(plan.tasks, 0), span)
                self.assertEqual(plandraw.bare_spans(plan.tasks, 0), bare)

    def test_held_days_are_those_of_the_rule(self):
        dice = random.Random(5)
        for _ in range(200):
            plan, _ = good_plan(dice)
            for place in range(len(plan.resources)):
                span = plandraw.held_span(plan.tasks, place)
                days = {day for bounds in ([span] if span else []) for day in range(*bounds)}
                bare = [day for bounds in plandraw.bare_spans(plan.tasks, place) for day in range(*bounds)]
                alone = [task for task in plan.tasks if task.places == 1 << place]
                for day in range(-12, 32):
                    begun, ends = any(task.origin.high <= day for task in alone), any(task.end.low > day for task in alone)
                    sure = any(task.origin.high <= day < task.end.low for task in alone)
                    self.assertEqual((day in days, bare.count(day)), (begun and ends, begun and ends and not sure))

    def test_levels_of_held_days(self):
        plan = words_plan(BETWEEN_WORDS)
        days = plandraw.held_span(plan.tasks, 0)
        self.assertEqual(plandraw.level_steps(plan.tasks, 0, 1, days), [(1, 3, 2, True), (3, 5, 0, True), (5, 7, 2, True)])
        self.assertEqual(plandraw.level_steps(plan.tasks, 0, 1), [(1, 3, 2, True), (5, 7, 2, True)])
        # A task that may be there lifts the level of a bare day, which is checked then too.
        more = words_plan(BETWEEN_WORDS + "task on 0,1  origin 2..7  duration 2  end 4..9  height 3\n")
        self.assertEqual(plandraw.level_steps(more.tasks, 0, 1, days), [
            (1, 2, 2, True), (2, 3, 5, True), (3, 5, 3, True), (5, 7, 5, True), (7, 9, 3, False),
        ])

    def test_held_days_are_drawn(self):
        plan = words_plan(BETWEEN_WORDS)
        root = self.drawn(plan, answer_of("refused 7 0\n"))
        held = [found for found in root.iter() if found.get("class") == "held"]
        # Days 0 to 7 are drawn, 55 wide each; the plain resource with the same tasks has no such bar.
        self.assertEqual(len(held), 1)
        left = plandraw.MARGIN + plandraw.LABELS
        bars = [(float(found.get("x")), float(found.get("width"))) for found in held[0] if found.tag.endswith("rect")]
        self.assertEqual(bars, [(left + 55, 55 * 6), (left + 55 * 3, 55 * 2)])
        self.assertEqual(held[0][0].text, "held: days 1 to 6 are checked, whatever is chosen")
        # Nothing is there on the bare days, and 2 are due.
        bare = [found for found in root.iter() if found.get("class") == "bare"]
        self.assertEqual([(float(found.get("x")), float(found.get("width"))) for found in bare], [(left + 55 * 3, 55 * 2)])
        self.assertEqual(bare[0].get("fill"), plandraw.BARE_WRONG)
        texts = [found.text for found in root.iter()]
        for words in ("place 0  ·  held  ·  at least 2", "place 1  ·  at least 2", "held"):
            self.assertEqual(texts.count(words), 1)

    def test_held_days_that_are_enough(self):
        plan = words_plan(BETWEEN_WORDS.replace("resource 7 2", "resource 7 -1"))
        root = self.drawn(plan, plansettle.Answer(passes=1, tasks=plan.tasks))
        bare = [found.get("fill") for found in root.iter() if found.get("class") == "bare"]
        self.assertEqual(bare, [plandraw.BARE] * 2)

    def test_ground_of_bare_days_changes_with_the_limit(self):
        plan = words_plan(BETWEEN_WORDS.replace("resource 8", "band 0 from 4 limit 0\nresource 8"))
        root = self.drawn(plan, answer_of("refused 7 0\n"))
        bare = [(found.get("fill"), float(found.get("width"))) for found in root.iter() if found.get("class") == "bare"]
        self.assertEqual(bare, [(plandraw.BARE_WRONG, 55), (plandraw.BARE, 55)])

    def test_held_resource_with_no_sure_day(self):
        plan = words_plan(BETWEEN_WORDS.replace("task on 0", "task on 0,1"))
        counts, texts = self.bars(plan, plansettle.Answer(passes=1, tasks=plan.tasks))
        self.assertEqual((counts.get("held", 0), texts.count("no day is sure to be held")), (0, 2))
        # Where no task may stand there is no row for them either.
        counts, texts = self.bars(words_plan("at least\nresource 1 1 held\n"), answer_of("settled 1\n"))
        self.assertIn("place 0  ·  held  ·  at least 1", texts)
        self.assertNotIn("no day is sure to be held", texts)

    def test_legend_of_held_days(self):
        held, best = "held days: all are checked (light: no task is sure)", "highest level still possible (darker: {})"
        for text, has in ((BETWEEN_WORDS, True), (BETWEEN_WORDS.replace(" held", ""), False)):
            plan = words_plan(text)
            _, texts = self.bars(plan, plansettle.Answer(passes=1, tasks=plan.tasks))
            told = [words in texts for words in (held, best.format("checked"), best.format("a task is sure"))]
            self.assertEqual(told, [has, has, not has])

    def test_plain_plans_have_no_sign_of_held_days(self):
        for text, answer in ((CASE9_WORDS, CASE9_ANSWER), (SEASON_WORDS, "refused 7 0\n")):
            drawn = plandraw.drawing(words_plan(text), answer_of(answer), "plain")
            for sign in ("held", "bare", plandraw.BARE, plandraw.BARE_WRONG):
                self.assertNotIn(sign, drawn)

    def test_levels(self):
        plan = words_plan("at most\nresource 1 1\ntask on 0 origin 1..2 duration 2 end 3..4 height 1\n")
        self.assertEqual(plandraw.level_steps(plan.tasks, 0, 0), [(1, 2, 0, False), (2, 3, 1, True), (3, 4, 0, False)])
        self.assertEqual(plandraw.level_steps(plan.tasks, 0, 1), [(1, 2, 1, False), (2, 3, 1, True), (3, 4, 1, False)])


    def test_limit_of_each_day(self):
        plan = words_plan(SEASON_WORDS)
        days = range(-4, 11)
        self.assertEqual([plandraw.limit_on(plan, 0, day) for day in days], [2] * 8 + [5] * 3 + [1] * 4)
        self.assertEqual([plandraw.limit_on(plan, 1, day) for day in days], [0] * 15)
        self.assertEqual([plandraw.limit_on(plan, 2, day) for day in days], [3] * 2 + [6] * 13)
        self.assertEqual(plandraw.limit_steps(plan, 0, -1, 10), ((-1, 4, 2), (4, 7, 5), (7, 10, 1)))
        self.assertEqual(plandraw.limit_steps(plan, 0, 7, 9), ((7, 9, 1),))
        self.assertEqual(plandraw.limit_steps(plan, 2, -1, 10), ((-1, 10, 6),))
        same = words_plan(SEASON_WORDS.replace("limit 5", "limit 2"))
        self.assertEqual(plandraw.limit_steps(same, 0, -1, 10), ((-1, 7, 2), (7, 10, 1)))

    def test_limit_steps_are_the_days_limits(self):
        dice = random.Random(4)
        for _ in range(200):
            plan, _ = good_plan(dice)
            for place in range(len(plan.resources)):
                steps = plandraw.limit_steps(plan, place, -15, 15)
                days = [limit for first, last, limit in steps for _ in range(first, last)]
                self.assertEqual(days, [plandraw.limit_on(plan, place, day) for day in range(-15, 15)])

    def test_level_line_has_the_steps(self):
        plan = words_plan(SEASON_WORDS)
        root = self.drawn(plan, plansettle.Answer(passes=1, tasks=plan.tasks))
        legend, *lines = [found.get("d") for found in root.iter() if found.get("class") == "limit"]
        # One line in each panel, for only the first resource has a task; days -1 to 10 are drawn, 40 wide each.
        self.assertEqual(len(lines), 2)
        left = plandraw.MARGIN + plandraw.LABELS
        rights = [float(part.split()[0]) for part in lines[0].split("H")[1:]]
        self.assertEqual(rights, [left + 40 * 5, left + 40 * 8, left + 40 * 11])
        own, season, after = [float(part.split()[0]) for part in lines[0].split("V")[1:]]
        # Down the page is down the scale: 38 high from 5, the highest, to 0.
        self.assertEqual([round((own - season) / 38 * 5, 3), round((after - own) / 38 * 5, 3)], [3, 1])
        self.assertEqual(legend.count("V"), 2)
        texts = [found.text for found in root.iter()]
        for words in ("2", "5", "1", "place 0  ·  at least 2  ·  5 from day 4  ·  1 from day 7", "limit of the day"):
            self.assertIn(words, texts)

    def test_level_is_wrong_on_the_bands_days_only(self):
        plan = words_plan(SEASON_WORDS)
        steps = plandraw.level_steps(plan.tasks, 0, 1)
        self.assertEqual(list(plandraw.against_limits(steps, plandraw.limit_steps(plan, 0, -1, 10))), [
            (0, 4, 4, True, 2), (4, 7, 4, True, 5), (7, 9, 4, True, 1),
        ])
        root = self.drawn(plan, answer_of("refused 7 0\n"))
        wrong = [found for found in root.iter() if found.get("fill") == plandraw.LEVEL_WRONG]
        self.assertEqual([(found.get("x"), found.get("width")) for found in wrong], [("318", "120")])

    def test_long_lists_of_bands_are_told_in_lines(self):
        text = "at least\nresource 1 1\n" + "".join(f"band 0 from {k} limit {k % 7}\n" for k in range(64))
        plan = words_plan(text + "task on 0  origin 0  duration 64  end 64  height 9\n")
        _, texts = self.bars(plan, plansettle.Answer(passes=1, tasks=plan.tasks))
        told = "  ·  ".join(words for words in texts if "from day" in words)
        self.assertEqual(told.count("from day"), 64)
        self.assertTrue(all(len(words) < 200 for words in texts))

    def test_refused_band_marks_its_resource(self):
        plan = words_plan(SEASON_WORDS)
        for place, wanted in ((0, 0), (1, 0), (2, 2), (3, None)):
            self.assertEqual(plandraw.resource_meant(plan, plansettle.Answer(refusal=13, place=place)), wanted)
        counts, texts = self.bars(plan, answer_of("refused 13 2\n"))
        self.assertEqual(counts["refusal"], 1)
        self.assertTrue(any("at band 2" in words for words in texts))


class Command(unittest.TestCase):
    """The command as it is called."""

    def setUp(self):
        folder = tempfile.TemporaryDirectory()
        self.addCleanup(folder.cleanup)
        self.folder = Path(folder.name)
        self.plan = self.folder / "case9.plan"
        self.plan.write_bytes(CASE9_BYTES)

    def stand_in(self, output):
        """A program in the planner's place that always prints one output."""
        path = self.folder / "planner"
        path.write_text(f"#!{sys.executable}\nimport sys\nsys.stdin.buffer.read()\nprint({output!r}, end='')\n")
        path.chmod(path.stat().st_mode | stat.S_IXUSR)
        return path

    def test_pack_and_unpack(self):
        self.assertEqual(run("pack", data=CASE9_WORDS.encode()), (0, CASE9_BYTES, ""))
        self.assertEqual(run("unpack", self.plan), (0, CASE9_WORDS.encode(), ""))
        words, again = self.folder / "w.txt", self.folder / "again.plan"
        self.assertEqual(run("unpack", "-o", words, data=CASE9_BYTES)[0], 0)
        self.assertEqual(run("pack", words, "-o", again)[0], 0)
        self.assertEqual(again.read_bytes(), CASE9_BYTES)

    def test_pack_and_unpack_bands(self):
        self.assertEqual(run("pack", data=BANDS_WORDS.encode()), (0, BANDS_BYTES, ""))
        self.assertEqual(run("unpack", data=BANDS_BYTES), (0, BANDS_WORDS.encode(), ""))
        status, out, said = run("pack", data=BANDS_WORDS.replace("limit 5", "limit").encode())
        self.assertEqual((status, out), (1, b""))
        self.assertEqual(said, "standard input:5: a band is written 'band PLACE from DAY limit LIMIT'\n")

    def test_pack_and_unpack_kinds(self):
        self.assertEqual(run("pack", data=HELD_WORDS.encode()), (0, HELD_BYTES, ""))
        self.assertEqual(run("unpack", data=HELD_BYTES), (0, HELD_WORDS.encode(), ""))
        status, out, said = run("pack", data=HELD_WORDS.replace("held", "holding").encode())
        self.assertEqual((status, out), (1, b""))
        self.assertEqual(said, "standard input:3: 'holding' is not understood; the kind of a resource is 'plain' or 'held'\n")

    def test_show_settle_and_draw_a_held_resource(self):
        self.plan.write_bytes(HELD_BYTES)
        planner = self.stand_in(CASE9_ANSWER)
        for arguments in (("show", self.plan), ("settle", self.plan, "--planner", planner)):
            status, out, _ = run(*arguments)
            self.assertEqual(status, 0)
            self.assertIn(b": at least, 2 resources (1 held), 2 tasks\n", out)
            self.assertIn(b"\n    1         9   held                 3\n", out)
        status, out, _ = run("draw", self.plan, "--planner", planner)
        self.assertEqual((status, "place 1  ·  held  ·  at least 3".encode() in out), (0, True))

    def test_help_says_how_a_resource_is_held(self):
        _, out, _ = run("help")
        self.assertIn(b"\n  resource 9 3 held ", out)

    def test_settle_a_refused_band(self):
        self.plan.write_bytes(BANDS_BYTES)
        status, out, _ = run("settle", self.plan, "--planner", self.stand_in("refused 13 2\n"))
        self.assertEqual(status, 0)
        self.assertIn(b"Refused with number 13 at band 2: a band out of order", out)
        self.assertIn(b"\n  band 65535 from 2147483647 limit -2147483648\n", out)

    def test_error_leaves_the_output_alone(self):
        words, out = self.folder / "w.txt", self.folder / "out.plan"
        words.write_text("at least\nresource x 1\n")
        status, _, said = run("pack", words, "-o", out)
        self.assertEqual((status, out.exists()), (1, False))
        self.assertTrue(said.startswith(f"{words}:2: "), said)

    def test_show(self):
        status, out, _ = run("show", self.plan)
        self.assertEqual(status, 0)
        self.assertIn(b"at least, 2 resources, 2 tasks", out)
        self.assertIn(b"0,1        0..6", out)

    def test_settle(self):
        planner = self.stand_in(CASE9_ANSWER)
        status, out, _ = run("settle", self.plan, "--planner", planner)
        self.assertEqual((status, b"0..6 -> 1..2 *" in out), (0, True))
        self.assertEqual(run("settle", self.plan, GRISTWALTZ_PLANNER=str(planner)), (0, out, ""))

    def test_settle_a_damaged_file(self):
        self.plan.write_bytes(CASE9_BYTES[:-1])
        status, out, _ = run("settle", self.plan, "--planner", self.stand_in("refused 9 62\n"))
        self.assertEqual((status, b"at byte 62: in a file, cut short" in out), (0, True))

    def test_planner_that_fails(self):
        for planner in (self.folder / "absent", self.stand_in(""), self.stand_in("settled 1\n")):
            status, out, said = run("settle", self.plan, "--planner", planner)
            self.assertEqual((status, out), (1, b""))
            self.assertIn(str(planner), said)

    def test_draw(self):
        kept, out = self.folder / "kept.settled", self.folder / "out.svg"
        kept.write_text(CASE9_ANSWER)
        self.assertEqual(run("draw", self.plan, "--settled", kept, "-o", out), (0, b"", ""))
        planner = self.stand_in(CASE9_ANSWER)
        self.assertEqual(run("draw", self.plan, "--planner", planner), (0, out.read_bytes(), ""))

    def test_usage(self):
        both = ("draw", "x", "--planner", "a", "--settled", "b")
        for arguments in [(), ("paint",), ("show",), both, ("pack", "a", "b")]:
            self.assertEqual(run(*arguments)[0], 2, arguments)
        for arguments in [("help",), ("--help",), ("help", "draw"), ("settle", "--help")]:
            status, out, _ = run(*arguments)
            self.assertEqual((status, out.startswith(b"usage: plan")), (0, True), arguments)

    def test_example_case_9(self):
        self.assertEqual(run("pack", EXAMPLES / "case9.txt"), (0, CASE9_BYTES, ""))
        self.assertEqual((EXAMPLES / "case9.settled").read_text(), CASE9_ANSWER)

    def test_example_shared_feeder(self):
        plan = words_plan((EXAMPLES / "shared-feeder.txt").read_text())
        answer = answer_of((EXAMPLES / "shared-feeder.settled").read_text())
        # Days 3 to 16 are held, by turbine 1 and the sign-off; settling puts a job on every one of them.
        for tasks, bare in ((plan.tasks, [(8, 11), (15, 17)]), (answer.tasks, [])):
            self.assertEqual(plandraw.held_span(tasks, 0), (3, 17))
            self.assertEqual(plandraw.bare_spans(tasks, 0), bare)

    def test_examples(self):
        for words in sorted(EXAMPLES.glob("*.txt")):
            with self.subTest(example=words.stem):
                plan = planwords.from_words(words.read_bytes(), words.name)
                self.assertEqual(words_plan(planwords.to_words(plan)), plan)
                kept = words.with_suffix(".settled")
                status, out, said = run("draw", words, "--settled", kept)
                self.assertEqual((status, said), (0, ""))
                ElementTree.fromstring(out)


if __name__ == "__main__":
    unittest.main()
