"""`draw`: timelines beside `ec`, the picture, the page in a browser, and the text."""

import html
import json
import os
import re
import shutil
import subprocess
import tempfile
import unittest
import xml.etree.ElementTree as ElementTree
from typing import List, Optional

from ec_history.axis import axis_of
from ec_history.chart import chart_of
from ec_history.dates import Dates
from ec_history.drawing import form_of
from ec_history.history import History
from ec_history.page import page_of
from ec_history.svg import layout_of, svg_of
from ec_history.timelines import Timeline, Timelines
from ec_history.wording import Wording

from .commands import run
from .histories import drawn, example, written
from .setting import TOP, example_names, lines_of, program, theory_of

SVG = "{http://www.w3.org/2000/svg}"
BROWSERS = ("chromium", "chromium-browser", "google-chrome")
ALL_KINDS = """\
initially  at(ladder,cellar).
initially  open(shop).
initiates  carry(Thing, Place) at(Thing, Place).
terminates fetch(Thing, Place) at(Thing, Place).
exclusive  at(Thing, Place)    at(Thing, Other).
"""
ALL_LINES = ["assert c1 9 carry(ladder,shop)", "assert c2 12 carry(ladder,yard)"]
ALL_LINES += ["assert c3 10 carry(cart,yard)", "assert f3 14 fetch(cart,yard)"]


def timelines(history: History) -> List[Timeline]:
    reader = Timelines(history, Wording(history.theory))
    return reader.read(history.candidates())


class OfTimelines(unittest.TestCase):
    def check(self, history: History) -> None:
        session = history.session
        wording = Wording(history.theory)
        for line in timelines(history):
            spans = [(s.start, s.end) for s in line.stretches if s.kind != "broken"]
            self.assertEqual(
                spans, [tuple(i) for i in session.intervals(line.property)]
            )
            spans = [(s.start, s.end) for s in line.stretches if s.kind == "broken"]
            self.assertEqual(spans, [tuple(i) for i in session.broken(line.property)])
            for stretch in line.stretches:
                self.assertTrue(line.words_of(stretch))
            clock = history.clock
            ranks = {clock.rank(moment) for moment in line.moments()} | {0}
            for rank in sorted({r + d for r in ranks for d in (-1, 0, 1)}):
                at = clock.moment(rank)
                spells = [
                    spell
                    for spell in line.spells
                    if (spell.after is None or spell.after < at)
                    and (spell.until is None or at <= spell.until)
                ]
                self.assertEqual(len(spells), 1, (line.label, at))
                reason = session.why(line.property, at)
                self.assertEqual(spells[0].holds, reason.holds)
                self.assertTrue(spells[0].words.startswith(wording.reason(reason)))

    def test_each_instant_has_its_reason(self) -> None:
        for name in example_names():
            with self.subTest(name), example(name) as history:
                self.check(history)
        for seed in range(3):
            with self.subTest(seed), drawn(seed) as history:
                self.check(history)

    def test_the_ends_of_time(self) -> None:
        last, first = 2**63 - 1, -(2**63)
        lines = [f"assert a {last} go(a)", f"assert b {first} go(b)"]
        with written("initiates go(X) on(X).", lines) as paths:
            for form in ("text", "svg", "html"):
                ran = run("draw", *paths, "on(_)", "--format", form)
                self.assertEqual((ran.status, ran.errors), (0, ""))


class OfAxes(unittest.TestCase):
    def test_ticks_are_round_and_within(self) -> None:
        with example("loans") as history:
            for unit in (None, "minute", "day", "date"):
                wording = Wording(history.theory, None, Dates(unit) if unit else None)
                for low, high in [(0, 7), (20240101, 20240305), (0, 10**9), (5, 5)]:
                    axis = axis_of(wording, [low, high])
                    for most in (2, 5, 12):
                        ticks = axis.ticks(most)
                        self.assertLessEqual(len(ticks), most)
                        self.assertTrue(all(axis.low <= t <= axis.high for t in ticks))
                    self.assertTrue(axis.ticks(12))

    def test_dates_stand_at_their_days(self) -> None:
        with example("memberships") as history:
            wording = Wording(history.theory, None, Dates("date"))
            axis = axis_of(wording, [20231231, 20240101, 20240102])
            places = [axis.place(day) for day in (20231231, 20240101, 20240102)]
            self.assertEqual([b - a for a, b in zip(places, places[1:])], [86_400] * 2)
            self.assertEqual(axis.label(places[1]), "2024-01-01")


class OfPictures(unittest.TestCase):
    def picture(self, history: History) -> ElementTree.Element:
        lines = timelines(history)
        axis = axis_of(
            Wording(history.theory), [m for line in lines for m in line.moments()]
        )
        return ElementTree.fromstring(svg_of(lines, axis, "<&>", layout_of(lines, 800)))

    def test_each_stretch_is_drawn_with_what_it_is(self) -> None:
        for name in example_names():
            with self.subTest(name), example(name) as history:
                picture = self.picture(history)
                rows = [g for g in picture.iter(f"{SVG}g") if g.get("class") == "line"]
                lines = timelines(history)
                self.assertEqual(len(rows), len(lines))
                for row, line in zip(rows, lines):
                    kinds = [g.get("class") for g in row.findall(f"{SVG}g")]
                    wanted = [f"stretch {s.kind}" for s in line.stretches]
                    self.assertEqual(kinds, wanted)
                    told = [g.findtext(f"{SVG}title") for g in row.findall(f"{SVG}g")]
                    for text, stretch in zip(told, line.stretches):
                        self.assertEqual(
                            text, f"{line.label}\n{line.words_of(stretch)}"
                        )

    def test_the_title_may_have_any_letters(self) -> None:
        with example("loans") as history:
            title = self.picture(history).findtext(f"{SVG}title")
        self.assertEqual(title, "<&>")

    def test_a_name_of_a_page_can_not_end_its_script(self) -> None:
        text = "</script><b>&amp;"
        with written(ALL_KINDS, ALL_LINES) as paths:
            names = f"{paths[0]}.tsv"
            with open(names, "w", encoding="utf-8") as file:
                file.write(f"name\tladder\t{{}}\t{text}\n")
            words = ["at(_,_)", "--names", names, "--title", text, "--format", "html"]
            page = run("draw", *paths, *words).output
        self.assertNotIn(text, page)
        self.assertIn("at(&lt;/script&gt;&lt;b&gt;&amp;amp;, shop)", page)
        data = page.split('type="application/json">')[1].split("</script>")[0]
        labels = [line["label"] for line in json.loads(data)["lines"]]
        self.assertIn(f"at({text}, shop)", labels)


class OfText(unittest.TestCase):
    def test_the_kinds_are_told_apart(self) -> None:
        with written(ALL_KINDS, ALL_LINES) as paths:
            ran = run("draw", *paths, "_", "--format", "text", "--width", "40")
        rows = {
            line.split()[0]: line.split()[1] for line in ran.output.splitlines()[:5]
        }
        self.assertRegex(rows["at(cart,yard)"], r"^\.+=+\.+$")
        self.assertRegex(rows["at(ladder,cellar)"], r"^~+\.+$")
        self.assertRegex(rows["at(ladder,shop)"], r"^\.+~+\.+$")
        self.assertRegex(rows["at(ladder,yard)"], r"^\.+=+>$")
        self.assertRegex(rows["open(shop)"], r"^<=+>$")
        self.assertIn("~ broken", ran.output.splitlines()[-1])

    def test_each_example(self) -> None:
        for name in example_names():
            with example(name) as history:
                lines = timelines(history)
                wording = Wording(history.theory)
                moments = [m for line in lines for m in line.moments()]
                text = list(chart_of(lines, axis_of(wording, moments), 80))
            self.assertEqual(len(text), len(lines) + 3)
            self.assertLessEqual(max(map(len, text)), 80)


class Command(unittest.TestCase):
    def test_the_name_of_the_file_chooses_the_format(self) -> None:
        for name, form in [
            ("a.svg", "svg"),
            ("a.HTML", "html"),
            ("a.htm", "html"),
            ("a.txt", "text"),
            ("a", "svg"),
            (None, "text"),
        ]:
            self.assertEqual(form_of(name), form)

    def test_standard_output_of_a_file(self) -> None:
        words = [TOP / "companion" / "ec-history", "draw", theory_of("loans")]
        words += [lines_of("loans"), "has(_,_)", "--program", program()]
        for ending, begin in [("svg", "<svg"), ("html", "<!doctype html>")]:
            with tempfile.TemporaryDirectory() as folder:
                path = os.path.join(folder, f"out.{ending}")
                with open(path, "wb") as file:
                    subprocess.run(
                        words, stdout=file, stderr=subprocess.DEVNULL, check=True
                    )
                with open(path, encoding="utf-8") as file:
                    text = file.read()
            if os.path.exists("/proc/self/fd"):
                self.assertTrue(text.startswith(begin), text[:40])

    def test_each_example_in_each_format(self) -> None:
        for name in example_names():
            for form, begin in [("svg", "<svg"), ("html", "<!doctype"), ("text", "")]:
                ran = run(
                    "draw", theory_of(name), lines_of(name), "_", "--format", form
                )
                self.assertEqual(ran.status, 0, ran.errors)
                self.assertTrue(ran.output.startswith(begin))

    def test_a_part_of_the_time(self) -> None:
        ran = run(
            "draw",
            *(theory_of("plant"), lines_of("plant"), "mill(_)", "--format", "svg"),
            *("--from", "105", "--to", "120"),
        )
        self.assertEqual(ran.output.count('class="stretch closed"><title>'), 2)
        self.assertNotIn("mill(stop)\n", ran.output)
        words = ["draw", theory_of("plant"), lines_of("plant"), "mill(_)"]
        ran = run(*words, "--from", "9", "--to", "9")
        self.assertIn("--from is not before --to", ran.errors)

    def test_what_is_not_drawn_is_told(self) -> None:
        ran = run("draw", theory_of("plant"), lines_of("plant"), "_", "--rows", "2")
        self.assertIn("5 properties fit, and 2 are drawn", ran.errors)
        ran = run("draw", theory_of("plant"), lines_of("plant"), "mil(_)")
        self.assertIn("no rule starts mil with 1 argument", ran.errors)


def browser() -> Optional[str]:
    """A browser that is installed and can be run."""
    for found in filter(None, map(shutil.which, BROWSERS)):
        asked = subprocess.run(
            [found, "--version"],
            stdout=subprocess.DEVNULL,
            stderr=subprocess.DEVNULL,
        )
        if asked.returncode == 0:
            return found
    return None


BROWSER = browser()
POINTING = """\
<pre id="seen"></pre><script>
const seen = [told.innerHTML];
for (const [x, y] of %s) {
  pinned = false;
  svg.dispatchEvent(new MouseEvent("mousemove",
    {clientX: data.left + x * data.width, clientY: data.top + y}));
  seen.push(told.innerHTML);
}
document.getElementById("seen").textContent = JSON.stringify(seen);
</script></html>
"""
"""What points at places of a page (the part of the axis, points below its rows' top),
and writes what is told: first as it is opened, and then at each place."""


@unittest.skipUnless(BROWSER, "no browser is installed (apt install chromium)")
class InABrowser(unittest.TestCase):
    """The page is opened, and pointed at by its address and by a mouse."""

    def opened(self, text: str, name: str, behind: str = "") -> str:
        with tempfile.TemporaryDirectory() as folder:
            path = os.path.join(folder, name)
            with open(path, "w", encoding="utf-8") as file:
                file.write(text)
            words = [str(BROWSER), "--headless", "--no-sandbox", "--disable-gpu"]
            words += ["--disable-dev-shm-usage", f"--user-data-dir={folder}/profile"]
            done = subprocess.run(
                [*words, "--dump-dom", f"file://{path}{behind}"],
                stdout=subprocess.PIPE,
                stderr=subprocess.DEVNULL,
                check=True,
            )
        return done.stdout.decode("utf-8")

    def told(self, page: str, behind: str, *places: "tuple[int, int]") -> List[str]:
        """What the page tells as it is opened, and at each place."""
        pointing = POINTING % json.dumps(places)
        seen = self.opened(page.replace("</html>\n", pointing), "page.html", behind)
        found = re.search(r'<pre id="seen">(.*?)</pre>', seen, re.DOTALL)
        assert found is not None
        texts: List[str] = json.loads(html.unescape(found.group(1)))
        return texts

    def test_what_is_pointed_at_is_told(self) -> None:
        with written(ALL_KINDS, ALL_LINES) as paths:
            page = run("draw", *paths, "_", "--format", "html").output
        opened, row, axis = self.told(page, "#at=11&row=2", (1, 5), (0, -5))
        self.assertIn("<h2>at(ladder,shop) at 11</h2>", opened)
        self.assertIn("does not hold: started at 9, broken at 12 by c2", opened)
        self.assertIn("<h2>at(cart,yard) at 15</h2>", row)
        self.assertIn("does not hold: started at 10, ended at 14 by f3", row)
        self.assertIn("<h2>at 8: 1 of 5 hold</h2>", axis)
        self.assertIn("<li>open(shop): holds: there from before all events", axis)

    def test_dates(self) -> None:
        with example("memberships") as history:
            wording = Wording(history.theory, None, Dates("date"))
            lines = Timelines(history, wording).read(history.candidates())
            axis = axis_of(wording, [m for line in lines for m in line.moments()])
            page = page_of(lines, axis, "clubs", layout_of(lines, 900))
        (opened,) = self.told(page, "#at=2002-03-04")
        self.assertIn("at 2002-03-04: ", opened)
        self.assertIn("started at 1990-03-01 by f1 (rule 1)", opened)

    def test_a_picture_is_well_formed(self) -> None:
        with written(ALL_KINDS, ALL_LINES) as paths:
            picture = run("draw", *paths, "_", "--format", "svg").output
        seen = self.opened(picture, "picture.svg")
        self.assertNotIn("parsererror", seen)
        self.assertEqual(seen.count("<title>"), picture.count("<title>"))


if __name__ == "__main__":
    unittest.main()
