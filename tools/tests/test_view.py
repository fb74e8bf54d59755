"""flarecomb view: the page is self-contained, the same for the same files, and drawn for feeders from 0 to 200 branches."""
import argparse
import hashlib
import html.parser
import pathlib
import random
import re
import tempfile
import unittest

from flarecomb_tool import diagram, tables, view
from tests import commands
from tests.commands import EXAMPLES, PROGRAMS, join, join_example
from tests.support import needs_programs

NO_PROGRAM = ("--programs", "no-such-folder")
# Elements that HTML leaves without an end.
WITHOUT_END = {"meta", "br"}


class Outline(html.parser.HTMLParser):
    """Whether every element is ended in its order, and which elements and attributes there are."""

    def __init__(self, text):
        super().__init__(convert_charrefs=True)
        self.open = []
        self.elements = []
        self.attributes = []
        self.texts = []
        self.feed(text)
        self.close()

    def handle_starttag(self, tag, attributes):
        self.elements.append(tag)
        self.attributes += attributes
        if tag not in WITHOUT_END:
            self.open.append(tag)

    def handle_startendtag(self, tag, attributes):
        self.elements.append(tag)
        self.attributes += attributes

    def handle_endtag(self, tag):
        if not self.open or self.open.pop() != tag:
            raise AssertionError(f"</{tag}> ends another element")

    def handle_data(self, data):
        self.texts.append(data)


def chance_parents(count, seed):
    chance = random.Random(seed)
    return [chance.randrange(place) for place in range(1, count + 1)]


def leaves_first(count):
    """A line of which each node feeds a node without more behind it, and only then the next one."""
    parents, last = [], 0
    for _ in range(count // 2):
        parents += [last, last]
        last = len(parents)
    return parents


SHAPES = {
    "no branch": [],
    "a chain": list(range(200)),
    "a star": [0] * 200,
    "leaves first": leaves_first(200),
    "halves": [(place - 1) // 2 for place in range(1, 201)],
    "by chance": chance_parents(200, 1),
    "by chance again": chance_parents(200, 2),
}


class ViewCase(unittest.TestCase):
    def setUp(self):
        folder = tempfile.TemporaryDirectory()
        self.addCleanup(folder.cleanup)
        self.folder = pathlib.Path(folder.name)

    def page(self, feeder, report, name="page.html"):
        output = self.folder / name
        self.assertEqual(commands.run(view, feeder, report, "-o", output, *NO_PROGRAM), (0, "", ""))
        return output.read_bytes()

    def example(self, name):
        return self.page(EXAMPLES / f"{name}.feeder", EXAMPLES / f"{name}.report")

    def made(self, parents):
        paths = self.folder / "a.feeder", self.folder / "a.report"
        for path, text in zip(paths, commands.without_load(parents)):
            path.write_text(text)
        return self.page(*paths)


class Page(ViewCase):
    def test_the_same_files_give_the_same_bytes_wherever_they_stand(self):
        first = self.example("four_node_regulated")
        copies = []
        for kind in ("feeder", "report"):
            copies.append(self.folder / f"copy.{kind}")
            copies[-1].write_bytes((EXAMPLES / f"four_node_regulated.{kind}").read_bytes())
        self.assertEqual(first, self.page(*copies, name="other.html"))

    def test_nothing_comes_from_elsewhere(self):
        page = self.example("four_node_regulated").decode()
        outline = Outline(page)
        self.assertFalse({"script", "link", "img", "iframe", "object", "embed", "image", "use", "base"} & set(outline.elements))
        self.assertFalse({"src", "href", "xlink:href", "srcset", "onload", "onclick"} & {name for name, _ in outline.attributes})
        for word in ("http:", "https:", "@import", "@font-face", "url("):
            self.assertNotIn(word, page)
        self.assertIn(("content", "default-src 'none'; style-src 'unsafe-inline'"), outline.attributes)

    def test_every_element_is_ended(self):
        for path in sorted(EXAMPLES.glob("*.feeder")):
            with self.subTest(path.name):
                self.assertEqual(Outline(self.example(path.stem).decode()).open, [])

    def test_identity_of_both_files(self):
        page = self.example("four_node").decode()
        for kind in ("feeder", "report"):
            digest = hashlib.sha256((EXAMPLES / f"four_node.{kind}").read_bytes()).hexdigest()
            self.assertEqual(page.count(digest), 1)

    def test_figures_of_the_example(self):
        texts = Outline(self.example("example").decode()).texts
        for figure in ("7190.00", "10.014", "72.101", "103960", "749044", "51980", "0.9986"):
            self.assertIn(figure, texts)

    def test_a_load_between_two_phases_has_the_voltage_between_them(self):
        feeder = commands.feeder_text(commands.OPPOSITE_ROW, [], ["S,AB,I,1500000,15000,0"])
        paths = self.folder / "a.feeder", self.folder / "a.report"
        for path, text in zip(paths, (feeder, commands.worked_report(feeder))):
            path.write_text(text)
        texts = Outline(self.page(*paths).decode()).texts
        # 12000 V of 15000 V: 4/5 of 15 kW, and 1 A. The allowance is 4·1·1000 + 1200000 + 1.
        row = texts[texts.index("AB"):]
        self.assertEqual(row[:12], ["AB", "I", "15000.00", "15.000", "0.000", "12000.00", "80.00", "–", "1.000", "0.00", "12.000", "0.000"])
        self.assertIn("1204001", texts)

    def test_a_power_load_below_70_per_cent_of_its_rated_voltage(self):
        feeder = commands.feeder_text(commands.OPPOSITE_ROW, [], ["S,AB,P,2400000,12000,0"])
        paths = self.folder / "a.feeder", self.folder / "a.report"
        for path, text in zip(paths, (feeder, commands.worked_report(feeder))):
            path.write_text(text)
        texts = Outline(self.page(*paths).decode()).texts
        # 12000 V of 24000 V: a quarter of 12 kW
        row = texts[texts.index("AB"):]
        self.assertEqual(row[:12], ["AB", "P", "24000.00", "12.000", "0.000", "12000.00", "50.00", "Z", "0.250", "0.00", "3.000", "0.000"])
        self.assertTrue(any("50.00 per cent of vn: below 70 per cent a P row acts as Z" in text for text in texts))

    def test_texts_are_escaped(self):
        shown = tables.read(argparse.Namespace(feeder=EXAMPLES / "example.feeder", report=EXAMPLES / "example.report", programs="no-such-folder"))
        hostile = "<script>alert('1')</script> & \"2\""
        table = shown.tables[0]
        page = view.page(shown._replace(
            warnings=[hostile], facts=[*shown.facts, (hostile, hostile), ("archive check", hostile)],
            tables=[tables.Table(hostile, [column._replace(name=hostile, unit=hostile) for column in table.columns], [[hostile] * len(table.columns)])]))
        self.assertNotIn("<script", page)
        # The answer, the warning, the fact's label and text, the table's title, and its 15 columns with name, unit and cell.
        self.assertEqual("".join(Outline(page).texts).count(hostile), 1 + 1 + 2 + 1 + 3 * 15)
        self.assertEqual(diagram.escape(hostile), "&lt;script&gt;alert(&#x27;1&#x27;)&lt;/script&gt; &amp; &quot;2&quot;")

    def test_the_answer_stands_first(self):
        texts = [text for text in Outline(self.example("example").decode()).texts if text.strip()]
        self.assertEqual(texts[3], "Archive check: not checked (there is no program archive_check)")

    @needs_programs
    def test_pass_of_the_program(self):
        output = self.folder / "page.html"
        words = [EXAMPLES / "example.feeder", EXAMPLES / "example.report", "-o", output, "--programs", PROGRAMS]
        self.assertEqual(commands.run(view, *words)[0], 0)
        self.assertIn("Archive check: pass", output.read_text())

    def test_a_report_of_another_feeder_writes_nothing(self):
        output = self.folder / "page.html"
        status, _, errors = commands.run(view, EXAMPLES / "example.feeder", EXAMPLES / "four_node.report", "-o", output, *NO_PROGRAM)
        self.assertEqual(status, 2)
        self.assertIn("four_node.report", errors)
        self.assertFalse(output.exists())

    def test_a_folder_that_is_not_there(self):
        status, _, errors = commands.run(view, EXAMPLES / "example.feeder", EXAMPLES / "example.report", "-o",
                                         self.folder / "none" / "page.html", *NO_PROGRAM)
        self.assertEqual(status, 2)
        self.assertIn("No such file or directory", errors)

    def test_from_no_branch_to_200_with_300_loads(self):
        for name, parents in SHAPES.items():
            with self.subTest(name):
                outline = Outline(self.made(parents).decode())
                self.assertEqual(outline.open, [])
                rows = 4 + 7 + (len(parents) + 1) + 2 * len(parents) + 300
                # Beside the rows of the tables: one line for each fact but the check, and the lines of names.
                self.assertGreaterEqual(outline.elements.count("tr"), rows)


class Diagram(unittest.TestCase):
    def test_each_node_once_below_the_one_that_feeds_it(self):
        for name, parents in SHAPES.items():
            with self.subTest(name):
                both = join(*commands.without_load(parents))
                rows, straight = diagram.arrange(both)
                self.assertEqual(sorted(node for node, _ in rows), sorted(both.nodes))
                place = {node: place for place, (node, _) in enumerate(rows)}
                column = dict(rows)
                self.assertLess(max(column.values()), 8)
                for branch in both.feeder.branches:
                    self.assertLess(place[branch.from_node], place[branch.to_node])
                    step = 0 if straight[branch.from_node] == branch.to_node else 1
                    self.assertEqual(column[branch.to_node], column[branch.from_node] + step)

    def test_no_wire_passes_through_another_node(self):
        for name, parents in SHAPES.items():
            with self.subTest(name):
                both = join(*commands.without_load(parents))
                rows, straight = diagram.arrange(both)
                place = {node: place for place, (node, _) in enumerate(rows)}
                for upper, lower in straight.items():
                    between = rows[place[upper] + 1:place[lower]]
                    self.assertTrue(all(column > dict(rows)[upper] for _, column in between))

    def test_pages_hold_every_name_once(self):
        both = join(*commands.without_load(SHAPES["by chance"]))
        pages = diagram.one_line_diagram(both)
        self.assertEqual(len(pages), -(-201 // diagram.ROWS_ON_A_PAGE))
        names = re.findall(r'<text class="name"[^>]*>([^<]*)</text>', "".join(pages))
        self.assertEqual(sorted(names), sorted(both.nodes))

    def test_symbols_of_devices(self):
        pages = "".join(diagram.one_line_diagram(join_example("four_node_regulated")))
        # The source, the regulator and the transformer's upper circle are closed, its lower one is open; the load has one arrow.
        self.assertEqual((pages.count('class="device"'), pages.count('class="open"')), (3, 1))
        self.assertIn("transformer D 12470/2400", pages)
        self.assertIn("regulator 9/11/12", pages)

    def test_taps_are_those_of_the_report(self):
        """The feeder has 0, 0 and 0 as the first ones."""
        pages = "".join(diagram.one_line_diagram(join_example("four_node_set")))
        self.assertIn("regulator 9/11/12", pages)


class Profile(unittest.TestCase):
    def test_a_mark_for_each_node_and_phase(self):
        profile = diagram.voltage_profile(join_example("four_node"))
        # Four nodes and one in the legend; three branches and one in the legend.
        for phase in "ABC":
            self.assertEqual(profile.count(f'class="phase{phase} mark"'), 5)
            self.assertEqual(profile.count(f'class="phase{phase} trace"'), 4)
        self.assertIn("<title>N4 B 0.9165 pu</title>", profile)

    def test_phases_differ_without_colour(self):
        self.assertEqual([re.match(r"<(\w+)", diagram.marker(phase, 0, 0))[1] for phase in "ABC"], ["circle", "rect", "polygon"])
        dashes = [re.search(rf"\.phase{phase}\.trace {{ stroke-dasharray: ([^;]*);", view.STYLE) for phase in "ABC"]
        self.assertIsNone(dashes[0])
        self.assertNotEqual(dashes[1][1], dashes[2][1])

    def test_absent_phases_have_no_mark(self):
        profile = diagram.voltage_profile(join_example("example"))
        self.assertEqual([profile.count(f'class="phase{phase} mark"') for phase in "ABC"], [3, 2, 2])

    def test_steps_of_the_scale(self):
        self.assertEqual([round(diagram.tick_step(extent, 8), 6) for extent in (0.002, 0.09, 0.5, 8, 200)], [0.0005, 0.02, 0.1, 1, 50])

    def test_a_source_without_voltage_has_no_profile(self):
        both = join(commands.feeder_text("S,0,0,0,0,0,0,1,20"), commands.report_text(["S,0,0,0,0,0,0"], [], "1,0,0,0,0,0,0"))
        self.assertEqual(diagram.voltage_profile(both), "")


if __name__ == "__main__":
    unittest.main()
