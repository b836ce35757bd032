"""Maps of pages: directions apart, names where there is room, a bar that is as long as it says, north, a legend."""
import re
import unittest
from itertools import combinations, pairwise
from math import hypot

from support import Case

from streetsim.base.shapes import distance
from streetsim.model.mapping import Map, MapLink, MapNode
from streetsim.report.page_drawings import difference_map, service_keys, service_map
from streetsim.report.page_labels import Room, steps, text_width
from streetsim.report.page_map import LINE_GAP, Stroke, map_figure, moved, street_map

LONG, SHORT = "Long Street", "A street with a name that is much longer than the street itself"


def street(edge, begin, end, shape):
    return MapLink(edge, [0], begin, end, 10, 2, 75.0, shape)


def mapping(more=(), names=None):
    """A street of 1,000 m along one line in both directions, and another 100 m of it to the north."""
    nodes = [("W", 0, 0), ("E", 1000, 0), ("N", 1000, 100)]
    links = [
        street("we", 0, 1, [(0, 0), (1000, 0)]), street("ew", 1, 0, [(1000, 0), (0, 0)]),
        street("en", 1, 2, [(1000, 0), (1000, 100)]), street("ne", 2, 1, [(1000, 100), (1000, 0)]), *more,
    ]
    signals = [("light", 1)]
    return Map(
        [MapNode(name, x, y, 0) for name, x, y in nodes], links, [], signals, [], {}, [],
        names={"edges": names} if names else {},
    )


def lines_of(picture):
    """The lines of a picture by what they say: points in pixels."""
    found = re.findall(r'<polyline points="([^"]*)" class="edge-line"[^>]*><title>(.*?)</title>', picture)
    return {text: [tuple(map(float, point.split(","))) for point in points.split()] for points, text in found}


def strokes(of, width=6.0):
    return {edge: Stroke("#123", width, edge) for edge in of.links_of}


class Steps(unittest.TestCase):
    def test_a_line_is_looked_at_in_steps_of_a_square_at_most(self):
        """A square has 3 pixels: 10 pixels are four steps of 2.5, and a line of two parts has both its ends."""
        self.assertEqual(list(steps([(0, 0), (10, 0)])), [(0, 0), (2.5, 0), (5, 0), (7.5, 0), (10, 0)])
        self.assertEqual(list(steps([(0, 0), (0, 2), (3, 6)])), [(0, 0), (0, 2), (1.5, 4), (3, 6)])
        for length in (0.5, 3.0, 9.0, 100.0):
            points = list(steps([(0, 0), (length, 0)]))
            self.assertLessEqual(max(after - before for (before, _), (after, _) in pairwise(points)), 3)
            self.assertEqual(points[-1], (length, 0))


class Directions(Case):
    def test_both_are_seen_and_each_lies_on_its_right(self):
        of = mapping()
        for width in (2.0, 9.0):
            drawn = lines_of(street_map(of, strokes(of, width), "map"))
            for one, back in (("we", "ew"), ("en", "ne")):
                with self.subTest(one, width=width):
                    apart = [distance(point, drawn[back]) for point in drawn[one]]
                    expected = width + LINE_GAP
                    self.assertTrue(all(expected - 0.2 < away < expected + 0.2 for away in apart), apart)
            self.assertGreater(drawn["we"][0][1], drawn["ew"][0][1], "east: the right is below, and y goes down")
            self.assertGreater(drawn["en"][0][0], drawn["ne"][0][0])

    def test_where_one_drives_on_the_left_each_lies_on_its_left(self):
        of = mapping()
        of.links[0] = street("we", 0, 1, [(0, 2), (1000, 2)])
        of.links[1] = street("ew", 1, 0, [(1000, -2), (0, -2)])
        drawn = lines_of(street_map(of, strokes(of), "map"))
        self.assertLess(drawn["we"][0][1], drawn["ew"][0][1] - 6)

    def test_a_street_of_one_direction_stays_where_it_is(self):
        of = mapping([street("nw", 2, 0, [(1000, 100), (0, 0)])])
        drawn = lines_of(street_map(of, strokes(of), "map"))
        middle = [tuple(sum(pair) / 2 for pair in zip(*ends)) for ends in zip(drawn["we"], reversed(drawn["ew"]))]
        self.assertLess(hypot(*(a - b for a, b in zip(drawn["nw"][-1], middle[0]))), 0.2)

    def test_lanes_that_are_apart_by_themselves_are_not_moved(self):
        of = mapping()
        of.links[1] = street("ew", 1, 0, [(1000, 30), (0, 30)])
        drawn = lines_of(street_map(of, strokes(of), "map"))
        (left, down), (right, _) = drawn["we"]
        self.assertAlmostEqual(down - drawn["ew"][0][1], 30 * (right - left) / 1000, 0)

    def test_a_bend_stays_as_wide(self):
        bent = moved([(0.0, 0.0), (10.0, 0.0), (10.0, 10.0)], 2.0)
        self.assertEqual([(round(x, 6), round(y, 6)) for x, y in bent], [(0, 2), (8, 2), (8, 10)])
        back = moved([(0.0, 0.0), (10.0, 0.0), (0.0, 0.0)], 2.0)
        self.assertLess(max(hypot(x, y) for x, y in back), 11, "a way that turns back has no peak")


class Texts(Case):
    def test_the_bar_is_as_long_as_it_says(self):
        of = mapping()
        picture = street_map(of, strokes(of), "map")
        [(begin, end)] = re.findall(r'class="bar"><polyline points="([\d.]+),[^"]* ([\d.]+),[\d.]+"/>', picture)
        told = re.search(r'class="bar">.*?<text[^>]*>([\d.]+) (k?m)</text>', picture)
        metres = float(told[1]) * (1000 if told[2] == "km" else 1)
        (left, _), (right, _) = lines_of(picture)["we"]
        self.assertAlmostEqual((float(end) - float(begin)) / (right - left), metres / 1000, 2)
        self.assertIn(">N</text>", picture)

    def test_names_once_where_there_is_room(self):
        of = mapping(names={"we": LONG, "ew": LONG, "en": SHORT, "ne": SHORT})
        picture = street_map(of, strokes(of), "map")
        self.assertEqual(re.findall(r'class="label">(.*?)<', picture), [LONG])

    def test_without_names_of_streets_junctions_with_lights_or_marks_have_their_ids(self):
        of = mapping()
        self.assertEqual(re.findall(r'class="label">(.*?)<', street_map(of, strokes(of), "map")), ["E"])
        picture = street_map(of, strokes(of), "map", {"W": ["<circle/>"], "N": ["<circle/>"]})
        self.assertEqual(sorted(re.findall(r'class="label">(.*?)<', picture)), ["N", "W"])

    def test_no_name_lies_on_another_or_on_a_street(self):
        rows = range(0, 900, 90)
        nodes = [MapNode(f"{x},{y}", x, y, 0) for x in (0, 900) for y in rows]
        links = [
            street(f"e{at}", at, at + len(rows), [(0, y), (900, y)]) for at, y in enumerate(rows)
        ] + [street(f"n{x}", 0, 0, [(x, 0), (x, 810)]) for x in range(40, 900, 130)]
        names = {link.edge: link.edge for link in links}
        of = Map(nodes, links, [], [], [], {}, [], names={"edges": names})
        picture = street_map(of, strokes(of, 4.0), "map")
        text = r'<text x="(.*?)" y="(.*?)" dy="4" transform="rotate\((.*?) .*?class="label">(.*?)<'
        written = re.findall(text, picture)
        self.assertEqual(len(written), len(links))
        boxes = []
        for x, y, turn, name in written:
            half = text_width(name) / 2, 5
            wide, high = half if float(turn) == 0 else half[::-1]
            boxes.append((float(x) - wide, float(y) - high, float(x) + wide, float(y) + high))
        lines = [(x0 - 2, y0 - 2, x1 + 2, y1 + 2) for (x0, y0), (x1, y1) in map(sorted, lines_of(picture).values())]
        lines = [(x0, min(y0, y1), x1, max(y0, y1)) for x0, y0, x1, y1 in lines]
        for one, other in [*combinations(boxes, 2), *((box, line) for box in boxes for line in lines)]:
            apart = one[2] <= other[0] or other[2] <= one[0] or one[3] <= other[1] or other[3] <= one[1]
            self.assertTrue(apart, (one, other))

    def test_what_is_taken_is_taken(self):
        room = Room(100, 100)
        self.assertTrue(room.took([(20, 20), (60, 20)], 6))
        self.assertFalse(room.took([(40, 10), (40, 60)], 6))
        self.assertFalse(room.took([(97, 50)], 6), "beyond the picture")
        self.assertTrue(room.took([(20, 40), (60, 40)], 6))


class Legends(Case):
    def test_all_maps_have_a_bar_and_keys(self):
        of = mapping()
        junctions = {"E": ("F", "E: 99 s", True)}
        service = service_map(of, {"we": ("F", "we")}, junctions, {"E": 7.0}, [("ne", [(1000, 90), (1000, 60)])])
        for picture in (service, difference_map(of, {"we": 3.0})):
            self.assertEqual(picture.count('class="bar"'), 1)
        self.assertEqual(service.count('class="works"'), 1)
        figure = map_figure(service, "caption", service_keys({"F"}, True))
        keys = re.findall(r"</svg> (.*?)</span>", figure)
        self.assertEqual(keys, ["F", "no approach, or nobody came", "road works"])


if __name__ == "__main__":
    unittest.main()
