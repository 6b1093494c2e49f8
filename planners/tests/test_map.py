"""`map`: what can be read in a picture at three sizes, and that the same network gives the same bytes."""

from __future__ import annotations

from itertools import combinations
from unittest import SkipTest

from .helper import INSTANCES, InFolder, lacks

if lacks("numpy", "matplotlib"):
    raise SkipTest(lacks("numpy", "matplotlib"))

import numpy as np
from matplotlib import pyplot

from .networks import made
from planning.drawing import MOST_TRUNKS, picture
from planning.places import from_distances


class Pictures(InFolder):
    """Pictures of networks of 10, 25 and 200 nodes, and of as many hubs as nodes."""

    def names(self, size: int, hubs: int) -> list[str]:
        """The names that are drawn, of which no two lie on each other."""
        named, places = made(size, hubs)
        figure = picture(named, places, "", "")
        self.addCleanup(pyplot.close, figure)
        texts = [text for text in figure.axes[0].texts if text.get_text()]
        boxes = [text.get_window_extent() for text in texts]
        self.assertEqual([box.count_overlaps(boxes) for box in boxes], [1] * len(boxes))
        legend = [text.get_text() for text in figure.axes[0].get_legend().get_texts()]
        self.assertEqual(any("strongest" in text for text in legend), hubs * (hubs - 1) // 2 > MOST_TRUNKS)
        if size <= 25:
            # All trunks are strong here, and there is room beside them.
            for start, stop in combinations(places[:hubs], 2):
                on_trunk = figure.axes[0].transData.transform(np.linspace(start, stop, 100))
                self.assertFalse(any(box.contains(x, y) for x, y in on_trunk for box in boxes))
        return [text.get_text() for text in texts]

    def test_names_at_three_sizes(self) -> None:
        self.assertEqual(len(self.names(10, 3)), 10)
        self.assertEqual(len(self.names(25, 4)), 25)
        names = self.names(200, 12)
        self.assertTrue({f"Place {hub}" for hub in range(12)} <= set(names))
        self.assertGreater(len(names), 50)
        self.assertGreater(len(self.names(40, 40)), 20)

    def test_places_from_distances(self) -> None:
        _, places = made(12, 2)
        lengths = np.hypot(*(places[:, None] - places).transpose(2, 0, 1))
        drawn = from_distances(lengths)
        self.assertTrue(np.allclose(np.hypot(*(drawn[:, None] - drawn).transpose(2, 0, 1)), lengths))
        self.assertEqual(from_distances(np.zeros((1, 1))).tolist(), [[0, 0]])

    def test_a_whole_run(self) -> None:
        words = ["ap", "districts.txt", "--divide", "1000", "--tail", "fixed", "--candidates", "3,4,5"]
        self.write("districts.txt", (INSTANCES / "districts.txt").read_text())
        self.solve("districts.cert", *words)
        for out in ("map.svg", "again.svg", "map.png"):
            ended = self.script("map", *words[:2], "districts.cert", *words[2:], "--title", "Ten", "--out", out)
            self.assertEqual((ended.returncode, ended.stdout, ended.stderr), (0, "", ""))
        self.assertEqual(self.read("map.svg"), self.read("again.svg"))
        ended = self.script("map", *words[:2], "districts.cert", *words[2:], "--out", "map.gif")
        self.assert_fault(ended, "map: --out wants a name that ends in one of .png, .svg, .pdf, found 'map.gif'")
