"""Tests of tools/report-picture: the numbers and places of its lines, made by hand from a small report."""

import unittest
import xml.etree.ElementTree

from case import Case

# The totals before each pass and behind each level: (0, 0, 8), (6, 4, 2), (7, 2, 1).
REPORT = ("pass 1 2 1: 0 good, 0 bad, 8 missed; 5 candidates, 3 chosen, 2 hopeless, 0 left; 6 good, 4 bad\n"
          "level 1: 3 chosen, 6 good, 4 bad, 2 missed\nlevel 2: 1 chosen, 7 good, 2 bad, 1 missed\ntotal: 7 good, 2 bad, 1 missed\n")
GREEN, RED, GREY = "#2a7d4f", "#c0392b", "#8a8a8a"


class Pictures(Case):
    def lines(self, drawn):
        """The coloured lines of a picture."""
        return [(it.get("stroke"), it.get("points")) for it in drawn.iter("{http://www.w3.org/2000/svg}polyline") if it.get("stroke") in (GREEN, RED, GREY)]

    def test_the_picture(self):
        status, printed, said = self.run_script("report-picture", self.put("r", REPORT))
        self.assertEqual((status, said), (0, ""))
        drawn = xml.etree.ElementTree.fromstring(printed)
        # Above 240 points are 8, and begin at 280; below 150 are 4, and begin at 470.
        self.assertEqual(self.lines(drawn), [(GREY, "70.0,40.0 420.0,220.0 770.0,250.0"), (RED, "70.0,280.0 420.0,160.0 770.0,220.0"),
                                             (GREEN, "70.0,280.0 420.0,100.0 770.0,70.0"), (GREY, "70.0,320.0 420.0,395.0 770.0,432.5"),
                                             (RED, "70.0,470.0 420.0,320.0 770.0,395.0")])
        texts = [(it.get("x"), it.get("y"), it.text) for it in drawn if it.tag.endswith("text")]
        self.assertEqual(texts[:3], [("87.0", "22.0", "good"), ("167.0", "22.0", "bad"), ("247.0", "22.0", "missed")])
        for text in (("420.0", "296.0", "level 1"), ("770.0", "296.0", "level 2"), ("62.0", "44.0", "8"), ("62.0", "284.0", "0"),
                     ("780.0", "314.0", "bad and missed once more, up to 4; what is missed is cut off above")):
            self.assertIn(text, texts)
        self.assertEqual([it.get("fill") for it in drawn if it.tag.endswith("rect")], ["white", GREEN, RED, GREY])

    def test_the_page(self):
        status, printed, said = self.run_script("report-picture", "--html", self.put("a&b", REPORT))
        self.assertEqual((status, said), (0, ""))
        self.assertIn("<title>a&amp;b</title>", printed)
        page = xml.etree.ElementTree.fromstring(printed.replace("<!DOCTYPE html>", "").replace('<meta charset="utf-8">', ""))
        levels, passes = ([[cell.text for cell in row] for row in table] for table in page.iter("table"))
        self.assertEqual(levels, [["level", "chosen", "good", "bad", "missed"], ["1", "3", "6", "4", "2"], ["2", "1", "7", "2", "1"]])
        self.assertEqual(passes, [["level", "length", "dot", "good", "bad", "missed", "candidates", "chosen", "hopeless", "left", "+ good", "+ bad"],
                                  ["1", "2", "1", "0", "0", "8", "5", "3", "2", "0", "6", "4"]])

    def test_several_reports(self):
        whole = self.run_script("report-picture", self.put("r", REPORT))[1]
        one, two = REPORT.split("level 2")
        self.put("one", one)
        self.prints(whole, "report-picture", "one", self.put("two", "level 2" + two))
        why = "its levels have to be greater than 2, the last one of the report before it. Make a picture of each run"
        for other in ("r", "two"):
            self.refuses(f"{other}: {why}", "report-picture", "r", other)
        self.refuses("r: no level stands there", "report-picture", self.put("r", "level\n"))


if __name__ == "__main__":
    unittest.main()
