"""The pictures of lib/flowlabel/bill.gnuplot.

Each label must be in the picture byte for byte, whatever gnuplot takes its characters for, and each bar must have the
height of its bytes, in whichever column these are. An empty table must give a picture too, and a text without a column
`bytes` must be refused without one. Sums by minute must be drawn over the time.
"""

import os
import xml.etree.ElementTree

from support import MANY, ROOT, Case, needs, rows, run, texts, write

SCRIPT = ROOT / "lib/flowlabel/bill.gnuplot"
LABELS = ("Alder", "a_b^2", "{/Bold x} @q", 'say "hi"', '"quoted"', '5" pipe', "it's", "back\\nslash\\\\",
          "\\042 end\\",
          "%d $1 `date`", "<b>&amp;", "Überall", "NaN", "5", "one|two||three", "a | b", "- 7", "~a{.8-}", "")
TITLE = "dst-label|records|packets|bytes\n"
MINUTES = "minute|records|packets|bytes\n0|9|9|900\n2023-11-14T22:13Z|1|1|100\n2023-11-14T22:15Z|2|2|50\n"
SVG = "{http://www.w3.org/2000/svg}"


@needs("gnuplot")
class Pictures(Case):
    """Pictures of tables."""

    def draw(self, kind, text, name="bill.txt", locale="C"):
        """Draws a table, and returns the texts of the picture and the heights of its bars."""
        write(name, text)
        quoted = name.replace("\\", "\\\\").replace('"', '\\"').replace("\n", "\\n")
        self.assertEqual(texts("gnuplot", "-e", f'{kind} = "{quoted}"; picture = "out.svg"', SCRIPT,
                               variables={"LC_ALL": locale}), (0, "", ""))
        self.addCleanup(os.remove, "out.svg")
        root = xml.etree.ElementTree.parse("out.svg").getroot()
        found = ["".join(node.itertext()).strip("\n") for node in root.iter(f"{SVG}text")]
        bars = [[float(pair.split(",")[1]) for pair in node.get("points").split()]
                for node in root.iter(f"{SVG}polygon")]
        return found, [max(ys) - min(ys) for ys in bars]

    @rows(*((label, ("C", "C.UTF-8")[number % 2]) for number, label in enumerate(LABELS)))
    def test_label(self, label, locale):
        found, heights = self.draw("bill", f"{TITLE}{label}|1|2|300\nother|1|2|100\n", locale=locale)
        self.assertEqual(found[-3:], [label, "other", "Bytes by customer"])
        self.assertAlmostEqual(heights[0], 3 * heights[1], delta=1)

    # A quote or a line feed must not end the name of a table in a command.
    @rows(("bill.txt", "C"), ("a b'c\nd.txt", "C.UTF-8"), ("-b.txt", "C"))
    def test_all_labels(self, name, locale):
        lines = "".join(f"{label}|1|2|{number}\n" for number, label in enumerate(LABELS, 1))
        found, heights = self.draw("bill", TITLE + lines, name, locale)
        self.assertEqual(found[-1 - len(LABELS):-1], list(LABELS))
        self.assertEqual(len(heights), len(LABELS))

    @rows(("sip|bytes|packets|records", "A|300|2|1\nB|100|2|1"),
          ("label|records|packets|bytes|share", "A|1|2|300|0.75\nB|1|2|100|0.25"),
          ("src-label|proto|records|packets|bytes", "A|6|1|2|300\nB|6|1|2|100"),
          ("dst-label|records|packets|bytes", "        A|      1|      2|  300\n        B|      1|      2|  100"),
          ("  dst-label|records|packets| bytes", "          A|      1|      2|   300\n    B|1|2| 100"))
    def test_columns(self, title, lines):
        found, heights = self.draw("bill", f"{title}\n{lines}\n")
        self.assertEqual([text.strip() for text in found[-3:-1]], ["A", "B"])
        self.assertAlmostEqual(heights[0], 3 * heights[1], delta=1)

    @rows(("bill", TITLE), ("minutes", "minute|records|packets|bytes\n"), ("minutes", MINUTES[:47]))
    def test_no_lines(self, kind, text):
        found, heights = self.draw(kind, text)
        self.assertEqual((heights, found[-1][:8]), ([], "Bytes by"))

    @rows(("",), ("low|high|label\n",), ("bytes of nothing\n",))
    def test_no_table(self, text):
        write("bill.txt", text)
        status, output, error = texts("gnuplot", "-e", 'bill = "bill.txt"; picture = "out.svg"', SCRIPT)
        self.assertGreater(status, 0)
        self.assertRegex((output + error).strip(), r"\A.*bill\.txt: no table.*\Z")
        self.assertFalse(os.path.exists("out.svg") and os.path.getsize("out.svg"))

    def test_minutes(self):
        found, heights = self.draw("minutes", MINUTES)
        clock = [text for text in found if len(text) == 5 and text[2] == ":"]
        self.assertLessEqual({"22:13", "22:14", "22:15"}, set(clock))
        self.assertEqual(len(set(clock)), len(clock))
        self.assertEqual(len(heights), 2)
        self.assertAlmostEqual(heights[0], 2 * heights[1], delta=1)

    def test_sums_by_minute(self):
        table = run(MANY, "sum", "--by", "minute", ROOT / "examples/softflowd-milli.ipfix", check=True).stdout
        self.assertEqual(len(self.draw("minutes", table)[1]), table.count(b"\n") - 1)
