"""`convert` on files written by hand, in each kind, and on their faults."""

from __future__ import annotations

from .helper import InFolder

AP = "2\n38 62\n78 246\n3 4\n4 6\n1\n3 0.75 2\n"
FLOWS = "0 1\n2 0\n"
DISTANCES = "0 10\n10.5 0\n"
ROWS = "1 2 1 10\n2 1 2 10.5\n"
NODES = "name,x,y,fixed\nWest,0,0,7\nEast,3,4,8\n"
GLOBE = "name,lon,lat\nNull,0,0\nQuarter,90,0\n"
TABLE = "origin,destination,amount\nWest,East,2.5\n"


class Kinds(InFolder):
    """What is written of each kind."""

    def convert(self, *words: str) -> str:
        """The words for `hub` that the script prints."""
        ended = self.script("convert", *words, "--out", "made")
        self.assertEqual((ended.returncode, ended.stderr), (0, ""))
        return ended.stdout.strip()

    def test_ap_with_costs_as_a_file_and_as_a_tail(self) -> None:
        self.write("ap", AP)
        self.write("costs", "1200\n1300\n")
        words = "hub optimize ap made.txt --costs made.costs.txt"
        self.assertEqual(self.convert("ap", "ap", "--costs", "costs"), words)
        self.assertEqual(self.read("made.txt"), AP)
        self.assertEqual(self.read("made.costs.txt"), "1200 1300\n")
        self.assertEqual(self.read("made.names.csv"), "node,name,x,y\n1,1,38,62\n2,2,78,246\n")
        words = "hub optimize ap made.txt --tail fixed"
        self.assertEqual(self.convert("ap", "ap", "--costs", "costs", "--tail"), words)
        self.assertEqual(self.read("made.txt"), AP + "1200 1300\n")

    def test_ap_with_a_tail_of_costs_into_a_matrix(self) -> None:
        self.write("ap", AP + "1200 1300\n")
        words = "hub optimize cab-matrix made.txt --costs made.costs.txt --collect 3 --trunk 0.75 --deliver 2"
        self.assertEqual(self.convert("ap", "ap", "--to", "cab-matrix"), words)
        # The straight line between the places is 188.297.. long: the root of 40 * 40 + 184 * 184.
        self.assertEqual(self.read("made.txt"), "2\n3 4\n4 6\n0.000 188.297\n188.297 0.000\n")
        self.convert("ap", "ap", "--ignore-tail")
        self.assertEqual(self.read("made.txt"), AP)

    def test_ap_with_its_rows_over_several_lines(self) -> None:
        # As published files have it: numbers in columns with an exponent, a row over several lines, one factor a line.
        flows = ["3.0000000e+00", "4.0000000e+00", "5.0000000e+00"]
        rows = "".join(f"  {flows[i]}   {flows[i - 1]} \r\n  {flows[i - 2]} \r\n" for i in range(3))
        places = "".join(f"  {place}.0000000e+00   0.0000000e+00\r\n" for place in range(3))
        tail = "    2\r\n  3.000000\r\n  0.750000\r\n  2.000000\r\n"
        self.write("ap", "    3\r\n" + places + rows + tail)
        self.write("costs", "   7.1250\r\n   8.0000\r\n   9.0000\r\n")
        words = "hub optimize ap made.txt --costs made.costs.txt"
        self.assertEqual(self.convert("ap", "ap", "--costs", "costs"), words)
        words = self.read("made.txt").split()
        self.assertEqual(words[7:16], [flows[i] for i in (0, 2, 1, 1, 0, 2, 2, 1, 0)])
        self.assertEqual(words[16:], ["2", "3.000000", "0.750000", "2.000000"])
        self.assertEqual(self.read("made.costs.txt"), "7.1250 8.0000 9.0000\n")

    def test_matrices_in_one_file_and_in_two(self) -> None:
        whole = "2\n" + FLOWS + DISTANCES
        self.write("one", whole)
        self.write("turned", "2\n" + DISTANCES + FLOWS)
        self.write("flows", FLOWS)
        self.write("distances", "2\n" + DISTANCES)
        self.write("names", GLOBE)
        for words in (["one"], ["turned", "--distance-first"], ["flows", "distances", "--names", "names"]):
            self.assertEqual(self.convert("matrices", *words), "hub optimize cab-matrix made.txt")
            self.assertEqual(self.read("made.txt"), whole)
        self.assertEqual(self.read("made.names.csv"), "node,name,longitude,latitude\n1,Null,0,0\n2,Quarter,90,0\n")

    def test_rows_with_and_without_a_size(self) -> None:
        for text in (ROWS, "2\n" + ROWS):
            self.write("rows", text)
            self.assertEqual(self.convert("rows", "rows", "--to", "cab-rows"), "hub optimize cab-rows made.txt")
            self.assertEqual(self.read("made.txt"), "2\n" + ROWS)

    def test_tables_in_the_plane_and_on_the_globe(self) -> None:
        self.write("nodes", NODES)
        self.write("flows", TABLE)
        self.assertEqual(self.convert("csv", "nodes", "flows", "--tail"), "hub optimize ap made.txt --tail fixed")
        self.assertEqual(self.read("made.txt"), "2\n0 0\n3 4\n0 2.5\n0 0\n0\n1 1 1\n7 8\n")
        self.write("globe", GLOBE.replace(",", ";"))
        self.write("flows", "origin;destination;amount\nNull;Quarter;1\n")
        self.convert("csv", "globe", "flows", "--delimiter", ";")
        # A quarter of a circle of 6371.0088 km.
        self.assertEqual(self.read("made.txt"), "2\n0 1\n0 0\n0.000 10007.557\n10007.557 0.000\n")

    def test_parts(self) -> None:
        self.write("flows", "11 12 13\n21 22 23\n31 32 33\n")
        self.write("costs", "1 2 3")
        for words in (["--only", "3,1"], ["--only", "south,1", "--names", "names"]):
            self.write("names", "name\nwest\nmiddle\nsouth\n")
            self.convert("matrices", "flows", "flows", "--costs", "costs", *words)
            self.assertEqual(self.read("made.txt"), "2\n33 31\n13 11\n33 31\n13 11\n")
            self.assertEqual(self.read("made.costs.txt"), "3 1\n")
        self.convert("matrices", "flows", "flows", "--first", "1")
        self.assertEqual(self.read("made.txt"), "1\n11\n11\n")

    def test_each_layout_has_the_same_least_cost(self) -> None:
        self.write("ap", AP + "1200 1300\n")
        costs = []
        for layout in ("ap", "cab-matrix", "cab-rows"):
            words = self.convert("ap", "ap", "--to", layout).split()[2:]
            self.solve("made.cert", *words)
            # Both are hubs: 2500 for them, and 8 of flow over 188.297 at a factor of 0.75.
            costs.append(self.hub("check", *words[:2], "made.cert", *words[2:]).stdout)
        self.assertEqual(costs, ["optimal 3629.782000000000\n"] * 3)


class Faults(InFolder):
    """A wrong line is reported with file, line and what was wanted; nothing is written."""

    def refused(self, texts: list[str], line: str, *words: str) -> None:
        """Files a, b, .. with these texts are refused with this line."""
        names = [self.write(name, text).name for name, text in zip("abc", texts)]
        before = sorted(self.folder.iterdir())
        kind, *options = words
        self.assert_fault(self.script("convert", kind, *names, *options, "--out", "made"), "convert: " + line)
        self.assertEqual(sorted(self.folder.iterdir()), before)

    def test_ap(self) -> None:
        self.refused(
            [AP.replace("246", "x")],
            "a:3: wanted a coordinate y of 2, a number from -1000000 to 1000000, found 'x'",
            "ap",
        )
        self.refused([AP.replace("4 6", "4")], "a:5: wanted row 2 of 2 numbers, a flow each, found 1 numbers", "ap")
        self.refused(
            [AP + "5\n"], "a:8: wanted a fixed cost of 2, a number from 0 to 1000000000000, the file ends", "ap"
        )
        self.refused([AP + "5 6\n7\n"], "a:9: wanted the end of the file, found '7'", "ap")
        self.refused(["201\n"], "a:1: wanted the number of nodes, a number from 1 to 200, found '201'", "ap")

    def test_matrices(self) -> None:
        self.refused([FLOWS, "0 1 2\n1 0 2\n1 1 0\n"], "b: wanted 2 nodes as in a, found 3", "matrices")
        self.refused(
            [FLOWS, "0 1\n-1 0\n"],
            "b:2: wanted a distance from 2 to 1, a number from 0 to 10000000, found '-1'",
            "matrices",
        )
        self.refused(
            ["0 1\n2\n", DISTANCES], "a:2: wanted row 2 of 2 numbers, a flow each, found 1 numbers", "matrices"
        )
        self.refused(
            ["2\n" + FLOWS + "0 1\n"],
            "a:4: wanted a distance from 2 to 1, a number from 0 to 10000000, the file ends",
            "matrices",
        )

    def test_rows(self) -> None:
        self.refused([ROWS + "2 1 5 5\n"], "a:3: wanted each pair once, found 2 1 again", "rows")
        self.refused(["2\n1 2 1 10\n"], "a:2: wanted a row for the pair 2 1, the file ends", "rows")
        self.refused(["2\n1 3 1 10\n"], "a:2: wanted a node j, a number from 1 to 2, found '3'", "rows")
        self.refused(["1 2 1 10\n2 1 2\n"], "a:2: wanted a row `i j flow distance`, found 3 numbers", "rows")

    def test_tables(self) -> None:
        self.refused(
            [NODES, TABLE + "West,East,1\n"],
            "b:3: wanted in the column 'destination' a pair that stands once (West to East stood before), found 'East'",
            "csv",
        )
        self.refused(
            [NODES, TABLE + "West,South,1\n"],
            "b:3: wanted in the column 'destination' a name of the table of nodes, found 'South'",
            "csv",
        )
        self.refused(
            [NODES, TABLE.replace("2.5", "many")],
            "b:2: wanted in the column 'amount' a flow, a number from 0 to 10000000, found 'many'",
            "csv",
        )
        self.refused(
            [NODES + "West,1,1,1\n", TABLE],
            "a:4: wanted in the column 'name' a name that stands once, found 'West'",
            "csv",
        )
        self.refused([NODES + "North,1\n", TABLE], "a:4: wanted 4 cells, found 2 cells", "csv")
        self.refused(
            ["name,x\nWest,1\n", TABLE],
            "a:1: wanted the columns 'x' and 'y', or 'longitude' and 'latitude', found neither",
            "csv",
        )
        self.refused(
            [NODES, "origin,amount\n"],
            "b:1: wanted the column 'destination' in the header, found 'origin,amount'",
            "csv",
        )
        self.refused(
            [NODES.replace(",", ";"), TABLE],
            "a:1: wanted the column 'name' in the header, found 'name;x;y;fixed', with ';' between; say it by"
            " --delimiter",
            "csv",
        )

    def test_a_text_that_is_not_in_utf_8(self) -> None:
        (self.folder / "latin").write_bytes(NODES.replace("East", "Öst").encode("latin-1"))
        self.write("flows", TABLE)
        ended = self.script("convert", "csv", "latin", "flows", "--out", "made")
        self.assert_fault(ended, "convert: latin:3: wanted a text in UTF-8, found the byte D6")

    def test_words(self) -> None:
        self.refused([FLOWS, DISTANCES], "--first wants 1 to 2, found 3", "matrices", "--first", "3")
        self.refused(
            [FLOWS, DISTANCES],
            "--only wants names or numbers of nodes, each once, found '3'",
            "matrices",
            "--only",
            "1,3",
        )
        self.refused(
            [FLOWS, DISTANCES],
            "the layout ap wants nodes with plane places x and y, and no distances of their own",
            "matrices",
            "--to",
            "ap",
        )
        self.refused([AP], "--tail wants the layout ap and fixed costs", "ap", "--tail")
        self.write("made.txt", AP)
        ended = self.script("convert", "ap", "made.txt", "--out", "made")
        self.assert_fault(ended, "convert: made.txt: this is one of the files to read; choose another --out")
        self.assert_fault(
            self.script("convert", "ap", "nowhere", "--out", "made"), "convert: nowhere: No such file or directory"
        )
        ended = self.script("convert", "oracle")
        self.assertEqual((ended.returncode, ended.stderr.count("\n")), (2, 1))
