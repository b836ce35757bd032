"""Turning counts as offices have them: thirty files of ten habits are read rightly, or asked back at a cell."""
import csv
import datetime
import unittest
from importlib.util import find_spec

from support import DATA, Case, needs_package

from streetsim.base.files import Fault
from streetsim.demand.grids import read_grid
from streetsim.demand.turning_counts import TurningReader

H = 3600
# By habit: (text, how many counts, one of them as (begin, end, arm, turn, vehicles)).
READ = {
    "a row for each period and arm, in English": (
        ("Time;Approach;Left;Through;Right\n07:00;West;24;186;19\n07:15;West;29;203;23\n", 6,
         (7 * H, 7 * H + 900, "W", "T", 186)),
        ("begin,end,arm,L,T,R\n07:00,08:00,N,1,2,3\n", 3, (7 * H, 8 * H, "N", "R", 3)),
        ("Start\tLeg\tLT\tStraight\tRT\tU-turn\n16:30\tEastern\t1\t2\t3\t4\n16:45\tEastern\t5\t6\t7\t0\n", 8,
         (16.5 * H, 16.75 * H, "E", "U", 4)),
    ),
    "in German, decimal commas, totals": (
        ("Uhrzeit;Zufahrt;Links;Geradeaus;Rechts;Summe\n7.00;Ost;1;2,5;3;6,5\n7.15;West;4;5;6;15\n", 6,
         (7 * H, 7.25 * H, "E", "T", 2.5)),
        ("von;bis;Knotenarm;L;G;R\n06:00;06:15;Süd;10;20;30\n", 3, (6 * H, 6.25 * H, "S", "T", 20)),
        ("Zeit;Ast;linksabbieger;Gerade;Rechtsabbieger\n6 Uhr;Nordost;1;2;3\n7 Uhr;Nordost;1;2;3\nSumme;;2;4;6\n", 6,
         (6 * H, 7 * H, "NE", "L", 1)),
    ),
    "in French": (
        ("heure;branche;gauche;tout droit;droite\n7h00;Ouest;1;2;3\n7h15;Ouest;4;5;6\n", 6,
         (7 * H, 7.25 * H, "W", "R", 3)),
        ("Début;Fin;Entrée;G;D\n17:00;17:15;Est;7;8\n", 2, (17 * H, 17.25 * H, "E", "L", 7)),
        ("tranche;approche;tourne à gauche;direct;tourne à droite\n8h-9h;Sud;70;80;90\n", 3,
         (8 * H, 9 * H, "S", "L", 70)),
    ),
    "in Spanish": (
        ("hora;acceso;izquierda;recto;derecha\n07:00-07:15;Norte;1;2;3\n", 3, (7 * H, 7.25 * H, "N", "T", 2)),
        ("Desde;Hasta;Ramal;I;R;D\n07:00;07:15;Oeste;4;5;6\n", 3, (7 * H, 7.25 * H, "W", "T", 5)),
        ("hora;brazo;izq;frente;dcha\n7:00;Este;1;2;3\n7:30;Este;1;2;3\n", 6, (7 * H, 7.5 * H, "E", "R", 3)),
    ),
    "a row for each movement": (
        ("time,arm,turn,vehicles\n07:00-07:15,N,left,5\n07:00-07:15,N,right,6\n", 2, (7 * H, 7.25 * H, "N", "L", 5)),
        ("Zeit;Zufahrt;Richtung;Kfz\n07:00;Ost;Links;5\n", None, "'Richtung'"),
        ("begin,end,approach,movement,count\n0700,0715,South,thru,12\n", 1, (7 * H, 7.25 * H, "S", "T", 12)),
    ),
    "a column for each movement": (
        ("Time,NBL,NBT,NBR,SBL,SBT,SBR\n7:00 AM,1,2,3,4,5,6\n7:15 AM,1,2,3,4,5,6\n", 12,
         (7 * H, 7.25 * H, "S", "L", 1)),
        ("time,N left,N through,E right\n07:00,1,2,3\n08:00,1,2,3\n", 6, (7 * H, 8 * H, "E", "R", 3)),
        ("Zeit;Nord-Ost;Nord-Süd;Ost-Nord\n7:00;1;2;3\n7:15;4;5;6\n", 6, (7 * H, 7.25 * H, "N", ">E", 1)),
    ),
    "matrices of turns": (
        ("07:00-08:00\nfrom/to;N;E;S;W\nN;-;1;2;3\nE;4;-;5;6\nS;7;8;-;9\nW;1;2;3;-\n", 12,
         (7 * H, 8 * H, "W", ">E", 2)),
        ("Zeit;07:00-07:15\nvon/nach;Nord;Ost\nNord;;11\nOst;12;\n"
         "Zeit;07:15-07:30\nvon/nach;Nord;Ost\nNord;;13\nOst;14;\n", 4,
         (7.25 * H, 7.5 * H, "E", ">N", 14)),
        ("17h00-18h00\nde/vers;Nord;Est;total\nNord;;10;10\nEst;20;;20\ntotal;20;10;30\n", 2,
         (17 * H, 18 * H, "N", ">E", 10)),
    ),
    "with what is no vehicle beside": (
        ("time,end,arm,left,through,right,heavy,pedestrians,bikes\n7:00,7:15,N,1,2,3,10,44,5\n", 3,
         (7 * H, 7.25 * H, "N", "L", 1)),
        ("Zeit;bis;Zufahrt;Links;Gerade;Rechts;SV;Fußgänger;Rad\n7:00;7:15;Ost;1;2;3;4;5;6\n", 3,
         (7 * H, 7.25 * H, "E", "R", 3)),
        ("# counted on a Tuesday\n\ntime,end,arm,left,right\n7:00,7:15,N,1,\n7:00,7:15,S,-,4\n", 2,
         (7 * H, 7.25 * H, "S", "R", 4)),
    ),
    "thousands": (
        ("time,end,arm,through\n7:00,8:00,N,\"1,234.5\"\n", 1, (7 * H, 8 * H, "N", "T", 1234.5)),
        ("Zeit;bis;Zufahrt;gerade;links\n7:00;8:00;Ost;1.234;10,5\n", 2, (7 * H, 8 * H, "E", "T", 1234)),
        ("heure;fin;branche;direct\n7:00;8:00;Est;1 234\n", 1, (7 * H, 8 * H, "E", "T", 1234)),
    ),
}
ASKED = (  # (text, cell, what is asked)
    ("time,end,arm,L,G,R\n07:00,07:15,O,1,2,3\n07:00,07:15,N,1,5,6\n", "C2", "'O' may be E or W"),
    ("time,end,arm,through\n7:00,8:00,N,1.234\n", "D2", "'1.234' may be 1234 or 1.234"),
    ("time,arm,left\n07:00,N,5\n", "C2", "all rows begin at one time, and none says when it ends"),
    ("time,end,arm,left,through\n7:00,7:15,N,\"1,5\",2.5\n", "D2", "has a decimal comma"),
    ("time,end,arm,left,sum\n7:00,7:15,N,3,4\n", "E2", "is not the sum of its row"),
    ("arm,left\nN,3\n", "A1", "no column has times"),
    ("time,end,arm,G\n7:00,7:15,N,3\n", "D1", "turns: "),
)


class TurningCounts(Case):
    def read(self, text, name="counts.csv", encoding="utf-8"):
        """(table, slips) of a file's text."""
        path = self.folder / name
        path.write_bytes(text.encode(encoding))
        told = []
        reader = TurningReader(lambda cell, wrong, right: told.append(f"{cell.place}: {wrong}: {right}"))
        return reader.read(read_grid(path)), told

    def test_files_of_many_habits_are_read(self):
        for habit, cases in READ.items():
            for text, count, expected in cases:
                with self.subTest(habit, text=text):
                    table, told = self.read(text)
                    if count is None:
                        self.assertIn(expected, " ".join(told))
                        continue
                    self.assertEqual(told, [])
                    self.assertEqual(len(table.counts), count)
                    found = [(one.begin, one.end, one.arm, one.turn, one.vehicles) for one in table.counts]
                    self.assertIn(expected, found)

    def test_what_may_be_two_things_is_asked_back(self):
        for text, place, question in ASKED:
            with self.subTest(text):
                _, told = self.read(text)
                self.assertTrue(any(line.startswith(f"{place}: ") and question in line for line in told), told)

    def test_what_is_no_vehicle_is_kept_apart(self):
        table, _ = self.read(READ["with what is no vehicle beside"][0][0])
        self.assertEqual(table.not_vehicles, {"pedestrians": 44, "cycles": 5})
        self.assertEqual({one.heavy for one in table.counts}, {0.1})

    def test_a_file_of_windows_has_its_umlauts(self):
        table, told = self.read("Zeit;bis;Zufahrt;Links\n7:00;7:15;Süd;9\n", encoding="cp1252")
        self.assertEqual(([one.arm for one in table.counts], told), (["S"], []))

    @needs_package("python3-openpyxl", find_spec("openpyxl"))
    def test_a_workbook_is_read_with_its_times(self):
        import openpyxl

        book = openpyxl.Workbook()
        for row in (("Time", "End", "Approach", "Left", "Right"),
                    (datetime.time(7, 0), datetime.time(7, 15), "West", 24, 19.5)):
            book.active.append(row)
        path = self.folder / "counts.xlsx"
        book.save(path)
        told = []
        table = TurningReader(lambda *slip: told.append(slip)).read(read_grid(path))
        found = [(one.begin, one.end, one.arm, one.turn, one.vehicles, one.cell.place) for one in table.counts]
        self.assertEqual(told, [])
        period = 7 * H, 7.25 * H
        self.assertEqual(found, [(*period, "W", "L", 24, "Sheet!D2"), (*period, "W", "R", 19.5, "Sheet!E2")])

    def test_what_is_no_workbook_is_one_line(self):
        path = self.folder / "x.xlsx"
        path.write_text("no zip")
        with self.assertRaisesRegex(Fault, "is no workbook|python3-openpyxl"):
            read_grid(path)


@needs_package("python3-scipy", find_spec("scipy"))
class AtJunctions(Case):
    """Turning counts of a network's junctions, as --counts takes them."""

    def demand(self, text, status=0):
        counts = self.write("counts.csv", text)
        return self.tool("demand", DATA / "office.net.xml.gz", "--counts", counts, "-o", self.folder / "o.rou.xml",
                         "--out", self.folder / "fit", status=status)  # fmt: skip

    def test_the_offices_counts_become_a_demand(self):
        told, said = self.demand("Time;Approach;Left;Through;Right\n07:00;West;24;186;19\n07:15;West;29;203;23\n")
        self.assertIn("counts.csv: a row for each period and arm, 6 counts; C W is Win\n", said)
        self.assertIn("GEH below 5 for 100.0 %", told)
        with open(self.folder / "fit/fit.csv", encoding="utf-8") as file:
            rows = {(row["from"], row["to"], row["begin"]): row["counted"] for row in csv.DictReader(file)}
        # By hand, from the network: who comes from the west on Win leaves to the north by Nout where it turns left.
        self.assertEqual(float(rows["Win", "Nout", "25200"]), 24)
        self.assertEqual(float(rows["Win", "Sout", "26100"]), 23)

    def test_what_is_not_clear_is_one_line(self):
        for text, told in (
            ("time,end,arm,left\n7:00,7:15,NE,5\n", "D2: arm 'NE' of C is not one: "),
            ("time,end,junction,arm,left\n7:00,7:15,Q,N,5\n", "E2: 'Q' is no junction: give a column junction"),
            ("time,end,arm,back\n7:00,7:15,N,5\n", "D1: 'back' is no turn and no other column"),
            ("time,end,arm,u-turn\n7:00,7:15,N,5\n", "D2: U from Nin is not one movement: there is "),
        ):
            with self.subTest(text):
                said = self.demand(text, status=2)[1]
                self.assertIn(told, said)
                self.assertEqual(said.strip().count("\n"), 0, said)


if __name__ == "__main__":
    unittest.main()
