"""Faults of texts and words, each named by the order of the grammar."""
import unittest
from typing import Callable, Optional, Union

from cases import CURVES, Case, LATENESS, ROUTES, SHARED, SPEEDS, VERDICTS, WEIGHTED, msp, schedule
from msp_reference.faults import TextFault
from msp_reference.instance_text import read_instance
from msp_reference.results import read_results


def fault(reader: Callable[[bytes], object], given: Union[str, bytes]) -> Optional[str]:
    """The note of the first fault of a text, with a mark behind a limit, or None."""
    try:
        reader(given if isinstance(given, bytes) else given.encode())
    except TextFault as caught:
        return caught.note.decode() + (" !" if caught.limit else "")
    return None


class Instances(Case):
    """Faults of instance texts."""

    def of_text(self, given: str, note: Optional[str]) -> None:
        """A text has this first fault."""
        self.assertEqual(note, fault(read_instance, given), given)

    def job(self, name: str, lines: str, note: Optional[str]) -> None:
        """A text of a class with these lines has this first fault."""
        self.of_text(f"msp 1\nclass {name}\n" + lines, note)

    def test_cuts(self) -> None:
        """Texts cut after each byte: only the whole text has no fault."""
        for text in (WEIGHTED, LATENESS, SHARED, SPEEDS, ROUTES, CURVES):
            whole = text.encode()
            for end in range(len(whole)):
                line = whole[:end].count(b"\n") + 1
                word = "missing" if end == 0 or whole[end - 1:end] == b"\n" else "cut"
                self.assertEqual(f"line {line}: {word}", fault(read_instance, whole[:end]))

    def test_head(self) -> None:
        """The first two lines."""
        self.of_text("", "line 1: missing")
        self.of_text("x", "line 1: cut")
        self.of_text("\n", "line 1: head")
        self.of_text("msp 2\n", "line 1: head")
        self.of_text("msp 1", "line 1: cut")
        self.of_text("msp 1\n", "line 2: missing")
        self.of_text("msp 1\nclass 1||sumwC \n", "line 2: head")
        self.of_text("msp 1\nclass 1||Emax\n", "line 2: head")
        self.of_text("msp 1\r\n", "line 1: head")

    def test_lines(self) -> None:
        """The lines before the jobs, and numbers."""
        self.job("P||Cmax", "job a\n", "line 3: not expected here")
        self.job("P||Cmax", "machines\n", "line 3: count of fields")
        self.job("P||Cmax", "machines 1 1\n", "line 3: count of fields")
        self.job("P||Cmax", "machines 33\n", "line 3: limit of machines !")
        self.job("P||Cmax", "machines 0\n", "line 3: limit of machines !")
        self.job("P||Cmax", "machines 01\n", "line 3: number")
        self.job("P||Cmax", "machines +1\n", "line 3: number")
        self.job("P||Cmax", "machines -0\n", "line 3: number")
        self.job("P||Cmax", "machines \n", "line 3: number")
        self.job("Q||Cmax", "machines 2\nspeeds 1\n", "line 4: count of fields")
        self.job("Q||Cmax", "machines 2\nspeeds 1 1000001\n", "line 4: limit of speed !")
        self.job("Q||Cmax", "machines 2\nspeeds 1000001 x\n", "line 4: limit of speed !")
        self.job("Q||Cmax", "machines 2\nspeeds x 1000001\n", "line 4: number")
        self.job("1||Cmax", "arc a b\n", "line 3: not expected here")
        self.job("1|prec|Cmax", "arc a b\n", "line 3: unknown name")
        self.job("1|prec|Cmax", "job a p=1\njob b p=1\narc a b\njob c p=1\n",
                 "line 6: not expected here")
        self.job("1||Cmax", "end \n", "line 3: count of fields")
        self.job("1||Cmax", "\n", "line 3: not expected here")
        self.job("1||Cmax", "Job a p=1\n", "line 3: not expected here")

    def test_jobs(self) -> None:
        """Names, keys and numbers of jobs."""
        self.job("1||Cmax", "job a\n", "line 3: count of fields")
        self.job("1||Cmax", "job a p=1 \n", "line 3: count of fields")
        self.job("1||Cmax", "job a  p=1\n", "line 3: count of fields")
        self.job("1||Cmax", "job  p=1\n", "line 3: name")
        self.job("1||Cmax", "job ä p=1\n", "line 3: name")
        self.job("1||Cmax", "job " + "a" * 33 + " p=x\n", "line 3: limit of name !")
        self.job("1||Cmax", "job " + "a" * 32 + " p=x\n", "line 3: number")
        self.job("1||Cmax", "job " + "a" * 33 + "! p=x\n", "line 3: name")
        self.job("1||Cmax", "job a w=1\n", "line 3: key")
        self.job("1||Cmax", "job a p\n", "line 3: key")
        self.job("1||Cmax", "job a p=\n", "line 3: number")
        self.job("1||Cmax", "job a p=0\n", "line 3: limit of time !")
        self.job("1||Cmax", "job a p=-1\n", "line 3: limit of time !")
        self.job("1||Cmax", "job a p=" + "9" * 100000 + "\n", "line 3: limit of time !")
        self.job("1||Cmax", "job a p=1\njob a p=0\n", "line 4: limit of time !")
        self.job("1|r|sumwT", "job a p=1 r=-1 d=x w=0\n", "line 3: limit of release !")
        self.job("1|r|sumwT", "job a p=1 r=0 d=1000000001 w=0\n", "line 3: limit of due !")
        self.job("1|r|sumwT", "job a p=1 r=0 d=-1000000000 w=0\n", "line 3: limit of weight !")
        self.job("1|r|sumwT", "job a p=1 d=0 r=0 w=0\n", "line 3: key")

    def test_curves(self) -> None:
        """Curves."""
        self.job("1||fmax", "job a p=1\nend\n", "line 4: not expected here")
        self.job("1||fmax", "job a p=1\ncurve 1\n", "line 4: count of fields")
        self.job("1||fmax", "job a p=1\ncurve 1 2 3\n", "line 4: count of fields")
        self.job("1||fmax", "job a p=1\ncurve 1 2" + " 1 1" * 16 + " 1\n",
                 "line 4: limit of steps !")
        self.job("1||fmax", "job a p=1\ncurve 1 2" + " 1 1" * 16 + "\nend\n", None)
        self.job("1||fmax", "job a p=1\ncurve -1 x\n", "line 4: limit of slope !")
        self.job("1||fmax", "job a p=1\ncurve 1 -1000000001\n", "line 4: limit of base !")
        self.job("1||fmax", "job a p=1\ncurve 1 1 -1 0\n", "line 4: limit of above !")
        self.job("1||fmax", "job a p=1\ncurve 1 1 1 -1\n", "line 4: limit of add !")

    def test_times_and_routes(self) -> None:
        """Times and routes."""
        self.job("R2||Cmax", "job a\ntimes 0 1\n", "line 4: limit of time !")
        self.job("O2||Cmax", "job a\ntimes 0 1\nend\n", None)
        self.job("O2||Cmax", "job a\ntimes 0 0\nend\n", "job a: needs")
        self.job("O2||Cmax", "job a\ntimes 0\n", "line 4: count of fields")
        self.job("O2||Cmax", "job a p=1\n", "line 3: count of fields")
        self.job("O2|p=1|Cmax", "job a\nend\n", None)
        self.job("J2||Cmax", "job a\nroute\n", "line 4: count of fields")
        self.job("J2||Cmax", "job a\nroute 1\n", "line 4: count of fields")
        self.job("J2||Cmax", "job a\nroute 1 1 1 1\nend\n", "job a: needs")
        self.job("J2||Cmax", "job a\nroute 3 1\n", "line 4: limit of machines !")
        self.job("J2||Cmax", "job a\nroute 0 x\n", "line 4: limit of machines !")
        self.job("J2||Cmax", "job a\nroute 1 0\n", "line 4: limit of time !")
        self.job("J2||Cmax", "job a\nroute" + " 1 1 2 1" * 16 + "\nend\n", None)
        self.job("J2||Cmax", "job a\nroute" + " 1 1 2 1" * 16 + " 1\n", "line 4: limit of route !")
        self.job("J2|p=1|Cmax", "job a\nroute" + " 1 2" * 16 + " 1\n", "line 4: limit of route !")
        self.job("J2|n<=2|Cmax", "job a\nroute 1 1 2 1 1 1\n", "line 4: count of fields")
        self.job("J2|n<=2|Cmax", "job a\nroute" + " 1 1 2 1" * 16 + " 1\n",
                 "line 4: limit of route !")
        self.job("J2|p=1,n<=2|Cmax", "job a\nroute 1 2\nend\n", None)
        self.job("J||Cmax", "machines 1\njob a\nroute 1 1\nend\n", None)
        self.job("J|p=p|Cmax", "machines 1\ntime 3\njob a\nroute 1\nend\n", None)
        self.job("O|p=p|Cmax", "machines 2\ntime 3\njob a\nend\n", None)
        self.job("O|p=p|Cmax", "machines 2\njob a\nend\n", "line 4: not expected here")
        self.job("O|p=p|Cmax", "machines 2\ntime 3\njob a\ntimes 3 3\n",
                 "line 6: not expected here")
        self.job("1|p=p|Cmax", "time 0\n", "line 3: limit of time !")
        self.job("1|p=p|Cmax", "time\n", "line 3: count of fields")

    def test_arcs_and_ends(self) -> None:
        """Arcs, degrees, cycles, and the end."""
        jobs = "job a p=1\njob b p=1\njob c p=1\n"
        self.job("1|prec|Cmax", jobs + "arc a\n", "line 6: count of fields")
        self.job("1|prec|Cmax", jobs + "arc a z\n", "line 6: unknown name")
        self.job("1|prec|Cmax", jobs + "arc a\t b\n", "line 6: name")
        self.job("1|prec|Cmax", jobs + "arc a " + "z" * 33 + "\n", "line 6: limit of name !")
        self.job("1|prec|Cmax", jobs + "arc a b\narc a b\n", "line 7: arc again")
        self.job("1|prec|Cmax", jobs + "arc a a\nend\n", "cycle at a")
        self.job("1|prec|Cmax", jobs + "arc b c\narc c b\nend\n", "cycle at b")
        self.job("1|prec|Cmax", jobs + "arc a b\narc b c\narc c b\nend\n", "cycle at b")
        self.job("1|outtree|Cmax", jobs + "arc a c\narc b c\nend\n", "job c: degree")
        self.job("1|intree|Cmax", jobs + "arc a c\narc b c\nend\n", None)
        self.job("1|intree|Cmax", jobs + "arc a c\narc a b\narc b a\nend\n", "job a: degree")
        self.job("1|prec|Cmax", "end\n\n", "line 4: after the end")
        self.job("1|prec|Cmax", "end\n", "no jobs")


class OtherTexts(Case):
    """Faults of results, schedules, certificates and words, and breaks of schedules."""

    def test_results(self) -> None:
        """Results files."""
        for given, note in (
                ("class,verdict\n", "header"), ("\n\r\n" + VERDICTS, None),
                ("\ufeff" + VERDICTS, None), ("\ufeff\ufeff" + VERDICTS, "header"),
                ('"class","verdict","source"', None),
                (' class,verdict,source\n', "header"),
                (VERDICTS + '1||Cmax,easy,"a ""b"" c"\r1||Lmax,hard,"x\n', "record 2: source"),
                (VERDICTS + '1||Cmax,easy,"x"y"\n', None),
                (VERDICTS + '1||Cmax,easy,x\n\n\r\r\n1||Cmax,easy\n', "record 2: width"),
                (VERDICTS + '1||Cmax,easy,a\tb\n', "record 1: source"),
                (VERDICTS + '1||Cmax,easy,' + "ä" * 101, "record 1: limit of source !"),
                (VERDICTS + '1||Cmax,Easy,x', "record 1: verdict"),
                (VERDICTS + '1||Cmax ,easy,x', "record 1: name: criterion at 3"),
                (VERDICTS + '1|Cmax,easy,x', "record 1: name: not two bars"),
                (VERDICTS + 'X|q|Cmax,easy,x', "record 1: name: environment at 0"),
                (VERDICTS + '1|q|Cmax,easy,x', "record 1: name: item at 2"),
                (VERDICTS + '"1|r,rj|Cmax",easy,x', "record 1: name: item again at 4"),
                (VERDICTS + '"1|r,,|Cmax",easy,x', "record 1: name: item at 4"),
                (VERDICTS + '"1|r,|Cmax",easy,x', "record 1: name: item at 4"),
                (VERDICTS + '"F2|r,n<=2|Cmax",easy,x', "record 1: name: item does not fit at 5"),
                (VERDICTS + '"J|n_j<=2,prec,pmtn,pij=1,r_j|sumw_jT_j",easy,x', None)):
            self.assertEqual(note, fault(read_results, given), given)
        self.assertEqual("record 1: source", fault(read_results, VERDICTS.encode() + b"1||Cmax,easy,\xff"))
        self.assertEqual(b'xy"', read_results((VERDICTS + '1||Cmax,easy,"x"y"\n').encode())[0].source)

    def test_schedules(self) -> None:
        """Schedule texts."""
        for text, note in (
                ("", "line 8: missing"), ("schedule", "line 8: cut"),
                ("schedule 1\n", "line 8: count of fields"),
                ("schedule\nunit 1\n", "line 9: not expected here"),
                ("schedule\ncost 1/\n", "line 9: number"),
                ("schedule\ncost 1/0\n", "line 9: limit of cost"),
                ("schedule\ncost 1/-2\n", "line 9: limit of cost"),
                ("schedule\ncost 1/2/3\n", "line 9: number"),
                ("schedule\ncost 1/10000000000001\n", "line 9: limit of cost"),
                ("schedule\ncost 1" + "0" * 38 + "\n", "line 9: limit of cost"),
                ("schedule\ncost " + "9" * 38 + "\nunit 1 1\n", "line 10: count of fields"),
                ("schedule\ncost 1\nunit 10000000000001\n", "line 10: limit of unit"),
                ("schedule\ncost 1\nunit 1\npiece a 0 1 0 1\n", "line 11: limit of place"),
                ("schedule\ncost 1\nunit 1\npiece a 1 1 -1 1\n", "line 11: limit of moment"),
                ("schedule\ncost 1\nunit 1\npiece a 1 1 0\n", "line 11: count of fields"),
                ("schedule\ncost 1\nunit 1\nend\nx", "line 12: after the end")):
            self.gives("check", SHARED + text, 4 if "limit" in note else 3, note)

    def test_certificates(self) -> None:
        """Certificate texts."""
        front = "certificate\nbound 1\nkind "
        for text, note in (
                ("", "line 8: missing"), ("certificate\nbound x\n", "line 9: number"),
                ("certificate\nbound 1" + "0" * 24 + "1\n", "line 9: limit of cost"),
                ("certificate\nbound 1\nkind groups\n", "line 10: key"),
                (front + "group\nhead a 1\n", "line 11: not expected here"),
                (front + "group\njob z\n", "line 11: unknown name"),
                (front + "machine\nmachine 3\n", "line 11: limit of machines"),
                (front + "machine\nend\n", "line 11: not expected here"),
                (front + "line\njob a\njob b\n", "line 12: not expected here"),
                (front + "levels\ntail 401\n", "line 11: limit of level"),
                (front + "levels\ntail 0\nlevel b 0\n", "line 12: unknown name"),
                (front + "levels\ntail 0\nlevel a 401\n", "line 12: limit of level"),
                (front + "segments\njob a\n", "line 11: not expected here"),
                (front + "block\nhead a 1000000000001\n", "line 11: limit of head"),
                (front + "prices\nrow a 1000000000000001\n", "line 11: limit of price"),
                (front + "prices\nrow a 1\nrow b 1\nrow c 1\ncolumn 1 1 0\n",
                 "line 14: limit of price"),
                (front + "prices\nrow a 1\nrow b 1\nrow c 1\ncolumn 1 4 -1\n",
                 "line 14: limit of place"),
                (front + "prices\nrow a 1\nrow b 1\nrow c 1\ncolumn 1 2 -1\ncolumn 1 1 -1\n",
                 "line 15: name again"),
                (front + "group\n" + "job a\n" * 20_001, "line 20011: limit of lines"),
                (front + "group\njob a\nend\nx", "line 13: after the end")):
            self.gives("accept", SHARED + text, 4 if "limit" in note else 3, note)
        for text in (front + "group\nend\n", front + "group\njob a\njob a\nend\n",
                     front + "machine\nmachine 1\nend\n",
                     front + "prices\nrow a 0\nrow b 0\nrow c 0\nend\n",
                     front + "group\n" + "job a\n" * 20_000 + "end\n"):
            self.assertEqual(1, msp("accept", SHARED + text).status)

    def test_usage(self) -> None:
        """Words."""
        for words in (["frontier", "x"], ["why"], ["why", "1||Cmax", "1||Cmax"], ["solve", "--at"],
                      ["solve", "--at=1||Cmax"], ["solve", "x", "1||Cmax"], ["check", ""],
                      ["rows", "1"], ["trial", "1||Cmax", "1"], ["trial", "q", "x", "y", "z"],
                      ["--help"], ["--version"], ["certify", "x"], ["accept", "x"], [""], ["Solve"]):
            self.gives(words, "", 2, "usage: words fit no command")
        for words, note in (
                (["label", "1||Cmax", "x"], "word 3: name: not two bars"),
                (["label", ""], "word 2: name: not two bars"),
                (["solve", "--at", "x||Cmax"], "word 3: name: environment at 0"),
                (["trial", "x", "x", "x"], "word 2: name: not two bars"),
                (["trial", "1||Cmax", "0", "x"], "word 3: not a number from 1 to 400"),
                (["trial", "1||Cmax", "1", "-1"], "word 4: not a number from 0 to 2147483647"),
                (["trial", "1||Cmax", "1", "2147483648"],
                 "word 4: not a number from 0 to 2147483647"),
                (["trial", "1||Cmax", "1", "00"], "word 4: not a number from 0 to 2147483647")):
            self.gives(words, "", 2, "usage: " + note)

    def test_breaks(self) -> None:
        """Each break once."""
        two = "msp 1\nclass P|prec,r,pmtn|Cmax\nmachines 2\njob a p=2 r=1\njob b p=2 r=0\narc a b\nend\n"
        flow = "msp 1\nclass F2||Cmax\njob a\ntimes 1 2\njob b\ntimes 0 1\nend\n"
        for given, pieces, line in (
                (two, ["a 1 1 0 1", "b 1 1 1 1"], "span 2"),
                (two, ["a 1 1 0 1", "b 2 1 1 2"], "place 2"),
                (two, ["b 1 1 3 5", "a 1 1 1 4"], "machine 2 1"),
                (two, ["b 1 1 3 5", "a 1 1 1 2", "b 1 2 4 5"], "job 1 3"),
                (two, ["b 1 1 3 5", "a 1 2 0 2"], "release 2"),
                (two, ["b 1 1 2 4", "a 1 2 1 3"], "arc 1"),
                (two, ["b 1 1 3 5", "a 1 2 1 2"], "work a 1"),
                (flow, ["a 2 2 0 2", "a 1 1 2 3", "b 2 2 2 3"], "route a 2"),
                (flow, ["a 1 1 0 1", "a 2 2 1 3", "b 1 1 1 2"], "place 3"),
                (flow, ["a 1 1 0 1", "a 2 2 1 3"], "work b 2")):
            status, out, _ = msp("check", given + schedule("1", 1, *pieces))
            self.assertEqual((1, "break " + line), (status, out.decode().split("\n")[-3]))


if __name__ == "__main__":
    unittest.main()
