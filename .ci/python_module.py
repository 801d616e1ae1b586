"""Tests of scripts/jazvurd/__init__.py on the program that JAZVURD_FST names. UNBUILT has the commands that it lacks."""
import os
import unittest

import jazvurd as fst

UNBUILT = os.environ.get("UNBUILT", "").split()
TABLE = {"<eps>": 0, "a": 1, "b": 2}
ONE_ARC = "0 1 1 2 5\n1 3\n"


def needs(command):
    return unittest.skipIf(command in UNBUILT, f"{command} is not built")


class Texts(unittest.TestCase):
    def test_a_text_and_its_arcs_are_one_machine(self):
        machine = fst.compile(ONE_ARC)
        self.assertEqual(len(machine), 113)
        self.assertEqual(machine, fst.compile([(0, 1, 1, 2, 5)], finals={1: 3}))
        self.assertEqual(machine, fst.compile([(0, 1, "a", "b", 5)], {1: 3}, isymbols=TABLE, osymbols=TABLE))
        self.assertEqual(fst.print(machine, isymbols=TABLE, osymbols=TABLE), "0\t1\ta\tb\t5\n1\t3\n")
        self.assertEqual(fst.parts(machine), (0, [(0, 1, 1, 2, 5)], {1: 3}))
        self.assertEqual(fst.parts(machine, isymbols=TABLE).arcs, [(0, 1, "a", 2, 5)])
        self.assertEqual(fst.parts(fst.compile("")), (None, [], {}))

    def test_options(self):
        self.assertEqual(fst.print(fst.compile([(0, 1, 7)], {1: None}, acceptor=True), acceptor=True, show_weight_one=True), "0\t1\t7\t0\n1\t0\n")
        self.assertEqual(fst.info(fst.compile("7 3 1 1\n3\n", keep_state_numbering=True))["states"], "8")
        pairs = fst.compile([(0, 1, 1, 1, (2, -3))], {1: (0, 0)}, arc_type="lexicographic")
        self.assertEqual(fst.parts(pairs), (0, [(0, 1, 1, 1, (2, -3))], {1: None}))
        self.assertEqual(fst.weight_of("-Infinity"), float("-inf"))
        self.assertEqual(fst.weight_text(float("-inf")), "-Infinity")

    def test_names_of_many_kinds(self):
        table = {"<eps>": 0, "\u00a0\u2028": 1, "\udcff": 2}
        machine = fst.compile([(0, 1, "\u00a0\u2028", "\udcff")], {1: None}, isymbols=table, osymbols=table)
        self.assertEqual(fst.parts(machine, isymbols=table, osymbols=table).arcs, [(0, 1, "\u00a0\u2028", "\udcff", None)])

    def test_tables_that_a_machine_carries(self):
        machine = fst.compile([(0, 1, "a", "b", 5)], {1: 3}, isymbols=TABLE, osymbols={"b": 2}, keep_isymbols=True, keep_osymbols=True)
        self.assertEqual(fst.symbols(machine), (TABLE, {"b": 2}))
        self.assertEqual(fst.symbols(fst.invert(machine)), ({"b": 2}, TABLE))
        self.assertEqual(fst.symbols(fst.compile(ONE_ARC)), (None, None))
        self.assertEqual(fst.print(machine), "0\t1\ta\tb\t5\n1\t3\n")
        self.assertEqual(fst.print(machine, numeric=True), "0\t1\t1\t2\t5\n1\t3\n")
        self.assertEqual(fst.parts(machine), (0, [(0, 1, "a", "b", 5)], {1: 3}))
        self.assertEqual(fst.parts(machine, isymbols={"z": 1}).arcs, [(0, 1, "z", "b", 5)])
        self.assertEqual(list(fst.strings(fst.invert(machine))), [(8, "b", "a")])
        self.assertIn('"a:b/5"', fst.draw(machine))
        with self.assertRaises(fst.Refusal):
            fst.compile(ONE_ARC, keep_isymbols=True)
        with self.assertRaises(fst.Refusal):
            fst.symbols(machine[:80])

    def test_wrong_input(self):
        for cause, status, work in [
            ("fst: text: line 1: unknown symbol", 1, lambda: fst.compile("0 1 c b\n", isymbols=TABLE)),
            ("fst: text: line 2: wrong number of columns", 1, lambda: fst.compile("0 1 1 2\n1 2 3\n")),
            ("fst: text: line 1: bad weight", 1, lambda: fst.compile("0 1 1 2 0.5\n")),
            ("fst: isymbols: line 2: number given twice", 1, lambda: fst.compile("", isymbols={"a": 1, "b": 1})),
            ("fst: first: byte 99: too short", 1, lambda: fst.invert(fst.compile(ONE_ARC)[:99])),
            ("fst: second: byte 0: bad magic number", 1, lambda: fst.union(fst.compile(ONE_ARC), b"nothing")),
            ("fst: no symbol for label 2", 1, lambda: fst.print(fst.compile(ONE_ARC), osymbols={"a": 1})),
            ("fst: state limit 1 passed", 1, lambda: fst.compose(fst.compile(ONE_ARC), fst.compile("0 1 2 2\n1\n"), max_states=1)),
            ("fst: bad command line", 1, lambda: fst.arcsort(fst.compile(""), sort_type="both")),
        ]:
            with self.assertRaises(fst.Refusal) as caught:
                work()
            self.assertEqual((caught.exception.line, caught.exception.status, str(caught.exception)), (cause, status, cause))
        for work in [
            lambda: fst.compile([(0, 1, " ", "b")]),
            lambda: fst.compile([(0, 1, "", "b")]),
            lambda: fst.compile([(0, 1, 1, 1, 0.5)]),
            lambda: fst.compile("", isymbols={"a b": 1}),
            lambda: fst.batch(b"", b"", ["a\nb"]),
        ]:
            self.assertRaises(ValueError, work)
        self.assertRaises(FileNotFoundError, fst.compile, "", isymbols="absent")

    def test_finals_and_weights(self):
        self.assertEqual(fst.compile([(0, 1, 1, 1)], {1}), fst.compile("0 1 1 1\n1\n"))
        truth = fst.compile([(0, 1, 1, 1, True)], {1: True, 2: False}, arc_type="boolean")
        self.assertEqual(fst.parts(truth), (0, [(0, 1, 1, 1, None)], {1: None}))
        for kind, cause, work in [
            (TypeError, "final state 1: True is a weight of the type boolean, and not of tropical", lambda: fst.compile([(0, 1, 1, 1)], {1: True})),
            (TypeError, "a weight is a whole number, a pair of them, or True or False, and not 'x'", lambda: fst.compile([(0, 1, 1, 1, "x")])),
            (TypeError, "finals: a state is a whole number from 0 on, and not 'b'", lambda: fst.compile([(0, 1, 1, 1)], {"b"})),
            (TypeError, "arc 0: a state is a whole number from 0 on, and not -1", lambda: fst.compile([(-1, 1, 1, 1)])),
            (ValueError, "arc 1: an arc is (source, destination, input, output[, weight]), and not (0, 1, 1)", lambda: fst.compile([(0, 1, 1, 1), (0, 1, 1)])),
            (TypeError, "first: a machine is bytes, as compile gives them or open(path, 'rb').read(), and not str", lambda: fst.invert("a.fst")),
        ]:
            with self.assertRaises(kind) as caught:
                work()
            self.assertEqual(str(caught.exception), cause)

    def test_strings(self):
        machine = fst.compile("0 1 a b 5\n1 2 <eps> a 7\n1 3\n2\n", isymbols=TABLE, osymbols=TABLE)
        self.assertEqual(list(fst.strings(machine, isymbols=TABLE, osymbols=TABLE)), [(8, "a", "b"), (12, "a", "ba")])
        self.assertEqual(list(fst.strings(machine)), [(8, "1", "2"), (12, "1", "2 1")])
        self.assertEqual([path.weight for path in fst.strings(fst.compile("0 1 1 1 5\n1 2 1 1 7\n2\n", arc_type="minmax"))], [7])
        self.assertEqual([path.weight for path in fst.strings(fst.compile("0 1 1 1\n1 2 1 1 1\n2 1\n", arc_type="boolean"))], [1])
        self.assertEqual([path.weight for path in fst.strings(fst.compile("0 1 1 1 2,3\n1 4,5\n", arc_type="lexicographic"))], [(6, 8)])
        self.assertEqual(list(fst.strings(fst.compile(""))), [])
        with self.assertRaisesRegex(ValueError, "^state 0 lies on a cycle: "):
            list(fst.strings(fst.compile("0 0 1 1\n0\n")))

    def test_graphs(self):
        machine = fst.compile("0 1 a <eps> 5\n1 3\n", isymbols=TABLE, osymbols=TABLE)
        graph = fst.draw(machine, isymbols=TABLE, osymbols=TABLE)
        self.assertIn('  0 -> 1 [label = "a:ε/5"];\n', graph)
        self.assertIn('  1 [label = "1/3", shape = doublecircle];\n', graph)
        picture = fst.invert(machine)._repr_svg_()
        self.assertTrue(picture is None or "<svg" in picture)
        path, os.environ["PATH"] = os.environ["PATH"], "/absent"
        try:
            self.assertIsNone(machine._repr_svg_())
            with self.assertRaisesRegex(fst.NoProgram, "^dot: No such file"):
                fst.draw(machine, to="svg")
        finally:
            os.environ["PATH"] = path

    def test_no_program(self):
        program = os.environ["JAZVURD_FST"]
        os.environ["JAZVURD_FST"] = "/absent/fst"
        try:
            with self.assertRaisesRegex(fst.NoProgram, "^/absent/fst: No such file or directory"):
                fst.compile("")
        finally:
            os.environ["JAZVURD_FST"] = program


class Operations(unittest.TestCase):
    machine = property(lambda self: fst.compile(ONE_ARC))

    def prints(self, machine, text):
        self.assertEqual(fst.print(machine), text.replace(" ", "\t"))

    def test_of_one(self):
        self.prints(fst.invert(self.machine), "0 1 2 1 5\n1 3\n")
        self.prints(fst.reverse(self.machine), "0 2 0 0 3\n1\n2 1 1 2 5\n")
        self.prints(fst.connect(fst.compile("0 1 1 1\n0 2 2 2\n1 4\n")), "0 1 1 1\n1 4\n")
        self.prints(fst.closure(self.machine), "0 1 0 0\n0\n1 2 1 2 5\n2 0 0 0 3\n")
        self.prints(fst.closure(self.machine, closure_plus=True), "0 1 1 2 5\n1 0 0 0 3\n1 3\n")
        self.prints(fst.project(self.machine), "0 1 1 1 5\n1 3\n")
        self.prints(fst.project(self.machine, project_output=True), "0 1 2 2 5\n1 3\n")
        self.prints(fst.relabel(self.machine, relabel_opairs={2: 7}), "0 1 1 7 5\n1 3\n")
        self.prints(fst.arcsort(fst.compile("0 1 1 2\n0 1 2 1\n1\n"), sort_type="olabel"), "0 1 2 1\n0 1 1 2\n1\n")
        machine, codex = fst.encode(self.machine, encode_weights=True)
        self.prints(machine, "0 1 1 1\n1 3\n")
        self.assertEqual(fst.decode(machine, codex), self.machine)

    def test_of_several(self):
        self.assertEqual(fst.union(self.machine, self.machine, self.machine), fst.union(fst.union(self.machine, self.machine), self.machine))
        self.prints(fst.union(fst.compile(""), self.machine), "0 1 0 0\n1 2 1 2 5\n2 3\n")
        self.prints(fst.concat(self.machine, self.machine), "0 1 1 2 5\n1 2 0 0 3\n2 3 1 2 5\n3 3\n")
        first, second = fst.compile("0 1 1 0\n1 2 2 3\n2\n"), fst.compile("0 1 0 9\n1 2 3 4\n2\n")
        self.prints(fst.compose(first, second), "0 1 1 0\n1 2 0 9\n2 3 2 4\n3\n")
        self.prints(fst.compose(first, second, connect=False), "0 1 1 0\n0 2 0 9\n1 3 0 9\n2 Infinity\n3 4 2 4\n4\n")
        root, rule = fst.compile("0 1 1 1\n1 2 5 101 2\n2\n"), fst.compile("0 1 7 8 3\n1 4\n")
        self.prints(fst.replace(root, 100, {101: rule}), "0 1 1 1\n1 3 0 0 2\n2\n3 4 7 8 3\n4 2 0 0 4\n")

    @needs("rmepsilon")
    def test_rmepsilon(self):
        self.prints(fst.rmepsilon(fst.compile("0 1 0 0 3\n0 2 0 0 1\n2 1 0 0 1\n1 1 0 0 0\n1 3 5 6 4\n3\n")), "0 1 5 6 6\n1\n")

    @needs("shortestdistance")
    def test_shortestdistance(self):
        machine = fst.compile("0 1 1 1 4\n1 3\n2\n")
        self.assertEqual(fst.shortestdistance(machine), [0, 4, float("inf")])
        self.assertEqual(fst.shortestdistance(machine, reverse=True), [7, 3, 0])

    @needs("shortestpath")
    def test_shortestpath(self):
        self.prints(fst.shortestpath(fst.compile("0 1 1 1 2\n0 1 2 2 1\n1\n")), "0 1 2 2 1\n1\n")
        self.assertEqual(len(fst.parts(fst.shortestpath(fst.compile("0 1 1 1 2\n0 1 2 2 1\n1\n"), nshortest=9)).arcs), 2)

    @needs("shortestpath")
    def test_best_strings(self):
        machine = fst.compile("0 0 a 1\n0 1 b 3\n0 1 b 2\n1\n", acceptor=True, isymbols=TABLE, osymbols=TABLE, keep_isymbols=True, keep_osymbols=True)
        self.assertEqual([path[:2] for path in fst.strings(machine, nshortest=3)], [(2, "b"), (3, "b"), (3, "ab")])
        self.assertEqual([path[:2] for path in fst.strings(machine, nshortest=3, unique=True)], [(2, "b"), (3, "ab"), (4, "aab")])
        self.prints(fst.shortestpath(fst.compile("0 1 1 2\n0 1 1 1\n1 5\n", acceptor=True), nshortest=9, unique=True), "0 1 1 1\n1 6\n")
        for cause, text in ("not an acceptor at state 0 arc 0", "0 1 1 2\n1\n"), ("epsilon at state 0 arc 0", "0 1 0 0\n1\n"):
            with self.assertRaisesRegex(fst.Refusal, f"^fst: {cause}$"):
                fst.shortestpath(fst.compile(text), unique=True)
        with self.assertRaisesRegex(ValueError, "^unique wants to know how many"):
            list(fst.strings(machine, unique=True))

    @needs("push")
    def test_push(self):
        machine = fst.compile("0 1 1\n0 2 2\n1 3 3 5\n2 3 3 2\n3\n", acceptor=True)
        self.prints(fst.push(machine, remove_total_weight=True), "0 1 1 1 3\n0 2 2 2\n1 3 3 3\n2 3 3 3\n3\n")

    @needs("determinize")
    def test_determinize(self):
        machine = fst.compile("0 1 1 1\n0 2 1 2\n1 3 3 5\n2 3 3 1\n3\n", acceptor=True)
        self.prints(fst.determinize(machine), "0 1 1 1 1\n1 2 3 3 2\n2\n")

    @needs("minimize")
    def test_minimize(self):
        machine = fst.compile("0 1 1\n0 2 2\n1 3 3 5\n2 3 3 2\n3\n", acceptor=True)
        self.prints(fst.minimize(machine), "0 1 1 1 3\n0 1 2 2\n1 2 3 3\n2 2\n")

    @needs("prune")
    def test_prune(self):
        machine = fst.compile("0 1 1 1 1\n0 1 2 2 4\n1\n")
        self.prints(fst.prune(machine, weight="2", queue_type="lifo"), "0 1 1 1 1\n1\n")
        self.prints(fst.prune(machine), "0 1 1 1 1\n0 1 2 2 4\n1\n")
        with self.assertRaises(fst.Refusal):
            fst.prune(machine, weight="x")

    @needs("intersect")
    def test_intersect(self):
        first, second = fst.compile("0 1 1 2\n0 1 2\n1 2 3 3\n2 2\n", acceptor=True), fst.compile("0 1 2 1\n1 2 3\n2\n", acceptor=True)
        self.prints(fst.intersect(first, second), "0 1 2 2 1\n1 2 3 3 3\n2 2\n")
        with self.assertRaisesRegex(fst.Refusal, "^fst: second machine: not an acceptor at state 0 arc 0$"):
            fst.intersect(first, self.machine)
        with self.assertRaisesRegex(fst.Refusal, "^fst: state limit 1 passed$"):
            fst.intersect(first, second, connect=False, max_states=1)

    @needs("difference")
    def test_difference(self):
        first = fst.compile("0 1 1 2\n0 1 2\n1 2 3 3\n2 2\n", acceptor=True)
        self.prints(fst.difference(first, fst.compile("0 1 1\n1 2 3\n2\n", acceptor=True)), "0 1 2 2\n1 2 3 3 3\n2 2\n")
        self.prints(fst.difference(first, fst.compile(""), connect=False), "0 1 1 1 2\n0 1 2 2\n1 2 3 3 3\n2 2\n")
        with self.assertRaisesRegex(fst.Refusal, "^fst: not unweighted at state 0$"):
            fst.difference(first, first)

    @needs("equivalent")
    def test_equivalent(self):
        first = fst.compile([(0, 1, "a", 2), (1, 2, "b", 3)], {2: None}, acceptor=True, isymbols=TABLE, keep_isymbols=True)
        pushed, other = fst.compile("0 1 1 5\n1 2 2\n2\n", acceptor=True), fst.compile("0 1 1 5\n1 2 2\n2 1\n", acceptor=True)
        self.assertTrue(fst.equivalent(first, pushed))
        self.assertEqual(fst.equivalent(first, pushed), (True, None, None, None))
        verdict = fst.equivalent(first, other)
        self.assertFalse(verdict)
        self.assertEqual((verdict.word, verdict.first, verdict.second), (("a", "b"), 5, 6))
        self.assertEqual(fst.equivalent(other, first, isymbols={"x": 1}), (False, ("x", 2), 6, 5))
        self.assertEqual(fst.equivalent(other, fst.compile("")), (False, (1, 2), 6, float("inf")))
        self.assertEqual(fst.equivalent(fst.compile("0 3\n"), fst.compile("0 4\n")), (False, (), 3, 4))
        with self.assertRaisesRegex(fst.Refusal, "^fst: second machine: not deterministic at state 0 arc 1$"):
            fst.equivalent(first, fst.compile("0 1 1 1\n0 1 1 1\n1\n"))
        with self.assertRaisesRegex(fst.Refusal, "^fst: state limit 1 passed$"):
            fst.equivalent(first, pushed, max_states=1)

    @needs("batch")
    def test_batch(self):
        first, second = fst.compile("0 1 97 300\n0 1 98 99 -2\n1\n"), fst.compile("0 1 99 99\n0 1 300 300\n1\n")
        answers = fst.batch(first, second, ["a", b"b", "é", ""], nshortest=2, workers=2)
        self.assertEqual(answers, [(1, None, None, "label 300 is not text"), (2, -2, "c", None), (3, None, None, None), (4, None, None, None)])

    @needs("make")
    def test_make(self):
        self.assertEqual(fst.make(lines=0), {"first": [500, 26000], "second": [200, 5200], "lines": [0], "answered": [0], "weights": [0], "expansions": [0]})


unittest.main()
