"""How long a quotient is open, and who may ask it: copies, threads, children, and the end of all."""

from __future__ import annotations

import copy
import os
import pickle
import resource
import subprocess
import sys
import threading
import unittest
from collections.abc import Callable

import misere
from tests import quotient, raised, samples, top

THREADS, OPENINGS = 8, 1500
# What so many openings may leave, in kilobytes: those of 0.71 would be more
MOST_LEFT = 16_000


def asked(of: misere.Quotient) -> list[object]:
    """What is told of some positions, by each call, and the description."""
    positions = [[heap, 2 * heap, 77] for heap in range(1, 100)]
    alone = [(of.value(it), of.outcome(it), of.answer(it), of.winning_move(it)) for it in positions]
    return [*alone, of.values(positions), of.outcomes(positions), of.answers(positions), of.describe()]


def run_in_threads(call: Callable[[], None]) -> None:
    threads = [threading.Thread(target=call) for _ in range(THREADS)]
    for thread in threads:
        thread.start()
    for thread in threads:
        thread.join()


class Closing(unittest.TestCase):
    def test_what_the_certificate_says_stays(self) -> None:
        with quotient("0.33") as it:
            self.assertEqual((it.closed, it.outcome([2])), (False, "N"))
            it.close()
            it.close()
            self.assertEqual((it.closed, it.code, it.order, it.phi(10**18), it.portion), (True, "0.33", 6, 1, {1, 4}))
            self.assertEqual((it.table[1][1], it.certificate, it), (0, quotient("0.33").certificate, quotient("0.33")))
            self.assertEqual((it._repr_html_(), it._repr_latex_()), (None, None))
            self.assertTrue(repr(it).endswith("period 3, closed>"))

    def test_a_block_closes(self) -> None:
        with quotient("0.75") as it:
            self.assertEqual(it.outcome([2, 5]), quotient("0.75").outcome([2, 5]))
        self.assertTrue(it.closed)
        with self.assertRaises(misere.NotOpen), it:
            pass

    def test_a_copy_is_closed_by_itself(self) -> None:
        it = quotient("0.75")
        others = [copy.copy(it), copy.deepcopy(it), pickle.loads(pickle.dumps(it))]
        told = asked(it)
        it.close()
        self.assertEqual([(other, asked(other)) for other in others], [(it, told)] * 3)

    def test_a_closed_one_is_not_copied(self) -> None:
        it = quotient("0.33")
        it.close()
        calls: list[Callable[[object], object]] = [copy.copy, copy.deepcopy, pickle.dumps]
        for call in calls:
            with self.subTest(call.__name__):
                stop = raised(lambda: call(it))
                self.assertIsInstance(stop, misere.NotOpen)
                self.assertIsInstance(stop, ValueError)

    def test_nothing_is_left(self) -> None:
        """Neither of those that are closed nor of those that are dropped."""
        text = (samples / "0.71.mqc").read_bytes()
        for closes in (True, False):
            with self.subTest(closes=closes):
                before = resource.getrusage(resource.RUSAGE_SELF).ru_maxrss
                for _ in range(OPENINGS):
                    it = misere.check(text)
                    other = copy.copy(it)
                    other.outcome([2])
                    if closes:
                        it.close()
                        other.close()
                self.assertLess(resource.getrusage(resource.RUSAGE_SELF).ru_maxrss - before, MOST_LEFT)


class Threads(unittest.TestCase):
    def test_each_is_told_as_one_alone(self) -> None:
        it = quotient("0.71")
        told, wrong = asked(it), []

        def ask() -> None:
            for _ in range(5):
                if asked(it) != told:
                    wrong.append(it)

        run_in_threads(ask)
        self.assertEqual(wrong, [])

    def test_one_may_close_what_others_ask(self) -> None:
        """Each call is told rightly, or that the quotient is closed."""
        for _ in range(40):
            it, told = quotient("0.71"), quotient("0.71").outcome([5, 10, 77])
            others: list[object] = []
            begun = threading.Barrier(THREADS)

            def ask() -> None:
                closes = begun.wait() == 0
                try:
                    while it.outcome([5, 10, 77]) == told == it.outcomes([[5, 10, 77]])[0]:
                        if closes:
                            it.close()
                    others.append("told otherwise")
                except misere.NotOpen:
                    pass
                except Exception as stop:
                    others.append(stop)

            run_in_threads(ask)
            self.assertEqual((others, it.closed, it._certified._idle), ([], True, []))


class Ends(unittest.TestCase):
    def test_a_child_has_its_own(self) -> None:
        it = quotient("0.75")
        told = asked(it)
        child = os.fork()
        if not child:
            right = asked(it) == told
            it.close()
            os._exit(0 if right else 1)
        it.close()
        self.assertEqual(os.waitpid(child, 0)[1], 0)

    def test_the_interpreter_ends_in_silence(self) -> None:
        """With what is open in a module, in a cycle and in a thread that goes on."""
        text = (
            "import misere, threading\n"
            "it = misere.solve('0.33')\n"
            "class Cycle: pass\n"
            "cycle = Cycle(); cycle.it, cycle.cycle = misere.solve('0.75'), cycle\n"
            "begun = threading.Event()\n"
            "def ask():\n"
            "    while it.outcome([2, 3]): begun.set()\n"
            "threading.Thread(target=ask, daemon=True).start()\n"
            "begun.wait()\n"
        )
        for _ in range(3):
            run = subprocess.run(
                [sys.executable, "-B", "-X", "dev", "-c", text],
                cwd=top / "library",
                capture_output=True,
                text=True,
                check=False,
            )
            self.assertEqual((run.returncode, run.stdout, run.stderr), (0, "", ""))
