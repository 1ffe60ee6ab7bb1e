"""Calls in the forked child of a process whose threads are in calls: glibc's malloc serves it."""

import os
import sys
import threading
import unittest
import warnings

from fluent_uri import Iri, batch

CHILDREN = 20
TEXTS = ["HTTP://A:80/./%7e", "http://é/ü", "x:" + "%7e" * 20_000, "a b"]
COLUMN = batch.column(TEXTS * 10)


def work():
    """What calls return that take memory, short and long, by the module and by ctypes."""
    values = batch.parse(TEXTS, Iri)
    made = [None if it is None else (str(it.normalize()), str(it.to_uri())) for it in values]
    return made, batch.normalize_column(*COLUMN, Iri).texts()


@unittest.skipUnless(hasattr(os, "fork"), "there is no fork here")
class Fork(unittest.TestCase):
    def setUp(self):
        self.addCleanup(sys.setswitchinterval, sys.getswitchinterval())
        sys.setswitchinterval(1e-5)

    def test_a_child_calls_while_threads_of_its_parent_do(self):
        wanted, ended, rounds = work(), threading.Event(), []

        def call():
            while not ended.is_set():
                rounds.append(work() == wanted)

        threads = [threading.Thread(target=call) for _ in range(3)]
        for it in threads:
            it.start()
        try:
            statuses = [self.child(wanted) for _ in range(CHILDREN)]
        finally:
            ended.set()
            for it in threads:
                it.join()
        self.assertEqual(statuses, [0] * CHILDREN)
        self.assertGreater(len(rounds), 3)
        self.assertTrue(all(rounds))

    def child(self, wanted):
        """The status of a child, which ends by a signal if a call hangs."""
        with warnings.catch_warnings():
            # Python 3.12 warns of any fork of a process with threads.
            warnings.simplefilter("ignore", DeprecationWarning)
            child = os.fork()
        if child:
            return os.waitpid(child, 0)[1]
        try:
            import signal

            signal.alarm(60)
            os._exit(0 if work() == wanted else 1)
        except BaseException:
            os._exit(2)


if __name__ == "__main__":
    unittest.main()
