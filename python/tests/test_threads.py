"""Calls from eight threads at once, against the same calls from one."""

import sys
import threading
import unittest

from fluent_uri import Iri, ParseError, Uri, batch

THREADS, ROUNDS = 8, 200
TEXTS = ["HTTP://A:80/./%7e", "http://é/ü", "a b", "x:" + "%7e" * 3000, "http://[::1]/../a?b#c"]
BASE = Iri.parse("http://a/b/c/d;p?q")


def work():
    """What every sort of call returns."""
    results = []
    for text in TEXTS:
        try:
            value = Iri.parse(text)
            results += [str(value.normalize()), value.path, str(value.to_uri())]
            results.append(str(BASE.resolve(text)))
        except ParseError as error:
            results.append((error.kind, error.index))
    column = batch.column(TEXTS)
    results.append(batch.normalize(TEXTS, Iri))
    results.append(batch.normalize_column(*column, Iri).texts())
    results.append(batch.component_column(*column, "path", Iri).texts())
    return results


class Threads(unittest.TestCase):
    def setUp(self):
        # Threads take turns as often as they can.
        self.addCleanup(sys.setswitchinterval, sys.getswitchinterval())
        sys.setswitchinterval(1e-6)

    def together(self, call):
        """What a call returned in each thread."""
        results, begin = [], threading.Barrier(THREADS)

        def run():
            begin.wait()
            results.extend(call() for _ in range(ROUNDS))

        threads = [threading.Thread(target=run) for _ in range(THREADS)]
        for it in threads:
            it.start()
        for it in threads:
            it.join()
        self.assertEqual(len(results), THREADS * ROUNDS)
        return results

    def test_each_thread_gets_its_own_results(self):
        wanted = work()
        for results in self.together(work):
            self.assertEqual(results, wanted)

    def test_one_value_read_by_all_for_the_first_time(self):
        for _ in range(10):
            value = Uri.parse("HTTP://A/b?c#d").normalize()
            found = self.together(lambda: (value.path, value.query, value.host_kind))
            self.assertEqual(len(set(found)), 1)


if __name__ == "__main__":
    unittest.main()
