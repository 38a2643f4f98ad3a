"""Pages: a chain of them is the listing, whatever the budgets."""
import time
import unittest

import vonjekona
from vonjekona import Path

from .common import EPSILON, draws, drawn_path, refused


class Chains(unittest.TestCase):
    def test_a_chain_is_the_listing(self):
        rng = draws(8)
        for turn in range(12):
            first = drawn_path(rng, 12, large=turn % 2, traces=3)
            second = drawn_path(rng, 9, closed=True, large=turn % 2, traces=3)
            end = "_large" if turn % 2 else ""
            for name, paths in (("mutual", (first, second)), ("self_", (second,))):
                listing = getattr(vonjekona, (name if not end else name.rstrip("_")) + end)(*paths, EPSILON)
                chain = getattr(vonjekona, name.rstrip("_") + "_pages" + end)
                for how in ({"budget": 1}, {"budget": 7, "rows": 1}, {"budget": 1 << 60}, {"seconds": 1e-4}, {"seconds": 5}):
                    pages = list(chain(*paths, EPSILON, **how))
                    self.assertEqual([row for page in pages for row in page.rows], listing.rows, how)
                    self.assertEqual(sum(page.passed for page in pages), pages[-1].pairs)
                    self.assertEqual(pages[-1].position, pages[-1].pairs)
                    self.assertGreaterEqual(pages[-1].pairs, listing.pairs)

    def test_budgets(self):
        path = Path([(k, k % 2, 0) for k in range(30)])
        pages = list(vonjekona.self_pages(path, EPSILON, budget=100))
        self.assertEqual([page.passed for page in pages], [100, 100, 100, 100, 6])
        self.assertEqual([page.position for page in pages], [100, 200, 300, 400, 406])
        later = list(vonjekona.self_pages(path, EPSILON, budget=100, position=350))
        self.assertEqual([page.passed for page in later], [56])

    def test_rows_that_do_not_fit_come_on_the_next_page(self):
        path = [(0, 0, 0), (9, 0, 0)]
        comb = [(k, 1 - 2 * (k % 2), 0) for k in range(1, 9)]
        pages = list(vonjekona.mutual_pages(path, comb, EPSILON, budget=100, rows=3))
        self.assertEqual([len(page.rows) for page in pages], [3, 3, 1])

    def test_single_pages(self):
        one, other = [(0, 0, 0), (9, 0, 0)], [(1, 1, 0), (2, -1, 0), (3, 1, 0)]
        page = vonjekona.mutual_page(one, other, EPSILON, 1, 5)
        self.assertEqual((len(page.rows), page.passed, page.position, page.pairs), (1, 1, 2, 2))
        self.assertEqual(vonjekona.mutual_page_large(one, other, EPSILON, 2, 5), ([], 0, 2, 2))
        self.assertEqual(vonjekona.self_page_large(other, EPSILON, 0, 5), ([], 1, 1, 1))

    def test_no_pairs_is_one_page(self):
        self.assertEqual(list(vonjekona.mutual_pages([], [], EPSILON, budget=5)), [([], 0, 0, 0)])

    def test_one_budget_is_wanted(self):
        for how in ({}, {"budget": 1, "seconds": 1}):
            with self.assertRaises(TypeError):
                vonjekona.self_pages([], EPSILON, **how)

    def test_refusals_come_with_the_first_page(self):
        self.assertEqual(refused(next, vonjekona.self_pages([(0, 0, 9)], EPSILON, budget=5)).number, 3)
        self.assertEqual(refused(next, vonjekona.self_pages([], EPSILON, budget=0)).number, 14)


class Seconds(unittest.TestCase):
    def test_a_page_takes_about_its_time(self):
        path = Path([(k % 64, k // 64, 0) for k in range(4096)])
        longest = count = 0
        began = time.process_time()
        for page in vonjekona.self_pages(path, EPSILON, seconds=0.02, rows=1 << 16):
            longest = max(longest, time.process_time() - began)
            count += 1
            if page.position > 2000000:
                break
            began = time.process_time()
        self.assertGreater(count, 3)
        # The processor's time, since the machine may be busy.
        self.assertLess(longest, 0.3)

    def test_the_next_budget(self):
        from vonjekona.pages import _fitting
        self.assertEqual(_fitting(1000, 1000, 0.1, 0.2), 2000)
        self.assertEqual(_fitting(1000, 1000, 1e-12, 10), 4000, "four times as many at most")
        self.assertEqual(_fitting(1000, 1000, 5, 1e-9), 1, "one at least")


if __name__ == "__main__":
    unittest.main()
