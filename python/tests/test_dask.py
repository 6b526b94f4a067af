"""Frames of Dask, where it is there: by threads, and by a cluster of three processes, of which one is lost."""
import logging
import os
import signal
import unittest

from room import Room
from vodmejka import OVER, Broken, Refused, Stopped

ROWS = 60
REVENUES = [30 * k if k < 50 else 30_000 for k in range(ROWS)]
TAXES = [max(0, revenue - 1000) + k % 2 for k, revenue in enumerate(REVENUES)]


class Frames(Room):
    """By the rules of test_vodmejka: IRN is what 1AJ has above 1000 and 1 for 1BB, C the cube of 1AJ; below 0 it is stopped, above 9000 there is a note."""

    def setUp(self):
        super().setUp()
        try:
            import dask.dataframe
            import pandas
        except ImportError:
            self.skipTest("no dask")
        self.dask, self.pandas = dask.dataframe, pandas
        self.whole = pandas.DataFrame(
            {"1AJ": REVENUES, "1BB": [k % 2 for k in range(ROWS)], "weight": [0.5] * ROWS}, index=[f"h{k:02}" for k in range(ROWS)]
        )
        self.frame = self.cut(self.whole)

    def cut(self, whole):
        return self.dask.from_pandas(whole, npartitions=7)

    def same(self, found, expected):
        self.pandas.testing.assert_frame_equal(found, expected, check_index_type=False)

    def test_partitions(self):
        """The partitions stay what they are, and each household has what it has in a frame of pandas."""
        made = self.rules.map(self.frame, keep=["weight"])
        self.assertEqual((made.npartitions, made.divisions), (self.frame.npartitions, self.frame.divisions))
        self.assertEqual([*made.columns], ["weight", "IRN", "C", "over", "notes"])
        found = made.compute(scheduler="threads")
        self.assertEqual([*found.index], [f"h{k:02}" for k in range(ROWS)])
        self.assertEqual([*found["IRN"]], TAXES)
        self.assertEqual([*found["notes"]], ["A30" if revenue > 9000 else "" for revenue in REVENUES])
        self.same(found, self.rules.batch(self.whole, keep=["weight"]))
        self.assertEqual((made["IRN"] * made["weight"]).sum().compute(scheduler="threads"), sum(TAXES) / 2)

    def test_forms_of_numbers(self):
        """Types are known before anything is computed. The cube of 22,000 is beyond the greatest amount."""
        whole = self.pandas.DataFrame({"1AJ": [2000, None, 22_000]}, index=["a", "b", "c"])
        forms = {
            "float64": ("float64", [8e9, None, float("inf")]), "micros": ("Int64", [8 * 10**15, None, None]), "decimal": ("object", [8 * 10**9, None, OVER])
        }
        for numbers, (dtype, cubes) in forms.items():
            made = self.rules.map(self.cut(whole), numbers=numbers)
            self.assertEqual(str(made.dtypes["C"]), dtype)
            found = made.compute(scheduler="threads")
            self.assertEqual([None if self.pandas.isna(cube) else cube for cube in found["C"]], cubes)
            self.assertEqual([*found["over"]], ["", "", "C"])

    def stopped(self, work):
        """That the one stopped household is the same error as of a frame of pandas."""
        with self.assertRaises(Stopped) as here:
            self.rules.batch(self.whole, keep=["weight"])
        with self.assertRaises(Stopped) as there:
            work(self.rules.map(self.cut(self.whole), keep=["weight"]))
        self.assertEqual((there.exception.line, there.exception.line[:13]), (here.exception.line, "failed 20 A20"))
        self.assertIn('household "h33"', str(there.exception))

    def test_stops(self):
        """An error, or kept."""
        self.whole.loc["h33", "1AJ"] = -1
        frame = self.cut(self.whole)
        self.stopped(lambda made: made.compute(scheduler="threads"))
        kept = self.rules.map(frame, keep=["weight"], stops="keep").compute(scheduler="threads")
        self.assertEqual([*kept["stop"].notna()], [k == 33 for k in range(ROWS)])
        self.same(kept, self.rules.batch(self.whole, keep=["weight"], stops="keep"))

    def test_what_is_refused(self):
        """A frame of pandas and a column at once, and a cell where it is computed."""
        with self.assertRaisesRegex(TypeError, "batch takes one of pandas"):
            self.rules.map(self.whole)
        with self.assertRaisesRegex(Refused, 'column "weight" is no code of the rules'):
            self.rules.map(self.frame)
        self.whole.loc["h57", "1BB"] = 2
        with self.assertRaisesRegex(Refused, 'household "h57", code 1BB: 2 is neither 0 nor 1'):
            self.rules.map(self.cut(self.whole), keep=["weight"]).compute(scheduler="threads")

    def test_meta(self):
        meta = self.rules.batch(self.whole.iloc[:0], keep=["weight"]).astype({"notes": "category"})
        made = self.rules.map(self.frame, keep=["weight"], meta=meta)
        self.assertEqual(str(made.dtypes["notes"]), "category")

    def test_another_program(self):
        """A partition that is computed by another program than the first is an error."""
        made = self.rules.map(self.frame, keep=["weight"])
        batch = self.rules.batch

        def other(*words, **options):
            found = batch(*words, **options)
            found.attrs["program"] = "other"
            return found

        self.rules.batch = other
        with self.assertRaisesRegex(Broken, "another one than that with which the frame was made"):
            made.compute(scheduler="synchronous")

    def test_a_cluster(self):
        """Three processes; one is killed that has answers, which are computed again. What a worker raises comes back as it is."""
        try:
            from distributed import Client, LocalCluster, wait
        except ImportError:
            self.skipTest("no distributed")
        words = {"n_workers": 3, "threads_per_worker": 1, "local_directory": self.room.name, "dashboard_address": None, "silence_logs": logging.CRITICAL}
        with LocalCluster(**words) as cluster, Client(cluster) as client:
            made = client.persist(self.rules.map(self.frame, keep=["weight"]))
            wait(made)
            holders = {worker for workers in client.who_has(made).values() for worker in workers}
            pid = client.run(os.getpid)[sorted(holders)[0]]
            os.kill(pid, signal.SIGKILL)
            self.same(client.compute(made, sync=True), self.rules.batch(self.whole, keep=["weight"]))
            self.whole.loc["h33", "1AJ"] = -1
            self.stopped(lambda made: client.compute(made, sync=True))


if __name__ == "__main__":
    unittest.main()
