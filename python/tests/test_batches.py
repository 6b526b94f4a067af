"""Tests of batches: their parts, the answers before an end, and what is written and read otherwise than one by one. They need the program."""
import io
import itertools
import os
import pickle
import time
import unittest
from collections import OrderedDict, deque
from decimal import Decimal
from fractions import Fraction
from types import MappingProxyType
from unittest import mock

from room import Room
from test_vodmejka import RULES
from vodmejka import OVER, Interrupted, Refused, Stopped, batches, tables
from vodmejka.tables import Tables, by_columns


def written(made, rows):
    """The table that is written of some rows."""
    out = io.BytesIO(b"what stood there")
    made.write(rows, out)
    return out.getvalue().decode()


class Batches(Room):
    def test_a_bad_household_has_its_row_among_all(self):
        """Line 1 is the header, so household k (from 0) has line k + 2; all answers before it are given."""
        for size in (300, 1000, 2000):
            for at in (0, 1, 999, 1000, 1700):
                rows = [{"1AJ": 1000 + k} for k in range(2500)]
                rows[at] = {"1AJ": "x"}
                told, refused = self.told_before(rows, size, Refused)
                self.assertEqual(told, list(range(at)))
                self.assertEqual((refused.file, refused.row, refused.line), ("household", at + 2, f"refused household line {at + 2}: bad amount"))

    def test_of_two_bad_households_the_first_ends_the_batch(self):
        rows = [{"1AJ": 1000}, {"1AJ": 1001}, {"1BB": 7}, {"1AJ": "x"}]
        told, refused = self.told_before(rows, 50, Refused)
        self.assertEqual((told, refused.line), ([0, 1], "refused household line 4: not of its type"))

    def test_an_unknown_code_ends_the_batch_where_it_stands(self):
        for size in (2, 1000):
            told, refused = self.told_before([{"1AJ": 1000}, {"1BB": 1}, {"1AJ": 1002}, {"9ZZ": 1}, {"1AJ": 5}], size, Refused)
            self.assertEqual((told, refused.line), ([0, 1, 2], "refused household line 1: unknown code"))

    def test_what_is_no_amount_ends_the_batch_where_it_stands(self):
        for wrong, error in ((2.5, TypeError), (True, TypeError), (object(), TypeError), (Decimal("NaN"), ValueError)):
            for size in (500, 1000):
                rows = [{"1AJ": 1000 + k} for k in range(1500)]
                rows[1204] = {"1AJ": wrong}
                self.assertEqual(self.told_before(rows, size, error)[0], list(range(1204)))

    def test_an_iterator_of_one_household_that_changes(self):
        def rows():
            household = {}
            for k in range(50):
                household["1AJ"] = 1000 + k
                yield household

        for size in (1, 7, 1000):
            self.assertEqual([answer["IRN"] for answer in self.rules.batch(rows(), rows_at_once=size)], list(range(50)))

    def test_an_iterator_that_raises(self):
        def rows(count):
            for k in range(count):
                yield {"1AJ": 1000 + k}
            raise LookupError("the end of the rows")

        for count in (0, 1, 1000, 2345):
            for size in (400, 1000):
                told, error = self.told_before(rows(count), size, LookupError)
                self.assertEqual((told, str(error)), (list(range(count)), "the end of the rows"))

    def test_no_households(self):
        for rows in ([], (), iter([]), {}):
            self.assertEqual(list(self.rules.batch(rows)), [])
        for rows in ([{}], [MappingProxyType({})] * 3):
            self.assertEqual([answer["IRN"] for answer in self.rules.batch(rows)], [0] * len(rows))

    def test_cells_with_quotes_commas_and_line_ends(self):
        """Each is one cell, and so one bad amount in its row; nothing moves to another cell or row, and none is left out."""
        for size in (600, 2000):
            for wrong in ('"', '""', "1,2", ",", "1\n", "\n", "\r", "5\r", "1\r2", "1\r\n2", "1,2\n3", '"1"', " 1", "None", "%s", "~", "1e3", "é"):
                rows = [{"1AJ": 1000 + k, "1BB": "1" if k % 2 else None} for k in range(1100)]
                rows[1050] = {"1AJ": wrong, "1BB": 1}
                told, refused = self.told_before(rows, size, Refused)
                self.assertEqual(told, [k + k % 2 for k in range(1050)])
                self.assertEqual(refused.line, "refused household line 1052: bad amount")
                with self.assertRaisesRegex(Refused, "household line 2: bad amount"):
                    self.rules.run({"1AJ": wrong})

    def test_rows_are_those_of_csv(self):
        """What is written without a look at each cell is what csv writes cell by cell."""
        whole = [{"1AJ": k - 50, "1BB": k % 2} if k % 3 else {"1BB": -k} for k in range(200)]
        texts = [{"1AJ": str(k), "1BB": None} for k in range(100)]
        decimals = [{"1AJ": Decimal(k) / 8, "1BB": k} for k in range(100)]
        for rows in (whole, texts, decimals, whole + texts + decimals, whole + [{"1AJ": 'a"b,c\nd'}], [{}], [{}, {"1AJ": 1}]):
            for size in (1000, 7):
                with mock.patch.object(tables, "FILLED", size):
                    made = written(Tables(), rows)
                codes = made.splitlines()[0].split(",")
                self.assertEqual(sorted(codes), sorted(by_columns(rows).splitlines()[0].split(",")))
                self.assertEqual(made, by_columns([{code: row.get(code) for code in codes[1:]} for row in rows]))

    def test_lists_of_codes_that_are_met_late(self):
        """A table with a list of codes that none before it had is begun anew, and those after it have its codes too."""
        made = Tables()
        first, second = [{"1AJ": k} for k in range(30)], [{"1AJ": k} for k in range(40)] + [{"1AJ": 7, "1BB": 1}, {"1BB": 0}]
        with mock.patch.object(tables, "FILLED", 10):
            self.assertEqual(written(made, first), "name,1AJ\n" + "".join(f"~,{k}\n" for k in range(30)))
            self.assertEqual(written(made, second), "name,1AJ,1BB\n" + "".join(f"~,{k},\n" for k in range(40)) + "~,7,1\n~,,0\n")
            self.assertEqual(written(made, first), "name,1AJ,1BB\n" + "".join(f"~,{k},\n" for k in range(30)))
            self.assertEqual(written(made, first + [OrderedDict([("1BB", 1), ("1AJ", 3)])]), by_columns([*first, {"1AJ": 3, "1BB": 1}]))
            self.assertEqual(written(made, [{"1BB": 1, "1AJ": 3}, *first]), by_columns([{"1BB": 1, "1AJ": 3}, *first]))

    def test_types_after_the_first_amounts(self):
        class Own(int):
            def __str__(self):
                return "1,5"

        class Text(str):
            pass

        first = [{"1AJ": 1000 + k} for k in range(500)]
        for amount, due in ((Decimal("3000.5"), Decimal("2000.5")), ("3000", 2000), (None, 0), (10**20, None), (Own(4), None), (Text("3000"), 2000),
                            ("", 0), ("3000.50", Decimal("2000.5")), ("-", None), ("1.2.3", None), (True, TypeError), (Fraction(4), TypeError)):
            rows = first + [{"1AJ": amount}]
            if due is TypeError:
                self.assertEqual(self.told_before(rows, 1000, TypeError)[0], list(range(500)))
            elif due is None:
                self.assertEqual(self.told_before(rows, 1000, Refused)[1].line, "refused household line 502: bad amount")
            else:
                self.assertEqual([answer["IRN"] for answer in self.rules.batch(rows)], [*range(500), due])

    def test_texts_are_cut_anywhere(self):
        """Answers are the same whatever the size of the texts in which they are read, with notes, stops, undefined and overflowing values."""
        rows = [{"1AJ": (-1, 2500, 9001, None, 10_000_000)[k % 5]} for k in range(400)]
        due = [self.rules.run(row) for row in rows[:5]]
        self.assertEqual([due[1]["IRN"], due[2]["IRN"], due[3]["C"], due[4]["C"]], [1500, 8001, None, OVER])
        for size in (1, 13, 100, 1000, 65536):
            with mock.patch.object(batches, "SLICE", size):
                found = list(self.rules.batch(rows))
                for name in ("IRN", "C"):
                    self.assertEqual([answer[name] for k, answer in enumerate(found) if k % 5], [due[k % 5][name] for k in range(400) if k % 5])
                self.assertEqual(found, due * 80)

    def test_tables_that_are_too_long(self):
        rows = [{"1AJ": 1000 + k} for k in range(300)]
        with mock.patch.object(batches, "FILE_BYTES", 100):
            self.assertEqual([answer["IRN"] for answer in self.rules.batch(rows)], list(range(300)))
            rows[211] = {"1AJ": "x"}
            told, refused = self.told_before(rows, 1000, Refused)
            self.assertEqual((told, refused.row), (list(range(211)), 213))

    def test_answers_that_are_kept_hold_their_own_lines_alone(self):
        kept = [answer for k, answer in enumerate(self.rules.batch({"1AJ": 1000 + k} for k in range(20_000))) if k % 700 == 0]
        self.assertTrue(all(answer._block is None for answer in kept[:-1]))
        self.assertEqual([answer.values["IRN"] for answer in kept], list(range(0, 20_000, 700)))
        self.assertLess(len(pickle.dumps(kept[5])), 400)
        self.assertEqual(pickle.loads(pickle.dumps(kept[5])), kept[5])

    def test_answers_that_are_held_while_others_are_handed_out(self):
        """An answer keeps its values, whichever are held, for how long, and whatever was read of them before."""
        with mock.patch.object(batches, "SLICE", 2_000):
            for holds in (lambda k: k % 3, lambda k: k % 3 == 0, lambda k: k // 90 % 2, lambda k: k % 1000 < 3, lambda k: k > 2_000):
                for reads in (lambda answer, k: None, lambda answer, k: answer["IRN"], lambda answer, k: answer.values if k % 5 else answer.notes):
                    held, last = {}, deque(maxlen=100)
                    for k, answer in enumerate(self.rules.batch([{"1AJ": 1000 + k} for k in range(3_000)])):
                        reads(answer, k)
                        last.append((k, answer))
                        if holds(k):
                            held[k] = answer
                        self.assertEqual((last[0][1]["IRN"], answer["IRN"]), (last[0][0], k))
                    self.assertEqual([answer["IRN"] for answer in held.values()], list(held))
                    self.assertEqual([answer.values["IRN"] for answer in held.values()], list(held))

    def test_what_was_read_of_an_answer_stays(self):
        """Values, notes and texts of answers that nobody holds any more; answers that were pickled; and none is the same answer twice while it is held."""
        told, values, pickled = [], [], []
        for k, answer in enumerate(self.rules.batch({"1AJ": 8_000 + k} for k in range(2_000))):
            told.append((answer["IRN"], answer.stop, answer.notes))
            values.append(answer.values)
            pickled.append(pickle.dumps(answer))
        due = [self.rules.run({"1AJ": 8_000 + k}) for k in (0, 1_000, 1_001, 1_999)]
        for k, one in zip((0, 1_000, 1_001, 1_999), due):
            self.assertEqual((told[k], values[k], pickle.loads(pickled[k])), ((one["IRN"], one.stop, one.notes), one.values, one))
        self.assertEqual([value["IRN"] for value in values], [7_000 + k for k in range(2_000)])
        self.assertEqual(len(set(map(id, list(self.rules.batch({"1AJ": k} for k in range(2_000)))))), 2_000)

    def test_a_batch_that_is_closed_hands_out_nothing_more(self):
        batch = self.rules.batch([{"1AJ": 1000 + k} for k in range(500)])
        found = []
        for answer in batch:
            found.append(answer)
            if len(found) == 7:
                batch.close()
        self.assertEqual([answer["IRN"] for answer in found], list(range(7)))
        self.assertEqual(list(batch), [])
        batch.close()
        left = self.rules.batch([{"1AJ": 1000 + k} for k in range(500)])
        first = next(left)
        del left
        self.assertEqual((first["IRN"], first.values["IRN"]), (0, 0))

    def test_more_different_amounts_than_are_kept(self):
        rows = [{"1AJ": Decimal(1000 + k) + Decimal("0.5")} for k in range(45_000)]
        self.assertEqual([answer["IRN"] for answer in self.rules.batch(rows)], [k + Decimal("0.5") for k in range(45_000)])

    def test_several_batches_at_once(self):
        rows = [{"1AJ": 1000 + k} for k in range(3000)]
        pairs = zip(self.rules.batch(rows, rows_at_once=1000), self.rules.batch(rows[::-1], rows_at_once=700), self.rules.batch(rows, rows_at_once=2000))
        self.assertEqual([tuple(answer["IRN"] for answer in some) for some in pairs], [(k, 2999 - k, k) for k in range(3000)])

    def test_a_program_that_is_killed(self):
        """The answers of the part before it are given. Parts are begun ahead, so the script knows the second one by what its table has."""
        self.rules = self.rules_by('grep -q 2500 "$5" && kill -KILL $$;')
        told, error = self.told_before([{"1AJ": 1000 + k} for k in range(3000)], 1000, Interrupted)
        self.assertEqual((told, str(error)), (list(range(1000)), "the program ended with status -9"))

    def test_a_program_that_says_too_little(self):
        for script in ("exit 0;", "echo household '~'; exit 0;", "printf 'household ~\\nIRN = 1'; exit 0;", "echo IRN = 5; exit 0;"):
            self.rules = self.rules_by(script)
            self.assertEqual(self.told_before([{"1AJ": 1}, {"1AJ": 2}], 1000, batches.Broken)[0], [])

    def test_a_batch_that_is_left_ends_its_program(self):
        self.rules = self.rules_by('grep -q 2500 "$5" && echo $$ >number && exec sleep 600;')
        batch = self.rules.batch(({"1AJ": 1000 + k} for k in range(5000)), rows_at_once=1000)
        self.assertEqual(next(batch)["IRN"], 0)
        while not os.path.exists(self.room.name + "/number") or not os.path.getsize(self.room.name + "/number"):
            time.sleep(0.05)
        batch.close()
        with open(self.room.name + "/number", encoding="ascii") as file:
            self.assertFalse(os.path.exists(f"/proc/{int(file.read())}"))

    def test_files_that_change_meanwhile(self):
        batch = self.rules.batch(({"1AJ": 1000 + k} for k in range(3000)), rows_at_once=1000)
        self.assertEqual(next(batch)["IRN"], 0)
        self.put("a.m", RULES.replace("1000", "2000"))
        os.remove(self.list)
        self.assertEqual([answer["IRN"] for answer in batch], list(range(1, 3000)))

    def test_a_name_that_is_requested_twice(self):
        """It is printed twice, so that as many lines of it as there are households say nothing, where half of these stop."""
        for requests in ("IRN\nIRN\n", "IRN\nC\nIRN\n"):
            self.rules = self.rules_by(requests=self.put("r.txt", requests))
            for k, answer in enumerate(self.rules.batch([{"1AJ": -1 if k % 2 else 5000 + k} for k in range(400)])):
                if k % 2:
                    self.assertRaises(Stopped, lambda: answer["IRN"])
                else:
                    self.assertEqual(answer["IRN"], 4000 + k)

    def test_one_name_alone(self):
        """Its lines and the labels are all that is printed, but where a household is noted or stopped, or has no amount of it."""
        for name, value in (("IRN", lambda amount: amount - 1000), ("C", lambda amount: amount**3)):
            self.rules = self.rules_by(requests=self.put("r.txt", f"{name}\n"))
            for place, other in itertools.product((0, 7, 399), (2500, 9001, -1, None)):
                amounts = [2000 + k for k in range(400)]
                amounts[place] = other
                for amount, answer in zip(amounts, self.rules.batch([{"1AJ": amount} for amount in amounts])):
                    if amount == -1:
                        self.assertRaises(Stopped, lambda: answer[name])
                    elif amount is None:
                        self.assertEqual(answer[name], 0 if name == "IRN" else None)
                    else:
                        self.assertEqual(answer[name], value(amount))

    def test_nothing_requested(self):
        self.rules = self.rules_by(requests=self.put("r.txt", ""))
        found = list(self.rules.batch([{"1AJ": 2500}, {"1AJ": 9001}, {"1AJ": -1}]))
        self.assertEqual([(answer.values, len(answer.notes), answer.stop is None) for answer in found], [({}, 0, True), ({}, 1, True), ({}, 0, False)])


if __name__ == "__main__":
    unittest.main()
