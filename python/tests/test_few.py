"""Tests of batches of whose answers few values are read, so that the others aren't requested from the program. They need the program."""
import gc
import os
import pickle
import unittest
from decimal import Decimal
from unittest import mock

from room import Room
from vodmejka import OVER, Interrupted, Refused, Stopped, batches

NOTED = 'case "$4" in /*) echo $(cat "$4");; *) echo all;; esac >>asked;'
PARTS, PART, EACH = 8, 300, 1_500
ALL = PARTS * PART


class Few(Room):
    def setUp(self):
        super().setUp()
        self.rules = self.rules_by(NOTED)
        self.rows = [{"1AJ": 1000 + k} for k in range(ALL)]
        for name, value in (("SLICE", EACH), ("AHEAD", PART)):
            changed = mock.patch.object(batches, name, value)
            changed.start()
            self.addCleanup(changed.stop)

    def batch(self, rows=None):
        return self.rules.batch(self.rows if rows is None else rows, rows_at_once=PART)

    def asked(self):
        """The requests to the program since the last call of this, run by run."""
        path = self.room.name + "/asked"
        with open(path, encoding="ascii") as file:
            lines = [line.strip() for line in file]
        os.remove(path)
        return lines

    def assert_asked(self, name, runs=0):
        """That all were requested in the first parts, which are two or three, and for these names alone in those after them; and so many times more for all.

        Two runs may be under way at once, so their order isn't looked at.
        """
        asked = self.asked()
        self.assertEqual((len(asked), set(asked)), (PARTS + (runs > 0), {"all", name}))
        self.assertIn(asked.count("all") - runs, (2, 3))

    def test_one_value_is_asked_for(self):
        for name, due in (("IRN", lambda k: k), ("C", lambda k: (1000 + k) ** 3)):
            rows = [{"1AJ": 1000 + k % 800} for k in range(ALL)]
            self.assertEqual([answer[name] for answer in self.batch(rows)], [due(k % 800) for k in range(ALL)])
            self.assert_asked(name)

    def test_nothing_is_read(self):
        """Then the first name is requested, since an answer without a value has no line of its own."""
        self.assertEqual(sum(1 for _ in self.batch()), ALL)
        self.assert_asked("IRN")

    def test_all_that_is_read_otherwise_is_asked_for(self):
        """Half of the names or more, values, notes, stops, answers that are held, and values that some answers don't have."""
        reads = (
            lambda answers: [(answer["IRN"], answer["C"]) for answer in answers],
            lambda answers: [answer.values for answer in answers],
            lambda answers: [(answer["IRN"], answer.notes) for answer in answers],
            lambda answers: [answer.stop for answer in answers if answer["IRN"] is not None],
            lambda answers: list(answers),
            lambda answers: list(map(str, answers)),
            lambda answers: [pickle.dumps(answer) for answer in answers],
        )
        for read in reads:
            self.assertEqual(len(read(self.batch())), ALL)
            self.assertEqual(self.asked(), ["all"] * PARTS)
        self.rows = [{"1AJ": 1000 + k} if k % 50 else {} for k in range(ALL)]
        self.assertEqual([answer["C"] for answer in self.batch()], [(1000 + k) ** 3 if k % 50 else None for k in range(ALL)])
        self.assertEqual(self.asked(), ["all"] * PARTS)

    def test_something_else_is_read_later(self):
        """What else is read is right, the part is computed a second time and the one after it may be, and all values are requested after them."""
        reads = {
            "another value": lambda answer, run: (answer["C"], run["C"]),
            "values": lambda answer, run: (answer.values, run.values),
            "notes": lambda answer, run: (answer.notes, run.notes),
            "the stop": lambda answer, run: (answer.stop, run.stop),
            "all": lambda answer, run: (answer, run),
            "what was pickled": lambda answer, run: (pickle.loads(pickle.dumps(answer)), run),
        }
        for row in ({"1AJ": 1777}, {"1AJ": 9999}, {"1AJ": 10_000_000}, {"1AJ": 5000, "1BB": 1}):
            self.rows[1777] = row
            run = self.rules.run(row)
            for what, read in reads.items():
                with self.subTest(what, row=row):
                    for k, answer in enumerate(self.batch()):
                        self.assertEqual(answer["IRN"], run["IRN"] if k == 1777 else k)
                        if k == 1777:
                            self.assertEqual(*read(answer, run))
                    self.assert_asked("IRN", 2)  # the part that was computed for few, and the last one

    def test_undefined_and_overflowing_values_and_stops(self):
        """They are given unchanged, in parts where nothing of the kind was met before."""
        self.rows = [{"1AJ": 1000 + k % 500} for k in range(ALL)]
        self.rows[1600], self.rows[1601], self.rows[1700], self.rows[ALL - 1] = {}, {"1AJ": 10_000_000}, {"1AJ": -1}, {"1AJ": -5}
        told = []
        for answer in self.batch():
            try:
                told.append(answer["C"])
            except Stopped:
                told.append(answer.stop.error)
        due = [(1000 + k % 500) ** 3 for k in range(ALL)]
        due[1600], due[1601], due[1700], due[ALL - 1] = None, OVER, "A20", "A20"
        self.assertEqual(told, due)

    def test_answers_that_are_held_from_some_place_on(self):
        self.rows = [{"1AJ": 8000 + k} for k in range(ALL)]
        for begin in (ALL // 2, ALL // 2 + 77, ALL - PART, ALL - 1):
            held = [answer for k, answer in enumerate(self.batch()) if answer["IRN"] == 7000 + k and k >= begin]
            self.assertEqual([answer.values["C"] for answer in held], [(8000 + k) ** 3 for k in range(begin, ALL)])
            self.assertEqual([len(answer.notes) for answer in held], [1 if k > 1000 else 0 for k in range(begin, ALL)])

    def test_the_greatest_is_held(self):
        """One answer is held for long, now and then another one."""
        greatest = None
        for answer in self.batch([{"1AJ": 1000 + (k * 7919) % 2_411} for k in range(ALL)]):
            if greatest is None or answer["IRN"] > greatest["IRN"]:
                greatest = answer
        found = max((k * 7919) % 2_411 for k in range(ALL))
        self.assertEqual((greatest["IRN"], greatest["C"], greatest), (found, (1000 + found) ** 3, self.rules.run({"1AJ": 1000 + found})))

    def test_the_last_answer_of_a_batch(self):
        """It has all values when the batch is at its end, was left or closed, and its rules are gone; nothing stays open when it is gone too."""
        before = len(os.listdir("/proc/self/fd"))
        for leave in (None, 1_950):
            rules, last = self.rules_by(NOTED), None
            batch = rules.batch(self.rows, rows_at_once=PART)
            for k, answer in enumerate(batch):
                last = answer
                self.assertEqual(answer["IRN"], k)
                if k == leave:
                    break
            batch.close()
            del batch, rules, answer
            self.assertEqual(last.values, {"IRN": Decimal(k), "C": Decimal((1000 + k) ** 3)})
            self.assertEqual((last.notes, last.stop), ((), None))
            del last
            gc.collect()
            self.assertEqual(len(os.listdir("/proc/self/fd")), before)

    def test_a_program_that_fails_where_few_are_asked_for(self):
        """The part is computed for all then."""
        for script in (
            "kill -KILL $$", "exit 0", "echo refused requests line 1; exit 1", "echo household '~'; exit 0",
            "printf 'household ~\\nIRN = 1'; exit 0", "exit 5",
        ):
            self.rules = self.rules_by(f'{NOTED} [ "$4" = - ] || {{ {script}; }};')
            self.assertEqual([answer["IRN"] for answer in self.batch()], list(range(ALL)))
            self.assertIn("IRN", self.asked())

    def test_a_program_that_is_killed_where_all_are_wanted_later(self):
        """What was requested is given, and another name is an error, which may be tried again."""
        self.rules = self.rules_by('[ "$4" = - ] && [ -e later ] && kill -KILL $$;')
        for k, answer in enumerate(self.batch()):
            if k == 2_250:
                self.put("later", "")
                for wanted in (lambda: answer["C"], lambda: answer.values, lambda: answer.notes):
                    self.assertRaises(Interrupted, wanted)
                self.assertEqual(answer["IRN"], k)
                os.remove(self.room.name + "/later")
                self.assertEqual(answer.values, {"IRN": k, "C": (1000 + k) ** 3})
            self.assertEqual(answer["IRN"], k)

    def test_a_program_that_says_too_little_where_all_are_wanted_later(self):
        """A last line without its end may be a part of an amount, and isn't given."""
        whole = "household ~\\nIRN = 7\\nC = 77"
        cut = f"printf '{whole}\\n%.0s' $(seq {PART - 1}); printf '{whole}'"
        self.rules = self.rules_by('[ "$4" = - ] && [ -e later ] && { ' + cut + "; exit 0; };")
        for k, answer in enumerate(self.batch()):
            if k == ALL - 1:
                self.put("later", "")
                self.assertRaisesRegex(batches.Broken, "without its end", lambda: answer.values)
            self.assertEqual(answer["IRN"], k)

    def test_a_household_that_is_not_taken(self):
        for wrong, line in (("x", "bad amount"), (10**20, "bad amount")):
            self.rows[2_021] = {"1AJ": wrong}
            told, refused = self.told_before(self.rows, PART, Refused)
            self.assertEqual((told, refused.line), (list(range(2_021)), f"refused household line 2023: {line}"))
        self.assertIn("IRN", self.asked())

    def test_names_are_asked_for_as_they_were_requested(self):
        self.put("a.m", "REV : saisie revenu classe = 0 alias 1AJ : \"r\" ;\nT : tableau[12] calculee : \"t\" ;\nY : calculee : \"y\" ;\n"
                 "regle 1 : application : iliad ;\nT[0] = REV ; T[11] = REV + 2 ; Y = REV + 3 ;\n")
        self.rules = self.rules_by(NOTED, requests=self.put("r.txt", "Y\nT[11]\nT[0]\nT[11]\nREV\n"))
        rows = [{"1AJ": k} for k in range(ALL)]
        self.assertEqual([answer["T[0]"] for answer in self.batch(rows)], list(range(ALL)))
        self.assert_asked("T[0]")
        self.assertEqual([answer["T[0]"] + answer["Y"] for answer in self.batch(rows)], [2 * k + 3 for k in range(ALL)])
        self.assert_asked("Y T[0]")
        self.assertEqual([answer["T[11]"] for answer in self.batch(rows)], [k + 2 for k in range(ALL)])
        self.assertEqual(self.asked(), ["all"] * PARTS)  # it is printed twice


if __name__ == "__main__":
    unittest.main()
