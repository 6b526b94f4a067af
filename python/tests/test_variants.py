"""Tests of rules with other constants, files, drivers and requests."""
import pickle
import unittest

from room import Room
from test_vodmejka import RULES
from vodmejka import Broken, Refused, Rules


class Variants(Room):
    def told(self, rules, amount=2500):
        return {name: value if value is None else str(value) for name, value in rules.run({"1AJ": amount}).items()}

    def test_a_constant(self):
        """2500 - 1200 is 1300; the rules themselves stay as they are."""
        self.assertEqual(self.told(self.rules.variant({"SEUIL": 1200}))["IRN"], "1300")
        self.assertEqual(self.told(self.rules.variant({"SEUIL": "1200.5"}))["IRN"], "1299.5")
        self.assertEqual(self.told(self.rules)["IRN"], "1500")

    def test_a_file_by_its_name_or_the_last_part_of_it(self):
        text = RULES.replace("REV - SEUIL", "REV + SEUIL")
        for name in ("a.m", self.room.name + "/a.m"):
            self.assertEqual(self.told(self.rules.variant(replace={name: text}))["IRN"], "3500")

    def test_a_driver_and_requests(self):
        made = self.rules.variant(driver="main():\n  REV = 4000\n  IRN <- call_m()\n", outputs=["IRN", "REV"])
        self.assertEqual(self.told(made), {"IRN": "3000", "REV": "4000"})
        self.assertEqual(made.outputs(), {"IRN": "n", "REV": "s"})
        self.assertEqual(self.told(made.variant({"SEUIL": 500})), {"IRN": "3500", "REV": "4000"})

    def test_each_has_a_digest_of_its_own(self):
        made = [self.rules, self.rules.variant({"SEUIL": 1200}), self.rules.variant(outputs=["C"]), self.rules.variant(driver="main():\n  IRN <- call_m()\n")]
        self.assertEqual(len({rules.digest for rules in made}), 4)
        self.assertEqual(pickle.loads(pickle.dumps(made[1])).digest, made[1].digest)

    def test_what_is_refused(self):
        for values, replace, line in (
            ({"NONE": 1}, None, "NONE: no constant has this name, and no formula"),
            ({"IRN": 1}, None, "IRN: it is computed"),
            ({"SEUIL": 1000}, None, "SEUIL: it is 1000 already"),
            ({"SEUIL": "1e3"}, None, "SEUIL: 1e3 is no number of rules"),
            (None, {"b.m": ""}, "replace: 0 rule files have the name b.m"),
            (None, {"a.m": RULES.replace("SEUIL)", "SEUI)")}, "a.m line 7 byte .*: unknown name SEUI"),
        ):
            with self.assertRaisesRegex(Refused, line):
                self.rules.variant(values, replace=replace)
        self.rules.write_code(self.room.name + "/a.code")
        with self.assertRaisesRegex(Broken, "no sources"):
            Rules.from_code(self.room.name + "/a.code").variant({"SEUIL": 1})


if __name__ == "__main__":
    unittest.main()
