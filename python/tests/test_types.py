"""Types of the package, by mypy, where it is installed: that its modules have them, and that a caller's mistakes are found."""
import inspect
import os
import shutil
import subprocess
import tempfile
import unittest

import vodmejka

HERE = os.path.dirname(os.path.dirname(os.path.abspath(__file__)))
CALLER = """from decimal import Decimal
from pathlib import Path
from vodmejka import Answer, Compared, Fact, Mismatches, Rules, Value, compare, compare_file

rules = Rules(Path("a"), Path("b"), timeout=3)
answer: Answer = rules.run({"1AJ": 3})
value: Value = answer["X"]
for one in rules.batch([{"1AJ": 3}]):
    value = one["X"]
count: int = rules.batch_file(Path("a.csv"), "b.csv", stops="keep")
mismatches: Mismatches = rules.cases(Path("cases.csv"))
source, program = answer.digests
household: Compared = compare(rules, rules, [], of="T").households[0]
fact: Fact = rules.facts({"1AJ": (0, 10**6), "0CF": "no"})["T"]
winners: int = compare_file(rules, rules, "a.csv", of="T").comparison.all.winners
picture: str = compare(rules, rules, [], of="T").plot()
cost: Decimal = compare(rules, rules.variant({"A": 3}), [{"1AJ": 1}], of="T").cost
"""


def public_calls():
    """The public functions of the package, and those of its public classes, by their names."""
    for name in vodmejka.__all__:
        found = getattr(vodmejka, name)
        if inspect.isfunction(found):
            yield name, found
        if not inspect.isclass(found):
            continue
        for own, value in vars(found).items():
            call = value.fget if isinstance(value, property) else getattr(value, "__func__", value)
            if inspect.isfunction(call) and call.__module__.startswith("vodmejka") and (not own.startswith("_") or own == "__init__"):
                yield f"{name}.{own}", call


@unittest.skipUnless(shutil.which("mypy"), "no mypy")
@unittest.skipUnless(os.path.isfile(os.path.join(HERE, "pyproject.toml")), "no clone")
class Types(unittest.TestCase):
    @classmethod
    def setUpClass(cls):
        room = tempfile.TemporaryDirectory()
        cls.addClassCleanup(room.cleanup)
        cls.cache = room.name

    def told(self, *words):
        """What mypy says, and its status."""
        words = ["mypy", "--cache-dir", self.cache, *words]
        done = subprocess.run(words, cwd=HERE, env={**os.environ, "MYPYPATH": HERE}, capture_output=True, text=True, check=False)
        return done.returncode, done.stdout

    def test_the_package(self):
        """By pyproject.toml: strict."""
        status, said = self.told()
        self.assertEqual(status, 0, said)

    def test_all_modules(self):
        """Of all modules, commands and the language server too. What has no types is not looked into here."""
        status, said = self.told("--config-file", os.devnull, "--ignore-missing-imports", "vodmejka")
        self.assertEqual(status, 0, said)

    def test_public_calls(self):
        """Each parameter and each result of a public call has a type, and none is `Any` alone."""
        wrong = []
        for name, call in public_calls():
            signature = inspect.signature(call)
            types = {one.name: one.annotation for one in signature.parameters.values() if one.name not in ("self", "cls")}
            if not name.endswith("__init__"):
                types["result"] = signature.return_annotation
            wrong += [f"{name}: {what}: {type_}" for what, type_ in types.items() if type_ in (inspect.Signature.empty, "Any")]
        self.assertEqual(wrong, [])

    def test_runs(self):
        """The calls of `runs`, which commands share, have types too."""
        self.assertEqual(self.told("--strict", "--allow-untyped-calls", os.path.join("vodmejka", "runs.py"))[0], 0)

    def test_a_caller(self):
        with tempfile.TemporaryDirectory() as room:
            for text, status in ((CALLER, 0), (CALLER + "number: int = rules.inputs()\n", 1), (CALLER + 'rules.run({"1AJ": 0.5})\n', 1),
                                 (CALLER + 'rules.facts({"1AJ": 3})\n', 1)):
                path = os.path.join(room, f"caller{len(text)}.py")
                with open(path, "w", encoding="ascii") as file:
                    file.write(text)
                self.assertEqual(self.told(path)[0], status, text)


if __name__ == "__main__":
    unittest.main()
