"""Tests of the files that rules are made of, and of the code files that are kept."""
import os
import unittest
import unittest.mock

from room import Room
from test_vodmejka import RULES
from vodmejka import Broken, Interrupted, NotFound, Refused, Rules
from vodmejka.program import program_path

FILE_BYTES, RULE_BYTES, LIST_FILES = 16_777_216, 67_108_864, 1_024


class Files(Room):
    def told(self, names):
        """The faults of a list of these rule files."""
        with self.assertRaises(Refused) as caught:
            Rules(self.put("l.txt", "\n".join(["iliad", *names, ""])), cache=self.room.name + "/cache")
        return caught.exception.line

    def blank(self, name, size):
        """A rule file of so many blanks."""
        return self.put(name, " " * size)

    def test_a_file_without_an_end(self):
        self.assertEqual(self.told(["/dev/zero"]), "refused file too long /dev/zero")

    def test_a_file_that_is_too_long(self):
        name = self.blank("long.m", FILE_BYTES + 1)
        self.assertEqual(self.told([f"{self.room.name}/a.m", name, "/dev/zero"]), f"refused file too long {name}")

    def test_files_that_are_too_long_together(self):
        name = self.blank("blank.m", FILE_BYTES)
        more = self.blank("more.m", 1)
        self.assertEqual(self.told([name] * (RULE_BYTES // FILE_BYTES) + [more, "/dev/zero"]), f"refused file too long {more}")

    def test_a_name_that_none_can_have(self):
        with self.assertRaisesRegex(NotFound, "unreadable a"):
            Rules(self.put("l.txt", "iliad\na\0b\n"), cache=self.room.name + "/cache")

    def test_too_many_files(self):
        self.assertEqual(self.told(["/dev/zero"] * (LIST_FILES + 1)), "refused too many files")


class Cache(Room):
    def kept(self, program):
        """How many code files are kept after rules were made by this program once more."""
        self.assertEqual(Rules(self.list, cache=self.room.name + "/kept", program=program).run({"1AJ": 2500})["IRN"], 1500)
        return len(os.listdir(self.room.name + "/kept"))

    def put_program(self, name, text=""):
        os.makedirs(os.path.dirname(os.path.join(self.room.name, name)), exist_ok=True)
        path = self.put(name, f'#!/bin/sh\n{text}\nexec {program_path()} "$@"\n')
        os.chmod(path, 0o755)
        return path

    def test_a_script_beside_the_program(self):
        """The script of the repository runs what ./build made, or else a trial of the sources."""
        script = self.put_program("repo/m_tax")
        self.assertEqual([self.kept(script), self.kept(script)], [1, 1])
        for k, name in enumerate(("crates/one/src/lib.rt", "out/m_tax")):
            for j, text in enumerate(("# first", "# second")):
                self.put_program(f"repo/{name}", text)
                self.assertEqual([self.kept(script), self.kept(script)], [2 + 2 * k + j] * 2)
        self.put_program("repo/m_tax", "# another one")
        self.assertEqual(self.kept(script), 6)

    def test_a_code_file_that_cannot_be_read(self):
        """As one that another user keeps: it is compiled anew."""
        self.assertEqual(self.kept(None), 1)
        (name,) = os.listdir(self.room.name + "/kept")
        os.remove(f"{self.room.name}/kept/{name}")
        os.mkdir(f"{self.room.name}/kept/{name}")
        self.assertEqual(self.kept(None), 1)

    def test_a_trial_of_the_sources(self):
        """It replies when its input has ended, and takes no file that is only open here: both are reported."""
        script = self.put_program("repo/m_tax", '[ "$1" != batch ] || exit 70')
        self.put("repo/crates.txt", "")
        rules = Rules(self.list, cache=self.room.name + "/kept", program=script)
        with self.assertRaisesRegex(Broken, "no sessions: ./build"):
            rules.session()
        with self.assertRaisesRegex(Interrupted, "./build makes the program"):
            list(rules.batch([{}]))
        self.put_program("repo/out/m_tax")
        with self.assertRaisesRegex(Broken, "was replaced meanwhile"):
            rules.session()
        with Rules(self.list, cache=self.room.name + "/kept", program=script).session() as session:
            self.assertEqual(session.show()["IRN"], 0)

    def test_a_program_that_is_named_and_is_not_there(self):
        """Another one would compute something else."""
        with self.assertRaisesRegex(Broken, "no program .*/gone"):
            self.kept(self.room.name + "/gone")
        before = os.environ.get("M_TAX")
        os.environ["M_TAX"] = self.room.name
        self.addCleanup(lambda: os.environ.pop("M_TAX") if before is None else os.environ.update(M_TAX=before))
        with self.assertRaisesRegex(Broken, f"no program {self.room.name}"):
            self.kept(None)

    def test_a_user_without_a_home(self):
        """There is no folder that is named ~ then."""
        here = os.getcwd()
        os.chdir(self.room.name)
        self.addCleanup(os.chdir, here)
        with unittest.mock.patch.dict(os.environ, {"XDG_CACHE_HOME": ""}), unittest.mock.patch("os.path.expanduser", lambda path: path):
            before = os.listdir()
            self.assertEqual(Rules(self.list, program=os.path.join(here, program_path())).run({"1AJ": 2500})["IRN"], 1500)
            self.assertEqual(os.listdir(), before)

    def test_rules_that_change(self):
        self.assertEqual(self.kept(None), 1)
        self.put("a.m", RULES + "\n")
        self.assertEqual(self.kept(None), 2)


if __name__ == "__main__":
    unittest.main()
