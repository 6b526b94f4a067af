"""Tests of the wheel, the archive of sources and the program that the package finds. None of them starts the program."""
import importlib.util
import os
import shutil
import subprocess
import sys
import tarfile
import tempfile
import unittest
import zipfile
from unittest import mock

import vodmejka
from vodmejka import program, runs

HERE = os.path.dirname(os.path.dirname(os.path.abspath(__file__)))

# (a wheel that is installed elsewhere has neither what makes wheels nor the scripts)
IN_CLONE = unittest.skipUnless(os.path.isfile(os.path.join(HERE, "wheel_of_package.py")), "no clone")


def backend(folder):
    """The module that makes wheels, of a copy of the package."""
    spec = importlib.util.spec_from_file_location("wheel_of_package", os.path.join(folder, "wheel_of_package.py"))
    made = importlib.util.module_from_spec(spec)
    spec.loader.exec_module(made)
    return made


@IN_CLONE
class Wheels(unittest.TestCase):
    def setUp(self):
        room = tempfile.TemporaryDirectory()
        self.addCleanup(room.cleanup)
        self.room, self.top = room.name, os.path.join(room.name, "clone of")
        self.package = os.path.join(self.top, "python")
        shutil.copytree(HERE, self.package, ignore=shutil.ignore_patterns("__pycache__", "tests"))
        open(os.path.join(self.top, "crates.txt"), "w").close()
        environment = mock.patch.dict(os.environ)
        environment.start()
        self.addCleanup(environment.stop)
        os.environ.pop("VODMEJKA_RELEASE", None)
        os.environ.pop("M_TAX", None)

    def unpacked(self, wheel):
        """The folder into which a wheel is unpacked, as an installer does it."""
        folder = tempfile.mkdtemp(dir=self.room)
        with zipfile.ZipFile(os.path.join(self.room, wheel)) as archive:
            self.assertIsNone(archive.testzip())
            archive.extractall(folder)
        return folder

    def found(self, folder):
        """The program that the package in a folder finds, with nothing on the path."""
        words = [sys.executable, "-B", "-c", "import sys; sys.path.insert(0, sys.argv[1]); from vodmejka import program; print(program.program_path())", folder]
        return subprocess.run(words, cwd="/", env={"PATH": self.room + "/none"}, capture_output=True, text=True, check=False)

    def program(self, path):
        os.makedirs(os.path.dirname(path), exist_ok=True)
        with open(path, "w", encoding="ascii") as file:
            file.write("#!/bin/sh\n")
        os.chmod(path, 0o755)
        return path

    def test_a_wheel_finds_the_program_of_its_clone(self):
        folder = self.unpacked(backend(self.package).build_wheel(self.room))
        self.assertIn("there is no program m_tax", self.found(folder).stderr)
        script = self.program(self.top + "/m_tax")
        self.assertEqual(self.found(folder).stdout, script + "\n")
        built = self.program(self.top + "/out/m_tax")
        self.assertEqual(self.found(folder).stdout, built + "\n")

    def test_a_wheel_for_others_names_no_clone(self):
        self.program(self.top + "/out/m_tax")
        os.environ["VODMEJKA_RELEASE"] = "1"
        folder = self.unpacked(backend(self.package).build_wheel(self.room))
        self.assertFalse(os.path.exists(folder + "/vodmejka/clone.path"))
        self.assertIn("there is no program m_tax", self.found(folder).stderr)

    def test_a_wheel_with_a_program_inside(self):
        """Its own program comes before one of the path, and is a command; a command without its program says so."""
        with open(self.program(self.room + "/made"), "w", encoding="ascii") as file:
            file.write('#!/bin/sh\necho "$# $2"\nexit 6\n')
        with open(self.room + "/made", "rb") as file:
            wheel = backend(self.package).build_whole(self.room, {"m_tax": file.read()}, "py3-none-manylinux_2_34_x86_64")
        self.assertEqual(wheel, "vodmejka-1.0.0-py3-none-manylinux_2_34_x86_64.whl")
        with zipfile.ZipFile(os.path.join(self.room, wheel)) as archive:
            modes = {entry.filename: entry.external_attr >> 16 for entry in archive.infolist()}
            scripts = archive.read("vodmejka-1.0.0.dist-info/entry_points.txt").decode().splitlines()
        self.assertEqual([name for name, mode in modes.items() if mode & 0o111], ["vodmejka/bin/m_tax"])
        self.assertEqual(scripts, ["[console_scripts]", "vodmejka = vodmejka.__main__:main", "m_tax = vodmejka.program:inside"])
        folder = self.unpacked(wheel)
        os.chmod(folder + "/vodmejka/bin/m_tax", 0o755)
        self.program(self.room + "/none/m_tax")
        self.assertEqual(self.found(folder).stdout, folder + "/vodmejka/bin/m_tax\n")
        start = "import sys; sys.path.insert(0, sys.argv.pop(1)); from vodmejka.program import inside; sys.argv[0] = sys.argv.pop(1); inside()"
        ran = [subprocess.run([sys.executable, "-B", "-c", start, folder, name, "run", "a b"], capture_output=True, text=True, check=False)
               for name in ("/some/bin/m_tax", "/some/bin/m_other")]
        self.assertEqual((ran[0].stdout, ran[0].returncode), ("2 a b\n", 6))
        self.assertEqual((ran[1].stderr, ran[1].returncode), (f"{folder}/vodmejka/bin/m_other: No such file or directory\n", 1))

    def test_what_a_wheel_says(self):
        folder = self.unpacked(backend(self.package).build_wheel(self.room))
        with open(f"{folder}/vodmejka-{vodmejka.__version__}.dist-info/METADATA", encoding="utf-8") as file:
            heads, _, text = file.read().partition("\n\n")
        for line in ("Version: 1.0.0", "Requires-Python: >=3.10", "Keywords: income tax,microsimulation,M,France",
                     "Classifier: Operating System :: POSIX :: Linux", "Description-Content-Type: text/markdown"):
            self.assertIn(line, heads.split("\n"))
        self.assertTrue(text.startswith("# vodmejka\n"))

    def test_an_editable_wheel_names_the_folder(self):
        folder = self.unpacked(backend(self.package).build_editable(self.room))
        with open(folder + "/vodmejka.pth", encoding="utf-8") as file:
            self.assertEqual(file.read(), self.package + "\n")
        self.assertFalse(os.path.exists(folder + "/vodmejka"))

    def test_the_sources_make_the_same_package(self):
        name = backend(self.package).build_sdist(self.room)
        self.assertEqual(name, "vodmejka-1.0.0.tar.gz")
        with tarfile.open(os.path.join(self.room, name)) as archive:
            archive.extractall(self.room + "/sources")
        again = self.unpacked(backend(self.room + "/sources/vodmejka-1.0.0").build_wheel(self.room))
        os.environ["VODMEJKA_RELEASE"] = "1"
        first = self.unpacked(backend(self.package).build_wheel(self.room))
        self.assertEqual(subprocess.run(["diff", "-r", first, again], capture_output=True, text=True, check=False).stdout, "")


def put_program(room, name):
    """A new program in a folder, by its path."""
    path = os.path.join(room, name)
    os.makedirs(os.path.dirname(path), exist_ok=True)
    with open(path, "w", encoding="ascii") as file:
        file.write("#!/bin/sh\n")
    os.chmod(path, 0o755)
    return path


@IN_CLONE
class Found(unittest.TestCase):
    def test_the_clone_comes_before_the_path(self):
        """What was built in the clone is used rather than an m_tax of the path, and this rather than the clone's script."""
        with tempfile.TemporaryDirectory() as room, mock.patch.dict(os.environ, {"PATH": room + "/bin", "M_TAX": ""}), \
                mock.patch.object(program, "TOP", room + "/nowhere"), mock.patch.object(program, "clone", lambda: [room + "/clone"]):
            for name in ("clone/m_tax", "bin/m_tax", "clone/out/m_tax"):
                path = put_program(room, name)
                self.assertEqual(program.program_path(), path)

    def test_m_survey_is_the_one_beside_m_tax(self):
        """Of the script in a clone, of a program and of a symbolic link to one; else as m_tax is found. What M_SURVEY names comes first."""
        with tempfile.TemporaryDirectory() as room, mock.patch.dict(os.environ, {"PATH": room + "/bin", "M_TAX": "", "M_SURVEY": ""}), \
                mock.patch.object(program, "TOP", room + "/nowhere"), mock.patch.object(program, "clone", lambda: [room + "/clone"]):
            os.makedirs(room + "/other")
            os.symlink(room + "/release/m_tax", room + "/other/m_tax")
            with self.assertRaisesRegex(vodmejka.Broken, "there is no program m_survey: name it by M_SURVEY"):
                program.program_path(None, "m_survey", room + "/other/m_tax")
            for name in ("bin/m_survey", "clone/out/m_survey", "release/m_survey"):
                path = put_program(room, name)
                self.assertEqual(program.program_path(None, "m_survey", room + "/other/m_tax"), path)
            with mock.patch.dict(os.environ, {"M_SURVEY": room + "/bin/m_survey"}):
                self.assertEqual(program.program_path(None, "m_survey", room + "/other/m_tax"), room + "/bin/m_survey")

    def test_commands_have_the_same_program(self):
        """They compute by the program that the package finds, and name the one of the repository where there is none."""
        with tempfile.TemporaryDirectory() as room, mock.patch.dict(os.environ, {"PATH": room + "/bin", "M_TAX": "", "M_SURVEY": ""}), \
                mock.patch.object(program, "TOP", room + "/top"), mock.patch.object(program, "clone", lambda: []):
            self.assertEqual(runs.program_path(), room + "/top/m_tax")
            with self.assertRaises(FileNotFoundError):
                runs.found()
            for name in ("top/m_tax", "bin/m_tax", "top/out/m_tax"):
                path = put_program(room, name)
                self.assertEqual((runs.program_path(), runs.found().path, runs.found().digest), (path, path, program.Program().digest))
            put_program(room, "top/out/m_survey")
            self.assertEqual(runs.found("m_survey").path, room + "/top/out/m_survey")
            with mock.patch.dict(os.environ, {"M_TAX": room + "/gone"}):
                self.assertEqual(runs.program_path(), room + "/gone")


if __name__ == "__main__":
    unittest.main()
