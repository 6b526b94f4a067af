"""Tests of what goes wrong round a program: descriptors closed, processes killed, files that change, programs that say nothing or too late."""
import os
import pickle
import signal
import subprocess
import sys
import time
import unittest
from unittest import mock

import vodmejka
from room import Room
from test_vodmejka import RULES
from vodmejka import Broken, Interrupted, Rules, Stopped

PACKAGE = os.path.dirname(os.path.dirname(vodmejka.__file__))
ENVIRONMENT = {**os.environ, "PYTHONPATH": PACKAGE}

# Computes with the standard streams closed, as daemons do, and writes its answers to the named file.
CLOSED = """
import os, sys
for number in (0, 1, 2):
    os.close(number)
from vodmejka import Rules
rules = Rules(sys.argv[1], cache=sys.argv[1] + ".cache")
told = [[str(answer["IRN"]) for answer in rules.batch([{"1AJ": 1000 + k} for k in range(3)])], str(rules.run({"1AJ": 2500})["IRN"])]
with rules.session({"1AJ": 3000}) as session:
    told.append(str(session.show()["IRN"]))
with open(sys.argv[2], "w") as out:
    out.write(repr(told))
"""

# Has a batch under way, says where its files are, and ends in the way that is named.
ENDED = """
import os, signal, sys, time
from vodmejka import Rules
rules = Rules(sys.argv[1], cache=sys.argv[1] + ".cache", program=sys.argv[2])
answers = rules.batch([{"1AJ": k} for k in range(3000)], rows_at_once=1000)
next(answers)
print(rules._room.name, flush=True)
while not (os.path.exists(sys.argv[4]) and os.path.getsize(sys.argv[4])):
    time.sleep(0.02)
if sys.argv[3] == "exit":
    os._exit(3)
time.sleep(60)
"""


def is_alive(number):
    """Whether a process with this id runs."""
    try:
        with open(f"/proc/{number}/stat", encoding="latin-1") as file:
            return file.read().rpartition(")")[2].split()[0] != "Z"
    except OSError:
        return False


class Faults(Room):
    def test_standard_streams_that_are_closed(self):
        out = self.room.name + "/told"
        subprocess.run([sys.executable, "-c", CLOSED, self.list, out], env=ENVIRONMENT, check=True)
        with open(out, encoding="ascii") as file:
            self.assertEqual(file.read(), "[['0', '1', '2'], '1500', '2000']")

    def test_processes_that_are_killed(self):
        """Neither their programs run on, nor do their files stay."""
        script = self.put("slow", f'#!/bin/sh\n[ "$1" = batch ] || exec {vodmejka.program.program_path()} "$@"\n'
                          f'[ -e {self.room.name}/begun ] && {{ echo $$ >{self.room.name}/pid; exec sleep 60; }}\n'
                          f': >{self.room.name}/begun\nexec {vodmejka.program.program_path()} "$@"\n')
        os.chmod(script, 0o755)
        for way in ("exit", signal.SIGTERM, signal.SIGKILL):
            for name in ("begun", "pid"):
                if os.path.exists(f"{self.room.name}/{name}"):
                    os.unlink(f"{self.room.name}/{name}")
            with subprocess.Popen(self.ended(script, way), env=ENVIRONMENT, stdout=subprocess.PIPE, text=True) as child:
                folder = child.stdout.readline().strip()
                self.assertTrue(os.path.isdir(folder) or way == "exit")
                deadline = time.monotonic() + 20
                while not (os.path.exists(self.room.name + "/pid") and os.path.getsize(self.room.name + "/pid")) and time.monotonic() < deadline:
                    time.sleep(0.02)
                with open(self.room.name + "/pid", encoding="ascii") as file:
                    number = int(file.read())
                if way != "exit":
                    child.send_signal(way)
            deadline = time.monotonic() + 10
            while (is_alive(number) or os.path.exists(folder)) and time.monotonic() < deadline:
                time.sleep(0.02)
            self.assertEqual((is_alive(number), os.path.exists(folder)), (False, False), way)

    def ended(self, script, way):
        """The words of a process that has a batch under way, whose program has written its id, and ends in this way."""
        return [sys.executable, "-c", ENDED, self.list, script, str(way), self.room.name + "/pid"]

    def test_rules_that_are_pickled(self):
        """They hold the sources, so that they outlive the process that made them, its files and the sources' own."""
        text = pickle.dumps([self.rules, self.by_code()])
        self.put("a.m", RULES.replace("1000", "2000"))
        script = "import pickle, sys; print([str(one.run({'1AJ': 2500})['IRN']) for one in pickle.load(sys.stdin.buffer)])"
        made = subprocess.run([sys.executable, "-c", script], input=text, env=ENVIRONMENT, stdout=subprocess.PIPE, check=True)
        self.assertEqual(made.stdout, b"['1500', '1500']\n")

    def test_rules_that_are_pickled_have_one_m_survey(self):
        """Another one than at their maker's isn't used."""
        text = pickle.dumps(self.rules)
        other = self.put("other", "#!/bin/sh\n")
        os.chmod(other, 0o755)
        with mock.patch.dict(os.environ, {"M_SURVEY": other}):
            rules = pickle.loads(text)
            with self.assertRaisesRegex(Broken, "is another program than the one that these rules were made with"):
                rules.batch_file(self.put("t.csv", "name\n"), self.room.name + "/o.csv")
        self.assertEqual(pickle.loads(text).batch_file(self.put("t.csv", "name\na\n"), self.room.name + "/o.csv"), 1)

    def by_code(self):
        self.rules.write_code(self.room.name + "/a.code")
        return Rules.from_code(self.room.name + "/a.code")

    def test_a_code_file_of_the_cache_that_is_changed_or_cut(self):
        folder = self.room.name + "/cache"
        (name,) = os.listdir(folder)
        with open(f"{folder}/{name}", "rb") as file:
            kept = file.read()
        self.assertIn(b"lit 4 1000000000\n", kept)
        for text in (kept.replace(b"lit 4 1000000000\n", b"lit 4 2000000000\n"), kept[:-10], b"", b"\n"):
            with open(f"{folder}/{name}", "wb") as file:
                file.write(text)
            self.assertEqual(Rules(self.list, cache=folder).run({"1AJ": 2500})["IRN"], 1500)
            with open(f"{folder}/{name}", "rb") as file:
                self.assertEqual(file.read(), kept)

    def test_a_program_that_is_replaced_between_parts(self):
        """The answers until then are those of the one program, and no other is taken for it."""
        rules = self.rules_by("true;")
        told = []
        with self.assertRaisesRegex(Broken, "was replaced meanwhile"):
            for answer in rules.batch(({"1AJ": 1000 + k} for k in range(5000)), rows_at_once=1000):
                told.append(answer["IRN"])
                if len(told) == 1:
                    self.put("script", '#!/bin/sh\necho "household ~"\n')
        self.assertEqual(told, list(range(len(told))))
        self.assertLess(len(told), 5000)

    def test_a_program_that_fails_without_a_line(self):
        """It is no refusal, and the error has what it wrote on its standard error."""
        rules = self.rules_by("echo no room >&2; exit 1;")
        with self.assertRaisesRegex(Broken, "status 1 and printed no line of its own: no room"):
            list(rules.batch([{}]))

    def test_a_program_that_gives_no_answer(self):
        slow = self.put("slow", f'#!/bin/sh\ncase $1 in compile) exec {vodmejka.program.program_path()} "$@" ;; esac\nexec sleep 60\n')
        os.chmod(slow, 0o755)
        rules = Rules(self.list, cache=self.room.name + "/cache", program=slow, timeout=0.5)
        with self.assertRaisesRegex(Interrupted, "within 0.5 s"):
            rules.run({})
        with self.assertRaisesRegex(Interrupted, "within 0.5 s"):
            list(rules.batch([{}]))
        with rules.session() as session, self.assertRaisesRegex(Interrupted, "within 0.5 s"):
            session.show()

    def test_an_answer_is_a_mapping(self):
        answer = self.rules.run({"1AJ": 2500})
        self.assertEqual((dict(answer), len(answer)), (answer.values, len(answer.values)))
        self.assertEqual(("IRN" in answer, "NONE" in answer, answer.get("NONE", 7)), (True, False, 7))
        with self.assertRaises(KeyError):
            answer["NONE"]

    def test_a_household_that_is_stopped_has_no_value(self):
        answer = self.rules.run(STOPPED)
        self.assertIsNotNone(answer.stop)
        self.assertEqual((dict(answer), "IRN" in answer), ({}, False))
        for read in (lambda: answer["IRN"], lambda: answer.get("IRN", 0)):
            with self.assertRaisesRegex(Stopped, "^failed "):
                read()
        (batched,) = self.rules.batch([STOPPED])
        with self.assertRaisesRegex(Stopped, "^failed "):
            batched["IRN"]


@unittest.skipUnless(os.path.isdir(os.path.join(os.path.dirname(PACKAGE), "tools")), "no clone")
class Isolated(unittest.TestCase):
    def test_tools_that_leave_nothing(self):
        """They run where the folder of a script isn't searched for modules, and write no compiled files."""
        top = os.path.dirname(PACKAGE)
        room = subprocess.run(["mktemp", "-d"], stdout=subprocess.PIPE, text=True, check=True).stdout.strip()
        self.addCleanup(subprocess.run, ["rm", "-rf", room], check=True)
        subprocess.run(["cp", "-r", top + "/tools", top + "/python", top + "/examples", room], check=True)
        subprocess.run(["find", room, "-name", "__pycache__", "-prune", "-exec", "rm", "-rf", "{}", "+"], check=True)
        environment = {name: value for name, value in os.environ.items() if not name.startswith("PYTHON")}
        for words, more in ((["-I"], {}), ([], {"PYTHONSAFEPATH": "1"}), ([], {})):
            made = subprocess.run([sys.executable, *words, "tools/requests", "examples/first/rules.list"],
                                  cwd=room, env={**environment, **more}, stdout=subprocess.PIPE, text=True, check=True)
            self.assertEqual(made.stdout, "REV\nSEUIL\nIRN\n")
        self.assertEqual([at for at, _, _ in os.walk(room) if at.endswith("__pycache__")], [])


STOPPED = {"1AJ": -1}

if __name__ == "__main__":
    unittest.main()
