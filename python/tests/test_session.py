"""Tests of sessions that are held side by side, and of those whose program ends before they do."""
import concurrent.futures
import gc
import os
import signal
import subprocess
import sys
import threading
import unittest

import vodmejka
from room import Room
from vodmejka import Broken, Interrupted, Refused
from vodmejka.session import Session

# Rules in a process that forks: each child computes its own household, one ends as a script does, and the sessions that stood before end when they are closed.
FORKS = """
import os, sys
from vodmejka import Rules
rules = Rules(sys.argv[1], cache=sys.argv[1] + ".cache")
session = rules.session({"1AJ": 2500})
session.show()
children = []
for k in range(1, 7):
    child = os.fork()
    if child == 0:
        wrong = [n for n in range(10) if rules.run({"1AJ": 1000 * k + n})["IRN"] != 1000 * (k - 1) + n]
        if k == 6:
            sys.exit(len(wrong))
        if k == 5:
            session.close()
        os._exit(len(wrong))
    children.append(child)
print([os.waitstatus_to_exitcode(os.waitpid(child, 0)[1]) for child in children], rules.run({"1AJ": 1007})["IRN"], session.show()["IRN"])
child = os.fork()
if child == 0:
    sys.stdin.read()
    os._exit(0)
session.close()
print("closed")
"""


class Sessions(Room):
    def test_a_household_that_is_rejected(self):
        """It is reported as that, also if the program had ended before the first request."""
        for is_awaited in (False, True):
            with self.assertRaisesRegex(Refused, "bad amount"):
                with self.rules.session({"1AJ": "x"}) as session:
                    if is_awaited:
                        session._child.wait()
                    session.set("1AJ", 5)

    def test_letters_that_have_no_byte(self):
        """They are the caller's fault, and the session goes on."""
        with self.rules.session({"1AJ": 2500}) as session:
            for words in (("1AJ", "5\u20ac"), ("1\u20acJ", 5)):
                with self.assertRaises(ValueError):
                    session.set(*words)
            self.assertEqual(session.show()["IRN"], 1500)

    def test_sessions_side_by_side(self):
        """Each begins with its own household, also where the next one begins before the program has read it."""
        sessions = [self.rules.session({"1AJ": 1000 + k}) for k in range(20)]
        for k, session in enumerate(sessions):
            self.assertEqual(session.show()["IRN"], k)
            session.close()

    def test_processes_that_are_forked(self):
        """No two of them share a household's file, none takes the folder of the others with it, and none keeps a session from being closed."""
        words = [sys.executable, "-c", FORKS, self.list]
        env = {**os.environ, "PYTHONPATH": os.path.dirname(os.path.dirname(vodmejka.__file__))}
        with subprocess.Popen(words, env=env, stdin=subprocess.PIPE, stdout=subprocess.PIPE, text=True) as child:
            told = [child.stdout.readline(), child.stdout.readline()]
            child.stdin.close()
        self.assertEqual(told, ["[0, 0, 0, 0, 0, 0] 7 1500\n", "closed\n"])

    def test_a_reply_that_is_broken_off(self):
        """As by an alarm: what is left of it is no reply to the next line, and the session has ended."""
        def late(_number, _frame):
            raise TimeoutError

        before = signal.signal(signal.SIGALRM, late)
        self.addCleanup(signal.signal, signal.SIGALRM, before)
        words = "while read line; do echo 'IRN = 1'; sleep 0.5; echo .; done"
        session = Session(["/bin/sh", "-c", words, "household.csv"], self.room)
        signal.setitimer(signal.ITIMER_REAL, 0.2)
        with self.assertRaises(TimeoutError):
            session.show()
        for words in ((session.show,), (session.set, "1AJ", 5)):
            with self.assertRaises(Interrupted):
                words[0](*words[1:])
        session.close()

    def test_a_program_that_is_gone(self):
        """It is reported as that, and the household is dropped."""
        rules = self.rules_by("false;")
        before = os.listdir(rules._room.name)
        os.remove(rules.program)
        for work in (lambda: rules.run({}), rules.session, lambda: list(rules.batch([{}]))):
            with self.assertRaisesRegex(Broken, "can't be started: .*No such file"):
                work()
        self.assertEqual(os.listdir(rules._room.name), before)

    def test_rules_that_nobody_holds(self):
        with self.rules_by().session({"1AJ": 2500}) as session:
            gc.collect()
            self.assertEqual(session.show()["IRN"], 1500)

    def test_nothing_is_left(self):
        folder = self.rules._room.name
        before = os.listdir(folder)
        self.rules.run({"1AJ": 2500})
        with self.assertRaises(Refused):
            self.rules.run({"1AJ": "x"})
        session = self.rules.session({"1AJ": 2500})
        self.assertEqual(session.show()["IRN"], 1500)
        session.close()
        self.assertEqual(os.listdir(folder), before)

    def test_runs_side_by_side(self):
        with concurrent.futures.ThreadPoolExecutor(8) as threads:
            found = threads.map(lambda k: self.rules.run({"1AJ": 1000 + k})["IRN"], range(200))
            self.assertEqual(list(found), list(range(200)))

    def test_a_program_that_is_killed(self):
        with self.assertRaisesRegex(Interrupted, "status -9"):
            with self.rules.session() as session:
                session.set("1AJ", 5)
                session._child.kill()
                session._child.wait()
                session.show()
        session.close()
        with self.assertRaisesRegex(Interrupted, "status -9"):
            session.set("1AJ", 6)

    def test_a_session_that_is_closed(self):
        session = self.rules.session()
        session.close()
        for words in ((session.show,), (session.set, "1AJ", 5), (session.clear, "1AJ")):
            with self.assertRaisesRegex(Interrupted, "has ended"):
                words[0](*words[1:])

    def test_a_reply_of_which_nobody_reads_the_rest(self):
        session = Session(["/bin/sh", "-c", "read line; yes 'IRN = 1' | head -n 1000000", "household.csv"], self.room)
        session._say(b"show\n")
        self.assertEqual(session._line(), "IRN = 1")
        closing = threading.Thread(target=session.close, daemon=True)
        closing.start()
        closing.join(20)
        self.assertFalse(closing.is_alive())


if __name__ == "__main__":
    unittest.main()
