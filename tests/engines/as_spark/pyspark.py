"""A stub of PySpark, for tests of what `RDD.pipe` does to a command: it does what Spark 3 does, and nothing else of Spark.

A list is cut into partitions. Each is a task of an executor, a process with a folder of its own. The task starts the command, whose words are split as by
a shell, with the environment that was given (none, where none was), and writes each element as a line of UTF-8. Lines come back as UTF-8. A status that
isn't 0 is an error with checkCode. A task that fails, or whose executor is lost, is begun again, four times at the most.
"""
import multiprocessing
import os
import shlex
import subprocess
import sys
import tempfile
import threading
import time

EXECUTORS, FAILURES = 3, 4
FORKED = multiprocessing.get_context("fork")


class SparkContext:
    @classmethod
    def getOrCreate(cls):
        return cls()

    def parallelize(self, elements, slices):
        elements = list(elements)
        return RDD([elements[k * len(elements) // slices : (k + 1) * len(elements) // slices] for k in range(slices)])


class RDD:
    def __init__(self, partitions, work=iter):
        self.partitions, self.work = partitions, work

    def pipe(self, command, env=None, checkCode=False):
        return RDD(self.partitions, lambda elements: piped(elements, command, env or {}, checkCode))

    def collect(self):
        """The elements of all partitions in their order."""
        left, tasks = list(range(len(self.partitions)))[::-1], {}
        done, failures = {}, dict.fromkeys(left, 0)
        while left or tasks:
            while left and len(tasks) < EXECUTORS:
                number = left.pop()
                tasks[number] = Task(self.work, self.partitions[number])
            for number, task in list(tasks.items()):
                if task.is_over():
                    del tasks[number]
                    if task.fault is None:
                        done[number] = task.elements
                        continue
                    failures[number] += 1
                    print(f"task {number} failed, time {failures[number]}: {task.fault}", file=sys.stderr)
                    if failures[number] == FAILURES:
                        raise RuntimeError(f"task {number} failed {FAILURES} times: {task.fault}")
                    left.append(number)
            time.sleep(0.02)
        return [element for number in sorted(done) for element in done[number]]


class Task:
    """A partition that an executor works on."""

    def __init__(self, work, elements):
        self.elements, self.fault = None, "the executor was lost"
        self.reading, writing = FORKED.Pipe(duplex=False)
        self.executor = FORKED.Process(target=self.run, args=(work, elements, writing))
        self.executor.start()
        writing.close()

    @staticmethod
    def run(work, elements, writing):
        with tempfile.TemporaryDirectory() as folder:
            os.chdir(folder)
            try:
                writing.send((list(work(elements)), None))
            except Exception as fault:
                writing.send((None, str(fault)))

    def is_over(self):
        if self.reading.poll():
            try:
                self.elements, self.fault = self.reading.recv()
            except EOFError:
                pass
            self.executor.join()
            return True
        return False


def piped(elements, command, env, checks):
    child = subprocess.Popen(shlex.split(command), env=env, stdin=subprocess.PIPE, stdout=subprocess.PIPE)

    def write():
        with child.stdin:
            for element in elements:
                child.stdin.write((str(element).rstrip("\n") + "\n").encode("utf-8"))

    threading.Thread(target=write).start()
    for line in child.stdout:
        yield line.rstrip(b"\n").decode("utf-8")
    child.wait()
    if checks and child.returncode:
        raise RuntimeError(f"the command `{command}` ended with the status {child.returncode}")
