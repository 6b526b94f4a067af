"""Runs the blocks of docs/PYTHON.md and of python/README.md in order, as they stand: python3 python/tests/page.py

At the top of the repository. Blocks of `sh` are commands; those of `pycon` are compared line by line, as doctest does, all in one room of names.
/tmp stands for a folder of its own. Those with pandas are left out where it isn't there. Prints how many examples there were,
and each that differs; the status is 0 where none does.
"""
import doctest
import importlib.util
import os
import re
import subprocess
import sys
import tempfile

PAGES = ("docs/PYTHON.md", "python/README.md")
sys.path.insert(0, "python")


def blocks_of(page):
    with open(page, encoding="utf-8") as file:
        blocks = re.findall(r"^```(sh|pycon)\n(.*?)^```$", file.read(), re.DOTALL | re.MULTILINE)
    return [(page, number, kind, text) for number, (kind, text) in enumerate(blocks, 1)]


def main():
    names, tried, failed, left = {"__name__": "__main__"}, 0, 0, 0
    with tempfile.TemporaryDirectory() as room:
        os.environ["XDG_CACHE_HOME"] = os.path.join(room, "cache")
        runner = doctest.DocTestRunner(verbose=False)
        for page, number, kind, text in [block for page in PAGES for block in blocks_of(page)]:
            text = text.replace("/tmp/", room + "/")
            if kind == "sh":
                subprocess.run(["sh", "-e", "-c", text], check=True, stdout=subprocess.DEVNULL)
                continue
            if "pandas" in text and importlib.util.find_spec("pandas") is None:
                left += 1
                continue
            test = doctest.DocTestParser().get_doctest(text, names, f"block {number}", page, 0)
            found = runner.run(test, clear_globs=False)
            names = test.globs
            tried, failed = tried + found.attempted, failed + found.failed
        names.clear()
    if left:
        print("page: without pandas, which isn't there", file=sys.stderr)
    print(f"page: {failed} of the examples differ" if failed else "page: each example is as it stands")
    sys.exit(0 if tried > 10 and not failed else 1)


if __name__ == "__main__":
    main()
