"""Compares the figures of a report of tools/reform with those of the files next to it: python3 report_page.py FOLDER [--step STEP]

The bytes of report.html are parsed; and where a headless Chromium is found (BROWSER names it, or one of these is on the path:
chromium-headless-shell, chromium, google-chrome), the document as that browser has opened it too, with a look that nothing failed to load.
What is compared: the sums in the text; each cell of the table with summary.csv; and each bar of the pictures, which are computed here again
of households.csv. Prints a line; on standard error whether a browser opened the page.
"""
import csv
import html.parser
import os
import re
import shutil
import subprocess
import sys
from fractions import Fraction

BROWSERS = ["chromium-headless-shell", "chromium", "google-chrome"]
GAINS = [50, 100, 200, 500, 1000]
COLUMNS = 12  # of summary.csv that are in the page's table
RATES = [0, 5, 10, 15, 20, 25, 30, 35, 40, 45, 50, 60, 80, 100]


class Page(html.parser.HTMLParser):
    """The figures of a page: those with an id, the table's rows, and the titles of bars by picture."""

    def __init__(self, text):
        super().__init__()
        self.named, self.rows, self.pictures, self.inside, self.links, self.codes = {}, [], [], None, [], []
        self.feed(text)

    def handle_starttag(self, tag, attributes):
        given = dict(attributes)
        self.links += [given[name] for name in ("src", "href") if name in given]
        if tag == "svg":
            self.pictures.append([])
        elif tag == "tr":
            self.rows.append([])
        self.inside = ("id", given["id"]) if "id" in given else (tag, None)

    def handle_endtag(self, tag):
        self.inside = None

    def handle_data(self, data):
        kind, name = self.inside or (None, None)
        if kind == "id":
            self.named[name] = data
        elif kind in ("td", "th"):
            self.rows[-1].append(data)
        elif kind == "code":
            self.codes.append(data)
        elif kind == "title" and self.pictures:
            self.pictures[-1].append(data)


def lines_of(folder, name):
    with open(os.path.join(folder, name), encoding="latin-1", newline="") as file:
        return list(csv.reader(file))


def share(part, whole):
    return f"{float(Fraction(part * 100) / whole):,.6g} %"


def gain_bars(households, whole):
    """The share of the weight by the gain of a household, in the classes of the page."""
    labels = ["≤ -1000", "-500", "-200", "-100", "-50", "< 0", "0", "> 0", "50", "100", "200", "500", "≥ 1000"]
    weights = [Fraction(0)] * 13
    for row in households:
        if row["difference"]:
            gain = -Fraction(row["difference"])
            size = sum(edge <= abs(gain) for edge in GAINS) + (gain != 0)
            weights[6 + (size if gain > 0 else -size)] += Fraction(row["weight"])
    return [f"{label}: {share(weight, whole)}" for label, weight in zip(labels, weights)]


def tenth_bars(summary):
    """The mean gain of each tenth: that of its line of the summary, negated."""
    bars = []
    for row in summary[2:]:
        line = dict(zip(summary[0], row))
        weight = Fraction(line["weight"]) - Fraction(line["stopped"])
        mean = -Fraction(line["difference"]) / weight if weight else Fraction(0)
        bars.append(f"{line['group'].split()[1]}: {float(mean):,.6g}")
    return bars


def rate_bars(households, whole):
    """The share of the weight by marginal rate, before and after by turns."""
    labels = ["< 0"] + [f"{rate} %" for rate in RATES]
    found = []
    for column in ("marginal before", "marginal after"):
        weights = [Fraction(0)] * len(labels)
        for row in households:
            if row[column]:
                weights[sum(Fraction(rate, 100) <= Fraction(row[column]) for rate in RATES)] += Fraction(row["weight"])
        found.append(weights)
    return [f"{label}: {share(weight, whole)}" for label, *both in zip(labels, *found) for weight in both]


def differences(page, folder):
    """What of a page isn't what the files say."""
    summary, (head, *rows) = lines_of(folder, "summary.csv"), lines_of(folder, "households.csv")
    households = [dict(zip(head, row)) for row in rows]
    whole = sum(Fraction(row["weight"]) for row in households)
    every = dict(zip(summary[0], summary[1]))
    pictures = [gain_bars(households, whole)]
    if len(summary) > 2:
        pictures.append(tenth_bars(summary))
    if "marginal before" in head:
        pictures.append(rate_bars(households, whole))
    if page.named != {name: every[name] for name in ("before", "after", "difference")}:
        yield f"the sums in the text: {page.named}"
    if page.rows != [line[:COLUMNS] for line in summary]:
        yield "the table"
    if not set(summary[1][-3:]) <= set(page.codes) or any(line[-3:] != summary[1][-3:] for line in summary[1:]):
        yield "the digests of the rules and the program"
    if len(page.pictures) != len(pictures):
        yield f"{len(page.pictures)} pictures and not {len(pictures)}"
    for number, (shown, wanted) in enumerate(zip(page.pictures, pictures), 1):
        yield from (
            f"picture {number}: {one!r} and not {other!r}"
            for one, other in zip(shown + [None] * len(wanted), wanted + [None] * len(shown)) if one != other
        )
    if page.links:
        yield f"links to {page.links}"


def opened(path):
    """The document as a browser has opened it, or None where there is no browser."""
    browser = os.environ.get("BROWSER") or next(filter(None, map(shutil.which, BROWSERS)), None)
    if browser is None:
        return None
    words = [browser, "--headless", "--no-sandbox", "--disable-gpu", "--dump-dom", "file://" + os.path.abspath(path)]
    done = subprocess.run(words, stdout=subprocess.PIPE, stderr=subprocess.DEVNULL, timeout=300, check=False)
    return done.stdout.decode("utf-8") if done.returncode == 0 else ""


def main():
    folder = sys.argv[1]
    path = os.path.join(folder, "report.html")
    with open(path, encoding="utf-8") as file:
        text = file.read()
    documents = [("the page", text)]
    dom = opened(path)
    if dom is not None:
        documents.append(("the page in a browser", dom))
    print("report_page: " + ("a browser opened the page" if dom else "no browser; the bytes alone"), file=sys.stderr)
    found = [f"{name}: {what}" for name, document in documents for what in differences(Page(document), folder)]
    if re.search(r"<script|https?:", text):
        found.append("the page: a script or the network")
    print("\n".join(found[:5]) or "the figures of the page are those of the files")
    sys.exit(1 if found else 0)


if __name__ == "__main__":
    main()
