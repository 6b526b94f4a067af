"""Computes a table of households of any size, on many processors or machines, part by part.

    scale cut TABLE FOLDER [--rows N] [--once]  cuts the table into parts of at most N rows (100,000), FOLDER/part-000001.csv and so on
    scale list FOLDER                           names the parts that have no answer yet, a number in each line
    scale one FOLDER NUMBER SOURCE              one batch: computes a part, unless it has its answer
    scale run FOLDER SOURCE [--memory MB] [--jobs N]  computes all parts on this machine; on a terminal it shows the progress
    scale join FOLDER > ANSWERS                 the answers of all parts, as one batch of the whole table would print them
    scale join FOLDER --csv [--only NAMES] > CSV  the same of csv; NAMES, separated by commas, are the values to keep, in their order
    scale verify FOLDER [SOURCE]                checks, as join does, that answers and parts are as they were checked, and of this source
    scale drop FOLDER                           removes all answers, also unfinished ones, and keeps the parts, as for other rules
    scale pipe HEADER SOURCE                    rows on the standard input, without the table's first line, which is HEADER; answers without one too
    scale source SOURCE                         the digest of a source
    scale source LIST DRIVER REQUESTS --code FILE  writes the code file of a source, which is a source of its own, and prints its digest

SOURCE is LIST DRIVER REQUESTS, computed by `m_tax batch`, or with --csv by `m_survey table`, which prints csv; or a code file, computed by
`m_survey table`. A code file needs no other file, and no folder that names are relative to. --of DIGEST rejects a source with another digest.

A batch computes its part on all processors, so `run` doesn't count these: it starts as many batches at once as the free memory (or MB megabytes) has
room for at 256 MB each, at most four, so that one computes while others are read, written and checked. N sets the number.

List, rule files, driver and requests are read once, and every batch of a command runs on a copy of what was read, so edits of the rules meanwhile
have no effect. A program that was rebuilt meanwhile is rejected.

--timeout SECONDS ends a batch of one, run or pipe that takes longer; the part then has no answer, and the same words compute it again.

A part is written under a name of its own until it is whole and checked, so a run that was stopped or killed is continued by the same words;
unfinished parts of it are then removed.

`one` and `run` check that an answer has the part's labels, each once and in their order, and for each household one line for each request or a stop.
`join` checks that every part has its answer as it was checked, that all answers together have the labels of the table in their order, and that all were
made of one source (program, list, rule files, driver, requests). So no household is lost or doubled. `cut --once` also rejects a label that occurs twice.

A table is cut between its records, as the program reads them: at line feeds, carriage returns or both, outside of quotes. The status is 0, 1 where a
check fails or a batch rejects its part, 2 for wrong words, 3 where a file can't be read or written, and 4 where the output was closed. The programs are
./m_tax and ./m_survey of this repository, or those that M_TAX and M_SURVEY name; without the latter, the m_survey next to the former.
"""
import argparse
import concurrent.futures
import contextlib
import os
import re
import sys
import tempfile

from .. import records, runs, source
from ..cutting import cut, header_line, parts_of
from ..endings import Wrong, ended, files_named
from ..errors import Failed
from ..joining import print_columns, print_whole
from ..limits import FILE_BYTES, ROWS
from ..parts import READERS, Made, Plan, digest_there, look_at, missing, part_path, remove_dead, summary, unfinished, whole, write_whole
from ..progress import Progress
from ..program import digest_of
from ..runs import file_digest

BATCH_BYTES = 256 << 20  # a batch of the longest table takes half of it, and the look at its answer the rest
MOST_AT_ONCE = 4


def cut_table(arguments):
    households, parts = cut(arguments.table, arguments.folder, arguments.rows, arguments.once)
    print(f"{households} households in {parts} parts")


@contextlib.contextmanager
def source_of(arguments):
    """The source that the words name, a list, a driver and requests or a code file, read once. Its digest is the one of --of."""
    words, timeout = arguments.source, getattr(arguments, "timeout", None)
    with tempfile.TemporaryDirectory(prefix="scale-") as room:
        if len(words) == 1:
            compiled = runs.CodeFile(words[0], room, timeout)
        else:
            compiled = runs.Source(words, room, timeout, "csv" if getattr(arguments, "csv", False) else "lines")
        if getattr(arguments, "of", None) not in (None, compiled.digest):
            raise Failed("the source is another one than --of says", False)
        yield compiled


# ---- computing


def seen_in(table, answer, names, form):
    """The names of the values of an answer, which has the households of the table, how many these are, and how many of them stopped."""
    with open(table, "rb") as file:
        labels = [label for _, label in records.records(file, FILE_BYTES)][1:]
    try:
        seen, names, stops = READERS[form](answer, names)
    except records.Strange as fault:
        raise Failed(f"the answer to {table}: {fault}") from fault
    if seen != labels:
        raise Failed(f"the answer to {table} has not its households: {len(seen)} of {len(labels)}, or others")
    return names, len(labels), stops


def here(work, *arguments):
    return work(*arguments)


class Rejected(Failed):
    """A batch that ended with another status than 0; the line of the program."""


def answered(compiled, table, out, made, elsewhere=here):
    """Computes a table into a file, and looks at each line, perhaps in another process. What `seen_in` finds comes back."""
    status = compiled.batch(table, out)
    if status != 0:
        with open(made, "rb") as told:
            line = compiled.original_names(runs.fault_of(told.read(8192), status))
        raise Rejected(line, not line.startswith("refused household"))
    return elsewhere(seen_in, table, made, compiled.names, compiled.form)


def compute(folder, number, plan, compiled, elsewhere=here):
    """One part, unless it has its answer. The number of households that were computed comes back."""
    if not 1 <= number <= plan.parts:
        raise Failed(f"{folder} has no part {number}: it has {plan.parts}", False)
    done, table = part_path(folder, number, "out"), part_path(folder, number, "csv")
    if os.path.exists(done):
        if Made(part_path(folder, number, "of")).source != compiled.digest:
            others = "another source (program, list, rule files, driver, requests or code file)"
            raise Failed(f"{done} was made of {others}: scale drop {folder} removes all answers", False)
        remove_dead(done)
        return 0
    look_at(table, plan.digests[number - 1], "isn't what cut wrote")
    with unfinished(done) as (out, made):
        try:
            names, households, stops = answered(compiled, table, out, made, elsewhere)
        except Rejected as fault:
            raise Failed(f"{table}: {fault}" + ("" if fault.goes_on else "; mend the table and cut it again"), fault.goes_on) from fault
        os.fsync(out.fileno())
        look_at(table, plan.digests[number - 1], "was changed meanwhile")
        noted = [compiled.digest, "-" if names is None else digest_of(*names), file_digest(made), compiled.form, str(households), str(stops)]
        write_whole(part_path(folder, number, "of"), " ".join(noted).encode() + b"\n")
        os.replace(made, done)
    return households


def one(arguments):
    with source_of(arguments) as compiled:
        compute(arguments.folder, arguments.number, Plan(arguments.folder), compiled)


def list_parts(arguments):
    for number in missing(arguments.folder, Plan(arguments.folder)):
        print(number)


def run(arguments):
    plan = Plan(arguments.folder)
    memory = runs.free_memory() if arguments.memory is None else arguments.memory << 20
    jobs = arguments.jobs or min(max(memory // BATCH_BYTES, 1), MOST_AT_ONCE)
    with source_of(arguments) as compiled, runs.workers() as workers, concurrent.futures.ThreadPoolExecutor(jobs) as pool:
        elsewhere = lambda work, *words: workers.submit(work, *words).result()
        left = missing(arguments.folder, plan)
        progress = Progress(plan.parts, len(left), round(plan.total * len(left) / plan.parts))

        def computed(number):
            households = compute(arguments.folder, number, plan, compiled, elsewhere)
            if households:
                progress.add(households)

        try:
            started = [pool.submit(computed, number) for number in range(1, plan.parts + 1)]
            failed = [fault for fault in (run.exception() for run in started) if fault]
            progress.end()
        except BaseException:
            runs.CHILDREN.end()
            pool.shutdown(cancel_futures=True)
            raise
    for fault in failed:
        print(f"scale: {fault}", file=sys.stderr)
    if failed:
        goes_on = all(getattr(fault, "goes_on", True) for fault in failed)
        what_helps = "the same words go on" if goes_on else "what helps stands above"
        raise Failed(f"{len(failed)} of {plan.parts} parts have no answer of this source; {what_helps}")
    tell(arguments.folder, plan, [Made(part_path(arguments.folder, number, "of")) for number in range(1, plan.parts + 1)])


def tell(folder, plan, notes):
    for line in summary(folder, plan, notes):
        print(line)


def drop(arguments):
    plan, count = Plan(arguments.folder), 0
    for name in os.listdir(arguments.folder):
        # (also what a run that was killed had begun)
        if re.fullmatch(r"part-[0-9]{6,}\.(out|of)(\..*\.new)?", name):
            with contextlib.suppress(FileNotFoundError):
                os.unlink(os.path.join(arguments.folder, name))
                count += name.endswith(".out")
    print(f"{count} answers removed, {plan.parts} parts left")


# ---- joining


def join(arguments):
    folder, plan, form = arguments.folder, Plan(arguments.folder), "csv" if arguments.csv else "lines"
    notes = whole(folder, plan)
    if notes[0].form != form:
        raise Failed("the answers are the lines of batch: scale run --csv computes csv, once scale drop has removed them" if arguments.csv
                     else "the answers are csv: scale join --csv joins them", False)
    answers = [(part_path(folder, number, "out"), note.answer) for number, note in enumerate(notes, 1)]
    if arguments.only is None:
        print_whole(answers, form == "csv", sys.stdout.buffer)
    else:
        print_columns(answers, os.fsencode(arguments.only).split(b","), sys.stdout.buffer)


def verify(arguments):
    folder, plan = arguments.folder, Plan(arguments.folder)
    with runs.workers() as pool:
        tables = [part_path(folder, number, "csv") for number in range(1, plan.parts + 1)]
        for table, digest, wanted in zip(tables, pool.map(digest_there, tables), plan.digests):
            if digest != wanted:
                raise Failed(f"{table} isn't what cut wrote: cut the table again", False)
    notes = whole(folder, plan)
    if arguments.source:
        arguments.csv = notes[0].form == "csv"
        with source_of(arguments) as compiled:
            if compiled.digest != notes[0].source:
                raise Failed(f"the answers were made of another source (program, list, rule files, driver, requests or code file): {notes[0].source}", False)
    print("all parts and their answers are as they were checked")
    tell(folder, plan, notes)


def pipe(arguments):
    header = header_line(arguments.header.encode("utf-8", "surrogateescape"))
    with source_of(arguments) as compiled:
        passed = 0
        for part, _ in parts_of(header, records.records(source.standard_input(), FILE_BYTES, False), ROWS):
            with tempfile.NamedTemporaryFile(suffix=".csv") as table, tempfile.NamedTemporaryFile() as out:
                table.write(header + b"".join(part))
                table.flush()
                try:
                    answered(compiled, table.name, out, out.name)
                except Failed as fault:
                    place = f"records {passed + 1} to {passed + len(part)} of the input, below the header as line 1"
                    raise Failed(f"{place}: {str(fault).replace(table.name, 'them')}") from fault
                file_digest(out.name, sys.stdout.buffer, compiled.form == "csv")
                passed += len(part)


def tell_source(arguments):
    """The digest of a source; with --code that of the code file, which is written."""
    with source_of(arguments) as compiled:
        if arguments.code is None:
            print(compiled.digest)
            return
        with tempfile.TemporaryDirectory(prefix="scale-") as room, unfinished(arguments.code) as (out, made):
            status = compiled.output(out, "compile")
            if status != 0:
                with open(made, "rb") as told:
                    raise Failed(compiled.original_names(runs.fault_of(told.read(8192), status)), False)
            os.fsync(out.fileno())
            print(runs.CodeFile(made, room).digest)
            os.replace(made, arguments.code)


# ---- words


def number(word):
    """A number of the command line."""
    if not re.fullmatch("[0-9]{1,9}", word):
        raise ValueError
    return int(word)


def reading():
    parser = argparse.ArgumentParser(prog="scale", usage="see scale --help", add_help=False)
    commands = parser.add_subparsers(dest="command", required=True)
    form = {name: commands.add_parser(name, add_help=False) for name in COMMANDS}
    form["cut"].add_argument("table")
    for name in ("cut", "list", "one", "run", "join", "verify", "drop"):
        form[name].add_argument("folder")
    form["cut"].add_argument("--rows", type=number, choices=range(1, ROWS + 1), metavar="N", default=ROWS)
    form["cut"].add_argument("--once", action="store_true")
    form["one"].add_argument("number", type=number)
    form["pipe"].add_argument("header")
    for name in ("one", "run", "pipe", "source", "verify"):
        form[name].add_argument("source", nargs="*" if name == "verify" else "+")
    form["source"].add_argument("--code", metavar="FILE")
    for name in ("one", "run", "pipe", "source"):
        form[name].add_argument("--csv", action="store_true")
    for name in ("one", "run", "pipe"):
        form[name].add_argument("--of", metavar="DIGEST")
        form[name].add_argument("--timeout", type=number, choices=range(1, 1 << 30), metavar="SECONDS")
    form["join"].add_argument("--csv", action="store_true")
    form["join"].add_argument("--only", metavar="NAMES")
    form["run"].add_argument("--jobs", type=number, choices=range(1, 1025), metavar="N")
    form["run"].add_argument("--memory", type=number, choices=range(1, 1 << 30), metavar="MB")
    return parser


def are_right(arguments):
    """Whether the words go together: a source is a code file or a list, a driver and requests; a code file is made of these, and columns are those of csv."""
    words = getattr(arguments, "source", None)
    if words is not None and len(words) not in ((0, 1, 3) if arguments.command == "verify" else (1, 3)):
        return False
    if arguments.command == "source" and arguments.code is not None:
        return len(words) == 3 and not arguments.csv
    return arguments.command != "join" or arguments.only is None or arguments.csv


COMMANDS = {"cut": cut_table, "list": list_parts, "one": one, "run": run, "join": join, "verify": verify, "drop": drop, "pipe": pipe, "source": tell_source}


def work(words):
    """Does what the words say."""
    arguments = reading().parse_args(words)
    if not are_right(arguments):
        raise Wrong(f"these words don't go together after {arguments.command}; see --help", 2)
    try:
        with files_named():
            COMMANDS[arguments.command](arguments)
    except (Failed, records.Strange) as fault:
        raise Wrong(str(fault)) from fault
    except concurrent.futures.BrokenExecutor as fault:
        raise Wrong("a process that looks at answers was ended, as where memory ends: the same words go on") from fault
    finally:
        runs.CHILDREN.end()
    return 0


def main(words):
    """The command: see above."""
    return ended(words, __doc__, work)
