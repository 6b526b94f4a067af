"""A rule base that is ready to compute."""
from __future__ import annotations

import contextlib
import os
import re
from pathlib import Path
from typing import TYPE_CHECKING, Any, Callable, Generator, Iterable, Mapping, Sequence, overload

from .answers import Answer, Form, answer_of
from .batch_files import batch_file
from .batches import Answers, Batch
from .cases import Mismatches, mismatches_of
from .code_cache import keep, kept_code, kept_path, put_whole
from .dask import mapped
from .errors import Broken, NotFound, Refused
from .facts import Facts, Within, facts_of, ranges_text, without_facts
from .frames import Households, frame_of
from .limits import CODE_FILE_BYTES, ROWS
from .program import ENCODING, Folder, Program, digest_of, household_bytes, is_trial, lines_of, run
from .session import Session
from .shown import section, short, table
from .sources import Sources, fetched, fetched_rules, named
from .surveys import Survey
from .tables import Household
from .variables import TYPES, Variable, Variables
from .variants import Number, Text, varied

if TYPE_CHECKING:
    import pandas
    from dask.dataframe import DataFrame as DaskFrame

ROWS_AT_ONCE = 50_000
VALUES = 4_000_000


class Rules:
    """A rule base with a driver and requests.

    `list`, `driver` and `requests` are names of files, as the program takes them; None is `-`: one call of the rules, and all variables with `restituee`. All
    files are read once, when this is made, and copied: what is computed is of that moment. The code file of `run` is compiled once for a program and a source,
    and kept in the user's cache under their digest.
    """

    _sources: Sources | None
    _read: Variables | None = None
    _surveyor: Program | None = None
    _survey_digest: str | None = None

    def __init__(
        self, list: str | os.PathLike[str], driver: str | os.PathLike[str] | None = None, requests: str | os.PathLike[str] | None = None, *,
        program: str | None = None, cache: str | None = None, timeout: float | None = None,
    ):
        names = [None if name is None else os.fspath(name) for name in (list, driver, requests)]
        assert names[0] is not None
        content = fetched(names[0])
        rules = fetched_rules(named(content))
        driver_text, requests_text = (None if name is None else fetched(name) for name in names[1:])
        self._begin(Sources(content, rules, driver_text, requests_text), Program(program), cache, timeout)

    def _begin(self, sources: Sources, program: Program, cache: str | None, timeout: float | None) -> None:
        """Copies the files into a folder of its own, and has their code file."""
        self._program, self._sources, self._cache, self.timeout = program, sources, cache, timeout
        self.program, self._room = program.path, Folder()
        self._names = {f"r{k}.m": name for k, (name, _) in enumerate(sources.rules)}
        application = sources.listing.replace(b"\r\n", b"\n").split(b"\n")[0]
        self._put("list", b"\n".join([application, *(name.encode() for name in self._names), b""]))
        for copy, (_, text) in zip(self._names, sources.rules):
            self._put(copy, text)
        given = (("driver", sources.driver), ("requests", sources.requests))
        self._words = ["list", *("-" if text is None else self._put(name, text) for name, text in given)]
        self.digest = sources.digest()
        self._code = self._compiled(digest_of(program.digest.encode(), self.digest.encode()), cache)
        self._lines = self._interface()

    @classmethod
    def from_code(cls, file: str | os.PathLike[str], *, program: str | None = None, timeout: float | None = None) -> Rules:
        """Rules by a code file, without their sources: they run households, and have no sessions."""
        return cls._by_code(fetched(os.fspath(file), CODE_FILE_BYTES), Program(program), timeout)

    @classmethod
    def _by_code(cls, code: bytes, program: Program, timeout: float | None) -> Rules:
        made = cls.__new__(cls)
        made._program, made._sources, made._cache, made.timeout, made.digest = program, None, None, timeout, digest_of(code)
        made.program, made._room, made._names, made._words = program.path, Folder(), {}, []
        made._code = made._path(made._put("code", code))
        made._lines = made._interface()
        return made

    def __reduce__(self) -> tuple[Any, ...]:
        """As it is pickled: the sources themselves, which another process or machine compiles by the same program."""
        code = None
        if self._sources is None:
            code = Path(self._code).read_bytes()
        survey = None
        with contextlib.suppress(Broken):  # (an older installation has no m_survey)
            survey = self.survey_digest
        return unpickled, (self._sources, code, self.program, self._program.digest, survey, self._cache, self.timeout)

    def variant(
        self, values: Mapping[str, Number] | None = None, *, replace: Mapping[str, Text] | None = None, driver: Text | None = None,
        outputs: Iterable[str] | None = None,
    ) -> Rules:
        """The same rules with other values of constants (or of cells whose only formula is a number), other texts of rule files by their names, another
        driver, or other requested values. What isn't named stays as it is."""
        return self._with(lambda sources: varied(sources, values, replace, driver, outputs))

    def with_list(self, list: str | os.PathLike[str]) -> Rules:
        """Rules of another list, with the same driver and requests."""
        content = fetched(os.fspath(list))
        return self._with(lambda sources: sources._replace(listing=content, rules=fetched_rules(named(content))))

    # ---- computing

    def run(self, household: Household) -> Answer:
        """The answer to a household. `household` has amounts by codes: Decimal, int or text, and None for nothing."""
        name = self._room.put(household_bytes(household))
        try:
            text, _ = self._run("exec", self._code, name)
        finally:
            os.unlink(self._path(name))
        return answer_of(iter(lines_of(text).split("\n")[:-1]), self.digests)

    def map(
        self, frame: DaskFrame, *, numbers: str = "float64", stops: str = "raise", keep: Iterable[str] = (), meta: pandas.DataFrame | None = None
    ) -> DaskFrame:
        """The answers to the households of a frame of Dask: a frame of Dask with its partitions, each of which `batch` computes on its worker. Its columns and
        types are those of `meta`, an empty frame, or those that `batch` gives for no households. A household that is stopped is an error, when the partition
        is computed, unless stops="keep" is given."""
        return mapped(self, frame, {"numbers": numbers, "stops": stops, "keep": [*keep]}, meta)

    @overload
    def batch(self, rows: Iterable[Household], rows_at_once: int = ROWS_AT_ONCE) -> Answers: ...

    @overload
    def batch(
        self, rows: pandas.DataFrame, rows_at_once: int = ROWS_AT_ONCE, *, numbers: str = "float64", stops: str = "raise", keep: Iterable[str] = ()
    ) -> pandas.DataFrame: ...

    def batch(
        self, rows: pandas.DataFrame | Iterable[Household], rows_at_once: int = ROWS_AT_ONCE, *, numbers: str = "float64", stops: str = "raise",
        keep: Iterable[str] = (),
    ) -> pandas.DataFrame | Answers:
        """The answers to households, in their order, as they are computed: any number of them, of which some thousand are in memory at once.

        `rows` is an iterable of households; then this is an iterator of answers. Or it is a frame of pandas, whose columns are codes; then this is a frame with
        its index, with the columns that `keep` names, a column for each value, `over` with the names of the values that overflow and `notes` with the errors
        that were noted. With numbers="float64" values are floats, and one that isn't exact in a float is an error; "micros" gives whole millionths, "decimal"
        decimals. Undefined is NaN, NA or None; what overflows is infinite, NA or OVER. A household that is stopped is an error, `Stopped`; with
        stops="keep" its values are undefined, and a column `stop` has the line. Frames are computed by the program m_survey.
        """
        if hasattr(rows, "columns") and hasattr(rows, "itertuples"):
            return self._frame(rows, rows_at_once, numbers, stops, keep)
        if (numbers, stops, tuple(keep)) != ("float64", "raise", ()):
            raise TypeError("numbers, stops and keep are for frames: an answer of another batch has decimals and its stop")
        return self._answers(rows, rows_at_once)

    def batch_file(
        self, path: str | os.PathLike[str], out: str | os.PathLike[str], format: str = "csv", *, numbers: str = "float64", stops: str = "raise",
        keep: Iterable[str] = (), rows_at_once: int = ROWS_AT_ONCE,
    ) -> int:
        """Writes the answers to the households of a table of any length, whole or not at all, and returns how many households it has.

        The table is csv: `name` and codes in the first line, and the columns that `keep` names. With format="csv" the file has `name`, these columns, `stop`,
        `notes`, and a column for each value with its amount; with format="parquet", by pyarrow, it has the columns that a frame has, after `name`. A household
        that is stopped is an error, unless stops="keep" is given.
        """
        names = self._outputs()
        rows = part_size(rows_at_once, len(names))
        return batch_file(self._survey(), self.types(), names, path, out, format=format, numbers=numbers, stops=stops, keep=[*keep], rows=rows)

    def session(self, household: Household | None = None) -> Session:
        """A session that begins with a household; it is ended by `close`, or at the end of a `with`."""
        if not self._words:
            raise Broken("a session needs rules: a code file has no sources")
        if is_trial(self.program):
            raise Broken("a trial of the sources has no sessions: ./build makes the program, which has")
        self._program.check()
        words = [self.program, "serve", *self._words, self._room.put(household_bytes(household or {}))]
        return Session(words, self._room, self.timeout, lambda: self._variables().reasons, self.digests)

    def cases(self, table: str | os.PathLike[str]) -> Mismatches:
        """The expectations of a table of cases that aren't met, in their order; none where all are."""
        if not self._words:
            raise Broken("cases need rules: a code file has no sources")
        name = self._room.put(fetched(os.fspath(table)))
        try:
            text, _ = self._run("cases", *self._words, name)
        finally:
            os.unlink(self._path(name))
        return mismatches_of(lines_of(text).split("\n")[:-1], self.digests)

    def facts(self, ranges: Mapping[str, Within] | None = None) -> Facts:
        """Facts about the requested values for all households whose amounts are within ranges: `{"1AJ": (0, 10**6)}` are households that have no 1AJ, or one
        of 0 to 1,000,000, and anything elsewhere. An input may also be "yes", "no" or "maybe" given, or a `Range`."""
        if not self._words:
            raise Broken("facts need rules: a code file has no sources")
        program = self._survey().program
        name = self._room.put(ranges_text(ranges)) if ranges else "-"
        try:
            text, _ = self._run("facts", *self._words, name, program=program)
        except Refused as refused:
            raise without_facts(refused) from None
        finally:
            if ranges:
                os.unlink(self._path(name))
        return facts_of(lines_of(text), (self.digest, program.digest))

    # ---- the contents of the rules

    def inputs(self) -> dict[str, Variable]:
        """The inputs by their codes, in order, each with its name, description, type and attributes; of a code file with its type alone."""
        types = self.types()
        if self._sources is None:
            return {code: Variable("", "saisie", code, type=TYPES.get(type_, "")) for code, type_ in types.items()}
        return {code: self._variables().input(code) for code in types}

    def types(self) -> dict[str, str]:
        """The codes of the inputs in order, each with what its amounts may be: `truth` (0 or 1), `whole`, or nothing, which is any amount."""
        words = [line.split(" ") for line in self._lines if line.startswith("input ")]
        return {line[1]: line[2] if len(line) > 2 else "" for line in words}

    def outputs(self) -> dict[str, str]:
        """The names of the requested values in order, each with its description; of a code file without."""
        return {name: "" if self._sources is None else self._variables().description(name) for name in self._outputs()}

    def variable(self, name: str) -> Variable:
        """A variable by its name or its code: its declaration, and the formulas that set it, with their places."""
        if self._sources is None:
            raise Broken("variables need rules: a code file has no sources")
        return self._variables().variable(name)

    @property
    def digests(self) -> tuple[str, str]:
        """The digests of the source and of the program m_tax."""
        return self.digest, self._program.digest

    @property
    def program_digest(self) -> str:
        """The digest of the program m_tax; `digest` is that of the source."""
        return self._program.digest

    @property
    def survey_digest(self) -> str:
        """The digest of the program m_survey, which computes frames and files of households."""
        return self._survey().program.digest

    def __repr__(self) -> str:
        counts = f"{len(self.types())} inputs, {len(self._outputs())} outputs, digest {short(self.digest)}"
        if self._sources is None:
            return f"<Rules of a code file: {counts}>"
        application = self._sources.listing.replace(b"\r\n", b"\n").split(b"\n")[0].decode(ENCODING)
        driver, files = "no driver" if self._sources.driver is None else "a driver", len(self._sources.rules)
        return f"<Rules of {application}: {files} rule file{'' if files == 1 else 's'}, {driver}, {counts}>"

    def _repr_html_(self) -> str:
        inputs = [[code, one.name, one.description, one.type] for code, one in self.inputs().items()]
        outputs = [[name, description] for name, description in self.outputs().items()]
        tables = table(["output", "description"], outputs) + table(["code", "input", "description", "type"], inputs)
        return section([repr(self).strip("<>")], tables)

    def write_code(self, path: str | os.PathLike[str]) -> None:
        """Writes the code file, which `Rules.from_code` and the program's `exec` take."""
        put_whole(os.path.abspath(os.fspath(path)), Path(self._code).read_bytes())

    # ---- inside

    def _with(self, change: Callable[[Sources], Sources]) -> Rules:
        """Rules of other sources by the same program."""
        if self._sources is None:
            raise Broken("a variant needs rules: a code file has no sources")
        made = Rules.__new__(Rules)
        made._begin(change(self._sources), self._program, self._cache, self.timeout)
        return made

    def _variables(self) -> Variables:
        """The variables of the rule files, which are read when they are first needed."""
        if self._read is None:
            assert self._sources is not None
            self._read = Variables(self._sources)
        return self._read

    def _outputs(self) -> list[str]:
        """The names of the requested values, in order."""
        return [line.split(" ")[1] for line in self._lines if line.startswith("output ")]

    def _interface(self) -> list[str]:
        """The lines of the code file before its instructions. Answers are read line by line, so a label whose text has more than one is rejected."""
        lines = []
        with open(self._code, "rb") as file:
            for raw in file:
                if raw == b"code\n":
                    break
                lines.append(raw.decode(ENCODING).removesuffix("\n"))
                words = lines[-1].split(" ")
                if words[:2] == ["label", "verif"] and len(words) == 6 and "0a" in (words[5][k : k + 2] for k in range(0, len(words[5]), 2)):
                    raise Broken(f"the text of error {words[3]} has a line feed, so answers can't be told apart by their lines")
        return lines

    def _path(self, name: str) -> str:
        return os.path.join(self._room.name, name)

    def _put(self, name: str, content: bytes) -> str:
        Path(self._path(name)).write_bytes(content)
        return name

    def _run(self, *words: str, program: Program | None = None) -> tuple[bytes, int]:
        program = program or self._program
        try:
            found = run(program.path, *words, folder=self._room.name, timeout=self.timeout)
        except Refused as refused:
            raise Refused(self._original_names(refused.line)) from None
        except NotFound as missing:
            raise NotFound(self._original_names(str(missing))) from None
        program.check()
        return found

    def _original_names(self, line: str) -> str:
        """A line of the program, with the original names of the files."""
        line = re.sub(r"\bhousehold-[a-z0-9_]+\.csv\b", "household.csv", line)
        return re.sub(r"\br[0-9]+\.m\b", lambda match: self._names.get(match[0], match[0]), line)

    def _compiled(self, digest: str, cache: str | None) -> str:
        """The code file of the source, from the cache where it is there."""
        path = kept_path(cache, digest)
        text = None if path is None else kept_code(path)
        if text is None:
            text, _ = self._run("compile", *self._words)
            if path is not None:
                keep(path, text)
        self._put("code", text)
        return self._path("code")

    def _answers(self, rows: Iterable[Household], at_once: int) -> Answers:
        if not self._words:
            return Answers(self._alone(rows))
        form = Form(self._outputs(), self.digests)
        notes = sum(line.startswith("note ") for line in self._lines)
        size = part_size(at_once, len(form.names) + notes)
        # (an iterator may yield one mapping again and again, changed each time: a part is copied before it is written)
        taken: Iterable[Household] = rows if isinstance(rows, (list, tuple)) else (dict(row) for row in rows)
        batch = Batch(self._program, ["batch", *self._words], self._room.name, form, size, self.types(), self._original_names, self.timeout)
        return batch.answers(taken)

    def _alone(self, rows: Iterable[Household]) -> Generator[list[Answer], None, None]:
        """The answers of a code file, which has no batches. A message has the line of a table of all."""
        for number, row in enumerate(rows, 2):
            try:
                yield [self.run(row)]
            except Refused as refused:
                what = refused.line.partition(": ")[2]
                if refused.file != "household" or not what:
                    raise
                raise Refused(f"refused household line {1 if what == 'unknown code' else number}: {what}") from None

    def _frame(self, frame: pandas.DataFrame, at_once: int, numbers: str, stops: str, keep: Iterable[str]) -> pandas.DataFrame:
        """The answers to the rows of a frame, as a frame."""
        names = self._outputs()
        made = frame_of(self._survey(), Households(frame, self.types(), [*keep]), names, numbers, stops, part_size(at_once, len(names)))
        made.attrs.update(source=self.digest, program=self.survey_digest)
        return made

    def _survey(self) -> Survey:
        """The program of tables, m_survey, over the source or the code file."""
        if self._surveyor is None:
            self._surveyor = Program(None, "m_survey", self.program)
        if self._survey_digest not in (None, self._surveyor.digest):
            raise Broken(f"{self._surveyor.path} is another program than the one that these rules were made with")
        return Survey(self._surveyor, self._words or [self._code], self._room.name, self._original_names, self.timeout)

    def survey_of(self, names: Sequence[str]) -> tuple[Survey, list[str]]:
        """The program of tables, and the names of its values: the requested ones, or by a code file all. Another process may use it as long as these rules
        exist."""
        whole = self._survey()
        if not self._words:
            return Survey(whole.program, whole.words, whole.folder, str, self.timeout), self._outputs()
        requests = self._room.put("".join(f"{name}\n" for name in names).encode(ENCODING))
        return Survey(whole.program, [*self._words[:-1], requests], whole.folder, str, self.timeout), list(names)


def part_size(at_once: int, values: int) -> int:
    """How many households with so many values are computed at once."""
    return max(1, min(at_once, ROWS, VALUES // (values + 1)))


def unpickled(
    sources: Sources | None, code: bytes | None, path: str, digest: str, survey: str | None, cache: str | None, timeout: float | None
) -> Rules:
    """Rules as they were pickled, by the program of the same path, or else the one that is found here, which has to be the same."""
    program = Program(path if os.access(path, os.X_OK) else None)
    if program.digest != digest:
        raise Broken(f"{program.path} is another program than the one that these rules were made with")
    if sources is None:
        assert code is not None
        made = Rules._by_code(code, program, timeout)
    else:
        made = Rules.__new__(Rules)
        made._begin(sources, program, cache, timeout)
    made._survey_digest = survey
    return made
