"""The commands of m_survey."""

from .code_files import read_code
from .commands import CODE_FILE_BYTES, DONE, FILE_BYTES, NO_COMMAND, fetched, gathered, output_of
from .facts import Facts
from .files import read_table
from .ranges import read_ranges
from .records import record
from .sources import Compiled
from .texts import is_utf8

USAGE = (
    b"usage: m_survey table LIST DRIVER REQUESTS TABLE, table CODEFILE TABLE, "
    b"facts LIST DRIVER REQUESTS RANGES, version\n"
)
VERSION = b"vodmejka 1.0.0\n"


def survey_output(words, files):
    """What m_survey prints, and with which status. `files` has the bytes of each file by its name."""
    return output_of(survey_answer, words, files)


def survey_answer(words, files):
    """The same, where refusals are raised."""
    if words == [b"version"]:
        return VERSION, DONE
    if words[:1] == [b"facts"] and len(words) == 5 and all(is_utf8(word) for word in words):
        source = gathered(words[1:4], files)
        ranges = None if words[4] == b"-" else fetched(words[4], files, FILE_BYTES)
        compiled = Compiled(source)
        given = read_ranges(ranges, compiled.declared.inputs, compiled.declared.types)
        return b"facts\n", DONE, None, None, Facts(compiled, given)
    if words[:1] == [b"table"] and all(is_utf8(word) for word in words):
        if len(words) == 5:
            source = gathered(words[1:4], files)
            table = fetched(words[4], files, FILE_BYTES)
            compiled = Compiled(source)
            return table_text(compiled, compiled.request_names, read_table(table, compiled.declared.inputs, compiled.declared.types)), DONE
        if len(words) == 3:
            code_file = fetched(words[1], files, CODE_FILE_BYTES)
            table = fetched(words[2], files, FILE_BYTES)
            code = read_code(code_file)
            return table_text(code, code.request_names(), read_table(table, code.inputs, dict(zip(code.inputs, code.types)))), DONE
    return USAGE, NO_COMMAND


def table_text(told, names, rows):
    """The first record, and one for each row."""
    return record([b"name", b"stop", b"notes", *names]) + b"".join(record([row.label, *told.record(row.amounts)]) for row in rows)
