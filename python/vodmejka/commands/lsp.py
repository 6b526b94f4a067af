"""Answers an editor that speaks the Language Server Protocol, over the standard input and output.

    lsp

An editor starts it; docs/EDITORS.md has the settings. For rule files (.m) and drivers (.mpp) it reports faults while one types, shows what a word denotes,
finds where it is declared, set and read, gives it another name, and lays files out. The list is `rules.list` in the folder of the file or the nearest above.

The initialization options, or the settings of `vodmejka`, may name other files, counted from the folder that the editor opened:

    list        the list
    folder      the folder from which the names in the list count
    driver      the driver; `-` for none. Without it the only .mpp in the list's folder
    requests    the requests of the driver
    household   a household, whose values are shown
    program     the program, in place of m_tax of the path and of the one that M_TAX names

The status is 0 where the client shut it down and sent `exit`, and 1 where the client is gone.
"""
import sys

from ..lsp.protocol import Connection
from ..lsp.server import Server


def main(words):
    if "--help" in words:
        print(__doc__, end="")
        return 0
    if words and words != ["--stdio"]:
        print("lsp: no words; see --help", file=sys.stderr)
        return 2
    sys.setrecursionlimit(20_000)
    sys.stdout.flush()
    return Server(Connection(0, 1)).serve()
