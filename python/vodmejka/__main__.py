"""`vodmejka NAME ..`, which does what `tools/NAME ..` of the repository does."""
from __future__ import annotations

import importlib
import sys

from . import commands


def main() -> None:
    """Runs the command that the first word names."""
    name = sys.argv[1] if len(sys.argv) > 1 else "--help"
    if name in commands.names():
        del sys.argv[1]
        commands.run(name)
    print("usage: vodmejka NAME ..; each has --help:", file=sys.stdout if name == "--help" else sys.stderr)
    for known in commands.names():
        text = importlib.import_module(f"{commands.__name__}.{known.replace('-', '_')}").__doc__ or ""
        print(f"  {known:12} {text.splitlines()[0] if text else ''}", file=sys.stdout if name == "--help" else sys.stderr)
    sys.exit(0 if name == "--help" else 2)


if __name__ == "__main__":
    main()
