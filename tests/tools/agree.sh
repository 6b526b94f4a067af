# The grammars of the tools and that of the reference implementation agree on changed files, and with the program on the worked rows.
python3 "$ROOT/tests/tools/agree.py" "$ROOT" 600 1
python3 -B "$ROOT/tests/tools/agree_rows.py" "$ROOT"
