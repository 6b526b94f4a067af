# The reader of statements agrees with the reader of tokens.
python3 "$ROOT/tests/tools/statements.py"
