# What the reference implementation knows of an operator's value holds of the value, and an operator that there isn't is an error.
python3 "$ROOT/tests/tools/intervals.py"
