# Each mutant of tests/tries fits its crate: the text that it replaces occurs there once.
python3 "$ROOT/tests/tries.py" --stands
echo "status $?"
