# The folder in which tests/fuzz runs the program, and its draws.
python3 "$ROOT/tests/tools/rooms.py"
