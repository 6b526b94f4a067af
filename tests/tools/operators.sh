# The operators of the package give what the worked rows of the program's operators have; a wrong value is reported.
python3 "$ROOT/tests/tools/operators.py"
echo "status $?"
