# needs the program
# Rewrites of a rule base: of those that keep the meaning none has a household in which the two differ, and of those that change it each has one.
cd "$ROOT" || exit 1
python3 bench/same/rewrites.py --check; echo "status $?"
