# needs the program
# The households worked out by hand reach all rules of the incomes of 2023, but for those that unreached.txt lists; their notes are those that a person wrote.
cd "$ROOT" || exit 1
tools/coverage examples/impot2023/rules.list examples/impot2023/driver.mpp examples/impot2023/cases.csv --except examples/impot2023/unreached.txt --least 100 \
    --lang en | tail -n 1 | sed 's/.*: //'
python3 examples/impot2023/notes.py | tail -n 1 | sed 's/.*: //'
