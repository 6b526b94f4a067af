# needs the program
# The tables of cases of both examples: the households that are worked out by hand, and 1,000 of the check's with the second calculation's results; both
# tables are still those of the steps and of that calculation; one of the cases with another expectation, and a step that is wrong.
cd "$ROOT" || exit 1
year="examples/impot2023/rules.list examples/impot2023/driver.mpp examples/impot2023/all.txt"
"$M_TAX" cases $year examples/impot2023/cases.csv; echo "status $?"
"$M_TAX" cases $year examples/impot2023/check_cases.csv; echo "status $?"
python3 examples/impot2023/worked.py >"$OLDPWD/worked.csv" &&
    cmp "$OLDPWD/worked.csv" examples/impot2023/cases.csv && echo "the steps give the same"
python3 examples/impot2023/check.py --cases "$OLDPWD/again.csv" --count 1000 &&
    cmp "$OLDPWD/again.csv" examples/impot2023/check_cases.csv && echo "the calculation says the same"
"$M_TAX" cases examples/impots/rules.list examples/impots/driver.mpp - examples/impots/cases.csv; echo "status $?"
sed '/^single,/s/,2286,2286,0.3,/,2287,2286,0.3,/' examples/impot2023/cases.csv > "$OLDPWD/other.csv"
"$M_TAX" cases $year "$OLDPWD/other.csv"; echo "status $?"
cp -r examples/impot2023 "$OLDPWD/wrong" && sed -i 's/^IINET = round(2286.23) = 2286$/IINET = round(2286.23) = 2287/' "$OLDPWD/wrong/worked/incomes.txt"
python3 "$OLDPWD/wrong/worked.py"; echo "status $?"
