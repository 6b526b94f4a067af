# needs the program
# The real year: all that the rules and the driver return, and the verifications, are those of the second calculation, also of amounts of a billion; the
# answers that are kept; the driver without benefits; all that lint and slips print of it, and of two reforms: what the pages explain.
cd "$ROOT" || exit 1
python3 examples/impot2023/check.py --count 2000 --seed 7
python3 examples/impot2023/check.py --extremes
"$M_TAX" batch examples/impot2023/rules.list examples/impot2023/driver.mpp - examples/impot2023/households.csv |
    cmp - examples/impot2023/answers.txt && echo "the answers that are kept"
printf 'name,0AM,0CF,1AJ\nbefore,1,3,190000\nbehind,1,3,191000\n' >"$OLDPWD/two.csv"
printf 'RNI\nTMI\nIINET\n' >"$OLDPWD/requests"
"$M_TAX" batch examples/impot2023/rules.list - "$OLDPWD/requests" "$OLDPWD/two.csv" | LC_ALL=C grep -v '^I:'
printf 'code,amount\n1AJ,60000\n7UD,1500\n7DB,2000\n' >"$OLDPWD/one.csv"
for driver in driver without; do "$M_TAX" run examples/impot2023/rules.list examples/impot2023/$driver.mpp - "$OLDPWD/one.csv" | tr '\n' ';'; echo; done
for driver in examples/impot2023/driver.mpp - examples/impot2023/without.mpp; do
    "$M_TAX" lint examples/impot2023/rules.list $driver examples/impot2023/all.txt; echo "lint $driver: status $?"
done
tools/slips --driver examples/impot2023/driver.mpp examples/impot2023/rules.list
echo "without a driver:"; tools/slips examples/impot2023/rules.list
for reform in capital children; do
    echo "$reform:"
    "$M_TAX" lint examples/reform2023/$reform/rules.list examples/impot2023/driver.mpp examples/impot2023/all.txt
    tools/slips --driver examples/impot2023/driver.mpp examples/reform2023/$reform/rules.list
done
