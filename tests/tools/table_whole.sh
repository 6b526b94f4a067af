# needs the program
# A French spreadsheet of the real year's households goes in, and a table comes out; the taxes are those that are worked out by hand.
cd "$ROOT" || exit 1
sed 's/,/;/g; s/33333/33 333,00/; s/66667/66 667/; s/$/\r/' examples/impot2023/households.csv |
    tools/table-in - >"$OLDPWD/table.csv"
printf 'IINET\n' >"$OLDPWD/requests.txt"
"$M_TAX" batch examples/impot2023/rules.list examples/impot2023/driver.mpp "$OLDPWD/requests.txt" "$OLDPWD/table.csv" | tools/table-out | cut -d, -f1,2,6
printf 'name;1AJ\r\na;2 500,5\r\nb;\r\nc;10000000000000\r\n' | tools/table-in - |
    "$M_TAX" batch examples/first/rules.list - - /dev/stdin | tools/table-out --french | tr '\r' '|'
