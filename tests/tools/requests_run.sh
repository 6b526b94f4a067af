# needs the program
# What is listed can be requested, for each example: as many lines are printed as were requested.
cd "$ROOT" || exit 1
for base in first loops impots impot2023; do
    household=$(ls examples/$base/household.csv examples/$base/households/single.csv 2>/dev/null)
    tools/requests examples/$base/rules.list >"$OLDPWD/asked"
    "$M_TAX" run examples/$base/rules.list - "$OLDPWD/asked" "$household" >"$OLDPWD/told"
    sed 's/ .*//' "$OLDPWD/told" | cmp - "$OLDPWD/asked" && echo "$base: as many"
done
