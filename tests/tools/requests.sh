# All variables, kinds, patterns of names and of cells, and what can't be requested.
requests=$ROOT/tools/requests
(cd "$ROOT" && tools/requests examples/loops/rules.list | tr '\n' ' ' && echo &&
    tools/requests examples/impots/rules.list '*T' 'TMI[?]' 'T*B' --computed | tr '\n' ' ')
echo
(cd "$ROOT" && tools/requests examples/first/rules.list --constants --inputs && tools/requests examples/impot2023/rules.list | wc -l | tr -d ' ')
printf 'iliad\na.m\n' >a.list
for k in 0 1 2 3 4 5 6 7 8 9; do
    for l in 0 1 2 3 4 5 6 7 8 9; do echo "T$k$l : tableau[1000] calculee : \"t\" ;"; done
done >a.m
"$requests" a.list | wc -l | tr -d ' '
echo 'A : const = 1 ;' >>a.m
"$requests" a.list
echo "status $?"
"$requests" a.list 'B*'
echo "status $?"
"$requests" a.list A 'T99[99?]' | tr '\n' ' '
echo
"$requests" a.list --cells
echo "status $?"
printf 'iliad\nbig.m\n' >big.list
for size in 1025 100000000000 "$(printf '%05000d' 7 | tr 0 9)"; do
    printf 'T : tableau[%s] calculee : "" ;\n' "$size" >big.m
    "$ROOT/tools/requests" big.list
    echo "status $?"
done
echo "-- what a rule base may have, and no more is listed; a pattern of many stars"
awk 'BEGIN {for (k = 0; k < 977; k++) printf "T%03d : tableau[1024] calculee : \"\" ;\n", k}' >big.m
"$requests" big.list
echo "status $?"
{ echo iliad; yes a.m | head -n 1025; } >big.list
"$requests" big.list
echo "status $?"
head -c 16777216 /dev/zero | tr '\0' ' ' >blank.m
printf 'iliad\nblank.m\nblank.m\nblank.m\nblank.m\nblank.m\n' >big.list
"$requests" big.list
echo "status $?"
printf 'iliad\nbig.m\n' >big.list
echo 'AAAAAAAAAAAAAAAAAAAAAAAAAAAAAAAAAAAA : const = 1 ;' >big.m
"$requests" big.list '*A*A*A*A*A*A*A*A*A*A*A*B'
echo "status $?"
"$requests" big.list '*A*A*A*A*A*A*A*A*A*A*A'
"$requests" big.list 'A]*' '[A]*' '!*'
