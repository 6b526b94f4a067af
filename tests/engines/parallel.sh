# GNU parallel on one machine.
. "$ENGINES/common"
needs parallel
submit() { "$SCALE" list "$PARTS" | (cd away && parallel --jobs 3 "$SCALE" one "$PARTS" {} "$CODE" --of "$1"); }
refuses submit
: >begun
submit "$DIGEST" 2>log &
killed
wait $!
[ $? -eq 1 ] && [ "$(left)" -eq 1 ] || { says "not one part failed"; cat log; exit 1; }
submit "$DIGEST" || exit 1
"$SCALE" join "$PARTS" --csv >"$ANSWERS"
