# What Spark's `RDD.pipe` does to a command, by a stub: Spark itself isn't run. One executor is lost; what it had begun goes on without it, while another
# one begins the same part.
. "$ENGINES/common"
needs xargs
submit() { (cd away && PYTHONPATH="$ENGINES/as_spark" exec python3 "$DISK/examples/cluster/spark_parts.py" "$PARTS" "$CODE" "$1"); }
refuses submit
: >begun
submit "$DIGEST" 2>log &
submitted=$!
killed above spark_parts
wait "$submitted" || { cat log; exit 1; }
[ "$(grep -c 'the executor was lost' log)" -eq 1 ] || { says "not one executor was lost"; cat log; exit 1; }
"$SCALE" join "$PARTS" --csv >"$ANSWERS"
