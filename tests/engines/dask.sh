# Dask with three workers as processes of this machine, of which one is killed. What it had begun goes on without it, while another worker begins the same part.
. "$ENGINES/cluster"
inside=
scheduler 127.0.0.1
for k in 1 2 3; do worker "w$k"; done
computed 2 above distributed.cli
