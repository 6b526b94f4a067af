# Dask on two hosts with a network between them, which are network namespaces with two workers each. One host is lost with all of its processes.
. "$ENGINES/cluster"
needs ip
net=$(basename "$(dirname "$PWD")")
ip netns add "$net-s" 2>/dev/null || { says "not run: there are no network namespaces, or none for this user"; exit 77; }
ip -n "$net-s" link add bridge type bridge && ip -n "$net-s" address add 192.0.2.1/24 dev bridge && ip -n "$net-s" link set bridge up &&
    ip -n "$net-s" link set lo up || exit 1
k=1
for host in a b; do
    k=$((k + 1))
    ip netns add "$net-$host" &&
        ip -n "$net-s" link add "to-$host" type veth peer name net netns "$net-$host" &&
        ip -n "$net-s" link set "to-$host" master bridge up &&
        ip -n "$net-$host" address add "192.0.2.$k/24" dev net && ip -n "$net-$host" link set net up && ip -n "$net-$host" link set lo up || exit 1
done
inside="ip netns exec $net-s"
scheduler 192.0.2.1 $inside
for host in a b; do
    for k in 1 2; do worker "$host$k" ip netns exec "$net-$host"; done
done
computed 2 within "$net-b"
