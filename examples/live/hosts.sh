# Two hosts, a and b, with a box between them, each a network namespace. try_namespaces.sh and try_routes.sh read this file.

# prepare NAMESPACE INTERFACE: the interface is up, and neither it nor the kernel changes what is sent.
prepare() {
    ip netns exec "$1" sysctl -qw net.ipv6.conf.all.disable_ipv6=1 2>/dev/null || true
    ip netns exec "$1" ethtool -K "$2" tx off rx off tso off gso off gro off >/dev/null 2>&1 || true
    ip -n "$1" link set "$2" up
}

# link_hosts NAME: makes NAME_b and NAME_box beside NAME_a, which is there. Interface va of NAME_a leads to boxa of NAME_box, and vb of NAME_b to
# boxb.
link_hosts() {
    ip netns add "$1_b"
    ip netns add "$1_box"
    for side in a b; do
        ip link add "v$side" netns "$1_$side" type veth peer name "box$side" netns "$1_box"
        prepare "$1_$side" "v$side"
        prepare "$1_box" "box$side"
    done
}

# name_neighbours NAME: gives the hosts the addresses of the neighbours of examples/router, 10.7.0.1 and 10.1.0.1.
name_neighbours() {
    ip -n "$1_a" link set va address 02:00:00:00:01:01
    ip -n "$1_b" link set vb address 02:00:00:00:01:02
    ip -n "$1_a" addr add 10.7.0.1/32 dev va
    ip -n "$1_b" addr add 10.1.0.1/32 dev vb
    ip -n "$1_a" route add 10.1.0.1 dev va
    ip -n "$1_b" route add 10.7.0.1 dev vb
    ip -n "$1_a" neigh replace 10.1.0.1 lladdr 02:00:00:00:00:01 dev va
    ip -n "$1_b" neigh replace 10.7.0.1 lladdr 02:00:00:00:00:01 dev vb
}

# remove_hosts NAME: removes those that are there.
remove_hosts() {
    for place in a b box; do ip netns del "$1_$place" 2>/dev/null || true; done
}
