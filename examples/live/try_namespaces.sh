#!/usr/bin/env bash
# Tests the host over live interfaces: two hosts in two network namespaces, and a box with the engine between them.
#
# Usage: try_namespaces.sh AF_PACKET   (the built af_packet)
# First two ports that send to each other: ping with ARP, and a megabyte over TCP. Then examples/router as it is: a ping arrives with a time
# to live of 63, a ping with a time to live of 1 does not arrive, TCP works. Prints that it is skipped if it may not make namespaces.
set -eu
host="$(readlink -f "$1")"
here="$(cd "$(dirname "$0")" && pwd)"
. "$here/hosts.sh"
if ! ip netns add dpv_a 2>/dev/null; then
    echo "live: skipped, since this user may not make network namespaces"
    exit 0
fi
engine=""
clean() {
    [ -z "$engine" ] || kill "$engine" 2>/dev/null || true
    remove_hosts dpv
}
trap clean EXIT
link_hosts dpv

# start FOLDER PIPELINE PORT=INTERFACE ..: starts the engine in the box.
start() {
    cd "$1"
    shift
    ip netns exec dpv_box "$host" "$@" >"/tmp/dpv_live.$$" 2>&1 &
    engine=$!
    sleep 1
}

# stop: ends the engine, and prints its numbers.
stop() {
    kill -TERM "$engine"
    wait "$engine" || true
    engine=""
    cat "/tmp/dpv_live.$$"
    rm -f "/tmp/dpv_live.$$"
}

# send_megabyte ADDRESS: sends a megabyte over TCP from a to b, and compares its sum.
send_megabyte() {
    ip netns exec dpv_b timeout 20 python3 -c '
import hashlib, socket, sys
with socket.create_server((sys.argv[1], 5001)) as server:
    peer, _ = server.accept()
    digest = hashlib.sha256()
    while part := peer.recv(65536):
        digest.update(part)
    peer.sendall(digest.digest())
    peer.close()' "$1" &
    server=$!
    sleep 0.5
    ip netns exec dpv_a timeout 20 python3 -c '
import hashlib, os, socket, sys
data = os.urandom(1 << 20)
with socket.create_connection((sys.argv[1], 5001)) as peer:
    peer.sendall(data)
    peer.shutdown(socket.SHUT_WR)
    answer = b""
    while part := peer.recv(64):
        answer += part
print("TCP: a megabyte arrived whole" if answer == hashlib.sha256(data).digest() else "TCP: the sums differ")
sys.exit(answer != hashlib.sha256(data).digest())' "$1"
    wait "$server"
}

echo "two ports that cross"
ip -n dpv_a addr add 10.9.0.1/24 dev va
ip -n dpv_b addr add 10.9.0.2/24 dev vb
ip -n dpv_a link set lo up
ip -n dpv_b link set lo up
start "$here" cross.toml 0=boxa 1=boxb
ip netns exec dpv_a ping -q -c 100 -i 0.01 10.9.0.2 | grep -E "received|rtt"
send_megabyte 10.9.0.2
stop

echo "examples/router"
ip -n dpv_a addr flush dev va
ip -n dpv_b addr flush dev vb
name_neighbours dpv
start "$here/../router" router.toml 1=boxa 2=boxb
ip netns exec dpv_a ping -c 3 -i 0.1 10.1.0.1 | grep -E "ttl|received"
ip netns exec dpv_a ping -q -c 1 -W 1 -t 1 10.1.0.1 | grep received || true
send_megabyte 10.1.0.1
stop
