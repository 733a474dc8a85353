#!/usr/bin/env bash
# Withdraws and adds a route of examples/router while ping and TCP run between two network namespaces.
#
# Usage: try_routes.sh AF_PACKET   (the built af_packet)
# A host sends an echo request each 10 ms and a megabyte over TCP, through the box, to another. Meanwhile the route of the other is withdrawn for
# half a second, and then one for its address alone is added. Captures before and after the box show which requests arrived. Prints that it is
# skipped if it may not make namespaces.
set -eu
host="$(readlink -f "$1")"
here="$(cd "$(dirname "$0")" && pwd)"
. "$here/hosts.sh"
if ! ip netns add dpv_routes_a 2>/dev/null; then
    echo "routes: skipped, since this user may not make network namespaces"
    exit 0
fi
folder="$(mktemp -d)"
started=""
clean() {
    for process in $started; do kill "$process" 2>/dev/null || true; done
    remove_hosts dpv_routes
    rm -rf "$folder"
}
trap clean EXIT
link_hosts dpv_routes
name_neighbours dpv_routes
cd "$here/../router"
ip netns exec dpv_routes_box "$host" router.toml --control "$folder/control" 1=boxa 2=boxb >"$folder/said" 2>&1 &
engine=$!
started="$engine"
# The requests, as the sender sends them and as the other receives them.
for side in "a out" "b in"; do
    way="${side#* }" side="${side% *}"
    ip netns exec "dpv_routes_$side" tcpdump -n -Q "$way" -i "v$side" -w "$folder/$side.pcap" --immediate-mode "icmp[icmptype] = icmp-echo" 2>/dev/null &
    started="$started $!"
done
sleep 1
ip netns exec dpv_routes_a ping -q -c 200 -i 0.01 10.1.0.1 >"$folder/ping" &
ping=$!
ip netns exec dpv_routes_b timeout 30 python3 -c '
import socket
with socket.create_server(("10.1.0.1", 5001)) as server:
    peer, _ = server.accept()
    size = 0
    while part := peer.recv(65536):
        size += len(part)
    peer.sendall(size.to_bytes(8, "big"))' &
server=$!
started="$started $ping $server"
sleep 0.5
ip netns exec dpv_routes_a timeout 30 python3 -c '
import socket, time
with socket.create_connection(("10.1.0.1", 5001)) as peer:
    for _ in range(64):
        peer.sendall(bytes(16384))
        time.sleep(0.02)
    peer.shutdown(socket.SHUT_WR)
    size = int.from_bytes(peer.recv(8), "big")
print(f"TCP: {size} of {64 * 16384} bytes arrived")' &
sender=$!
started="$started $sender"
sleep 0.2
echo "delete 0 10.1.0.0/16" >"$folder/control"
sleep 0.5
echo "add 0 10.1.0.1/32 2" >"$folder/control"
wait "$ping" "$sender" "$server" || true
sleep 0.5
kill -TERM "$engine"
wait "$engine" || true
grep -E "^(add|delete|turns)" "$folder/said"
grep -E "transmitted" "$folder/ping"
kill $started 2>/dev/null || true
wait 2>/dev/null || true
# The sequence numbers of the echo requests of both captures, which tcpdump reads.
for side in a b; do
    tcpdump -n -r "$folder/$side.pcap" 2>/dev/null | grep -o "seq [0-9]*" | cut -d " " -f 2 >"$folder/$side.seq"
done
python3 - "$folder/a.seq" "$folder/b.seq" <<'PYTHON'
import sys
sent, came = ([int(line) for line in open(name)] for name in sys.argv[1:])
lost = [number for number in sent if number not in set(came)]
runs = [f"{number}" for number in lost if number - 1 not in lost]
ends = [f"{number}" for number in lost if number + 1 not in lost]
print(f"echo requests {sent[0]} to {sent[-1]} sent, {len(came)} arrived; lost: {', '.join(f'{a} to {b}' for a, b in zip(runs, ends)) or 'none'}")
sys.exit(not lost or len(runs) > 1)
PYTHON
