#!/usr/bin/env bash
# A game that is found by its code: a coordinator, a game server, its registration in plain Python, and a client that asks for the
# code, is told where the server is, and joins the game there. It ends by itself, in a few seconds.
#
#   examples/coordinated.sh
set -u
. "$(dirname "$0")/common.sh"
coordinator=$(program tt_coordinator) && server=$(program tt_server) || exit 1
main=$(free_port)
desk=$((main + 1))
game=$((main + 2))
side=$((main + 3))
for port in "$desk" "$game" "$side"; do
  if listens "$port"; then die "port $port is taken; try again"; fi
done

"$coordinator" "127.0.0.1:$main" "127.0.0.1:$desk" --first "$RANDOM" &
running+=($!)
"$server" "127.0.0.1:$game" "127.0.0.1:$side" --admin-password secret > "$folder/summary" &
running+=($!)
await "$desk"
await "$side"

timeout 10 "$top/examples/find_server.py" "127.0.0.1:$main" "$game" Ann || die "the client did not get into the game"

# The console's quit ends the game; the server then writes its summary. The coordinator goes on until it is killed.
timeout 10 "$top/examples/admin.py" "127.0.0.1:$side" secret quit > "$folder/admin" || die "the admin did not end the game"
wait "${running[1]}" || die "the server failed"
unset 'running[1]'
echo "the server's summary:"
sed 's/^/    /' "$folder/summary"
