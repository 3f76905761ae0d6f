#!/usr/bin/env bash
# A game over sockets in ten seconds: a server, two players with command files, and an admin that watches and ends it.
# It ends with 0 where both players printed the same world at the same frame, and says so.
#
#   examples/two_players.sh
set -u
. "$(dirname "$0")/common.sh"
server=$(program tt_server) && play=$(program tt_play) && admin=$(program tt_admin) || exit 1
game=$(free_port)
side=$(free_port)
[ "$game" != "$side" ] || side=$((game + 1))

"$server" "127.0.0.1:$game" "127.0.0.1:$side" --seed 7 --admin-password secret > "$folder/server" &
running+=($!)
server_pid=$!
await "$game"
await "$side"

# The admin is told of clients and companies as they come, and ends the game after some seven seconds.
cat > "$folder/admin.txt" << END
update 1 64
update 2 64
wait 230
rcon $(hex companies)
rcon $(hex quit)
END
"$admin" "127.0.0.1:$side" "$folder/admin.txt" --password secret > "$folder/admin" &
running+=($!)
admin_pid=$!

# Ann founds a company, borrows and names it; Bob only watches. Both print the world at frame 180.
cat > "$folder/ann.txt" << END
at 60 loan 50000
at 70 company $(hex "Ann & Co")
at 180 print
at 180 quit
END
cat > "$folder/bob.txt" << END
at 100 print
at 180 print
at 180 quit
END
"$play" "127.0.0.1:$game" "$folder/ann.txt" --name Ann --company 254 > "$folder/ann" &
running+=($!)
ann_pid=$!
"$play" "127.0.0.1:$game" "$folder/bob.txt" --name Bob > "$folder/bob" &
running+=($!)
bob_pid=$!

failed=0
ended() {
  wait "$1"
  local status=$?
  echo "$2 ended with status $status and wrote:"
  sed 's/^/    /' "$folder/$3"
  [ "$status" -eq 0 ] || failed=1
}
ended "$ann_pid" "Ann" ann
ended "$bob_pid" "Bob" bob
ended "$admin_pid" "The admin" admin
ended "$server_pid" "The server" server

# What stands from the last line of a client on: its world.
world() { awk '/^client 1 / { told = "" } { told = told $0 "\n" } END { printf "%s", told }' "$folder/$1"; }
if [ -n "$(world ann)" ] && [ "$(world ann)" = "$(world bob)" ]; then
  echo "Ann and Bob printed the same world at frame 180."
else
  echo "Ann and Bob differ."
  failed=1
fi
exit "$failed"
