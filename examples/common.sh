# What the examples share: where the programs are, free ports, and an end that leaves nothing running.
# shellcheck shell=bash
top=$(cd "$(dirname "${BASH_SOURCE[0]}")/.." && pwd)
folder=$(mktemp -d)
running=()

finish() {
  local pid
  for pid in "${running[@]}"; do kill "$pid" 2> /dev/null; done
  wait 2> /dev/null
  rm -rf "$folder"
}
trap finish EXIT

die() { echo "$0: $*" >&2; exit 1; }

# A program by its name: beside the examples, as `./tt dist` leaves it, or where it was built.
program() {
  local place
  for place in "$top/$1" "$top/crates/$1/out/$1" "$top/crates/${1}_cli/out/${1}_cli"; do
    if [ -f "$place" ] && [ -x "$place" ]; then echo "$place"; return; fi
  done
  die "$1 is not there; ./tt ${1#tt_} --help builds it"
}

# Whether something listens at a port of this machine.
listens() { (exec 3<> "/dev/tcp/127.0.0.1/$1") 2> /dev/null; }

# A port of this machine at which nothing listens.
free_port() {
  local port
  for _ in {1..100}; do
    port=$((20000 + RANDOM % 12000))
    if ! listens "$port"; then echo "$port"; return; fi
  done
  die "no free port was found"
}

# Waits until something listens at a port, at most ten seconds.
await() {
  for _ in {1..100}; do
    if listens "$1"; then return; fi
    sleep 0.1
  done
  die "nothing listens at port $1"
}

# A text in hexadecimal digits, as the files of commands have it.
hex() { printf '%s' "$1" | od -An -v -tx1 | tr -d ' \n'; }
