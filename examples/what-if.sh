#!/usr/bin/env bash
# What a path would be, asked of a server of the Abilene backbone (abilene.toml); nothing is booked. Look at the second answer:
# no trunk bears 2,000,000,000 bytes per second, so it names the path that there would be without bandwidth, and for each of its
# links the priority at which it is too full. Run it at the repository's root: examples/what-if.sh
set -euo pipefail
program=${1:-./pced}
folder=$(mktemp -d)
server=
# (however it ends, the server does too)
trap '[ -z "$server" ] || kill "$server" 2> /dev/null || true; rm -rf "$folder"' EXIT
socket=$folder/control

"$program" serve --te examples/abilene.toml --listen 127.0.0.1:0 --endless --control "$socket" --log warn < /dev/null &
server=$!
until [ -S "$socket" ]; do
    kill -0 "$server" 2> /dev/null || exit 1
    sleep 0.1
done
"$program" tell "$socket" 'path 10.0.0.1 10.0.0.11 125000000 7 7'
"$program" tell "$socket" 'path 10.0.0.1 10.0.0.11 2000000000 7 7'
"$program" tell "$socket" end
