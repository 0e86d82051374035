#!/bin/sh
# pced: runs the program at @PROGRAM@ with the same words. The program hears no signals, so for `serve` this shell stays,
# and turns them into lines on the control socket: TERM and INT end the run in order, with a Close to each router and the
# audit; HUP reads the link text again. The status is the program's.
#
# Without --control the socket stands in a folder of its own, which is gone afterwards. PCED_PROGRAM names another program.
program=${PCED_PROGRAM:-@PROGRAM@}
[ "${1-}" = serve ] || exec "$program" "$@"

# the word after --control
control_in() {
    while [ $# -gt 0 ]; do
        case $1 in
        --control) printf '%s' "${2-}" && return ;;
        --control=*) printf '%s' "${1#--control=}" && return ;;
        esac
        shift
    done
}

# says `end`, again as long as the server has begun and doesn't listen yet
end_server() {
    heard=yes
    while [ -n "$server" ] && kill -0 "$server" 2> /dev/null; do
        "$program" tell "$control" end > /dev/null 2>&1 && return
        sleep 0.1
    done
}

reload() {
    heard=yes
    answer=$("$program" tell --quiet "$control" reload 2>&1)
    [ "$answer" = "done" ] || echo "pced: reload: $answer" >&2
}

server='' heard='' folder='' ends=''
trap 'ends=yes; end_server' TERM INT
trap '[ -z "$server" ] || reload' HUP

control=$(control_in "$@")
if [ -z "$control" ]; then
    folder=$(mktemp -d) || { echo "pced: no folder for a control socket; --control PATH names one" >&2; exit 3; }
    control=$folder/s
    set -- "$@" --control "$control"
fi

# (a job of a shell has /dev/null as its standard input, and what a terminal or systemd sends to all processes is for
# this shell only)
exec 3<&0
(
    trap '' TERM INT HUP
    exec "$program" "$@" <&3 3<&-
) &
server=$!
exec 3<&-
[ -z "$ends" ] || end_server

# a signal ends a wait early; a second wait for what has ended gives 127
status=3
heard=yes
while [ -n "$heard" ]; do
    heard=
    wait "$server"
    ended=$?
    [ $ended -eq 127 ] || status=$ended
done
[ -z "$folder" ] || rm -rf "$folder"
exit $status
