#!/usr/bin/env bash
# Ends a router softly, by the order `stop` on its port `operator`.
#
#     examples/drain_and_quit.sh OPERATOR [SECONDS [PID]]
#
# OPERATOR is the address of that port, as HOST:PORT. After SECONDS, 30 if they aren't given, the router ends in any case.
# With PID, the router's process, it waits for the end of that. Exit status: 0 if the router said that it stops, else 1.
host=${1%:*} host=${host//[\[\]]/}
exec 3<>"/dev/tcp/$host/${1##*:}" && echo "stop ${2:-30}" >&3 && grep ^stopping <&3 || exit 1
while [ "${3-}" ] && kill -0 "$3" 2>/dev/null; do sleep 0.1; done
