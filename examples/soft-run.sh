#!/usr/bin/env bash
# Runs a router, and ends it softly on SIGTERM or SIGINT: its clients are drained, and what is open is answered before, as far as
# SECONDS last. So it can be the first process of a container, which no signal ends by itself.
#
#     examples/soft-run.sh ROUTER CONFIG OPERATOR [SECONDS]
#
# ROUTER is a built mux_router, CONFIG its configuration; OPERATOR is the address of its port `operator`, as HOST:PORT. The
# router ends SECONDS after the signal in any case, 20 if they aren't given: let whatever sends the signal wait longer. It passes
# over the key orders_file, which ./router and check/send_orders.py read.
# Exit status: the router's; 143 if it took no order, and was killed.
set -u
if [ $# -lt 3 ]; then
  sed -n '2,10s/^# \?//p' "$0" >&2
  exit 64
fi
router=$1 config=$2 operator=$3 seconds=${4:-20}
stop=$(dirname "$0")/drain_and_quit.sh router_id='' helper_id=''

# A router that has just begun may not listen yet: so it is asked again.
end_router() {
  for _ in 1 2 3 4; do
    ! "$stop" "$operator" "$seconds" || return
    sleep 1
  done
  kill "$router_id"
}

end() {
  trap '' TERM INT
  end_router >/dev/null 2>&1 &
  helper_id=$!
}

trap end TERM INT
trap '' HUP
"$router" <"$config" & router_id=$!
# A signal ends the first wait.
wait "$router_id"
status=$?
if [ "$helper_id" ]; then
  wait "$router_id"
  status=$?
  kill "$helper_id" 2>/dev/null
fi
exit "$status"
