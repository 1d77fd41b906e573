#!/usr/bin/env bash
# Feeds receivers with the lanes of worked rows in 200 orders and cuts, by the program of the crate rx_orders: each order gives the events
# of the row.
set -u
. "$(dirname "$0")/lib/program.bash"
wants python3 python3
exec python3 -B "$top/checks/orders.py" "$program" "$top"
