#!/usr/bin/env bash
# Runs small campaigns by tools/campaign, with the program and with programs that fail, and compares the tables with the program's output
# and files; also over sshd on the loopback address, if it is installed.
set -u
. "$(dirname "$0")/lib/program.bash"
wants python3 python3
wants parallel parallel
exec python3 -B "$top/checks/campaign.py" "$program" "$top"
