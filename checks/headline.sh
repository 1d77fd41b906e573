#!/usr/bin/env bash
# Prints the delivery theorem with all definitions that it reaches by tools/headline, as text and as an HTML page. Each name must lead to a
# definition, each link to a place on the page. A reader must not have more lines than checks/headline.py says, and of these no more than
# 40 in 100 of the receiver. A checkout in which a name leads nowhere must be refused, as must clauses and definitions that do not exist.
set -u
. "$(dirname "$0")/lib/tally.bash"
top=$(cd "$(dirname "$(readlink -f "${BASH_SOURCE[0]}")")/.." && pwd)
wants python3 python3
exec python3 -B "$top/checks/headline.py" "$top"
