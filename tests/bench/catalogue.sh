#!/bin/sh
# Times reports on catalogues by the archive beside a call for each sheet and beside plain C; the archive is
# proved and built first.
exec "$(dirname "$0")/placed.sh" catalogue
