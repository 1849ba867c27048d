#!/bin/sh
# Times certificates by the archive beside plain C and the reference; the archive is proved and built first.
exec "$(dirname "$0")/placed.sh" certificates "$@"
