#!/bin/sh
# Times lookups in the table of lip coefficients beside working k, and the table's text beside plain C; the
# archives are proved and built first.
exec "$(dirname "$0")/placed.sh" lip_table
