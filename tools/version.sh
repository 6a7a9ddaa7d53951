#!/bin/sh
# Prints the version of the project: the first heading of CHANGELOG.md that is a version. tools/packages.sh compares other places with it.
sed -n 's/^## \([0-9][0-9.]*\)$/\1/p' "$(dirname "$0")/../CHANGELOG.md" | head -n 1
