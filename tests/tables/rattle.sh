#!/bin/sh
grep -qs killed {top}/prints && kill -9 $$
[ -f {top}/prints ] && exec cat {top}/prints
while [ "$1" != --stage-times ]; do shift; done
echo "stage tree 2.1 9" > "$2"
exec sleep 60
