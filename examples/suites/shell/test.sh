#!/bin/bash
# Tests the shop. Ends with the status 1 where a value is not the approved one.
set -o pipefail
. ./snap.sh
failed=0
for word in order greeting receipt opening prices stock basket picture sales parcel; do
  ./shop "$word" | snapshot "$word" || failed=1
done
./shop delivery | snapshot delivery || failed=1
./shop delivery sent | snapshot delivery-2 || failed=1
exit "$failed"
