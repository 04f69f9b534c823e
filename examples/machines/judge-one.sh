#!/bin/sh
# Checks one history of a folder, and writes its verdict beside it: the output of the check, and on the last line its exit status.
#
#     judge-one.sh DIR INDEX [OPTION]..
#
# The index counts the histories, *.ndjson, from 0, in the order of their names' bytes. CASBENCH is the program, else casbench on the path.
# The exit status is 0 if the history was judged, whatever the answer is; else that of the check, so that the job may be tried again.

set -u
folder=$1
index=$2
shift 2
history=$(find "$folder/" -maxdepth 1 -name '*.ndjson' | LC_ALL=C sort | sed -n "$((index + 1))p")
if [ -z "$history" ]; then
    echo "judge-one.sh: $folder has no history $index" >&2
    exit 4
fi
printed=$("${CASBENCH:-casbench}" check --json "$@" "$history")
status=$?
printf '%s\n%s\n' "$printed" "$status" >"$history.verdict.new" && mv "$history.verdict.new" "$history.verdict" || exit 4
case $status in
0 | 1 | 2 | 6) exit 0 ;;
*) exit "$status" ;;
esac
