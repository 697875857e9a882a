#!/usr/bin/env bash
# A client of examples/counter.model: a counter in a file, whose `inc` holds a lock, or none (--racy).
file=${TMPDIR:-/tmp}/pst-counter-$PST_WORKER
exec {lock}> "$file.lock"
get() { read -r number < "$file"; }
put() { echo "$number" > "$file.$PST_BRANCH"; mv "$file.$PST_BRANCH" "$file"; }
inc() { get; number=$((number + 1)); put; }
while read -r line; do
  case $line in
    '["reset"]') number=0; put ;;
    '["get"]') get ;;
    '["inc"]') [ "${1-}" = --racy ] || flock "$lock"; inc; flock -u "$lock" ;;
  esac
  echo "$number"
done
