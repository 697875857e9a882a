#!/usr/bin/env bash
# A client of @NAME@.model: a number in a file. Call your own system in place of it.
file=${TMPDIR:-/tmp}/@NAME@-$PST_WORKER
exec {lock}> "$file.lock"
get() { read -r number < "$file"; }
put() { echo "$number" > "$file.$PST_BRANCH"; mv "$file.$PST_BRANCH" "$file"; }
while read -r line; do
  case $line in
    '["reset"]') number=0; put ;;
    '["get"]') get ;;
    '["add",'*)
      n=${line#*,}
      flock "$lock" # without this line a campaign finds a race
      get; number=$((number + ${n%]})); put
      flock -u "$lock" ;;
  esac
  echo "$number"
done
