#!/usr/bin/env bash
redis() { redis-cli -n "$PST_WORKER" "$@"; }
while read -r line; do
  case $line in
    '["reset"]') redis flushdb ;;
    '["inc"]') redis incr n ;;
    '["get"]') n=$(redis get n); echo "${n:-0}" ;;
  esac
done
