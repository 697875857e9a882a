#!/usr/bin/env bash
# Campaigns on clients beside the same campaign on the built-in `counter`, and how often two clients overlap: bench/clients.sh [ROUNDS]
# Prints for each the median time of the rounds, the trials a second, and their share of those that `counter` makes in the same rounds; and of 200 drives of two calls at
# once how many lose an update, with Redis if a server is on its usual port. It needs a C compiler and python3.
set -euo pipefail
top="$(cd "$(dirname "$(readlink -f "$0")")/.." && pwd)"
rounds="${1:-5}"
room="$(mktemp -d)"
trap 'rm -rf "$room"' EXIT

# A model that explains all numbers, so that clients which answer 0 pass as the built-in `counter` does.
cat > "$room/any.model" <<'MODEL'
(model any (state int) (init 0) (command (list call (call inc) (call get)))
  (op inc () int (pre true) (next s) (post (<= 0 r)))
  (op get () int (pre true) (next s) (post (<= 0 r))))
MODEL
cat > "$room/client.c" <<'C'
#include <stdio.h>
int main(void) {
  char line[1 << 16];
  while (fgets(line, sizeof line, stdin)) {
    puts("0");
    fflush(stdout);
  }
}
C
cc -O2 -o "$room/client" "$room/client.c"
cat > "$room/client.py" <<'PY'
import json, sys
for line in sys.stdin:
    name, *args = json.loads(line)
    print(json.dumps(0), flush=True)
PY

trials=400
campaign() {
  local begun ended
  begun="$(date +%s%N)"
  "$top/pst" campaign "$@" "$room/any.model" --trials "$trials" --seed 1 --quiet > "$room/report"
  ended="$(date +%s%N)"
  grep -q "^passed $trials\$" "$room/report" || { cat "$room/report"; exit 1; }
  echo $(((ended - begun) / 1000))
}

for workers in 1 4; do
  : > "$room/times"
  for ((round = 0; round < rounds; round++)); do
    echo "built-in $(campaign counter --workers "$workers")" >> "$room/times"
    echo "C $(campaign --client "$room/client" --workers "$workers")" >> "$room/times"
    echo "Python $(campaign --client "python3 $room/client.py" --workers "$workers")" >> "$room/times"
  done
  python3 - "$workers" "$trials" "$room/times" << 'PY'
import statistics, sys
workers, trials, path = sys.argv[1:]
times = {}
for line in open(path):
    name, microseconds = line.split()
    times.setdefault(name, []).append(int(microseconds))
own = statistics.median(times["built-in"])
for name, all in times.items():
    median = statistics.median(all)
    print(f"{workers} workers, {name}: {median / 1000:.0f} ms, {int(trials) * 1e6 / median:.0f} trials a second, {own / median:.2f} of the built-in counter")
PY
done

# How many of 200 drives of two calls at once show a lost update: a client, its model, and the call.
overlap() {
  { cat "$top/examples/$2"; for _ in {1..200}; do echo "(case (prefix) (left $3) (right $3))"; done; } > "$room/overlap"
  TMPDIR="$room" "$top/pst" run --client "$1" "$room/overlap" --quiet > "$room/report" || :
  echo "$(grep -c ' unexplained ' "$room/report") of 200 drives lose an update: ${1##*/}"
}
clients="$top/examples/clients"
overlap "$clients/counter.sh --racy" counter.model '(inc)'
overlap "$clients/sqlite_counter.py --racy" counter.model '(inc)'
if (exec 3<> /dev/tcp/127.0.0.1/6379) 2> /dev/null; then
  overlap "$clients/redis_racy.py" redis.model '(incr "a")'
fi
