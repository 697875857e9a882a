# Functions for tests of clients, for a script that has set `pst` to the launcher, `top` to the repository and `room` to an empty folder.

passed=0
failed=0

# Counts a check: its name, and the command that has to succeed.
check() {
  if "${@:2}"; then
    passed=$((passed + 1))
  else
    echo "client: $1 (status $status)"
    sed 's/^/  /' "$room/report" "$room/errors" | head -n 40
    failed=$((failed + 1))
  fi
}

# Runs the program with standard output and standard error in files, and keeps the status.
pst() {
  status=0
  timeout 120 "$pst" "$@" > "$room/report" 2> "$room/errors" || status=$?
}

has() { grep -q -e "$1" "$room/report"; }
says() { grep -q -F -e "$1" "$room/errors"; }

# The number of calls of the run that the first failure was shrunk to.
calls() { grep '^to ' "$room/report" | sed 's/(replies.*//' | grep -o '([a-z]*\( [^()]*\)\?)' | grep -v -c '^(\(prefix\|left\|right\|suffix\))$'; }

passes() { [ "$status" = 0 ] && has "^passed $1\$"; }
is_found() { [ "$status" = 1 ] && has '^unexplained [1-9]' && [ "$(calls)" -le 3 ]; }

# Tests a client that has no race: its model, its command, the number of trials, and further options.
right() {
  local model="$top/examples/$1" command="$2" trials="$3"
  shift 3
  pst campaign --client "$command" "$model" --seed 1 --trials "$trials" --limit 200 "$@"
  check "$command passes" passes "$trials"
}

# Tests a client that has a race: its model, its command, and further options. One of sixteen campaigns has to find and shrink it, since a race is a matter of
# time. The last eight of them repeat each case 20 times.
racy() {
  local model="$top/examples/$1" command="$2" seed repeats=()
  shift 2
  for seed in {1..16}; do
    [ "$seed" -le 8 ] || [[ " $* " == *" --repeats "* ]] || repeats=(--repeats 20)
    pst campaign --client "$command" "$model" --seed "$seed" --trials 20 --limit 200 "$@" "${repeats[@]}"
    ! is_found || break
  done
  check "$command is found" is_found
}

# Tests that what an installed `pst jitter` starts loads the hooks of its tree: the library for native programs, and those of each language that is there.
disturbs() {
  if command -v cc > /dev/null; then
    pst jitter -- grep pst_jitter /proc/self/maps
    check "native programs pause" has '/lib/pst/hooks/pst_jitter[.]so$'
  fi
  hooks_into python3 -c 'import sys; print(sys.gettrace())' enter_call
  hooks_into node -p 'fs.promises.readFile.toString()' 'finally(disturb)'
  hooks_into ruby -e 'p PstJitter' '^PstJitter$'
}

# A program, the words with which it prints what is hooked, and what it prints then.
hooks_into() {
  command -v "$1" > /dev/null || return 0
  pst jitter --scripts -- "$1" "$2" "$3"
  check "programs of $1 pause" has "$4"
}

# Tests both forms of a client: its model, its command, the number of trials of the right form, and further options.
both() {
  local model="$1" command="$2" trials="$3"
  shift 3
  right "$model" "$command" "$trials" "$@"
  racy "$model" "$command --racy" "$@"
}

