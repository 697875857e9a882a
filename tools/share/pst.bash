# Completion of pst for bash.
_pst() {
  local word="${COMP_WORDS[COMP_CWORD]}" command="${COMP_WORDS[1]-}" options=""
  COMPREPLY=()
  if [ "$COMP_CWORD" = 1 ]; then
    COMPREPLY=($(compgen -W "campaign run judge explain convert check generate fmt new jitter help --help --version" -- "$word"))
    return
  fi
  case $command in
    campaign) options="--client --shared --client-end --call-seconds --call-end --settle --run-numbers --seed --trials --commands --branches --suffix --repeats --workers --limit --order --burst --seconds --max-failures --stop-file --save --html --junit --format --width --output --quiet --help" ;;
    run) options="--client --shared --client-end --call-seconds --call-end --settle --run-numbers --branches --repeats --require-items --order --format --width --output --quiet --help" ;;
    judge) options="--keep-going --all-messages --failures --require-items --order --stream --format --output --quiet --help" ;;
    explain) options="--format --dot --all --width --color --item --failures --order --max --output --quiet --help" ;;
    generate) options="--first --trials --seed --commands --branches --suffix --format --output --quiet --help" ;;
    check) options="--format --output --quiet --unknown --help" ;;
    convert) options="--to --output --quiet --help" ;;
    list) options="--output --quiet --help" ;;
    fmt) options="--check --quiet --help" ;;
    new) options="--client --server" ;;
    jitter) options="--seed --pauses --scripts --env --hooks --help" ;;
  esac
  case ${COMP_WORDS[COMP_CWORD - 1]} in
    --color) COMPREPLY=($(compgen -W "auto always never" -- "$word")) && return ;;
    --client-end | --call-end) COMPREPLY=($(compgen -W "failed unknown" -- "$word")) && return ;;
    --order) COMPREPLY=($(compgen -W "time none" -- "$word")) && return ;;
    --format)
      local forms="text json"
      [ "$command" != explain ] || forms="text json html dot"
      COMPREPLY=($(compgen -W "$forms" -- "$word")) && return
      ;;
  esac
  case $word in
    -*) COMPREPLY=($(compgen -W "$options" -- "$word")) ;;
    *)
      COMPREPLY=($(compgen -f -- "$word"))
      case $command:$COMP_CWORD in
        campaign:2 | run:2) COMPREPLY+=($(compgen -W "counter racy stuck registry queue meet" -- "$word")) ;;
      esac
      ;;
  esac
}
complete -o filenames -F _pst pst
