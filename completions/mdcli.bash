# Completion of mdcli for bash.
# SPDX-License-Identifier: MIT OR Apache-2.0

_mdcli_commands() {
  printf '%s\n' examine examine-bitmap examine-badblocks scan create grow assemble detail plan read serve write check resync stop fail remove add re-add rebuild help
}

# The options of a command, beside --help and --verbose. A value follows one that ends in =.
_mdcli_options() {
  case $1 in
    examine | examine-bitmap | examine-badblocks) printf '%s\n' --all --json --readonly ;;
    scan) printf '%s\n' --json --readonly ;;
    create) printf '%s\n' --level= --raid-devices= --uuid= --name= --bitmap-chunk= --size= --time= --write-mostly= --assume-clean --json --run ;;
    grow) printf '%s\n' --bitmap= --bitmap-chunk= --run ;;
    assemble | detail) printf '%s\n' --json --readonly --map= --bitmap= --data-of= ;;
    plan) printf '%s\n' --member= --json --readonly --map= --bitmap= --data-of= ;;
    read) printf '%s\n' --sector= --count= --fill --map-out= --output= --resume --readonly --map= --bitmap= --data-of= ;;
    serve) printf '%s\n' --fill --run --readonly --map= --bitmap= --data-of= ;;
    write) printf '%s\n' --sector= --count= --run ;;
    check) printf '%s\n' --list --exit-code --json --readonly --map= --bitmap= --data-of= ;;
    resync) printf '%s\n' --run --map= ;;
    stop) printf '%s\n' --json --run ;;
    fail | remove) printf '%s\n' --member= --run ;;
    add) printf '%s\n' --device= --json --run ;;
    re-add) printf '%s\n' --device= --full --json --run ;;
    rebuild) printf '%s\n' --member= --salvage --quiet --json --run --map= ;;
  esac
}

# The values of an option, where there are few.
_mdcli_values() {
  case $1 in
    --bitmap) printf '%s\n' internal ;;
    --level) printf '%s\n' raid1 mirror 1 ;;
  esac
}

# Offers those of the words on standard input that begin with the current one.
_mdcli_offer() {
  local word
  while IFS= read -r word; do
    if [[ $word == "$1"* ]]; then COMPREPLY+=("$word"); fi
  done
}

# Offers the files whose names begin with the word.
_mdcli_files() {
  compopt -o filenames 2>/dev/null
  _mdcli_offer '' < <(compgen -f -- "$1")
}

_mdcli() {
  local current=${COMP_WORDS[COMP_CWORD]} previous=${COMP_WORDS[COMP_CWORD - 1]} command=${COMP_WORDS[1]}
  local option ended= word given=' '
  COMPREPLY=()

  # Readline parts a word at its =.
  if [ "$current" = = ]; then
    current=
  elif [ "$previous" = = ]; then
    previous=${COMP_WORDS[COMP_CWORD - 2]}
  fi

  if [ "$COMP_CWORD" -le 1 ]; then
    _mdcli_offer "$current" < <(_mdcli_commands && printf '%s\n' --help --version)
    return
  fi
  if [ "$command" = help ]; then
    _mdcli_offer "$current" < <(_mdcli_commands)
    return
  fi

  for word in "${COMP_WORDS[@]:2:COMP_CWORD-2}"; do
    if [ "$word" = -- ]; then ended=yes; fi
    given+="$word "
  done
  if [ -z "$ended" ]; then
    while IFS= read -r option; do
      if [ "$option" = "$previous=" ]; then
        if [ "$previous" = --device ]; then
          _mdcli_files "$current"
        else
          _mdcli_offer "$current" < <(_mdcli_values "$previous")
        fi
        return
      fi
    done < <(_mdcli_options "$command")
    if [[ $current == -* ]]; then
      # No option may be given twice.
      while IFS= read -r option; do
        option=${option%=}
        if [[ $given != *" $option "* ]]; then _mdcli_offer "$current" <<<"$option"; fi
      done < <(_mdcli_options "$command" && printf '%s\n' --verbose --help)
      return
    fi
  fi

  if [ "$command" = create ]; then _mdcli_offer "$current" <<<missing; fi
  _mdcli_files "$current"
}

complete -F _mdcli mdcli
