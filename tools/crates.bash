# Read by the launcher and by tools/build_mdcli: which crates a crate is built from, and whether their sources changed.

# crates_below TOP NAME: sets `crates_below' to the crates that NAME stands on, by crates.txt, each after those that it
# stands on itself. That is the order in which rt builds them.
crates_below() {
  local name rest
  local -A uses=()
  while IFS=': ' read -r name rest; do
    case $name in '' | '#'*) ;; *) uses[$name]=$rest ;; esac
  done <"$1/crates.txt"
  crates_below=()
  add_crates_below "$2"
}

add_crates_below() {
  local low
  for low in ${uses[$1]-}; do
    # What crates.txt doesn't list is the kit's.
    if [ -n "${uses[$low]+listed}" ] && [[ " ${crates_below[*]-} " != *" $low "* ]]; then
      add_crates_below "$low"
      crates_below+=("$low")
    fi
  done
}

# source_newer_than FILE TOP NAME: prints one source of the crate NAME, or of one below it, that was written after FILE.
# It looks at times alone, which takes some 15 ms: no sum over the sources is made at each use.
source_newer_than() {
  local name part sources=("$2/crates.txt")
  crates_below "$2" "$3"
  for name in "${crates_below[@]}" "$3"; do
    for part in src specs proofs; do
      if [ -d "$2/crates/$name/$part" ]; then sources+=("$2/crates/$name/$part"); fi
    done
  done
  find "${sources[@]}" -type f -newer "$1" \( -name '*.rt' -o -name '*.antt' -o -name crates.txt \) -print -quit 2>/dev/null
}
