# Read by the launcher and by the tools: where the program is, and how it is had from dist/ without building it.
# It needs tools/crates.bash.
#
# dist/mdcli.gz is the program, packed. dist/built_from says in three lines from which sources it was built (a sum over
# them), which bytes it has when it is unpacked (their sum), and by which kit it was proved.

# find_program TOP: sets `program' to the program that is there: the one that was built here, or the one that was unpacked
# from dist/, whichever is newer; to nothing where there is neither.
find_program() {
  local built=$1/crates/mdcli/out/mdcli unpacked=$1/out/mdcli
  program=
  if [ -f "$built" ] && [ -x "$built" ]; then program=$built; fi
  if [ -f "$unpacked" ] && [ -x "$unpacked" ] && [ "$unpacked" -nt "$program" ]; then program=$unpacked; fi
}

# sum_of_sources TOP: prints a sum over all that the program is built from: the sources, definitions and proofs of its crates
# under their names, the lines of crates.txt about them, the handles that its main takes, and the kit.
sum_of_sources() (
  set -o pipefail
  CDPATH= cd -- "$1" || exit 1
  crates_below . mdcli
  crates=("${crates_below[@]}" mdcli)
  folders=()
  for name in "${crates[@]}"; do
    for part in src specs proofs; do
      if [ -d "crates/$name/$part" ]; then folders+=("crates/$name/$part"); fi
    done
  done
  {
    find "${folders[@]}" -type f \( -name '*.rt' -o -name '*.antt' \) -print0 | LC_ALL=C sort -z | xargs -0 sha256sum &&
      sha256sum HANDLES && sed -n '/^    rattle-kit/p' README.md &&
      IFS='|' && grep -E "^(${crates[*]})( [^:]*)?:" crates.txt
  } | sha256sum | cut -d ' ' -f 1
)

# said_in_dist TOP WHAT: prints what dist/ says of the `sources', the `program' or the `kit'.
said_in_dist() {
  sed -n "s/^$2 //p" "$1/dist/built_from"
}

has_dist() { [ -f "$1/dist/mdcli.gz" ] && [ -f "$1/dist/built_from" ]; }

# is_of_these_sources TOP, is_whole TOP: whether what dist/ says is so, of the sources as they stand and of its program.
is_of_these_sources() {
  local said sum
  has_dist "$1" || return 1
  said=$(said_in_dist "$1" sources) && sum=$(sum_of_sources "$1") && [ -n "$said" ] && [ "$said" = "$sum" ]
}

is_whole() (
  set -o pipefail
  gzip -dc -- "$1/dist/mdcli.gz" 2>/dev/null | is_said_program "$1"
)

# is_said_program TOP: whether standard input has the bytes that dist/ says its program has.
is_said_program() {
  local said sum
  said=$(said_in_dist "$1" program) && sum=$(sha256sum) && [ -n "$said" ] && [ "$said" = "${sum%% *}" ]
}

# sources_of TOP PROGRAM OLDER: prints the sum over the sources that the program was built from. Where it is the program of dist/
# that is what dist/ says, and else the sum over the sources as they stand; of one that is OLDER than these nothing.
sources_of() {
  if has_dist "$1" && is_said_program "$1" <"$2"; then
    said_in_dist "$1" sources
  elif [ -z "$3" ]; then
    sum_of_sources "$1"
  fi
}

# tell_version PROGRAM SUM: says where the program itself says it, on standard error, its version, and the sum over its sources,
# if that is known. The program can't have it within, as it is over all that the program is built from.
tell_version() {
  local said status
  said=$("$1" --version 2>&1 </dev/null)
  status=$?
  printf '%s\n' "$said${2:+ (sources $2)}" >&2
  return "$status"
}

# unpack_whole TOP TIME: unpacks the program of dist/ to out/mdcli. It gets its name once its bytes are those that dist/ says,
# and it may be run there; else, and where this is stopped by a signal, nothing of it is left.
unpack_whole() (
  part=
  trap 'if [ -n "$part" ]; then rm -f -- "$part"; fi' EXIT
  mkdir -p -- "$1/out" && part=$(mktemp -- "$1/out/mdcli.XXXXXX") && gzip -dc -- "$1/dist/mdcli.gz" >"$part" &&
    is_said_program "$1" <"$part" && chmod 755 -- "$part" && [ -x "$part" ] && touch -d "@$2" -- "$part" &&
    mv -fT -- "$part" "$1/out/mdcli"
) 2>/dev/null

# unpack_program TOP: unpacks the program of dist/ to out/mdcli and sets `program' to it, where dist/ is of the sources as
# they stand and its program is whole. It says on standard error why it does not, and at a terminal that it did.
# Status 1: it could, but there is no place for it. Status 2: dist/ has no program of these sources.
unpack_program() {
  local top=$1 began=${EPOCHREALTIME/,/.}
  has_dist "$top" || return 2
  if ! is_of_these_sources "$top"; then
    printf 'mdcli: the program in dist/ is of other sources than these, so it is not used\n' >&2
    return 2
  fi
  if ! is_whole "$top"; then
    printf 'mdcli: the program in dist/ is cut short or changed, so it is not used\n' >&2
    return 2
  fi
  if ! unpack_whole "$top" "$began"; then
    printf 'mdcli: the program in dist/ can'\''t be unpacked into %s: make room there, and let it be written and run there;\n' "$top/out" >&2
    # Not beside the launcher, which has the same name, nor where others may write.
    printf 'mdcli: or unpack it elsewhere, as by gzip -dc %q >~/mdcli && chmod +x ~/mdcli\n' "$top/dist/mdcli.gz" >&2
    return 1
  fi
  program=$top/out/mdcli
  if [ -t 2 ]; then
    . "$top/tools/build_cost.bash"
    printf 'mdcli: unpacked from dist/, built from these very sources; tools/build_mdcli proves and builds it here, about %s\n' "$build_cost" >&2
  fi
}
