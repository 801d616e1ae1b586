# shellcheck shell=bash
# What the checks of .ci/checks share, for bash: the program, a folder of their own, packages of Debian, what is built.
set -u
cd "$(dirname "${BASH_SOURCE[0]}")/.." || exit 1
repository=$PWD
# The program that the gate has just proved and built, or that of `make all`, or another that FST names: no check proves.
for fst in ${FST:+"$FST"} crates/fst/out/fst out/fst; do
  [ ! -x "$fst" ] || break
done
if [ ! -x "$fst" ]; then
  echo 'there is no program: make all proves and builds it, and FST=path uses one that is there'
  exit 1
fi
fst=$(realpath "$fst")
folder=$(mktemp -d)
trap 'rm -rf "$folder"' EXIT
mkdir "$folder/bin"
ln -s "$fst" "$folder/bin/fst"
export PATH=$folder/bin:$repository/scripts:$PATH REPOSITORY=$repository PYTHONDONTWRITEBYTECODE=1

# Says what is wrong, and goes on. A file remembers it, since a part of a pipe is a process of its own.
wrong() {
  echo "$*"
  touch "$folder/failed"
}

# NAME: what the check ends with.
ends() {
  [ ! -e "$folder/failed" ] || exit 1
  echo "$1: passed"
  exit 0
}

# PACKAGE..: whether the packages of Debian are there, after an attempt to install those that are not.
has_packages() {
  local package missing=()
  for package in "$@"; do
    dpkg-query -W -f '${db:Status-Abbrev}' "$package" 2> "$folder/log" | grep -q '^ii' || missing+=("$package")
  done
  [ "${#missing[@]}" -eq 0 ] && return
  export DEBIAN_FRONTEND=noninteractive
  timeout 300 apt-get install -y -qq --no-install-recommends "${missing[@]}" > "$folder/log" 2>&1 && return
  timeout 120 apt-get update -qq > "$folder/log" 2>&1
  timeout 300 apt-get install -y -qq --no-install-recommends "${missing[@]}" > "$folder/log" 2>&1
}

# COMMAND: whether the program has the command: a line of its form is no bad command line then.
is_built() {
  local words=(absent)
  case $1 in
    union | concat | compose | intersect | difference | equivalent | batch) words=(absent absent) ;;
    replace) words=(absent 1) ;;
    encode) words=(--encode_labels absent codex) ;;
    push) words=(--push_weights absent) ;;
    make) words=(--lines=0 -) ;;
  esac
  [ "$(cd "$folder" && "$fst" "$1" "${words[@]}" 2>&1 > /dev/null < /dev/null)" != 'fst: bad command line' ]
}

# The commands that the manual page has.
manual_commands() {
  sed -n '/^\.SH DESCRIPTION/q; s/^\.B fst \([a-z]*\).*/\1/p' "$repository/man/fst.1" | sort -u
}
