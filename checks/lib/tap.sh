# shellcheck shell=bash
# Prints results as TAP, for prove. A script that sources this is at the top of the repository then. A command that
# fails ends its check, and outside of one the script: lint.t rejects what bash would go on after.
#
#   try NAME COMMAND..             a check
#   needs="TOOL.." try ..          is left out without one of these tools:
#     NAME, NAME=VERSION+            a command, of this version or a later one
#     /PATH, python:MODULE           a file, which a pattern may name; a module of /usr/bin/python3
#     --all                          nothing is to be left out: ALL=1
#   ONLY='' try ..                 is run whatever ONLY is, since other checks need it
#   require TOOL..                 the next checks are left out without one of these
#   prints TEXT COMMAND..          in a check: the command ends with status 0, and prints the text
#   finish                         the last line of the script: prints the plan, without which prove fails
#
# The variable ONLY is a regular expression: checks with other names are not run. The file LEFT_OUT gets a line for each
# check that is left out, with what it needs.
set -euo pipefail
shopt -s inherit_errexit
unset CDPATH CLICOLOR_FORCE FORCE_COLOR
cd "$(dirname "${BASH_SOURCE[0]}")/../.."
export LC_ALL=C.UTF-8
number=0 without="" needs=""
work=$(mktemp -d)
trap 'rm -rf "$work"' EXIT
finish() { echo "1..$number"; }

is_there() {
  case $1 in
    --all) [ "${ALL-}" = 1 ] ;;
    */*) compgen -G "$1" ;;
    python:*) env -C / /usr/bin/python3 -c "import ${1#*:}" ;;
    *=*) printf '%s\n' "${1#*=}" "$("${1%%=*}" --version | sed -nE '1s/[^0-9]*([0-9.]+).*/\1/p')+" | sort -VC ;;
    *) command -v "$1" ;;
  esac > /dev/null 2>&1
}
require() { without=$*; }

try() {
  local tool lack=() ended=0 skip=""
  [[ $1 =~ ${ONLY-} ]] || return 0
  number=$((number + 1))
  # shellcheck disable=SC2310 # its status is what it returns
  for tool in $without $needs; do is_there "$tool" || lack+=("$tool"); done
  if [ "${lack[*]}" ]; then
    skip=" # SKIP no ${lack[*]}" ended=${ALL:-0}
    echo "${lack[*]}" >> "${LEFT_OUT:-/dev/null}"
  else
    set +e
    (set -e; "${@:2}") > "$work/log" 2>&1
    ended=$?
    set -e
    [ "$ended" = 0 ] || sed 's/^/# /' "$work/log" >&2
  fi
  if [ "$ended" = 0 ]; then echo "ok $number - $1$skip"; else echo "not ok $number - $1$skip"; fi
}

prints() {
  "${@:2}" 2>&1 | tee "$work/printed"
  grep -F -- "$1" "$work/printed"
}

# The first block of a page in a language.
block_of() { awk -v fence="\`\`\`$2" '$0 == fence { on = 1; next } on && /^```/ { exit } on' "$1"; }
