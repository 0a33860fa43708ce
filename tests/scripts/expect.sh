# shellcheck shell=bash
# Sourced by the tests of scripts, with $root set: a folder $room that is removed at the end, and how to try a command.
room=$(mktemp -d)
chmod 755 "$room"
trap 'chmod -R u+w "$room"; rm -rf "$room"' EXIT
tried=0 failed=0

# expect NAME STATUS OUTPUT MESSAGE COMMAND..: runs COMMAND in a folder of its own, with no standard input where it gets none. What it writes must be
# OUTPUT, line by line; what it says on standard error must match MESSAGE, a pattern of the shell's (empty: it says nothing).
expect() {
  local name=$1 status=$2 output=$3 message=$4 got=0 wrong=
  shift 4
  tried=$((tried + 1))
  mkdir -p "$room/elsewhere"
  (cd "$room/elsewhere" && "$@") </dev/null >"$room/out" 2>"$room/err" || got=$?
  [ "$got" = "$status" ] || wrong="status $got, not $status"
  printf '%s' "${output:+$output$'\n'}" | cmp -s - "$room/out" || wrong="$wrong; written: $(cat "$room/out")"
  # shellcheck disable=SC2053
  [[ $(cat "$room/err") == $message ]] || wrong="$wrong; said: $(cat "$room/err")"
  [ -z "$wrong" ] || { failed=$((failed + 1)); echo "$name: $wrong"; }
}

# The commands that scripts use, without rt: a PATH for a machine that has no kit.
tools_without_rt() {
  mkdir -p "$room/bin"
  local tool
  for tool in sh bash env awk cat chmod cp date dirname find head id ln mkdir printf readlink rm sed sleep tail tee touch tr uname; do
    ln -sf "$(type -P "$tool")" "$room/bin/$tool"
  done
}

# unprivileged COMMAND..: as a user who cannot write everywhere, as root can. Answers 99 where there is no way to be one.
unprivileged() {
  if [ "$(id -u)" != 0 ]; then "$@"
  elif setpriv --reuid=65534 --regid=65534 --clear-groups true 2>/dev/null; then setpriv --reuid=65534 --regid=65534 --clear-groups "$@"
  else return 99
  fi
}

report() {
  echo "$1: $tried tried, $failed otherwise than they must be"
  [ "$failed" = 0 ]
}
