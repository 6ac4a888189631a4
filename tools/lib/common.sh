# What the commands in bash share. Sourced; $0 is the command.

# Prints the head comment of the command and ends it, where its first word asks for that.
helped() {
  case ${1-} in --help | -h) ;; *) return 0 ;; esac
  awk 'NR > 1 && !/^#/ { exit } NR > 1 { sub(/^# ?/, ""); print }' "$0"
  exit 0
}

# Wrong use: one line, and status 2.
wrong() {
  echo "${0##*/}: $* (--help says what it takes)" >&2
  exit 2
}

# Ends the command with a status and a sentence.
stop() {
  local status=$1
  shift
  echo "${0##*/}: $*" >&2
  exit "$status"
}
