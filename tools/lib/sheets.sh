# What the commands that run a sheet share. Sourced behind common.sh; `room` is a folder of the command's own.

# What the first line of an answer says, in words.
meaning() {
  local kind number more words
  read -r kind number more <<<"$1"
  words=$(sed -n "s/^$kind${number:+ $number}: //p" "$home/tools/lib/meanings.txt")
  case $1 in
  status*) echo "${words:-NO FORECAST: the status is none that is known}" ;;
  refused*) echo "refused: ${words:-the number is $number}${more:+ $more}" ;;
  *) echo "${words:-NO FORECAST: the program ended without an answer}" ;;
  esac
}

# Takes a sheet into the room under its number, a readable form turned into one; where it can't, why stands in
# NUMBER.said.
take() {
  head -c 1048577 -- "$1" >"$room/given" 2>"$room/$2.said" || return
  if [[ $1 != *.txt ]] && ! grep -aqE '^[[:space:]]*x0[[:space:]]' "$room/given"; then
    mv "$room/given" "$room/$2.sheet"
    return
  fi
  [ "$(wc -c <"$room/given")" -le 1048576 ] || { echo "it has more than a megabyte" >"$room/$2.said"; return 1; }
  "$home/tools/sheet.py" sheet "$room/given" >"$room/made" 2>"$room/$2.said" && mv "$room/made" "$room/$2.sheet"
}
