# What the commands in bash make of an answer about totals. Sourced behind common.sh.

# What an answer says, the file $1; nothing of one that is not whole, since a program whose output is cut short ends
# with 0 all the same. $2: what may stand behind `refused`.
kind() {
  local text end=$'\n' number='(0|[1-9][0-9]*)' runs=''
  text=$(tr -d '\0' <"$1" && echo .)
  for name in 'status '{0,1,2,3,5,7} accepted rejected total ode jac lu; do runs+="$name $number$end"; done
  if [[ $text =~ ^lines\ $number${end}${runs}largest\ $number\ line\ $number${end}\.$ ]]; then
    echo totals
  elif [[ $text =~ ^refused\ ($2)${end}\.$ || $text = "unreadable$end." ]]; then
    echo "${text%%"$end"*}"
  fi
}
