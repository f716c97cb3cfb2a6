# What `smctl clients` shows of three clients, of which one is stopped in a save, and what `smctl shutdown --wait` shows
# of those who are waited for.

# has_stages COUNT STAGE: whether so many clients are so far.
has_stages() { [ "$(order clients --plain | grep -c " stage=$2 ")" = "$1" ]; }

# held_up_by NAME: whether just this program is marked, in the plain lines and in the table; with no name, none.
held_up_by() {
  [ "$(order clients --plain | sed -n 's/.* holds=yes .* program=//p')" = "$1" ] &&
    [ "$(order clients | sed -n 's/^\*  *[0-9]*  *\([a-z]*\)  .*/\1/p')" = "$1" ]
}

# owes TEXT: whether the table says that this is waited for.
owes() { order clients | grep -q "^\*.*  $1  "; }

# member NAME: starts a client that stays for many saves.
member() {
  "$smclient" --socket "$at/socket" --authority "$at/authority" --program "$1" --saves 99 \
    < /dev/null > "$at/$1" 2>&1 &
}

# joined_by NAME..: starts clients one after the other, so that they stand in this order.
joined_by() {
  local count=0 name
  member_ids=()
  for name; do
    member "$name"
    member_ids+=($!)
    count=$((count + 1))
    within 20 has_stages "$count" idle || return 1
  done
}

three_clients() {
  joined_by one two three && held_up_by ""
  stopped_id=${member_ids[1]}
}

stopped_in_a_save() {
  kill -STOP "$stopped_id"
  answers ok checkpoint && within 10 held_up_by two && owes "its save" && has_stages 2 done || return 1
  kill -CONT "$stopped_id"
  within 10 has_stages 3 idle && held_up_by ""
}

# waits_for_end: starts `smctl shutdown --wait`.
waits_for_end() {
  timeout 120 "$smctl" --control "$at/control" shutdown --wait < /dev/null > "$at/waited" &
  waiting_id=$!
}

# says_last TEXT: whether this is the last line that it showed.
says_last() { [ "$(tail -n 1 "$at/waited" 2> /dev/null)" = "$1" ]; }

waits_now() { says_last "waiting for $1"; }

# told_and_ends STATUS TEXT: whether it ends so, and says this last.
told_and_ends() { ends "$waiting_id" "$1" && says_last "$2"; }

told_of_a_cancel() {
  kill -STOP "${member_ids[@]:0:2}"
  waits_for_end
  within 20 waits_now 'one (its save), two (its save)' && answers ok cancel &&
    told_and_ends 1 'smctl: the logout was cancelled'
}

# Two clients still owe their answers to the logout before, so this one hasn't begun.
waits_for_its_begin() {
  waits_for_end
  within 20 waits_now 'one (its save), two (its save)' && order status | grep -q ' idle$' || return 1
  sleep 2
  kill -CONT "${member_ids[0]}"
  within 20 waits_now 'two (its save)' || return 1
  kill -CONT "${member_ids[1]}"
  ends "$waiting_id" 0 && ends "$smd_id" 0 && [ "$(head -n 1 "$at/waited")" = ok ]
}

told_that_all_left() {
  start_smd "$room/all_left" && joined_by one || return 1
  kill -STOP "${member_ids[0]}"
  waits_for_end
  within 20 waits_now 'one (its save)' && answers ok drop 1 && told_and_ends 1 'smctl: the logout was cancelled'
}

# On a terminal there are two lines: the answer, and what is replaced again and again.
stands_on_one_line() {
  local words
  start_smd "$room/one_line" && joined_by one two || return 1
  kill -STOP "${member_ids[@]}"
  words=$(printf '%q ' "$smctl" --control "$at/control" shutdown --wait)
  timeout 120 script -qefc "$words" /dev/null < /dev/null > "$at/waited" &
  waiting_id=$!
  within 20 grep -qsF 'waiting for one (its save), two (its save)' "$at/waited" || return 1
  kill -CONT "${member_ids[0]}"
  within 20 grep -qF $'\r\033[Kwaiting for two (its save)' "$at/waited" || return 1
  kill -CONT "${member_ids[1]}"
  ends "$waiting_id" 0 && [ "$(wc -l < "$at/waited")" = 2 ]
}

# A manager whose answers can't be read isn't one that has gone.
answered_strangely() {
  at=$room/strange_$1
  mkdir "$at"
  python3 "$here/strange_operators.py" "$at/control" "$1" &
  within 20 test -S "$at/control" || return 1
  waits_for_end
  told_and_ends "$2" "$3"
}

who_is_there() {
  check "smd starts for three clients" start_smd "$room/clients"
  check "nobody holds up three clients that have saved" three_clients
  check "just the client is marked that is stopped in a save" stopped_in_a_save
  check "a logout that is cancelled is told" told_of_a_cancel
  check "a logout is waited for behind one that was cancelled" waits_for_its_begin
  check "a logout that all have left is told" told_that_all_left
  check "who is waited for stands on one line of a terminal" stands_on_one_line
  for how in words client course unasked; do
    check "an answer of other $how isn't taken for the end" \
      answered_strangely "$how" 11 "smctl: the answer can't be read"
  done
  check "an answer that is cut is the end" answered_strangely cut 0 ok
  check "a stream of an operator that is reset is the end" answered_strangely reset 0 ok
  check "a manager that leaves its socket behind hasn't ended well" answered_strangely left 5 "smctl: no answer"
}
