# The records of the sessions that were started here, against the session machine.

# replays FILE: whether the machine does at what was heard what smd did, to the byte.
replays() { [ "$("$smtrace" replay < "$1")" = same ]; }

# tells FILE COUNT: whether so many clients joined in the session.
tells() { [ "$(grep -c '^join ' "$1")" -ge "$2" ]; }

# Each session but those that were killed, which may lack what comes of the last event.
sessions_replay() {
  local number
  for number in $(seq "$records"); do
    check "the record of session $number is its user's alone" test "$(stat -c %a "$room/records/$number")" = 600
    check "session $number replays" replays "$room/records/$number"
  done
  check "the first record is of a session with a client" tells "$room/records/1" 1
}

# record_is_lost: a session goes on whose record can't be written, and says so once.
record_is_lost() {
  at=$room/unrecorded
  mkdir "$at"
  mapfile -t paths < <(paths_of "$at")
  "$smd" serve "${paths[@]}" --record "$at/nowhere/record" < /dev/null > "$at/lines" 2> "$at/said" &
  smd_id=$!
  within 30 grep -q '^SESSION_MANAGER=' "$at/lines" || return 1
  [ "$(joined)" = 'id smd-00000001-00000001
saved' ] && logs_out && [ "$(cat "$at/said")" = \
    "smd: what follows isn't recorded in $at/nowhere/record: No such file or directory (os error 2)" ]
}

replays_of_records() {
  sessions_replay
  check "a session whose record can't be written goes on, and says so once" record_is_lost
}
