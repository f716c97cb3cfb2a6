# Clients with a session: one on libSM, with the next login over the same store, and smclient.

# Each direction of a trace by itself, since both sides speak at once; what differs from run to run is left out.
plain_trace() {
  for way in in out; do
    grep "^$way " "$at/shown" | sed -E 's/(Reply proof)=.+/\1=../; s/(=\[[0-9a-f]+:[0-9a-f]+):.+/\1:..]/'
  done
}

libsm_session() {
  local client=$room/libsm_client log=$room/libsm/log own=smd-00000001-00000001
  check "the libSM client is built without a warning" \
    gcc -Wall -Wextra -Werror -O1 -o "$client" "$here/libsm_client.c" -lSM -lICE
  check "smd starts on a fresh store" start_smd "$room/libsm"
  check "the recorder starts" start_recorder
  recorded "$client" --log "$log" --interact --phase-two &
  local client_id=$!
  check "the libSM client saves" within 20 has_lines 1 complete "$log"
  check "the first session logs out" logs_out
  check "the libSM client ends well" ends "$client_id" 0
  check "the trace can be shown" stop_recorder
  check "the trace is what is written down" diff -u "$here/libsm_client.shown" <(plain_trace)
  check "smd starts again over its store" start_smd "$room/libsm"
  check "the libSM client comes back by itself" within 20 has_lines 2 "registered $own " "$log"
  check "its old ID is live" answers live forget "$own"
  check "it is all that is there" answers 'connections 1, records 1, pending 0, epoch 2, idle' status
  check "a checkpoint begins" answers ok checkpoint
  check "the libSM client saves again" within 20 has_lines 2 complete "$log"
  check "the second session logs out" logs_out
  check "its callbacks are what is written down" diff -u "$here/libsm_client.expected" "$log"
}

# joined WORD..: what smclient prints that ends well with these words.
joined() {
  timeout 20 "$smclient" --socket "$at/socket" --authority "$at/authority" "$@" > "$at/joined" && cat "$at/joined"
}

# The client of this repository.
own_client() {
  check "smd starts for smclient" start_smd "$room/own"
  check "smclient saves" diff <(printf 'id smd-00000001-00000001\nsaved\n') <(joined)
  check "smclient saves in the second phase" diff <(printf 'id smd-00000001-00000002\nsaved\n') <(joined --phase-two)
  check "the session of smclient logs out" logs_out
}

# A manager that closes with bytes unread resets the stream, which is an end as any other.
rude_manager() {
  local status
  at=$room/rude
  mkdir "$at"
  python3 "$here/rude_manager.py" "$at/socket" "$at/authority" &
  within 20 test -S "$at/socket" || return 1
  timeout 20 "$smclient" --socket "$at/socket" --authority "$at/authority" > "$at/joined"
  status=$?
  wait $!
  [ "$status" -eq 3 ]
}
