# Relays before smd: a client that knows the most significant byte first alone, and libSM's beside it, which knows both; and what a
# relay does at its sockets.

# start_relay ORDER: a relay before the smd that was started last, at the folder's socket of that name.
start_relay() {
  "$smrelay" serve --socket "$at/$1" --to "$at/socket" --order "$1" < /dev/null >> "$at/said" 2>&1 &
  within 30 test -S "$at/$1"
}

# let_in ORDER: makes the authority file of those who come to that relay, as its manual page has it.
let_in() {
  local cookie protocol
  cookie=$(iceauth -f "$at/authority" list netid="local/$HOSTNAME:$at/socket" | awk '$1 == "ICE" { print $5 }')
  for protocol in ICE XSMP; do
    iceauth -q -f "$at/$1.authority" add "$protocol" '' "local/$HOSTNAME:$at/$1" MIT-MAGIC-COOKIE-1 "$cookie" \
      2>> "$at/said" || return 1
  done
}

relayed_clients() {
  local msb_id libsm_id own=smd-00000001-0000000
  check "smd starts to be relayed to" start_smd "$room/relayed"
  for order in lsb msb; do
    check "a relay starts that writes $order" start_relay "$order"
    check "an authority file is made for it" let_in "$order"
  done
  python3 "$here/msb_client.py" "$at/msb" "$at/msb.authority" > "$at/msb.lines" &
  msb_id=$!
  check "a client that knows the most significant byte first alone saves" within 30 has_lines 1 complete "$at/msb.lines"
  SESSION_MANAGER=local/$HOSTNAME:$at/lsb ICEAUTHORITY=$at/lsb.authority \
    "$room/libsm_client" --log "$at/libsm.lines" < /dev/null >> "$at/said" 2>&1 &
  libsm_id=$!
  check "libSM's client saves beside it" within 30 has_lines 1 complete "$at/libsm.lines"
  check "both are there" answers 'connections 2, records 2, pending 0, epoch 1, idle' status
  check "a checkpoint of both begins" answers ok checkpoint
  check "the one saves again" within 30 has_lines 2 complete "$at/msb.lines"
  check "the other saves again" within 30 has_lines 2 complete "$at/libsm.lines"
  check "the session of relayed clients logs out" logs_out
  check "the one dies" ends "$msb_id" 0
  check "the other dies" ends "$libsm_id" 0
  check "the one was told so" diff <(printf '%s\n' "registered ${own}1" save complete save complete save die) "$at/msb.lines"
  check "the other has its ID" has_lines 1 "registered ${own}2 " "$at/libsm.lines"
}

# What a relay refuses at its start. The relay before smd has the socket `lsb`.
relay_refuses() { timeout 20 "$smrelay" serve --order lsb --socket "$1" --to "$2" < /dev/null > "$room/refused" 2>&1; [ $? -eq 5 ]; }

relayed() {
  mkdir "$room/$1"
  check "$2" timed 120 python3 "$here/relayed.py" "$smrelay" "$room/$1" "$1"
}

relays() {
  relayed_clients
  check "a socket that a relay has is refused" relay_refuses "$at/lsb" "$at/socket"
  check "a relay to itself is refused" relay_refuses "$at/itself" "$at/itself"
  check "nothing is left of it" test ! -e "$at/itself"
  relayed away "a client is dropped where the manager isn't there, and the relay goes on"
  relayed doors "a relay's socket is the user's alone, and has an abstract name"
  relayed ends "the end of one of a pair is that of the other"
  relayed bytes "a relay passes on what comes a byte at a time"
  relayed crowd "a relay serves 64 connections and not one more"
  relayed strangers "who hasn't shown the cookie makes way at a relay"
  relayed overdue "who hasn't shown the cookie after ten seconds is dropped by a relay"
  relayed private "nobody comes by the abstract name of a private relay"
  relayed flood "a side that never reads is dropped with its pair"
}
