# What the parts of peers/check share: a room for all files, counting, waiting, and smd.
here=$(cd "$(dirname "${BASH_SOURCE[0]}")" && pwd)
top=$(cd "$here/.." && pwd)
passed=0
failed=0
smd_id=
# Who runs beside the others, if somebody does.
beside_id=

room=$(mktemp -d) || exit 1
# For what syncs ten thousand times: a RAM disk, where there is one.
quick=$(mktemp -d -p /dev/shm 2> /dev/null || mktemp -d -p "$room") || exit 1
# The mark by which whatever was started from here is found again, also what smd started.
export PEERS_ROOM=$room TMPDIR=$room
# What this machine starts at each login has no place in the sessions by smd-session.
export HOSTNAME PYTHONDONTWRITEBYTECODE=1 SMD_AUTOSTART=0
HOSTNAME=$(uname -n)

# The processes that bear the mark, without those that look for it.
marked() (
  unset PEERS_ROOM
  grep -lzx "PEERS_ROOM=$room" /proc/[0-9]*/environ 2> /dev/null | cut -d / -f 3
)

nobody_left() { [ -z "$(marked)" ]; }

# send_all SIGNAL: to each marked process.
send_all() {
  for id in $(marked); do kill "-$1" "$id" 2> /dev/null; done
}

clear_room() {
  [ -z "$beside_id" ] || kill "$beside_id" 2> /dev/null
  send_all TERM
  within 5 nobody_left || send_all KILL
  within 5 nobody_left
  rm -rf "$room" "$quick"
}
trap clear_room EXIT
trap 'exit 1' HUP INT TERM
# What is made by a relative path lies in the room too.
cd "$room" || exit 1

# within SECONDS WORD..: whether the words hold before so many seconds have passed.
within() {
  local end=$((SECONDS + $1))
  shift
  until "$@"; do
    [ "$SECONDS" -lt "$end" ] || return 1
    sleep 0.05
  done
}

# check TEXT WORD..: counts whether the words hold.
check() {
  local text=$1
  shift
  if "$@"; then
    passed=$((passed + 1))
  else
    echo "peers/check: not so: $text"
    failed=$((failed + 1))
  fi
}

# paths_of FOLDER: the words that have smd keep its files there.
paths_of() {
  printf '%s\n' --socket "$1/socket" --control "$1/control" --store "$1/store" --authority "$1/authority"
}

# How many sessions were recorded.
records=0

# start_smd FOLDER WORD..: gives back once smd has printed where it listens; the words are more options of it. The
# session is recorded.
start_smd() {
  at=$1
  mkdir -p "$at" "$room/records"
  mapfile -t paths < <(paths_of "$at")
  : > "$at/lines"
  records=$((records + 1))
  "$smd" serve "${paths[@]}" "${@:2}" --record "$room/records/$records" < /dev/null > "$at/lines" 2>> "$at/said" &
  smd_id=$!
  within 30 grep -qxF "SESSION_MANAGER=local/$HOSTNAME:$at/socket" "$at/lines"
}

# order WORD..: gives an order to the smd that was started last.
order() { timeout 20 "$smctl" --control "$at/control" "$@"; }

# answers LINE WORD..: whether the order is answered so.
answers() {
  local wanted=$1
  shift
  [ "$(order "$@")" = "$wanted" ]
}

is_gone() { ! kill -0 "$1" 2> /dev/null; }

# ends ID STATUS: whether the process that was started last ends so.
ends() {
  within 30 is_gone "$1" || return 1
  wait "$1"
  [ $? -eq "$2" ]
}

# logs_out: whether the session ends well at the order.
logs_out() { answers ok shutdown && ends "$smd_id" 0; }

# has_lines COUNT TEXT FILE: whether the file has so many lines that begin so.
has_lines() { [ "$(grep -cs "^$2" "$3")" = "$1" ]; }

# start_recorder: stands between the clients that are started next and smd, and writes a trace.
start_recorder() {
  python3 "$here/recorder.py" --manager "$at/socket" --authority "$at/authority" \
    --listen "$at/recorder" --for-clients "$at/recorder.authority" --trace "$at/trace" &
  recorder_id=$!
  within 20 test -S "$at/recorder"
}

# recorded WORD..: becomes a client that comes to smd through the recorder.
recorded() {
  SESSION_MANAGER=local/$HOSTNAME:$at/recorder ICEAUTHORITY=$at/recorder.authority exec "$@" \
    < /dev/null >> "$at/said" 2>&1
}

# stop_recorder: shows the trace as messages, in the file `shown` of the folder.
stop_recorder() {
  kill "$recorder_id"
  ends "$recorder_id" 0
  "$smtrace" show < "$at/trace" > "$at/shown"
}

# timed SECONDS WORD..: waits for the words as a job, so that a signal ends the wait.
timed() {
  timeout -k 5 "$@" &
  wait $!
}

# What runs beside others, by its name.
declare -A asides

# aside NAME SECONDS WORD..: starts what runs beside others; what it prints is kept until it is looked at.
aside() {
  timeout -k 5 "${@:2}" > "$room/$1.printed" 2>&1 &
  asides[$1]=$!
}

# came_through NAME: whether it ended well; it shows what was printed.
came_through() {
  wait "${asides[$1]}"
  local status=$?
  cat "$room/$1.printed"
  return "$status"
}
