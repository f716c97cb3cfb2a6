# Programs that don't keep to the letter of the protocol, beside each other, with `smd serve --quirks`.

# joins NAME COUNT WORD..: starts a program, which is the one of this number to join.
joins() {
  SESSION_MANAGER=local/$HOSTNAME:$at/socket ICEAUTHORITY=$at/authority "${@:3}" < /dev/null >> "$at/said" 2>&1 &
  check "$1 is saved with --quirks" within 60 stands "$2" "$2" 1
}

# come_back NAME..: whether the programs are started again at the next login, with the IDs that they had.
come_back() {
  local count=$# number=0 name
  check "smd starts again with --quirks" start_smd "$at" --quirks
  check "all $count programs come back with --quirks" within 60 stands "$count" "$count" 2
  for name in "$@"; do
    number=$((number + 1))
    check "$name has its old ID with --quirks" answers live forget "smd-00000001-0000000$number"
  done
  sleep 1
  check "the programs log out again" logs_out
  for name in "$@"; do
    check "$name ends at the logout with --quirks" within 20 runs_no "$name"
  done
}

# twm's states of saves before the last are removed, by the lines that it gives for a shell.
has_one_state() { [ "$(find "$HOME" -maxdepth 1 -name '.twm??????' | wc -l)" -eq 1 ]; }

# The commands that the store keeps.
restarts() { "$smd" store-check --store "$at/store"; }

has_words() { restarts | grep -qF -- "$1"; }

with_twm() {
  check "smd starts with --quirks" start_smd "$room/quirks" --quirks
  joins twm 1 twm
  joins gkrellm 2 gkrellm
  joins xterm 3 xterm -title words
  joins xclock 4 xclock
  joins featherpad 5 featherpad
  joins "a window on Qt 6" 6 "$room/qt6_window"
  joins emacs 7 emacs -Q
  sleep 2
  check "xclock is called xclock" is_called xclock
  check "the programs log out with --quirks" logs_out
  check "the words of xterm are kept" has_words "-title words"
  come_back twm gkrellm xterm xclock featherpad qt6_window emacs
  check "twm's old states are removed" within 10 has_one_state
}

# is_called PROGRAM: whether `smctl clients` calls somebody so, with nothing behind the name.
is_called() { order clients --plain | grep -q " program=$1\$"; }

with_openbox() {
  check "smd starts with --quirks for openbox" start_smd "$room/openbox" --quirks
  joins openbox 1 openbox
  joins featherpad 2 featherpad
  sleep 1
  check "openbox is called openbox" is_called openbox
  check "openbox logs out" logs_out
  come_back openbox featherpad
}

# stage_of PROGRAM: how far the client is whose program ends so.
stage_of() { order clients --plain | sed -n "s/.* stage=\([a-z]*\) .* program=[^ ]*$1\$/\1/p"; }

is_at() { [ "$(stage_of "$1")" = "$2" ]; }

# has_answered PROGRAM: whether it has said anything of the save that runs.
has_answered() { order clients --plain | grep "program=[^ ]*$1\$" | grep -qv ' answered=none '; }

# window_of PROGRAM: the window that it shows last.
window_of() { xdotool search --onlyvisible --class "$1" | tail -n 1; }

has_window() { [ -n "$(window_of "$1")" ]; }

# types_text PROGRAM: text that isn't saved.
types_text() {
  within 20 has_window "$1" && xdotool windowactivate --sync "$(window_of "$1")" type unsaved && within 10 has_text "$1"
}

# has_text PROGRAM: whether the title of a window of it says that there is text which isn't saved.
has_text() {
  local window
  for window in $(xdotool search --onlyvisible --class "$1"); do
    xdotool getwindowname "$window" | grep -qF '*' && return 0
  done
  return 1
}

# logs_out_into_a_dialog PROGRAM: a logout, into the program's dialog about its text.
logs_out_into_a_dialog() { answers ok shutdown && within 20 is_at "$1" interacting; }

# saves COUNT: whether a checkpoint goes through with so many programs that were asked; one that still owes its answer to a
# logout is asked by the next one.
saves() { within 40 saves_once "$1"; }

saves_once() { within 10 answers ok checkpoint && within 20 order_idle && all_saved "$1"; }

all_saved() {
  [ "$(order clients --plain | grep -c ' asked=save-complete ')" = "$1" ] && order status | grep -q ' idle$'
}

# answers_dialog PROGRAM KEY..: the user answers the dialog, and the program goes on.
answers_dialog() { xdotool windowactivate --sync "$(window_of "$1")" key "${@:2}"; }

# escapes PROGRAM: whether Escape calls the logout off. The dialog may have come a moment ago, and not have the key yet.
escapes() {
  answers_dialog "$1" Escape 2> /dev/null
  within 3 order_idle
}

# openbox never answers a ShutdownCancelled, nor does Emacs where it waits to talk; FeatherPad talks about its text.
calls_off_logouts() {
  check "smd starts for logouts that are called off" start_smd "$room/called_off" --quirks --patience 5000
  joins openbox 1 openbox
  joins featherpad 2 featherpad
  joins emacs 3 emacs -Q
  sleep 2
  check "text is written in FeatherPad" types_text featherpad
  for turn in first second; do
    check "FeatherPad's dialog stands in the $turn logout" logs_out_into_a_dialog featherpad
    check "the $turn logout is called off" answers ok cancel
    check "openbox and Emacs are saved behind the $turn logout" saves 2
  done
  sleep 8
  for name in openbox emacs featherpad; do check "$name runs on" runs "$name"; done
  check "a new logout waits for the dialog" answers ok shutdown
  sleep 8
  check "FeatherPad isn't closed in the new logout" runs featherpad
  answers_dialog featherpad Escape
  check "FeatherPad is asked anew" within 20 is_at featherpad interacting
  answers_dialog featherpad Escape
  check "FeatherPad's dialog calls the new logout off" within 20 order_idle
  check "all three are saved behind that" saves 3
  check "the text is there" has_text featherpad
  ends_without_a_logout openbox emacs featherpad
  for name in openbox emacs featherpad; do check "$name has ended" within 20 runs_no "$name"; done
}

# stops_smd SECONDS: smd stands still for so long.
stops_smd() {
  kill -STOP "$smd_id"
  sleep "$1"
  kill -CONT "$smd_id"
}

# start_bus: a message bus, without which xfwm4 finds no defaults.
start_bus() {
  dbus-daemon --session --nofork --print-address > "$room/bus" 2> /dev/null < /dev/null &
  bus_id=$!
  within 20 test -s "$room/bus" || return 1
  export DBUS_SESSION_BUS_ADDRESS
  DBUS_SESSION_BUS_ADDRESS=$(cat "$room/bus")
}

stop_bus() {
  kill "$bus_id"
  unset DBUS_SESSION_BUS_ADDRESS
}

# xfwm4 waits for the second phase, and never answers a ShutdownCancelled then; KWrite talks about its text.
calls_off_beside_xfwm4() {
  check "a message bus starts for xfwm4" start_bus
  check "smd starts beside xfwm4" start_smd "$room/called_off_xfwm4" --quirks --patience 5000
  joins xfwm4 1 xfwm4 --compositor=off
  echo words > "$at/words"
  joins kwrite 2 kwrite "$at/words"
  sleep 2
  check "text is written in KWrite" types_text kwrite
  for turn in first second; do
    check "KWrite's dialog stands in the $turn logout" logs_out_into_a_dialog kwrite
    check "the $turn logout is called off beside xfwm4" answers ok cancel
    check "xfwm4 is saved behind the $turn logout" saves 1
  done
  check "a new logout waits for KWrite's dialog" answers ok shutdown
  check "xfwm4 waits behind KWrite" within 20 has_answered xfwm4
  stops_smd 7
  check "KWrite isn't closed by an smd that stood still" runs kwrite
  answers_dialog kwrite Escape
  check "KWrite is asked anew" within 20 is_at kwrite interacting
  check "KWrite's dialog calls the new logout off" within 30 escapes kwrite
  check "both are saved beside xfwm4" saves 2
  check "the text is there in KWrite" has_text kwrite
  ends_without_a_logout xfwm4 kwrite
  for name in xfwm4 kwrite; do check "$name has ended beside the bus" within 20 runs_no "$name"; done
  stop_bus
}

# is_connected ID: whether the program of this ID is listed; one that has left isn't.
is_connected() { order clients --plain | grep -qF " id=$1 "; }

# FeatherPad without text leaves as soon as it has saved, while xclock, which is stopped, holds the logout up.
leaves_called_off_logouts() {
  local stopped_id
  check "smd starts for a program that leaves early" start_smd "$room/left_early" --quirks --patience 60000
  joins openbox 1 openbox
  joins featherpad 2 featherpad
  joins xclock 3 xclock
  stopped_id=$!
  sleep 2
  for number in 4 5; do
    kill -STOP "$stopped_id"
    check "a logout begins before number $number joins" answers ok shutdown
    check "FeatherPad leaves before number $number joins" within 20 runs_no featherpad
    check "the logout is called off before number $number joins" answers ok cancel
    kill -CONT "$stopped_id"
    joins xclock "$number" xclock
    check "FeatherPad is started again beside number $number" within 20 runs featherpad
    check "FeatherPad has its old ID beside number $number" within 20 is_connected smd-00000001-00000002
    check "all are saved with number $number" saves "$number"
  done
  check "the session in which FeatherPad left logs out" logs_out
  for name in openbox featherpad xclock; do check "$name has ended with the others" within 20 runs_no "$name"; done
}

# FeatherPad talks about its text as the logout is called off; its user discards the text then, and it leaves.
leaves_its_dialog() {
  check "smd starts for a program that leaves its dialog" start_smd "$room/left_dialog" --quirks --patience 60000
  joins openbox 1 openbox
  joins featherpad 2 featherpad
  sleep 2
  check "text is written before FeatherPad leaves" types_text featherpad
  check "FeatherPad's dialog stands before it leaves" logs_out_into_a_dialog featherpad
  check "the logout is called off before FeatherPad leaves" answers ok cancel
  sleep 3
  answers_dialog featherpad alt+d
  check "FeatherPad leaves its dialog" within 20 runs_no featherpad
  joins xclock 3 xclock
  check "FeatherPad is started again behind its dialog" within 20 runs featherpad
  check "FeatherPad has its old ID behind its dialog" within 20 is_connected smd-00000001-00000002
  check "all are saved behind the dialog" saves 3
  check "the session in which FeatherPad left its dialog logs out" logs_out
  for name in openbox featherpad xclock; do check "$name has ended behind the dialog" within 20 runs_no "$name"; done
}

# ends_without_a_logout PROGRAM..: smd and these programs, of which none may be there for the next desktop.
ends_without_a_logout() {
  local id
  kill "$smd_id"
  wait "$smd_id" 2> /dev/null
  for id in $(marked); do
    case " $* " in *" $(cat "/proc/$id/comm" 2> /dev/null) "*) kill -KILL "$id" 2> /dev/null ;; esac
  done
}

order_idle() { order status | grep -q ' idle$'; }

quirk_sessions() {
  export HOME=$room/quirk_home
  mkdir "$HOME"
  plain_twm
  with_twm
  with_openbox
  calls_off_logouts
  leaves_called_off_logouts
  leaves_its_dialog
  calls_off_beside_xfwm4
}
