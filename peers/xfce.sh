# A whole Xfce under smd-session, in the place of its own session manager: a login, a logout and the next logins.

xfce_programs='xfsettingsd xfwm4 xfce4-panel xfdesktop Thunar xfce4-terminal'

make_xfce() {
  xfce=$room/xfce
  at=$xfce/run/smd
  mkdir -p "$xfce/bin" "$xfce/.config/smd"
  mkdir -m 700 "$xfce/run"
  for name in smd-session smd-ask smd-logout smd-autostart; do cp "$top/desktop/$name" "$xfce/bin"; done
  ln -s "$smd" "$xfce/bin/smd"
  ln -s "$smctl" "$xfce/bin/smctl"
  # The list of the page.
  sed '1,/^```$/d; /^```$/,$d' "$top/docs/xfce.md" > "$xfce/.config/smd/session"
}

# in_xfce WORD..: the words with the variables of that desktop, and those before them.
in_xfce() {
  env -u SESSION_MANAGER -u ICEAUTHORITY HOME="$xfce" XDG_RUNTIME_DIR="$xfce/run" XDG_CONFIG_HOME="$xfce/.config" \
    XDG_STATE_HOME="$xfce/state" XDG_CACHE_HOME="$xfce/cache" XDG_CURRENT_DESKTOP=XFCE "$@"
}

# xfce_logs_in VARIABLE..: starts a session with these variables, which is recorded, and waits for its manager.
xfce_logs_in() {
  rm -rf "$at"
  in_xfce SMD_RECORD=yes "$@" setsid -w dbus-run-session -- "$xfce/bin/smd-session" < /dev/null >> "$xfce/said" 2>&1 &
  session_id=$!
  within 60 answers_any
}

# Each program is there once.
all_run() {
  local id count=0
  for id in $(marked); do
    case " $xfce_programs " in *" $(cat "/proc/$id/comm" 2> /dev/null) "*) count=$((count + 1)) ;; esac
  done
  [ "$count" -eq 6 ]
}

none_runs() {
  local id
  for id in $(marked); do
    case " $xfce_programs " in *" $(cat "/proc/$id/comm" 2> /dev/null) "*) return 1 ;; esac
  done
}

xfce_ids() { "$smd" store-check --store "$xfce/state/smd/store" | sed -n 's/^entry //p'; }

# all_live ID..: whether each ID is a living program's.
all_live() {
  local id
  for id; do answers live forget "$id" || return 1; done
}

# xfce_comes_back TEXT VARIABLE..: whether all programs come back at a login with these variables, with their old IDs.
xfce_comes_back() {
  local own
  own=$(xfce_ids)
  check "a login of Xfce $1 begins" xfce_logs_in "${@:2}"
  check "all programs of Xfce $1 come back" within 90 has 6
  check "all programs of Xfce $1 have their old IDs" all_live $own
  check "each program of Xfce $1 runs once" all_run
  check "Xfce $1 logs out" leaves
  check "Xfce $1 has ended" within 20 none_runs
}

xfce_sessions() {
  local record
  make_xfce
  check "a first login of Xfce begins" xfce_logs_in
  check "the programs of Xfce join" within 90 connected 6
  check "Xfce saves at the order" answers ok checkpoint
  check "all programs of Xfce are saved" within 30 has 6
  check "Xfce logs out" leaves
  check "Xfce has ended" within 20 none_runs
  xfce_comes_back "with quirks"
  xfce_comes_back "without quirks" SMD_QUIRKS=0
  for record in "$xfce"/state/smd/records/*; do
    check "a record of Xfce replays" replays "$record"
  done
  last_of_seven
}

# place_of CLASS: where the newest window of this class stands on the display.
place_of() {
  local window
  window=$(xdotool search --onlyvisible --class "$1" | tail -n 1)
  [ -n "$window" ] && xwininfo -id "$window" | sed -n 's/^ *Absolute upper-left [XY]: *//p' | tr '\n' ' '
}

stands_at() { [ "$(place_of "$1")" = "$2" ]; }

# manager_is_last: whether xfwm4 has the last of the IDs, which are given in the order in which programs join.
manager_is_last() {
  "$smd" store-check --store "$xfce/state/smd/store" \
    | awk '$1 == "entry" { id = $2 } $1 == "program" { print id, $2 }' | sort | tail -n 1 | grep -q ' xfwm4$'
}

# last_of_seven: the window manager joined last, behind programs that open windows, and puts these back all the same, since it
# says of itself that it comes first.
last_of_seven() {
  local place
  rm -rf "$xfce"
  make_xfce
  printf '%s\n' xfsettingsd 'exec Thunar --daemon' 'sleep 1; exec xfce4-panel' 'sleep 1; exec xfdesktop' \
    'sleep 1; exec xfce4-terminal' 'sleep 1; exec featherpad' 'sleep 8; exec xfwm4' > "$xfce/.config/smd/session"
  check "a login begins at which xfwm4 is the last of seven" xfce_logs_in
  check "all seven join" within 90 connected 7
  check "the terminal is moved" xdotool windowmove --sync "$(xdotool search --onlyvisible --class xfce4-terminal | tail -n 1)" 333 222
  place=$(place_of xfce4-terminal)
  check "the seven are saved" answers ok checkpoint
  check "all seven are kept" within 30 has 7
  check "the seven log out" leaves
  check "xfwm4 has joined last" manager_is_last
  check "the next login of the seven begins" xfce_logs_in
  check "all seven come back" within 90 has 7
  check "the terminal stands where it was" within 20 stands_at xfce4-terminal "$place"
  check "the seven log out again" leaves
  check "the seven have ended" within 20 none_runs
}
