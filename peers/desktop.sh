# Applications of Debian under Xvfb: a login, a logout and the next login.

# twm takes the one font that the server has without further packages, and asks nobody where a window goes.
plain_twm() {
  echo RandomPlacement > "$HOME/.twmrc"
  for font in TitleFont ResizeFont MenuFont IconFont IconManagerFont; do echo "$font \"fixed\""; done >> "$HOME/.twmrc"
}

# The file of an earlier display is emptied here, since what is started empties it too late to be waited for. Between two logins
# the display may have no client: it is told to stay as it is then, since a program that comes while it starts anew is turned away.
start_display() {
  local number=$room/display.$BASHPID
  : > "$number"
  Xvfb -displayfd 3 -screen 0 640x480x24 -nolisten tcp -noreset 3> "$number" > "$number.said" 2>&1 < /dev/null &
  within 20 test -s "$number" || return 1
  export DISPLAY
  DISPLAY=:$(cat "$number")
}

# runs NAME: whether a program of this name runs that was started from here.
runs() {
  for id in $(marked); do
    [ "$(cat "/proc/$id/comm" 2> /dev/null)" = "$1" ] && return 0
  done
  return 1
}

runs_no() { ! runs "$1"; }

# stands CONNECTIONS RECORDS EPOCH
stands() {
  sleep 0.2
  answers "connections $1, records $2, pending 0, epoch $3, idle" status
}

# heard N TEXT..: whether client N said or was told what begins so, in this order.
heard() {
  local number=$1 lines text
  shift
  lines=$(sed -nE "s/^(in|out) $number [0-9]+ //p" "$at/shown")
  for text in "$@"; do
    lines=$(sed -n "/^$text/,\$p" <<< "$lines")
    [ -n "$lines" ] || return 1
  done
}

# whole_session N: the client logged in anew, was saved, and died when it was told to.
whole_session() {
  heard "$1" 'RegisterClient previous=-' RegisterClientReply 'SaveYourself kind=1 shutdown=0' \
    SaveYourselfDone SaveComplete 'SaveYourself kind=2 shutdown=1' SaveYourselfDone Die
}

desktop_sessions() {
  export HOME=$room/home
  mkdir "$HOME"
  plain_twm
  check "Xvfb starts" start_display
  check "smd starts for the applications" start_smd "$room/desktop"
  check "the recorder starts for the applications" start_recorder
  recorded twm &
  check "twm is saved" within 30 stands 1 1 1
  recorded gkrellm &
  check "gkrellm is saved" within 30 stands 2 2 1
  recorded xterm &
  check "xterm logs in, and nothing is kept of it" within 30 stands 3 2 1
  sleep 1
  check "the desktop logs out" logs_out
  for name in twm gkrellm xterm; do
    check "$name ends at the logout" within 20 runs_no "$name"
  done
  check "the trace of the applications can be shown" stop_recorder
  for number in 1 2 3; do
    check "application $number has a whole session" whole_session "$number"
  done
  check "smd starts again for the applications" start_smd "$room/desktop"
  check "two applications come back" within 30 stands 2 2 2
  check "twm has its old ID" answers live forget smd-00000001-00000001
  check "gkrellm has its old ID" answers live forget smd-00000001-00000002
  check "twm runs again" runs twm
  check "gkrellm runs again" runs gkrellm
  check "xterm isn't started again" runs_no xterm
  check "the desktop logs out again" logs_out
}
