# desktop/smd-logout: what it asks, and what it shows while somebody is waited for.

# A dialog that gives the answers of a file in turn, and waits where there is none.
make_dialogs() {
  mkdir -p "$at/bin"
  cp "$top/desktop/smd-logout" "$top/desktop/smd-ask" "$at/bin"
  ln -s "$smctl" "$at/bin/smctl"
  cp "$(command -v sleep)" "$at/bin/unanswered"
  cat > "$at/bin/zenity" << DIALOG
#!/bin/sh
for word; do echo "\$word"; done >> "$at/questions"
answer=\$(sed -n 1p "$at/answers")
sed -i 1d "$at/answers"
[ -n "\$answer" ] || exec unanswered 60
[ "\$answer" != close ] || exit 1
[ "\$1" = --question ] || exec echo "\$answer"
for word; do case \$word in --*-label=* | --extra-button=*) set -- "\$@" "\${word#*=}" ;; --*) ;; esac; shift; done
[ "\$answer" != 1 ] || exit 0
shift \$((answer - 1))
[ \$# -eq 1 ] || echo "\$1"
exit 1
DIALOG
  chmod +x "$at/bin/zenity"
}

# to_leave FOLDER NAME..: a session of these programs, of which the last can be stopped.
to_leave() {
  local count=$(($# - 1))
  start_smd "$1" || return 1
  make_dialogs
  for name in "${@:2}"; do
    member "$name"
    stopped_id=$!
  done
  within 20 has_stages "$count" idle
}

# is_left ANSWERS WORD..: starts smd-logout with these words, whose dialogs are answered so.
is_left() {
  printf '%s\n' $1 > "$at/answers"
  : > "$at/questions"
  SMD_CONTROL=$at/control DISPLAY=:none "$at/bin/smd-logout" "${@:2}" < /dev/null > /dev/null 2> "$at/leaving" &
  leaving_id=$!
}

asks_about() { within 20 grep -qxF -e "--text=$1" "$at/questions"; }

offers() { grep -qxF -e "$1" "$at/questions"; }

is_idle() { order status | grep -q ' idle$'; }

stays() {
  is_left 4
  ends "$leaving_id" 1 && asks_about 'Log out?' && is_idle
}

# A client that closes after its second save.
saves_alone() {
  "$smclient" --socket "$at/socket" --authority "$at/authority" --program brief --saves 2 \
    < /dev/null > "$at/brief" 2>&1 &
  local brief_id=$!
  within 20 has_stages 2 idle || return 1
  is_left '2 1'
  ends "$leaving_id" 0 && ends "$brief_id" 0 && is_idle && has_lines 2 saved "$at/brief" && asks_about 'All programs are saved.'
}

# Who closes the question at once isn't asked again by another program.
is_closed_at_once() {
  is_left close
  ends "$leaving_id" 1 && is_idle && has_lines 1 --text= "$at/questions"
}

# The key is pressed twice, and one question is there.
asks_once() {
  is_left ''
  asks_about 'Log out?' && within 10 runs unanswered || return 1
  local first_id=$leaving_id
  is_left ''
  ends "$leaving_id" 1 && grep -qxF 'smd-logout: the question is there already' "$at/leaving" && [ ! -s "$at/questions" ] || return 1
  close_dialog
  ends "$first_id" 1 && is_idle
}

# Nobody answers, and the save comes to its end.
shows_until_it_is_saved() {
  kill -STOP "$stopped_id"
  is_left '' --save
  asks_about 'Waiting for one.' && within 10 runs unanswered || return 1
  kill -CONT "$stopped_id"
  ends "$leaving_id" 0 && within 10 runs_no unanswered
}

# The answer to who is waited for is to stay.
stays_when_it_lasts() {
  kill -STOP "$stopped_id"
  is_left 2 --now
  asks_about 'Waiting for one.' && ends "$leaving_id" 1 && is_idle
}

# The program still owes its answer to the logout before, and is gone on without. Nobody is left then who could be asked.
leaves_behind_one_called_off() {
  is_left 3 --now
  asks_about 'Waiting for one.' && ends "$leaving_id" 0 && ends_as_saved
}

# ends_as_saved: smd is ended without a logout, so that the program is kept.
ends_as_saved() { ends "$smd_id" 143 2> /dev/null && [ "$("$smd" store-check --store "$at/store" | grep -c '^entry ')" = 1 ]; }

# It is the last program that is stopped.
goes_on_without() {
  kill -STOP "$stopped_id"
  is_left '1 3'
  asks_about "Waiting for $1." && offers "Close $1: what isn't saved there is lost" && ends "$leaving_id" 0
}

# close_dialog: closes the one that isn't answered.
close_dialog() {
  sleep 2
  for id in $(marked); do
    [ "$(cat "/proc/$id/comm" 2> /dev/null)" != unanswered ] || kill "$id"
  done
}

# While a program talks with its user nothing else is shown, also where another one is silent, which is shown behind that.
# Whoever closes that dialog goes on waiting.
is_quiet_while_somebody_talks() {
  : > "$at/talker.talks"
  kill -STOP "$stopped_id"
  is_left 1
  within 20 has_lines 1 talks "$at/talker.log" || return 1
  sleep 5
  ! grep -q 'Waiting for' "$at/questions" || return 1
  rm "$at/talker.talks"
  asks_about 'Waiting for one.' && within 20 runs unanswered && close_dialog
  kill -CONT "$stopped_id"
  ends "$leaving_id" 0 && ends "$smd_id" 0
}

# to_talk: a program that talks with its user, beside one that can be stopped.
to_talk() {
  to_leave "$room/leaving_talk" one || return 1
  SESSION_MANAGER=local/$HOSTNAME:$at/socket ICEAUTHORITY=$at/authority DISPLAY='' \
    python3 "$here/resident.py" "$at" talker < /dev/null >> "$at/said" 2>&1 &
  within 20 has_stages 2 idle
}

goes_on_without_the_only_one() { goes_on_without one && ends_as_saved; }

goes_on_without_two() { goes_on_without two && ends "$smd_id" 0; }

# The operator calls the logout off.
is_called_off() {
  kill -STOP "$stopped_id"
  is_left '' --now
  asks_about 'Waiting for two.' && answers ok cancel && ends "$leaving_id" 1 || return 1
  kill -CONT "$stopped_id"
  grep -qxF 'smd-logout: the logout was called off' "$at/leaving" && within 20 has_stages 2 idle
}

# Without a save: whoever thinks better of it is asked once more, and what was saved last stays.
leaves_unsaved() {
  order checkpoint > /dev/null
  within 20 is_idle || return 1
  is_left '3 1'
  ends "$leaving_id" 1 && asks_about "Log out without saving? What isn't saved is lost." && is_idle || return 1
  is_left '3 2'
  ends "$leaving_id" 0 && ends_as_saved
}

screen() { tmux -S "$at/keys" "$@" 2> /dev/null; }

screen_shows() { screen capture-pane -p -t leave | grep -qF "$1"; }

# On a terminal, without a display: the question, who is waited for, and an interrupt for the answer to stay.
leaves_by_terminal() {
  local script="trap : INT; '$at/bin/smd-logout'; echo ended with \$?; exec sleep 60"
  kill -STOP "$stopped_id"
  DISPLAY= WAYLAND_DISPLAY= SMD_CONTROL=$at/control screen -f /dev/null new-session -d -s leave "$script"
  within 20 screen_shows 'Which number?' || return 1
  screen send-keys -t leave 1 Enter
  within 20 screen_shows 'smd-logout: waiting for two' || return 1
  screen send-keys -t leave C-c
  within 20 screen_shows 'ended with 1' && is_idle || return 1
  screen kill-server
  kill -CONT "$stopped_id"
  within 20 has_stages 2 idle
}

# The dialogs that smd-ask would rather take aren't there.
only_xmessage() {
  local tool
  for tool in zenity kdialog yad; do
    printf '#!/bin/sh\necho cannot open display\nexit 1\n' > "$at/bin/$tool"
    chmod +x "$at/bin/$tool"
  done
}

# asks_by_xmessage TEXT: whether a window shows this.
asks_by_xmessage() {
  local id
  for id in $(marked); do
    [ "$(cat "/proc/$id/comm" 2> /dev/null)" = xmessage ] || continue
    grep -qzF "$1" "/proc/$id/cmdline" && xdotool search --onlyvisible --name '^smd$' > /dev/null && return 0
  done
  return 1
}

# press_button N: of the window that is there, counted from the left.
press_button() {
  local window x y
  window=$(xdotool search --onlyvisible --name '^smd$') || return 1
  read -r y x < <(xwininfo -tree -id "$window" | sed -n 's/.* +\([0-9]*\)+\([0-9]*\)$/\2 \1/p' \
    | sort -k 1,1nr -k 2,2n | sed -n "$1p")
  xdotool mousemove "$((x + 5))" "$((y + 5))" click 1
}

leaves_by_xmessage() {
  only_xmessage
  kill -STOP "$stopped_id"
  SMD_CONTROL=$at/control "$at/bin/smd-logout" < /dev/null > /dev/null 2> "$at/leaving" &
  leaving_id=$!
  within 20 asks_by_xmessage 'Log out?' && press_button 1 || return 1
  within 20 asks_by_xmessage 'Waiting for two.' && press_button 2 || return 1
  ends "$leaving_id" 1 && is_idle || return 1
  kill -CONT "$stopped_id"
  within 20 has_stages 2 idle
}

# at_a_display WORD..: with a display of their own.
at_a_display() {
  local display_id before=${DISPLAY-} status
  start_display || return 1
  display_id=$!
  "$@"
  status=$?
  kill "$display_id"
  if [ -n "$before" ]; then DISPLAY=$before; else unset DISPLAY; fi
  return "$status"
}

leaving() {
  check "a session of one program is there to be left" to_leave "$room/leaving" one
  check "who stays is still there" stays
  check "who closes the question at once stays" is_closed_at_once
  check "the user is asked once at a time" asks_once
  check "a save alone is made" saves_alone
  check "what is saved needs no answer" shows_until_it_is_saved
  check "who is waited for is named, and the user stays" stays_when_it_lasts
  check "who owes an answer to a logout that was called off is waited for" leaves_behind_one_called_off
  is_left ''
  check "nobody is left where no session is" ends "$leaving_id" 5
  check "a session of one program is there again" to_leave "$room/leaving_alone" one
  check "a logout goes on without the only program" goes_on_without_the_only_one
  check "a session of one program is there that is left unsaved" to_leave "$room/leaving_unsaved" one
  check "without a save the session is what was saved last" leaves_unsaved
  check "a session of two programs is there to be left" to_leave "$room/leaving_two" one two
  check "a logout that is called off is told" is_called_off
  check "on a terminal the user is asked, and an interrupt is to stay" leaves_by_terminal
  check "a logout goes on without a program" goes_on_without_two
  check "a session with a program that talks is there" to_talk
  check "nothing is shown while it talks" is_quiet_while_somebody_talks
  check "a session of two programs is there for xmessage" to_leave "$room/leaving_x" one two
  check "xmessage asks, and shows who is waited for" at_a_display leaves_by_xmessage
}
