# Sessions by smd-session whose display ends, that hear signals, or whose surroundings are odd: nothing of them is lost.

# ending TEST WORD..: starts the test of $tests, behind these words.
ending() {
  mkdir "$quick/$1"
  aside "$1" 420 "${@:2}" python3 "$here/$tests.py" "$room/ends" "$quick/$1" "$1"
}

# A disk of its own, which goes with the process.
full_for_a_while() {
  if ! unshare --mount mount -t tmpfs tmpfs "$room/ends" 2> /dev/null; then
    left_out+=("a log on a disk that is full for a while, for which nothing can be mounted here")
    return
  fi
  ending log_that_is_full_for_a_while unshare --mount
  check "what couldn't be said is told once it can be" came_through log_that_is_full_for_a_while
}

make_ends() {
  local name
  mkdir "$room/ends"
  for name in session logout ask autostart; do cp "$top/desktop/smd-$name" "$room/ends"; done
  for name in smd smctl smwrap; do ln -s "${!name}" "$room/ends/$name"; done
}

# These run beside one another, four at a time.
endings() {
  local tests=endings
  make_ends
  ends_of display_ends "a session ends with its display, and keeps its checkpoint" \
    display_ends_with_the_signal "so it does where the signal comes with the display's end" \
    display_ends_in_an_order "so it does where the display ends in a logout" \
    display_ends_in_a_signal "so it does where the display ends in the logout of a signal"
  ends_of display_ends_in_smd_logout "so it does where the display ends in the logout of smd-logout" \
    signals "TERM, HUP and INT to the script or to its group are a logout" \
    kills "a script or a manager that is killed leaves nothing behind, and loses nothing" \
    forsaken "a login ends a manager for which nobody waits any more"
  ends_of starter "the end of what gives a session its bus is a logout" \
    nobody_is_left "nothing is forgotten where nobody can be asked any more" \
    ordered_anew "a logout that all have left is ordered anew" \
    told_of_a_kill "who waits for a logout is told where smd was killed in it"
  ends_of log_on_a_full_disk "a log on a full disk ends nothing" \
    log_that_nobody_reads "a log that nobody reads ends nothing" \
    surroundings "programs have the mask, the signals and the path of their login" \
    bus "what the bus starts finds the session"
  full_for_a_while
  ends_of names_that_are_taken "nobody is kept out by a name that another has taken" \
    wrapped "a wrapped program comes back, and a name that is taken keeps nobody out" \
    runtime_folders "a runtime folder is looked at before it is taken" \
    told_in_a_dialog "a login that can't start tells why"
  ends_of display_is_replaced "a session ends where another display has its number" \
    answers_without_a_disk "an answer is heard on a full disk" \
    answer_that_cant_be_written "who couldn't be heard is asked again" \
    no_markup "a program's name is no markup"
}

# What a login starts, and what comes behind a logout.
logins() {
  local tests=logins
  [ -d "$room/ends" ] || make_ends
  ends_of each_login "each login starts its list, and the entries for this desktop" \
    already_there "what the session has already isn't started a second time" \
    first_session "a first session has a window manager and a terminal"
  ends_of restart "the machine is restarted behind the logout" \
    restart_is_called_off "who stays wants no restart any more" \
    nothing_is_offered "what the machine doesn't let a user do isn't offered"
}

# ends_of NAME TEXT ..: these tests, beside one another.
ends_of() {
  local number
  for ((number = 1; number < $#; number += 2)); do ending "${!number}"; done
  while [ $# -gt 1 ]; do
    check "$2" came_through "$1"
    shift 2
  done
}

# A real display manager, in namespaces of its own: what it leaves behind goes with them. It gets nothing of this environment,
# as the one that the system starts: with a DISPLAY, lightdm wants its displays inside of that one.
greeted_sessions() {
  if [ "$(id -u)" -ne 0 ] || ! unshare --pid --fork --mount-proc --net --ipc true 2> /dev/null; then
    left_out+=("a display manager, which only root can start in namespaces of its own")
    return
  fi
  [ -d "$room/ends" ] || make_ends
  check "sessions of a display manager end well" timed 1800 \
    env --ignore-environment PATH="$PATH" HOME=/root PEERS_ROOM="$room" TMPDIR="$room" \
    unshare --pid --fork --kill-child --mount-proc --net --ipc "$here/greeted" "$room/ends"
}
