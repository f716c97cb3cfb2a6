# A program that knows no session, wrapped by smwrap: an editor in a terminal of its own, whose text is its state. It is
# saved twice, the session ends, and the next login brings it back with the last text, under three managers.

# What the editor says at first, and what is typed.
first_text=begun

# The program that is wrapped is the editor, to which tmux gives a terminal and sends keys. xsm starts a client again by
# its Program, with the words of its RestartCommand: so the editor leads to smwrap where it gets these.
make_editor() {
  cat > "$wrapped/edit" << EDIT
#!/bin/sh
[ "\$1" = --socket ] && exec smwrap "\$@"
exec tmux -S "$wrapped/keys" -f /dev/null new-session -d -s text nano -I "$wrapped/text"
EDIT
  chmod +x "$wrapped/edit"
}

keys() { tmux -S "$wrapped/keys" "$@" 2> /dev/null; }

edits() { keys has-session -t text; }

edits_no() { ! edits; }

# writes_text WORDS: puts them in front of the text, and has the editor write its file.
writes_text() {
  keys send-keys -t text C-Home && keys send-keys -t text -l "$1" && keys send-keys -t text C-o Enter && within 20 reads text "$1"
}

# reads NAME TEXT: whether a file of the folder begins so.
reads() { [[ "$(cat "$wrapped/$1" 2> /dev/null)" == "$2"* ]]; }

# shows TEXT: whether the editor shows this.
shows() { keys capture-pane -p -t text | grep -qF "$1"; }

has_mode() { [ "$(stat -c %a "$wrapped/$1")" = "$2" ]; }

has_no() { [ ! -e "$wrapped/$1" ]; }

# lies_beside NAME TEXT: whether this text was kept beside the file before another was put over it.
lies_beside() { grep -qsxF "$2" "$wrapped/$1".kept-*; }

# keeps_three NAME: whether the last three are kept, and no more.
keeps_three() { [ "$(find "$wrapped" -name "$1.kept-*" | wc -l)" -eq 3 ]; }

# was_told TEXT: whether smwrap said so.
was_told() { grep -qF "$1" "$wrapped/said"; }

# The words of the first login: the place of the manager, the state, and the editor.
first_words() {
  echo --socket "$wrapped/socket" --authority "$wrapped/authority" --state "$wrapped/text" --from 0 -- "$wrapped/edit"
}

# name_program PROGRAM COMMAND: the program's name stands for the built one, behind the command that finds the manager's
# place.
name_program() {
  mkdir -p "$wrapped/bin"
  cat > "$wrapped/bin/$1" << NAMED
#!/bin/sh
$2
exec "${!1}" "\$@" 2>> "$wrapped/said"
NAMED
  chmod +x "$wrapped/bin/$1"
  PATH=$wrapped/bin:$PATH
}

# wrapped_anew FOLDER: an editor's text that was never saved, and the name of the program.
wrapped_anew() {
  wrapped=$1
  mkdir -p "$wrapped"
  echo "$first_text" > "$wrapped/text"
  chmod 640 "$wrapped/text"
  make_editor
}

# two_saves MANAGER SAVE..: by the words SAVE the manager has all clients saved.
two_saves() {
  local manager=$1
  shift
  check "the editor starts under $manager" within 30 edits
  check "its first copy is made under $manager" within 30 reads text.1 "$first_text"
  check "the copy has the mode of the text under $manager" has_mode text.1 640
  check "the editor shows its text under $manager" within 30 shows "$first_text"
  check "the editor writes under $manager" writes_text "one "
  check "$manager saves again" "$@"
  check "the second copy is made under $manager" within 30 reads text.2 "one $first_text"
}

# after_logout MANAGER: what is typed between two logins is lost, as the editor begins with its last copy.
after_logout() {
  check "the last copy is made under $1" within 30 reads text.3 "one $first_text"
  keys kill-server
  check "the editor can be ended under $1" within 20 edits_no
  echo spoiled > "$wrapped/text"
}

editor_comes_back() {
  check "the editor comes back under $1" within 30 edits
  check "with the last text under $1" within 30 shows "one $first_text"
  check "which is its file under $1" reads text "one $first_text"
  check "which has its mode under $1" has_mode text 640
  check "what it was put over is kept under $1" lies_beside text spoiled
  keys kill-server
}

# ---- smd

wrapped_by_smd() {
  wrapped_anew "$room/wrapped"
  local old_path=$PATH
  name_program smwrap :
  check "smd starts for the editor" start_smd "$wrapped"
  smwrap $(first_words) < /dev/null > "$wrapped/out" 2>&1 &
  local wrapper=$!
  check "smd has the editor" within 30 stands 1 1 1
  two_saves smd answers ok checkpoint
  check "smd removes the copy that is no more wanted" within 30 has_no text.1
  check "the session of the editor logs out" logs_out
  check "smwrap ends well" ends "$wrapper" 0
  after_logout smd
  check "smd starts again for the editor" start_smd "$wrapped"
  editor_comes_back smd
  check "smd has the editor again" within 30 stands 1 1 2
  long_state
  check "the second session of the editor logs out" logs_out
  PATH=$old_path
}

# A state that is too long is saved no more, and what was saved stays.
long_state() {
  cp "$wrapped/text" "$wrapped/kept"
  head -c 65537 /dev/zero | tr '\0' x > "$wrapped/text"
  check "a checkpoint of a long state begins" answers ok checkpoint
  check "a long state is told" within 20 grep -q "cannot use $wrapped/text: it has more than 65536 bytes" "$wrapped/said"
  check "and its last copy stays" cmp -s "$wrapped/kept" "$wrapped/text.3"
}

# ---- copies, without a program

# wraps WORD..: joins for a program that does nothing, in the folder of the copies.
wraps() {
  (cd "$wrapped" && exec smwrap --socket "$wrapped/socket" --authority "$wrapped/authority" "$@" -- true) < /dev/null >> "$wrapped/out" 2>&1 &
}

# put NAME TEXT: another file with this text has the name then, so that names that were linked to it stay what they were.
put() { echo "$2" > "$wrapped/.put" && mv "$wrapped/.put" "$wrapped/$1"; }

is() { [ "$(cat "$wrapped/$1" 2> /dev/null)" = "$2" ]; }

# copies_anew FOLDER: a text, and smd.
copies_anew() {
  wrapped=$1
  mkdir -p "$wrapped"
  put text monday
  name_program smwrap :
  check "smd starts for copies in $2" start_smd "$wrapped"
}

# A text that grows beyond what is copied: the next login begins with what was saved, and the text stays beside it.
text_that_grows() {
  copies_anew "$room/grows" "a text that grows"
  wraps --state "$wrapped/text" --from 0
  check "a text is saved" within 30 is text.1 monday
  head -c 70021 /dev/zero | tr '\0' x > "$wrapped/text"
  check "a checkpoint of a text that grew" answers ok checkpoint
  check "tells that it isn't saved" within 20 was_told "cannot use $wrapped/text: it has more than 65536 bytes"
  check "and what that means, once" within 20 has_lines 1 "smwrap: the next login begins with what was saved before" "$wrapped/said"
  check "its session ends" logs_out
  check "the next login begins" start_smd "$wrapped"
  check "with what was saved" within 30 is text monday
  check "and the text that grew is kept" [ "$(cat "$wrapped"/text.kept-* | wc -c)" -eq 70021 ]
  check "which is told" was_told "$wrapped/text was not what was saved last: it is kept as $wrapped/text.kept-"
  check "this session ends too" logs_out
  for day in tuesday wednesday thursday; do
    put text "$day"
    check "the login of $day begins" start_smd "$wrapped"
    check "with what was saved before $day" within 30 is text monday
    check "the session of $day ends" logs_out
  done
  check "the last three texts are kept" keeps_three text
  check "among them the newest" lies_beside text thursday
}

# Two lines of copies of one file, as two sessions have them.
lines_of_copies() {
  copies_anew "$room/lines" "two lines"
  wraps --state text --from 0
  check "the first line saves" within 30 is text.1 monday
  put text tuesday
  wraps --state text --from 0
  check "the second line saves behind it" within 30 is text.3 tuesday
  check "what it began with is gone" within 20 has_no text.2
  check "the first line's copy stays" is text.1 monday
  put text.2 somebody
  check "a checkpoint of both lines" answers ok checkpoint
  check "saves the second one" within 30 is text.4 tuesday
  check "and leaves the place that is taken as it is" is text.2 somebody
  check "which is told" within 20 was_told "cannot use $wrapped/text.2: "
  check "the session of both ends" logs_out
  rm -f "$wrapped"/text.[13-9]
  check "a login without the copies begins" start_smd "$wrapped"
  check "both are there" within 30 stands 2 2 2
  check "and it is told with what they begin" was_told " is gone: the program begins with $wrapped/text as it is"
  check "their session ends" logs_out
  rm -f "$wrapped"/text*
  check "a login without any file begins" start_smd "$wrapped"
  check "both are there again" within 30 stands 2 2 3
  check "and begin without one" was_told "a file that can be copied: the program begins without"
  check "their last session ends" logs_out
}

# ---- a manager on libSM

has_libsm_manager() {
  [ -x "$room/libsm_manager" ] || gcc -Wall -Wextra -Werror -O1 -o "$room/libsm_manager" "$here/libsm_manager.c" -lSM -lICE
}

start_libsm_manager() {
  mkfifo "$wrapped/orders$1"
  ICEAUTHORITY=$wrapped/cookies
  # What the one before has printed isn't taken for this one's.
  : > "$wrapped/lines"
  "$room/libsm_manager" "$wrapped/log" "$ICEAUTHORITY" < "$wrapped/orders$1" > "$wrapped/lines" 2>> "$wrapped/said" &
  manager_id=$!
  exec 7> "$wrapped/orders$1"
  within 20 grep -q '^SESSION_MANAGER=' "$wrapped/lines" || return 1
  export ICEAUTHORITY SESSION_MANAGER
  SESSION_MANAGER=$(sed -n 's/^SESSION_MANAGER=//p' "$wrapped/lines")
}

libsm_saves() { echo save >&7; }

# The manager tells its clients to die once they have saved.
libsm_leaves() {
  echo shutdown >&7
  within 30 has_lines "$1" closed "$wrapped/log" || return 1
  exec 7>&-
  ends "$manager_id" 0
}

# The command that the manager would start again: the words are parted by tabs.
last_command() { sed -n 's/^RestartCommand\t//p' "$wrapped/log" | tail -1; }

last_discard() { sed -n 's/^DiscardCommand\t//p' "$wrapped/log" | sed -n "$1p"; }

wrapped_by_libsm() {
  wrapped_anew "$room/wrapped_libsm"
  local old_path=$PATH words
  check "the manager on libSM is built without a warning" has_libsm_manager
  name_program smwrap "python3 '$here/door.py' '$wrapped' || exit 1"
  check "the manager on libSM starts" start_libsm_manager 1
  smwrap $(first_words) < /dev/null &
  two_saves libSM libsm_saves
  check "each save has its own copy to discard" diff <(printf 'rm\t%s\n' "$wrapped/text.1" "$wrapped/text.2") <(last_discard 1,2)
  check "the manager on libSM ends" libsm_leaves 1
  after_logout libSM
  check "the manager on libSM starts again" start_libsm_manager 2
  IFS=$'\t' read -ra words < <(last_command)
  "${words[@]}" < /dev/null &
  editor_comes_back libSM
  check "its ID is the old one" within 20 has_lines 2 "registered ${words[10]}" "$wrapped/log"
  check "the manager on libSM ends again" libsm_leaves 2
  unset ICEAUTHORITY SESSION_MANAGER
  PATH=$old_path
}

# ---- xsm

# xsm's buttons have no names: each is known by its place among the windows of its shell.
# middle SHELL N: the middle of the Nth window of the shell that is shown, and its height.
middle() {
  local shell
  shell=$(xwininfo -root -tree | awk -v shell="(\"$1\" \"XSm\")" 'index($0, shell) { print $1; exit }')
  [ -n "$shell" ] && xwininfo -id "$shell" | grep -q IsViewable || return 1
  xwininfo -id "$shell" -tree | awk -v place="$2" '/ 0x.*\+[0-9]+\+[0-9]+$/ && seen++ == place {
    split($(NF - 1), size, /[x+]/)
    split($NF, at, "+")
    print at[2] + int(size[1] / 2), at[3] + int(size[2] / 2), size[2]
  }'
}

# press SHELL N: once the shell is shown.
press() {
  local x y height
  within 20 middle "$1" "$2" > /dev/null || return 1
  read -r x y height < <(middle "$1" "$2")
  xdotool mousemove "$x" "$y" click 1 && sleep 0.5
}

start_xsm() {
  ICEAUTHORITY=$HOME/.ICEauthority xsm -session wrapped > "$wrapped/lines" 2>> "$wrapped/said" < /dev/null &
  manager_id=$!
}

# In the window for a save stand the session's name, which is typed once, and the button that begins it.
xsm_saves() {
  press xsm 3 && press savePopup 2 && xdotool type wrapped && press savePopup 11 && within 20 test -s "$HOME/.XSM-wrapped"
}

# The button has a menu below it, whose first line is to save and shut down.
xsm_leaves() {
  local x y height
  read -r x y height < <(middle xsm 4)
  xdotool mousemove "$x" "$y" mousedown 1 && sleep 0.5 && xdotool mousemove "$x" $((y + height)) && sleep 0.5 && xdotool mouseup 1
  press savePopup 11
  ends "$manager_id" 0
}

wrapped_by_xsm() {
  local old_path=$PATH old_home=$HOME
  # xsm aborts where the command that it starts again has more than some 230 bytes, so its folder has a short name.
  export HOME=$room/x
  wrapped_anew "$HOME"
  name_program smwrap "python3 '$here/door.py' '$wrapped' || exit 1"
  echo "smwrap $(first_words)" > "$HOME/.xsmstartup"
  check "Xvfb starts for xsm" start_display
  start_xsm
  two_saves xsm xsm_saves
  check "xsm ends" xsm_leaves
  after_logout xsm
  start_xsm
  editor_comes_back xsm
  check "xsm ends again" xsm_leaves
  export HOME=$old_home
  PATH=$old_path
}

copies_of_files() {
  local old_path=$PATH
  text_that_grows
  PATH=$old_path
  lines_of_copies
  PATH=$old_path
}

wrapped_programs() {
  wrapped_by_smd
  copies_of_files
  wrapped_by_libsm
  wrapped_by_xsm
}
