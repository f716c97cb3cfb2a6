# Sessions by desktop/smd-session: each way to lose a desktop, and the way back.

# A desktop of four programs. Each needs a display, a variable and room on the disk, and comes with its old ID.
make_desktop() {
  desk=$room/yesterday
  stores=$desk/state/smd
  mkdir -p "$desk/bin" "$desk/config/smd" "$desk/run"
  cp "$top/desktop/smd-session" "$top/desktop/smd-ask" "$top/desktop/smd-autostart" "$desk/bin"
  ln -s "$smd" "$desk/bin/smd"
  ln -s "$smctl" "$desk/bin/smctl"
  cat > "$desk/client" << 'CLIENT'
#!/bin/sh
[ -n "$DISPLAY" ] && [ -n "$WANTED" ] && echo "${0##*/}" > "$DISK" || exit 1
case ${WITHOUT-} in *"${0##*-}"*) exit 1 ;; esac
said=$0.said
own=$(sed -n 's/^id //p' "$said" | tail -n 1)
exec "$SMCLIENT" --socket "${SESSION_MANAGER#*:}" --authority "$ICEAUTHORITY" --program "$0" --saves 99 \
  ${own:+--id "$own"} >> "$said"
CLIENT
  chmod +x "$desk/client"
  for name in a b c d; do
    cp "$desk/client" "$desk/client-$name"
    : > "$desk/client-$name.said"
    echo "$desk/client-$name" >> "$desk/config/smd/session"
  done
}

# on_desktop WORD..: the words with the variables of the desktop, and those before them.
on_desktop() {
  env HOME="$desk" XDG_STATE_HOME="$desk/state" XDG_CONFIG_HOME="$desk/config" XDG_RUNTIME_DIR="$desk/run" \
    SMCLIENT="$smclient" DISPLAY=:none WANTED=yes DISK="$desk/disk" "$@"
}

# session_with WORD..: a session without a terminal, with these variables and words of smd-session.
session_with() {
  local variables=()
  while [ $# -gt 0 ] && [[ $1 == *=* ]]; do
    variables+=("$1")
    shift
  done
  on_desktop "${variables[@]}" setsid -w "$desk/bin/smd-session" "$@" < /dev/null > /dev/null 2> "$desk/said"
}

# logs_in WORD..: starts a session with these variables and words, and waits for its manager.
logs_in() {
  at=$desk/run/smd
  rm -rf "$at"
  session_with "$@" &
  session_id=$!
  within 60 answers_any
}

# refused STATUS TEXT WORD..: a session with these words ends so at once, and says the text.
refused() {
  session_with "${@:3}"
  [ $? -eq "$1" ] && was_said "$2"
}

answers_any() { order status > /dev/null 2>&1; }

# has COUNT: whether so many programs are there and saved. A connection counts before its client has registered,
# which nothing outside shows: so it is given a second.
has() { order status | grep -q "^connections $1, records $1, .* idle\$" && sleep 1; }

connected() { order status | grep -q "^connections $1, .* idle\$" && sleep 1; }

leaves() { answers ok shutdown && ends "$session_id" 0; }

kept_list() { on_desktop "$desk/bin/smd-session" --list; }

# kept N COUNT: whether the Nth that can be put back has so many programs.
kept() { kept_list | sed -n "${1}p" | grep -Eq "^[0-9]+  [0-9-]{10} [0-9:]{8}  $2 programs?[, :]"; }

# keeps NAME COUNT: whether so many books are kept of this session.
keeps() { [ "$(ls "$stores/kept" | grep -c "\.$(printf %s "$1" | od -A n -t x1 | tr -d ' \n')\$")" = "$2" ]; }

was_said() { grep -qF "$1" "$desk/said"; }

store_words() { "$smd" store-check --store "$stores/store" "$@"; }

# The IDs of the session that has no name of its own.
ids() { store_words | sed -n '/^session /q; s/^entry //p'; }

# dialog ANSWER: a dialog that gives this answer, and notes the question.
dialog() {
  cat > "$desk/bin/zenity" << DIALOG
#!/bin/sh
for word; do echo "\$word"; done >> "$desk/asked"
echo $1
DIALOG
  chmod +x "$desk/bin/zenity"
}

no_dialog() { rm -f "$desk/bin/zenity" "$desk/asked"; }

was_asked() { grep -qsF "$1" "$desk/asked"; }

# empties TEXT VARIABLE..: a login at which no program can run, and its logout, leave an empty store.
empties() {
  local way=$1
  shift
  check "a login with $way begins" logs_in "$@"
  check "it is told that the programs ended with $way" within 20 was_said "4 of 4 programs had ended five seconds"
  check "the session with $way logs out" leaves
  check "nothing is left of the session with $way" test -z "$(ids)"
  check "the session is kept that was there before $way" kept 1 4
}

# The store as it is read by a program that knows the format from its description alone.
read_otherwise() {
  diff <(store_words --json | grep -v '^  "living": ') <(python3 "$here/stored.py" "$stores/store")
}

# elsewhere WORD..: the words as on a console, where nothing of the session is in the environment.
elsewhere() {
  env -i PATH="$desk/bin:$(dirname "$smctl"):$PATH" HOME="$desk" XDG_STATE_HOME="$desk/state" XDG_RUNTIME_DIR="$desk/run" "$@"
}

# offered_to_forget: the IDs that bash offers behind 'smctl forget'.
offered_to_forget() {
  elsewhere bash -c '. "$1/desktop/completions/smd.bash"; COMP_WORDS=(smctl forget ""); COMP_CWORD=2; _smd; printf "%s\n" "${COMPREPLY[@]}"' \
    bash "$top"
}

two_sessions() {
  check "a first session begins" logs_in
  check "its four programs are saved" within 60 has 4
  check "the first session is left" leaves
  rm "$desk/config/smd/session"
  wanted_ids=$(ids)
  check "the store has four IDs" test "$(wc -w <<< "$wanted_ids")" = 4
  check "the store is what another reader finds" read_otherwise
  check "a store is kept only from the second login on" test "$(kept_list)" = 'no session is kept yet'
  check "the second login begins" logs_in
  check "the four programs come back" within 60 has 4
  check "the store of a living manager is told as such" grep -q '^store in use' <(store_words)
  check "it can be read meanwhile" test "$(ids)" = "$wanted_ids"
  check "smctl finds the session from a console" grep -q '^connections 4, ' <(elsewhere smctl status)
  check "who lives isn't offered to be forgotten" test -z "$(offered_to_forget)"
  check "the store of the second login is kept" kept 1 4
  check "nobody is said to have ended" sleep 6
  check "the second session is left" leaves
  check "who is gone is offered to be forgotten" test "$(offered_to_forget)" = "$wanted_ids"
  check "the programs didn't end" not_said 'had ended'
}

not_said() { ! was_said "$1"; }

# comes_back: the four programs with their IDs.
comes_back() {
  check "the four programs come back after $1" within 60 has 4
  check "they have their IDs after $1" test "$(ids)" = "$wanted_ids"
  for id in $wanted_ids; do check "$id lives after $1" answers live forget "$id"; done
}

answered_dialog() {
  empties 'no display' DISPLAY=
  dialog 2
  check "the next login begins" logs_in
  check "it asked" was_asked 'The last session began with 4 programs and ended with 0.'
  check "it told why" was_asked '4 of 4 programs had ended five seconds after the start.'
  comes_back 'a dialog'
  check "the restored one is the newest" kept 1 4
  no_dialog
  check "the restored session is left" leaves
}

unanswered_dialog() {
  empties 'a broken environment' WANTED=
  dialog ''
  sed -i 's/^echo .*/sleep 60/' "$desk/bin/zenity"
  check "a login that nobody answers begins" logs_in
  check "it asked in vain" was_asked 'ended with 0.'
  check "it went on with the present one" has 0
  check "its session is left" leaves
  no_dialog
  dialog 2
  check "the login after it begins" logs_in
  check "it didn't ask again" test ! -e "$desk/asked"
  check "its session is left too" leaves
  no_dialog
  check "a number that isn't there is refused" refused 1 'nothing is kept under this number' --restore 999
  check "what is no number is refused" refused 1 'usage: smd-session' --restore 0
  check "a restored session begins" logs_in --restore "$(number_of 4)"
  comes_back 'its number was given'
  check "the restored session is left again" leaves
}

# number_of COUNT: the number of the newest that can be put back with so many programs.
number_of() { kept_list | sed -n "s/^\([0-9]*\)  .*  $1 programs.*/\1/p" | head -n 1; }

# answer_of COUNT: the place of its answer in a question.
answer_of() { echo "$(($(kept_list | grep -n "  $1 programs" | head -n 1 | cut -d : -f 1) + 1))"; }

# types LINE: once the terminal asks.
types() {
  within 60 grep -qs 'Which number?' "$desk/typed"
  echo "$1"
  sleep 60
}

# Without a dialog the question stays, until a terminal is there.
answered_terminal() {
  empties 'a full disk' DISK=/dev/full
  check "a login without a dialog begins" logs_in
  check "it says what is lost" was_said 'The last session began with 4 programs and ended with 0.'
  check "its session ends" leaves
  at=$desk/run/smd
  rm -rf "$at"
  on_desktop script -qfec "$desk/bin/smd-session" "$desk/typed" \
    < <(types "$(answer_of 4)") > /dev/null 2>&1 &
  session_id=$!
  check "a login on a terminal begins" within 60 answers_any
  check "it asked there" grep -q 'Which number?' "$desk/typed"
  comes_back 'an answer on the terminal'
  check "the session on the terminal is left" leaves
}

# stand_in NAME LINE..: a program of this name in the way of the session's, which does these lines.
stand_in() {
  printf '%s\n' '#!/bin/sh' "${@:2}" > "$desk/bin/$1"
  chmod +x "$desk/bin/$1"
}

store_sum() { cksum < "$stores/store"; }

# full_disk: nothing can be kept.
full_disk() {
  local before
  before=$(store_sum)
  mv "$stores/kept" "$stores/away"
  : > "$stores/kept"
  check "nothing is restored where nothing can be kept" refused 1 "isn't put back: smd: the session can't be kept" --restore 1
  check "nothing begins anew where nothing can be kept" refused 1 "smd: the session can't be kept" --anew
  check "the store is as it was where nothing can be kept" test "$(store_sum)" = "$before"
  check "a login begins where nothing can be kept" logs_in
  check "it says so" was_said "can't be kept: is the disk full?"
  check "it goes on" within 60 has 4
  check "its session is left where nothing can be kept" leaves
  rm "$stores/kept"
  mv "$stores/away" "$stores/kept"
}

# login_over FOLDER WORD..: what a login does to the state in this folder.
login_over() { "$smd" login --store "$1/store" --kept "$1/kept" "${@:2}" > "$desk/told" 2>&1; }

# book_in FOLDER: what its store has.
book_in() { "$smd" store-check --store "$1/store" --json; }

# killed_at CALLS N FOLDER: a login that puts the wanted number back, killed at the Nth of these system calls.
killed_at() {
  rm -rf "$3"
  cp -a "$desk/before" "$3"
  (
    strace -f -o "$desk/calls" -e "trace=$1" -e "inject=$1:signal=SIGKILL:when=$2" \
      "$smd" login --store "$3/store" --kept "$3/kept" --choice "$wanted_number"
    exit $?
  ) > /dev/null 2>&1
  [ $? -eq 137 ]
}

# killed_login: one that is killed at any step, and is given again, comes to the same.
killed_login() {
  local calls step wanted kills=0
  wanted_number=$(number_of 4)
  cp -a "$stores" "$desk/before"
  cp -a "$stores" "$desk/after"
  check "a login puts a session back" login_over "$desk/after" --choice "$wanted_number"
  wanted=$(book_in "$desk/after")
  for calls in rename fsync,fdatasync pwrite64 unlink,unlinkat; do
    step=1
    while killed_at "$calls" "$step" "$desk/killed"; do
      kills=$((kills + 1))
      login_over "$desk/killed" --choice "$wanted_number"
      check "a login that was killed at $calls $step comes to the same" test "$(book_in "$desk/killed")" = "$wanted"
      # The opening writes each page once more, which is one step.
      [ "$calls $step" != 'pwrite64 2' ] || step=4096
      step=$((step + 1))
    done
  done
  check "a login was killed at each step" test "$kills" -ge 10
}

# modes: nobody else may read what is kept.
modes() {
  [ "$(stat -c %a "$stores" "$stores/kept" "$stores/store" "$stores"/kept/* | sort | uniq -c | awk '{ print $2 }' | xargs)" = '600 700' ]
}

# second_login: while a manager has the store, another login changes nothing.
second_login() {
  local before
  check "a login begins that isn't the only one" logs_in
  check "its programs are there" within 60 has 4
  before=$(kept_list)
  check "nothing is restored beside it" refused 1 "isn't put back: smd: disk fault" --restore 1
  check "no other manager gets its store" refused 1 'another manager has the store'
  check "nothing else is kept" test "$(kept_list)" = "$before"
  check "its programs are still there" has 4
  check "it is left" leaves
}

# both_at_once: of two logins at the same moment one has the session.
both_at_once() {
  local other
  at=$desk/run/smd
  rm -rf "$at"
  session_with &
  session_id=$!
  session_with &
  other=$!
  check "one of two logins begins" within 60 answers_any
  check "its programs come back" within 60 has 4
  check "the other one ends" within 60 one_gone "$session_id" "$other"
  is_gone "$session_id" && session_id=$other
  check "the one that began is left" leaves
  check "its session is kept whole" kept 1 4
}

one_gone() { is_gone "$1" || is_gone "$2"; }

# session_words NAME: what the store has of a session.
session_words() { "$smd" sessions --store "$stores/store" | grep "^session $1 "; }

epoch() { store_words --json | sed -n 's/^  "epoch": \([0-9]*\).*/\1/p'; }

# notes_words: from here on the words of each call of smd stand in a file.
notes_words() {
  rm "$desk/bin/smd"
  stand_in smd "echo \"\$*\" >> '$desk/words'" "exec '$smd' \"\$@\""
}

notes_no_words() { ln -sf "$smd" "$desk/bin/smd"; }

# asked_by NAME: whether the store was asked by this session's name, but where all that stands in it was to be told.
asked_by() {
  local asked
  asked=$(grep -F "store-check --store $stores/store" "$desk/words" | grep -v -e '--json$')
  [ -n "$asked" ] && ! grep -qvF -e "--session $1" <<< "$asked"
}

# one_comes_back: a restore puts one session back. The other one of the store stays, and the epoch doesn't fall.
one_comes_back() {
  local other before
  cp "$desk/client" "$desk/client-e"
  : > "$desk/client-e.said"
  echo "$desk/client-e" > "$desk/config/smd/session.work"
  notes_words
  check "another session begins" logs_in work
  notes_no_words
  check "its store is asked by its name" asked_by work
  check "its program is saved" within 60 has 1
  check "it is left" leaves
  other=$(session_words work)
  before=$(epoch)
  check "the store has it" test -n "$other"
  check "the first session is put back beside it" logs_in --restore "$(number_of 4)"
  check "its four programs come back beside another session" within 60 has 4
  check "they have their IDs beside it" test "$(ids | head -n 4)" = "$wanted_ids"
  check "the other session stayed" test "$(session_words work)" = "$other"
  check "the epoch rose" test "$(epoch)" -gt "$before"
  check "the session that was put back is left" leaves
}

# begins_anew: a session begins as at its first login, another one of the store stays, and what it had comes back by its number.
begins_anew() {
  local other before name
  other=$(session_words work)
  before=$(epoch)
  # A program of the first login has no ID of its own yet.
  for name in a b c d; do
    mv "$desk/client-$name.said" "$desk/client-$name.before"
    : > "$desk/client-$name.said"
    echo "$desk/client-$name" >> "$desk/config/smd/session"
  done
  check "a session begins anew" logs_in --anew
  check "the programs of its list are started" within 60 has 4
  check "none of them has an ID of before" test -z "$(ids | grep -xF "$wanted_ids")"
  check "the other session stays beside a new one" test "$(session_words work)" = "$other"
  check "no epoch is given twice for a new one" test "$(epoch)" -gt "$before"
  check "the new one is left" leaves
  check "what the session had is kept" kept 1 4
  rm "$desk/config/smd/session"
  for name in a b c d; do mv "$desk/client-$name.before" "$desk/client-$name.said"; done
  check "it is put back where another one had begun" logs_in --restore "$(number_of 4)"
  comes_back 'a new beginning'
  check "the session is left that was put back behind a new one" leaves
}

# leaves_empty NAME: a login to this session at which its programs can't run, and its logout.
leaves_empty() { logs_in DISPLAY= "$1" && within 20 was_said 'had ended five seconds' && leaves; }

# works: a login to the session `work`, whose list has one program, and its logout.
works() { logs_in work && within 60 has 1 && leaves; }

# two_in_one_store: what is lost of one session is asked about, and kept, whatever the other one does.
two_in_one_store() {
  local round
  make_desktop
  cp "$desk/client" "$desk/client-e"
  : > "$desk/client-e.said"
  echo "$desk/client-e" > "$desk/config/smd/session.work"
  check "a first session begins beside another" logs_in
  check "its programs are saved beside another" within 60 has 4
  check "it is left beside another" leaves
  rm "$desk/config/smd/session"
  wanted_ids=$(ids)
  check "the other one begins" works
  check "the first one begins again beside it" logs_in
  check "its programs come back beside it" within 60 has 4
  check "it is left again beside it" leaves
  check "the first one is left empty" leaves_empty default
  check "the other one begins after the loss" works
  dialog 2
  check "the login after both begins" logs_in
  check "it asks, though another session began since" was_asked 'The last session began with 4 programs and ended with 0.'
  comes_back 'a login of another session'
  no_dialog
  check "it is left after the question" leaves
  for round in 1 2 3 4; do
    : > "$desk/client-e.said"
    check "login $round of the other one leaves nothing" leaves_empty work
    dialog 1
    check "login $round of the other one begins anew" works
    no_dialog
  done
  check "the first one is still kept" test -n "$(number_of 4)"
  check "the first one is left empty once more" leaves_empty default
  dialog 2
  check "the last login begins" logs_in
  check "it asks behind eight logins of another session" was_asked 'The last session began with 4 programs and ended with 0.'
  comes_back 'eight logins of another session'
  no_dialog
  check "it is left last" leaves
}

# session_without NAMES: a login at which these programs don't start, and its logout.
session_without() {
  local there=0
  for name in a b c d; do case $1 in *$name*) ;; *) there=$((there + 1)) ;; esac; done
  logs_in WITHOUT="$1" && within 60 connected "$there" && leaves
}

five_at_most() {
  for without in d cd bcd abcd; do
    check "a session without $without is left" session_without "$without"
  done
  check "the fuller ones are kept" kept 4 4
  check "the oldest is taken" logs_in --restore "$(number_of 4)"
  comes_back 'four smaller ones'
  check "it is left once more" leaves
  check "a session with another book is left" session_without a
  check "one with the sixth book begins" logs_in
  check "five are kept and no more" keeps default 5
  check "the last session is left" leaves
}

damage() {
  printf x | dd of="$stores/store" bs=1 seek=80 conv=notrunc 2> /dev/null
  printf x | dd of="$stores/store" bs=1 seek=8388688 conv=notrunc 2> /dev/null
}

damaged_store() {
  damage
  dialog 1
  check "a damaged store that is to stay starts nothing" refused 1 'smd: store damaged at'
  check "it asked" was_asked 'Which session is to start?'
  check "the store is as it was" was_said "$(store_words)"
  no_dialog
  check "a kept session is taken in its place" logs_in --restore "$(number_of 4)"
  comes_back 'a damage'
  check "the damaged store lies aside" test -s "$stores/store.damaged"
  check "the session in its place is left" leaves
  damage
  check "where nobody can be asked the newest is taken" logs_in
  comes_back 'a second damage'
  check "the session is left that nobody was asked about" leaves
}

# lost_store: one that is gone comes back from what is kept, with an epoch of its own.
lost_store() {
  local before
  before=$(epoch)
  rm "$stores/store"
  dialog 2
  check "a login begins where the store is gone" logs_in
  check "it asked for what is gone" was_asked 'Which session is to start?'
  comes_back 'a loss of the store'
  no_dialog
  check "no ID is given twice behind it" test "$(epoch)" -ge "$((before + 65535))"
  check "the session is left that was lost" leaves
}

# verdict FILE: what store-check prints of it, and its status.
verdict() {
  "$smd" store-check --store "$1"
  echo $?
}

# serves FILE: what a session over it prints behind the place at which it listens, and its status.
serves() {
  timeout 30 "$smd" serve --socket "$desk/socket" --control "$desk/control" --store "$1" \
    --authority "$desk/authority" < /dev/null 2> /dev/null | tail -n +2
  echo "${PIPESTATUS[0]}"
}

# judged STATUS TEXT SIZE [OFFSET BYTES]..: so a file of zeros of this size with these bytes is told and served.
judged() {
  local file=$desk/judged wanted
  wanted=$(printf '%s\n%s' "$2" "$1")
  rm -f "$file"
  truncate -s "$3" "$file"
  chmod 600 "$file"
  shift 3
  while [ $# -gt 0 ]; do
    printf '%b' "$2" | dd of="$file" bs=1 seek="$1" conv=notrunc 2> /dev/null
    shift 2
  done
  [ "$(verdict "$file")" = "$wanted" ] && [ "$(serves "$file")" = "$wanted" ]
}

# Each kind of damage and of size is told as a session over it tells it, with the same status.
judgements() {
  local size=16777280
  check "an empty file has the size 0" judged 3 'smd: store has size 0' 0
  check "a byte less is another size" judged 3 'smd: store has size 16777279' 16777279
  check "a byte more is another size" judged 3 'smd: store has size 16777281' 16777281
  check "two slots of one generation are a damage" judged 2 'smd: store damaged at 64' $size 0 '\xa5' 32 '\xa5'
  check "a length that can't be is a damage" judged 2 'smd: store damaged at 72' $size 0 '\xa5' 72 '\xff\xff\xff\xff'
  check "what is no book is a damage" judged 2 'smd: store damaged at 8388688' $size \
    32 '\xa5' 8388680 '\x10' 8388688 '\x03'
  check "what is no amendment is a damage" judged 2 'smd: store damaged at 96' $size \
    0 '\xa5' 72 '\x10' 80 '\x01' 96 '\xa5\x01'
}

# alike STATUS TEXT STORE WORD..: so a session over a store is answered with these words, and store-check tells it first.
alike() {
  local wanted told answered
  wanted=$(printf '%s\n%s' "$2" "$1")
  told=$("$smd" store-check --store "$3" "${@:4}" 2> "$desk/told"; echo $?)
  answered=$(timeout 30 "$smd" serve --socket "$desk/socket" --control "$desk/control" --store "$3" --authority "$desk/authority" \
    "${@:4}" < /dev/null 2> "$desk/answered"; echo $?)
  [ "$(sed -n '1p;$p' <<< "$told")" = "$wanted" ] && [ "$(grep -v '^SESSION_MANAGER=' <<< "$answered")" = "$wanted" ] &&
    diff "$desk/told" "$desk/answered"
}

# begins STORE WORD..: whether store-check says so of a session over a store.
begins() { "$smd" store-check --store "$@" | grep -q '^store opens: '; }

# What is told first of a store is what a session over it is answered, for this user and a name.
refusals() {
  local store=$desk/refusing
  python3 "$here/full_store.py" "$store" 1 a b c d e f g h
  check "a ninth session isn't begun" alike 12 'smd: too many sessions' "$store" --session i
  check "nor is that of no name, where it isn't there" alike 12 'smd: too many sessions' "$store" --session default
  check "one of the eight is begun" begins "$store" --session h
  check "the store itself opens" begins "$store"
  check "a ninth session has its status in JSON" ends_with 12 "$smd" store-check --store "$store" --json --session i
  python3 "$here/full_store.py" "$store" 4294967295 a
  check "a worn store begins nothing" alike 8 'smd: store worn' "$store" --session a
  python3 "$here/full_store.py" "$store" 1 a
  check "a store is begun" begins "$store" --session a
  chmod 640 "$store"
  check "a store that others may read begins nothing" alike 4 'smd: disk fault' "$store"
  chmod 600 "$store"
  ln -s "$store" "$desk/leading"
  check "a link begins nothing" alike 4 'smd: disk fault' "$desk/leading"
  chown 1:1 "$store" 2> /dev/null && check "a store of another user begins nothing" alike 4 'smd: disk fault' "$store"
  check "what is no name is a bad word" ends_with 1 "$smd" store-check --store "$store" --session ''
}

# reads_only FILE: whether it is opened for reading, and nothing is written but the report.
reads_only() {
  local before
  before=$(stat -c '%Y %Z %i' "$1"; cksum < "$1")
  strace -f -o "$desk/calls" "$smd" store-check --store "$1" > /dev/null || return 1
  [ "$(stat -c '%Y %Z %i' "$1"; cksum < "$1")" = "$before" ] || return 1
  [ "$(grep -F "\"$1\"" "$desk/calls" | grep -c 'O_RDONLY')" = 1 ] || return 1
  ! grep -E 'O_WRONLY|O_RDWR|O_CREAT|pwrite|ftruncate|unlink|rename|mkdir' "$desk/calls" > /dev/null
}

# no_store: what isn't a file isn't read, and a missing one isn't made.
no_store() {
  check "a missing store is a fault of the disk" test "$(verdict "$desk/none" 2> /dev/null)" = "$(printf 'smd: disk fault\n4')"
  check "it isn't made" test ! -e "$desk/none"
  check "a folder is a fault of the disk" test "$(verdict "$desk" 2> /dev/null)" = "$(printf 'smd: disk fault\n4')"
  mkfifo "$desk/pipe"
  check "a pipe is a fault of the disk" test "$(verdict "$desk/pipe" 2> /dev/null)" = "$(printf 'smd: disk fault\n4')"
}

# What asks, by itself.
asks() {
  local ask=$desk/bin/smd-ask
  check "nobody is asked without a terminal and a display" ends_with 2 env DISPLAY= setsid -w "$ask" q a b
  check "nobody is asked at a display that isn't there" ends_with 2 env DISPLAY=:none setsid -w "$ask" q a b
  check "a terminal answers" grep -qx 2 <(on_terminal 2 "$ask" q a b | tr -d '\r')
  check "a number that isn't there is no answer" grep -q 'status 1' <(on_terminal 7 "$ask" q a b)
  check "a terminal that nobody answers ends" grep -q 'status 1' <(on_terminal '' "$ask" --seconds 1 q a b)
  check "a terminal that another has isn't asked" grep -q 'status 2' \
    <(on_terminal 2 bash -c 'set -m; "$@" & wait $!' ask "$ask" q a b)
  for tool in zenity kdialog yad; do
    stand_in "$tool" 'echo "a warning" >&2' 'echo 2'
    check "$tool answers" test "$(PATH=$desk/bin:$PATH DISPLAY=:none "$ask" q a b)" = 2
    stand_in "$tool" 'sleep 2' 'echo "cannot open display: :none" >&2' 'exit 1'
    check "$tool isn't there without its display" ends_with 2 \
      env PATH="$desk/bin:$PATH" DISPLAY=:none setsid -w "$ask" q a b
    rm "$desk/bin/$tool"
  done
  stand_in xmessage 'exit 102'
  check "xmessage answers" test "$(PATH=$desk/bin:$PATH DISPLAY=:none "$ask" q a b)" = 2
  rm "$desk/bin/xmessage"
  [ -n "${DISPLAY-}" ] || check "Xvfb starts for a dialog" start_display
  check "a dialog that nobody answers ends" ends_with 1 "$ask" --seconds 3 q a b
}

# ends_with STATUS WORD..
ends_with() {
  "${@:2}" > /dev/null 2>&1
  [ $? -eq "$1" ]
}

# on_terminal LINE WORD..: the words on a terminal of their own, on which somebody types the line.
on_terminal() {
  local line=$1
  shift
  (sleep 2; echo "$line"; sleep 2) | DISPLAY= script -qec "$(printf '%q ' "$@"); echo status \$?" /dev/null
}

# recorded_sessions: with SMD_RECORD the records of the last three sessions stay, and each replays.
recorded_sessions() {
  local number name
  for number in 1 2 3 4; do
    check "recorded login $number begins" logs_in SMD_RECORD=yes
    check "the four programs are there in recorded login $number" within 60 has 4
    check "recorded login $number is left" leaves
  done
  check "three records stay" test "$(ls "$stores/records" | wc -l)" = 3
  for name in "$stores"/records/*; do
    check "the record ${name##*/} replays" replays "$name"
  done
  check "a login without SMD_RECORD begins" logs_in
  check "it is left" leaves
  check "no record was made of it" test "$(ls "$stores/records" | wc -l)" = 3
}

yesterday() {
  make_desktop
  two_sessions
  answered_dialog
  unanswered_dialog
  answered_terminal
  full_disk
  killed_login
  check "nobody else may read what is kept" modes
  second_login
  both_at_once
  check "a store is read and not written" reads_only "$stores/store"
  five_at_most
  damaged_store
  lost_store
  one_comes_back
  begins_anew
  recorded_sessions
  judgements
  refusals
  no_store
  asks
  rm -rf "$desk"
  two_in_one_store
}
