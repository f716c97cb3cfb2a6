# What smd refuses at its start, and who can reach its files.

# refuses STATUS WORD..: whether smd ends so with these words, and by itself.
refuses() {
  local wanted=$1
  shift
  timeout 20 "$smd" serve "$@" < /dev/null > "$room/refused" 2>&1
  [ $? -eq "$wanted" ]
}

# refuses_path STATUS NAME PATH WORD..: the same, where all paths but this one are good, and these words follow.
refuses_path() {
  local words=()
  for name in socket control store authority; do
    words+=("--$name")
    if [ "$name" = "$2" ]; then words+=("$3"); else words+=("$room/other/$name"); fi
  done
  refuses "$1" "${words[@]}" "${@:4}"
}

# what_is FILE: all by which one sees that it is the same file.
what_is() { stat -c '%d %i %s %a %y' "$1"; }

# unharmed WORD..: whether the words hold, and the running smd's files are as before.
unharmed() {
  local before after
  before=$(for name in socket control store authority; do what_is "$at/$name"; done)
  "$@" || return 1
  after=$(for name in socket control store authority; do what_is "$at/$name"; done)
  [ "$before" = "$after" ] && answers 'connections 0, records 0, pending 0, epoch 1, idle' status
}

# untouched FILE WORD..: whether the words hold, and the file has the bytes that it had.
untouched() {
  local before
  before=$(what_is "$1"; cksum < "$1")
  "${@:2}" && [ "$(what_is "$1"; cksum < "$1")" = "$before" ]
}

second_managers() {
  check "smd starts on its store" start_smd "$room/doors"
  check "a second smd on the same store is refused" unharmed refuses_path 4 store "$at/store"
  check "a socket that is taken is refused" unharmed refuses_path 5 socket "$at/socket"
  check "a control socket that is taken is refused" unharmed refuses_path 5 control "$at/control"
  check "smd ends at a shutdown without clients" logs_out
  check "the sockets are gone at the end" test ! -e "$at/socket" -a ! -e "$at/control"
}

# The path of a file in the room whose name makes it so many bytes long.
long_path() { printf '%s/%0*d' "$room" "$(($1 - ${#room} - 1))" 0; }

bad_paths() {
  local plain=$room/plain
  echo "a plain file" > "$plain"
  mkdir -p "$room/folder"
  for path in relative "$room/a:b" "$room/a,b"; do
    check "clients couldn't name the socket $path" refuses_path 5 socket "$path"
  done
  for path in "$(long_path 108)" "$room/none/socket" "$room/folder"; do
    check "the socket $path is refused" refuses_path 5 socket "$path"
    check "the control socket $path is refused" refuses_path 5 control "$path"
  done
  check "a plain file is no socket" untouched "$plain" refuses_path 5 socket "$plain"
  check "a plain file is no control socket" untouched "$plain" refuses_path 5 control "$plain"
  check "both sockets can't be one" refuses_path 5 control "$room/other/socket"
  check "a store of another size is refused" untouched "$plain" refuses_path 3 store "$plain"
  check "its size is told" grep -qx 'smd: store has size 13' "$room/refused"
  ln -s "$plain" "$room/link"
  check "a symbolic link is no store" untouched "$plain" refuses_path 4 store "$room/link"
  truncate -s 16777280 "$room/shared" && chmod 640 "$room/shared"
  check "a store that others may read is refused" refuses_path 4 store "$room/shared"
  check "its mode is told" grep -q 'others may use it: its mode must be 600' "$room/refused"
  if [ "$(id -u)" -eq 0 ]; then
    truncate -s 16777280 "$room/others" && chmod 600 "$room/others" && chown 1:1 "$room/others"
    check "a store of another user is refused" refuses_path 4 store "$room/others"
    check "its owner is told" grep -q 'its owner is another user' "$room/refused"
  fi
  check "it keeps its mode" test "$(stat -c %a "$room/shared")" = 640
  check "a folder is no store" refuses_path 4 store "$room/folder"
  check "a store in no folder is refused" refuses_path 4 store "$room/none/store"
  check "an authority file in no folder is refused" refuses_path 4 authority "$room/none/authority"
  check "an empty path is refused" refuses_path 1 socket ''
  check "a missing word is refused" refuses 1 --socket "$room/other/socket"
  check "nothing is left at the refused sockets" test ! -e "$room/other/socket" -a ! -e "$room/other/control"
  check "two places can't be one file" refuses_path 4 authority "$room/other/../other/store"
  check "the store that it names is untouched" test "$(stat -c %s "$room/other/store")" = 16777280
}

# with_words STATUS WORD..: whether smd ends so with these words before good paths.
with_words() { refuses "$@" --socket "$room/other/socket" --control "$room/other/control" \
  --store "$room/other/store" --authority "$room/other/authority"; }

# recording FOLDER RECORD: an smd in the folder, whose record lies there; gives back once it listens.
recording() {
  at=$1
  mkdir -p "$at"
  mapfile -t paths < <(paths_of "$at")
  : > "$at/lines"
  "$smd" serve "${paths[@]}" --record "$2" < /dev/null > "$at/lines" 2> "$at/said" &
  smd_id=$!
  within 30 grep -qxF "SESSION_MANAGER=local/$HOSTNAME:$at/socket" "$at/lines"
}

# same FILE WORD..: whether the words hold, and what stands there is the same file, which may have grown.
same() {
  local before
  before=$(stat -c '%d %i %F' "$1")
  "${@:2}" && [ "$(stat -c '%d %i %F' "$1")" = "$before" ]
}

# goes_without FILE: whether a session goes on whose record would lie where this file does, and says so.
goes_without() { recording "$room/recording" "$1" && logs_out && grep -q "isn't recorded in $1: " "$at/said"; }

# makes_way FILE: whether the record of a session takes the place of this file.
makes_way() {
  local before
  before=$(what_is "$1")
  recording "$room/recording" "$1" && logs_out && [ ! -s "$at/said" ] && replays "$1" && [ "$(what_is "$1")" != "$before" ]
}

# The record is a fifth place, and takes that of an old record alone.
records_at() {
  local other=$room/other
  check "a store for the records' sake" with_words_ends
  for path in "$other/store" "$other/../other/store"; do
    check "the record can't be the store by $path" untouched "$other/store" refuses_path 4 store "$other/store" --record "$path"
  done
  ln "$other/store" "$room/twin" && ln -s "$other/store" "$room/way" && ln -s "$room/missing" "$room/dangling"
  check "the record can't be a second name of the store" untouched "$other/store" \
    refuses_path 4 store "$other/store" --record "$room/twin"
  check "the record can't be a link to the store" untouched "$other/store" refuses_path 4 store "$other/store" --record "$room/way"
  check "the record can't be a link to a store that is missing" refuses_path 4 store "$room/missing" --record "$room/dangling"
  check "such a store isn't made" test ! -e "$room/missing"
  rm "$room/twin"
  check "the record can't be the authority file" refuses_path 4 store "$other/store" --record "$other/authority"
  check "the record can't be its lock" refuses_path 4 store "$other/store" --record "$other/authority.lock"
  check "the record can't be the socket" refuses_path 5 store "$other/store" --record "$other/socket"
  check "the record can't be the control socket" refuses_path 5 store "$other/store" --record "$other/control"
  check "nothing stands at its sockets" test ! -e "$other/socket" -a ! -e "$other/control"
  echo "a plain file, longer than the line with which each record begins" > "$room/text"
  : > "$room/empty"
  mkfifo "$room/queue"
  python3 -c 'import socket, sys; socket.socket(socket.AF_UNIX).bind(sys.argv[1])' "$room/door"
  for path in text empty; do
    check "what lies at $path stays" untouched "$room/$path" goes_without "$room/$path"
  done
  for path in queue door folder dangling; do
    check "what lies at $path stays" same "$room/$path" goes_without "$room/$path"
  done
  if [ "$(id -u)" -eq 0 ] && mknod "$room/device" c 1 3 2> /dev/null; then
    check "a device stays" same "$room/device" goes_without "$room/device"
  fi
  check "a record is made" recording "$room/recording" "$room/recording/record"
  check "its session ends" logs_out
  check "the record is its user's alone" is_private record
  check "an old record makes way" makes_way "$room/recording/record"
}

# with_words_ends: whether a session at these paths begins and ends.
with_words_ends() { recording "$room/other" "$room/first-record" && logs_out; }

# A second smd that is refused leaves the record of the first alone, and so does one that isn't.
records_of_two() {
  check "a session is recorded" recording "$room/two" "$room/two/record"
  local first=$at first_id=$smd_id
  check "a second smd on its store leaves its record" same "$first/record" \
    refuses_path 4 store "$first/store" --record "$first/record"
  check "a second smd at its socket leaves its record" same "$first/record" \
    refuses_path 5 socket "$first/socket" --record "$first/record"
  check "a second smd with its authority file leaves its record" same "$first/record" \
    refuses_path 4 authority "$first/authority" --record "$first/record"
  check "a second smd on all else leaves its record" same "$first/record" goes_without "$first/record"
  check "a second smd leaves its control socket" same "$first/control" goes_without "$first/control"
  at=$first smd_id=$first_id
  check "the first session ends" logs_out
  check "its record replays" replays "$at/record"
}

# The options of the links stand among the pairs in any order, each once.
option_words() {
  check "--private stands once" with_words 1 --private --private
  check "--quirks stands once" with_words 1 --quirks --private --quirks
  check "--record stands once" with_words 1 --record "$room/once" --quirks --record "$room/twice"
  for waits in '1 1' '0 5' '5 0' '0 0'; do
    # shellcheck disable=SC2086 # two numbers
    check "--last-wait stands once, and not with $waits" with_words 1 --last-wait ${waits% *} --private --last-wait ${waits#* }
  done
  for wait in x 05 -1 '' 18446744073709551616; do
    check "the last wait is no '$wait'" with_words 1 --last-wait "$wait"
  done
  check "--last-wait has a value" refuses_path 1 authority "$room/other/authority" --last-wait
  check "a path called --private is a path" refuses_path 5 socket --private
  at=$room/options
  mkdir "$at"
  "$smd" serve --last-wait 0 --socket "$at/socket" --private --control "$at/control" --patience 5000 \
    --store "$at/store" --authority "$at/authority" < /dev/null > "$at/lines" 2>> "$at/said" &
  smd_id=$!
  check "the options stand in any order" within 30 grep -qsxF "SESSION_MANAGER=local/$HOSTNAME:$at/socket" "$at/lines"
  check "a session with them logs out" logs_out
}

longest_path() {
  at=$room/longest
  mkdir "$at"
  local path
  path=$(long_path 107)
  "$smd" serve --socket "$path" --control "$at/control" --store "$at/store" --authority "$at/authority" \
    < /dev/null > "$at/lines" 2>> "$at/said" &
  smd_id=$!
  within 30 grep -qsxF "SESSION_MANAGER=local/$HOSTNAME:$path" "$at/lines" && logs_out
}

# is_private NAME: whether the file is the user's alone.
is_private() { [ "$(stat -c %a "$at/$1")" = 600 ]; }

permissions() {
  local before
  before=$(umask)
  umask 0
  check "smd starts under an open umask" start_smd "$room/open"
  umask "$before"
  for name in socket control store authority; do
    check "the $name is the user's alone" is_private "$name"
  done
  check "the session under an open umask ends" logs_out
}

# A stale socket of an smd that was killed.
taken_over() {
  check "smd starts to be killed" start_smd "$room/stale"
  kill -KILL "$smd_id"
  ends "$smd_id" 137 2> /dev/null
  check "the killed smd leaves its sockets" test -S "$at/socket" -a -S "$at/control"
  check "the next smd takes them over" start_smd "$room/stale"
  check "the next smd ends well" logs_out
}

doors() {
  mkdir -p "$room/other"
  second_managers
  bad_paths
  check "a socket of 107 bytes is taken" longest_path
  records_at
  records_of_two
  option_words
  permissions
  taken_over
}
