# How smd tells the time to those who wait for it.

times_told() {
  local name
  for name in silent beside delayed stopped strange lasting idle; do
    mkdir "$room/timely-$name"
    aside "$name" 240 python3 "$here/timely.py" "$smd" "$room/timely-$name" "$name"
  done
  check "eight silent clients have the whole patience" came_through silent
  check "a silent client is closed beside one that talks" came_through beside
  check "who is asked behind a slow commit has the whole patience" came_through delayed
  check "who has answered while smd stood still is heard" came_through stopped
  check "who has shown the cookie while smd stood still comes in" came_through strange
  check "who is told to die behind a slow commit has the whole last wait" came_through lasting
  check "an smd of whose clients nobody is waited for asks nothing of the system" came_through idle
}
