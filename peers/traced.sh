# The system calls of smd on its files, as strace shows them.

# traced TEST TEXT
traced() {
  local folder
  folder=$(mktemp -d)
  check "$2" timed 60 python3 "$here/traced.py" "$smd" "$folder" "$1"
}

# faulty TEST TEXT
faulty() {
  local folder
  folder=$(mktemp -d)
  check "$2" timed 300 python3 "$here/faults.py" "$smd" "$folder" "$1"
}

system_calls() {
  traced first_start "a store is made, synced and named, and all is written in its order"
  traced one_round "a client hears that its save is complete when it is on the disk"
  traced short_writes "what the system doesn't take of a checkpoint is written behind it"
  traced short_publishing "what the system doesn't take of the authority file is written behind it"
  traced short_making "what the system doesn't take of a new store is written behind it"
  traced taken_store "a second smd tries the store's lock for two seconds, and does nothing more"
  traced held_authority "a second smd leaves the authority file of a living one alone"
  traced late_record "a record begins with the book that was opened, and isn't made before the store is taken"
  traced one_place "an smd of whose places two are one touches nothing"
  traced bad_socket "an smd that can't listen at its path touches nothing"
  traced failed_opening "a store that can't be synced at its opening isn't read"
  traced failed_sync "behind a sync that failed nothing is written"
  traced no_hard_links "on a file system without hard links nothing is left behind"
  faulty first_session "where a call fails that makes a store, smd ends, and the next smd begins"
  faulty later_session "where a call fails on a store, smd ends, and the next smd finds what was told"
  faulty replaced_store "a store that is replaced while it is opened isn't taken"
  faulty name_taken "a store that comes to be while one is made is opened"
}
