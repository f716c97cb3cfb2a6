# The package for Debian: how it is made, a session from it, and that nothing is left of it.

# The programs that are checked, in one folder.
make_package() {
  local name
  mkdir "$room/programs" && for name in smd smctl smtrace smclient smrelay smwrap smnest; do
    cp "${!name}" "$room/programs/$name" || return 1
  done
  package=$("$top/tools/package" "$room/package" "$room/programs")
}

no_error() { ! lintian "$package" 2> /dev/null | tee "$room/lintian" | grep '^E:'; }

# The root of this machine, with a folder of its own for all that changes there; its temporary folders are empty.
in_own_root() {
  unshare -m sh -c '
    mount -t overlay overlay -o "lowerdir=/,upperdir=$1/upper,workdir=$1/work" "$1/tree" &&
    mount -t proc proc "$1/tree/proc" && mount --rbind /dev "$1/tree/dev" &&
    mount -t tmpfs tmpfs "$1/tree/tmp" && mount -t tmpfs tmpfs "$1/tree/mnt" &&
    cp "$2" "$1/tree/mnt/smd.deb" && cp "$3" "$1/tree/mnt/packaged" && exec chroot "$1/tree" /mnt/packaged /mnt/smd.deb
  ' - "$quick/own" "$package" "$here/packaged"
}

# Whether such a root can be had here: not in each container.
can_overlay() {
  unshare -m mount -t overlay overlay -o "lowerdir=/,upperdir=$quick/own/upper,workdir=$quick/own/work" "$quick/own/tree" 2> /dev/null
}

# What is there in the root of its own, or is gone from it, but for the notes of the packages' manager and the lists of manuals and desktop entries.
left_behind() {
  (
    cd "$quick/own/upper" && find . ! -type d -o -type d -empty
  ) | grep -Ev '^\./(var/(lib/dpkg|log|cache/(man|debconf|ldconfig))|mnt|tmp|run|usr/share/applications/mimeinfo.cache)(/|$)' | while read -r name; do
    [ -d "$quick/own/upper/$name" ] && [ -d "/$name" ] || echo "$name"
  done
}

leaves_nothing() { [ -z "$(left_behind)" ] || { left_behind | sed 's/^/left: /'; return 1; }; }

packaged() {
  check "a package is made of the programs" make_package
  check "lintian finds no error in the package" no_error
  mkdir -p "$quick/own/upper" "$quick/own/work" "$quick/own/tree"
  if ! can_overlay; then
    echo "peers/check: no root of its own can be mounted here, so the package isn't installed"
    return
  fi
  check "the package is installed, has two logins, and is taken out" timed 300 bash -c "$(declare -f in_own_root); quick=$quick package=$package here=$here in_own_root"
  check "nothing is left of the package" leaves_nothing
}
