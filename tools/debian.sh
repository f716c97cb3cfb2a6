# What tools/package puts into a package beside the programs: its documents, its fields and what is done as it is installed. The
# package's root, its name and version, and what the kit says of the programs are set there.

maintainer="smd's maintainers <maintainers@users.noreply.yoirben.example>"
[ -z "${DEBFULLNAME-}" ] || [ -z "${DEBEMAIL-}" ] || maintainer="$DEBFULLNAME <$DEBEMAIL>"

# The seconds of the last commit, or where there is no history those of the last release in CHANGELOG.md, or of that file.
date_of_sources() {
  local day
  ! [ -e "$top/.git" ] || ! git -C "$top" log -1 --format=%ct 2> /dev/null || return 0
  day=$(sed -n 's/^## .*, \([0-9]\{4\}-[0-9][0-9]-[0-9][0-9]\)$/\1/p' "$top/CHANGELOG.md" | head -n 1)
  if [ -n "$day" ]; then date -u -d "$day" +%s; else stat -c %Y "$top/CHANGELOG.md"; fi
}

# What changed, in the form that Debian has for it.
changes() {
  echo "$name ($version) unstable; urgency=medium"
  echo
  echo "  * What a user would notice stands in CHANGELOG.md."
  echo
  echo " -- $maintainer  $(LC_ALL=C date -u -R -d "@$SOURCE_DATE_EPOCH")"
}

# The pages that people read, but for those of who changes smd, with what they lead to. A link to what isn't there becomes its text.
pages() {
  local own=$1 file
  for file in README.md CHANGELOG.md docs/*.md docs/man/*.md docs/pictures/* examples/*; do
    case $file in docs/DEVELOPING.md | docs/PROVING.md) continue ;; esac
    install -D -m "$([ -x "$file" ] && echo 755 || echo 644)" "$file" "$own/$file"
  done
  python3 -B tools/links --drop "$own"
}

# What a package is to have besides: its manual pages packed, what changed, what the kit says, and what the owner says of copying.
documents() {
  local manual=$prefix/share/man/man1 own=$prefix/share/doc/$name
  sed -i "s|/usr/share/doc/smd/|/usr/share/doc/$name/|" "$manual"/*.1
  gzip -9n "$manual"/*.1
  (cd "$top" && pages "$own")
  sed -i "s|/usr/share/doc/smd/|/usr/share/doc/$name/|" "$own"/docs/man/*.md
  changes | gzip -9n > "$own/changelog.gz"
  echo "$said" > "$own/proof"
  cat > "$own/copyright" << END
smd, a session manager, was packaged from its own sources.

Copyright: its maintainers.

Licence: the licence is the owner's to choose, and none is chosen yet. Until
then nobody but the owner may copy, change or hand on this package.
END
}

# The version of the C library that the programs want, by what stands in them; one that wants another library is refused.
wanted_library() {
  local others
  command -v readelf > /dev/null || { echo "tools/package: without readelf the package doesn't say which libc6 it wants" >&2; echo libc6; return 0; }
  others=$(readelf -dW "$prefix/bin/"* 2> /dev/null | sed -n 's/.*(NEEDED).*\[\(.*\)\]/\1/p' | grep -vxF -e libc.so.6 -e libm.so.6 | sort -u)
  [ -z "$others" ] || { echo "tools/package: a program wants $others" >&2; return 1; }
  echo "libc6 (>= $(readelf -VW "$prefix/bin/"* 2> /dev/null | grep -o 'GLIBC_[0-9][0-9.]*' | sed s/GLIBC_// | sort -uV | tail -n 1))"
}

# The kilobytes that the package takes once it is installed, by Debian's count: each file in whole ones, and each other entry one.
size_installed() { find "$root/usr" -type f -printf '%s\n' -o -printf '1\n' | awk '{ sum += int(($1 + 1023) / 1024) } END { print sum }'; }

# What the description says of the proof, and what else only one of the two packages says.
fields_of_proof() {
  if [ "$name" = smd ]; then
    echo "Conflicts: smd-unproved"
    echo "Replaces: smd-unproved"
    echo "Description: X session manager that keeps its word"
  else
    echo "Conflicts: smd"
    echo "Replaces: smd"
    echo "Description: X session manager that keeps its word (unproved)"
  fi
}

text_of_proof() {
  if [ "$name" = smd ]; then
    echo " What it sends, starts and keeps is proved, down to what a crash at any moment"
    echo " leaves on the disk."
  else
    echo " These programs are unproved: nobody knows that what was proved of the sources"
    echo " is so of them."
  fi
}

control() {
  local library
  library=$(wanted_library)
  mkdir "$root/DEBIAN"
  {
    cat << END
Package: $name
Version: $version
Architecture: $(dpkg --print-architecture)
Maintainer: $maintainer
Depends: $library
Recommends: xterm | x-terminal-emulator, twm | x-window-manager, zenity | yad | kdialog | x11-utils, default-dbus-session-bus | dbus-session-bus
Provides: x-session-manager
Section: x11
Priority: optional
Installed-Size: $(size_installed)
END
    [ -z "${SMD_HOMEPAGE-}" ] || echo "Homepage: $SMD_HOMEPAGE"
    fields_of_proof
    cat << END
 At a logout it saves the state of every program together, lets programs ask
 about unsaved work one at a time, and starts the same programs again at the
 next login. It speaks the X Session Management Protocol 1.0 over ICE 1.1, for
 sessions of X, and not for those of Wayland.
 .
END
    text_of_proof
  } > "$root/DEBIAN/control"
  (cd "$root" && find usr -type f -print0 | LC_ALL=C sort -z | xargs -0 md5sum) > "$root/DEBIAN/md5sums"
  installed_and_removed
}

# As the package comes the session is one of those that X may be started with, behind those of whole desktops, and as it goes no more.
installed_and_removed() {
  cat > "$root/DEBIAN/postinst" << 'END'
#!/bin/sh
set -e
if [ "$1" = configure ]; then
  update-alternatives --install /usr/bin/x-session-manager x-session-manager /usr/bin/smd-session 20 \
    --slave /usr/share/man/man1/x-session-manager.1.gz x-session-manager.1.gz /usr/share/man/man1/smd-session.1.gz
fi
END
  cat > "$root/DEBIAN/prerm" << 'END'
#!/bin/sh
set -e
if [ "$1" = remove ] || [ "$1" = deconfigure ]; then
  update-alternatives --remove x-session-manager /usr/bin/smd-session
fi
END
  chmod 755 "$root/DEBIAN/postinst" "$root/DEBIAN/prerm"
}
