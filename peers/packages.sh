# The packages of Debian that the parts of peers/check, and tools/checks, need beside bash, and how they are installed.

# What every part needs.
basic='python3 procps bsdutils'
compiler='gcc libc6-dev libsm-dev libice-dev'
qt6="$compiler g++ qt6-base-dev qt6-qpa-plugins"
display='xvfb xdotool x11-utils x11-xserver-utils'
desktop="$display x11-apps xterm twm gkrellm featherpad tmux"
editor="$display $compiler tmux nano x11-session-utils"
xfce="$desktop $qt6 openbox emacs-lucid xfwm4 xfce4-panel xfdesktop4 xfce4-terminal thunar xfce4-settings dbus-daemon"
packer='lintian binutils'
# What tools/checks looks at pages, completions and packages with.
pages='mandoc fish zsh'
greeter="$desktop lightdm lightdm-gtk-greeter dbus-daemon"
texts='openbox emacs-lucid xfwm4 xfconf dbus-daemon kwrite'
needed="$xfce $texts $editor $packer $pages $greeter dbus-bin strace $basic"

# missing PACKAGE..: those of the packages that aren't installed; where there is no Debian, all of them.
missing() {
  for package in "$@"; do
    dpkg-query -W -f '${Status}\n' "$package" 2> /dev/null | grep -q ' installed$' || echo "$package"
  done
}

has_lists() { [ -n "$(find /var/lib/apt/lists -name '*_Packages*' -print -quit 2> /dev/null)" ]; }

can_install() { [ "$(id -u)" -eq 0 ] && command -v apt-get > /dev/null; }

# Installs what is missing, where somebody can do so here.
install_packages() {
  local packages
  packages=$(missing $needed | sort -u)
  [ -n "$packages" ] || return 0
  can_install || return 1
  export DEBIAN_FRONTEND=noninteractive
  has_lists || apt-get update -q > /dev/null || return 1
  apt-get install -y -q --no-install-recommends $packages > /dev/null
}

# The parts that are left out, a line each.
left_out=()
# How long each of the others took, by the clock.
took=()

# part PACKAGES TEXT WORD..: calls the words where these packages and the basic ones are installed. Otherwise it is kept
# what was left out for lack of which.
part() {
  local lacking begun=$SECONDS
  lacking=$(missing $basic $1 | sort -u | tr '\n' ' ')
  if [ -z "$lacking" ]; then
    "${@:3}"
    took+=("$2 $((SECONDS - begun))")
  else
    left_out+=("$2, for lack of ${lacking% }")
  fi
}

# start_beside WORD..: calls the words, which call parts, beside all that comes until join_beside. They have a home, and count,
# for themselves.
start_beside() {
  mkdir "$room/beside"
  (
    export HOME=$room/beside
    passed=0 failed=0 left_out=() took=()
    "$@" > "$room/beside/printed" 2>&1
    printf '%s\n' "$passed $failed" "${took[@]/#/took }" "${left_out[@]/#/left_out }" > "$room/beside/counted"
  ) < /dev/null &
  beside_id=$!
}

# join_beside: waits for them, shows what they printed, and counts them in.
join_beside() {
  local more_passed more_failed kind text
  wait "$beside_id"
  beside_id=
  cat "$room/beside/printed"
  check "what ran beside came to its end" test -s "$room/beside/counted"
  {
    read -r more_passed more_failed
    while read -r kind text; do
      case $kind in took) took+=("$text") ;; left_out) left_out+=("$text") ;; esac
    done
  } < "$room/beside/counted"
  passed=$((passed + ${more_passed:-0}))
  failed=$((failed + ${more_failed:-0}))
}
