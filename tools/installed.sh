# What tools/install, tools/uninstall and tools/package share: the folder to install into, and what goes there.
. "$(dirname "${BASH_SOURCE[0]}")/programs.sh"

[ $# -eq 1 ] && [ -n "$1" ] || { echo "usage: tools/$(basename "$0") PREFIX" >&2; exit 2; }
prefix=$1
installed="smd smctl smtrace smclient smrelay smwrap smnest"
scripts="smd-session smd-ask smd-logout smd-autostart"
# What the kit says of the programs that were installed.
proof=share/doc/smd/proof
# Where zsh looks for what goes with a system of its own; a distribution's is another one.
zsh=share/zsh/site-functions

# each_file CALL: calls with the mode, the file of the repository and its place under the prefix.
each_file() {
  local name page
  for name in $installed; do
    "$1" 755 "crates/$name/out/$name" "bin/$name"
  done
  for name in $scripts; do
    "$1" 755 "desktop/$name" "bin/$name"
  done
  "$1" 644 desktop/smd.desktop share/xsessions/smd.desktop
  "$1" 644 desktop/smd-logout.desktop share/applications/smd-logout.desktop
  for name in $installed $scripts; do
    "$1" 644 desktop/completions/smd.bash "share/bash-completion/completions/$name"
    "$1" 644 desktop/completions/smd.fish "share/fish/vendor_completions.d/$name.fish"
  done
  "$1" 644 desktop/completions/_smd "$zsh/_smd"
  for page in "$top"/docs/man/*.1; do
    "$1" 644 "docs/man/$(basename "$page")" "share/man/man1/$(basename "$page")"
  done
}
