#!/bin/sh
# Runs the program with these words and this standard input. Where it isn't built yet, or a source
# is newer than it, it is proved and built first; what that says goes to standard error. The status
# is the program's own (0 and 2 to 7), 126 where it couldn't be built, and 127 where it has to be
# built and the toolchain isn't there.
here=$(cd "$(dirname "$0")" && pwd) || exit 126
program=$here/out/mud
# where only the gate has run, the program that it left
[ -x "$program" ] || program=$here/crates/mud/out/mud
if [ ! -x "$program" ] || [ -n "$(find "$here/crates" "$here/crates.txt" -name out -prune -o \
    -type f \( -name '*.rt' -o -name '*.antt' -o -name crates.txt \) -newer "$program" -print | head -n 1)" ]; then
  if ! command -v rt >/dev/null 2>&1; then
    echo "mud: the program has to be built first, and there is no command 'rt': install the Rattle toolchain, put the folder with its 'rt' on the PATH, and run this again (README.md, 'What you need')" >&2
    exit 127
  fi
  sh "$here/build" || exit 126
fi
exec "$program" "$@"
