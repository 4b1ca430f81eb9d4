#!/usr/bin/env bash
# toolchain.sh: compares the toolchain that is installed with the one of rt.version, with which the proofs were checked. Another one is
# said loudly, with status 0: whether the proofs hold with it is for `rt ci` to say. Without any the status is 1.
set -eu

named=$(cat "$(dirname "$0")/../../rt.version")
if ! found=$(rt version); then
    echo "rt is not installed: the proofs need the Rattle toolchain" >&2
    exit 1
fi
[ "$found" != "$named" ] || exit 0

line=$(printf '%0100d' 0 | tr 0 '*')
cat <<END
$line
*** ANOTHER TOOLCHAIN than the one of rt.version
***   rt.version: $named
***   installed:  $found
*** The proofs were checked with the first. Whether they hold with the second, \`rt ci\` decides.
$line
END
