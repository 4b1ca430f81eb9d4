# shellcheck shell=bash
# For the scripts beside it: a work directory, how checks are counted, and what the tool's help lists.

top=$(cd "$(dirname "${BASH_SOURCE[0]}")/../.." && pwd)
work=$(mktemp -d)
trap 'rm -rf "$work"' EXIT
unset ARGP_HELP_FMT # a user's own layout of the help
checks=0

fail() {
    echo "$(basename "$0"): $1" >&2
    exit 1
}

# Two texts are equal; a difference is shown.
same() { # WHAT EXPECTED FOUND
    diff <(printf '%s\n' "$2") <(printf '%s\n' "$3") >&2 || fail "$1"
    checks=$((checks + 1))
}

# The blocks of a document in a language.
block() { # LANGUAGE FILE
    awk -v fence="\`\`\`" -v language="$1" '$0 == fence language { inside = 1; next } $0 == fence { inside = 0 } inside' "$2"
}

# The version in the header.
version() {
    printf '#include "kawsarpa.h"\n#include <stdio.h>\nint main(void) { puts(KAWSARPA_VERSION); }\n' >"$work/version.c"
    gcc -I "$top/include" -o "$work/version" "$work/version.c"
    "$work/version"
}

# The commands that the help lists, one a line.
help_commands() { # TOOL
    "$1" --help | sed -n '/^Commands:$/,/^$/s/^  \([a-z]*\) .*/\1/p'
}

# The options that a command's help lists, as it shows them ("-o, --output=TABLE"), in order of their names; without a command those of all.
help_options() { # TOOL [COMMAND]
    "$@" --help | sed -n 's/^  \(-[^ ],\|   \) \(--[^ ]*\).*/\1 \2/p' | sed 's/^ *//' | LC_ALL=C sort
}

# The options of a command that are its own.
help_own_options() { # TOOL COMMAND
    help_options "$1" "$2" | LC_ALL=C comm -23 - <(help_options "$1")
}
