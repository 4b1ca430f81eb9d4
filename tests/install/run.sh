#!/usr/bin/env bash
# run.sh: what `make install` puts into a directory of its own, that it builds nothing where nothing is missing, two C programs that find
# the library there by pkg-config, the version everywhere, and what `make uninstall` leaves. The library and the tool are built before.
set -eu -o pipefail

if [ $# -ne 0 ]; then
    echo "usage: run.sh" >&2
    exit 2
fi
# shellcheck source=tests/install/checks.sh
. "$(dirname "$0")/checks.sh"
archive=$top/target/staticlib/libkawsarpa.a
tool=$top/target/tools/kawsarpa
for built in "$archive" "$tool"; do
    [ -e "$built" ] || fail "$built is not built"
done

# A make of its own: without the options and variables of one that runs this script.
make_top() { # ARGUMENT...
    env -u MAKEFLAGS -u MFLAGS -u MAKELEVEL -u PREFIX -u DESTDIR make --no-print-directory -C "$top" "$@"
}

# Modes and names of all that stands in a tree.
listed() { # TREE
    (cd "$1" && find . -mindepth 1 -printf '%m %y %P\n' | LC_ALL=C sort -k 3)
}

### the files and their modes, whatever the umask is

tree=$work/tree
state() {
    stat -c '%n %Y %i %s' "$archive" "$tool"
}
before=$(state)
(umask 077 && make_top install DESTDIR="$tree") >"$work/output"
same "make install has built something" "$before" "$(state)"
if grep -E '(^|&& )(rt|gcc) ' "$work/output"; then
    fail "make install builds what is there"
fi
same "other files or modes are installed" "755 d usr
755 d usr/local
755 d usr/local/bin
755 f usr/local/bin/kawsarpa
755 d usr/local/include
644 f usr/local/include/kawsarpa.h
755 d usr/local/lib
644 f usr/local/lib/libkawsarpa.a
755 d usr/local/lib/pkgconfig
644 f usr/local/lib/pkgconfig/kawsarpa.pc
755 d usr/local/share
755 d usr/local/share/bash-completion
755 d usr/local/share/bash-completion/completions
644 f usr/local/share/bash-completion/completions/kawsarpa
755 d usr/local/share/man
755 d usr/local/share/man/man1
644 f usr/local/share/man/man1/kawsarpa.1
755 d usr/local/share/man/man3
644 f usr/local/share/man/man3/kawsarpa.3
755 d usr/local/share/man/man5
644 f usr/local/share/man/man5/kawsarpa-table.5" "$(listed "$tree")"

installed=$tree/usr/local
for pair in "$tool:bin/kawsarpa" "$top/include/kawsarpa.h:include/kawsarpa.h" "$archive:lib/libkawsarpa.a" \
    "$top/packaging/kawsarpa.bash:share/bash-completion/completions/kawsarpa"; do
    cmp "${pair%:*}" "$installed/${pair##*:}" >&2 || fail "${pair##*:} is not what was built"
    checks=$((checks + 1))
done
same "paths of the sources or of the tree are in what is installed" "" "$(grep -rlaF -e "$top" -e "$work" "$tree" || true)"
same "something is not filled in" "" "$(grep -rlaE '@[a-z]+@' "$installed/lib/pkgconfig" "$installed/share" || true)"

### the version: of the header, and the same everywhere

version=$(version)
same "the tool is of another version" "kawsarpa $version, table format 1
proofs checked with $(cat "$top/rt.version")" "$("$installed/bin/kawsarpa" --version)"
for page in "$installed"/share/man/man?/*; do
    same "$page is of another version" "Kawsarpa $version" "$(mandoc -T ascii "$page" | sed -n '$s/  .*//p')"
done
same "README.md shows another version" "$("$tool" --version)" \
    "$(sed -n '/^    \$ kawsarpa --version$/,/^$/{/^    \$/d; s/^    //p}' "$top/README.md")"
same "CHANGELOG.md begins with another version" "$version" "$(sed -n 's/^## \([0-9.]*\).*/\1/p' "$top/CHANGELOG.md" | head -n 1)"

### the C program of README.md, by pkg-config

found() { # ARGUMENT...
    PKG_CONFIG_SYSROOT_DIR=$tree PKG_CONFIG_LIBDIR=$installed/lib/pkgconfig pkg-config "$@"
}
same "kawsarpa.pc is of another version" "$version" "$(found --modversion kawsarpa)"
same "kawsarpa.pc says another prefix" /usr/local "$(PKG_CONFIG_LIBDIR=$installed/lib/pkgconfig pkg-config --variable=prefix kawsarpa)"
block c "$top/README.md" >"$work/example.c"
expected=$(sed -n "s/^It prints \`\(.*\)\`\.\$/\1/p" "$top/README.md")
[ -n "$expected" ] || fail "README.md does not say what its program prints"
for static in '' -static; do
    read -ra flags <<<"$static $(found --cflags kawsarpa) $work/example.c $(found ${static:+--static} --libs kawsarpa)"
    (cd "$work" && gcc -std=c99 -Werror -Wall -Wextra -Wpedantic -Wconversion -o example "${flags[@]}")
    same "the program of README.md prints something else" "$expected" "$("$work/example")"
done

# and the forwarder, by the line of its README
line=$(sed -n 's/^    \(gcc .*pkg-config.*\)/\1/p' "$top/examples/forwarder/README.md")
cp "$top/examples/forwarder/forwarder.c" "$work"
(cd "$work" && PKG_CONFIG_SYSROOT_DIR=$tree PKG_CONFIG_LIBDIR=$installed/lib/pkgconfig bash -c "$line")
same "the forwarder has another usage" "usage: forwarder TABLE IN.pcap OUT.pcap" "$("$work/forwarder" --help | head -n 1)"

### uninstall: nothing is left but what others put there

echo theirs >"$installed/bin/theirs"
make_top uninstall DESTDIR="$tree" >"$work/output"
same "uninstall leaves other files" "755 d usr
755 d usr/local
755 d usr/local/bin
644 f usr/local/bin/theirs" "$(listed "$tree")"
rm "$installed/bin/theirs"
make_top uninstall DESTDIR="$tree" >"$work/output"
same "uninstall leaves directories" "" "$(listed "$tree")"
make_top uninstall DESTDIR="$work/none" >"$work/output"
[ ! -e "$work/none" ] || fail "uninstall makes a directory"

### other directories, and a blank in a name

tree="$work/another tree"
directories=(PREFIX=/usr libdir=/usr/lib/x86_64-linux-gnu mandir=/opt/man DESTDIR="$tree")
make_top install "${directories[@]}" >"$work/output"
same "other directories: other files" "opt/man/man1/kawsarpa.1
opt/man/man3/kawsarpa.3
opt/man/man5/kawsarpa-table.5
usr/bin/kawsarpa
usr/include/kawsarpa.h
usr/lib/x86_64-linux-gnu/libkawsarpa.a
usr/lib/x86_64-linux-gnu/pkgconfig/kawsarpa.pc
usr/share/bash-completion/completions/kawsarpa" "$(cd "$tree" && find . -type f -printf '%P\n' | LC_ALL=C sort)"
same "other directories: another kawsarpa.pc" "prefix=/usr
includedir=\${prefix}/include
libdir=\${prefix}/lib/x86_64-linux-gnu" "$(head -n 3 "$tree/usr/lib/x86_64-linux-gnu/pkgconfig/kawsarpa.pc")"
make_top uninstall "${directories[@]}" >"$work/output"
same "other directories: uninstall leaves something" "" "$(listed "$tree")"

echo "run.sh: all $checks checks hold"
