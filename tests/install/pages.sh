#!/usr/bin/env bash
# pages.sh TOOL LIB: the manual pages. mandoc finds no fault in them; kawsarpa(1) has the commands and options of the tool's help, and its
# examples print what they show; kawsarpa(3) has what the header has, and its programs compile; kawsarpa-table(5) has the keys of a
# description, and its example gives the octets that it shows.
set -eu -o pipefail
export LC_ALL=C

if [ $# -ne 2 ]; then
    echo "usage: pages.sh TOOL LIB" >&2
    exit 2
fi
tool=$(realpath "$1")
lib=$(realpath "$2")
# shellcheck source=tests/install/checks.sh
. "$(dirname "$0")/checks.sh"
tool_page=$top/man/kawsarpa.1
library_page=$top/man/kawsarpa.3
table_page=$top/man/kawsarpa-table.5
warnings=(-Werror -Wall -Wextra -Wpedantic -Wconversion)

for page in "$tool_page" "$library_page" "$table_page"; do
    mandoc -T lint -W warning "$page" >&2 || fail "$(basename "$page"): mandoc warns"
    checks=$((checks + 1))
done

# A section or subsection of a page as it is read, without bold and underlined letters.
section() { # PAGE NAME
    mandoc -T ascii -O width=160 "$1" | sed 's/.\x08//g' | awk -v name="$2" '
        /^ ? ? ?[^ ]/ { inside = $0 == name || $0 == "   " name; next }
        inside'
}

# The displays of a section: lines that stand 11 columns in, and blank ones between such. Two displays are kept apart by what is between.
displays() { # PAGE NAME
    section "$1" "$2" | awk '
        /^           / { if (held != "" && inside) printf "%s", held; held = ""; inside = 1; print substr($0, 12); next }
        /^$/ { held = held "\n"; next }
        { held = ""; if (inside) print "%%"; inside = 0 }'
}

# One of the displays of a section.
display() { # PAGE NAME NUMBER
    displays "$1" "$2" | awk -v number="$3" 'BEGIN { n = 1 } $0 == "%%" { n++; next } n == number'
}

### kawsarpa(1): the commands and options of the help, no more and no fewer

# The options of a subsection, as they are read ("-o, --output=TABLE").
page_options() { # NAME
    section "$tool_page" "$1" | sed -n 's/^     \(-[^ ]*, --\|--\)\([^ ]*\).*/\1\2/p' | sort
}
mapfile -t commands < <(help_commands "$tool")
[ "${#commands[@]}" -gt 1 ] || fail "no commands in the help"
same "kawsarpa(1): COMMANDS are not those of the help" "$(printf '%s\n' "${commands[@]}")" \
    "$(sed -n '/^\.Sh COMMANDS$/,/^\.Sh EXIT/s/^\.Ss //p' "$tool_page")"
same "kawsarpa(1): SYNOPSIS has not the commands of the help" "$(printf '%s\n' "${commands[@]}")" \
    "$(section "$tool_page" SYNOPSIS | sed -n 's/^     kawsarpa \([a-z]*\) .*/\1/p')"
same "kawsarpa(1): not the options of all commands" "$(help_options "$tool")" "$(page_options DESCRIPTION)"
for command in "${commands[@]}"; do
    same "kawsarpa(1): not the options of $command" "$(help_own_options "$tool" "$command")" "$(page_options "$command")"
done

### kawsarpa(1): its examples, in a directory with the tables and captures of the yard; and for echo with a peer that answers

python3 -B "$top/tests/tools/responder.py" 127.0.0.1 "$work/port" good &
responder=$!
trap 'kill $responder 2>/dev/null || true; rm -rf "$work"' EXIT
for ((i = 0; i < 500; i++)); do
    [ ! -e "$work/port" ] || break
    sleep 0.02
done
mkdir "$work/yard" "$work/bin"
cat >"$work/bin/kawsarpa" <<END
#!/usr/bin/env bash
[ "\${1-}" != echo ] || set -- "\$@" --port $(cat "$work/port")
exec "$tool" "\$@"
END
chmod +x "$work/bin/kawsarpa"

# What differs from run to run: ports and times.
steady() {
    sed -E 's/ port [0-9]+/ port P/g; s/[0-9]+\.[0-9]{3} ms$/T ms/; s|[0-9.]+/[0-9.]+/T ms$|T/T/T ms|'
}
cp "$top"/examples/yard/*.yaml "$work/yard"
python3 -B "$top/examples/yard/make-capture.py" "$work/yard"
for name in office gate mast crane; do
    "$tool" compile "$work/yard/$name.yaml" -o "$work/yard/$name"
done
displays "$tool_page" EXAMPLES | sed '/^%%$/d' >"$work/shown"
grep -q '^\$ kawsarpa' "$work/shown" || fail "kawsarpa(1): no examples are found"
for command in "${commands[@]}"; do
    grep -q "^\$ kawsarpa $command " "$work/shown" || fail "kawsarpa(1): no example of $command"
done
while read -r line; do
    echo "\$ $line"
    (cd "$work/yard" && PATH=$work/bin:$PATH bash -c "$line")
done < <(sed -n 's/^\$ //p' "$work/shown") >"$work/printed" 2>&1
same "kawsarpa(1): examples print something else" "$(steady <"$work/shown")" "$(steady <"$work/printed")"

### kawsarpa(3): what the header has, no more and no fewer

printf '#include "kawsarpa.h"\n' >"$work/alone.c"
gcc -std=c99 -I "$top/include" -aux-info "$work/functions" -c -o "$work/alone.o" "$work/alone.c"
section "$library_page" SYNOPSIS >"$work/synopsis.c"
same "kawsarpa(3): SYNOPSIS has not the functions of the header" \
    "$(sed -n 's|^/\* .*/kawsarpa\.h:[0-9]*:[A-Z]* \*/ [^(]*[ *]\([a-z_0-9]*\) (.*|\1|p' "$work/functions" | sort)" \
    "$(sed -n 's/^ *\([a-z_0-9]*\)(.*/\1/p' "$work/synopsis.c" | sort)"
gcc -std=c99 "${warnings[@]}" -I "$top/include" -fsyntax-only "$work/synopsis.c" ||
    fail "kawsarpa(3): SYNOPSIS does not agree with the header"
checks=$((checks + 1))

gcc -std=c99 -I "$top/include" -E -dM "$work/alone.c" >"$work/macros"
{
    sed -n 's/^#define \(KAWSARPA_[A-Z0-9_]*\) ..*/\1/p' "$work/macros" # KAWSARPA_H alone has no value
    sed -n 's/^ *\(KAWSARPA_[A-Z0-9_]*\) = .*/\1/p' "$top/include/kawsarpa.h"
} | sort >"$work/constants"
same "kawsarpa(3): not the constants of the header" "$(cat "$work/constants")" \
    "$(grep -oE '\bKAWSARPA_[A-Z0-9_]*' "$library_page" | sort -u)"
same "kawsarpa(3): a constant has another number" "" \
    "$(sed -n 's/^\.It \([0-9]*\) Ta Dv \([A-Z0-9_]*\) .*/    \2 = \1/p' "$library_page" |
        while read -r line; do grep -qE "^ +$line(,| |\$)" "$top/include/kawsarpa.h" || echo "$line"; done)"
same "kawsarpa(3): a name that the header does not have" "" \
    "$(comm -13 <(grep -oE '\bkawsarpa_[a-z0-9_]*' "$top/include/kawsarpa.h" | sort -u) \
        <(grep -oE '\bkawsarpa_[a-z0-9_]*' "$library_page" | sort -u))"
same "kawsarpa(3): not the structs of the header" "$(sed -n 's/^\(struct kawsarpa_[a-z_]*\) {$/\1/p' "$top/include/kawsarpa.h" | sort)" \
    "$(grep -oE 'struct kawsarpa_[a-z_]*' "$library_page" | sort -u)"

### kawsarpa(3): its examples

display "$library_page" EXAMPLES 1 >"$work/program.c"
gcc -std=c99 "${warnings[@]}" -I "$top/include" -o "$work/program" "$work/program.c" "$lib"
same "kawsarpa(3): the program prints something else" "$(section "$library_page" EXAMPLES | sed -n 's/^     It prints "\(.*\)"\.$/\1/p')" \
    "$("$work/program")"
{
    echo '#include <stdio.h>'
    echo '#include <kawsarpa.h>'
    echo 'void loss(const uint8_t *packet, size_t packet_len);'
    echo 'void loss(const uint8_t *packet, size_t packet_len) {'
    display "$library_page" EXAMPLES 2
    echo '}'
    echo 'void fit(const uint8_t *near_table, size_t near_len, const uint8_t *far_table, size_t far_len);'
    echo 'void fit(const uint8_t *near_table, size_t near_len, const uint8_t *far_table, size_t far_len) {'
    display "$library_page" EXAMPLES 3
    echo '}'
    echo 'void send_on(const uint8_t *result, size_t length);'
    echo 'void burst(const uint8_t *packets, size_t packets_len, const uint32_t *lengths, size_t count, const uint8_t *table,'
    echo '           size_t table_len, uint8_t *out, size_t out_len);'
    echo 'void burst(const uint8_t *packets, size_t packets_len, const uint32_t *lengths, size_t count, const uint8_t *table,'
    echo '           size_t table_len, uint8_t *out, size_t out_len) {'
    display "$library_page" EXAMPLES 4
    echo '}'
    echo 'void tell(const uint8_t *packet, size_t packet_len, const uint8_t *table, size_t table_len, uint8_t *out, size_t out_len);'
    echo 'void tell(const uint8_t *packet, size_t packet_len, const uint8_t *table, size_t table_len, uint8_t *out, size_t out_len) {'
    display "$library_page" EXAMPLES 5
    echo '}'
} >"$work/parts.c"
gcc -std=c99 "${warnings[@]}" -I "$top/include" -c -o "$work/parts.o" "$work/parts.c" || fail "kawsarpa(3): an example does not compile"
same "kawsarpa(3): other calls in the examples" "kawsarpa_call_sequence_ipv6
kawsarpa_loss_offer
kawsarpa_match_table
kawsarpa_call_burst_ipv6
kawsarpa_burst_next" "$(grep -oE '\bkawsarpa_(call_sequence_ipv6|loss_offer|match_table|call_burst_ipv6|burst_next)\(' "$work/parts.c" |
    tr -d '(')"
same "kawsarpa(3): other calls in the example of ICMPv6 messages" "kawsarpa_call_ipv6
kawsarpa_call_icmp_ipv6" "$(grep -oE '\bkawsarpa_(call|call_icmp)_ipv6\(' "$work/parts.c" | tr -d '(')"
for pair in "loss_row:Lost sequence numbers" burst_result:Bursts; do
    struct="struct kawsarpa_${pair%%:*}"
    same "kawsarpa(3): $struct is not that of the header" \
        "$(sed -n "/^$struct {/,/^};/p" "$top/include/kawsarpa.h" | sed '/^#ifdef/,/^#else/d; /^#/d; s|/\*.*||' | tr -d ' ')" \
        "$(section "$library_page" "${pair#*:}" | sed -n "/$struct {/,/};/p" | sed 's|/\*.*||' | tr -d ' ')"
done

### kawsarpa-table(5): the keys of a description, by the schema of the tool

schema_keys() { # RECORD
    sed -n "/ $1_fields\[\] = {\$/,/^};/p" "$top/tools/description.c" |
        sed -n 's/.*\(TEXT\|STRING_PTR\|SEQUENCE\)("\([a-z-]*\)".*/\2/p; s/^ *LIST(\([a-z]*\),.*/\1/p' | sort
}
page_keys() { # NAME
    sed -n "/^\.Ss $1\$/,/^\.S[sh] /s/^\.It Ic //p" "$table_page" | sort
}
for pair in "description:The whole" waypoint:Waypoints policy:Policies entry:Entries rule:Rules; do
    [ -n "$(schema_keys "${pair%%:*}")" ] || fail "no keys of ${pair%%:*} are found in tools/description.c"
    same "kawsarpa-table(5): ${pair#*:} has not the keys that compile takes" "$(schema_keys "${pair%%:*}")" "$(page_keys "${pair#*:}")"
done

### kawsarpa-table(5): its example is that of docs/TABLES.md, and gives these octets

display "$table_page" EXAMPLES 1 >"$work/site.yaml"
same "kawsarpa-table(5): the example is not that of docs/TABLES.md" \
    "$(block yaml "$top/docs/TABLES.md")" "$(cat "$work/site.yaml")"
"$tool" compile "$work/site.yaml" -o "$work/site.table"
same "kawsarpa-table(5): the example's table has another length" "Its table has $(stat -c %s "$work/site.table") octets." \
    "$(section "$table_page" EXAMPLES | grep -o 'Its table has [0-9]* octets\.')"
same "kawsarpa-table(5): the example has other octets" "$(od -An -v -tx1 -N80 "$work/site.table" | tr -d ' \n')" \
    "$(display "$table_page" EXAMPLES 2 | sed 's/^[^:]*://' | tr -d ' \n')"

echo "pages.sh: all $checks checks hold"
