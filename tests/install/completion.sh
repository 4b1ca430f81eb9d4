#!/usr/bin/env bash
# completion.sh TOOL: sources the completion and asks it for words, as bash does, without a terminal. It has the commands and options of
# the tool's help, and files where the tool takes files.
set -eu -o pipefail
export LC_ALL=C

if [ $# -ne 1 ]; then
    echo "usage: completion.sh TOOL" >&2
    exit 2
fi
tool=$(realpath "$1")
# shellcheck source=tests/install/checks.sh
. "$(dirname "$0")/checks.sh"
# shellcheck source=packaging/kawsarpa.bash
. "$top/packaging/kawsarpa.bash"
same "no completion is set" "complete -F _kawsarpa kawsarpa" "$(complete -p kawsarpa)"

# What is offered for the last of these words, one a line, in order.
offered() { # WORD...
    COMP_WORDS=(kawsarpa "$@")
    COMP_CWORD=$#
    COMP_LINE="${COMP_WORDS[*]}"
    COMP_POINT=${#COMP_LINE}
    COMPREPLY=(left over)
    _kawsarpa kawsarpa "${COMP_WORDS[COMP_CWORD]}" "${COMP_WORDS[COMP_CWORD - 1]}"
    [ "${#COMPREPLY[@]}" -eq 0 ] || printf '%s\n' "${COMPREPLY[@]}" | sort
}
offers() { # EXPECTED WORD...
    local expected=$1
    shift
    same "other words are offered for: kawsarpa $*" "$expected" "$(offered "$@")"
}

### commands

commands=$(help_commands "$tool")
offers "$(sort <<<"$commands")" ''
offers "$(sort <<<"$commands")" --usage ''
offers $'translate\ntrip' tr
offers match m
offers '' nonsense

### the options of the help, long and short, but for -? and -V

words() { # of lines such as "-o, --output=TABLE"
    tr -d , | tr ' ' '\n' | sed 's/=.*//; /^-[?V]$/d' | sort
}
cd "$work"
touch a.pcap b.yaml 'two words'
mkdir folder
files=$'a.pcap\nb.yaml\nfolder\ntwo words'
offers "$(help_options "$tool" | words)" -
values=0
for command in $commands; do
    offers "$(help_options "$tool" "$command" | words)" "$command" -
    while read -r option; do
        name=${option##*, }
        offers "$(help_options "$tool" "$command" | words | grep -e "^${name%%=*}")" "$command" "${name%%=*}"
        case $option in
        *=TABLE | *=OUT.pcap | *=ICMP.pcap) # a file behind the long name, behind = and behind the short name
            offers "$files" "$command" "${name%%=*}" ''
            offers b.yaml "$command" "${name%%=*}" b
            offers "$files" "$command" "${name%%=*}" =
            offers b.yaml "$command" "${name%%=*}" = b
            [[ $option != -?,* ]] || offers "$files" "$command" "${option%%,*}" ''
            values=$((values + 1))
            ;;
        *=OCTETS | *=NUMBER | *=SECONDS | *=PORT | *=ADDRESS)
            offers '' "$command" "${name%%=*}" ''
            [[ $option != -?,* ]] || offers '' "$command" "${option%%,*}" ''
            values=$((values + 1))
            ;;
        *=*) fail "$command: nothing is known of the value of $option" ;;
        esac
    done < <(help_own_options "$tool" "$command")
done
[ "$values" -gt 1 ] || fail "no options with values in the help"

### files, numbers and addresses where there is no option

for command in compile show check translate trip loss; do
    offers "$files" "$command" ''
    offers 'two words' "$command" tw
    offers '' "$command" none
done
offers "$files" trip --near a --far b ''
offers "$files" translate --table a in.pcap ''
offers "$(help_options "$tool" match | words)" match ''
offers "$(help_options "$tool" match | words)" match --near a ''
offers '' explain ''
offers '' explain --match ''
offers '' echo ''
offers '' echo -c 3 ''

echo "completion.sh: all $checks checks hold"
