# shellcheck shell=bash
# Completion for kawsarpa(1) in bash: commands, the options of each, and files.

# The options of a command; without one, those of all.
_kawsarpa_options() { # COMMAND
    case $1 in
    compile) echo -o --output ;;
    check) echo -i --inner --json -q --quiet ;;
    match) echo --near --via --far --both --json -q --quiet ;;
    explain) echo -f --fault -m --match ;;
    translate) echo --table --icmp --trace --json -q --quiet ;;
    trip) echo --near --via --far -o --output --json -q --quiet ;;
    loss) echo --csv --json ;;
    echo) echo -4 --ipv4 -6 --ipv6 -c --count --first -i --interval -I --source --json --port -q --quiet --source-port -W --timeout ;;
    esac
    echo --help --usage --version
}

# What stands behind an option: a file, something that is not completed, or nothing of its own.
_kawsarpa_value() { # OPTION
    case $1 in
    -o | --output | --near | --via | --far | --table | --icmp) echo file ;;
    -i | --inner | -c | --count | --first | --interval | -I | --source | --port | --source-port | -W | --timeout) echo other ;;
    esac
}

_kawsarpa_words() { # WORDS BEGINNING
    mapfile -t COMPREPLY < <(compgen -W "$1" -- "$2")
}

# Names of files and directories. Readline quotes them, and looks itself where none is found, as behind a quotation mark.
_kawsarpa_files() { # BEGINNING
    compopt -o filenames -o default 2>/dev/null # which fails where no completion is under way
    mapfile -t COMPREPLY < <(compgen -f -- "$1")
}

_kawsarpa() {
    local word=${COMP_WORDS[COMP_CWORD]} before=${COMP_WORDS[COMP_CWORD - 1]} command='' value i
    COMPREPLY=()

    # --near=TABLE comes as the words --near, = and TABLE
    if [[ $word == = ]]; then
        word=''
    elif [[ $before == = ]]; then
        before=${COMP_WORDS[COMP_CWORD - 2]}
    fi

    # the first word that is no option is the command
    for ((i = 1; i < COMP_CWORD; i++)); do
        if [[ ${COMP_WORDS[i]} != -* ]]; then
            command=${COMP_WORDS[i]}
            break
        fi
    done

    value=$(_kawsarpa_value "$before")
    if [[ $value == file ]]; then
        _kawsarpa_files "$word"
    elif [[ $value == other ]]; then
        return
    elif [[ $word == -* || $command == match ]]; then
        _kawsarpa_words "$(_kawsarpa_options "$command")" "$word"
    elif [[ -z $command ]]; then
        _kawsarpa_words 'compile show check match explain translate trip loss echo' "$word"
    elif [[ $command != explain && $command != echo ]]; then # which take a number, and an address
        _kawsarpa_files "$word"
    fi
}

complete -F _kawsarpa kawsarpa
