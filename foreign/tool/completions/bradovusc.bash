# Completions of bradovusc for bash: commands, options, files, and the names of rules.

_bradovusc_commands='check pair which accept add withdraw list recheck script sheet help'
_bradovusc_for_all='--json --help --version'

# The options of a command besides those of all.
_bradovusc_options() { # COMMAND
    case $1 in
    check) echo --against --part --format --max --clashes-only --summary --room --seconds --threads ;;
    pair) echo --format --room --seconds --steps --repair ;;
    which) echo --csv --column --separator --summary ;;
    accept) echo --new --max --room --seconds --threads ;;
    add) echo --room --new --bytes ;;
    withdraw | list) echo --bytes ;;
    recheck) echo --format --max --clashes-only --summary --room --seconds --threads --bytes ;;
    esac
}

# What the words behind a command are. A last one with two dots may stand again and again.
_bradovusc_form() { # COMMAND
    case $1 in
    check) echo FILE.. ;;
    pair | script | sheet) echo FILE RULE RULE ;;
    which) echo FILE LABEL.. ;;
    accept) echo FILE FILE ;;
    add) echo CATALOGUE FILE RULE ;;
    withdraw) echo CATALOGUE NUMBER ;;
    list | recheck) echo CATALOGUE ;;
    help) echo COMMAND ;;
    esac
}

# What the word behind an option is; nothing if the option takes none.
_bradovusc_value() { # OPTION
    case $1 in
    --room | --threads | --bytes | --max | --seconds | --part | --column) echo NUMBER ;;
    --against | --csv) echo FILE ;;
    --format) echo FORMAT ;;
    --separator) echo SEPARATOR ;;
    esac
}

# The names of the rules in a file. Quotes, \ and ~ are still those of the line.
_bradovusc_rules() { # FILE
    local file=${1/#\~\//$HOME/}
    file=${file//[\\\"\']/}
    [ ! -f "$file" ] || sed -n 's/^\([A-Za-z0-9_-]\{1,\}\)[[:blank:]]*=.*/\1/p' "$file"
}

# What may stand in the place of a word of this kind. NUMBER and LABEL: nothing is offered.
_bradovusc_offer() { # KIND WORD FILE
    case ${1%..} in
    FILE | CATALOGUE) compgen -f -- "$2" ;;
    RULE) compgen -W "$(_bradovusc_rules "$3")" -- "$2" ;;
    COMMAND) compgen -W "$_bradovusc_commands" -- "$2" ;;
    FORMAT) compgen -W 'text json short github sarif' -- "$2" ;;
    SEPARATOR) compgen -W 'tab' -- "$2" ;;
    esac
}

# What stands before the word: `before` is the last one, `plain` are those that are neither options nor the values of options.
_bradovusc_read() {
    local each
    # bash parts --room=7 at its =
    for each in "${COMP_WORDS[@]:1:COMP_CWORD-1}"; do
        if [ "$each" = = ]; then continue; fi
        if [[ $each != -?* && -z $(_bradovusc_value "$before") ]]; then plain+=("$each"); fi
        before=$each
    done
}

# What kind of word stands behind the words of a command; `file` is the first file among them.
_bradovusc_kind() {
    local index
    read -r -a form <<<"$(_bradovusc_form "${plain[0]}")"
    for index in "${!form[@]}"; do
        [[ ${form[index]} != FILE* ]] || { file=${plain[index + 1]:-} && break; }
    done
    kind=${form[${#plain[@]} - 1]:-}
    # the last one again
    if [ -z "$kind" ] && [[ ${form[*]} == *.. ]]; then kind=${form[-1]}; fi
}

_bradovusc() {
    local word=${COMP_WORDS[COMP_CWORD]} before='' file='' kind
    local -a plain=() form=()
    [ "$word" != = ] || word=''
    _bradovusc_read
    kind=$(_bradovusc_value "$before")
    if [ -z "$kind" ] && [[ $word == -* ]]; then
        mapfile -t COMPREPLY < <(compgen -W "$(_bradovusc_options "${plain[0]:-}") $_bradovusc_for_all" -- "$word")
        return
    fi
    if [ -z "$kind" ] && [ ${#plain[@]} = 0 ]; then
        kind=COMMAND
    elif [ -z "$kind" ]; then
        _bradovusc_kind
    fi
    case ${kind%..} in FILE | CATALOGUE) compopt -o filenames 2>/dev/null ;; esac
    mapfile -t COMPREPLY < <(_bradovusc_offer "$kind" "$word" "$file")
}

complete -F _bradovusc bradovusc
