# Completion of kuambyte's commands, words and options for bash. Source this file, or put it by the name kuambyte where bash-completion looks.

# A line for each command: its words in their order, by their names, and then its options. The first line is for the place of the command itself, and control
# takes other words once it is known what is asked of it.
_kuambyte_table=':COMMAND:--help --version
help:COMMAND:
--help:COMMAND:
lookup:--private --public --tenant --profile:-o --help
send:--private --public --tenant --profile --layers --order --bits:--rv --edition --text -o --help
receive:--private --public --tenant --profile --octets --layers --order:--rv --edition --plain --text -o --help
check:--private --public --tenant --profile --z:--plain --text -o --help
control:--kind --bits --length:--text -o --help
control send:--kind --bits:--text -o --help
control receive:--kind --length:--text -o --help
nearest:--length:--text -o --help
shelf:--kind --file:-o --help
show:--record --z:--svg -o --help
plan:--record --octets --layers --order:--edition -o --help
pack:--kind:-o --help
unpack:--kind:-o --help
put:--private --tenant --profile:-o --help
remove:--private --tenant --profile:-o --help
day::-o --help
numbers::-o --help
replay::--help'

_kuambyte() {
    local cur=${COMP_WORDS[COMP_CWORD]} command='' kind='' behind='' given=' ' count=0 i word
    ((COMP_CWORD == 1)) || command=${COMP_WORDS[1]}

    # What stands before the cursor: the names and options, how many words without a name, and behind what the cursor is, if that wants a value.
    for ((i = 2; i < COMP_CWORD; i++)); do
        word=${COMP_WORDS[i]}
        if [[ $behind ]]; then
            [[ $behind != --kind ]] || kind=$word
            behind=''
            continue
        fi
        case $word in
        --help | --text | --plain | --svg) given+="$word " ;;
        -o | --* | [\<\>]*) given+="$word " behind=$word ;;
        *) count=$((count + 1)) kind=${kind:-$word} ;;
        esac
    done

    local name names options left=() words=''
    case $command:$kind in
    control:send | control:receive) command+=" $kind" ;;
    esac
    while IFS=: read -r name names options; do
        [[ $name != "$command" ]] || break
    done <<<"$_kuambyte_table"
    # As the program reads them: words without a name take the places that the names leave, in their order.
    for word in $names; do
        [[ $given == *" $word "* ]] || ((count-- > 0)) || left+=("$word")
    done

    # A word that begins with no dash stands in the first of these places.
    [[ $behind || $cur == -* ]] || behind=${left[0]-nothing}
    COMPREPLY=()
    case $behind in
    -o | --private | --public | --record | --file | [\<\>]*)
        # Nothing of ours: readline's own file names, which it quotes as they need.
        compopt -o default
        return
        ;;
    COMMAND)
        words=$options
        while IFS=: read -r name _; do
            [[ $name == *[\ -]* ]] || words+=" $name"
        done <<<"$_kuambyte_table"
        ;;
    --kind)
        words='private public'
        [[ $command != control* ]] || words='send receive'
        ;;
    --edition) words='1 2' ;;
    --rv) words='0 1 2 3' ;;
    '')
        # Behind a dash: the names of these places, and options that are not given yet.
        for word in "${left[@]}" $options; do
            [[ $given == *" $word "* ]] || words+=" $word"
        done
        ;;
    esac
    mapfile -t COMPREPLY < <(compgen -W "$words" -- "$cur")
}

complete -F _kuambyte kuambyte
