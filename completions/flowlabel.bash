# Completion of flowlabel and of the commands flowlabel-NAME for bash. `make install` copies it to where bash-completion
# finds it, for each command.

# The options of a command.
_flowlabel_options() {
    local filters='--protocol --sport --dport --saddress --daddress --packets --bytes'
    filters+=' --src-label --dst-label --any-label'
    local numbers='--in-if --out-if --vlan --src-as --dst-as'
    case $1 in
    label | cat) echo --pmap --list --help ;;
    info) echo --help ;;
    rows) echo --pmap --list "$filters" --columns --help ;;
    uniq) echo --fields --pmap --list "$filters" --sort-output --columns --help ;;
    shrink) echo --pmap --certificate --compact --help ;;
    check) echo --pmap --list --cert --help ;;
    recert) echo --cert --help ;;
    sum) echo --by --fields --pmap --list "$filters" "$numbers" --allow-skipped --columns --help ;;
    messages) echo --help ;;
    esac
}

# The fields that may follow the last comma of a list of fields, or be the first field.
_flowlabel_fields() {
    local begun='' field more=''
    [[ $1 != *,* ]] || begun=${1%,*},
    [[ ${COMP_WORDS[0]} != *-many ]] || more='in-if out-if vlan src-as dst-as'
    for field in sip dip sport dport proto flags src-label dst-label $more; do
        [[ ,$begun == *,$field,* ]] || echo "$begun$field"
    done
}

# A word without its quotes and backslashes.
_flowlabel_plain() {
    local word=${1//[\"\']/}
    word=${word//\\/}
    printf '%s' "${word/#\~\//$HOME/}"
}

# The labels of the map or the list that is on the line.
_flowlabel_labels() {
    local index option='' file=''
    for ((index = 2; index < ${#COMP_WORDS[@]} - 1; index++)); do
        case ${COMP_WORDS[index]} in
        --pmap | --list)
            option=${COMP_WORDS[index]} file=${COMP_WORDS[index + 1]}
            [[ $file != = ]] || file=${COMP_WORDS[index + 2]}
            ;;
        esac
    done
    local program=${COMP_WORDS[0]%-many}
    [[ -z $option ]] || "$(_flowlabel_plain "$program")" cat "$option" "$(_flowlabel_plain "$file")" 2>/dev/null |
        sed 1d | cut -d '|' -f 3- | LC_ALL=C sort -u | grep .
}

# Completes a label, which may have blanks.
_flowlabel_label() {
    local label begun
    begun=$(_flowlabel_plain "$1")
    while read -r label; do
        [[ $label != "$begun"* ]] || COMPREPLY+=("$label")
    done < <(_flowlabel_labels)
}

_flowlabel() {
    local word=${COMP_WORDS[COMP_CWORD]} before=${COMP_WORDS[COMP_CWORD - 1]} command=${COMP_WORDS[1]}
    COMPREPLY=()
    # In --OPTION=WORD the = is a word of its own.
    [[ $before != = ]] || before=${COMP_WORDS[COMP_CWORD - 2]}
    [[ $word != = ]] || word=
    if ((COMP_CWORD == 1)); then
        case ${COMP_WORDS[0]} in
        *-many) mapfile -t COMPREPLY < <(compgen -W 'sum messages --help --version' -- "$word") ;;
        *) mapfile -t COMPREPLY < <(compgen -W 'label info rows uniq cat shrink check recert --help --version' -- "$word") ;;
        esac
        return
    fi
    case $before in
    --by) mapfile -t COMPREPLY < <(compgen -W 'day hour minute 15m 5m' -- "$word") ;;
    --fields) mapfile -t COMPREPLY < <(compgen -W "$(_flowlabel_fields "$word")" -- "$word") ;;
    --pmap | --list | --cert) mapfile -t COMPREPLY < <(compgen -f -- "$word") ;;
    --protocol | --sport | --dport | --saddress | --daddress | --packets | --bytes) ;;
    --in-if | --out-if | --vlan | --src-as | --dst-as) ;;
    --src-label | --dst-label | --any-label) _flowlabel_label "$word" ;;
    *)
        case $word in
        -*) mapfile -t COMPREPLY < <(compgen -W "$(_flowlabel_options "$command")" -- "$word") ;;
        *) [[ $command == label ]] || mapfile -t COMPREPLY < <(compgen -f -- "$word") ;;
        esac
        ;;
    esac
}

# Completes the options that a command's help lists, at the beginnings of lines, and files.
_flowlabel_command() {
    local word=${COMP_WORDS[COMP_CWORD]} options
    case $word in
    -*)
        options=$("$(_flowlabel_plain "$1")" --help 2>/dev/null | sed -n 's/^  \(-.*\)/\1/p' | sed 's/   *.*//' |
            grep -oE -e '(^|, )--?[a-z0-9][a-z0-9-]*' | tr -d ', ')
        mapfile -t COMPREPLY < <(compgen -W "$options" -- "$word" | LC_ALL=C sort -u)
        ;;
    *) mapfile -t COMPREPLY < <(compgen -f -- "$word") ;;
    esac
}

complete -o filenames -F _flowlabel flowlabel flowlabel-many
complete -o filenames -F _flowlabel_command flowlabel-{audit,bill,capture,country,customers,fib,lint,lookup} \
    flowlabel-{nfcapd,record,report,table,verify}
