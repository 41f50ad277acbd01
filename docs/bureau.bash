# Made by scripts/pages from docs/commands-bureau: change that and not this. Completion of bureau for bash: source it,
# or put it as 'bureau' where your bash looks for completions.

_bureau() {
    local rest=$COMP_LINE blank words=() n=-1 i
    # The words as they were typed: bash cuts them at some marks, too.
    for ((i = 0; i <= COMP_CWORD; i++)); do
        blank=${rest%%[![:space:]]*}
        rest=${rest#"$blank"}
        if [[ $i -eq 0 || $blank ]]; then words[++n]=; fi
        words[n]+=${COMP_WORDS[i]}
        rest=${rest#"${COMP_WORDS[i]}"}
    done
    local current=${words[n]} options fills=() at=0 again='' ended=
    COMPREPLY=()
    if [[ $n -le 1 ]]; then
        fills=(command)
        options='--help -h --version'
    else
        case ${words[1]} in
        open)
            fills=('file' '' '' '' '' '' '@file' '@file' '@file' '' '@file' '@file')
            options='--help'
            ;;
        key)
            fills=('file' '@file' '@file' '@file' '')
            options='--help'
            ;;
        make)
            fills=('file' '' '' '@file' 'SKH SKE' 'file' 'file')
            options='--ask --end --crlf --area-a --help'
            again=6
            ;;
        check)
            fills=('file' 'file' '')
            options='--help'
            ;;
        show)
            fills=('file')
            options='--help'
            ;;
        help)
            fills=('command')
            options='--help'
            ;;
        *) return ;;
        esac
    fi
    # Options are no words of the command, up to the word --.
    for ((i = 2; i < n; i++)); do
        case $ended${words[i]} in
        --) ended=ended ;;
        --*) ;;
        *) ((at += 1)) ;;
        esac
    done
    if [[ ! $ended && $current == -* ]]; then
        mapfile -t COMPREPLY < <(compgen -W "$options" -- "$current")
        return
    fi
    if [[ ${again:-} && $at -gt $again ]]; then at=$again; fi
    case ${fills[at]:-} in
    '') ;;
    command) mapfile -t COMPREPLY < <(compgen -W 'open key make check show help' -- "$current") ;;
    file)
        mapfile -t COMPREPLY < <(compgen -f -- "$current")
        # Where there is none, as in quotes, bash completes it by itself.
        compopt -o filenames -o default 2>/dev/null
        ;;
    @file)
        # With its @ it is no file, so bash neither quotes it nor sees a folder.
        if [[ $current == @* ]]; then
            mapfile -t COMPREPLY < <(compgen -f -- "${current#@}")
            for i in "${!COMPREPLY[@]}"; do
                if [[ -d ${COMPREPLY[i]} ]]; then
                    COMPREPLY[i]+=/
                    compopt -o nospace 2>/dev/null
                fi
                printf -v "COMPREPLY[$i]" @%q "${COMPREPLY[i]}"
            done
        fi
        ;;
    *) mapfile -t COMPREPLY < <(compgen -W "${fills[at]}" -- "$current") ;;
    esac
}

complete -F _bureau bureau
