# shellcheck shell=bash
# Completion of maestro's words for bash: PREFIX/share/bash-completion/completions/maestro, or read by `. maestro.bash`.

# Takes the words of a list that begin as the word does.
_maestro_words() {
    local it
    for it in $2; do
        [[ $it != "$1"* ]] || COMPREPLY+=("$it")
    done
}

# Takes the files of some patterns, and folders. A run's outputs are no captures of another run: not offered without a
# pattern of their own.
_maestro_files() {
    local word=$1 it pattern kept=''
    shift
    while IFS= read -r it; do
        if [ -d "$it" ]; then
            COMPREPLY+=("$it")
            continue
        fi
        for pattern; do
            # shellcheck disable=SC2053 # it is a pattern
            [[ $it == $pattern ]] || continue
            kept=1
            if [[ $pattern == \*.pcap* && $it =~ ^(.*)\.[0-3]\.pcap(ng)?$ && -e ${BASH_REMATCH[1]}.journal ]]; then kept=''; fi
            [ -z "$kept" ] || COMPREPLY+=("$it")
            break
        done
    done < <(compgen -f -- "$word")
    # So a folder isn't the end of a name.
    compopt -o filenames 2>/dev/null
}

# Takes the fronts of the names of runs' files.
_maestro_fronts() {
    local it front seen=' '
    while IFS= read -r it; do
        if [ -d "$it" ]; then
            COMPREPLY+=("$it")
        elif [[ $it == *.journal ]]; then
            front=${it%.journal}
            [[ $seen == *" $front "* ]] || COMPREPLY+=("$front")
            seen="$seen$front "
        fi
    done < <(compgen -f -- "$1")
    compopt -o filenames 2>/dev/null
}

_maestro() {
    local word=${COMP_WORDS[COMP_CWORD]} command=${COMP_WORDS[1]-} previous=${COMP_WORDS[COMP_CWORD - 1]} options='' it
    local commands='check explain keys certify run replay gen hash summary show spread card draw plot split help'
    local kinds='S1 S2 S3 S4 S5 T01 T02 T03 T04 T05 T06 T07 T08 T09 P1 0 1 2 3 4 5 6 7 8 9 10 11'
    local -i at name=0
    COMPREPLY=()
    # Where `=` parts words, `--mode=l` is three of them.
    [ "$word" != = ] || word=''
    [ "$previous" != = ] || previous=${COMP_WORDS[COMP_CWORD - 2]-}
    if [ "$COMP_CWORD" -eq 1 ]; then
        _maestro_words "$word" "$commands --help --version"
        return
    fi
    case $previous in
    --mode) _maestro_words "$word" 'auto shard lock' && return ;;
    --workers) _maestro_words "$word" '1 2 3 4 5 6 7 8 9 10 11 12 13 14 15 16' && return ;;
    --table) _maestro_words "$word" '128 512' && return ;;
    --key-bytes) _maestro_words "$word" '40 52' && return ;;
    --max-packets | --key) return ;;
    --proof) _maestro_files "$word" '*.proof' && return ;;
    -o) _maestro_files "$word" '*.svg' && return ;;
    esac
    case $command in
    run) options='--workers --mode --max-packets --table --key-bytes --pcapng --help' ;;
    replay) options='--max-packets --pcapng --help' ;;
    gen) options='--workers --mode --table --key-bytes --pcapng --help' ;;
    hash) options='--key --workers --table --key-bytes --help' ;;
    explain | card) options='--table --key-bytes --help' ;;
    keys) options='--table --key-bytes --proof --help' ;;
    spread) options='--workers --table --help' ;;
    plot) options='-o --help' ;;
    check | certify | summary | show | draw | split) options='--help' ;;
    help) _maestro_words "$word" "${commands% help} language $kinds" && return ;;
    *) return ;;
    esac
    if [[ $word == -* ]]; then
        _maestro_words "$word" "$options"
        return
    fi
    # The how manieth name this word is, from 0.
    for ((at = 2; at < COMP_CWORD; at++)); do
        it=${COMP_WORDS[at]}
        case $it in
        --mode | --workers | --max-packets | --table | --key-bytes | --key | --proof | -o)
            [ "${COMP_WORDS[at + 1]-}" != = ] || ((at++))
            ((at++))
            ;;
        -?*) ;;
        *) ((name++)) ;;
        esac
    done
    case $command:$name in
    check:0 | explain:0 | keys:0 | certify:0 | run:0 | replay:0 | gen:0 | show:0 | spread:0 | card:0 | draw:0) _maestro_files "$word" '*.nf' ;;
    draw:1) _maestro_files "$word" '*.svg' ;;
    card:1) _maestro_words "$word" 'ethtool dpdk' ;;
    card:*) [ "${COMP_WORDS[3]-}" != ethtool ] || _maestro_words "$word" "$(ls /sys/class/net 2>/dev/null)" ;;
    certify:1) _maestro_files "$word" '*.proof' ;;
    replay:1) _maestro_files "$word" '*.journal' ;;
    show:1) _maestro_files "$word" '*.state' ;;
    run:1 | replay:2 | gen:1 | summary:0 | plot:0) _maestro_fronts "$word" ;;
    split:* | run:* | replay:* | plot:* | spread:*) _maestro_files "$word" '*.pcap' '*.pcapng' '*.cap' ;;
    esac
}
complete -F _maestro maestro
