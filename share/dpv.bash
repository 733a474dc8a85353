# Completes the words of dpv in bash: commands, options, the names of nodes, and files by their endings.
# To use it: source share/dpv.bash

# The nodes of a pipeline file, as port0 and ring1.
_dpv_nodes() {
    local kind count place
    for kind in port ring; do
        count="$(grep -c "^[[:space:]]*\[\[$kind\]\]" -- "$1" 2>/dev/null)"
        for ((place = 0; place < ${count:-0}; place++)); do
            printf '%s\n' "$kind$place"
        done
    done
}

# The files with this ending, and all folders.
_dpv_files() {
    compgen -f -X "!*.$1" -- "$2"
    compgen -d -- "$2"
}

# The words that may come at the cursor, one a line. Arguments: the command, how many operands come before, the first of them, the word so far.
_dpv_operands() {
    case "$1 $2" in
        "build 0") _dpv_files pkt "$4" ;;
        "check 0" | "compile 0" | "infer 0" | "explain 0" | "show 0" | "run 0" | "trace 0") _dpv_files toml "$4" ;;
        "infer 1" | "explain 1" | "show 1") compgen -W "$(_dpv_nodes "$3")" -- "$4" ;;
        "one 0" | "infer-one 0" | "explain-one 0" | "show-one 0" | "trace-one 0") _dpv_files dpv "$4" ;;
        "one 1" | "explain-one 1" | "show-one 1" | "trace-one 1") _dpv_files cert "$4" ;;
        "filter 0") _dpv_files pkt "$4"; _dpv_files dpv "$4" ;;
        "one 2" | "one 3" | "trace-one 2" | "filter 1" | "filter 2") _dpv_files pcap "$4" ;;
        "mem 0") compgen -f -- "$4" ;;
        "install 0" | "package 0" | "library 0") compgen -d -- "$4" ;;
    esac
}

_dpv() {
    local word="${COMP_WORDS[COMP_CWORD]}" command first= count=0 place begin=1
    local commands="filter one check compile infer infer-one explain explain-one show show-one run trace trace-one mem help" more=" build install package library --unproved --compiled"
    if ((COMP_CWORD > 1)) && [ "${COMP_WORDS[1]}" = --unproved ]; then
        begin=2 more=" build"
    fi
    if ((COMP_CWORD > 1)) && [ "${COMP_WORDS[1]}" = --compiled ]; then
        begin=2 more= commands=run
    fi
    command="${COMP_WORDS[begin]-}"
    if ((COMP_CWORD == begin)); then
        mapfile -t COMPREPLY < <(compgen -W "$commands --help --version$more" -- "$word")
        return
    fi
    # (bash takes PORT=NAME for three words)
    case "$command ${COMP_WORDS[COMP_CWORD - 3]-} ${COMP_WORDS[COMP_CWORD - 1]}" in
        "run --routes =" | "check --routes =" | "trace --routes =")
            mapfile -t COMPREPLY < <(compgen -f -- "$word")
            return
            ;;
    esac
    case "$command ${COMP_WORDS[COMP_CWORD - 1]}" in
        "run =")
            mapfile -t COMPREPLY < <(_dpv_files pcap "$word")
            return
            ;;
        "run --routes" | "check --routes" | "trace --routes")
            mapfile -t COMPREPLY < <(compgen -W "0 1 2 3" -- "$word")
            return
            ;;
        "run --in" | "run --out" | "run --no-in" | "run --no-out")
            mapfile -t COMPREPLY < <(compgen -W "0 1 2 3 4 5 6 7" -- "$word")
            return
            ;;
        "trace --only" | "trace-one --only")
            mapfile -t COMPREPLY < <(compgen -W "sent freed refused cut" -- "$word")
            return
            ;;
    esac
    for ((place = begin + 1; place < COMP_CWORD; place++)); do
        case "${COMP_WORDS[place]}" in
            --in | --out | --no-in | --no-out | --routes | --refuse | --records | --port | --only | --instr | --match | --room | --segs | --name | --rounds | --seconds | =) place=$((place + 1)) ;;
            --counts) [ "$command" != show ] || place=$((place + 1)) ;;
            -*) ;;
            *)
                [ "$count" -gt 0 ] || first="${COMP_WORDS[place]}"
                count=$((count + 1))
                ;;
        esac
    done
    case "$command $word" in
        trace\ -*) mapfile -t COMPREPLY < <(compgen -W "--routes --records --port --only --instr --match --refuse --json --help" -- "$word") ;;
        trace-one\ -*) mapfile -t COMPREPLY < <(compgen -W "--records --port --only --instr --match --refuse --json --unbuffered --help" -- "$word") ;;
        run\ -*) mapfile -t COMPREPLY < <(compgen -W "--in --out --no-in --no-out --routes --refuse --counts --source --drops --json --progress --unbuffered --help" -- "$word") ;;
        filter\ -*) mapfile -t COMPREPLY < <(compgen -W "--room --segs --name --counts --source --drops --json --progress --unbuffered --help" -- "$word") ;;
        one\ -*) mapfile -t COMPREPLY < <(compgen -W "--counts --source --drops --json --progress --unbuffered --help" -- "$word") ;;
        check\ -*) mapfile -t COMPREPLY < <(compgen -W "--routes --cost --sizes --json --help" -- "$word") ;;
        explain\ -* | explain-one\ -*) mapfile -t COMPREPLY < <(compgen -W "--json --help" -- "$word") ;;
        show\ -*) mapfile -t COMPREPLY < <(compgen -W "--dot --calls --counts --help" -- "$word") ;;
        show-one\ -*) mapfile -t COMPREPLY < <(compgen -W "--dot --calls --help" -- "$word") ;;
        build\ -*) mapfile -t COMPREPLY < <(compgen -W "--prove --rounds --seconds --help" -- "$word") ;;
        help\ *) mapfile -t COMPREPLY < <(compgen -W "$commands build" -- "$word") ;;
        *\ -*) mapfile -t COMPREPLY < <(compgen -W "--help" -- "$word") ;;
        *) mapfile -t COMPREPLY < <(_dpv_operands "$command" "$count" "$first" "$word") ;;
    esac
}

complete -o filenames -F _dpv dpv ./dpv ../../dpv
