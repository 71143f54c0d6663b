# Completion of rpg2 for bash: install it as bash-completion/completions/rpg2.
_rpg2() {
    local cur=${COMP_WORDS[COMP_CWORD]} prev=${COMP_WORDS[COMP_CWORD-1]} command="" i IFS=$' \t\n'
    if [ "$cur" = = ]; then cur=""; elif [ "$prev" = = ]; then prev=${COMP_WORDS[COMP_CWORD-2]}; fi
    for ((i = 1; i < COMP_CWORD; i++)); do
        case ${COMP_WORDS[i]} in compile|check|list|cards|records|fit|verify|explain|show|run|go|paper|help) command=${COMP_WORDS[i]}; break;; esac
    done
    if [ -z "$command" ]; then
        COMPREPLY=($(compgen -W 'compile check list cards records fit verify explain show run go paper help --help --version' -- "$cur")); return
    fi
    case $prev in
        --allow) COMPREPLY=($(compgen -W 'W1 W2 W3 W4 W5 W6 W7 W8 W9 W10 W11 W12 W13 W14 W15' -- "$cur")); return;;
        --color) COMPREPLY=($(compgen -W 'auto always never' -- "$cur")); return;;
        --deny) COMPREPLY=($(compgen -W 'all W1 W2 W3 W4 W5 W6 W7 W8 W9 W10 W11 W12 W13 W14 W15' -- "$cur")); [ -n "$cur" ] && [ ${#COMPREPLY[@]} -gt 0 ] && return;;
        --form) COMPREPLY=($(compgen -W 'a4 letter fanfold' -- "$cur")); return;;
        --format) COMPREPLY=($(compgen -W 'text json' -- "$cur")); return;;
        --date) COMPREPLY=($(compgen -W 'today today-dmy today-ymd' -- "$cur")); return;;
        --ahead|--allowance|--columns|--date|--decimal|--delimiter|--drop|--faults|--file|--group|--length|--most|--most-bytes|--printer|--replace|--switches|--table|--trace|--trace-record) return;;
        --by|--deck|--disk|--merge|--output|--secondary|--source|--to) IFS=$'\n'; COMPREPLY=($(compgen -f -- "$cur")); return;;
    esac
    local options=""
    case $command in
        compile) options='-o --output --allowance --faults --deny --allow --format --color -q --quiet -h --help';;
        check) options='--faults --deny --allow --format --color -q --quiet -h --help';;
        list) options='--format --color -h --help';;
        cards) options='--short --ruler -h --help';;
        records) options='--by --to --merge --ahead --csv --to-csv --file --length --rdw --lines --ascii --low-blank --drop --columns --no-header --delimiter --decimal --group --replace --deck --format --color -h --help';;
        fit) options='--force --table --switches --forms --printer --format --color -h --help';;
        verify) options='--format --color -q --quiet -h --help';;
        show) options='--source --rows --format --color -h --help';;
        run) options='--date --secondary --disk --most --most-bytes --keep --source --trace --trace-record --watch --sorted --format --color -q --quiet -h --help';;
        go) options='--date --secondary --disk --most --most-bytes --keep --trace --trace-record --watch --sorted --allowance --faults --deny --allow --format --color -q --quiet -h --help';;
        paper) options='--form --length --columns --bars --format --color -q --quiet -h --help';;
        explain)
            if [ "$prev" = halt ]; then COMPREPLY=($(compgen -W '1 2 3 4 5 6 7 8' -- "$cur")); return; fi
            case $cur in
                -*) options='--list -h --help';;
                *) COMPREPLY=($(compgen -W 'S1 S2 S3 S4 S5 S6 F1 F2 F3 F4 F5 F6 F7 F8 F9 F10 F11 F12 F13 F14 F15 F16 F17 F18 W1 W2 W3 W4 W5 W6 W7 W8 W9 W10 W11 W12 W13 W14 W15 V1 V2 V3 V4 V5 V6 V7 V8 V9 V10 V11 V12 V13 V14 V15 V16 V17 V18 V19 V20 V21 V22 V23 V24 V25 V26 B1 B2 B3 B4 B5 B6 B7 A1 A2 A3 A4 A5 A6 A7 A8 A9 A10 A11 A12 A13 A14 A15 A16 A17 A18 A19 A20 A21 A22 A23 A24 A25 A26 A27 A28 A29 A30' -- "${cur^^}") $(compgen -W halt -- "$cur")); return;;
            esac;;
        help) COMPREPLY=($(compgen -W 'compile check list cards records fit verify explain show run go paper' -- "$cur")); return;;
    esac
    case $cur in -*) COMPREPLY=($(compgen -W "$options" -- "$cur"));; *) IFS=$'\n'; COMPREPLY=($(compgen -f -- "$cur"));; esac
}
complete -o filenames -F _rpg2 rpg2
