# Completions of `fbr` for bash: put this file where bash-completion looks (~/.local/share/bash-completion/completions/fbr), or source it.
_fbr() {
    local word=${COMP_WORDS[COMP_CWORD]} command=${COMP_WORDS[1]} options
    if [ "$COMP_CWORD" -eq 1 ]; then
        mapfile -t COMPREPLY < <(compgen -W "bound check sim play explain draw serve replay pack time key help --help --version" -- "$word")
        return
    fi
    case $command in
        bound) options="--with --repeats --search --ranges --room --strict --allow --json --all --output --help" ;;
        explain) options="--with --repeats --strict --allow --json --all --help" ;;
        draw) options="--with --repeats --flat --chart --output --help" ;;
        serve) options="--with --bind --from --turns --until-eof --boot --boot-file --verbose --summary --clock --stop-on-lost-output --record --sync --keys --state --unsealed --help" ;;
        sim) options="--with --watch --vcd --csv --timeline --json --help" ;;
        play) options="--with --watch --vcd --csv --timeline --report --json --help" ;;
        replay) options="--with --verbose --clock --watch --vcd --csv --timeline --json --help" ;;
        check) options="--with --strict --allow --json --all --help" ;;
        key) options="--state --help" ;;
        pack) options="--with --output --help" ;;
        time) options="--with --calibration --rate --from --to --json --help" ;;
        help) mapfile -t COMPREPLY < <(compgen -W "bound check sim play explain draw serve replay pack time key help" -- "$word") && return ;;
    esac
    if [ "${word:0:1}" = - ]; then
        mapfile -t COMPREPLY < <(compgen -W "$options" -- "$word")
    else
        mapfile -t COMPREPLY < <(compgen -f -- "$word")
    fi
}
complete -o filenames -F _fbr fbr
