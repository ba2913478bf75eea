# Completions of agep for bash: commands, options and files. ./generate writes
# what has marks.
_agep() {
    local word=${COMP_WORDS[COMP_CWORD]} options= i
    # generated: commands of bash, one line
    local commands="encrypt decrypt inspect range rewrap salvage help"
    COMPREPLY=()
    if [[ $COMP_CWORD -eq 1 ]]; then
        mapfile -t COMPREPLY < <(compgen -W "$commands -h --help -V --version" -- "$word")
        return
    fi
    for ((i = 2; i < COMP_CWORD; i++)); do
        # after -- only files follow, which bash completes by default
        [[ ${COMP_WORDS[i]} != -- ]] || return
    done
    case ${COMP_WORDS[COMP_CWORD - 1]} in
        # generated: numbers of bash, one line
        -w | --work | -H | --max-header | -m | --max-work)
            # a number
            compopt +o default 2>/dev/null
            return
            ;;
        # generated: files of bash, one line
        -p | --passphrase | -k | --key | -s | --seed | -o | --output | -f | --file-key | -P | --new-pass | -K | --new-key)
            # a file, by default
            return
            ;;
    esac
    case ${COMP_WORDS[1]} in
        # generated: options of bash
        encrypt) options="-p --passphrase -k --key -w --work -s --seed -H --max-header -o --output -n --no-clobber --atomic -v --verbose -h --help -V --version" ;;
        decrypt) options="-p --passphrase -k --key -m --max-work -H --max-header -o --output -n --no-clobber --atomic -v --verbose -d --decrypt -h --help -V --version" ;;
        inspect) options="-r --raw -f --file-key -H --max-header -v --verbose -h --help -V --version" ;;
        range) options="-p --passphrase -k --key -m --max-work -H --max-header -o --output -n --no-clobber --atomic -v --verbose -h --help -V --version" ;;
        rewrap) options="-p --passphrase -k --key -m --max-work -H --max-header -o --output -n --no-clobber --atomic -v --verbose -P --new-pass -K --new-key -w --work -s --seed -h --help -V --version" ;;
        salvage) options="-p --passphrase -k --key -m --max-work -H --max-header -o --output -n --no-clobber --atomic -v --verbose -h --help -V --version" ;;
        # end of options of bash
        help) mapfile -t COMPREPLY < <(compgen -W "$commands" -- "$word") ;;
    esac
    if [[ $word == -* ]]; then
        mapfile -t COMPREPLY < <(compgen -W "$options" -- "$word")
    fi
}
complete -o default -F _agep agep
