# Completions of sigma for bash: source this file.
_sigma() {
    local word=${COMP_WORDS[COMP_CWORD]} before=${COMP_WORDS[COMP_CWORD - 1]} options='' at=1
    if [ "$COMP_CWORD" -eq 1 ]; then
        mapfile -t COMPREPLY < <(compgen -W 'check convert run query correlate generate --help --version --explain --unproved' -- "$word")
        return
    fi
    [ "${COMP_WORDS[1]}" = --unproved ] && at=2
    if [ "$COMP_CWORD" -eq "$at" ]; then
        mapfile -t COMPREPLY < <(compgen -W 'check convert run query correlate generate' -- "$word")
        return
    fi
    case ${COMP_WORDS[at]} in
        check) options='' ;;
        convert) options='--backend --schema --pipeline' ;;
        run) options='--schema --pipeline' ;;
        query) options='--backend --schema' ;;
        correlate) options='--schema --pipeline' ;;
        generate) options='--seed --events' ;;
    esac
    if [ "$before" = --backend ]; then
        mapfile -t COMPREPLY < <(compgen -W 'sqlite lucene' -- "$word")
    elif [[ $word == -* && -n $options ]]; then
        mapfile -t COMPREPLY < <(compgen -W "$options" -- "$word")
    else
        mapfile -t COMPREPLY < <(compgen -f -- "$word")
    fi
}
complete -o filenames -F _sigma sigma
