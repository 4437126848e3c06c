# Completion of git2show for bash: source it, or install it as share/bash-completion/completions/git2show.

_git2show() {
    local word=${COMP_WORDS[COMP_CWORD]} before=${COMP_WORDS[COMP_CWORD - 1]} options
    COMPREPLY=()
    if [ "$COMP_CWORD" = 1 ]; then
        options='show check serve fetch play help --help --version'
    else
        case $before in
        --format)
            options='sha1 sha256'
            ;;
        --only)
            options='fetch ls-refs object-info bundle-uri'
            ;;
        --repo | --pack | --filtered | --script | --transcript)
            mapfile -t COMPREPLY < <(compgen -f -- "$word")
            return
            ;;
        --limit | --cut | --width | --from | --server-option)
            return
            ;;
        *)
            case ${COMP_WORDS[1]} in
            show) options='--pretty --json --plain --width --no-pack --from --only --trace --help' ;;
            check) options='--explain --pretty --width --no-pack --format --stateless --help' ;;
            serve) options='--repo --pack --filtered --limit --stateless-rpc --http-backend-info-refs --advertise-refs --help' ;;
            fetch) options='--script --pack --transcript --progress --server-option --format --stateless --help' ;;
            play) options='--repo --pack --filtered --script --cut --stateless --help' ;;
            help) options='show check serve fetch play' ;;
            esac
            if [ "${COMP_WORDS[1]}" = check ] && [ "${word#-}" = "$word" ]; then
                mapfile -t COMPREPLY < <(compgen -f -- "$word")
                return
            fi
            ;;
        esac
    fi
    mapfile -t COMPREPLY < <(compgen -W "$options" -- "$word")
}

complete -o filenames -F _git2show git2show
