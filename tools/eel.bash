# Completions of EEL's command and scripts for bash.
_eel() {
    local word=${COMP_WORDS[COMP_CWORD]} command=${COMP_WORDS[1]}
    case $COMP_CWORD,$command in
    1,*)
        COMPREPLY=($(compgen -W 'edit restore run counts visits trace show list words demo --help --faults --version
            --clean --install --uninstall --package' -- "$word"))
        return ;;
    4,edit)
        COMPREPLY=($(compgen -W 'plain script profile every trace' -- "$word"))
        return ;;
    esac
    case $COMP_CWORD,$command,$word in
    2,*,-*) COMPREPLY=($(compgen -W '--help' -- "$word")) ;;
    *,run,-*) COMPREPLY=($(compgen -W '-n -d --' -- "$word")) ;;
    *) _eel_files ;;
    esac
}

_eel_files() {
    compopt -o filenames 2>/dev/null
    local IFS=$'\n'
    COMPREPLY=($(compgen -f -- "$word"))
}

# The options of a script, which its --help names, or files.
_eel_script() {
    local word=${COMP_WORDS[COMP_CWORD]}
    if [ "${word#-}" != "$word" ]; then
        COMPREPLY=($(compgen -W "$(_eel_options "$1")" -- "$word"))
    else
        _eel_files
    fi
}

_eel_options() {
    COLUMNS=9999 "$1" --help 2>/dev/null | sed -n '/^  -/{s/\([^ ]\)  .*/\1/;p;}' | grep -oE -- ' --?[a-z][a-z0-9-]*'
}
complete -F _eel eel
complete -F _eel_script eel-profile eel-check eel-annotate eel-lines eel-graph eel-merge eel-compare eel-edges eel-patch
