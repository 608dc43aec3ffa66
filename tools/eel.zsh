#compdef eel eel-profile eel-check eel-annotate eel-lines eel-graph eel-merge eel-compare eel-edges eel-patch
# Completions of EEL's command and scripts for zsh, where it stands as `_eel` in a folder of $fpath.

_eel_command() {
    local -a offered
    if (( CURRENT == 2 )); then
        offered=(
            'edit:write a program with code on its edges'
            'restore:write the original of an edited file'
            'run:run a program on the standard input'
            'counts:print how often each edge was completed'
            'visits:print how often each instruction ran'
            'trace:print the last edges of a run'
            'show:print routines, blocks, edges and switches'
            'list:print instructions'
            'words:assemble a listing'
            'demo:make a program, run it and its profile'
            '--help:say what the commands are'
            '--faults:say what each file fault means'
            '--version:print the version and the commit'
            '--clean:remove what was built but the program'
            '--install:put the program and the scripts below a prefix'
            '--uninstall:take them away again'
            '--package:make a file of them'
        )
        _describe command offered
    elif [[ $CURRENT == 3 && $PREFIX == -* ]]; then
        offered=('--help:say what the command does')
        _describe -o option offered
    elif [[ $CURRENT == 5 && $words[2] == edit ]]; then
        offered=(
            'plain:nothing on its edges'
            'script:what the lines of a file say'
            'profile:counters on as few edges as can be'
            'every:a counter for each instruction'
            'trace:keep the last edges'
        )
        _describe tool offered
    elif [[ $words[2] == run && $PREFIX == -* ]]; then
        offered=('-n:steps at most' '-d:where to write the dump' '--:the arguments of the program follow')
        _describe -o option offered
    else
        _files
    fi
}

# The options of a script with what they do, as its --help has them, or files.
_eel_script() {
    local -a offered
    if [[ $PREFIX == -* ]]; then
        offered=(${(f)"$(_eel_options $words[1])"})
        _describe -o option offered
    else
        _files
    fi
}

_eel_options() {
    COLUMNS=9999 ${~1} --help 2>/dev/null | awk '
        function tell() { for (at = 1; at <= count; at++) if (split(names[at], words, " ")) print words[1] ":" text }
        /^  -/ {
            tell()
            text = match($0, /[^ ]  +[^ ]/) ? substr($0, RSTART + RLENGTH - 1) : ""
            count = split(substr($0, 3, text == "" ? length($0) : RSTART - 2), names, ", ")
        }
        /^          / && text == "" { text = $0; sub(/^ */, "", text) }
        END { tell() }'
}

if [[ $service == eel ]]; then _eel_command; else _eel_script; fi
