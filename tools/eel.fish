# Completions of EEL's command and scripts for fish.

# Whether the word at the cursor is that of this number, behind this command if one is given.
function __eel_is_word
    set -l words (commandline -opc)
    test (count $words) -eq $argv[1]; and test (count $argv) -eq 1 -o "$words[2]" = "$argv[2]"
end

# Whether options of `eel run FILE` may stand at the cursor.
function __eel_is_run
    set -l words (commandline -opc)
    test (count $words) -gt 2 -a "$words[2]" = run; and not contains -- -- $words
end

# The options of a script with what they do, as its --help has them.
function __eel_options
    set -l help (env COLUMNS=9999 (commandline -opc)[1] --help 2>/dev/null | string collect)
    for line in (string replace -ra '\n {10,}' '  ' -- $help | string split \n | string match -r '^  -.*')
        set -l parts (string match -r '^  (.*?[^ ])  +(.*)' -- $line)
        for name in (string match -ra -- '(?<= )--?[a-z][a-z0-9-]*' " $parts[2]")
            printf '%s\t%s\n' $name $parts[3]
        end
    end
end

complete -c eel -n '__eel_is_word 1' -f -a edit -d 'write a program with code on its edges'
complete -c eel -n '__eel_is_word 1' -f -a restore -d 'write the original of an edited file'
complete -c eel -n '__eel_is_word 1' -f -a run -d 'run a program on the standard input'
complete -c eel -n '__eel_is_word 1' -f -a counts -d 'print how often each edge was completed'
complete -c eel -n '__eel_is_word 1' -f -a visits -d 'print how often each instruction ran'
complete -c eel -n '__eel_is_word 1' -f -a trace -d 'print the last edges of a run'
complete -c eel -n '__eel_is_word 1' -f -a show -d 'print routines, blocks, edges and switches'
complete -c eel -n '__eel_is_word 1' -f -a list -d 'print instructions'
complete -c eel -n '__eel_is_word 1' -f -a words -d 'assemble a listing'
complete -c eel -n '__eel_is_word 1' -f -a demo -d 'make a program, run it and its profile'
complete -c eel -n '__eel_is_word 1' -l help -d 'say what the commands are'
complete -c eel -n '__eel_is_word 1' -l faults -d 'say what each file fault means'
complete -c eel -n '__eel_is_word 1' -l version -d 'print the version and the commit'
complete -c eel -n '__eel_is_word 1' -l clean -d 'remove what was built but the program'
complete -c eel -n '__eel_is_word 1' -l install -d 'put the program and the scripts below a prefix'
complete -c eel -n '__eel_is_word 1' -l uninstall -d 'take them away again'
complete -c eel -n '__eel_is_word 1' -l package -d 'make a file of them'
complete -c eel -n '__eel_is_word 2' -l help -d 'say what the command does'
complete -c eel -n '__eel_is_word 4 edit' -f -a plain -d 'nothing on its edges'
complete -c eel -n '__eel_is_word 4 edit' -f -a script -d 'what the lines of a file say'
complete -c eel -n '__eel_is_word 4 edit' -f -a profile -d 'counters on as few edges as can be'
complete -c eel -n '__eel_is_word 4 edit' -f -a every -d 'a counter for each instruction'
complete -c eel -n '__eel_is_word 4 edit' -f -a trace -d 'keep the last edges'
complete -c eel -n __eel_is_run -s n -x -d 'steps at most'
complete -c eel -n __eel_is_run -s d -r -d 'where to write the dump'
for script in profile check annotate lines graph merge compare edges patch
    complete -c eel-$script -n 'string match -q -- "-*" (commandline -ct)' -a '(__eel_options)'
end
