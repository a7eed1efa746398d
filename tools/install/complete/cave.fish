# Completions of cave for fish. tools/check/run completions compares them with the help.
# Whether a command is typed without an option, and with at least and at most some files.
function __cave --argument-names command option least most
    set --local before (commandline --tokenize --current-process --cut-at-cursor)[2..]
    test "$before[1]" = "$command"; or return
    # This fails if the last option has no value yet.
    argparse h/help V/version b/bind= p/print= strict known= o/output= s/seed= e/edit= to= every= guarded q/quiet report= in-place group seen from= within= -- $before[2..] 2> /dev/null; or return 0
    not set --query _flag_$option; and test (count $argv) -ge $least -a (count $argv) -le $most
end
complete --command cave --no-files
complete -c cave -n "__cave '' 'help' 0 99" -l help -s h  -d 'Print help'
complete -c cave -n "__cave '' 'version' 0 99" -l version -s V  -d 'Print version'
complete -c cave -n "__cave '' '' 0 0" -a check -d 'Reads a cave and says whether it is one that can be played'
complete -c cave -n "__cave '' '' 0 0" -a play -d 'Plays a log from its first line to its last and prints what is said, what each line did, the score or the state'
complete -c cave -n "__cave '' '' 0 0" -a edit -d 'Edits a log by a script, replays what the edits change and prints what is then said, what each line did, the score or the state'
complete -c cave -n "__cave '' '' 0 0" -a script -d 'Prints the edits that make one log of another, as a script for `edit`'
complete -c cave -n "__cave '' '' 0 0" -a cover -d 'Plays logs and prints which texts of the cave none of them shows'
complete -c cave -n "__cave '' '' 0 0" -a map -d 'Prints the cave as a graph for Graphviz, with what logs saw of it'
complete -c cave -n "__cave '' '' 0 0" -a help -d 'Print this message or the help of the given subcommand(s)'
complete -c cave -n "__cave '' '' 1 99; and test -z (commandline -ct)" -a '(complete --do-complete (commandline -cp)-)'
complete -c cave -n "__cave 'check' 'bind' 0 99" -l bind -s b -rF -d 'The bindings'
complete -c cave -n "__cave 'check' 'print' 0 99" -l print -s p -xa 'maximum bindings names unused words doubts known' -d 'What to print'
complete -c cave -n "__cave 'check' 'strict' 0 99" -l strict  -d 'Prints `doubts`, and ends with status 1 if one is left'
complete -c cave -n "__cave 'check' 'known' 0 99" -l known -rF -d 'Prints `doubts` without those in this file, which --print known makes'
complete -c cave -n "__cave 'check' 'output' 0 99" -l output -s o -rF -d 'Writes the output into this file, whole or not at all, instead of standard output. Of the files that are read, it may be only one of the same kind as the output'
complete -c cave -n "__cave 'check' 'help' 0 99" -l help -s h  -d 'Print help'
complete -c cave -n "__cave 'check' '' 0 0" -F
complete -c cave -n "__cave 'check' '' 1 99; and test -z (commandline -ct)" -a '(complete --do-complete (commandline -cp)-)'
complete -c cave -n "__cave 'play' 'bind' 0 99" -l bind -s b -rF -d 'The bindings'
complete -c cave -n "__cave 'play' 'seed' 0 99" -l seed -s s -xa '' -d 'The seed of the random numbers, from 0 to 2147483647'
complete -c cave -n "__cave 'play' 'print' 0 99" -l print -s p -xa 'transcript steps walk score state' -d 'What to print'
complete -c cave -n "__cave 'play' 'output' 0 99" -l output -s o -rF -d 'Writes the output into this file, whole or not at all, instead of standard output. Of the files that are read, it may be only one of the same kind as the output'
complete -c cave -n "__cave 'play' 'help' 0 99" -l help -s h  -d 'Print help'
complete -c cave -n "__cave 'play' '' 0 1" -F
complete -c cave -n "__cave 'play' '' 2 99; and test -z (commandline -ct)" -a '(complete --do-complete (commandline -cp)-)'
complete -c cave -n "__cave 'edit' '' 0 99" -l edit -s e -xa '' -d 'A line of the script, such as '"'"'replace 17 drop vase'"'"'. It may be given several times'
complete -c cave -n "__cave 'edit' 'to' 0 99" -l to -rF -d 'The log that LOG is to become, instead of SCRIPT'
complete -c cave -n "__cave 'edit' 'bind' 0 99" -l bind -s b -rF -d 'The bindings'
complete -c cave -n "__cave 'edit' 'seed' 0 99" -l seed -s s -xa '' -d 'The seed of the random numbers, from 0 to 2147483647'
complete -c cave -n "__cave 'edit' 'every' 0 99" -l every -xa '' -d 'The most lines between two checkpoints, from 1 to 10000'
complete -c cave -n "__cave 'edit' 'print' 0 99" -l print -s p -xa 'transcript play log undo guarded reports table steps walk score state' -d 'What to print'
complete -c cave -n "__cave 'edit' 'strict' 0 99" -l strict  -d 'If an edit is refused, ends with status 4 and the line that says why, and prints and writes nothing else'
complete -c cave -n "__cave 'edit' 'guarded' 0 99" -l guarded  -d 'Lets SCRIPT have lines `expect N TEXT`'
complete -c cave -n "__cave 'edit' 'quiet' 0 99" -l quiet -s q  -d 'Leaves out of standard error which edits are refused, that the head of the log differs, and that the edits set a seed'
complete -c cave -n "__cave 'edit' 'report' 0 99" -l report -xa 'reports table' -d 'With --output or --in-place, prints the result of each edit to standard output'
complete -c cave -n "__cave 'edit' 'output' 0 99" -l output -s o -rF -d 'Writes the output into this file, whole or not at all, instead of standard output. Of the files that are read, it may be only one of the same kind as the output'
complete -c cave -n "__cave 'edit' 'in_place' 0 99" -l in-place  -d 'Writes the edited log over LOG, as `--print log --output LOG` does'
complete -c cave -n "__cave 'edit' 'help' 0 99" -l help -s h  -d 'Print help'
complete -c cave -n "__cave 'edit' '' 0 2" -F
complete -c cave -n "__cave 'edit' '' 3 99; and test -z (commandline -ct)" -a '(complete --do-complete (commandline -cp)-)'
complete -c cave -n "__cave 'script' 'guarded' 0 99" -l guarded  -d 'Puts a line `expect N TEXT` before each edit if the log has a line at its place'
complete -c cave -n "__cave 'script' 'group' 0 99" -l group  -d 'Makes the edits one group, which is accepted or refused as a whole'
complete -c cave -n "__cave 'script' 'output' 0 99" -l output -s o -rF -d 'Writes the output into this file, whole or not at all, instead of standard output. Of the files that are read, it may be only one of the same kind as the output'
complete -c cave -n "__cave 'script' 'help' 0 99" -l help -s h  -d 'Print help'
complete -c cave -n "__cave 'script' '' 0 1" -F
complete -c cave -n "__cave 'script' '' 2 99; and test -z (commandline -ct)" -a '(complete --do-complete (commandline -cp)-)'
complete -c cave -n "__cave 'cover' 'bind' 0 99" -l bind -s b -rF -d 'The bindings'
complete -c cave -n "__cave 'cover' 'seed' 0 99" -l seed -s s -xa '' -d 'The seed of the random numbers, from 0 to 2147483647'
complete -c cave -n "__cave 'cover' 'print' 0 99" -l print -s p -xa 'counts texts rules known' -d 'What to print'
complete -c cave -n "__cave 'cover' 'strict' 0 99" -l strict  -d 'Prints `texts`, unless --print is given, and ends with status 1 if anything is left that no log shows'
complete -c cave -n "__cave 'cover' 'known' 0 99" -l known -rF -d 'Prints `texts`, unless --print is given, without what this file lists as never shown; --print known makes it'
complete -c cave -n "__cave 'cover' 'output' 0 99" -l output -s o -rF -d 'Writes the output into this file, whole or not at all, instead of standard output. Of the files that are read, it may be only one of the same kind as the output'
complete -c cave -n "__cave 'cover' 'help' 0 99" -l help -s h  -d 'Print help'
complete -c cave -n "__cave 'cover' '' 0 98" -F
complete -c cave -n "__cave 'cover' '' 99 99; and test -z (commandline -ct)" -a '(complete --do-complete (commandline -cp)-)'
complete -c cave -n "__cave 'map' 'bind' 0 99" -l bind -s b -rF -d 'The bindings'
complete -c cave -n "__cave 'map' 'seed' 0 99" -l seed -s s -xa '' -d 'The seed of the random numbers, from 0 to 2147483647'
complete -c cave -n "__cave 'map' 'seen' 0 99" -l seen  -d 'Draws only what the logs saw'
complete -c cave -n "__cave 'map' 'from' 0 99" -l from -xa '' -d 'Draws only the places around PLACE, which is a number from 1 to 300'
complete -c cave -n "__cave 'map' 'within' 0 99" -l within -xa '' -d 'With --from'
complete -c cave -n "__cave 'map' 'output' 0 99" -l output -s o -rF -d 'Writes the output into this file, whole or not at all, instead of standard output. Of the files that are read, it may be only one of the same kind as the output'
complete -c cave -n "__cave 'map' 'help' 0 99" -l help -s h  -d 'Print help'
complete -c cave -n "__cave 'map' '' 0 98" -F
complete -c cave -n "__cave 'map' '' 99 99; and test -z (commandline -ct)" -a '(complete --do-complete (commandline -cp)-)'
complete -c cave -n "__cave 'help' '' 0 0" -a check -d 'Reads a cave and says whether it is one that can be played'
complete -c cave -n "__cave 'help' '' 0 0" -a play -d 'Plays a log from its first line to its last and prints what is said, what each line did, the score or the state'
complete -c cave -n "__cave 'help' '' 0 0" -a edit -d 'Edits a log by a script, replays what the edits change and prints what is then said, what each line did, the score or the state'
complete -c cave -n "__cave 'help' '' 0 0" -a script -d 'Prints the edits that make one log of another, as a script for `edit`'
complete -c cave -n "__cave 'help' '' 0 0" -a cover -d 'Plays logs and prints which texts of the cave none of them shows'
complete -c cave -n "__cave 'help' '' 0 0" -a map -d 'Prints the cave as a graph for Graphviz, with what logs saw of it'
complete -c cave -n "__cave 'help' '' 1 99; and test -z (commandline -ct)" -a '(complete --do-complete (commandline -cp)-)'
