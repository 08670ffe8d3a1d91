# Completions of bradovusc for fish: commands, options, files, and the names of rules.

set -g __bradovusc_commands check pair which accept add withdraw list recheck script sheet help

# Whether no command stands in the line yet.
function __bradovusc_no_command
    not __fish_seen_subcommand_from $__bradovusc_commands
end

# The names of the rules in the files of the line.
function __bradovusc_rules
    for word in (commandline -opc)
        if test -f "$word"
            string match -rg '^([A-Za-z0-9_-]+)[ \t]*=' <"$word"
        end
    end
end

complete -c bradovusc -n __bradovusc_no_command -f -a check -d 'every pair of the rules in the files'
complete -c bradovusc -n __bradovusc_no_command -f -a pair -d 'two rules of a file'
complete -c bradovusc -n __bradovusc_no_command -f -a which -d 'the rules that read a label'
complete -c bradovusc -n __bradovusc_no_command -f -a accept -d 'enter the rules of a file into another, if no two clash'
complete -c bradovusc -n __bradovusc_no_command -f -a add -d 'add a rule to a catalogue, if it clashes with none'
complete -c bradovusc -n __bradovusc_no_command -f -a withdraw -d 'take a rule out of a catalogue'
complete -c bradovusc -n __bradovusc_no_command -f -a list -d 'print the rules of a catalogue'
complete -c bradovusc -n __bradovusc_no_command -f -a recheck -d 'every pair of the rules in a catalogue'
complete -c bradovusc -n __bradovusc_no_command -f -a script -d 'write a script for string solvers'
complete -c bradovusc -n __bradovusc_no_command -f -a sheet -d 'write the bytes that ask the library'
complete -c bradovusc -n __bradovusc_no_command -f -a help -d 'print the commands and options'

complete -c bradovusc -l json -d 'print one JSON object a line'
complete -c bradovusc -s h -l help -d 'print the commands and options'
complete -c bradovusc -s V -l version -d 'print the version'
complete -c bradovusc -n '__fish_seen_subcommand_from check pair recheck' -x -l format -a 'text json short github sarif' -d 'the form of what is told'
complete -c bradovusc -n '__fish_seen_subcommand_from check accept recheck' -x -l max -d 'tell so many at most'
complete -c bradovusc -n '__fish_seen_subcommand_from check recheck' -l clashes-only -d 'tell nothing but clashes'
complete -c bradovusc -n '__fish_seen_subcommand_from check which recheck' -l summary -d 'the counts behind all else'
complete -c bradovusc -n '__fish_seen_subcommand_from check' -r -F -l against -d 'only pairs with a new rule'
complete -c bradovusc -n '__fish_seen_subcommand_from check' -x -l part -d 'one of so many parts of the pairs'
complete -c bradovusc -n '__fish_seen_subcommand_from pair' -l steps -d 'the way to the clash'
complete -c bradovusc -n '__fish_seen_subcommand_from pair' -l repair -d 'what would part the two'
complete -c bradovusc -n '__fish_seen_subcommand_from which' -r -F -l csv -d 'a file with the labels in a column'
complete -c bradovusc -n '__fish_seen_subcommand_from which' -x -l column -d 'that column'
complete -c bradovusc -n '__fish_seen_subcommand_from which' -x -l separator -a tab -d 'what stands between two values'
complete -c bradovusc -n '__fish_seen_subcommand_from check pair accept add recheck' -x -l room -d 'room for so many situations'
complete -c bradovusc -n '__fish_seen_subcommand_from check pair accept recheck' -x -l seconds -d 'no larger room once so many are spent on a pair'
complete -c bradovusc -n '__fish_seen_subcommand_from check accept recheck' -x -l threads -d 'so many threads'
complete -c bradovusc -n '__fish_seen_subcommand_from accept add' -l new -d 'begin the file'
complete -c bradovusc -n '__fish_seen_subcommand_from add withdraw list recheck' -x -l bytes -d 'the length of the catalogue file'

complete -c bradovusc -n '__fish_seen_subcommand_from pair add script sheet' -a '(__bradovusc_rules)' -d rule
complete -c bradovusc -n '__fish_seen_subcommand_from help' -f -a "$__bradovusc_commands"
