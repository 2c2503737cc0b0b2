# Completion of locale_tool for fish.
set -l commands money time number info conv parse class upper lower check import explain run serial compare preview help
set -l readers money time number info conv parse class upper lower
set -l classes upper lower alpha digit space cntrl punct graph print xdigit blank alnum

complete -c locale_tool -f
complete -c locale_tool -s h -l help -d 'Prints the words of the program, or of a command'
complete -c locale_tool -n "not __fish_seen_subcommand_from $commands" -s V -l version -d 'Prints the version'
complete -c locale_tool -n "not __fish_seen_subcommand_from $commands" -a money -d 'Prints amounts of money by a format of strfmon'
complete -c locale_tool -n "not __fish_seen_subcommand_from $commands" -a time -d 'Prints a time by a format of strftime'
complete -c locale_tool -n "not __fish_seen_subcommand_from $commands" -a number -d 'Prints whole numbers and decimals by a format of printf, or reads one back'
complete -c locale_tool -n "not __fish_seen_subcommand_from $commands" -a info -d 'Prints items of nl_langinfo'
complete -c locale_tool -n "not __fish_seen_subcommand_from $commands" -a conv -d 'Prints how numbers and amounts are written, a field a line'
complete -c locale_tool -n "not __fish_seen_subcommand_from $commands" -a parse -d 'Prints the fields of a time that a text has by a format of strptime'
complete -c locale_tool -n "not __fish_seen_subcommand_from $commands" -a class -d 'Prints whether characters are in a class'
complete -c locale_tool -n "not __fish_seen_subcommand_from $commands" -a upper -d 'Prints the upper case of characters'
complete -c locale_tool -n "not __fish_seen_subcommand_from $commands" -a lower -d 'Prints the lower case of characters'
complete -c locale_tool -n "not __fish_seen_subcommand_from $commands" -a check -d 'Checks locale sources, and charmaps, which have a line `CHARMAP`'
complete -c locale_tool -n "not __fish_seen_subcommand_from $commands" -a import -d "Makes standard sources of a system's own ones"
complete -c locale_tool -n "not __fish_seen_subcommand_from $commands" -a explain -d 'Prints the rule of a reason, what breaks it and what keeps it'
complete -c locale_tool -n "not __fish_seen_subcommand_from $commands" -a run -d 'Runs the scripts of bundles, the threads of a round in parallel'
complete -c locale_tool -n "not __fish_seen_subcommand_from $commands" -a serial -d 'Runs the scripts of bundles on one thread'
complete -c locale_tool -n "not __fish_seen_subcommand_from $commands" -a compare -d 'Prints what two locales define differently; the status is 1 where they do'
complete -c locale_tool -n "not __fish_seen_subcommand_from $commands" -a preview -d 'Prints locales at a glance, side by side'
complete -c locale_tool -n "not __fish_seen_subcommand_from $commands" -a help -d 'Prints the words of the program, or of a command'

complete -c locale_tool -n "__fish_seen_subcommand_from $readers" -s l -l locale -r -F -d 'The source of the locale'
complete -c locale_tool -n "__fish_seen_subcommand_from $readers check compare preview" -l charmap -r -F -d 'The charmap in which sources are read'
complete -c locale_tool -n "__fish_seen_subcommand_from $readers check import compare preview" -l path -x -a '(__fish_complete_directories)' -d 'Where the file of a locale is that a copy names'
complete -c locale_tool -n "__fish_seen_subcommand_from $readers compare preview" -l gnu -d "Takes a source of the system's own kind"
complete -c locale_tool -n "__fish_seen_subcommand_from $readers" -l strict -d 'Refuses a source that lacks a category which is read'
complete -c locale_tool -n '__fish_seen_subcommand_from info conv parse check import explain compare' -l json -d 'Prints one JSON object'
complete -c locale_tool -n "__fish_seen_subcommand_from $commands" -l color -x -a 'always auto never' -d 'Whether places and marks in messages have colours'
complete -c locale_tool -n '__fish_seen_subcommand_from import' -s o -l output -x -a '(__fish_complete_directories)' -d 'Where the standard sources go'
complete -c locale_tool -n '__fish_seen_subcommand_from import' -l notes -d 'Tells of each line that is left out or changed'
complete -c locale_tool -n '__fish_seen_subcommand_from number' -l read -x -d 'Prints the number that a text is in the locale'
complete -c locale_tool -n '__fish_seen_subcommand_from preview' -l html -d 'Writes a page of HTML that stands alone'
complete -c locale_tool -n '__fish_seen_subcommand_from check' -l summary -d 'Prints what each file has that is accepted'
complete -c locale_tool -n '__fish_seen_subcommand_from run serial' -l explain -d 'Prints the command behind each line, and counts refusals'
complete -c locale_tool -n '__fish_seen_subcommand_from run serial' -l strict -d 'Ends with status 1 where a command is refused'

complete -c locale_tool -n '__fish_seen_subcommand_from check import run serial compare preview' -F
complete -c locale_tool -n '__fish_seen_subcommand_from time' -a now
complete -c locale_tool -n '__fish_seen_subcommand_from info' -a "(locale_tool info 2> /dev/null | string replace -r '=.*' '')"
complete -c locale_tool -n '__fish_seen_subcommand_from class' -a "$classes"
complete -c locale_tool -n '__fish_seen_subcommand_from explain' -a "(locale_tool explain 2> /dev/null | string replace -r ' .*' '')"
complete -c locale_tool -n "__fish_seen_subcommand_from help" -a "$commands"
