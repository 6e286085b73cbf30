# Completion of the command in fish: commands, the options that each takes, numbers of explain, and files.
set -l commands cut rows check batch pack unpack covers mend show explain
complete -c choughbell -n "not __fish_seen_subcommand_from $commands" -f -a "$commands"
complete -c choughbell -s h -l help -d 'a short text'
complete -c choughbell -s V -l version -d 'the version'
set -l cuts '__fish_seen_subcommand_from cut rows batch show'
complete -c choughbell -n $cuts -s l -l list -r -d 'the paths'
complete -c choughbell -n $cuts -s e -l path -x -d 'one path'
complete -c choughbell -n '__fish_seen_subcommand_from cut rows batch show covers' -l packed -d 'the list is packed'
complete -c choughbell -n '__fish_seen_subcommand_from cut rows batch pack unpack mend show' -s o -l output -r -d 'where it goes'
complete -c choughbell -n '__fish_seen_subcommand_from batch' -s d -l folder -x -a '(__fish_complete_directories)' -d 'where cuts go'
complete -c choughbell -n '__fish_seen_subcommand_from cut' -l count -d 'the numbers only'
complete -c choughbell -n '__fish_seen_subcommand_from cut' -l each -d 'the number of each line'
complete -c choughbell -n '__fish_seen_subcommand_from cut' -l plain -d 'by the plain engine'
complete -c choughbell -n '__fish_seen_subcommand_from covers' -l narrow -r -F -d 'the list to be covered'
complete -c choughbell -n '__fish_seen_subcommand_from covers' -l wide -r -F -d 'the list that covers'
complete -c choughbell -n '__fish_seen_subcommand_from cut rows check batch pack unpack covers mend show' -s q -l quiet -d 'the exit status alone'
complete -c choughbell -n '__fish_seen_subcommand_from cut rows check batch pack unpack covers mend' -l json -d 'the numbers as JSON'
complete -c choughbell -n '__fish_seen_subcommand_from explain' -f -a '0 1 2 3 4 5 6 7 8 9 10 11 12 13 20 64 66 73 74'
