# Completion of ssikvd for fish.

complete -c ssikvd -f
complete -c ssikvd -s h -l help -d 'Print help'
complete -c ssikvd -n __fish_use_subcommand -s V -l version -d 'Print the version'

complete -c ssikvd -n __fish_use_subcommand -a create -d 'Make a data file and format it'
complete -c ssikvd -n __fish_use_subcommand -a serve -d 'Serve a data file'
complete -c ssikvd -n __fish_use_subcommand -a check -d 'Open a data file and count what it holds'
complete -c ssikvd -n __fish_use_subcommand -a compact -d 'Copy the map of a data file into a new data file'
complete -c ssikvd -n __fish_use_subcommand -a play -d 'Run the lines of standard input over a device in memory'
complete -c ssikvd -n __fish_use_subcommand -a help -d 'Print the help of the program or of a command'
complete -c ssikvd -n '__fish_seen_subcommand_from help' -a 'create serve check compact play help'

complete -c ssikvd -n '__fish_seen_subcommand_from create' -l data -r -F -d 'The file, which must not exist'
complete -c ssikvd -n '__fish_seen_subcommand_from create' -l sectors -x -d 'How many sectors of 512 bytes'
complete -c ssikvd -n '__fish_seen_subcommand_from serve' -l data -r -F -d 'The file'
complete -c ssikvd -n '__fish_seen_subcommand_from serve' -l listen -x -d 'The numeric address and port'
complete -c ssikvd -n '__fish_seen_subcommand_from check' -l data -r -F -d 'The file'
complete -c ssikvd -n '__fish_seen_subcommand_from compact' -l from -r -F -d 'The file, which is only read'
complete -c ssikvd -n '__fish_seen_subcommand_from compact' -l to -r -F -d 'The new file, which must not exist'
complete -c ssikvd -n '__fish_seen_subcommand_from compact' -l sectors -x -d 'At least how many sectors of 512 bytes'
complete -c ssikvd -n '__fish_seen_subcommand_from play' -l sectors -x -d 'How many sectors of 512 bytes'
