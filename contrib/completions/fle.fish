# Completion of fle for fish: put this file into ~/.config/fish/completions.
complete -c fle -f
complete -c fle -n __fish_use_subcommand -a keygen -d "Make a data key and write its document"
complete -c fle -n __fish_use_subcommand -a keys -d "Write a line for each key of a vault"
complete -c fle -n __fish_use_subcommand -a mark -d "Write the marking reply to each command"
complete -c fle -n __fish_use_subcommand -a encrypt -d "Write each command with its protected values sealed"
complete -c fle -n __fish_use_subcommand -a encrypt-with -d "The same, once the marking reply behind each is right"
complete -c fle -n __fish_use_subcommand -a decrypt -d "Write each document with its sealed values opened"
complete -c fle -n __fish_use_subcommand -a show -d "Write a line of text for each document"
complete -c fle -n __fish_use_subcommand -a rewrap -d "Write a vault under a new master key"
complete -c fle -n __fish_use_subcommand -a demo -d "Seal and open made commands, and sum them up"
complete -c fle -n __fish_use_subcommand -a --help -d "What fle does"
complete -c fle -n __fish_use_subcommand -a --version -d "Which fle this is"
complete -c fle -n '__fish_seen_subcommand_from mark; and test (count (commandline -opc)) -eq 3' -F
complete -c fle -n '__fish_seen_subcommand_from keygen keys decrypt; and test (count (commandline -opc)) -eq 2' -F
complete -c fle -n '__fish_seen_subcommand_from rewrap; and contains (count (commandline -opc)) 2 3 4' -F
complete -c fle -n '__fish_seen_subcommand_from decrypt; and test (count (commandline -opc)) -eq 3' -F
complete -c fle -n '__fish_seen_subcommand_from encrypt encrypt-with; and contains (count (commandline -opc)) 3 4 5' -F
