# Completions of `koat-show` for fish.
set -l commands explain lint json class at run proof page many serve gallery endless
complete -c koat-show -f
complete -c koat-show -n "not __fish_seen_subcommand_from $commands" -a "$commands"
complete -c koat-show -n "__fish_seen_subcommand_from $commands" -F
complete -c koat-show -n "__fish_seen_subcommand_from $commands" -l best -d 'The best bounds'
complete -c koat-show -n "__fish_seen_subcommand_from $commands" -l facts -d 'Facts at locations first'
complete -c koat-show -n "__fish_seen_subcommand_from $commands" -l pivots -x -d 'Pivots of each linear program'
complete -c koat-show -n "__fish_seen_subcommand_from $commands" -l seconds -x -d 'How long koat may take'
