# Completions of `koat` for fish.
set -l commands best facts analyse prove certify check replay lasso lp while translate generate selfrun
complete -c koat -f
complete -c koat -n "not __fish_seen_subcommand_from $commands" -l help -d 'Commands and statuses'
complete -c koat -n "not __fish_seen_subcommand_from $commands" -l version -d 'Version, sources, proved or not'
complete -c koat -n "not __fish_seen_subcommand_from $commands" -a best -d 'The best bounds that are found and checked'
complete -c koat -n "not __fish_seen_subcommand_from $commands" -a facts -d 'Facts at locations, and bounds with them'
complete -c koat -n "not __fish_seen_subcommand_from $commands" -a analyse -d 'Bounds of the program alone'
complete -c koat -n "not __fish_seen_subcommand_from $commands" -a prove -d 'The proof of the bounds, as a proof file'
complete -c koat -n "not __fish_seen_subcommand_from $commands" -a certify -d 'The proof of the best bounds, as a proof file'
complete -c koat -n "not __fish_seen_subcommand_from $commands" -a check -d 'Whether a proof file is accepted'
complete -c koat -n "not __fish_seen_subcommand_from $commands" -a replay -d 'The steps of a run, counted beside the bounds'
complete -c koat -n "not __fish_seen_subcommand_from $commands" -a lasso -d 'Whether a run can be repeated without end'
complete -c koat -n "not __fish_seen_subcommand_from $commands" -a lp -d 'The exact end of a linear program'
complete -c koat -n "not __fish_seen_subcommand_from $commands" -a while -d 'Bounds of a program with loops and branches'
complete -c koat -n "not __fish_seen_subcommand_from $commands" -a translate -d 'Such a program as a transition system'
complete -c koat -n "not __fish_seen_subcommand_from $commands" -a generate -d 'A program of 2*N + 1 rules'
complete -c koat -n "not __fish_seen_subcommand_from $commands" -a selfrun -d 'The number of bounds of that program'
complete -c koat -n "__fish_seen_subcommand_from best facts analyse prove certify while" -l pivots -x -d 'Pivots of each linear program'
complete -c koat -n "__fish_seen_subcommand_from best facts analyse prove certify check replay lasso lp while translate" -F
