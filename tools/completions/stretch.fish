# Completion of stretch, stretch-chart, stretch-ledger and the scripts stretch-NAME in fish.
complete -c stretch -f -n '__fish_is_first_arg' -a 'run' -d 'run a deck'
complete -c stretch -f -n '__fish_is_first_arg' -a 'assemble' -d 'write its object text'
complete -c stretch -f -n '__fish_is_first_arg' -a 'load' -d 'run an object text'
complete -c stretch -f -n '__fish_is_first_arg' -a 'disassemble' -d 'turn an object text into a deck'
complete -c stretch -f -n '__fish_is_first_arg' -a 'sweep' -d 'machines of one to eight levels'
complete -c stretch -f -n '__fish_is_first_arg' -a 'soak' -d 'run a made deck'
complete -c stretch-chart -f -n '__fish_is_first_arg' -a 'svg text kanata'
complete -c stretch-ledger -f -n '__fish_is_first_arg' -a '1 2 3 4 5 6 7 8 sums rows'
complete -c stretch-read -f -n '__fish_is_first_arg' -a 'text csv json'
complete -c stretch-explain -f -n '__fish_is_first_arg' -a 'text csv json'
for name in why deck delays grade page picture slides study
    complete -c stretch-$name -l help -d 'how it is used'
end
