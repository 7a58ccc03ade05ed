# Completions of sigma for fish: a file of ~/.config/fish/completions.
complete -c sigma -n __fish_use_subcommand -l help -d 'commands and options'
complete -c sigma -n __fish_use_subcommand -l version -d 'what was built'
complete -c sigma -n __fish_use_subcommand -l explain -d 'what a code of a refusal says'
complete -c sigma -n __fish_use_subcommand -l unproved -d 'before a command: an answer within minutes, not proved'
complete -c sigma -n __fish_use_subcommand -f -a check -d 'which documents are rules or correlations'
complete -c sigma -n __fish_use_subcommand -f -a convert -d 'a query for each rule'
complete -c sigma -n '__fish_seen_subcommand_from convert' -l backend -x -a 'sqlite lucene'
complete -c sigma -n '__fish_seen_subcommand_from convert' -l schema -r -F
complete -c sigma -n '__fish_seen_subcommand_from convert' -l pipeline -r -F
complete -c sigma -n __fish_use_subcommand -f -a run -d 'the events that a rule matches'
complete -c sigma -n '__fish_seen_subcommand_from run' -l schema -r -F
complete -c sigma -n '__fish_seen_subcommand_from run' -l pipeline -r -F
complete -c sigma -n __fish_use_subcommand -f -a query -d 'the events that a query selects'
complete -c sigma -n '__fish_seen_subcommand_from query' -l backend -x -a 'sqlite lucene'
complete -c sigma -n '__fish_seen_subcommand_from query' -l schema -r -F
complete -c sigma -n __fish_use_subcommand -f -a correlate -d 'the reports of correlations over events'
complete -c sigma -n '__fish_seen_subcommand_from correlate' -l schema -r -F
complete -c sigma -n '__fish_seen_subcommand_from correlate' -l pipeline -r -F
complete -c sigma -n __fish_use_subcommand -f -a generate -d 'a rule compared with its queries over made events'
complete -c sigma -n '__fish_seen_subcommand_from generate' -l seed -x
complete -c sigma -n '__fish_seen_subcommand_from generate' -l events -x
