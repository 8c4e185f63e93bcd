# nghi completions fish | source
complete -c nghi -n __fish_use_subcommand -f -a check -d 'whether it can be played, and what is wrong or deserves a look'
complete -c nghi -n '__fish_seen_subcommand_from check' -l deny -r -d 'W1 to W5, or all'
complete -c nghi -n '__fish_seen_subcommand_from check' -l json -d 'one line of JSON, for programs'
complete -c nghi -n __fish_use_subcommand -f -a programs -d 'each party\'s events with the narration\'s own names and lines'
complete -c nghi -n '__fish_seen_subcommand_from programs' -l party -r -d 'a party\'s name'
complete -c nghi -n '__fish_seen_subcommand_from programs' -l json -d 'one line of JSON, for programs'
complete -c nghi -n __fish_use_subcommand -f -a knows -d 'who holds what, how and since when, and who can build it'
complete -c nghi -n '__fish_seen_subcommand_from knows' -l party -r -d 'a party\'s name'
complete -c nghi -n '__fish_seen_subcommand_from knows' -l at -r -d 'a line: what is held after its step; of a book, a step'
complete -c nghi -n '__fish_seen_subcommand_from knows' -l term -r -d 'a term, as the narration has it'
complete -c nghi -n '__fish_seen_subcommand_from knows' -l json -d 'one line of JSON, for programs'
complete -c nghi -n __fish_use_subcommand -f -a play -d 'a run of the programs, move by move, and how it leaves each party'
complete -c nghi -n '__fish_seen_subcommand_from play' -l order -r -d 'narration, round, reverse or random:SEED'
complete -c nghi -n '__fish_seen_subcommand_from play' -l moves -r -d 'parties\' names with commas, a move each'
complete -c nghi -n '__fish_seen_subcommand_from play' -l json -d 'one line of JSON, for programs'
complete -c nghi -n __fish_use_subcommand -f -a judge -d 'whether another tool\'s listing of a party is ours but for the names of placeholders'
complete -c nghi -n '__fish_seen_subcommand_from judge' -l ours -d 'our own listing of the party'
complete -c nghi -n '__fish_seen_subcommand_from judge' -l json -d 'one line of JSON, for programs'
complete -c nghi -n __fish_use_subcommand -f -a draw -d 'a picture of the run, of at most 400 events; what is refused is drawn up to its step'
complete -c nghi -n '__fish_seen_subcommand_from draw' -s o -r -d 'the picture\'s file, or - for standard output'
complete -c nghi -n '__fish_seen_subcommand_from draw' -l order -r -d 'narration, round, reverse or random:SEED'
complete -c nghi -n '__fish_seen_subcommand_from draw' -l as -r -d 'svg, html or mmd, where the file\'s name does not say it'
complete -c nghi -n '__fish_seen_subcommand_from draw' -l force -d 'also over a file that is something else'
complete -c nghi -n '__fish_seen_subcommand_from draw' -l json -d 'one line of JSON, for programs'
complete -c nghi -n __fish_use_subcommand -f -a build -d 'writes the book, and its names beside it as X.names; or of a book a narration; never over its source'
complete -c nghi -n '__fish_seen_subcommand_from build' -s o -r -d 'the book\'s file, or the narration\'s'
complete -c nghi -n '__fish_seen_subcommand_from build' -l force -d 'also over a file that is something else'
complete -c nghi -n '__fish_seen_subcommand_from build' -l json -d 'one line of JSON, for programs'
complete -c nghi -n __fish_use_subcommand -f -a watch -d 'checks a file, or a folder\'s narrations, again on every change'
complete -c nghi -n '__fish_seen_subcommand_from watch' -l html -r -d 'a page of the file\'s run, drawn again on every change'
complete -c nghi -n '__fish_seen_subcommand_from watch' -l once -d 'looks once, and ends'
complete -c nghi -n '__fish_seen_subcommand_from watch' -l json -d 'one line of JSON, for programs'
complete -c nghi -n __fish_use_subcommand -f -a explain -d 'what a refusal or a warning means: the rule, an example, the cure'
complete -c nghi -n '__fish_seen_subcommand_from explain' -f -a R1
complete -c nghi -n '__fish_seen_subcommand_from explain' -f -a R2
complete -c nghi -n '__fish_seen_subcommand_from explain' -f -a R3
complete -c nghi -n '__fish_seen_subcommand_from explain' -f -a R4
complete -c nghi -n '__fish_seen_subcommand_from explain' -f -a R5
complete -c nghi -n '__fish_seen_subcommand_from explain' -f -a R6
complete -c nghi -n '__fish_seen_subcommand_from explain' -f -a R7
complete -c nghi -n '__fish_seen_subcommand_from explain' -f -a R8
complete -c nghi -n '__fish_seen_subcommand_from explain' -f -a R9
complete -c nghi -n '__fish_seen_subcommand_from explain' -f -a R10
complete -c nghi -n '__fish_seen_subcommand_from explain' -f -a R11
complete -c nghi -n '__fish_seen_subcommand_from explain' -f -a R12
complete -c nghi -n '__fish_seen_subcommand_from explain' -f -a R13
complete -c nghi -n '__fish_seen_subcommand_from explain' -f -a R20
complete -c nghi -n '__fish_seen_subcommand_from explain' -f -a R21
complete -c nghi -n '__fish_seen_subcommand_from explain' -f -a R22
complete -c nghi -n '__fish_seen_subcommand_from explain' -f -a R24
complete -c nghi -n '__fish_seen_subcommand_from explain' -f -a W1
complete -c nghi -n '__fish_seen_subcommand_from explain' -f -a W2
complete -c nghi -n '__fish_seen_subcommand_from explain' -f -a W3
complete -c nghi -n '__fish_seen_subcommand_from explain' -f -a W4
complete -c nghi -n '__fish_seen_subcommand_from explain' -f -a W5
complete -c nghi -n '__fish_seen_subcommand_from explain' -l json -d 'one line of JSON, for programs'
complete -c nghi -n __fish_use_subcommand -f -a new -d 'writes NAME.narration, a small one to begin with; never over a file that is there'
complete -c nghi -n '__fish_seen_subcommand_from new' -l json -d 'one line of JSON, for programs'
complete -c nghi -n __fish_use_subcommand -f -a completions -d 'a script for the shell, which completes commands and options'
complete -c nghi -n '__fish_seen_subcommand_from completions' -f -a bash
complete -c nghi -n '__fish_seen_subcommand_from completions' -f -a zsh
complete -c nghi -n '__fish_seen_subcommand_from completions' -f -a fish
complete -c nghi -n '__fish_seen_subcommand_from completions' -l json -d 'one line of JSON, for programs'
