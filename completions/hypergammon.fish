# Completion for fish. Source this file, or put it into ~/.config/fish/completions.
# completions/make writes it.

# Whether the command of the line is one of these.
function __hypergammon_is
    set -l words (commandline -opc)
    contains -- "$words[2]" $argv
end

# Whether the word at the cursor is one of these arguments: `solve.1` is the first one of solve, and `.1` the command itself.
function __hypergammon_asks
    set -l words (commandline -opc)
    set -l place 1
    set -l is_value no
    for it in $words[3..]
        if test $is_value = yes
            set is_value no
        else if string match -q -- '--*' $it
            string match -q -- '*=*' $it; or contains -- $it --id --board --crawford --post --take --full; or set is_value yes
        else
            set place (math $place + 1)
        end
    end
    contains -- "$words[2].$place" $argv
end

complete -c hypergammon -f
complete -c hypergammon -n '__hypergammon_asks .1' -l help -d 'the commands'
complete -c hypergammon -n '__hypergammon_asks .1' -l version -d 'which version this is'
complete -c hypergammon -n '__hypergammon_asks .1 help.1' -a board -d 'a position as a board, to check how it was typed'
complete -c hypergammon -n '__hypergammon_asks .1 help.1' -a bound -d 'the bounds of a position, without a cube'
complete -c hypergammon -n '__hypergammon_asks .1 help.1' -a race -d 'how long a race may last, and its bounds; no cube'
complete -c hypergammon -n '__hypergammon_asks .1 help.1' -a solve -d 'the bounds of all positions, written to FILE'
complete -c hypergammon -n '__hypergammon_asks .1 help.1' -a show -d 'the bounds of a position from a file'
complete -c hypergammon -n '__hypergammon_asks .1 help.1' -a advise -d 'the best plays of a roll, or what to do with the cube'
complete -c hypergammon -n '__hypergammon_asks .1 help.1' -a migrate -d 'a file, checked, written anew in the latest version'
complete -c hypergammon -n '__hypergammon_asks .1 help.1' -a verify -d 'whether a file\'s bounds follow from each other, whoever made it'
complete -c hypergammon -n '__hypergammon_asks .1 help.1' -a scan -d 'the positions of a file that meet a condition'
complete -c hypergammon -n '__hypergammon_asks .1 help.1' -a reply -d 'what a file\'s advice is worth against the best reply'
complete -c hypergammon -n '__hypergammon_asks .1 help.1' -a ladder -d 'a match, each score written to a file as PREFIX.1.2.c'
complete -c hypergammon -n '__hypergammon_asks .1 help.1' -a plan -d 'take points and gammon prices of a match that ladder solved'
complete -c hypergammon -n '__hypergammon_asks .1 help.1' -a analyse -d 'what each decision of a recorded game lost, by a file'
complete -c hypergammon -n '__hypergammon_asks .1 help.1' -a study -d 'the same without a file: what is needed is solved first'
complete -c hypergammon -n '__hypergammon_asks .1 help.1' -a make -d 'a record of games of one checker, drawn by a number'
complete -c hypergammon -n '__hypergammon_asks .1' -a help -d 'the pages of help'
complete -c hypergammon -n '__hypergammon_asks help.1' -a position -d 'how a position is written'
complete -c hypergammon -n '__hypergammon_asks help.1' -a record -d 'how games are recorded, with one to copy'
complete -c hypergammon -n '__hypergammon_asks help.1' -a match -d 'scores, their files, and where the cube is'
complete -c hypergammon -n '__hypergammon_asks help.1' -a files -d 'files of bounds, their sizes, versions, damage'
complete -c hypergammon -n '__hypergammon_asks help.1' -a status -d 'why there is no result, by the number told'
complete -c hypergammon -n '__hypergammon_is board' -l id
complete -c hypergammon -n '__hypergammon_is bound' -l board
complete -c hypergammon -n '__hypergammon_is race' -l board
complete -c hypergammon -n '__hypergammon_is solve' -l checkers -x -a '1 2 3'
complete -c hypergammon -n '__hypergammon_is solve' -l stakes -x -a 'cubeless money jacoby money-beavers jacoby-beavers'
complete -c hypergammon -n '__hypergammon_is solve' -l rounds -x
complete -c hypergammon -n '__hypergammon_is solve' -l workers -x
complete -c hypergammon -n '__hypergammon_is solve' -l width -x
complete -c hypergammon -n '__hypergammon_is show' -l board
complete -c hypergammon -n '__hypergammon_is show' -l id
complete -c hypergammon -n '__hypergammon_is show' -l positions -rF
complete -c hypergammon -n '__hypergammon_is show' -l workers -x
complete -c hypergammon -n '__hypergammon_is show' -l away -x
complete -c hypergammon -n '__hypergammon_is show' -l crawford
complete -c hypergammon -n '__hypergammon_is show' -l post
complete -c hypergammon -n '__hypergammon_is advise' -l kind -x -a 'alone centred mine theirs near:1:centred far:1:centred near:2:near far:2:near near:2:far far:2:far near:4:near far:4:near near:4:far far:4:far near:8:near far:8:near near:8:far far:8:far'
complete -c hypergammon -n '__hypergammon_is advise' -l roll -x
complete -c hypergammon -n '__hypergammon_is advise' -l board
complete -c hypergammon -n '__hypergammon_is advise' -l take
complete -c hypergammon -n '__hypergammon_is advise' -l rolls -rF
complete -c hypergammon -n '__hypergammon_is advise' -l workers -x
complete -c hypergammon -n '__hypergammon_is advise' -l away -x
complete -c hypergammon -n '__hypergammon_is advise' -l cube -x -a 'centred mine theirs'
complete -c hypergammon -n '__hypergammon_is advise' -l value -x -a '1 2 4 8'
complete -c hypergammon -n '__hypergammon_is advise' -l crawford
complete -c hypergammon -n '__hypergammon_is advise' -l post
complete -c hypergammon -n '__hypergammon_is migrate' -l workers -x
complete -c hypergammon -n '__hypergammon_is verify' -l workers -x
complete -c hypergammon -n '__hypergammon_is scan' -l workers -x
complete -c hypergammon -n '__hypergammon_is reply' -l kind -x -a 'alone centred mine theirs near:1:centred far:1:centred near:2:near far:2:near near:2:far far:2:far near:4:near far:4:near near:4:far far:4:far near:8:near far:8:near near:8:far far:8:far'
complete -c hypergammon -n '__hypergammon_is reply' -l rounds -x
complete -c hypergammon -n '__hypergammon_is ladder' -l checkers -x -a '1 2 3'
complete -c hypergammon -n '__hypergammon_is ladder' -l length -x -a '1 2 3 4 5'
complete -c hypergammon -n '__hypergammon_is ladder' -l rounds -x
complete -c hypergammon -n '__hypergammon_is ladder' -l workers -x
complete -c hypergammon -n '__hypergammon_is plan' -l length -x -a '1 2 3 4 5'
complete -c hypergammon -n '__hypergammon_is analyse' -l worst -x
complete -c hypergammon -n '__hypergammon_is analyse' -l full
complete -c hypergammon -n '__hypergammon_is analyse' -l board
complete -c hypergammon -n '__hypergammon_is study' -l rounds -x
complete -c hypergammon -n '__hypergammon_is study' -l workers -x
complete -c hypergammon -n '__hypergammon_is study' -l worst -x
complete -c hypergammon -n '__hypergammon_is study' -l full
complete -c hypergammon -n '__hypergammon_is study' -l board
complete -c hypergammon -n '__hypergammon_asks board.1 bound.1 race.1 solve.1 show.1 advise.1 migrate.1 verify.1 scan.1 reply.1 ladder.1 plan.1 analyse.1 study.1 make.1' -l help -d 'the page of the command'
complete -c hypergammon -n '__hypergammon_asks solve.1 show.1 advise.1 migrate.1 migrate.2 verify.1 scan.1 reply.1 ladder.1 plan.1 analyse.1 analyse.2 study.1 make.3' -F
