# Completion of commands, options and files for a2 and a2lab, for fish.
# The table `words` beside this file lists them; an installed file contains the table.
set -l words (cat (status dirname)/words | string collect)

for line in (string split \n -- $words)
    set -l row (string match -r '^([a-z]\S*) +(\S+) +(\S+) +(.*)$' -- $line)
    or continue
    set -l program $row[2]
    set -l behind 1
    set -l when true
    if test $row[3] != -
        set behind 2
        set when "__fish_seen_subcommand_from $row[3]"
        string match -q -- '-*' $row[4]
        or complete -c $program -n __fish_use_subcommand -f -a $row[3] -d $row[5]
    end
    switch $row[4]
        case '-?=*'
            complete -c $program -n $when -x -s (string sub -s 2 -l 1 -- $row[4]) -d $row[5]
        case '--*=*'
            complete -c $program -n $when -x -l (string replace -r -- '^--(.*)=.*' '$1' $row[4]) -d $row[5]
        case '--*'
            complete -c $program -n $when -f -l (string sub -s 3 -- $row[4]) -d $row[5]
        case '*'
            set -l endings (string split , -- $row[4])
            for at in (seq (count $endings))
                set -l there $when
                test (count $endings) -eq 1
                or set there "$when; and test (count (commandline -opc)) -eq "(math $behind + $at - 1)
                complete -c $program -n $there -f -k -a "(__fish_complete_suffix $endings[$at])"
            end
    end
end
