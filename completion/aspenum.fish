# Completion of aspenum for fish: an option once, in one of its forms, its values, help and the version as the first word.
complete -c aspenum -f

function __aspenum_first
    test (count (commandline -opc)) -eq 1
end

# whether none of these options is given yet, alone or with its value after =; a last one that waits for its value doesn't count
function __aspenum_lacks
    set -l words (commandline -opc)
    for name in $argv
        set -l given $words
        if test "$given[-1]" = "$name"; and not contains -- $name --stats --progress --proof --opt-all --stream --quiet -q --names --queries --core-min
            set -e given[-1]
        end
        for word in $given
            if test "$word" = "$name"; or string match -q -- "$name=*" $word
                return 1
            end
        end
    end
    true
end

# what says how to solve: parts exclude it
set -g __aspenum_solving --mode -e --models -n --opt-all --stream --workers -t --log --budget --output --quiet -q --names --proof --queries --core-min --stats --progress

complete -c aspenum -n '__aspenum_lacks --mode -e --split' -s e -l mode -x -d 'What is sought' -a 'auto\t"opt where the program minimises, else enum" enum\t"all answers" opt\t"one answer of least cost" brave\t"the atoms in some answer" cautious\t"the atoms in every answer"'
complete -c aspenum -n '__aspenum_lacks --format' -l format -x -d 'How the program is written' -a 'aspif\t"what gringo writes by itself" smodels\t"what it writes with --output=smodels"'
complete -c aspenum -n '__aspenum_lacks --models -n --split --queries' -s n -l models -x -d 'End with this many answers'
complete -c aspenum -n '__aspenum_lacks --opt-all --split --queries' -l opt-all -d 'Write all optima'
complete -c aspenum -n '__aspenum_lacks --stream --split --queries' -l stream -d 'Write answers as soon as their order is known'
complete -c aspenum -n '__aspenum_lacks --workers -t --split' -s t -l workers -x -d 'Threads that search' -a '1 2 4 8 16 32 64'
complete -c aspenum -n '__aspenum_lacks --log --split' -l log -x -d 'Where threads tell one another what they learnt' -a 'blocks\t"blocks under a lock" row\t"65536 slots without a lock"'
complete -c aspenum -n '__aspenum_lacks --budget --split' -l budget -x -d 'At most this many conflicts'
complete -c aspenum -n '__aspenum_lacks --output --proof --split --make' -l output -x -d 'The form of the results' -a 'text\t"lines of text" json\t"JSON with the keys that clasp has"'
complete -c aspenum -n '__aspenum_lacks --quiet -q --proof --split' -s q -l quiet -d 'Write no answers'
complete -c aspenum -n '__aspenum_lacks --names --split' -l names -d 'Tell consequences by the texts of outputs'
complete -c aspenum -n '__aspenum_lacks --proof --output --quiet -q --split --queries' -l proof -d 'Write a proof in place of the results'
complete -c aspenum -n '__aspenum_lacks --split $__aspenum_solving' -l split -x -d 'Write the parts of a program, at most this many'
complete -c aspenum -n '__aspenum_lacks --make --output --queries' -l make -x -d 'Solve a ring of this many nodes, read no program'
complete -c aspenum -n '__aspenum_lacks --queries --proof --opt-all --stream --models -n --make --split' -l queries -d 'Answer the queries after the program'
complete -c aspenum -n '__aspenum_lacks --core-min --split' -l core-min -d 'Make cores of queries as small as may be'
complete -c aspenum -n '__aspenum_lacks --stats --split' -l stats -d 'Write counts to standard error'
complete -c aspenum -n '__aspenum_lacks --progress --split' -l progress -d 'Write lines to standard error while it runs'
complete -c aspenum -n '__aspenum_first' -s h -l help -d 'Write the options and exit statuses'
complete -c aspenum -n '__aspenum_first' -l version -d 'Write the version'

# aspground: files and a few words before --, and what aspenum takes after it.
function __aspground_solves
    contains -- -- (commandline -opc)
end

function __aspground_options
    set -l words (commandline -opc)
    set -l end (contains -i -- -- $words)
    set -e words[1..$end]
    complete -C "$(string join ' ' -- aspenum (string escape -- $words) (commandline -ct))"
end

complete -c aspground -n 'not __aspground_solves' -l help -d 'Write how it is called'
complete -c aspground -n 'not __aspground_solves' -l version -d 'Write the versions'
complete -c aspground -n 'not __aspground_solves' -a '--' -d 'Options of aspenum follow'
complete -c aspground -n __aspground_solves -f -a '(__aspground_options)'

complete -c aspcheck -f
complete -c aspcheck -l format -x -d 'The format of the program' -a 'aspif smodels'
complete -c aspcheck -s h -l help -d 'Write a page of help'
complete -c aspcheck -l version -d 'Write the version'
