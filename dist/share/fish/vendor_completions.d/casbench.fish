# Completion of casbench in fish. Made by dist/make-share from the help of the program.

# Whether this is the command, which is the first word; without an argument, whether there is none yet.
function __casbench_is
    set -l given (commandline -opc)
    test "$given[2]" = "$argv[1]"
end

# Whether this is the command, and options may still come, but none of these names was given; an option with a `value`
# may be the word before.
function __casbench_lacks -a command kind
    set -l given (commandline -opc)
    __casbench_is $command; and not contains -- -- $given; or return
    test $kind = value; and contains -- $given[-1] $argv[3..]; and set given $given[1..-2]
    for name in $argv[3..]
        string match -q -- $name $given; and return 1
        string match -q -- "$name=*" $given; and return 1
    end
    return 0
end

# Whether this is the command, and a file may come: fewer than `most` were given, and the word before is no option with
# a value, of which the names stand behind it.
function __casbench_wants -a command most
    __casbench_is $command; or return
    set -l given (commandline -opc)
    set -l valued $argv[3..]
    set -l files 0
    set -l is_value no
    set -l is_ended no
    for word in $given[3..]
        if test $is_value = yes
            set is_value no
        else if test $is_ended = no; and test "$word" = --
            set is_ended yes
        else if test $is_ended = no; and string match -q -- '-*' $word
            contains -- $word $valued; and set is_value yes
        else
            set files (math $files + 1)
        end
    end
    test $is_value = no; and test $files -lt $most
end

complete -c casbench -f
complete -c casbench -n '__casbench_is ""' -a check -d 'Check histories; casbench without a command checks standard input'
complete -c casbench -n '__casbench_is ""' -a witness -d 'Write the witness of a history'
complete -c casbench -n '__casbench_is ""' -a verify -d 'Check a witness against a history'
complete -c casbench -n '__casbench_is ""' -a bulk -d 'Write a bulk request and its reply as lines of a history'
complete -c casbench -n '__casbench_is ""' -a run -d 'Run clients against a replication group, and write the history that they record'
complete -c casbench -n '__casbench_is ""' -a explain -d 'Check a history and explain the result'
complete -c casbench -n '__casbench_is ""' -a help -d 'Print this message or the help of the given subcommand(s)'
complete -c casbench -n '__casbench_lacks "" flag -h --help' -s h -l help -d 'Print help'
complete -c casbench -n '__casbench_lacks "" flag -V --version' -s V -l version -d 'Print version'
complete -c casbench -n '__casbench_lacks check value --profile' -l profile -x -a 'strict opensearch' -d 'What the store promises: strict (linearizable reads, writes performed once) or opensearch (as its documentation says); strict by default'
complete -c casbench -n '__casbench_lacks check value --gets' -l gets -x -a 'last any' -d 'What a get shows: last (the last change) or any (what any copy had); the profile\'s by default'
complete -c casbench -n '__casbench_lacks check value --conflicts' -l conflicts -x -a 'plain maybe unknown' -d 'How a conflict is read: plain (not performed), maybe (possibly performed) or unknown (it shows nothing); the profile\'s by default'
complete -c casbench -n '__casbench_lacks check value --writes' -l writes -x -a 'once repeated' -d 'How often a write is performed: once or repeated (maybe twice, without a condition); the profile\'s by default'
complete -c casbench -n '__casbench_lacks check value --failed' -l failed -x -a 'lost trusted' -d 'How a lost call marked as void is read: lost (possibly performed) or trusted (not performed); the profile\'s by default'
complete -c casbench -n '__casbench_lacks check value --workers' -l workers -x -d 'How many workers search the documents, 1 to 16; 1 by default'
complete -c casbench -n '__casbench_lacks check flag --rule-out' -l rule-out -d 'If no order is found, look for a document that no order explains, whatever became of lost calls; on with --profile opensearch'
complete -c casbench -n '__casbench_lacks check value --at-least' -l at-least -x -d 'How many calls a history has to have: a yes with fewer gets status 6; 0 by default'
complete -c casbench -n '__casbench_lacks check flag --json' -l json -d 'Write answers as objects of JSON'
complete -c casbench -n '__casbench_lacks check flag -h --help' -s h -l help -d 'Print help'
complete -c casbench -n '__casbench_wants check 999 --profile --gets --conflicts --writes --failed --workers --at-least' -F
complete -c casbench -n '__casbench_lacks witness value --profile' -l profile -x -a 'strict opensearch' -d 'What the store promises: strict (linearizable reads, writes performed once) or opensearch (as its documentation says); strict by default'
complete -c casbench -n '__casbench_lacks witness value --gets' -l gets -x -a 'last any' -d 'What a get shows: last (the last change) or any (what any copy had); the profile\'s by default'
complete -c casbench -n '__casbench_lacks witness value --conflicts' -l conflicts -x -a 'plain maybe unknown' -d 'How a conflict is read: plain (not performed), maybe (possibly performed) or unknown (it shows nothing); the profile\'s by default'
complete -c casbench -n '__casbench_lacks witness value --writes' -l writes -x -a 'once repeated' -d 'How often a write is performed: once or repeated (maybe twice, without a condition); the profile\'s by default'
complete -c casbench -n '__casbench_lacks witness value --failed' -l failed -x -a 'lost trusted' -d 'How a lost call marked as void is read: lost (possibly performed) or trusted (not performed); the profile\'s by default'
complete -c casbench -n '__casbench_lacks witness flag --rule-out' -l rule-out -d 'If no order is found, look for a document that no order explains, whatever became of lost calls; on with --profile opensearch'
complete -c casbench -n '__casbench_lacks witness flag --json' -l json -d 'Write answers as objects of JSON'
complete -c casbench -n '__casbench_lacks witness flag -h --help' -s h -l help -d 'Print help'
complete -c casbench -n '__casbench_wants witness 1 --profile --gets --conflicts --writes --failed' -F
complete -c casbench -n '__casbench_lacks verify value --profile' -l profile -x -a 'strict opensearch' -d 'What the store promises: strict (linearizable reads, writes performed once) or opensearch (as its documentation says); strict by default'
complete -c casbench -n '__casbench_lacks verify value --gets' -l gets -x -a 'last any' -d 'What a get shows: last (the last change) or any (what any copy had); the profile\'s by default'
complete -c casbench -n '__casbench_lacks verify value --conflicts' -l conflicts -x -a 'plain maybe unknown' -d 'How a conflict is read: plain (not performed), maybe (possibly performed) or unknown (it shows nothing); the profile\'s by default'
complete -c casbench -n '__casbench_lacks verify value --writes' -l writes -x -a 'once repeated' -d 'How often a write is performed: once or repeated (maybe twice, without a condition); the profile\'s by default'
complete -c casbench -n '__casbench_lacks verify value --failed' -l failed -x -a 'lost trusted' -d 'How a lost call marked as void is read: lost (possibly performed) or trusted (not performed); the profile\'s by default'
complete -c casbench -n '__casbench_lacks verify flag --json' -l json -d 'Write answers as objects of JSON'
complete -c casbench -n '__casbench_lacks verify flag -h --help' -s h -l help -d 'Print help'
complete -c casbench -n '__casbench_wants verify 2 --profile --gets --conflicts --writes --failed' -F
complete -c casbench -n '__casbench_lacks bulk value --first' -l first -x -d 'The number of the first call; 0 by default'
complete -c casbench -n '__casbench_lacks bulk flag -h --help' -s h -l help -d 'Print help'
complete -c casbench -n '__casbench_wants bulk 2 --first' -F
complete -c casbench -n '__casbench_lacks run value --seed' -l seed -x -d 'The seed from which the plan of the clients, the steps of the group and its disturbances are drawn'
complete -c casbench -n '__casbench_lacks run value --clients' -l clients -x -d 'How many clients there are, 1 to 8'
complete -c casbench -n '__casbench_lacks run value --calls' -l calls -x -d 'How many calls each client makes; 524,288 at most in all'
complete -c casbench -n '__casbench_lacks run value --docs' -l docs -x -d 'How many documents there are, 1 to 1,024'
complete -c casbench -n '__casbench_lacks run value --copies' -l copies -x -d 'How many copies the group has, 1 to 5'
complete -c casbench -n '__casbench_lacks run value --fault' -l fault -x -a 'none dirty early same-term stale blind' -d 'What the group does wrong: none, dirty, early, same-term, stale or blind'
complete -c casbench -n '__casbench_lacks run flag --in-turns' -l in-turns -d 'Run the clients in turns on one thread: the same arguments write the same text'
complete -c casbench -n '__casbench_lacks run value --disturb' -l disturb -x -a 'none cuts promotions storm' -d 'How the group is disturbed meanwhile: none, cuts, promotions or storm; none by default'
complete -c casbench -n '__casbench_lacks run value --until' -l until -x -a 'refuted' -d 'Try the seeds of --seeds in order, in turns, until a run gets refuted or no; ANSWER is refuted'
complete -c casbench -n '__casbench_lacks run value --seeds' -l seeds -x -d 'The seeds that are tried, from A to B'
complete -c casbench -n '__casbench_lacks run flag -h --help' -s h -l help -d 'Print help'
complete -c casbench -n '__casbench_lacks explain value --profile' -l profile -x -a 'strict opensearch' -d 'What the store promises: strict (linearizable reads, writes performed once) or opensearch (as its documentation says); strict by default'
complete -c casbench -n '__casbench_lacks explain value --gets' -l gets -x -a 'last any' -d 'What a get shows: last (the last change) or any (what any copy had); the profile\'s by default'
complete -c casbench -n '__casbench_lacks explain value --conflicts' -l conflicts -x -a 'plain maybe unknown' -d 'How a conflict is read: plain (not performed), maybe (possibly performed) or unknown (it shows nothing); the profile\'s by default'
complete -c casbench -n '__casbench_lacks explain value --writes' -l writes -x -a 'once repeated' -d 'How often a write is performed: once or repeated (maybe twice, without a condition); the profile\'s by default'
complete -c casbench -n '__casbench_lacks explain value --failed' -l failed -x -a 'lost trusted' -d 'How a lost call marked as void is read: lost (possibly performed) or trusted (not performed); the profile\'s by default'
complete -c casbench -n '__casbench_lacks explain value --workers' -l workers -x -d 'How many workers search the documents, 1 to 16; 1 by default'
complete -c casbench -n '__casbench_lacks explain flag --rule-out' -l rule-out -d 'If no order is found, look for a document that no order explains, whatever became of lost calls; on with --profile opensearch'
complete -c casbench -n '__casbench_lacks explain value --html' -l html -r -F -d 'Write the explanation to this file too, as a page of HTML'
complete -c casbench -n '__casbench_lacks explain value --document' -l document -x -d 'Draw the calls of the document with this id on the page'
complete -c casbench -n '__casbench_lacks explain value --lines' -l lines -x -d 'Draw no calls but those on the lines from A to B of the text'
complete -c casbench -n '__casbench_lacks explain flag --json' -l json -d 'Write answers as objects of JSON'
complete -c casbench -n '__casbench_lacks explain flag -h --help' -s h -l help -d 'Print help'
complete -c casbench -n '__casbench_wants explain 1 --profile --gets --conflicts --writes --failed --workers --html --document --lines' -F
complete -c casbench -n '__casbench_wants help 1' -a 'check witness verify bulk run explain help'
