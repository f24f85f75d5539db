# What lockreplay takes, for fish: put this file into ~/.config/fish/completions.
# scripts/completions made this file of what the program's help says.

# Whether the command is this one.
function __lockreplay_is
    set -l words (commandline -opc)
    test (count $words) -ge 2; and test $words[2] = $argv[1]
end

# Whether the command is the first word, and a file may stand here: of its operands so many are files, and these options have values.
function __lockreplay_file
    __lockreplay_is $argv[1]; or return 1
    set -l words (commandline -opc)
    set -l count 0
    set -l is_value 0
    for word in $words[3..]
        if test $is_value = 1
            set is_value 0
        else if contains -- $word $argv[3..]
            set is_value 1
        else if not string match -q -- '-*' $word
            set count (math $count + 1)
        end
    end
    test $count -lt $argv[2]
end

# Whether no command stands there.
function __lockreplay_begins
    test (count (commandline -opc)) -eq 1
end

# Whether the command is help, and nothing stands behind it.
function __lockreplay_helps
    __lockreplay_is help; and test (count (commandline -opc)) -eq 2
end

complete -c lockreplay -f
complete -c lockreplay -n __lockreplay_begins -a run -d 'Run each line of a script in order and print the listing'
complete -c lockreplay -n __lockreplay_begins -a threads -d 'Run a script on threads and print the listing'
complete -c lockreplay -n __lockreplay_begins -a audit -d 'Say whether a journal is one of a run'
complete -c lockreplay -n __lockreplay_begins -a history -d 'Print the history of a journal'
complete -c lockreplay -n __lockreplay_begins -a state -d 'Show what the cluster of a journal holds'
complete -c lockreplay -n __lockreplay_begins -a judge -d 'Judge what clients of a lock manager saw'
complete -c lockreplay -n __lockreplay_begins -a seat -d 'Be one node or one token server, by lines'
complete -c lockreplay -n __lockreplay_begins -a members -d 'Keep the list of declarations and starts, by lines'
complete -c lockreplay -n __lockreplay_begins -a merge -d 'Make one journal of the logs of seats'
complete -c lockreplay -n __lockreplay_begins -a play -d 'Run a script line by line, as its lines come'
complete -c lockreplay -n __lockreplay_begins -a explain -d 'Tell the story of a call of a journal'
complete -c lockreplay -n __lockreplay_begins -a open -d 'List the calls of a journal that have no reply'
complete -c lockreplay -n __lockreplay_begins -a check -d 'Say what is wrong in scripts and journals'
complete -c lockreplay -n __lockreplay_begins -a picture -d 'Draw a journal, as SVG or Mermaid'
complete -c lockreplay -n __lockreplay_begins -a stats -d 'Count what a journal has'
complete -c lockreplay -n __lockreplay_begins -a from-strace -d 'Turn the output of strace into a script or a history'
complete -c lockreplay -n __lockreplay_begins -a explore -d 'Run a script under many schedules and tell the outcomes'
complete -c lockreplay -n __lockreplay_begins -a schedule -d 'Print the script of a schedule'
complete -c lockreplay -n __lockreplay_begins -a help -d 'Print this message or the help of the given command'
complete -c lockreplay -n __lockreplay_begins -s h -l help -d 'Print help'
complete -c lockreplay -n __lockreplay_begins -s V -l version -d 'Print version'

complete -c lockreplay -n '__lockreplay_file run 1 --after --journal' -F
complete -c lockreplay -n '__lockreplay_is run' -l after -r -F -d 'Go on behind the run of JOURNAL'
complete -c lockreplay -n '__lockreplay_is run' -l journal -r -F -d 'Write the journal of the run to FILE'
complete -c lockreplay -n '__lockreplay_is run' -l expect -d 'Compare the replies with the '\''# expect'\'' lines of SCRIPT'
complete -c lockreplay -n '__lockreplay_is run' -l quiet -d 'Make no listing, which needs --journal or --expect'
complete -c lockreplay -n '__lockreplay_is run' -l calm -d 'Go on behind SCRIPT until the run is calm'
complete -c lockreplay -n '__lockreplay_is run' -s h -l help -d 'Print help'

complete -c lockreplay -n '__lockreplay_file threads 1 --seed --journal' -F
complete -c lockreplay -n '__lockreplay_is threads' -l seed -x -d 'The seed of the weather that messages meet, up to 4294967295'
complete -c lockreplay -n '__lockreplay_is threads' -l stop-when-stuck -d 'End the run where no open call can be answered any more'
complete -c lockreplay -n '__lockreplay_is threads' -l no-join -d 'Make failures and starts while calls are open'
complete -c lockreplay -n '__lockreplay_is threads' -l journal -r -F -d 'Write the journal of the run to FILE'
complete -c lockreplay -n '__lockreplay_is threads' -s h -l help -d 'Print help'

complete -c lockreplay -n '__lockreplay_file audit 1' -F
complete -c lockreplay -n '__lockreplay_is audit' -s h -l help -d 'Print help'

complete -c lockreplay -n '__lockreplay_file history 1' -F
complete -c lockreplay -n '__lockreplay_is history' -l as-clients -d 'Print what the clients saw, for '\''lockreplay judge'\'''
complete -c lockreplay -n '__lockreplay_is history' -s h -l help -d 'Print help'

complete -c lockreplay -n '__lockreplay_file state 1 --at' -F
complete -c lockreplay -n '__lockreplay_is state' -l at -x -d 'Show the state behind entry K, or with 0 that before the first'
complete -c lockreplay -n '__lockreplay_is state' -s h -l help -d 'Print help'

complete -c lockreplay -n '__lockreplay_file judge 9999 --steps --explains --allow' -F
complete -c lockreplay -n '__lockreplay_is judge' -l steps -x -d 'How many tables of a file are looked at, up to 4294967295'
complete -c lockreplay -n '__lockreplay_is judge' -l explains -r -F -d 'Say whether the order in FILE explains HISTORY'
complete -c lockreplay -n '__lockreplay_is judge' -l allow -x -a 'wait-drops close-own-descriptor no-query stale-read-denial lost-at' -d 'Allow a difference from one table, as wait-drops'
complete -c lockreplay -n '__lockreplay_is judge' -l order -d 'Print an order of the calls that explains them'
complete -c lockreplay -n '__lockreplay_is judge' -l go-on -d 'Leave out what fits nowhere, and go on behind it'
complete -c lockreplay -n '__lockreplay_is judge' -l stats -d 'Print counts of calls and of tables'
complete -c lockreplay -n '__lockreplay_is judge' -l json -d 'Print the text as JSON'
complete -c lockreplay -n '__lockreplay_is judge' -s h -l help -d 'Print help'

complete -c lockreplay -n '__lockreplay_is seat' -l nodes -x -d 'The nodes of the cluster, from 1 to 64'
complete -c lockreplay -n '__lockreplay_is seat' -l files -x -d 'The files of the cluster, from 1 to 256'
complete -c lockreplay -n '__lockreplay_is seat' -l policy -x -a 'wide exact' -d 'How many bytes a node asks for beyond those of a call, as wide or exact'
complete -c lockreplay -n '__lockreplay_is seat' -l again -d 'Work only once the actor begins again'
complete -c lockreplay -n '__lockreplay_is seat' -l past -x -d 'With --again: how many times it begins again before that'
complete -c lockreplay -n '__lockreplay_is seat' -l log -r -F -d 'Write each block to LOG first, behind what it has'
complete -c lockreplay -n '__lockreplay_is seat' -l clock -d 'Begin blocks with two readings of the clock'
complete -c lockreplay -n '__lockreplay_is seat' -s h -l help -d 'Print help'

complete -c lockreplay -n '__lockreplay_is members' -l nodes -x -d 'The nodes of the cluster, from 1 to 64'
complete -c lockreplay -n '__lockreplay_is members' -l files -x -d 'The files of the cluster, from 1 to 256'
complete -c lockreplay -n '__lockreplay_is members' -l state -r -F -d 'The file that has the list'
complete -c lockreplay -n '__lockreplay_is members' -l clock -d 'Begin blocks with two readings of the clock'
complete -c lockreplay -n '__lockreplay_is members' -s h -l help -d 'Print help'

complete -c lockreplay -n '__lockreplay_file merge 9999 --journal --members --skew' -F
complete -c lockreplay -n '__lockreplay_is merge' -l journal -r -F -d 'Write the journal to JOURNAL'
complete -c lockreplay -n '__lockreplay_is merge' -l members -r -F -d 'The list of declarations and starts'
complete -c lockreplay -n '__lockreplay_is merge' -l check -d 'Only tell whether there is a journal'
complete -c lockreplay -n '__lockreplay_is merge' -l skew -x -d 'By how many microseconds clocks may differ'
complete -c lockreplay -n '__lockreplay_is merge' -s h -l help -d 'Print help'

complete -c lockreplay -n '__lockreplay_is play' -s h -l help -d 'Print help'

complete -c lockreplay -n '__lockreplay_file explain 1 --names' -F
complete -c lockreplay -n '__lockreplay_is explain' -l json -d 'Print the text as JSON'
complete -c lockreplay -n '__lockreplay_is explain' -l names -x -d 'Show the names of files and processes that TABLE has'
complete -c lockreplay -n '__lockreplay_is explain' -s h -l help -d 'Print help'

complete -c lockreplay -n '__lockreplay_file open 1 --names' -F
complete -c lockreplay -n '__lockreplay_is open' -l ever -d 'List each cycle of waits that stood, and behind which entries'
complete -c lockreplay -n '__lockreplay_is open' -l json -d 'Print the text as JSON'
complete -c lockreplay -n '__lockreplay_is open' -l names -x -d 'Show the names of files and processes that TABLE has'
complete -c lockreplay -n '__lockreplay_is open' -s h -l help -d 'Print help'

complete -c lockreplay -n '__lockreplay_file check 9999 --journal' -F
complete -c lockreplay -n '__lockreplay_is check' -l journal -r -F -d 'Say also why a journal can'\''t be written to FILE'
complete -c lockreplay -n '__lockreplay_is check' -l json -d 'Print the text as JSON'
complete -c lockreplay -n '__lockreplay_is check' -s h -l help -d 'Print help'

complete -c lockreplay -n '__lockreplay_file picture 1 --around --from --to --format --names' -F
complete -c lockreplay -n '__lockreplay_is picture' -l around -x -d 'Draw the entries around the call, by its name, as 2.1.3'
complete -c lockreplay -n '__lockreplay_is picture' -l from -x -d 'Draw no entry before entry K, counted from 1'
complete -c lockreplay -n '__lockreplay_is picture' -l to -x -d 'Draw no entry behind entry L, counted from 1'
complete -c lockreplay -n '__lockreplay_is picture' -l format -x -a 'svg mermaid' -d 'Draw it as svg or mermaid'
complete -c lockreplay -n '__lockreplay_is picture' -l names -x -d 'Show the names of files and processes that TABLE has'
complete -c lockreplay -n '__lockreplay_is picture' -s h -l help -d 'Print help'

complete -c lockreplay -n '__lockreplay_file stats 1 --names' -F
complete -c lockreplay -n '__lockreplay_is stats' -l json -d 'Print the text as JSON'
complete -c lockreplay -n '__lockreplay_is stats' -l names -x -d 'Show the names of files and processes that TABLE has'
complete -c lockreplay -n '__lockreplay_is stats' -s h -l help -d 'Print help'

complete -c lockreplay -n '__lockreplay_file from-strace 9999 --nodes --place --names' -F
complete -c lockreplay -n '__lockreplay_is from-strace' -l nodes -x -d 'The nodes of the script'\''s cluster, from 1 to 64'
complete -c lockreplay -n '__lockreplay_is from-strace' -l place -x -d 'Place recorded processes by hand, as 10=1,12=2'
complete -c lockreplay -n '__lockreplay_is from-strace' -l history -d 'Make a history of clients, for '\''lockreplay judge'\'''
complete -c lockreplay -n '__lockreplay_is from-strace' -l names -x -d 'Write the names of files and processes to TABLE'
complete -c lockreplay -n '__lockreplay_is from-strace' -s h -l help -d 'Print help'

complete -c lockreplay -n '__lockreplay_file explore 1 --seeds --first --losses --repeats --states' -F
complete -c lockreplay -n '__lockreplay_is explore' -l seeds -x -d 'How many schedules, up to 4294967295'
complete -c lockreplay -n '__lockreplay_is explore' -l first -x -d 'The seed of the first schedule, up to 4294967295'
complete -c lockreplay -n '__lockreplay_is explore' -l failures -d 'Let nodes and servers fail'
complete -c lockreplay -n '__lockreplay_is explore' -l json -d 'Print the text as JSON'
complete -c lockreplay -n '__lockreplay_is explore' -l all -d 'Go through every schedule, instead of those of seeds'
complete -c lockreplay -n '__lockreplay_is explore' -l losses -x -d 'With --all: how many messages may be lost'
complete -c lockreplay -n '__lockreplay_is explore' -l repeats -x -d 'With --all: how often messages may come again'
complete -c lockreplay -n '__lockreplay_is explore' -l states -x -d 'With --all: after how many states to give up'
complete -c lockreplay -n '__lockreplay_is explore' -s h -l help -d 'Print help'

complete -c lockreplay -n '__lockreplay_file schedule 1 --seed' -F
complete -c lockreplay -n '__lockreplay_is schedule' -l seed -x -d 'The seed of the schedule, up to 4294967295'
complete -c lockreplay -n '__lockreplay_is schedule' -l failures -d 'Let nodes and servers fail'
complete -c lockreplay -n '__lockreplay_is schedule' -s h -l help -d 'Print help'

complete -c lockreplay -n __lockreplay_helps -a run
complete -c lockreplay -n __lockreplay_helps -a threads
complete -c lockreplay -n __lockreplay_helps -a audit
complete -c lockreplay -n __lockreplay_helps -a history
complete -c lockreplay -n __lockreplay_helps -a state
complete -c lockreplay -n __lockreplay_helps -a judge
complete -c lockreplay -n __lockreplay_helps -a seat
complete -c lockreplay -n __lockreplay_helps -a members
complete -c lockreplay -n __lockreplay_helps -a merge
complete -c lockreplay -n __lockreplay_helps -a play
complete -c lockreplay -n __lockreplay_helps -a explain
complete -c lockreplay -n __lockreplay_helps -a open
complete -c lockreplay -n __lockreplay_helps -a check
complete -c lockreplay -n __lockreplay_helps -a picture
complete -c lockreplay -n __lockreplay_helps -a stats
complete -c lockreplay -n __lockreplay_helps -a from-strace
complete -c lockreplay -n __lockreplay_helps -a explore
complete -c lockreplay -n __lockreplay_helps -a schedule
