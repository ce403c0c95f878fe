# Completes the words of rproc and of the programs beside it in fish.
set -l jobs run check demo storm audit
complete -c rproc -f
complete -c rproc -n "not __fish_seen_subcommand_from $jobs" -a run -d "run a script of standard input"
complete -c rproc -n "not __fish_seen_subcommand_from $jobs" -a check -d "say whether an image loads"
complete -c rproc -n "not __fish_seen_subcommand_from $jobs" -a demo -d "run a demo of so many sessions"
complete -c rproc -n "not __fish_seen_subcommand_from $jobs" -a storm -d "have threads send at once"
complete -c rproc -n "not __fish_seen_subcommand_from $jobs" -a audit -d "say whether a transcript keeps the rules"
complete -c rproc -n "__fish_seen_subcommand_from check" -a "(command ls firmware 2> /dev/null)"

complete -c rproc-golden -l write -d "write the transcripts"
complete -c rproc-golden -l strict -d "fail where a command was refused unexpectedly"
complete -c rproc-golden -l junit -r -d "write a report for a CI"
complete -c rproc-golden -l help -d "say how it is used"

complete -c rproc-explain -l at -x -a last -d "say what was so at a line"
complete -c rproc-explain -l help -d "say how it is used"

complete -c rproc-lint -l strict -d "take warnings as errors"
complete -c rproc-lint -l json -d "write for machines"
complete -c rproc-lint -l quiet -d "write findings alone"
complete -c rproc-lint -l help -d "say how it is used"
complete -c rproc-lint -l version -d "say the version"

complete -c rproc-chart -f -l from -x -d "the first line"
complete -c rproc-chart -f -l to -x -d "the last line"
complete -c rproc-chart -f -l page -x -d "a part of the chart"

complete -c rproc-dump -f -s q -d "write no transcript"

complete -c rproc-sweep -l without -x -a "payloads steps numbers" -d "leave out of outcomes"
complete -c rproc-sweep -l expect -r -d "outcomes that are allowed"
complete -c rproc-sweep -l write -r -d "write the outcomes"
complete -c rproc-sweep -l chart -x -a "(__fish_complete_directories)" -d "draw a chart of each outcome"
complete -c rproc-sweep -l script -x -d "write the script of a step"
complete -c rproc-sweep -l jobs -x -d "so many at once"
complete -c rproc-sweep -l help -d "say how it is used"
