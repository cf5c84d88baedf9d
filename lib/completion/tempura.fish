# Completion of tempura, and of the tools beside it, for fish.

function __tempura_first
    set -l words (commandline -opc)
    set -e words[1]
    test "$words[1]" = --last; and set -e words[1]
    test (count $words) -eq 0
end

function __tempura_has
    set -l words (commandline -opc)
    set -e words[1]
    test "$words[1]" = --last; and set -e words[1]
    test (count $words) -gt 0; and contains -- $words[1] $argv
end

complete -c tempura -f
complete -c tempura -n __tempura_first -a run -d 'run a program'
complete -c tempura -n __tempura_first -a print -d 'print a source in its canonical spelling'
complete -c tempura -n __tempura_first -a convert -d 'print a table of inputs in ranges of states'
complete -c tempura -n __tempura_first -a check -d 'print whether a trace satisfies a formula'
complete -c tempura -n __tempura_first -a drill -d 'run a large source, and print what it took'
complete -c tempura -n __tempura_first -a explain -d 'what an end or a refusal means'
complete -c tempura -n __tempura_first -l cases -d 'run several files'
complete -c tempura -n __tempura_first -l last -d 'by the program proved last'
complete -c tempura -n __tempura_first -l build -d 'prove and build the program'
complete -c tempura -n __tempura_first -l attest -d 'compare program and sources with the record'
complete -c tempura -n __tempura_first -l version -d 'which program this is'
complete -c tempura -n __tempura_first -l help -d 'print a page'
complete -c tempura -n '__tempura_has run print --cases' -k -a '(__fish_complete_suffix .tempura)'
complete -c tempura -n '__tempura_has convert check' -F
complete -c tempura -n '__tempura_has check' -l with -r -F -d 'the file of the trace that is checked'
complete -c tempura -n '__tempura_has run print --cases' -l inputs -r -F -d 'the file of the table of inputs'
complete -c tempura -n '__tempura_has run print drill --cases' -l states -x -d 'settle at most so many states'
complete -c tempura -n '__tempura_has run print drill --cases' -l reductions -x -d 'make at most so many steps in a state'
complete -c tempura -n '__tempura_has run print drill --cases' -l order -x -a 'first last' -d 'try the conjuncts in this order'
complete -c tempura -n '__tempura_has run print --cases' -l trace -d 'show what is left to hold behind each state'
complete -c tempura -n '__tempura_has run print --cases' -l use -x -a 'bits lists signals' -d 'put the definitions of a library in front'
complete -c tempura -n '__tempura_has run print --cases' -l seconds -x -d 'end a run that takes more seconds of the processor'
complete -c tempura -n '__tempura_has run print --cases' -l megabytes -x -d 'end a run that wants more memory'
complete -c tempura -n '__tempura_has run print' -s e -x -d 'the program itself'
complete -c tempura -n '__tempura_has explain' -a '(tempura explain 2>/dev/null | string split " ")'
complete -c tempura -n '__tempura_has --attest' -a '(__fish_complete_directories)'

# the tools
for tool in tempura-core tempura-diff tempura-judge tempura-lint tempura-sweep tempura-why vcd-inputs vcd-trace
    complete -c $tool -F
    complete -c $tool -l help -d 'print a page'
end
for tool in tempura-core tempura-lint tempura-sweep
    complete -c $tool -l use -x -a 'bits lists signals' -d 'put the definitions of a library in front'
end
complete -c tempura-core -l inputs -r -F -d 'the file of the table of inputs'
complete -c tempura-core -l states -x -d 'settle at most so many states'
complete -c tempura-core -l print -d 'print the program of these conjuncts alone'
complete -c tempura-sweep -l ports -x -d 'the ports with their values'
complete -c tempura-sweep -l states -x -d 'how many states have inputs'
complete -c tempura-sweep -l random -x -d 'so many tables by chance'
complete -c tempura-sweep -l seed -x -d 'the number to choose by'
complete -c tempura-sweep -l same -r -F -d 'run another program too, and compare'
complete -c tempura-sweep -l save -r -F -d 'write the first table that fails'
complete -c tempura-why -l with -r -F -d 'the file with the printed run'
complete -c tempura-why -l states -x -d 'tables for traces of at most so many states'
complete -c tempura-why -l most -x -d 'looks at most at so many parts'
complete -c tempura-why -l program -r -F -d 'the program that is asked'
complete -c tempura-judge -l program -r -F -d 'the program that is asked'
complete -c vcd-inputs -l clock -x -d 'the clock'
complete -c vcd-inputs -l after -d 'the values just after the edge'
complete -c vcd-inputs -l when -x -d 'the edges at which a signal has a value'
complete -c vcd-inputs -l from-known -d 'begins where all signals are known'
complete -c vcd-inputs -l signals -x -d 'these signals'
complete -c vcd-inputs -l scope -x -d 'the signals of this scope'
complete -c vcd-inputs -l signed -x -d 'these numbers are in two\'s complement'
complete -c vcd-inputs -l rename -x -d 'the port of a signal'
complete -c vcd-inputs -l format -x -a '1 2' -d 'a line for each state, or ranges'
complete -c vcd-trace -l clock -x -d 'the clock'
complete -c vcd-trace -l after -d 'the values just after the edge'
complete -c vcd-trace -l when -x -d 'the edges at which a signal has a value'
complete -c vcd-trace -l times -d 'a state for each time'
complete -c vcd-trace -l from-known -d 'begins where all signals are known'
complete -c vcd-trace -l from -x -d 'begins at the edge with this number'
complete -c vcd-trace -l to -x -d 'ends at the edge with this number'
complete -c vcd-trace -l every -x -d 'takes every so many-th edge'
complete -c vcd-trace -l signals -x -d 'these signals'
complete -c vcd-trace -l scope -x -d 'the signals of this scope'
complete -c vcd-trace -l signed -x -d 'these numbers are in two\'s complement'
complete -c vcd-trace -l rename -x -d 'the name of a signal\'s variable'
