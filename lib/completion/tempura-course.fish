# Completion of tempura-course for fish.

function __tempura_course_has
    set -l words (commandline -opc)
    test (count $words) -gt 1; and contains -- $words[2] $argv
end

function __tempura_course_lessons
    for number in 01 02 03 04 05 06 07 08 09 10 11 12
        echo $number-mend
        echo $number-write
    end
end

complete -c tempura-course -f
complete -c tempura-course -n 'test (count (commandline -opc)) -eq 1' -a check -d 'check a program'
complete -c tempura-course -n 'test (count (commandline -opc)) -eq 1' -a grade -d 'judge a folder of programs'
complete -c tempura-course -n 'test (count (commandline -opc)) -eq 1' -l help -d 'print a page'
complete -c tempura-course -n '__tempura_course_has check; and test (count (commandline -opc)) -eq 2' -a '(__tempura_course_lessons)'
complete -c tempura-course -n '__tempura_course_has check; and test (count (commandline -opc)) -gt 2' -F
complete -c tempura-course -n '__tempura_course_has grade' -a '(__fish_complete_directories)'
complete -c tempura-course -n '__tempura_course_has grade' -l lesson -x -a '(__tempura_course_lessons)' -d 'all programs are of this exercise'
complete -c tempura-course -n '__tempura_course_has check grade' -l with -r -a '(__fish_complete_directories)' -d 'take tables and expected runs from there'
complete -c tempura-course -n '__tempura_course_has check grade' -l course -r -a '(__fish_complete_directories)' -d 'the folder of the course'
complete -c tempura-course -n '__tempura_course_has check grade' -l seconds -x -d 'what each run is given of the processor'
complete -c tempura-course -n '__tempura_course_has check grade' -l memory -x -d 'what each run is given, in MiB'
