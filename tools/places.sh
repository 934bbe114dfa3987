#!/bin/sh
# Counts the places in src/ that an older form could stand in, by pattern. Usage: tools/places.sh [-v] [FOLDER of the crates]; -v prints the places themselves.
set -eu
show=-c
if [ "${1:-}" = -v ]; then show=-v; shift; fi
crates=${1:-crates}
cd "$crates"
files=$(find . -path '*/out' -prune -o -path '*/src/*' -name '*.rt' -print | sort)

count() { # the label, then the pattern
    if [ $show = -v ]; then
        echo "== $1"
        grep -nP "$2" $files || true
    else
        printf '%4d  %s\n' "$( { grep -hP "$2" $files || true; } | wc -l)" "$1"
    fi
}

count '1 an arm that only hands an error on' 'Err\((\w+)\) => (return )?Err\(\1\)'
count '1 an arm that only hands None on' '\b(None|_) => (return )?None\b'
count '1 a Result within a Result or an Option' '(Result|Option)<Result<'
count '1 a number for a case, or a case for a number' '^\s+(\w+::\w+ => \d+,|\d+ => Some\()'
count '1 an if between Some and None' '\{ Some\(.*\) \} else \{ None \}'
count '3 a loop over a range, or a while' '^\s*(for \w+ in [^{]*\.\.|while |loop \{)'
count '4 a function that gives a text' "fn \w+.*-> (&'static str|Result<String)"
count '4 a chain of comparisons with words' 'if reads_as\('
count '4 a comparison of the fields of two values' '\w\.(\w+) <=? \w\.\1$'
count '5 a requires on the length of a list handed over' 'requires.*≤ length (words|starts|heads)\.'
count '5 a requires on one parameter against a constant' 'requires.*\{ \(?\w+ [<≤] \d+'
count '5 the bytes of each word, written out' 'map \(λ x\. x\.now\)'
count '6 a field that is a fixed array' '^\s+\w+: \[\w+(<\w+>)?; \d+\],'
count '6 a field that is a length or a place' '^\s+(len|count|top|last): '
count '7 an arm that calls the same method at another type' '\w+::\w+\(list\) => CandidateList::<K>::'
count '7 an arm for each of the three kinds' '^\s+(Grades|KindName|Label)::(By)?(Airtime|Chance|Margin)(\(\w+\))? =>'
