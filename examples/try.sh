#!/bin/bash
# Asks the nine questions of examples/README.md, and compares each answer with the one under examples/answers.
#     examples/try.sh [GRAPHITE]
# GRAPHITE is the program that is asked, bin/graphite where none is named. The exit code is 0 where all answers are the same.
set -u
given=$(realpath -- "${1:-$(dirname -- "$0")/../bin/graphite}")
cd -- "$(dirname -- "$0")" || exit 2
same=0 asked=0
while read -r name graph words; do
    asked=$((asked + 1))
    # the words of a question have no blanks of their own
    # shellcheck disable=SC2086
    if "$given" $words < "$graph" | cmp -s - "answers/$name.txt"; then
        same=$((same + 1))
    else
        echo "another answer: $name: graphite $words < examples/$graph"
    fi
done <<'QUESTIONS'
city_missed city.graph earliest --source Westgate --from 495 --path Botanic_Garden --at 720
city_flight city.graph latest --target Airport --until 601 --path Westgate --at 480
city_morning city.graph fastest --source North_Park --from 420 --until 541
ward_reached ward.graph reach --source visitor-Otto --at 259199
ward_chain ward.graph earliest --source visitor-Otto --path patient-105 --at 580000
ward_contact ward.graph degree --report sums
suppliers_prices suppliers.graph distance --source Kiruna_Mine
suppliers_waiting suppliers.graph cheapest --source Kiruna_Mine --path Graz_Plant --at 100
suppliers_strike suppliers.graph components
QUESTIONS
echo "$same of $asked answers are the same"
test "$same" = "$asked"
