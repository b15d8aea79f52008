# The command line: help, and every way to get it wrong. Sourced by run.

stored 0 help --help
stored 0 help -h
stored 0 help list --help
stored 0 help sheet -k 1 -h examples/none.plan
version=$(sed -n 's/^VERSION := //p' "$root/Makefile")
gives 0 "yaffledesk $version" "" --version
gives 0 "yaffledesk $version" "" starts --version

# words WHAT ..: the manual page has each of these words.
words() {
    local word page
    page=$(sed 's/\\-/-/g' "$root/command/yaffledesk.1")
    for word in "$@"; do
        grep -q -- "$word" <<<"$page"
        count $? "the manual page has $word"
    done
}
MANWIDTH=80 man -l --warnings "$root/command/yaffledesk.1" >"$scratch/out" 2>"$scratch/err"
status=$?
[ $status -eq 0 ] && [ ! -s "$scratch/err" ] && grep -q '^NAME' "$scratch/out"
told "the manual page is set without a warning"
words list report starts flow overload sheet trim crew draw
# shellcheck disable=SC2046 # one word for each option
words $(grep -o -- ' --*[a-z]*' "$root/tests/command/expected/help" | sort -u)

misused "a command is missing"
misused "there is no command 'lists'" lists examples
misused "there is no command ''" ""
misused "there is no command '--csv'" --csv list examples
misused "there is no command '-j'" -j 2 list examples
misused "there is no command 'a\\x1b\\x0a\\\\'" $'a\e\n\\'

for command in list report starts flow overload sheet trim crew draw; do
    misused "$command: the name of a plan is missing" "$command"
    misused "--none is no option" "$command" --none examples/a.plan
    misused "-x is no option" "$command" examples/a.plan -x
done
misused "crew: the name of a crew's file is missing" crew examples/a.plan
for command in report starts flow overload sheet trim draw; do
    misused "$command: 'examples/b.plan' is one name too many" "$command" examples/a.plan examples/b.plan examples/c.plan
done
misused "crew: '3' is one name too many" crew 1 2 3
misused "starts: 'b\\x1b[2J' is one name too many" starts a $'b\e[2J'
misused "crew: the plan and the crew's file cannot both be standard input" crew - -

# A letter among others, with a long option before it; a value where there is none to give, and none where there is one.
misused "-x is no option" list --csv -xy examples/a.plan
misused "-y is no option" flow -k1 -yx examples/a.plan
misused "--csv=3 is no option" list --csv=3 examples/a.plan

# A name that is cut short: of one option, it is that one; of several, these are said; of none, it is unknown.
# ambiguous WORD COULD WORDS ..: the word could be these options, for every command.
ambiguous() {
    local command
    for command in list report starts flow overload sheet trim crew draw; do
        misused "$1 is ambiguous: it could be $2" "$command" "${3:-$1}" examples/a.plan
    done
}
ambiguous --h "--help, --heading"
ambiguous --he "--help, --heading"
ambiguous --h "--help, --heading" --h=3
ambiguous --j "--jobs, --json"
ambiguous --p "--page, --progress"
misused "--hx is no option" list --hx examples/a.plan
misused "--helpx is no option" list --helpx examples/a.plan
misused "--=x is no option" list --=x examples/a.plan
misused "--head=3 is no option" list --head=3 examples/a.plan
stored 0 help list --hel
stored 1 list.headed list examples/ --hea
misused "-k takes a value" flow examples/a.plan -k
misused "--kind takes a value" flow examples/a.plan --kind
misused "--output takes a value" starts examples/a.plan --output
misused "-j takes a value" list examples -j
misused "--files-from takes a value" list examples --files-from

# takes_not COMMAND OPTION NAME: an option of other commands.
takes_not() {
    misused "$1 takes no option --$3" "$1" $2 examples/a.plan
}
for command in report starts overload trim crew draw list; do takes_not "$command" "-k 1" kind; done
for command in report starts flow overload trim crew draw list; do takes_not "$command" "-p 1" page; done
for command in report starts sheet trim crew draw list; do takes_not "$command" --binary binary; done
for command in report starts flow overload sheet trim crew draw; do
    takes_not "$command" --csv csv
    takes_not "$command" --json json
    takes_not "$command" --heading heading
    takes_not "$command" "--width 9" width
    takes_not "$command" "-j 2" jobs
    takes_not "$command" --progress progress
    takes_not "$command" --quiet quiet
    takes_not "$command" -r recursive
    takes_not "$command" --summary summary
    takes_not "$command" --allow-empty allow-empty
    takes_not "$command" "--files-from names" files-from
done
misused "--heading: lines of JSON have no heading" list --json --heading examples

# number COMMAND OPTION LEAST MOST WORD ..: what is no number of that range.
number() {
    local word
    for word in "${@:5}"; do misused "$2 takes a number from $3 to $4, not '$word'" "$1" "$2=$word" examples/a.plan; done
}
most=18446744073709551615
number flow --kind 1 8 0 9 10 18 80 256 257 $most 18446744073709551616 18446744073709551617 "" -1 +1 " 1" 1x 0x1 1.0
number sheet --kind 1 8 0 9 99 one
number sheet --page 0 $most "" one -1 +1 " 1" 1x 0x1 1.0 18446744073709551616 99999999999999999999 184467440737095516150
number list --jobs 1 256 0 257 "" two -2 4294967297
number list --width 1 4096 0 4097 "" wide

# Options behind the names, and a name that looks like one.
cp examples/a.plan ./-x.plan
line=$'-x.plan                           accepted    kind 1: need     4 of 4'
gives 0 "$line" "" list -- -x.plan
gives 0 "$line"$'\n'"$line" "" list -- -x.plan -x.plan
gives 0 "-x.plan  accepted    kind 1: need     4 of 4" "" list --width=7 -- -x.plan
gives 0 "examples/a.plan  accepted    kind 1: need     4 of 4" "" list examples/a.plan --width 3
gives 0 $'start 1 0\nstart 2 1\nstart 3 0\nstart 4 3\nend 4' "" starts -- -x.plan
rm ./-x.plan
