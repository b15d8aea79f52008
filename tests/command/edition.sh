# Editions of the price list: files that are replaced when the list is whole, what it comes to, and folders without a
# plan. Sourced by run, behind output.sh.

expected=$root/tests/command/expected
line="examples/a.plan                   accepted    kind 1: need     4 of 4"
mkdir to

# edition STATUS NAME WORDS ..: the list goes to to/new, which had an old one, and is what expected/NAME has.
edition() {
    echo old >to/new
    try list "${@:3}" -o to/new
    [ "$status" -eq "$1" ] && holds "$scratch/out" "" && holds "$scratch/err" "" &&
        cmp to/new "$expected/$2" && alone to/new
    told "an edition by the words ${*:3}"
}
for jobs in 1 3; do
    edition 1 list.table examples -j $jobs
    edition 1 list.headed examples/ -j $jobs --heading
    edition 1 list.csv examples -j $jobs --csv --heading
    edition 1 list.json examples -j $jobs --json
done
gives 1 "$(<"$expected/list.table")" "" list examples -o -
gives 1 "$(<"$expected/list.table")" "" list examples -o /dev/stdout
gives 2 "" "yaffledesk: none/new: cannot be written: No such file or directory" list examples -o none/new
gives 2 "" "yaffledesk: /dev/full: cannot be written: No space left on device" list examples -o /dev/full
limited "a list that grows too large" list examples
limited "the same on three processors" list -j 3 examples examples
limited "the same, with what it comes to" list examples --summary
! grep -q accepted "$scratch/err"
count $? "what a list comes to is not said where it is not written"

# What is said does not go into the edition, though standard error be closed; and one plan does not keep it away.
missing="yaffledesk: none.plan: cannot be read: No such file or directory"
for jobs in 1 2; do
    "$yaffledesk" list -j $jobs none.plan examples/a.plan --summary --progress -o to/new 2>&- >"$scratch/out"
    [ $? -eq 2 ] && holds to/new "$line" && holds "$scratch/out" ""
    count $? "an edition with a standard error that is closed, -j $jobs"
    gives 2 "" "$missing" list -j $jobs none.plan examples/a.plan -o to/new
    holds to/new "$line"
    count $? "an edition without one plan, -j $jobs"
done

# Where nothing could be listed, a name is wrong: the old edition stays.
none="yaffledesk: to/new: no plan is listed; nothing is written"
echo old >to/new
gives 2 "" "yaffledesk: plnas: cannot be read: No such file or directory"$'\n'"$none" list --heading plnas -o to/new
mkdir empty && touch empty/plan empty/.plan empty/a.PLAN
bare="there is no *.plan in this folder"
gives 2 "" "yaffledesk: empty: $bare"$'\n'"$none" list empty -o to/new
holds to/new old && alone to/new
count $? "an edition of nothing"
gives 0 "" "yaffledesk: empty: $bare" list --allow-empty empty -o to/new
holds to/new "" && alone to/new
count $? "an edition of nothing that is asked for"

# A folder without plans is a failure unless it is allowed; beside others too.
gives 2 "" "yaffledesk: empty: $bare" list empty
gives 2 "$line" "yaffledesk: empty: $bare" list empty examples/a.plan
gives 0 "$line" "yaffledesk: empty: $bare" list empty examples/a.plan --allow-empty
gives 2 "" "yaffledesk: empty: $bare, nor below it" list -r empty
gives 0 "" "yaffledesk: empty/: $bare, nor below it" list -r --allow-empty empty/
gives 2 "" "yaffledesk: none: cannot be read: No such file or directory" list --allow-empty none
rm -r empty

# What it comes to: the last line, and the numbers are those of the lines.
# comes_to STATUS LINE WORDS ..: the last line that is said.
comes_to() {
    try list --summary "${@:3}"
    [ "$status" -eq "$1" ] && [ "$(tail -n 1 "$scratch/err")" = "yaffledesk: $2" ] &&
        [ "$(grep -c ' plans\?: ' "$scratch/err")" -eq 1 ]
    told "what a list comes to, of ${*:3}"
}
comes_to 0 "1 plan: 1 accepted, 0 unread" examples/a.plan
comes_to 1 "1 plan: 0 accepted, 1 refused (7), 0 unread" examples/b.plan
comes_to 2 "1 plan: 0 accepted, 1 unread" none
comes_to 2 "6 plans: 2 accepted, 1 refused (5), 2 refused (7), 1 unread" none examples/{b,e_job,a,a,b}.plan
# refusals: of the lines of CSV, how many have each number.
refusals() {
    cut -d , -f 3 | grep -v '^0$' | sort -n | uniq -c |
        while read -r many number; do printf ', %d refused (%d)' "$many" "$number"; done
}
"$yaffledesk" list --csv cases reports examples >"$scratch/lines"
refused=$(refusals <"$scratch/lines")
[ "$(grep -o refused <<<"$refused" | wc -l)" -ge 8 ]
count $? "refusals of eight numbers are among them"
for jobs in 1 3; do
    comes_to 1 "$(wc -l <"$scratch/lines") plans: $(grep -c ',accepted,' "$scratch/lines") accepted$refused, 0 unread" \
        cases reports examples -j $jobs
done
"$yaffledesk" list --summary examples -o to/new 2>"$scratch/err"
[ $? -eq 1 ] && grep -q '^yaffledesk: [0-9]* plans: ' "$scratch/err" && cmp to/new "$expected/list.table"
count $? "what an edition comes to"
"$yaffledesk" list --summary examples 2>"$scratch/err" >/dev/full
[ $? -eq 2 ] && holds "$scratch/err" "yaffledesk: standard output: cannot be written: No space left on device"
count $? "what a list comes to that cannot be written"

# An edition that is one of the plans, by whatever name, is refused, and the plan stays.
mkdir plans plans/below && cp examples/[a-f].plan plans && cp examples/a.plan plans/below/x.plan
ln -s ../plans/f.plan to/link && echo plans/a.plan >names
# also_listed OUTPUT FILE WORDS ..
also_listed() {
    cp "$2" "$scratch/before"
    try list "${@:3}" -o "$1"
    [ "$status" -eq 2 ] && holds "$scratch/out" "" &&
        holds "$scratch/err" "yaffledesk: $1: it is also what is read; nothing is written" &&
        cmp "$2" "$scratch/before" && [ -z "$(find . -name '.yaffledesk.*')" ]
    told "the edition $1 of ${*:3}"
}
for jobs in 1 2; do
    also_listed plans/f.plan plans/f.plan -j $jobs plans
    also_listed to/link plans/f.plan -j $jobs plans --heading
    also_listed plans/f.plan plans/f.plan -j $jobs examples plans/f.plan
    also_listed plans/below/x.plan plans/below/x.plan -j $jobs -r plans
    also_listed plans/a.plan plans/a.plan -j $jobs --files-from names
    also_listed names names -j $jobs examples --files-from names
    also_listed plans/a.plan plans/a.plan -j $jobs - <plans/a.plan
done
"$yaffledesk" list plans 2>"$scratch/err" >>plans/f.plan
[ $? -eq 2 ] && holds "$scratch/err" "yaffledesk: standard output: it is also what is read; nothing more is written" &&
    cmp plans/f.plan examples/f.plan
count $? "a list that is added to one of its plans"
rm -r plans to names
