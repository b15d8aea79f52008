# The price list: its formats, its order, its exit status, and names of all sorts. Sourced by run.

stored 1 list.table list examples
stored 1 list.headed list examples/ --heading
stored 1 list.csv list --csv --heading examples
stored 1 list.json list --json examples
stored 1 list.json list --csv -j 3 --json examples/*.plan
stored 1 list.table list -j 256 examples

# README and the guide show lines of this list: each is one of its lines or, where it ends in ' ..', begins one.
# shows DOCUMENT WIDTH: the document does, of the list with names of this width.
shows() {
    local shown line one found
    mapfile -t shown < <(sed -n 's/^    \(examples\/.*\)/\1/p' "$root/$1")
    for line in "${shown[@]}"; do
        found=
        while IFS= read -r one; do
            [[ $one == "$line" || ($line == *" .." && $one == "${line% ..}"*) ]] && found=1
        done < <("$yaffledesk" list --width "$2" examples)
        [ -n "$found" ] || { echo "not in the list: $line" && return 1; }
    done
    [ "${#shown[@]}" -ge 4 ]
}
shows README.md 18
count $? "the lines of the list in README"
shows docs/GUIDE.md 22
count $? "the lines of the list in the guide"

# Each format says the same as the others, and as the report of the plan; a list in any format is read by Python.
for format in table csv json; do
    "$yaffledesk" list examples/*.plan reports/*.plan $([ $format = table ] || echo "--$format") >"$scratch/agree.$format"
    count $(($? != 1)) "the list of examples and of tests/report/cases as $format"
done
adds "the formats agree" "$python" "$root/tests/command/agree.py" "$scratch/agree" "$root/tests/report/expected"

# The order is that of the names, those of a folder are sorted, and what is named twice has two lines.
# names WORDS ..: the names in the lines of such a list.
names() {
    "$yaffledesk" list "$@" | sed 's/  .*//' | tr '\n' ' '
}
mkdir two && cp examples/f.plan two/z.plan && cp examples/a.plan two/a.plan && cp examples/b.plan two/B.plan && cp examples/b.plan two/aa.plan &&
    cp examples/a.plan two/.hidden.plan && cp examples/a.plan two/a.PLAN && cp examples/a.plan two/plan && cp examples/a.plan two/a.plan.old && cp examples/a.plan two/.plan
sorted="two/B.plan two/a.plan two/aa.plan two/z.plan "
[ "$(names two)" = "$sorted" ] && [ "$(names two/ -j 2)" = "$sorted" ] && [ "$(names two//)" = "${sorted//two\//two//}" ]
count $? "a folder's plans are its *.plan, sorted"
[ "$(names examples/f.plan two examples/a.plan examples/f.plan two/plan)" = "examples/f.plan ${sorted}examples/a.plan examples/f.plan two/plan " ]
count $? "files and folders stand in the order given, and what is named twice is there twice"
[ "$(names two two)" = "$sorted$sorted" ] && [ "$(cd two && names .)" = "./B.plan ./a.plan ./aa.plan ./z.plan " ]
count $? "a folder twice, and the one that is here"

# Exit statuses, and what cannot be read: the others go on.
accepted="two/a.plan                        accepted    kind 1: need     4 of 4"
gives 0 "$accepted" "" list two/a.plan
gives 0 "-                                 accepted    kind 1: need     4 of 4" "" list - <two/a.plan
gives 0 "-  accepted    kind 1: need     4 of 4"$'\n'"two/a.plan  accepted    kind 1: need     4 of 4" "" list --width 1 - two/a.plan <two/a.plan
gives 1 "-  refused 1   the file is empty: a plan has 1 to 2,048 records of 24 bytes" "" list --width 1 - </dev/null
gives 2 "" "yaffledesk: -: cannot be read: Bad file descriptor" list - <&-
for jobs in 1 4; do
    gives 2 "$accepted" "yaffledesk: none.plan: cannot be read: No such file or directory" list -j $jobs none.plan two/a.plan
    gives 2 "$accepted" "yaffledesk: none.plan: cannot be read: No such file or directory" list -j $jobs two/a.plan none.plan
    gives 2 "" "yaffledesk: : cannot be read: No such file or directory" list -j $jobs ""
    try list -j $jobs two/B.plan none two/a.plan two/a.plan/
    [ "$status" -eq 2 ] && [ "$(wc -l <"$scratch/out")" -eq 2 ] && [ "$(wc -l <"$scratch/err")" -eq 2 ]
    told "a refused plan and two that cannot be read"
done

# In a folder: other folders, pipes without a writer, links to nothing and files without a right to read are said, and nothing waits for them.
mkdir two/folder.plan two/other && cp examples/b.plan two/other/inner.plan && mkfifo two/pipe.plan && ln -s nowhere two/dangling.plan && ln -s ../examples/b.plan two/link.plan
expected="yaffledesk: two/dangling.plan: cannot be read: No such file or directory
yaffledesk: two/folder.plan: cannot be read: is no regular file
yaffledesk: two/pipe.plan: cannot be read: is no regular file"
if [ "$(id -u)" -ne 0 ]; then
    cp examples/a.plan two/closed.plan && chmod 0 two/closed.plan
    expected="yaffledesk: two/closed.plan: cannot be read: Permission denied"$'\n'$expected
fi
for jobs in 1 2; do
    timeout 5 "$yaffledesk" list -j $jobs two >"$scratch/out" 2>"$scratch/err"
    status=$?
    [ $status -eq 2 ] && holds "$scratch/err" "$expected" && [ "$(sed 's/  .*//' "$scratch/out" | tr '\n' ' ')" = "${sorted/two\/z/two/link.plan two/z}" ]
    told "a folder with what is no plan, -j $jobs"
done
rm -rf two

# A folder without plans is said, and is a failure, as one that is not there is (edition.sh has more).
mkdir empty && touch empty/plan empty/.plan
gives 2 "" "yaffledesk: empty: there is no *.plan in this folder" list empty
gives 2 "" "yaffledesk: empty/: there is no *.plan in this folder" list --csv -j 2 empty/
if [ "$(id -u)" -ne 0 ]; then
    chmod 0 empty
    gives 2 "" "yaffledesk: empty: cannot be read: Permission denied" list empty
    chmod 700 empty
fi
gives 2 "" "yaffledesk: empties: cannot be read: No such file or directory" list empties
gives 2 "plan,verdict,number,refusal,need 1,available 1,need 2,available 2,need 3,available 3,need 4,available 4,need 5,available 5,need 6,available 6,need 7,available 7,need 8,available 8" \
    "yaffledesk: empty: there is no *.plan in this folder" list --csv --heading empty
rm -r empty

# Names of all sorts: a line stays one line, of its format, and two names are never shown alike.
mkdir odd
for name in 'a b' $'new\nline' $'tab\there' 'quote"d' "quote'd" 'comma,d' 'both",' 'back\slash' 'back\x0aslash' $'esc\e[31mred' $'\x7f' $'no\xffutf' $'cut\xc3' $'long\xc0\xafform' \
    $'half\xed\xa0\x80' $'\xc2\x9bcontrol' $'line\xe2\x80\xa8sep' $'turned\xe2\x80\xaename' $'\xef\xbf\xbf' 'Übergröße' '日本' $'\xf0\x9f\x94\xa7' '=1+1' '{}' ' ' 'percent%s%n' 'a name that is longer than the column of names' 'exactly_as_wide_as_th_col'; do
    cp examples/f.plan "odd/$name.plan"
done
stored 0 names.table list odd
stored 0 names.csv list --csv odd
stored 0 names.json list --json odd
adds "names are read back" "$python" "$root/tests/command/names.py" "$yaffledesk" odd
gives 2 "" 'yaffledesk: odd/a\x1b\x0a\\b\xff: cannot be read: No such file or directory' list $'odd/a\e\n\\b\xff'
gives 2 "" 'yaffledesk: odd/a\x1b: cannot be read: No such file or directory' starts $'odd/a\e'
gives 1 "" 'yaffledesk: odd/\x09.plan: refused 1: the file is empty: a plan has 1 to 2,048 records of 24 bytes' starts $'odd/\t.plan' -o "$(: >$'odd/\t.plan')out"
rm -r odd
