# What the commands on one plan print of plans that they do not refuse: the reports that tests/report has stored, in their parts; the sheets and the trimmed plans
# of tests/c; and pictures. Sourced by run.

# lines WORDS REPORT: the lines of a stored report that begin with one of these words.
lines() {
    grep -E "^($1) " "$2"
}

# accepted PLAN REPORT: an accepted plan's report, and its parts.
accepted() {
    local kind
    gives 0 "$(<"$2")" "" report "$1"
    gives 0 "$(lines 'start|end' "$2")" "" starts "$1"
    gives 0 "$(lines flow "$2")" "" flow "$1"
    for kind in $(lines need "$2" | cut -d ' ' -f 2); do gives 0 "$(lines "flow $kind" "$2")" "" flow -k "$kind" "$1"; done
    gives 0 none "" overload "$1"
    gives 0 "" "" overload --binary "$1"
    flow_records "$1"
}

# flow_records PLAN: the records of its flow say what its lines do, and nothing else stands in them.
flow_records() {
    "$yaffledesk" flow "$1" >"$scratch/lines" && "$yaffledesk" flow --binary "$1" >"$scratch/records" &&
        od -An -v -tu1 -w24 "$scratch/records" | awk '{ for (i = 10; i <= 24; i++) if ($i != 0) exit 1; if ($1 != 33) exit 1
            print "flow", $2, $3, $4, $5 + 256 * ($6 + 256 * ($7 + 256 * $8)), $9 }' | cmp - "$scratch/lines"
    count $? "the flow of $1 in records"
}

# overloaded PLAN REPORT: one that is refused as 7 has starts, and the overload says what the report says.
overloaded() {
    local kind need members member set=0
    gives 0 "$(sed 's/^refused 7/overload/' "$2")" "" overload "$1"
    read -r kind need members <<<"$(sed 's/^refused 7 //' "$2")"
    for member in $members; do set=$((set | 1 << (member - 1))); done
    "$yaffledesk" overload --binary "$1" | od -An -v -tu1 -w24 |
        awk '{ for (i = 11; i <= 24; i++) $4 += $i; print $1, $2, $3, $5 + 256 * ($6 + 256 * ($7 + 256 * $8)), $9 + 256 * $10, $4 }' | grep -qx "32 $kind $(wc -w <<<"$members") $need $set 0"
    count $? "the overload record of $1"
    try starts "$1"
    [ "$status" -eq 0 ] && grep -q '^end [0-9]*$' "$scratch/out" && holds "$scratch/err" ""
    told "the starts of $1"
}

for plan in examples/*.plan reports/*.plan; do
    report=$root/tests/report/expected/$(basename "$plan" .plan).txt
    case $(<"$report") in
    plan*) accepted "$plan" "$report" ;;
    "refused 7"*) overloaded "$plan" "$report" ;;
    esac
done

# Sheets: a page, the pages of a kind, and those of all kinds.
for page in "$root"/tests/c/expected/*.txt; do
    name=$(basename "$page" .txt)
    kind=${name%_*} number=${name##*_}
    "$yaffledesk" sheet "examples/${kind%_*}.plan" -k "${kind##*_}" -p "$number" | cmp - "$page"
    count $? "the sheet's page $name"
done
hall=("$root"/tests/c/expected/hall_1_[123].txt)
cat "${hall[@]}" >"$scratch/kind"
cat "$scratch/kind" "$root/tests/c/expected/hall_2_1.txt" >"$scratch/all"
cat "$root"/tests/c/expected/hall_[12]_1.txt >"$scratch/firsts"
"$yaffledesk" sheet examples/hall.plan -k 1 | cmp - "$scratch/kind"
count $? "all pages of a kind"
"$yaffledesk" sheet examples/hall.plan | cmp - "$scratch/all"
count $? "the pages of all kinds"
"$yaffledesk" sheet -p 1 examples/hall.plan | cmp - "$scratch/firsts"
count $? "the first page of each kind"

# Trimmed plans: what went is said where the plan goes to a file, and standard output is for the plan otherwise.
for expected in "$root"/tests/c/expected/*.trimmed; do
    plan=examples/$(basename "$expected" .trimmed).plan
    try trim "$plan" -o trimmed.plan
    { cat "$scratch/out" && "$root/tools/planfile" show trimmed.plan; } >"$scratch/trimmed"
    [ "$status" -eq 0 ] && holds "$scratch/err" "" && cmp "$scratch/trimmed" "$expected"
    told "trim $plan -o"
    "$yaffledesk" trim "$plan" | cmp - trimmed.plan && "$yaffledesk" trim - -o - <"$plan" | cmp - trimmed.plan
    count $? "trim $plan to standard output"
done
cp examples/comfort.plan own.plan
try trim own.plan -o own.plan
grep -q '^kept 13 of 16 records$' "$scratch/out" && [ "$(grep -c '^extra [0-9]* [0-9]* went$' "$scratch/out")" -eq 3 ]
told "a plan trimmed in its own place"
gives 0 "kept 13 of 13 records" "" trim own.plan -o own.plan
rm -f own.plan trimmed.plan

# drawn PLAN: a picture that an XML reader reads and rsvg-convert draws.
drawn() {
    gives 0 "" "" draw "$1" -o picture.svg
    "$python" -c 'import sys, xml.etree.ElementTree as tree
root = tree.parse(sys.argv[1]).getroot()
sys.exit(root.tag != "{http://www.w3.org/2000/svg}svg" or len(list(root.iter())) < 10)' picture.svg 2>"$scratch/err"
    told "the picture of $1 is SVG"
    rsvg-convert picture.svg -o picture.png 2>"$scratch/err" && [ "$(head -c 8 picture.png | od -An -tx1 | tr -d ' \n')" = 89504e470d0a1a0a ]
    told "the picture of $1 is drawn"
    "$yaffledesk" draw "$1" | cmp - picture.svg && "$yaffledesk" draw "$1" -o - | cmp - picture.svg
    count $? "the picture of $1 on standard output"
    rm -f picture.png
}
for plan in examples/*.plan; do
    report=$root/tests/report/expected/$(basename "$plan" .plan).txt
    case $(<"$report") in
    plan* | "refused 7"*) drawn "$plan" ;;
    refused*) gives 1 "" "yaffledesk: $plan: refused $("$yaffledesk" list --width 1 "$plan" | sed 's/^[^ ]*  refused \([0-9]*\)  */\1: /')" draw "$plan" ;;
    esac
done
adds "what pictures show" "$python" "$root/tests/command/pictures.py" "$yaffledesk" examples/*.plan reports/*.plan
rm -f large*.plan short*.plan
"$yaffledesk" draw examples/b.plan -o picture.svg && cmp picture.svg "$root/docs/b.svg"
count $? "the picture of examples/b.plan is the one that README and the guide show, docs/b.svg"
grep -q '\b2, 3, 4\b' picture.svg && ! grep -q '\b1, 2, 3, 4\b' picture.svg
count $? "the picture of examples/b.plan names the activities 2, 3, 4"
cp examples/a.plan '<&">.plan' && "$yaffledesk" draw '<&">.plan' -o picture.svg && rsvg-convert picture.svg -o picture.png
count $? "the picture of a plan with a name that is not XML"
"$yaffledesk" draw - <examples/a.plan | grep -o 'standard input<\|<title>Plan [^<]*' | head -n 2 | cmp - <(
    printf '<title>Plan standard input\nstandard input<\n')
count $? "the picture of standard input is called so"
cp examples/a.plan ./- && "$yaffledesk" draw ./- | grep -q '<title>Plan -<'
count $? "the picture of a file that is called -"
rm -f picture.svg picture.png '<&">.plan' ./-
