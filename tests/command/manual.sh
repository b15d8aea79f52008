# What the manual page and docs/GUIDE.md say of plan files and refusals; install.sh tries the examples. Sourced by run.

# section FILE FIRST LAST: the lines of a section, without the signs of the manual's markup.
section() {
    sed -n "/^$2\$/,/^$3/p" "$1" | sed 's/\\-/-/g; s/\\fR//g'
}
guide=$root/docs/GUIDE.md page=$root/command/yaffledesk.1

# tells WHAT TEXT PATTERN ..: the text has a line of each.
tells() {
    local pattern
    for pattern in "${@:3}"; do
        grep -Eq -- "$pattern" <<<"$2"
        count $? "$1 says $pattern"
    done
}
fields=('1.* an activity|1, activity' '2.* the crew|2, crew' '3.* a job arc|3, job arc' '4.* an extra arc|4, extra arc'
    'duration, 0 to 65,535' 'eight' 'count K of kinds, 1 to 8' 'wait, 0 to 65,535'
    '6 to 23|6–23' '20 to 23|20–23' '2,048' '24')
tells "the manual, PLAN FILES," "$(section "$page" '.SH PLAN FILES' '.SH CREW')" "${fields[@]}" \
    '^\.BI activity ' '^\.BI milestone ' '^\.BI crew ' '^\.BI job ' '^\.BI extra ' '^milestone 5'
tells "the guide, Plan files," "$(section "$guide" '## Plan files' '## What')" "${fields[@]}"
tells "the guide" "$(section "$guide" '## What the words mean' '## Refusals')" \
    '^- \*\*'{Order,Unrelated,Need,Flow,'Earliest starts','Crew check'}:

# Every number of the header.
numbers=$(sed -n 's/^ *YAFFLEDESK_[A-Z_]* = \([0-9]*\), *\/\*.*/\1/p' "$root/include/yaffledesk.h" | sort -nu |
    sed -n '/^1$/,/^13$/p')
[ "$(wc -w <<<"$numbers")" -eq 13 ]
count $? "the header has the numbers 1 to 13: $(tr '\n' ' ' <<<"$numbers")"
refused=$(section "$page" '.SH REFUSALS' '.SH EXIT') table=$(section "$guide" '## Refusals' '## The examples')
for number in $numbers; do
    tells "the manual, REFUSALS," "$refused" "^\\.BR? ([0-9]+ \", \" )?$number( |\$)"
    tells "the guide, Refusals," "$table" "^\\| $number \\| .* \\| .* \\| .* \\|\$"
done
