# Crews: files that fit, that do not, and that are no such files. Sourced by run.

# crew LINES: makes the file crew.txt, of printf's format.
crew() {
    printf "$1" >crew.txt
}

# fits PLAN LINES
fits() {
    crew "$2"
    gives 0 fits "" crew "$1" crew.txt
}

# not PLAN SAID LINES: the crew does not fit. That is a result, and goes where results go; the status is 1.
not() {
    crew "$3"
    gives 1 "does not fit $2" "" crew "$1" crew.txt
}

# lists PLAN PLACE SAID LINES: 10, which is said of the crew's file, and where PLACE is a colon and a line, of that.
lists() {
    crew "$4"
    gives 1 "" "yaffledesk: crew.txt$2: refused 10: $3" crew "$1" crew.txt
}

# faulty SAID LINES: a file that is no crew's. SAID has a line for each faulty one.
faulty() {
    crew "$2"
    gives 2 "" "$(sed 's/^/yaffledesk: crew.txt:/' <<<"$1")" crew examples/a.plan crew.txt
}

gives 0 fits "" crew examples/a.plan "$root/examples/a.crew"
fits examples/a.plan '1 0 1\n2 1 2\n3 0 3\n4 3 1\n'
fits examples/a.plan '4 3 1\n3 0 3\n2 1 2\n1 0 1\n'                                   # in any order
fits examples/a.plan '1 0 1\r\n2 1 2\r\n\r\n3 0 3\r\n4 3 1\r\n'                       # lines as DOS ends them
fits examples/a.plan '1 0 1\n2 1 2\n3 0 3\n4 3 1'                                     # no newline at the end
fits examples/a.plan '# crew\n\n  1\t0  1 # first\n2 1 2#second\n \t \n3 0 3 \n4 3 1\t\r\n#' # comments and blanks
fits examples/a.plan '01 0 0001\n2 1 2\n3 0 3\n4 000000000000003 1\n'
fits examples/a.plan '1 0 1\n2 1 2\n3 4294967295 4294967295\n4 3 1\n'                 # no sum wraps
fits examples/a.plan '\xef\xbb\xbf1 0 1\r\n2 1 2\n3 0 3\n4 3 1\n'                       # the mark that some editors put first
fits examples/c.plan '1 0 1\n2 0 1\n3 1 1\n4 1 1\n'                                   # an overloaded plan, and a crew that fits it
fits reports/no_activity.plan ''
fits reports/no_activity.plan '# nobody\n'
fits reports/milestone.plan '1 0 7\n2 7 0\n'
crew '1 0 1\n2 1 2\n3 0 3\n4 3 1\n'
gives 0 fits "" crew - crew.txt <examples/a.plan
gives 0 fits "" crew examples/a.plan - <crew.txt
gives 0 fits "" crew examples/a.plan <(cat crew.txt)
gives 0 "" "" crew examples/a.plan crew.txt -o said
holds said fits
count $? "what is said of a crew, in a file"

not examples/a.plan "(254): the arc from 2 to 4 is broken: activity 2 finishes at 3, and activity 4 starts at 2" '1 0 1\n2 1 2\n3 0 3\n4 2 1\n'
not examples/a.plan "(254): the arc from 1 to 2 is broken: activity 1 finishes at 8589934590, and activity 2 starts at 4294967295" \
    '1 4294967295 4294967295\n2 4294967295 1\n3 0 1\n4 0 1\n'
not reports/wait.plan "(254): the arc from 3 to 4 is broken: activity 3 finishes at 5, the wait is 10, and activity 4 starts at 14" '1 0 3\n2 7 1\n3 3 2\n4 14 1\n'
printf 'activity 1 duration 1\nactivity 2 duration 1\nactivity 3 duration 1\ncrew 1\njob 1 -> 2 wait 3\njob 2 -> 3 wait 7\nextra 1 -> 2 wait 300\nextra 2 -> 3 wait 5\n' |
    "$root/tools/planfile" pack -o waits.plan
not waits.plan "(254): the arc from 1 to 2 is broken: activity 1 finishes at 1, the wait is 300, and activity 2 starts at 300" '1 0 1\n2 300 1\n3 400 1\n'
not waits.plan "(254): the arc from 2 to 3 is broken: activity 2 finishes at 302, the wait is 7, and activity 3 starts at 308" '1 0 1\n2 301 1\n3 308 1\n'
not examples/c.plan "(255): in period 1 more of kind 1 are at work than the 4 that are available" '1 0 1\n2 0 1\n3 0 1\n4 0 1\n'
not examples/c.plan "(255): in period 2 more of kind 1 are at work than the 4 that are available" '1 0 2\n2 0 2\n3 1 1\n4 1 1\n'
not examples/c.plan "(255): in period 4294967296 more of kind 1 are at work than the 4 that are available" \
    '1 4294967295 1\n2 4294967295 2\n3 4294967295 1\n4 4294967295 9\n'
not reports/lowest_kind.plan "(255): in period 1 more of kind 2 are at work than the 4 that are available" '1 0 1\n2 1 1\n3 0 1\n'
gives 1 "" "" crew examples/c.plan -o said <(printf '%s 0 1\n' 1 2 3 4)
holds said "does not fit (255): in period 1 more of kind 1 are at work than the 4 that are available"
count $? "that a crew does not fit, in a file"

here="activities in the crew's file:"
lists examples/a.plan "" "$here 3, in the plan: 4" '1 0 1\n2 1 2\n3 0 3\n'
lists examples/a.plan "" "$here 5, in the plan: 4" '1 0 1\n2 1 2\n3 0 3\n4 3 1\n5 9 9\n'
lists examples/a.plan "" "$here 5, in the plan: 4" '1 0 1\n2 1 0\n3 0 3\n4 3 1\n5 9 9\n'
lists examples/a.plan "" "$here 0, in the plan: 4" ''
lists examples/a.plan "" "$here 64, in the plan: 4" "$(printf '%d 0 1\\n' {1..64})"
lists reports/no_activity.plan "" "$here 1, in the plan: 0" '1 0 1\n'
idle="is worked for 0 periods, and only milestones take no time"
lists examples/a.plan :3 "activity 3 $idle" '1 0 1\n2 1 2\n3 0 0\n4 3 0\n'
lists examples/a.plan :4 "activity 4 $idle" '1 0 1\n2 1 2\n3 0 1\n4 2 0\n'
lists examples/a.plan :5 "activity 1 $idle" '4 3 1\n# in another order\n3 0 3\n2 1 2\n1 0 0\n'
lists reports/milestone.plan :2 "activity 2 is a milestone, which takes no time, and is worked for 5" '1 0 7\n2 7 5\n'
lists reports/milestone.plan :3 "activity 2 is a milestone, which takes no time, and is worked for 4294967295" \
    '\n1 0 7\n2 7 4294967295\n'
lists reports/milestone.plan :2 "activity 1 $idle" '2 7 5\n1 0 0\n'
crew '1 0 1\n2 1 2\n3 0 3\n4 3 0\n'
gives 1 "" "yaffledesk: -:4: refused 10: activity 4 $idle" crew examples/a.plan - <crew.txt
gives 1 "" "yaffledesk: -: refused 10: $here 4, in the plan: 0" crew reports/no_activity.plan - <crew.txt
# where the plan itself is refused, that is said under its own name
gives 1 "" "yaffledesk: examples/e.plan: refused 6: job arcs and extra arcs lead activity 1 back to itself" \
    crew examples/e.plan crew.txt

# Faulty lines: each is named, and no answer is given.
three="a line is three numbers, an activity, its start and its duration, the last two at most 4,294,967,295"
for line in 1 '1 0' '1 0 1 1' '1 0 1 x' '1 0 x' 'x 0 1' '1,0,1' '1 0 -1' '1 +0 1' '1 0 1.5' '1 0x0 1' '1 0 4294967296' '1 4294967296 1' '1 0 99999999999999999999' \
    '99999999999999999999 0 1' 'activity 1 0 1' '1 0 1\0' '\0' '1 0 1\0# 2' '1 0 1\r2 1 2' '1 0 1\r\r' '1 0\v1' '\xef\xbb\xbf1 0 1' '1 0 ١'; do
    faulty "2: $three" "# a crew\n$line\n2 1 2\n3 0 3\n4 3 1\n"
done
faulty "1: $three" '1 0'
faulty "1: $three" '\xef\xbb\xbf1 0\n2 1 2\n'
faulty "1: $three" '\xef\xbb1 0 1\n2 1 2\n'
faulty $'5: activities are 1 to 64\n6: activities are 1 to 64\n7: activities are 1 to 64' '1 0 1\n2 1 2\n3 0 3\n4 3 1\n65 0 1\n0 0 1\n4294967297 0 1\n'
faulty $'3: this activity has a line already\n5: this activity has a line already' '1 0 1\n2 1 2\n1 0 1\n3 0 3\n2 9 9\n4 3 1\n'
faulty "1: $three"$'\n'"3: $three"$'\n4: activities are 1 to 64' 'a\n1 0 1\nb\n77 0 1\n4 3 1\n'
faulty "3: activity 4 has a line and activity 3 has none" '1 0 1\n2 1 2\n4 3 1\n'
faulty "2: activity 5 has a line and activity 1 has none" '4 3 1\n5 1 1\n3 0 3\n2 1 2\n'
faulty "2: activity 22 has a line and activity 2 has none" '1 0 1\n22 1 2\n3 0 3\n4 3 1\n' # a mistyped 2
try crew examples/a.plan examples/a.plan
[ "$status" -eq 2 ] && holds "$scratch/out" "" && grep -q "^yaffledesk: examples/a.plan:1: $three\$" "$scratch/err"
told "a plan in place of a crew's file"
rm crew.txt && truncate -s 100000 crew.txt
gives 2 "" "yaffledesk: crew.txt:1: $three" crew examples/a.plan crew.txt
printf '1 0\n' >$'cr\ew.txt'
gives 2 "" "yaffledesk: cr\\x1bw.txt:1: $three" crew examples/a.plan $'cr\ew.txt'
gives 2 "" "yaffledesk: -:1: $three" crew examples/a.plan - < <(echo 1 0)
echo "as it was" >said
gives 2 "" "yaffledesk: cr\\x1bw.txt:1: $three" crew examples/a.plan $'cr\ew.txt' -o said
holds said "as it was"
count $? "an output file stays what it was where a crew's file is faulty"
rm -f crew.txt said waits.plan $'cr\ew.txt'

# A file that is no crew's at all: the first faulty lines are said, and how many there are.
printf 'no crew\n%.0s' {1..45} >other.txt
try crew examples/a.plan other.txt
[ "$status" -eq 2 ] && holds "$scratch/out" "" && [ "$(wc -l <"$scratch/err")" -eq 21 ] && [ "$(tail -n 1 "$scratch/err")" = "yaffledesk: other.txt: 45 faulty lines in all" ]
told "a file of 45 faulty lines"
rm other.txt

# Lines and texts have bounds. A line: 500 bytes before its comment and its end; a comment can be longer.
# filled COUNT BYTE: so many of this byte.
filled() {
    head -c "$1" /dev/zero | tr '\0' "$2"
}
long="a line has at most 500 bytes before its comment"
rest='2 1 2\n3 0 3\n4 3 1\n'
for end in '' '\r' '#' '# first' "\r#$(filled 9000 x)" "#$(filled 500000 ' ')"; do
    fits examples/a.plan "1$(filled 495 ' ')0 1 $end\n$rest"
    faulty "1: $long" "1$(filled 496 ' ')0 1 $end\n$rest"
done
fits examples/a.plan "\xef\xbb\xbf1$(filled 496 ' ')0 1\r\n$rest"
faulty "2: $long" "1 0 1\n$(filled 501 ' ')\n$rest"
faulty "1: $long"$'\n'"5: $long" "$(filled 501 7)\n$rest$(filled 100000 x)"

# A text: 1,048,576 bytes. Nothing is judged of one that has more, and no more of it is read.
large="a crew's text has at most 1,048,576 bytes, and here it has more"
# sized BYTES LINES: makes crew.txt of these lines, and of a last one, a comment, that fills it up.
sized() {
    crew "$2#"
    filled $(($1 - $(wc -c <crew.txt))) x >>crew.txt
}
sized 1048576 "1 0 1\n$rest"
gives 0 fits "" crew examples/a.plan crew.txt
gives 0 fits "" crew examples/a.plan - < <(cat crew.txt)
sized 1048577 "1 0 1\n$rest"
gives 2 "" "yaffledesk: crew.txt:5: $large" crew examples/a.plan crew.txt
gives 2 "" "yaffledesk: -:5: $large" crew examples/a.plan - < <(cat crew.txt)
sized 1048575 "x\n1 0 1\n$rest" && echo >>crew.txt
gives 2 "" "yaffledesk: crew.txt:1: $three" crew examples/a.plan crew.txt
echo >>crew.txt
gives 2 "" "yaffledesk: crew.txt:7: $large" crew examples/a.plan crew.txt
rm crew.txt

# ended STATUS OUT ERR WORDS ..: as `gives`, in 30 MB and ten seconds. Under a sanitizer, which maps far more for
# itself, in as much as it likes.
ended() {
    local program=$yaffledesk yaffledesk=bounded
    gives "$@"
}
bounded() (
    [ -n "${SANITIZED:-}" ] || ulimit -v 30000
    exec timeout 10 "$program" "$@"
)
[ -z "${SANITIZED:-}" ] || echo "not asked under a sanitizer: that a crew's text without an end is refused in 30 MB"
ended 2 "" "yaffledesk: /dev/zero:1: $large" crew examples/a.plan /dev/zero
ended 2 "" "yaffledesk: -:1: $large" crew examples/a.plan - < <(yes ' ' | tr -d '\n')
ended 2 "" "yaffledesk: -:524289: $large" crew examples/a.plan - < <(yes '#')
ended 2 "" "yaffledesk: -:2: $large" crew examples/f.plan - < <(echo 1 0 1; filled 600000000 ' '; echo rubbish)
gives 2 "" "yaffledesk: -:2: $large" crew examples/f.plan - < <(echo 1 0 1; filled 600000000 ' '; echo rubbish)

# What cannot be read to its end is no crew's, whatever its beginning says: a folder, a terminal that hangs up.
gives 2 "" "yaffledesk: examples: cannot be read: Is a directory" crew examples/f.plan examples
gives 2 "" "yaffledesk: none: cannot be read: No such file or directory" crew examples/f.plan none
gives 2 "" "yaffledesk: -: cannot be read: Bad file descriptor" crew examples/f.plan - <&-
"$python" - "$yaffledesk" <<'END'
import os, pty, subprocess, sys
mine, its = pty.openpty()
os.write(its, b"1 0 1\n")
os.close(its)
done = subprocess.run([sys.argv[1], "crew", "examples/f.plan", "-"], stdin=mine, capture_output=True)
said = (2, b"", b"yaffledesk: -: cannot be read: Input/output error\n")
sys.exit((done.returncode, done.stdout, done.stderr) != said)
END
count $? "a crew's text that ends in an error is not taken for a whole one"
