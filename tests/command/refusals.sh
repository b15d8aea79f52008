# Every number, and every sentence that there is for it. Sourced by run.

# refuses NAME SAID COMMAND ..: nothing but this is said of a plan, and an output file stays what it was; nothing is left beside it.
refuses() {
    try "${@:3}" -o kept/out
    [ "$status" -eq 1 ] && holds "$scratch/out" "" && holds "$scratch/err" "yaffledesk: $1: $2" && holds kept/out "as it was" && [ "$(ls -A kept)" = out ]
    told "yaffledesk ${*:3}"
}

# all_refuse NAME SAID: each command says the same of a plan that it refuses. Only some refuse an overloaded one.
all_refuse() {
    local command
    for command in report flow sheet trim; do refuses "$1" "$2" "$command" "$1"; done
    case $2 in "refused 7:"*) return ;; esac
    for command in starts overload draw; do refuses "$1" "$2" "$command" "$1"; done
    refuses "$1" "$2" crew "$1" crew_none
    refuses "$1" "$2" flow "$1" --binary -k 8
}

# listed NAME SAID: the list's line of such a plan, but for the needs of an overloaded one; and where its line is one of several, the status is 1 all the same.
listed() {
    local number=${2#refused }
    try list examples/a.plan "$1" examples/f.plan
    [ "$status" -eq 1 ] && holds "$scratch/err" "" && [ "$(wc -l <"$scratch/out")" -eq 3 ] &&
        [ "$(sed -n '2s/  kind [0-9]: need  *[0-9]* of [0-9]*//g; 2s/   */  /gp' "$scratch/out")" = "$1  refused ${number%%:*}  ${2#*: }" ]
    told "yaffledesk list $1"
}

mkdir kept && echo "as it was" >kept/out && : >crew_none
for said in cases/*.said; do
    sentence=$(<"$said")
    all_refuse "${said%.said}.plan" "$sentence"
    listed "${said%.said}.plan" "$sentence"
done

# Plans that are damaged at random: what a sentence says of a record stands there.
adds "sentences about damaged plans" "$python" "$root/tests/command/damage.py" "$yaffledesk"
rm -rf damaged

# Lengths beyond what a text describes: a byte and a record too many, a legal length that is all zeros, and 50 MB, of which no more than that is read.
too_long="refused 1: the file has more than 49,152 bytes: a plan has 1 to 2,048 records of 24 bytes"
for size in 49153 49176 50M; do
    truncate -s "$size" "$size.plan"
    all_refuse "$size.plan" "$too_long"
    listed "$size.plan" "$too_long"
done
truncate -s 49152 whole.plan
all_refuse whole.plan "refused 2: record 1 (place 0): type 0 is unknown"
gives 1 "" "yaffledesk: -: $too_long" starts - < <(head -c 50000000 /dev/zero 2>/dev/null)
rm ./*.plan

# A text in the place of a plan is said to be one, by every command: of a length that is a plan's, or of any other.
hint="; it is text: yaffledesk-planfile pack makes a plan of a text"
no_multiple() { # BYTES: what is said of a file of so many
    echo "refused 1: the file has $1 bytes, which is no multiple of 24: a plan has 1 to 2,048 records of 24 bytes"
}
cp "$root/examples/a.txt" a.plan
printf 'activity 1 duration 3 demands 2\ncrew 4\n#########' >whole.plan
printf 'job 1 -> 2\t# \303\244, \342\202\254, \360\237\220\246\r\n' >utf8.plan
printf '\357\273\277crew 4\r\n' >mark.plan
printf '\n' >newline.plan
yes 'job 1 -> 2' | head -c 49153 >long.plan
{ yes 'job 1 -> 2' | head -c 49151 && printf '\360\237\220\246'; } >cut.plan # of the last character 2 bytes are read
for name in a utf8 mark newline; do
    all_refuse "$name.plan" "$(no_multiple "$(stat -c %s "$name.plan")")$hint"
    listed "$name.plan" "$(no_multiple "$(stat -c %s "$name.plan")")$hint"
done
all_refuse whole.plan "refused 2: record 1 (place 0): type 97 is unknown$hint"
listed whole.plan "refused 2: record 1 (place 0): type 97 is unknown$hint"
for name in long cut; do all_refuse "$name.plan" "$too_long$hint"; done
gives 1 "whole.plan,refused,2,record 1 (place 0): type 97 is unknown$hint,,,,,,,,,,,,,,,," "" list --csv whole.plan
object='{"plan":"whole.plan","accepted":false,"number":2,"refusal":"record 1 (place 0): type 97 is unknown'
gives 1 "$object$hint\",\"kinds\":[]}" "" list --json whole.plan
gives 1 "" "yaffledesk: -: refused 2: record 1 (place 0): type 97 is unknown$hint" report - <whole.plan
# What is not all text: a zero, an escape, a delete, bytes that are not of UTF-8, a character that is cut off.
for bytes in '\0' '\033' '\177' '\200' '\302\205' '\300\200' '\303' '\360\237\220' '\355\240\200' '\377'; do
    printf "crew 4\n$bytes" >no.plan
    gives 1 "" "yaffledesk: no.plan: $(no_multiple "$(stat -c %s no.plan)")" starts no.plan
    { yes 'crew 4' | head -c 48 && printf "$bytes" && yes 'crew 4'; } 2>/dev/null | head -c 72 >no.plan
    gives 1 "" "yaffledesk: no.plan: refused 2: record 1 (place 0): type 99 is unknown" starts no.plan
done
# What the plan before left behind a shorter one is none of it: the second byte of its last character stands there.
printf 'crew 4 \244\n' >before.plan && printf 'crew 4\303' >no.plan
gives 1 "before.plan  refused 1   $(no_multiple 9 | cut -c 12-)
no.plan      refused 1   $(no_multiple 7 | cut -c 12-)" "" list --width 11 before.plan no.plan
rm ./*.plan

# Kinds and pages that a plan has not. 8 comes before 7.
for kind in 2 3 8; do
    for command in flow sheet; do
        refuses examples/a.plan "refused 8: there is no kind $kind: the plan's kinds are 1 to 1" "$command" examples/a.plan -k "$kind"
        refuses examples/c.plan "refused 8: there is no kind $kind: the plan's kinds are 1 to 1" "$command" examples/c.plan --kind "$kind"
    done
done
refuses examples/hall.plan "refused 8: there is no kind 3: the plan's kinds are 1 to 2" sheet -k 3 -p 1 examples/hall.plan
for page in 0 2 257 18446744073709551615; do
    refuses examples/a.plan "refused 11: there is no page $page: the sheet of kind 1 has one page" sheet examples/a.plan -p "$page"
    refuses examples/a.plan "refused 11: there is no page $page: the sheet of kind 1 has one page" sheet examples/a.plan -k 1 --page "$page"
done
for page in 0 4 256; do
    refuses examples/hall.plan "refused 11: there is no page $page: the sheet of kind 1 has pages 1 to 3" sheet examples/hall.plan -p "$page" -k 1
done
refuses examples/hall.plan "refused 11: there is no page 2: the sheet of kind 2 has one page" sheet examples/hall.plan -p 2 # kind 1 has it
refuses examples/b.plan "refused 7: kind 1 needs 6 and has 4: activities 2, 3, 4 may be at work at once" sheet examples/b.plan -p 9

# From standard input.
gives 1 "" "yaffledesk: -: refused 7: kind 1 needs 6 and has 4: activities 2, 3, 4 may be at work at once" flow - <examples/b.plan
gives 1 "" "yaffledesk: -: refused 1: the file is empty: a plan has 1 to 2,048 records of 24 bytes" overload - </dev/null

# What cannot be read, by any command; nothing is written then either.
mkdir a_folder && ln -s nowhere dangling
[ "$(id -u)" -eq 0 ] || { cp examples/a.plan closed && chmod 0 closed; }
# unread NAME WHY: no such file, no file, no right.
unread() {
    local command
    for command in report starts flow overload sheet trim draw; do
        gives 2 "" "yaffledesk: $1: cannot be read: $2" "$command" "$1" -o kept/out
    done
    gives 2 "" "yaffledesk: $1: cannot be read: $2" crew "$1" crew_none -o kept/out
    gives 2 "" "yaffledesk: $1: cannot be read: $2" crew examples/a.plan "$1" -o kept/out
    holds kept/out "as it was"
    count $? "an output file stays what it was where $1 cannot be read"
}
unread none.plan "No such file or directory"
unread dangling "No such file or directory"
unread a_folder "Is a directory"
unread examples/a.plan/x "Not a directory"
[ -e closed ] && unread closed "Permission denied"
rm -rf a_folder dangling closed
