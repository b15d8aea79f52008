# Folders within folders, and names that stand in a text. Sourced by run.

# below FOLDER: the plans in it and below, as find has them.
below() {
    find "$1" -type f -name '[!.]*.plan' ! -path '*/.*' | sort
}

# listed_names: the names in lines of JSON.
listed_names() {
    "$python" -c 'import json, sys
for line in sys.stdin: print(json.loads(line)["plan"])'
}

# Trees of names that sort before and behind a slash, some folders deep; with hidden ones, and links in circles.
"$python" - <<'END'
import os, random, shutil
dice = random.Random(5)
parts = ["a", "a.plan", "a-", "a0", "a b", "A", "aa", "ae", "z.plan", ".hidden", "a.", "-", "plan", "a.plan.old", "a+"]
def grow(folder, depth):
    os.mkdir(folder)
    for part in parts:
        name = f"{folder}/{part}"
        what = dice.random()
        if os.path.lexists(name): # the plan a is the file a.plan
            continue
        if what < 0.25 and depth < 3:
            grow(name, depth + 1)
        elif what < 0.6:
            shutil.copy("examples/a.plan", name)
        elif what < 0.9 and not os.path.exists(f"{name}.plan"):
            shutil.copy("examples/b.plan", f"{name}.plan")
        elif not part.endswith(".plan"):
            os.symlink(dice.choice(["..", ".", "../.."]), name)
for i in range(8):
    grow(f"tree{i}", 0)
END
plans=0
for i in 0 1 2 3 4 5 6 7; do
    below tree$i >"$scratch/names"
    plans=$((plans + $(wc -l <"$scratch/names")))
    for jobs in 1 3; do
        "$yaffledesk" list --json -r -j $jobs tree$i 2>"$scratch/err" | listed_names | cmp - "$scratch/names" &&
            holds "$scratch/err" ""
        count $? "the plans of tree$i and below it, -j $jobs: $(head -c 200 "$scratch/err")"
    done
    "$yaffledesk" list --recursive tree$i >"$scratch/whole"
    "$yaffledesk" list --files-from "$scratch/names" | cmp - "$scratch/whole"
    count $? "the same lines of tree$i by names in a text"
done
[ $plans -gt 100 ] && [ -n "$(find tree? -type l)" ] && [ -n "$(find tree? -path '*/.hidden/*.plan')" ] &&
    [ -n "$(find tree? -type d -name a.plan)" ]
count $? "$plans plans in trees with links, hidden folders and folders *.plan"
rm -r tree?

# names WORDS ..: the names in the lines of such a list, one behind another.
names() {
    "$yaffledesk" list "$@" 2>"$scratch/err" | sed 's/  .*//' | tr '\n' ' '
}
mkdir -p deep/in/.git deep/none && cp examples/a.plan deep/in/x.plan && cp examples/a.plan deep/in/.git/y.plan
cp examples/a.plan deep/.z.plan && ln -s in deep/link && ln -s in deep/link.plan && ln -s in/x.plan deep/to.plan
ln -s deep named
[ "$(names -r deep)" = "deep/in/x.plan deep/to.plan " ] &&
    holds "$scratch/err" "yaffledesk: deep/link.plan: cannot be read: is no regular file"
count $? "a link to a plan is one, and a link to a folder is not entered"
rm deep/link.plan
[ "$(names -r deep/in named examples/a.plan deep/.)" = \
    "deep/in/x.plan named/in/x.plan named/to.plan examples/a.plan deep/./in/x.plan deep/./to.plan " ] &&
    holds "$scratch/err" ""
count $? "a folder that is named by a link, and the order of names"
[ "$(names -r deep/)" = "deep/in/x.plan deep/to.plan " ] && [ "$(names -r deep//)" = "deep//in/x.plan deep//to.plan " ]
count $? "a folder with its slash"
[ "$(cd deep && names -r .)" = "./in/x.plan ./to.plan " ] && [ "$(names -r deep/in/.git)" = "deep/in/.git/y.plan " ]
count $? "the folder that is here, and a hidden one that is named"
if [ "$(id -u)" -ne 0 ]; then
    mkdir deep/closed && chmod 0 deep/closed
    [ "$(names -r deep)" = "deep/in/x.plan deep/to.plan " ] &&
        holds "$scratch/err" "yaffledesk: deep/closed: cannot be read: Permission denied"
    count $? "a folder below that cannot be read"
fi
rm -r deep named

# 300 folders within one another, where few files may be open.
"$python" -c 'import os
for _ in range(300): os.mkdir("d"); os.chdir("d")
open("x.plan", "wb").close()'
nested=$(printf 'd/%.0s' {1..300})x.plan
for files in 40 1000; do
    (ulimit -n $files && "$yaffledesk" list -r d --csv) >"$scratch/out" 2>"$scratch/err"
    status=$?
    [ $status -eq 1 ] && [ "$(cut -d , -f 1 "$scratch/out")" = "$nested" ] && holds "$scratch/err" ""
    told "300 folders within one another, and $files files that may be open"
done
rm -r d

# More folders than names are held at a time, with plans among them.
"$python" - <<'END'
import os, shutil
os.mkdir("wide")
for i in range(4500):
    name = f"wide/{i * 7919 % 4500:04}{'x' * 240}"
    for folder, plan in ((f"{name}.plan", "p"), (name, "q"))[i % 2:][:1]:
        os.mkdir(folder)
        shutil.copy("examples/a.plan", f"{folder}/{plan}.plan")
    shutil.copy("examples/b.plan", f"{name}y.plan")
END
below wide >"$scratch/names"
[ "$(wc -l <"$scratch/names")" -eq 9000 ]
count $? "9,000 plans are there"
for jobs in 1 2; do
    "$yaffledesk" list -r -j $jobs --csv wide | cut -d , -f 1 | cmp - "$scratch/names"
    count $? "9,000 plans, half of them in 4,500 folders of long names, -j $jobs"
done
rm -r wide

# Names in a text: behind those of the command line, in their order, with folders; empty lines are skipped.
mkdir two && cp examples/a.plan two/a.plan && cp examples/b.plan two/b.plan
printf '%s\n' examples/f.plan '' two '' '' examples/a.plan two/ >text
both="two/a.plan two/b.plan"
all="examples/f.plan $both examples/a.plan $both "
[ "$(names --files-from text)" = "$all" ] && holds "$scratch/err" ""
count $? "names in a text"
[ "$(names examples/e.plan --files-from text two)" = "examples/e.plan $both $all" ]
count $? "names of the command line, and in a text"
[ "$(names --files-from - <text)" = "$all" ] && [ "$(names --files-from=- -j 2 < <(cat text))" = "$all" ]
count $? "names on standard input"
printf 'examples/a.plan\nexamples/f.plan' >text
[ "$(names --files-from text)" = "examples/a.plan examples/f.plan " ]
count $? "a last line without its end"
short="accepted    kind 1: need     4 of 4"
echo - >text
gives 0 "-  $short" "" list --width 1 --files-from text <examples/a.plan
gives 2 "" "yaffledesk: -:1: the names are read from standard input, so it is no plan" list --files-from - <text
misused "list: the names and a plan cannot both be standard input" list --files-from - examples/a.plan -
gives 0 "" "" list --files-from /dev/null
gives 2 "" "yaffledesk: none: cannot be read: No such file or directory" list --files-from none
gives 2 "examples/a.plan  $short" "yaffledesk: two: cannot be read: Is a directory" \
    list --width 1 examples/a.plan --files-from two
gives 2 "" "yaffledesk: -: cannot be read: Bad file descriptor" list --files-from - <&-
mkdir bare && echo bare >text
gives 2 "" "yaffledesk: bare: there is no *.plan in this folder" list --files-from text
gives 0 "" "yaffledesk: bare: there is no *.plan in this folder" list --allow-empty --files-from text
mkdir bare/in && cp examples/a.plan bare/in && gives 0 "bare/in/a.plan  $short" "" list -r --width 1 --files-from text
odd=$'two/new\x1b \\.plan' && cp examples/a.plan "$odd" && printf '%s\n' "$odd" >text
gives 0 'two/new\x1b \\.plan  '"$short" "" list --width 1 --files-from text

# Lines that are no names are said with their numbers, and the others go on. 4,096 bytes are too long for the system.
long=$(printf 'x%.0s' {1..4097})
{
    printf 'examples/a.plan\n\nexamples/\0b.plan\n%s\n' "$long"
    head -c 3000000 /dev/zero | tr '\0' y
    printf '\n%s\nexamples/a.plan\n\0' "${long:1}"
} >text
cat >"$scratch/said" <<'END'
yaffledesk: text:3: a name has no byte 0
yaffledesk: text:4: a name is at most 4,096 bytes long
yaffledesk: text:5: a name is at most 4,096 bytes long
yaffledesk: text:8: a name has no byte 0
yaffledesk: X: cannot be read: File name too long
yaffledesk: 7 plans: 2 accepted, 5 unread
END
for jobs in 1 2; do
    try list -j $jobs --width 1 --summary --files-from text
    [ "$status" -eq 2 ] && holds "$scratch/out" "examples/a.plan  $short"$'\n'"examples/a.plan  $short" &&
        sed 's/x\{4096\}/X/' "$scratch/err" | cmp - "$scratch/said"
    told "lines that are no names, -j $jobs"
done
rm -r two text bare
