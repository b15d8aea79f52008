# What the parts of this test share: counting, and running the command. Sourced by run.
passed=0
failed=0

finish() {
    echo "$passed passed, $failed failed"
    [ "$failed" -eq 0 ]
    exit
}

# count STATUS WHAT: one check.
count() {
    if [ "$1" -eq 0 ]; then
        passed=$((passed + 1))
    else
        echo "FAIL: $2"
        failed=$((failed + 1))
    fi
}

# adds WHAT PROGRAM ..: a program that makes checks of its own, and ends with 'N passed, M failed'.
adds() {
    local counts
    "${@:2}" >"$scratch/log" 2>&1 </dev/null
    counts=$(tail -n 1 "$scratch/log" | sed -n 's/^\([0-9]*\) passed, \([0-9]*\) failed$/\1 \2/p')
    if [ -z "$counts" ]; then
        cat "$scratch/log"
        count 1 "$1: it comes to its end"
        return
    fi
    sed '$d' "$scratch/log"
    passed=$((passed + ${counts% *}))
    failed=$((failed + ${counts#* }))
}

# try WORDS ..: runs the command. $status is its exit status, and $scratch/out and $scratch/err are what it printed.
try() {
    "$yaffledesk" "$@" >"$scratch/out" 2>"$scratch/err"
    status=$?
}

# holds FILE WORDS: the file has these lines, each with its newline, and no others; where there are no words it is empty.
holds() {
    local got=
    [ -r "$1" ] && IFS= read -r -d '' got <"$1"
    [ "$got" = "${2:+$2$'\n'}" ]
}

# told WHAT: counts whether the last check was true, and shows what the command gave where it was not.
told() {
    local true=$?
    count "$true" "$1: status $status"
    [ "$true" -eq 0 ] || head -n 5 "$scratch/out" "$scratch/err" | cut -c 1-300
    return "$true"
}

# gives STATUS OUT ERR WORDS ..: the command, called with these words, ends so, and prints exactly this.
gives() {
    try "${@:4}"
    [ "$status" -eq "$1" ] && holds "$scratch/out" "$2" && holds "$scratch/err" "$3"
    told "yaffledesk ${*:4}" || printf 'expected, with status %s:\n%s\n%s\n' "${@:1:3}"
}

# stored STATUS NAME WORDS ..: the same, with the output that expected/NAME has, and no complaint.
stored() {
    try "${@:3}"
    [ "$status" -eq "$1" ] && cmp "$scratch/out" "$root/tests/command/expected/$2" && holds "$scratch/err" ""
    told "yaffledesk ${*:3} prints expected/$2"
}

# misused WHAT WORDS ..: a command that is not understood: that is said, and nothing is done.
misused() {
    gives 2 "" "yaffledesk: $1"$'\n'"yaffledesk --help says how it is used." "${@:2}"
}

# same WHAT FILE FILE: two outputs are the same bytes.
same() {
    cmp "$2" "$3"
    count $? "$1"
}
