# Runs cases, and counts them. A case is a function whose name begins with `case_`. It fails if an expectation does not hold, or if a
# command in it fails.

passed=0
failed=0

# limited COMMAND..: runs a program for at most half a minute. If it hangs, the status is 124 or 137.
limited() {
    timeout -k 5 30 "$@"
}

# run COMMAND..: runs a program, and leaves `status` and what it wrote, the files `out` and `err`.
run() {
    status=0
    limited "$@" > out 2> err || status=$?
}

# expect STATUS OUT ERR: that the last run had this status, and wrote exactly what these two files have.
expect() {
    expect_status "$1"
    expect_same 'standard output' "$2" out
    expect_same 'standard error' "$3" err
}

expect_status() {
    [ "$status" = "$1" ] || differs "status $status instead of $1"
}

# expect_same WHAT WANTED WRITTEN: that two files have the same bytes.
expect_same() {
    diff -a -U 0 --label wanted --label written "$2" "$3" > differences || differs "$1" differences
}

# expect_line WHAT LINE FILE: that the file has this line.
expect_line() {
    grep -a -q -x -F -e "$2" "$3" || differs "$1 without the line '$2'" "$3"
}

# differs WHAT [FILE]: reports what is not as expected, and shows the beginning of a file. The case continues, so that all differences are reported.
differs() {
    well=no
    echo "$1"
    [ $# = 1 ] || head -n 20 "$2" | cut -c 1-160 | sed 's/^/    /'
}

# The case runs in a shell of its own, so that it leaves nothing behind. That shell is not run under `if` or `||`, since bash would not stop
# it there at a command that fails. It has a process group of its own, which is ended if it is not done after ten minutes: a case that hangs
# fails, and the others still run.
run_case() {
    local status case_group watch_group
    set +e -m
    (
        set -e
        well=yes
        "$1"
        [ $well = yes ]
    ) < /dev/null > told 2>&1 &
    case_group=$!
    (sleep 600 && echo 'ended, since it was not done after ten minutes' > told && kill -KILL -- -$case_group) > /dev/null 2>&1 &
    watch_group=$!
    wait $case_group 2> /dev/null
    status=$?
    { kill -KILL -- -$watch_group; wait $watch_group; } 2> /dev/null
    set -e +m
    if [ $status = 0 ]; then
        passed=$((passed + 1))
        return
    fi
    failed=$((failed + 1))
    [ -s told ] || echo "a command ended with status $status" > told
    echo "FAILED $1: $(head -n 1 told)"
    tail -n +2 told
}

# Runs every case, or those whose names CASES matches, and ends with the plain closing line.
run_cases() {
    local name
    for name in $(compgen -A function case_ | grep -E -e "${CASES:-}"); do
        run_case "$name"
    done
    echo "$passed passed, $failed failed"
    [ $passed -gt 0 ] && [ $failed = 0 ]
}
