# shellcheck shell=sh
# Counts the groups of a test that is a script; read in by `. tests/tally.sh` at the top of the repository.
passed=0
failed=0

# settle GROUP COMPARED WRONG: a group in which nothing was compared has not passed
settle() {
    if [ "$2" -gt 0 ] && [ "$3" -eq 0 ]; then
        echo "pass  $1: $2 compared"
        passed=$((passed + 1))
    else
        echo "FAIL  $1: $2 compared, $3 failed"
        failed=$((failed + 1))
    fi
}

# finish: the last line, and the exit status
finish() {
    echo "$passed passed, $failed failed"
    [ "$failed" -eq 0 ]
}
