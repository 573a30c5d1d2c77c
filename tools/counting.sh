# Counting for scripts that close with 'N passed, M failed'. To be sourced.
passed=0
failed=0

# one check: its name, then the command
check() {
    local name=$1
    shift
    echo "== $name"
    if "$@"; then
        passed=$((passed + 1))
    else
        echo "FAILED: $name"
        failed=$((failed + 1))
    fi
}

# A command that counts: its name, a pattern of a count with two groups (passed, failed), then the command. What fails uncounted is one
# failure: a command that gives no count, or ends badly though its counts are good; and, where PARTS_BEGIN is a pattern of lines that
# begin a part, each part without a count.
counted() {
    local name=$1 pattern=$2 log status begun=0 counts=0 lost=0 good bad
    shift 2
    echo "== $name"
    log=$(mktemp)
    "$@" 2>&1 | tee "$log"
    status=${PIPESTATUS[0]}
    while read -r good bad; do
        counts=$((counts + 1))
        passed=$((passed + good))
        lost=$((lost + bad))
    done < <(sed -nE "s/$pattern/\1 \2/p" "$log")
    if [ -n "${PARTS_BEGIN:-}" ]; then
        begun=$(grep -cE "$PARTS_BEGIN" "$log")
    fi
    rm -f "$log"
    if [ "$begun" -gt "$counts" ]; then
        lost=$((lost + begun - counts))
    fi
    if [ "$lost" -eq 0 ] && { [ "$status" -ne 0 ] || [ "$counts" -eq 0 ]; }; then
        lost=1
    fi
    if [ "$lost" -gt 0 ]; then
        echo "FAILED: $name"
        failed=$((failed + lost))
    fi
}

# the last line, behind a word if one is given, and the exit status
closed() {
    echo "${1:-}$passed passed, $failed failed"
    [ "$failed" -eq 0 ]
}
