# Sourced by the gate and its parts: runs parts and adds up what they say. A part's counts are those of the last line it prints of the form
# 'N passed, M failed'. A part that prints no such line counts as one failed, and so does one that says 0 failed and exits with another status than 0.
passed=0 failed=0

part() {
    local log status last said=0
    log=$(mktemp)
    "$@" 2>&1 | tee "$log"
    status=${PIPESTATUS[0]}
    last=$(grep -E '^[0-9]+ passed, [0-9]+ failed$' "$log" | tail -1)
    rm -f "$log"
    if [ -n "$last" ]; then
        passed=$((passed + ${last%% *}))
        last=${last#*, }
        said=${last%% *}
        failed=$((failed + said))
    fi
    if [ -z "$last" ] || { [ "$status" -ne 0 ] && [ "$said" -eq 0 ]; }; then
        echo "failed (status $status): $*"
        failed=$((failed + 1))
    fi
    return 0
}

# The last line, and a status that is 0 only where nothing failed.
parts_end() {
    echo "$passed passed, $failed failed"
    [ "$failed" -eq 0 ]
}
