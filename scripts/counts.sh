# shellcheck shell=bash
# What the checks share: how many trials passed and how many failed, and what was left out; with what all scripts share.
# shellcheck source=scripts/lib.sh
. "$(dirname "${BASH_SOURCE[0]}")/lib.sh" || exit 1
passed=0 failed=0

leave_out() { echo "left out: $1"; } # WHAT, AND WHY

# The last line and the status: 1 where one failed, else 0.
finish() {
    echo "$passed passed, $failed failed"
    exit $((failed != 0))
}

# A trial: a command that ends with status 0.
run() { # NAME COMMAND..
    local name=$1 status
    shift
    "$@"
    status=$?
    if [ $status = 0 ]; then
        echo "$name: ok"
        passed=$((passed + 1))
    else
        echo "$name: status $status"
        failed=$((failed + 1))
    fi
}

# Runs what ends with a line 'N passed, M failed', which may go on in brackets, and adds its counts; a status that says
# otherwise is one more failure.
add() { # COMMAND..
    local status line said
    said=$(mktemp) || exit 1
    "$@" | tee "$said"
    status=${PIPESTATUS[0]}
    line=$(tail -n 1 "$said")
    rm "$said"
    if [[ $line =~ ^([0-9]+)\ passed,\ ([0-9]+)\ failed(\ \(.*\))?$ ]]; then
        passed=$((passed + BASH_REMATCH[1]))
        failed=$((failed + BASH_REMATCH[2]))
        [ "$status" = 0 ] || [ "${BASH_REMATCH[2]}" -gt 0 ] || failed=$((failed + 1))
    else
        echo "it ended with status $status, and told no counts: $*"
        failed=$((failed + 1))
    fi
}

# Proves and builds the library for C where it is not proved; a check ends without it.
prove_library() {
    is_proved "$library" || "$top/prove" "$library" && return
    echo "the library for C is not proved"
    failed=$((failed + 1))
    finish
}
