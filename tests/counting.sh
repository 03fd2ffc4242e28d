# shellcheck shell=sh
# For the test scripts in shell, which source it: what they count, and their last line. Where NO_SKIPS is set, what can't be
# checked has failed.
passed=0
failed=0
skipped=0
# shellcheck disable=SC2034  # the scripts say why
no_toolchain='it needs rt, the toolchain that README names, on PATH'

# skip NAME WHY: NAME can't be checked here.
skip() {
    if [ -n "${NO_SKIPS:-}" ]; then
        failed=$((failed + 1))
        echo "FAILED, as NO_SKIPS is set: $1: $2"
    else
        skipped=$((skipped + 1))
        echo "SKIPPED $1: $2"
    fi
}

# counted: the last line; its status is 0 where nothing has failed.
counted() {
    if [ "$skipped" -gt 0 ]; then
        echo "$passed passed, $failed failed, $skipped skipped"
    else
        echo "$passed passed, $failed failed"
    fi
    [ "$failed" -eq 0 ]
}
