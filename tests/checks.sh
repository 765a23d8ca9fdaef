# For the scripts that run checks: they end with `counts`.
# shellcheck shell=bash disable=SC2034 # the numbers are for those scripts
passed=0
failed=0

# same NAME WANTED GOT
same() {
    if [[ $2 == "$3" ]]; then
        passed=$((passed + 1))
    else
        failed=$((failed + 1))
        printf '%s: wanted\n%s\ngot\n%s\n' "$1" "$2" "$3"
    fi
}

# constant NAME: a number that the header names
constant() {
    sed -n "s/^ *TAA1_$1 = \([0-9]*\).*/\1/p" include/taa1.h
}

ring_bytes=$(constant RING_BYTES)
plain_record=$(constant PLAIN_RECORD_BYTES)
sealed_record=$(constant SEALED_RECORD_BYTES)
most=$(constant MOST_RECORDS)
sitting_bytes=$(constant SITTING_BYTES)

# The last line: N passed, M failed.
counts() {
    echo "$passed passed, $failed failed"
    ((failed == 0))
}
