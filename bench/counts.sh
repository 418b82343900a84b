# Counts what passes and what fails in a test of the tools. A script sources this, and ends with `summary`.
passed=0 failed=0

# Counts a test, which is called by the other words, and passes where the first is 0.
count() {
    if [ "$1" = 0 ]; then
        passed=$((passed + 1))
    else
        failed=$((failed + 1))
        echo "differs: ${*:2}"
    fi
}

# Compares the file `shown` with what is wanted, standard input.
compare() {
    local differs=0
    diff shown - || differs=$?
    count "$differs" "$@"
}

# Compares what a tool prints, and its status, with standard input; the tool is given the file `given`.
wanted() {
    local ended=0
    "$tools/$1" "${@:2}" <given >shown 2>&1 || ended=$?
    echo "status $ended" >>shown
    sed -i "s#$folder#FOLDER#" shown
    compare "tools/$*"
}

# Counts the cases of a test in Python, which prints a line for each: `ok`, or how it differs.
cases() {
    local line
    python3 "$@" >lines || count 1 "$1 ended with $?"
    while IFS= read -r line; do
        if [ "$line" = ok ]; then passed=$((passed + 1)); else count 1 "${line#differs: }"; fi
    done <lines
}

# Tests that a tool refuses words, with its usage.
misused() {
    local ended=0 differs=1
    "$tools/$1" "${@:2}" <given >shown 2>&1 || ended=$?
    [ "$ended" != 2 ] || ! grep -q "^usage: tools/$1" shown || differs=0
    count "$differs" "usage of tools/$*"
}

summary() {
    echo "$passed passed, $failed failed"
    [ "$failed" = 0 ]
}
