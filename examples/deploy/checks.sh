# What the scripts of this folder share: checks that say what was so, and programs in the background.
# It is read by `.`, after `room` was set to a folder for their files.
started=()
failed=0

# Ends what was started.
end_all() {
    [ ${#started[@]} -gt 0 ] && kill -CONT "${started[@]}" 2>/dev/null
    [ ${#started[@]} -gt 0 ] && kill "${started[@]}" 2>/dev/null
    wait 2>/dev/null
}

# check WHAT COMMAND..: whether the command ends well.
check() {
    local what=$1
    shift
    if "$@" >/dev/null 2>"$room/said"; then
        echo "ok      $what"
    else
        echo "FAILED  $what"
        sed 's/^/        /' "$room/said"
        failed=1
    fi
}

is() { [ "$1" = "$2" ] || { echo "'$1', and not '$2'" >&2; return 1; }; }
# has FILE PATTERN: whether a line of the file matches, which is read once, and so may be a pipe.
has() {
    local text
    text=$(cat "$1")
    grep -qi -- "$2" <<<"$text" || { printf "no '%s' in:\n%s\n" "$2" "$text" >&2; return 1; }
}
lacks() { ! has "$1" "$2" 2>/dev/null; }
# curl without the settings of its caller.
ask() { curl --disable --silent --show-error --noproxy '*' --max-time 20 "$@"; }
# The status of an answer.
status_of() { ask -o /dev/null -w '%{http_code}' "$@"; }

# begin NAME COMMAND..: starts a program in the background, and waits for its line `ready`. It is `begun`.
begin() {
    local name=$1
    shift
    : >"$room/$name.out"
    "$@" >"$room/$name.out" 2>"$room/$name.err" &
    begun=$!
    started+=("$begun")
    for _ in $(seq 300); do
        grep -q '^ready$' "$room/$name.out" && return 0
        kill -0 "$begun" 2>/dev/null || break
        sleep 0.1
    done
    echo "$name did not begin:" >&2
    cat "$room/$name.err" >&2
    exit 1
}

# Whether a program is installed; says so where it is not.
have() { command -v "$1" >/dev/null || { echo "left out: $1 is not installed"; return 1; }; }
