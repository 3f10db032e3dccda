# shellcheck shell=sh
# Long work that can be watched, and that ends with the script that began it. The scripts beside this file read it in: `. ./progress.sh`.
#
#     need rt cargo           ends the script where a program is missing
#     prove_library           proves the library as library.sh does, with a line that says how far it has come
#     apart COMMAND ..        runs a command, and shows what it said only where it fails
#
# $work is a folder for temporary files, which is removed at the script's end.
work=$(mktemp -d)
group='' reporter=''

# What was started ends, and leaves nothing behind.
end() {
    if [ -n "$reporter" ]; then kill "$reporter" 2>/dev/null && clear_line; fi
    # a group has its number only when setsid has made it
    if [ -n "$group" ]; then kill -- "-$group" 2>/dev/null || kill "$group" 2>/dev/null || :; fi
    # one that is just ending may still write
    rm -rf "$work" 2>/dev/null || { sleep 1 && rm -rf "$work"; }
}
trap end EXIT
trap 'exit 129' HUP
trap 'exit 130' INT
trap 'exit 131' QUIT
trap 'exit 143' TERM

need() {
    for needed in "$@" setsid; do
        command -v "$needed" >/dev/null || { echo "${0##*/} needs $needed, which is missing" >&2; exit 1; }
    done
}

clear_line() { if [ -t 2 ]; then printf '\r\033[K' >&2; fi; }

# Writes the line anew, as much of it as the terminal has room for: one that is wider would go on in the next.
show_line() {
    columns=$(stty size <&2 2>/dev/null | cut -d ' ' -f 2)
    if [ "${columns:-0}" -le 1 ]; then columns=80; fi
    printf '\r%.*s\033[K' $((columns - 1)) "$1" >&2
}

# The command and all that it starts are a group of their own, so that all of it can be ended, and their temporary files removed.
run_in_group() {
    TMPDIR=$work setsid "$@" >"$work/log" 2>&1 &
    group=$!
    status=0
    wait "$group" || status=$?
    group=''
    return "$status"
}

fail() {
    cat "$work/log" >&2
    echo "${0##*/}: $1" >&2
    exit 1
}

apart() {
    run_in_group "$@" || fail "this failed: $*"
}

prove_library() {
    crates=$(sh library.sh --crates | wc -l)
    began=$(date +%s)
    touch "$work/start"
    report &
    reporter=$!
    proved=yes
    run_in_group sh library.sh || proved=''
    kill "$reporter" 2>/dev/null || :
    wait "$reporter" 2>/dev/null || :
    reporter=''
    clear_line
    if [ -z "$proved" ]; then fail "the library isn't proved"; fi
    if [ -s "$work/log" ]; then said="in $(passed)"; else said="and nothing has changed since"; fi
    echo "The library is proved: $crates crates, $said."
}

passed() { seconds=$(($(date +%s) - began)) && printf '%d:%02d' $((seconds / 60)) $((seconds % 60)); }

# The crates of this run, by library.sh's logs: a crate has one from its start on, and at its end a line in it. -l names those that are proved, -L
# those that are at work.
logs() {
    find target/log -name '*.out' -newer "$work/start" -exec grep "$1" '^rt: [a-z0-9_]* proved' {} + 2>/dev/null |
        sed 's|.*/||; s|[.]out$||' | sort
}

# At a terminal one line, which is written anew each second; elsewhere a line for each time that more is proved.
report() {
    said=''
    while sleep 1; do
        count=$(logs -l | wc -l)
        now=$(logs -L | awk 'NR <= 2 { names = names (NR > 1 ? ", " : "") $0 } END { if (NR > 2) names = names " and " NR - 2 " more"; print names }')
        if [ "$count" -ge $((crates - 1)) ]; then now=capi; fi
        line="$count of $crates crates are proved, $(passed)${now:+, now $now}"
        if [ -t 2 ]; then
            show_line "$line"
        elif [ "$count $now" != "$said" ]; then
            said="$count $now"
            echo "$line" >&2
        fi
    done
}
