# For the benchmarks: a temporary folder, $scratch. It ends with the script, also when that is stopped, and so does all that was
# begun. $here is the folder of the script.
root=$(dirname "$here")
scratch=$(mktemp -d)

leave() {
    local job
    trap '' INT TERM HUP
    for job in $(jobs -p); do
        kill -- "-$job" 2>/dev/null || true
    done
    wait 2>/dev/null || true
    rm -rf "$scratch"
}
trap leave EXIT
trap 'exit 129' HUP
trap 'exit 130' INT
trap 'exit 143' TERM

# begin COMMAND..: in the background, in a process group of its own
begin() {
    set -m
    "$@" </dev/null &
    set +m
}

# apart COMMAND..: the same, and waits, since bash heeds no signal while a command is in the foreground
apart() {
    begin "$@"
    wait "$!"
}

# copied CHECKOUT COPY: without what rt made there; of that it takes by itself what fits, so what is proved already is not proved again
copied() {
    mkdir -p "$2"
    tar -C "$1" --anchored --no-wildcards-match-slash --exclude 'crates/*/out' -cf - crates crates.txt archive | tar -C "$2" -xf -
}

within() {
    cd "$1" && shift && TMPDIR=$scratch exec "$@"
}

# built FOLDER COMMAND..: the command there; what it writes is shown only if it fails
built() {
    apart within "$@" >"$scratch/log" 2>&1 || { cat "$scratch/log"; exit 2; }
}
