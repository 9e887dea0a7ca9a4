# shellcheck shell=bash disable=SC2154
# A program of target/bin: whether it is built, how it is put there, and how it is run. Who sources this has the repository in `root`, and its own path in `self`.

# Whether a program is built, and no source is newer. What rt makes in a crate's out/, and the time of the folder that holds it, is no source.
is_built() { # NAME
    [ -x "$root/target/bin/$1" ] &&
        [ -z "$(find "$root/crates.txt" -newer "$root/target/bin/$1" -print; find "$root/crates" -mindepth 2 -path '*/out' -prune -o -newer "$root/target/bin/$1" -print -quit)" ]
}

# Puts a program that rt has built into target/bin, and notes the kit's name in target/kit. A program that runs there goes on with what it began as.
keep_program() { # NAME
    mkdir -p "$root/target/bin"
    cp "$root/crates/$1/out/$1" "$root/target/bin/$1.new"
    mv "$root/target/bin/$1.new" "$root/target/bin/$1"
    rt version >"$root/target/kit"
}

# Ends with a message.
fail() { # WHAT..
    printf '%s: %s\n' "${self##*/}" "$*" >&2
    exit 2
}

# What each program tells where standard output cannot be written.
lost='standard output: cannot be written; the rest of the output is lost'

# Passes on what a program tells. The status is 1 where it told anything. A program is not ended by SIGPIPE: where its output goes into a pipe, it tells that
# nobody reads any more. With a status in `gone` that is not passed on, and the status is this one.
tell() {
    local line told=0
    while IFS= read -r line || [ -n "$line" ]; do
        if [ -n "$gone" ] && [ "$line" = "$lost" ]; then told=$gone; continue; fi
        printf '%s\n' "$line" >&2
        told=1
    done
    exit "$told"
}

# Puts what stepper prints into columns with names. A line goes out when it has come in: mawk has to be told so.
columns() {
    local line_by_line=()
    case $(awk -W version 2>/dev/null </dev/null) in mawk*) line_by_line=(-W interactive) ;; esac
    exec awk "${line_by_line[@]}" -f "$root/tools/names.awk"
}

# Proves and builds a program if need be, runs it and ends with its status; it is 1 where the program told anything on standard error. With `columns` what it
# prints goes through that function, whose status counts. A signal that ends this ends the program; where the reader of the output has gone, SIGPIPE ends this.
run() { # through=FUNCTION PROGRAM [WORDS]
    local through=${1#through=} program=$2 gone='' teller filter='' child ended='' signal status=0 told=0 input=0 output=1
    shift 2
    [ "${FUZGERLINT_BUILT-}" = "$program" ] || is_built "$program" || exec "$root/tools/build-program" "$program" "$(readlink -f "$self")" "${asked[@]}"
    if [ -n "$through" ]; then gone=0; elif [ -p /dev/fd/1 ] && [ -z "$(trap -p PIPE)" ]; then gone=141; fi
    exec 3> >(tell)
    teller=$!
    # either may be closed
    { : <&0; } 2>/dev/null || input=-
    { : >&1; } 2>/dev/null || output=-
    if [ -n "$through" ]; then exec 4> >("$through" 3>&-); filter=$! output=4; fi
    # In the background, since a signal has to wait for what runs in front. Standard input is /dev/null there unless it is named.
    "$root/target/bin/$program" "$@" <&"$input" >&"$output" 2>&3 3>&- 4>&- &
    child=$!
    # shellcheck disable=SC2064
    for signal in HUP INT TERM; do trap "ended=$signal; kill $child 2>/dev/null || :" "$signal"; done
    wait "$child" || status=$?
    exec 3>&- 4>&-
    [ -z "$filter" ] || wait "$filter" || status=$?
    wait "$teller" || told=$?
    [ -n "$ended" ] || [ "$told" != 1 ] || status=1
    [ -n "$ended" ] || [ "$told" != 141 ] || ended=PIPE
    [ -z "$ended" ] || { trap - "$ended"; kill -"$ended" $$; }
    exit "$status"
}
