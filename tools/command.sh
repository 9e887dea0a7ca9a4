# shellcheck shell=bash disable=SC2154
# What --help and --version answer, for the commands. A command sources this with its own path in `self`; then `root` is the repository, and `asked` are the words that it was given.
asked=("$@")
root=${self%"${self##*/}"}
root=${root:-./}
root=${root%/}
[ -n "$root" ] || root=/

# Prints which Fuzgerlint this is, and with which toolchain it was proved: that of the last build, else the one that is named. The version is 1 and the number of requests that have landed.
version() { # COMMAND
    local landed=("$root"/docs/landings/*.md) commit='' kit
    [ ! -e "$root/.git" ] || commit=$(git -C "$root" describe --always --dirty --exclude '*' 2>/dev/null) || :
    read -r kit 2>/dev/null <"$root/target/kit" || read -r kit <"$root/toolchain.txt"
    printf '%s of Fuzgerlint 1.%d%s\ntoolchain: %s\n' "$1" "${#landed[@]}" "${commit:+, commit $commit}" "$kit"
}

# Answers --help and --version, whatever words stand beside them. The first line of the help is the usage.
answer() { # COMMAND HELP
    local word
    for word in "${asked[@]}"; do
        case $word in
        --help) printf '%s\n' "$2"; exit ;;
        --version) version "$1"; exit ;;
        esac
    done
}

# Refuses words that the command does not take.
refuse() { # HELP
    printf '%s\n' "${1%%$'\n'*}" >&2
    exit 2
}
