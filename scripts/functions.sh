# functions.sh - what the scripts share. They source it from the top of the repository.

archive=target/staticlib/libruphenqo.a
list=target/bin/list

# the library's level: document 01 is 99, with the change requests of document 02 up to M-u it is u (tests/vectors/README.md)
level=103

# need COMMAND..      says which commands are missing, with the Debian package of each
need() {
    missing=0
    for word; do
        command -v "$word" >/dev/null 2>&1 && continue
        case $word in
        rt) from="the Rattle kit, see CONTRIBUTING.md" ;;
        cc) from="Debian package gcc" ;;
        c++) from="Debian package g++" ;;
        setsid) from="Debian package util-linux" ;;
        *) from="Debian package $word" ;;
        esac
        echo "missing: $word ($from)" >&2
        missing=1
    done
    return $missing
}

# resting_on CRATE..      the crates and all that they rest on, a name a line
resting_on() {
    awk -v wanted="$*" '
        function visit(name,    k, n, under) {
            if (!(name in deps) || seen[name]++) return
            print name
            n = split(deps[name], under, " ")
            for (k = 1; k <= n; k++) visit(under[k])
        }
        { sub(/#.*/, "") }
        /:/ { split($0, said, /[ :]/); name = said[1]; sub(/[^:]*:/, ""); deps[name] = $0 }
        END { n = split(wanted, names, " "); for (k = 1; k <= n; k++) visit(names[k]) }' crates.txt
}

# alone COMMAND..      runs a command or function in a session of its own, all of which ends when this script is interrupted
alone() {
    setsid sh -c '. scripts/functions.sh; "$@"' sh "$@" &
    job=$!
    trap 'kill -s TERM -- "-$job" 2>/dev/null; exit 130' INT TERM HUP
    wait "$job"
    ended=$?
    trap - INT TERM HUP
    return $ended
}

# stamp_of CRATE TARGET      what was made, and what from, as one word: its bytes, the kit, the crate, and the crates under it
stamp_of() {
    {
        rt version
        sha256sum "$2"
        for crate in $(resting_on "$1" | sort); do find "crates/$crate" \( -name '*.rt' -o -name '*.antt' \) -not -path '*/out/*' -exec sha256sum {} + | sort; done
    } 2>/dev/null | sha256sum
}

# in_crate CRATE COMMAND..      runs a command of rt in a crate's folder; what it says is shown where it fails
in_crate() {
    said=$(mktemp) || return 1
    (cd "crates/$1" && shift && "$@") >"$said" 2>&1 </dev/null || { cat "$said"; rm -f "$said"; return 1; }
    rm -f "$said"
}

# make_from CRATE MADE TARGET COMMAND..      runs rt's COMMAND in a crate, with all that it rests on, and puts what it made into TARGET, unless that is there and
# made from the crates as they stand
make_from() {
    crate=$1 of=$2 target=$3
    shift 3
    [ -f "$target" ] && [ "$(cat "$target.stamp" 2>/dev/null)" = "$(stamp_of "$crate" "$target")" ] && return 0
    echo "$target rests on $(resting_on "$crate" | wc -l) crates; what of them is not proved yet is proved, which takes some minutes."
    alone in_crate "$crate" "$@" || return 1
    mkdir -p "${target%/*}" && cp "crates/$crate/out/$of" "$target" || return 1
    stamp_of "$crate" "$target" >"$target.stamp"
}

# make_archive      proves and writes the archive
make_archive() { make_from ruphenqo_c libruphenqo_c.a "$archive" rt lib; }

# make_list         proves and writes the listing program
make_list() { make_from list list "$list" rt run; }
