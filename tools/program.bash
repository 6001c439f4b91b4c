# Which program a script runs: one that was built here; else that of dist/, where dist/MADE-FROM
# says that it was made from these sources; else one that is built. `confsolve`, `confsolve-view` and
# `confsolve-site` read this file, and so do tools/release, tools/install and the tests, so that what
# one writes the others understand.
#
# Whoever reads it has set `here`, the top of the repository, and `script`, its own name. Where
# tools/install put the scripts somewhere, `here` has a file INSTALLED-FROM, which says from which
# commit, and programs in dist/ that are neither compared nor built.
#
# dist/MADE-FROM is a text that `sha256sum -c` takes: the SHA-256 and the path of HANDLES,
# crates.txt, each file in src, specs and proofs of the programs' crates, and each program, in the
# order of the paths' bytes. The line before them names the toolchain (`rt version`), the one behind
# them has the sum of all that stands above it; both begin with `#`.

# The crates that programs are made of, themselves among them, one a line.
crates_of() {
    awk -v wanted="$*" '
        /^[a-z]/ {
            sub(/#.*/, "")
            name = $1
            sub(/:.*/, "", name)
            below[name] = substr($0, index($0, ":") + 1)
        }
        END {
            count = split(wanted, todo, " ")
            for (k = 1; k <= count; k++) {
                name = todo[k]
                if (!(name in below) || name in seen) continue
                seen[name] = 1
                print name
                parts = split(below[name], part, " ")
                for (j = 1; j <= parts; j++) todo[++count] = part[j]
            }
        }
    ' "$here/crates.txt" | LC_ALL=C sort
}

# What of the checkout a build of these programs reads: two files, and folders, one a line.
places_of() {
    echo HANDLES
    echo crates.txt
    crates_of "$@" | awk '{ print "crates/" $1 "/src\ncrates/" $1 "/specs\ncrates/" $1 "/proofs" }'
}

# The files there, each ended by a byte 0, by the further words of `find`.
files_of() {
    local places
    places=($(places_of "$1"))
    shift
    (cd -- "$here" && find "${places[@]}" -type f "$@" 2>/dev/null)
}

# The sums of what a build of these programs reads.
source_sums() {
    files_of "$*" -print0 | LC_ALL=C sort -z | (cd -- "$here" && xargs -0r sha256sum 2>/dev/null)
}

# The same sums as dist/MADE-FROM has them.
recorded_sums() {
    awk -v crates="$(crates_of "$@" | tr '\n' ' ')" '
        BEGIN {
            count = split(crates, part, " ")
            for (k = 1; k <= count; k++) wanted[part[k]] = 1
        }
        /^#/ { next }
        { split($2, part, "/") }
        part[1] == "crates" ? part[2] in wanted : part[1] != "dist"
    ' "$here/dist/MADE-FROM"
}

# Writes dist/MADE-FROM for the programs that lie in dist/, made with this toolchain.
write_made_from() {
    local made=$here/dist/MADE-FROM
    {
        echo "# $1"
        shift
        source_sums "$@"
        (cd -- "$here" && printf 'dist/%s\0' "$@" | LC_ALL=C sort -z | xargs -0 sha256sum)
    } >"$made" && echo "# the lines above: $(sha256sum <"$made" | cut -d ' ' -f 1)" >>"$made"
}

# Says of the first file, in the order of their paths, that isn't as dist/MADE-FROM has it what is
# otherwise; nothing where all are as there. It fails where they can't be compared.
first_difference() {
    {
        recorded_sums "$1"
        echo
        source_sums "$1"
    } | LC_ALL=C awk '
        function tell(path, what) { print path " " what; told = 1; exit }
        !NF { here = 1; next }
        # With a letter in front no sum is taken for a number.
        !here { path[++count] = $2; sum[count] = "s" $1; next }
        {
            at++
            if (at > count || $2 < path[at]) tell($2, "is new")
            if ($2 != path[at]) tell(path[at], "is gone")
            if ("s" $1 != sum[at]) tell($2, "differs")
        }
        END {
            if (!told && at < count) print path[at + 1] " is gone"
            exit !count
        }
    '
}

# Sets `fault` to why the program of dist/ isn't run, and to nothing where it is.
find_dist_fault() {
    local name=$1 made=$here/dist/MADE-FROM file=$here/dist/$1 recorded said status
    fault=
    if [ ! -f "$file" ] || [ ! -f "$made" ]; then
        [ -f "$file" ] && name=MADE-FROM
        fault="there is no dist/$name"
    elif [ "$(tail -n 1 -- "$made")" != \
        "# the lines above: $(head -n -1 -- "$made" | sha256sum | cut -d ' ' -f 1)" ]; then
        fault="dist/MADE-FROM was changed, so dist/$name isn't run: its last line isn't its sum"
    elif recorded=$(awk -v file="dist/$name" '$2 == file { print $1 }' "$made")
        [ "$(sha256sum <"$file" | cut -d ' ' -f 1)" != "$recorded" ]; then
        fault="dist/$name was changed, so it isn't run: dist/MADE-FROM has another sum of it"
    elif ! fault=$(first_difference "$name") || [ -n "$fault" ]; then
        fault="dist/$name isn't of these sources: ${fault:-nothing compares them}"
    elif [ "$HOSTTYPE" != x86_64 ] || [[ $OSTYPE != linux* ]]; then
        fault="dist/$name is for Linux on x86-64, and this is $OSTYPE on $HOSTTYPE"
    else
        # Without words a program answers with its usage; what can't be loaded may end with 1.
        said=$("$file" 2>&1 >/dev/null </dev/null)
        status=$?
        [[ $said == 'usage: '* ]] ||
            fault="dist/$name doesn't run here: status $status, ${said%%$'\n'*}"
    fi
}

# Makes `mark`, a file of now that says what is taken: in the checkout, or else in the user's cache;
# nothing where neither can be written to.
make_mark() {
    local folder
    mark=
    for folder in "$here/.state" "$(mark_in_cache)"; do
        mkdir -p -- "$folder" 2>/dev/null && mark=$(mktemp "$folder/XXXXXX" 2>/dev/null) || continue
        chmod 644 "$mark"
        echo "$1" >"$mark"
        return
    done
    mark=
}

mark_in_cache() {
    echo "${XDG_CACHE_HOME:-${HOME:-/dev/null}/.cache}/confsolve/${here//\//%}"
}

# Whether no file that counts, and no folder from which something was taken out, changed since a
# mark was made.
nothing_changed() {
    local places=() place
    for place in crates.txt HANDLES dist crates; do
        [ ! -e "$here/$place" ] || places+=("$here/$place")
    done
    [ -z "$(find "${places[@]}" -regextype posix-extended \
        -name out -regex '.*/crates/[^/]+/out' -prune -o -newercm "$1" -print -quit 2>&1)" ]
}

# A file that a build of the program reads and that is newer than the one that was built here.
newer_source() {
    files_of "$1" -newer "$here/crates/$1/out/$1" -print -quit
}

# Whether a mark tells which program is taken, and nothing changed behind it. Sets `program`.
is_marked() {
    local name=$1 built=$here/crates/$1/out/$1 mark taken
    for mark in "$here/.state/$name" "$(mark_in_cache)/$name"; do
        { read -r taken <"$mark"; } 2>/dev/null || continue
        case $taken in
            built) program=$built ;;
            dist) [ ! -e "$built" ] && program=$here/dist/$name || continue ;;
            *) continue ;;
        esac
        [ -x "$program" ] && [ ! "$program" -nt "$mark" ] && nothing_changed "$mark" && return 0
    done
    return 1
}

# Whether this is no checkout, but what tools/install put somewhere.
is_installed() {
    [ -f "$here/INSTALLED-FROM" ]
}

# The file of a program that was built here, or else that of dist/.
program_file() {
    local built=$here/crates/$1/out/$1
    if [ -x "$built" ]; then echo "$built"; else echo "$here/dist/$1"; fi
}

# Says a line, as the script.
tell() {
    echo "${script}: $*" >&2
}

# Builds the program, which proves all below it, or ends.
build_program() {
    if ! command -v rt >/dev/null 2>&1; then
        tell "to build it needs the toolchain, and there is no \`rt\` on the PATH (README.md)"
        exit 70
    fi
    "$here/tools/build" "$1" || exit 70
}

# Sets `program` to the file of the program that is run, which is built where there is none, and
# says on first use which one it is.
take_program() {
    local name=$1 built=$here/crates/$1/out/$1 mark fault said newer
    if is_installed; then
        program=$here/dist/$name
        [ ! -x "$program" ] || return 0
        tell "there is no $program that runs: install it anew"
        exit 70
    fi
    ! is_marked "$name" || return 0
    if [ ! -x "$built" ]; then
        make_mark dist
        find_dist_fault "$name"
        if [ -n "$fault" ]; then
            [ -z "$mark" ] || rm -f -- "$mark"
            tell "$fault"
            build_program "$name"
        fi
    fi
    if [ -x "$built" ]; then
        program=$built
        said="runs crates/$name/out/$name, which was built here"
        newer=$(newer_source "$name")
        if [ -n "$newer" ]; then
            said+=" before $newer was changed"
        elif [ "$here/dist/MADE-FROM" -nt "$built" ]; then
            said+=", though dist/$name is newer: without the former the latter is run"
        fi
        said+="; tools/build $name builds it anew"
        make_mark built
    else
        program=$here/dist/$name
        said="runs dist/$name, which was made from these sources;"
        said+=" ./$script --prove proves and builds it here"
    fi
    [ -z "$mark" ] && [ ! -t 2 ] || tell "$said"
    [ -z "$mark" ] || mv -f -- "$mark" "${mark%/*}/$name"
}

# Proves and builds the program here, says whether that of dist/ is the same, and ends: with 0 where
# it is, 1 where not, 70 where it can't be built.
prove_program() {
    local name=$1 made=$here/dist/MADE-FROM why
    if is_installed; then
        tell "it is proved in a checkout, and this was installed from one"
        exit 70
    fi
    build_program "$name"
    if [ ! -f "$here/dist/$name" ]; then
        why="there is no dist/$name"
    elif cmp -s -- "$here/crates/$name/out/$name" "$here/dist/$name"; then
        echo "$script: proved and built here; byte for byte dist/$name is the same"
        exit 0
    elif why=$(first_difference "$name" 2>/dev/null); [ -n "$why" ]; then
        why="dist/$name is another one, of other sources: $why"
    elif why=$(rt version 2>/dev/null); [ "# $why" != "$(head -n 1 -- "$made" 2>/dev/null)" ]; then
        why="dist/$name is another one, of another toolchain: this is $why"
    else
        why="dist/$name is another one, though sources and toolchain are the same"
    fi
    echo "$script: proved and built here; $why"
    exit 1
}

# The commit that the checkout is at, or from which this was installed; nothing where none is known.
commit_here() {
    local commit
    if is_installed; then
        cat -- "$here/INSTALLED-FROM"
    elif [ -e "$here/.git" ] && commit=$(git -C "$here" rev-parse --short=12 HEAD 2>/dev/null); then
        [ -z "$(git -C "$here" status --porcelain 2>&1)" ] || commit+=" with changes"
        echo "$commit"
    fi
}

# Says what there is in place of a numbered version: the commit, where one is known, and the program
# that is there, by its sum.
tell_version() {
    local file commit line="$script has no numbered version"
    file=$(program_file "$1")
    commit=$(commit_here)
    [ -z "$commit" ] || line+="; commit $commit"
    if [ -f "$file" ]; then
        line+="; ${file#"$here/"} has the SHA-256 $(sha256sum <"$file" | head -c 16).."
    else
        line+="; no program is there yet"
    fi
    echo "$line"
}

# Prints the page of the script, and says where the documents lie.
print_help() {
    cat -- "$here/tools/help/$script" || exit 70
    echo "read on: man $script, and in $(readlink -f -- "$here/docs"):"
    echo "         TUTORIAL.md, LANGUAGE.md, COMMANDS.md, MESSAGES.md, VIEW.md, SITE.md"
}

# Answers a word that is the script's own, where it stands alone, and ends.
answer_own_words() {
    local name=$1
    shift
    case $#:${1-} in
        1:--prove) prove_program "$name" ;;
        1:--version) tell_version "$name" ;;
        1:--help) print_help ;;
        *) return ;;
    esac
    exit
}

# Gives what is run no more address space than there is memory, where no smaller limit is set, so
# that want of memory ends with its status and not by a kill.
limit_memory() {
    if [ "$(ulimit -v)" = unlimited ] && [ -r /proc/meminfo ]; then
        ulimit -v "$(awk '/^MemTotal:/ { print $2 }' /proc/meminfo)"
    fi
}
