# shellcheck shell=bash
# shellcheck disable=SC2034
# What the scripts share.

# The repository's folder.
top=$(cd "$(dirname "${BASH_SOURCE[0]}")/.." && pwd) || exit 1
# The programs, each with a command of its name at the top, and the crate of the library for C.
programs=(tlcache tlcheck tlwire tlgen tlchart)
library=tl_embed

# What ./prove and ./install make where no name is given, one a line.
products() { printf '%s\n' "${programs[@]}" "$library"; }

# A crate of crates.txt and those of this repository that it stands on, in one line; without a name a line for each
# crate.
crates_below() { # [NAME]
    awk -v only="${1:-}" '
        function walk(name,    i, n, names) {
            if (name in seen) return
            seen[name] = 1
            line = line (line == "" ? "" : " ") name
            n = split(uses[name], names, " ")
            for (i = 1; i <= n; i++) if (names[i] in uses) walk(names[i])
        }
        { sub(/#.*/, "") }
        /:/ { split($0, half, ":"); split(half[1], head, " "); uses[all[++count] = head[1]] = half[2] }
        END {
            for (k = 1; k <= count; k++) {
                if (only != "" && all[k] != only) continue
                split("", seen)
                line = ""
                walk(all[k])
                print line
            }
        }' "$top/crates.txt"
}

# The file that the proof of a crate lets be built: a program, or the archive of the library for C.
made_of() { # NAME
    if [ "$1" = "$library" ]; then
        printf '%s\n' "$top/crates/$1/out/lib$1.a"
    else
        printf '%s\n' "$top/crates/$1/out/$1"
    fi
}

# Whether that file stands, and no source that it is made from is newer than it, or than the last ./prove that found
# nothing to do. Only what is proved is built.
is_proved() { # NAME
    local made mark=$top/.prove/$1.proved names
    made=$(made_of "$1")
    [ -f "$made" ] || return 1
    [ "$mark" -nt "$made" ] || mark=$made
    read -ra names < <(crates_below "$1")
    [ -z "$(find "${names[@]/#/"$top"/crates/}" -name out -prune -o \( -name '*.rt' -o -name '*.antt' \) -newer "$mark" -print -quit)" ]
}

# The folder of the Rattle kit: that of its first page. A linker is given one file of it, the C part of its library
# (c/liblibc_c.a), as the kit's guides say.
kit_folder() {
    local page
    page=$(rt doc 2> /dev/null) && dirname "$page"
}

# Which interface the header has: it rises with each change of a struct, a number or a meaning.
interface() { sed -n 's/^#define JV_VERSION \([0-9]*\).*/\1/p' "$top/include/jinavoke.h"; }

# The documents with their pictures and pages, and the examples: what ./install lays below share/ at the same paths, so
# that their links hold (scripts/links.py).
shared_files() (
    cd "$top" || exit 1
    find README.md CHANGELOG.md CONTRIBUTING.md docs examples -type f ! -name check ! -name '*.pyc'
    find crates -name out -prune -o -name CALLING.md -print
    find crates/golden/data -name '*.svg' -o -name '*.html'
)
