# Puts the program with its scripts, pages and completions below a prefix, takes them away again, and packs them into a
# file. Nothing there names this folder, so that it can be moved; and it can put itself elsewhere, too.

# Each command of bin/, and what it is below share/eel.
commands='eel:eel eel-profile:tools/profile.py eel-check:tools/check.py eel-annotate:tools/annotate.py
    eel-lines:tools/source_counts.py eel-graph:tools/graph.py eel-merge:tools/merge.py eel-compare:tools/compare.py
    eel-edges:tools/edges.py eel-patch:tools/patch.py'
old_mark="# EEL's launcher, put here by its --install" # in what older launchers put into bin/

# A line for each file, but for those of bin/: its mode, where it goes, and where it stands here.
placed_files() {
    echo "755 libexec/eel/eel_main $program"
    echo "755 share/eel/eel $here/eel"
    for name in NOTICE CHANGELOG.md docs/REFERENCE.md docs/TUTORIAL.md docs/profile.schema.json; do echo "644 share/eel/$name $here/$name"; done
    for file in "$here"/tools/*.*; do
        [ "${file%.md}" = "$file" ] || continue
        echo "$([ -x "$file" ] && echo 755 || echo 644) share/eel/tools/${file##*/} $file"
    done
    for file in "$here"/tools/python/eeltools/*.py; do
        echo "644 share/eel/tools/python/eeltools/${file##*/} $file"
    done
    for command in $commands; do
        command=${command%:*} page=tools/pages/${command%:*}.1
        echo "644 share/eel/$page $here/$page"
        echo "644 share/man/man1/$command.1 $here/$page"
        echo "644 share/bash-completion/completions/$command $here/tools/eel.bash"
        echo "644 share/fish/vendor_completions.d/$command.fish $here/tools/eel.fish"
    done
    echo "644 share/zsh/site-functions/_eel $here/tools/eel.zsh"
}

# Of what all of this was made, for the file PACKAGE.
describe() {
    if [ -r "$here/PACKAGE" ]; then
        cat "$here/PACKAGE"
        return
    fi
    read_note || { commit=unknown sum=unknown && way=; }
    time=0
    if [ -e "$here/.git" ]; then
        time=$(git -C "$here" show -s --format=%ct HEAD 2>/dev/null) || time=0
        [ -z "$(git -C "$here" status --porcelain 2>/dev/null)" ] || way=changed
    elif [ "$(commit_here)" ]; then
        read -r _ time <"$here/COMMIT"
    fi
    case $way in *changed) commit="$commit and changes" ;; esac
    echo "version $version"
    echo "commit $commit"
    echo "time $time"
    echo "kit $(cat "$folder/kit" 2>/dev/null || echo unknown)"
    echo "sources $sum"
    echo "program $(sha256sum <"$program" | cut -c 1-64)"
}

# Stops where something else has one of the names.
is_ours() {
    for command in $commands; do
        made=$1/bin/${command%:*}
        case $(readlink -- "$made") in
        ../share/eel/*) ;;
        *) [ ! -e "$made" ] || grep -qxF "$old_mark" "$made" || { echo "eel: $made is another program" >&2 && exit 74; } ;;
        esac
    done
    [ ! -e "$1/share/eel" ] || [ -e "$1/share/eel/PACKAGE" ] || { echo "eel: $1/share/eel is another's" >&2 && exit 74; }
}

place_below() {
    placed_files | while read -r mode name file; do
        install -D -m "$mode" -- "$file" "$1/$name" || exit 74
    done || exit
    describe >"$1/share/eel/PACKAGE" && chmod 644 "$1/share/eel/PACKAGE" && mkdir -p "$1/bin" || exit 74
    for command in $commands; do
        ln -sfn "../share/eel/${command#*:}" "$1/bin/${command%:*}" || exit 74
    done
}

place_install() {
    is_ours "${DESTDIR:-}$1"
    want_program
    place_below "${DESTDIR:-}$1"
    echo "eel: $1/bin/eel, eel-profile and its other scripts, manual pages and completions are in place"
}

# Takes away what was put there, and the folders that are empty then.
place_uninstall() {
    below=${DESTDIR:-}$1 names=$(placed_files | cut -d ' ' -f 2)
    is_ours "$below"
    rm -rf "$below/share/eel" "$below/libexec/eel" || exit 74
    for name in $names; do rm -f "$below/$name" || exit 74; done
    for command in $commands; do rm -f "$below/bin/${command%:*}" || exit 74; done
    for emptied in $(for name in $names; do echo "${name%/*}"; done | sort -u) share libexec bin; do
        (cd "$below" && rmdir -p "$emptied") 2>/dev/null || :
    done
    rmdir "$below" 2>/dev/null || :
}

# The file is the same each time: names are in order, and times are that of the commit.
place_package() {
    want_program
    made=$(mktemp -d) || exit 74
    trap 'rm -rf "$made"' EXIT
    place_below "$made/eel-$version"
    tar -C "$made" --format=ustar --sort=name --mtime="@$(sed -n 's/^time //p' "$made/eel-$version/share/eel/PACKAGE")" \
        --owner=0 --group=0 --numeric-owner --mode=u=rwX,go=rX -cf "$made/package.tar" "eel-$version" &&
        gzip -9n "$made/package.tar" && cat "$made/package.tar.gz" >"$1" || exit 74
    echo "eel: $1 has eel-$version: unpack it, and call bin/eel in it; or bin/eel --install PREFIX"
}
