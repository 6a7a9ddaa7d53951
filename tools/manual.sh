#!/bin/sh
# Compares the man page and the bash completion with the help of the program. Both must name each subcommand and each option that
# `hart --help` and `hart SUBCOMMAND --help` name, and no other. The man page must name each option with its commands. Options are
# compared by their long names. The man page must have the version of the program. The man pages of hart-listen and hart-ask, and the
# completion of hart-ask, must name the options of their help.
#
# Usage: tools/manual.sh [PROGRAM]; PROGRAM is the ./hart of the repository if absent.
set -eu
program=$(realpath "${1:-$(dirname "$0")/../hart}")
cd "$(dirname "$0")/.."

# Both lists have to have the same words.
same() {
    shown=$(printf '%s\n' "$2" | tr -s ' ' '\n' | sort -u)
    wanted=$(printf '%s\n' "$3" | tr -s ' ' '\n' | sort -u)
    if [ "$shown" != "$wanted" ]; then
        echo "$1 names:" $shown >&2
        echo "help names:" $wanted >&2
        exit 1
    fi
}

# The options in the help of these words.
options_of() {
    "$program" "$@" --help 2>&1 | awk '/^ +(-[A-Za-z], +)?--[a-z]/ { match($0, /--[a-z]+/); print substr($0, RSTART, RLENGTH) }'
}

# Each name that heads a paragraph in a section of the man page, and NAME=COMMAND for each command that the paragraph names.
named_in() {
    sed 's/\\-/-/g' docs/hart.1 | awk -v section="$1" '
        /^\.SH / { on = $2 == section; next }
        on && before == ".TP" { name = match($0, /--[a-z]+/) ? substr($0, RSTART, RLENGTH) : $2; print name }
        on && before != ".TP" && /^\.BR? [a-z]/ { print name "=" $2 }
        { before = $0 }'
}

commands=$("$program" --help 2>&1 | awk '/^Subcommands:/ { on = 1; next } /^$/ { on = 0 } on { print $1 }')
options=$(options_of)
pairs=
for command in $commands; do
    [ "$command" = help ] && continue
    for option in $(options_of "$command"); do
        options="$options $option"
        [ "$option" = --help ] || pairs="$pairs $option=$command"
    done
done

same 'docs/hart.1, under SUBCOMMANDS,' "$(named_in SUBCOMMANDS)" "$commands"
same 'docs/hart.1, under OPTIONS,' "$(named_in OPTIONS | grep -v =)" "$options"
same 'docs/hart.1, option by option,' "$(named_in OPTIONS | grep = | grep -v '=hart$')" "${pairs# }"
version=$("$program" --version 2>&1 || true)
grep -q "\"$version\"" docs/hart.1 || {
    echo "docs/hart.1 is not of $version" >&2
    exit 1
}

# What the bash completion offers after these words.
offered() {
    bash -c '. docs/hart.bash; COMP_WORDS=(hart "$@" ""); COMP_CWORD=$(($# + 1)); _hart; echo "${COMPREPLY[@]}"' bash "$@"
}

same 'docs/hart.bash' "$(offered)" "$commands $(options_of | tr '\n' ' ')"
for command in $commands; do
    [ "$command" = help ] && continue
    same "docs/hart.bash, after $command," "$(offered "$command")" "$(options_of "$command")"
done
same 'docs/hart.bash, after help,' "$(offered help)" "$commands"
same 'docs/hart-listen.1' "$(sed 's/\\-/-/g' docs/hart-listen.1 | grep -E '^\.B[RI]? ' | grep -oE -- '--[a-z]+')" \
    "$(tools/hart-listen --help | grep -oE '^ +(-h, )?--[a-z]+' | grep -oE -- '--[a-z]+')"

# hart-ask: its man page and its completion name the options of its help.
asked=$(tools/hart-ask --help | grep -oE '^ +(-h, )?--[a-z]+' | grep -oE -- '--[a-z]+')
same 'docs/hart-ask.1' "$(sed 's/\\-/-/g' docs/hart-ask.1 | grep -oE '^\.BI? --[a-z]+' | grep -oE -- '--[a-z]+') --help" "$asked"
same 'docs/hart.bash, after hart-ask,' \
    "$(bash -c '. docs/hart.bash; COMP_WORDS=(hart-ask ""); COMP_CWORD=1; _hart_ask; echo "${COMPREPLY[@]}"')" "$asked"

echo "docs/*.1 and docs/hart.bash name what help names"
