#!/bin/sh
# Needs: sh
# Compares the commands that SCRIPT.md lists, and their operands there, with the rows of the program's table, which its parser and its
# help read, and with those that help at a prompt tells of. It prints what stands in one alone: "<" in SCRIPT.md, ">" in the table or in
# that help; and how many commands it compared.
#
#     sh checks/commands_listed.sh
set -eu
cd "$(dirname "$0")/.."
folder=$(mktemp -d)
trap 'rm -rf "$folder"' EXIT

# In the first cell of a row stands a command, or several.
sed -n '/^| Command |/,/^$/s/^| \(`[^`]*`\(, `[^`]*`\)*\) |.*/\1/p' docs/SCRIPT.md | grep -o '`[^`]*`' | tr -d '`\\' | sort > "$folder/listed"

sed -n 's/^ *"\([a-z]*\)" => .*/\1/p; s/^ *"\([a-z]*\)" "\([^"]*\)" => .*/\1 \2/p' crates/geos_script/src/commands.rt \
    | sort > "$folder/rows"

# A topic of help begins behind a blank line. help and quit are no commands of a script.
awk '/^const TOPICS/ { begins = 1; next }
    begins && sub(/^    "/, "") { sub(/\\n",$/, ""); if ($0 != "help" && $0 != "quit") print }
    { begins = /\\n\\n",$/ }' crates/typed_lines/src/topics.rt | sort > "$folder/topics"

if differs=$(diff "$folder/listed" "$folder/rows" && diff "$folder/listed" "$folder/topics"); then
    echo "$(wc -l < "$folder/rows" | tr -d ' ') passed, 0 failed"
else
    printf '%s\n' "$differs"
    echo "$(comm -12 "$folder/listed" "$folder/rows" | wc -l | tr -d ' ') passed, $(printf '%s\n' "$differs" | grep -c '^[<>]') failed"
    exit 1
fi
