#!/bin/sh
# Lists the definitions that contracts cite, in the order of crates.txt: of each file under specs/ the names that are
# public, with the comment above them. `docs/definitions.sh > docs/generated/LIST.md` writes the list, and
# `docs/definitions.sh | diff - docs/generated/LIST.md` shows whether it is out of date.

cd "$(dirname "$0")/.." || exit 1

# The rows of one file. A definition without a comment of its own joins the row above it, and has none where there is
# no such row. What is within a module is indented by two blanks more.
rows() {
    awk '
        function flush() {
            if (said != "") print "| " names " | " said " |"
            names = ""; said = ""
        }
        match($0, /[^ ]/) && !/^ *--/ && RSTART <= 2 * depth { depth = int((RSTART - 1) / 2) }
        { for (i = 0; i < depth; i++) sub(/^  /, "") }
        /^module / { depth++; comment = ""; next }
        /^-- / { comment = comment (comment == "" ? "" : " ") substr($0, 4); next }
        /^(unfoldable |abbrev )*pub / {
            line = $0
            sub(/^(unfoldable |abbrev )*pub /, "", line)
            kind = line; sub(/ .*/, "", kind)
            if (kind == "use" || kind == "mod") { comment = ""; next }
            if (kind == "record" || kind == "data") sub(/^[a-z]* /, "", line)
            sub(/[ :].*/, "", line)
            if (comment != "") { flush(); said = comment; gsub(/\|/, "\\|", said) }
            names = names (names == "" ? "" : ", ") "`" line "`"
            comment = ""
            next
        }
        { comment = "" }
        END { flush() }
    ' "$1"
}

# What the head of a file says of it.
head_of() {
    awk '/^-- / { said = said (said == "" ? "" : " ") substr($0, 4); next } { exit } END { print said }' "$1"
}

echo '# The definitions that contracts cite'
echo
echo 'Made by `docs/definitions.sh` from the files: what each says at its head, and its public names by their comments.'
sed -n 's/^\([a-z_]*\)[^:#]*:.*/\1/p' crates.txt | while read -r crate; do
    files=$(sed -n 's/^pub mod //p' "crates/$crate/specs/Lib.antt" 2>/dev/null)
    [ -n "$files" ] || continue
    printf '\n## %s\n' "$crate"
    for file in $files; do
        path=crates/$crate/specs/$file.antt
        found=$(rows "$path")
        printf '\n### `%s`\n\n%s\n' "$path" "$(head_of "$path")"
        [ -n "$found" ] || continue
        printf '\n| definition | meaning |\n|---|---|\n%s\n' "$found"
    done
done
