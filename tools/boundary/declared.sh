#!/bin/sh
# That include/tuple.h declares what the library exports: writes the answers of crates/tuple and the calls of crates/tuple_c in C's words, and compiles that beside the header.
# A field, a size, a parameter, an answer or a split of references that differs does not compile; a call or a refusal's number that only one of the two has is shown, and so is
# a file of the code that names the split beside the constant and its one user, a second line that compares a discriminant with a tag, or a theorem that the
# header, a comment of the code, the Rust crate or README names and that no crate has; and a call beside the two of encoding that shows the zeros escaped.
set -eu
cd "$(dirname "$0")/../.."
made=$(mktemp -d)
trap 'rm -rf "$made"' EXIT
cat crates/tuple/src/answers.rt crates/tuple/src/steps.rt | awk '
    BEGIN {
        split("u32 uint32_t u64 uint64_t i32 int32_t bool bool", words, " ")
        for (i = 1; i < 8; i += 2) c[words[i]] = words[i + 1]
        split("Length length Encoded encoded Sheet sheet Ends ends Order order Number number Part part CursorStep step PartStep part_step CharStep char", words, " ")
        for (i = 1; i < 20; i += 2) named[words[i]] = "tuple_" words[i + 1]
    }
    /^#\[repr\(C\)\]$/ { do getline; while (/^#\[/); name = $3; fields = ""; checks = ""; answers++; next }
    name != "" && /^}$/ {
        printf "struct in_library_%s {%s };\n%s", name, fields, checks
        printf "_Static_assert(sizeof(struct in_library_%s) == sizeof(%s), \"%s: size\");\n", name, named[name], named[name]
        name = ""
    }
    name != "" && $1 == "pub" {
        field = $2; sub(/:$/, "", field); type = $3; sub(/,$/, "", type)
        fields = fields " " c[type] " " field ";"
        where = named[name] "." field
        checks = checks "_Static_assert(offsetof(struct in_library_" name ", " field ") == offsetof(" named[name] ", " field "), \"" where ": place\");\n"
        checks = checks "_Static_assert(__builtin_types_compatible_p(__typeof__(((" named[name] " *)0)->" field "), " c[type] "), \"" where ": type\");\n"
    }
    END { if (answers != 10) { print "the library has " answers " answers" > "/dev/stderr"; exit 1 } }' >"$made/answers.c"
cat crates/tuple_c/src/*.rt | tr '\n' ' ' | sed 's/#\[unsafe(no_mangle)\]/\n/g' | awk '
    BEGIN {
        split("Length length Encoded encoded Sheet sheet Ends ends Order order Number number Part part CursorStep step PartStep part_step CharStep char", words, " ")
        for (i = 1; i < 20; i += 2) named[words[i]] = "tuple_" words[i + 1]
        split("u8 uint8_t u32 uint32_t u64 uint64_t usize size_t bool bool", words, " ")
        for (i = 1; i < 10; i += 2) c[words[i]] = words[i + 1]
    }
    match($0, /^ *pub extern "C" fn [a-z0-9_]+\([^)]*\) -> [A-Za-z]+/) {
        call = substr($0, RSTART, RLENGTH)
        answer = call; sub(/.* -> /, "", answer)
        name = call; sub(/.* fn /, "", name); given = name; sub(/\(.*/, "", name)
        sub(/^[^(]*\(/, "", given); sub(/\).*/, "", given)
        n = split(given, parameter, ","); list = ""
        for (i = 1; i <= n; i++) {
            type = parameter[i]; sub(/.*: */, "", type); gsub(/ +$/, "", type)
            if (type == "") continue
            word = type; gsub(/&|mut |\[|\]/, "", word)
            text = c[word]
            if (type ~ /^&/) text = (type ~ /mut/ ? "" : "const ") text " *, size_t"
            list = list (list == "" ? "" : ", ") text
        }
        print named[answer] " " name "(" list ");"
    }' >"$made/calls.c"
sed -n 's/^tuple_[a-z_]* \(tuple_[a-z0-9_]*\)(.*/\1/p' include/tuple.h | sort >"$made/in_header"
sed -n 's/^tuple_[a-z_]* \(tuple_[a-z0-9_]*\)(.*/\1/p' "$made/calls.c" | sort >"$made/in_library"
diff "$made/in_header" "$made/in_library"
sed -n 's/^tuple_encoded \(tuple_[a-z0-9_]*\)(.*/\1/p' "$made/calls.c" | sort >"$made/with_zeros"
printf 'tuple_encode_%s\n' key typed | diff - "$made/with_zeros"
sed -n 's/^    TUPLE_\([A-Z_]*\) = \([0-9]*\).*/\1 \2/p' include/tuple.h >"$made/numbers_in_header"
# The library's refusals by their numbers: the arms of `Refusal::number`, their names in capitals.
{
    echo OK 0
    sed -n 's/^ *Refusal::\([A-Za-z]*\)\((_)\)\{0,1\} => \([0-9]*\),$/\1 \3/p' crates/format/src/refusal.rt |
        sed 's/\([a-z]\)\([A-Z]\)/\1_\2/g' | tr a-z A-Z
} >"$made/numbers_in_library"
diff "$made/numbers_in_header" "$made/numbers_in_library"
grep -rlE 'SEQUENCES|0x100_?0000_?0000|1_?099_?511_?627_?776|(<<|>>) ?40' crates/*/src --include='*.rt' | sort >"$made/split"
printf 'crates/%s\n' format/src/lib.rt scalar/src/refs.rt | diff - "$made/split"
grep -rnE '[!=]= tag\b|\btag [!=]=' crates/*/src --include='*.rt' | sed 's/:.*//' >"$made/searches"
echo crates/sheet/src/alternatives.rt | diff - "$made/searches"
grep -rhoE 'theorem `?[a-z0-9_-]+' README.md include crates/*/src rust/src | tr -d '`' | sort -u >"$made/named"
sed 's/^theorem //' "$made/named" | while read -r theorem; do
    grep -rqE "^pub $theorem :" crates/*/proofs --include='*.antt' || { echo "no crate has theorem $theorem"; exit 1; }
done
while read -r theorem place; do
    grep -qE "theorem \`?$theorem" "$place" || { echo "$place does not name theorem $theorem"; exit 1; }
done <<'END'
strinc_tight include/tuple.h
strinc_tight crates/tuple/src/keys.rt
strinc_tight rust/src/lib.rs
spans include/tuple.h
spans crates/tuple/src/keys.rt
spans rust/src/lib.rs
exact_call include/tuple.h
exact_call crates/tuple/src/keys.rt
prefixes include/tuple.h
prefixes crates/tuple/src/keys.rt
prefixes rust/src/lib.rs
prefix_call_lem include/tuple.h
prefix_call_lem crates/tuple/src/keys.rt
scrolls include/tuple.h
scrolls crates/tuple/src/reader.rt
scrolls crates/chars/src/lib.rt
scrolls rust/src/cursor.rs
blanks include/tuple.h
blanks rust/src/sheet.rs
zeros_escaped include/tuple.h
zeros_escaped crates/tuple/src/sheets.rt
zeros_escaped rust/src/lib.rs
END
sequences=$(sed -n 's/^pub const SEQUENCES: u64 = \([0-9a-fx_]*\);$/\1/p' crates/format/src/lib.rt | tr -d _)
{
    echo '#include "include/tuple.h"'
    cat "$made/answers.c" "$made/calls.c"
    echo "_Static_assert((UINT64_C(1) << TUPLE_SEQUENCE_BITS) == $sequences, \"the split of a reference\");"
} >"$made/declared.c"
${CC:-cc} -std=gnu11 -Wall -Wextra -Werror -I . -fsyntax-only "$made/declared.c"
echo "$(wc -l <"$made/in_library") calls, 10 answers and $(($(wc -l <"$made/numbers_in_library") - 1)) refusals: the header declares what the library has"
