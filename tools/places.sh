#!/bin/sh
# Lists the places in src/ where an older form may stand, by point: sh tools/places.sh [FOLDER]. Reading says which they are.
cd "${1:-.}" || exit 1
src() { grep -rnE "$1" crates/*/src --include='*.rt' | grep -vE '^crates/examples/|:[0-9]+: *//'; }
point() { printf '== %s\n' "$1"; }
point '1a flags'
src '\b[a-z_]+: bool\b'
point '1b pairs of a flag or a number and something'
src '\((bool|u64), '
point '1c refusals as options'
src 'Option<(Reason|Refusal|LineFault)>'
point '1d numbers for cases'
src '(^ *[0-9][0-9|=. ]* =>|=> [0-9]+,$)'
point '1e numbers as results'
src '\-> u8$'
point '1f a number that stands for none (in comments)'
grep -rnEi ', 0 (for|where)|else 0|all zero|^[^:]*:[0-9]+: */.*255 (for|where)' crates/*/src --include='*.rt'
point '2 functions with one name'
for name in $(grep -rhoE '\bfn [a-z_]+' $(ls -d crates/*/src | grep -v examples) | sort | uniq -d | cut -d' ' -f2); do
    printf '%s: %s\n' "$name" "$(grep -rlE "\bfn $name\b" $(ls -d crates/*/src | grep -v examples) | tr '\n' ' ')"
done
point '3 loops'
src '\b(while|loop)\b|^ *(.[a-z]+: )?for '
point '4a impls of comparison, conversion and printing'
src '^impl.*\b(PartialEq|Eq|Ord|Clone|Copy|From|TryFrom|FromStr|Display)\b'
point '4b answers true and false'
src '=> (true|false),?$'
point '4c functions that compare, convert or print'
src 'fn (same_[a-z]+|equal|[a-z]+_word|word|complaint|number|layer|tag_of|style_of|number_of)\b'
point '5a facts that are asked for'
src '\brequires\b'
point '5b parameters in the same three signatures or more'
python3 - <<'PY'
import collections, glob, itertools, re
c = collections.defaultdict(list)
for f in sorted(glob.glob('crates/*/src/**/*.rt', recursive=True)):
    if f.startswith('crates/examples/'):
        continue
    text = open(f).read()
    for m in re.finditer(r'\bfn (\w+)', text):
        at, depth = m.end(), 0
        while depth or text[at] != '(':
            depth += {'<': 1, '>': -1}.get(text[at], 0)
            at += 1
        given = re.sub(r'<[^<>]*>', '', text[at + 1:text.index(')', at)])
        names = {p.split(':')[0].strip().replace('mut ', '') for p in given.split(',') if ':' in p}
        for pair in itertools.combinations(sorted(names), 2):
            c[pair].append(f.split('/')[1] + '::' + m.group(1))
for pair, where in sorted(c.items(), key=lambda kv: (-len(kv[1]), kv[0])):
    if len(where) > 2:
        print(' '.join(pair) + ':', ' '.join(where))
PY
point '6a lengths, places and arrays'
src '\b(len|depth|at|end|count|first|fill): (&mut )?usize\b|\[[A-Za-z0-9]+; [0-9A-Z_]+\]'
point '6b elements by a place'
src '[a-z]\[[a-z_.]+( [+-] 1)?\]'
point '7 switches and tables of functions'
src 'match (kind|spot|self\.spot|\(kind)|\bfn\(|\bdyn\b|impl Fn'
point '8 proofs: answers files, lines'
find crates/*/proofs -name Answers.antt | wc -l
find crates/*/proofs -name '*.antt' -exec cat {} + | wc -l
