# Files and names that a page cites and the repository lacks are reported, and no others.
cat >page.md <<'PAGE'
There are `m_fixed/specs/Operators.antt` (`arity_of`, `result_of`), m_lint (`lint`), `tests/second/reading` (`tokens.py`), rows `drivers_*`,
`crates/*/specs` and `crates/NAME/src`; and there aren't `m_fixed/src/nothing.rt`, `m_fixed/src/table.rt` (`apply`, `applies`), m_lint (`lynt`),
`tests/second/reading` (`tokenz.py`).

```
tests/no_such_file.sh
```
PAGE
"$ROOT/tests/crates.py" --cited "$PWD/page.md" | sed 's/.*page\.md: //'
# The table has each crate of crates.txt once, in its order, with what it is for.
sed -n 's/^\([a-z][a-z0-9_]*\)[^:#]*:.*/\1/p' "$ROOT/crates.txt" >order
"$ROOT/tests/crates.py" --table | sed -n 's/^| \([a-z][a-z0-9_]*\) | [^|].*/\1/p' | cmp - order && echo "the table has all crates"
# One crate: what uses it, by crates.txt.
"$ROOT/tests/crates.py" m_large | grep '^used by: ' | tr ' ' '\n' | grep -c 'code_answers\|large_validity'
"$ROOT/tests/crates.py" no_such_crate 2>&1
"$ROOT/tests/crates.py" >/dev/null 2>usage; echo "$?"
