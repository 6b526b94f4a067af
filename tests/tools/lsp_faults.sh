# The faults that the language server reports of names and loops, compared with those of the reference implementation, of rule files that are changed at random.
python3 -B "$ROOT/tests/lsp/faults.py" "$ROOT" "${FAULTS:-700}" "${SEED:-4}"
