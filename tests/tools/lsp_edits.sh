# Random edits of a small base, and the answers compared with those of a server that was started on the same texts. (10,000: tests/lsp/edits.py ROOT 10000 1)
python3 -B "$ROOT/tests/lsp/edits.py" "$ROOT" "${EDITS:-600}" "${SEED:-1}"
