# The language server and a recorded client: the protocol, diagnostics, hovers, references, renaming, completion and fixes; lists that are removed and added.
python3 -B "$ROOT/tests/lsp/recorded.py" "$ROOT"
