# needs the program
# What the program reports of saved files: its fault, findings of lint, and the values of a household, which are not shown with a text that was changed since.
python3 -B "$ROOT/tests/lsp/saved.py" "$ROOT"
