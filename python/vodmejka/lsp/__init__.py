"""The language server of rule files and drivers: `vodmejka lsp` speaks the Language Server Protocol over its standard input and output."""
