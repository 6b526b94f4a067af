"""The requests that the server answers, and its capabilities."""
from __future__ import annotations

from collections.abc import Callable
from typing import Any

from . import actions, completion, formatting, hover, inlays, navigation, outline, semantic
from .context import Context, text_of

__all__ = ["CAPABILITIES", "REQUESTS", "Context", "text_of"]

CAPABILITIES: dict[str, Any] = {
    "positionEncoding": "utf-16",
    "textDocumentSync": {"openClose": True, "change": 2, "save": {"includeText": False}},
    "hoverProvider": True,
    "completionProvider": {"resolveProvider": False},
    "declarationProvider": True,
    "definitionProvider": True,
    "implementationProvider": True,
    "referencesProvider": True,
    "documentHighlightProvider": True,
    "renameProvider": {"prepareProvider": True},
    "documentSymbolProvider": True,
    "workspaceSymbolProvider": True,
    "foldingRangeProvider": True,
    "codeActionProvider": {"codeActionKinds": ["quickfix"]},
    "inlayHintProvider": True,
    "documentFormattingProvider": True,
    "documentRangeFormattingProvider": True,
    "semanticTokensProvider": {"legend": semantic.LEGEND, "full": True, "range": True},
    "workspace": {"workspaceFolders": {"supported": True, "changeNotifications": True}},
}

REQUESTS: dict[str, Callable[[Context, dict[str, Any]], Any]] = {
    "textDocument/hover": hover.hover,
    "textDocument/completion": completion.completion,
    "textDocument/declaration": navigation.declaration,
    "textDocument/definition": navigation.definition,
    "textDocument/implementation": navigation.implementation,
    "textDocument/references": navigation.references,
    "textDocument/documentHighlight": navigation.highlights,
    "textDocument/prepareRename": navigation.prepare_rename,
    "textDocument/rename": navigation.rename,
    "textDocument/documentSymbol": outline.document_symbols,
    "workspace/symbol": outline.workspace_symbols,
    "textDocument/foldingRange": outline.folding_ranges,
    "textDocument/codeAction": actions.code_actions,
    "textDocument/inlayHint": inlays.inlay_hints,
    "textDocument/formatting": formatting.formatting,
    "textDocument/rangeFormatting": formatting.range_formatting,
    "textDocument/semanticTokens/full": semantic.full,
    "textDocument/semanticTokens/range": semantic.of_range,
}
