"""What is asked of open documents: their tokens, trees, folds and selections."""

from typing import Iterator, Tuple

from tests.program.grammar_files import LISTS
from tests.program.messages import did_open, on_line, published, result, selected_at
from tests.program.transcripts.talks import served

TOKENS = {
    "tokens over two lines": r"""
> {"jsonrpc":"2.0","method":"textDocument/didOpen","params":{"textDocument":{"uri":"a:x","languageId":"g","version":1,"text":"1 +\r\n2"}}}
< {"jsonrpc":"2.0","method":"textDocument/publishDiagnostics","params":{"diagnostics":[],"uri":"a:x","version":1}}
> {"jsonrpc":"2.0","id":2,"method":"lr/tokens","params":{"textDocument":{"uri":"a:x"}}}
< {"id":2,"jsonrpc":"2.0","result":[["NUM",0,0,0,1],["WS",0,1,0,2],["PLUS",0,2,0,3],["WS",0,3,1,0],["NUM",1,0,1,1]]}
""",
    "the empty text has none": r"""
> {"jsonrpc":"2.0","method":"textDocument/didOpen","params":{"textDocument":{"uri":"a:x","languageId":"g","version":1,"text":""}}}
< {"jsonrpc":"2.0","method":"textDocument/publishDiagnostics","params":{"diagnostics":[{"message":"unexpected end; expected NUM, LP","range":{"end":{"character":0,"line":0},"start":{"character":0,"line":0}},"severity":1,"source":"lrls"}],"uri":"a:x","version":1}}
> {"jsonrpc":"2.0","id":2,"method":"lr/tokens","params":{"textDocument":{"uri":"a:x"}}}
< {"id":2,"jsonrpc":"2.0","result":[]}
""",
}

TOKENS_OF_LISTS = {
    "a token may end within a line end": r"""
> {"jsonrpc":"2.0","method":"textDocument/didOpen","params":{"textDocument":{"uri":"a:x","languageId":"g","version":1,"text":"\r\n"}}}
< {"jsonrpc":"2.0","method":"textDocument/publishDiagnostics","params":{"diagnostics":[{"message":"unexpected invalid; expected STR, W, end","range":{"end":{"character":0,"line":0},"start":{"character":0,"line":0}},"severity":1,"source":"lrls"}],"uri":"a:x","version":1}}
> {"jsonrpc":"2.0","id":2,"method":"lr/tokens","params":{"textDocument":{"uri":"a:x"}}}
< {"id":2,"jsonrpc":"2.0","result":[["invalid",0,0,0,0],["invalid",0,0,1,0]]}
""",
}

TREES = {
    "a text with a fault has no tree": r"""
> {"jsonrpc":"2.0","method":"textDocument/didOpen","params":{"textDocument":{"uri":"a:x","languageId":"g","version":1,"text":"(1"}}}
< {"jsonrpc":"2.0","method":"textDocument/publishDiagnostics","params":{"diagnostics":[{"message":"unexpected end; expected PLUS, RP","range":{"end":{"character":2,"line":0},"start":{"character":2,"line":0}},"severity":1,"source":"lrls"}],"uri":"a:x","version":1}}
> {"jsonrpc":"2.0","id":2,"method":"lr/tree","params":{"textDocument":{"uri":"a:x"}}}
< {"id":2,"jsonrpc":"2.0","result":null}
""",
}

TREES_OF_LISTS = {
    "a node of an empty production": r"""
> {"jsonrpc":"2.0","method":"textDocument/didOpen","params":{"textDocument":{"uri":"a:x","languageId":"g","version":1,"text":""}}}
< {"jsonrpc":"2.0","method":"textDocument/publishDiagnostics","params":{"diagnostics":[],"uri":"a:x","version":1}}
> {"jsonrpc":"2.0","id":2,"method":"lr/tree","params":{"textDocument":{"uri":"a:x"}}}
< {"id":2,"jsonrpc":"2.0","result":"(L)"}
""",
}

FOLDS = {
    "parentheses over three lines": r"""
> {"jsonrpc":"2.0","method":"textDocument/didOpen","params":{"textDocument":{"uri":"a:x","languageId":"g","version":1,"text":"(\n1\n)"}}}
< {"jsonrpc":"2.0","method":"textDocument/publishDiagnostics","params":{"diagnostics":[],"uri":"a:x","version":1}}
> {"jsonrpc":"2.0","id":2,"method":"textDocument/foldingRange","params":{"textDocument":{"uri":"a:x"}}}
< {"id":2,"jsonrpc":"2.0","result":[{"endLine":2,"startLine":0}]}
""",
    "a text with a fault has the folds of its settled nodes, as the edit leaves them": r"""
> {"jsonrpc":"2.0","method":"textDocument/didOpen","params":{"textDocument":{"uri":"a:x","languageId":"g","version":1,"text":"((\n1\n)"}}}
< {"jsonrpc":"2.0","method":"textDocument/publishDiagnostics","params":{"diagnostics":[{"message":"unexpected end; expected PLUS, RP","range":{"end":{"character":1,"line":2},"start":{"character":1,"line":2}},"severity":1,"source":"lrls"}],"uri":"a:x","version":1}}
> {"jsonrpc":"2.0","id":2,"method":"textDocument/foldingRange","params":{"textDocument":{"uri":"a:x"}}}
< {"id":2,"jsonrpc":"2.0","result":[]}
> {"jsonrpc":"2.0","method":"textDocument/didChange","params":{"textDocument":{"uri":"a:x","version":2},"contentChanges":[{"range":{"start":{"line":2,"character":1},"end":{"line":2,"character":1}},"text":"+"}]}}
< {"jsonrpc":"2.0","method":"textDocument/publishDiagnostics","params":{"diagnostics":[{"message":"unexpected end; expected NUM, LP","range":{"end":{"character":2,"line":2},"start":{"character":2,"line":2}},"severity":1,"source":"lrls"}],"uri":"a:x","version":2}}
> {"jsonrpc":"2.0","id":2,"method":"textDocument/foldingRange","params":{"textDocument":{"uri":"a:x"}}}
< {"id":2,"jsonrpc":"2.0","result":[{"endLine":2,"startLine":0}]}
""",
    "nothing can be folded on one line": r"""
> {"jsonrpc":"2.0","method":"textDocument/didOpen","params":{"textDocument":{"uri":"a:x","languageId":"g","version":1,"text":"(1)"}}}
< {"jsonrpc":"2.0","method":"textDocument/publishDiagnostics","params":{"diagnostics":[],"uri":"a:x","version":1}}
> {"jsonrpc":"2.0","id":2,"method":"textDocument/foldingRange","params":{"textDocument":{"uri":"a:x"}}}
< {"id":2,"jsonrpc":"2.0","result":[]}
""",
}

SELECTIONS = {
    "a number in a sum": r"""
> {"jsonrpc":"2.0","method":"textDocument/didOpen","params":{"textDocument":{"uri":"a:x","languageId":"g","version":1,"text":"1+2"}}}
< {"jsonrpc":"2.0","method":"textDocument/publishDiagnostics","params":{"diagnostics":[],"uri":"a:x","version":1}}
> {"jsonrpc":"2.0","id":2,"method":"textDocument/selectionRange","params":{"textDocument":{"uri":"a:x"},"positions":[{"line":0,"character":0}]}}
< {"id":2,"jsonrpc":"2.0","result":[{"parent":{"range":{"end":{"character":3,"line":0},"start":{"character":0,"line":0}}},"range":{"end":{"character":1,"line":0},"start":{"character":0,"line":0}}}]}
""",
    "after the last token the whole text is selected": r"""
> {"jsonrpc":"2.0","method":"textDocument/didOpen","params":{"textDocument":{"uri":"a:x","languageId":"g","version":1,"text":"1+2"}}}
< {"jsonrpc":"2.0","method":"textDocument/publishDiagnostics","params":{"diagnostics":[],"uri":"a:x","version":1}}
> {"jsonrpc":"2.0","id":2,"method":"textDocument/selectionRange","params":{"textDocument":{"uri":"a:x"},"positions":[{"line":0,"character":3}]}}
< {"id":2,"jsonrpc":"2.0","result":[{"range":{"end":{"character":3,"line":0},"start":{"character":0,"line":0}}}]}
""",
    "a number in parentheses": r"""
> {"jsonrpc":"2.0","method":"textDocument/didOpen","params":{"textDocument":{"uri":"a:x","languageId":"g","version":1,"text":"(1)"}}}
< {"jsonrpc":"2.0","method":"textDocument/publishDiagnostics","params":{"diagnostics":[],"uri":"a:x","version":1}}
> {"jsonrpc":"2.0","id":2,"method":"textDocument/selectionRange","params":{"textDocument":{"uri":"a:x"},"positions":[{"line":0,"character":1}]}}
< {"id":2,"jsonrpc":"2.0","result":[{"parent":{"range":{"end":{"character":3,"line":0},"start":{"character":0,"line":0}}},"range":{"end":{"character":2,"line":0},"start":{"character":1,"line":0}}}]}
""",
    "a settled node, and then the whole text": r"""
> {"jsonrpc":"2.0","method":"textDocument/didOpen","params":{"textDocument":{"uri":"a:x","languageId":"g","version":1,"text":"1+2+"}}}
< {"jsonrpc":"2.0","method":"textDocument/publishDiagnostics","params":{"diagnostics":[{"message":"unexpected end; expected NUM, LP","range":{"end":{"character":4,"line":0},"start":{"character":4,"line":0}},"severity":1,"source":"lrls"}],"uri":"a:x","version":1}}
> {"jsonrpc":"2.0","id":2,"method":"textDocument/selectionRange","params":{"textDocument":{"uri":"a:x"},"positions":[{"line":0,"character":2}]}}
< {"id":2,"jsonrpc":"2.0","result":[{"parent":{"parent":{"range":{"end":{"character":4,"line":0},"start":{"character":0,"line":0}}},"range":{"end":{"character":3,"line":0},"start":{"character":0,"line":0}}},"range":{"end":{"character":3,"line":0},"start":{"character":2,"line":0}}}]}
""",
    "an answer for each position, in their order, and none for none": r"""
> {"jsonrpc":"2.0","method":"textDocument/didOpen","params":{"textDocument":{"uri":"a:x","languageId":"g","version":1,"text":"1+2"}}}
< {"jsonrpc":"2.0","method":"textDocument/publishDiagnostics","params":{"diagnostics":[],"uri":"a:x","version":1}}
> {"jsonrpc":"2.0","id":2,"method":"textDocument/selectionRange","params":{"textDocument":{"uri":"a:x"},"positions":[{"line":0,"character":3},{"line":0,"character":0}]}}
< {"id":2,"jsonrpc":"2.0","result":[{"range":{"end":{"character":3,"line":0},"start":{"character":0,"line":0}}},{"parent":{"range":{"end":{"character":3,"line":0},"start":{"character":0,"line":0}}},"range":{"end":{"character":1,"line":0},"start":{"character":0,"line":0}}}]}
> {"jsonrpc":"2.0","id":2,"method":"textDocument/selectionRange","params":{"textDocument":{"uri":"a:x"},"positions":[]}}
< {"id":2,"jsonrpc":"2.0","result":[]}
""",
}

REFUSALS = {
    "documents that were never opened": r"""
> {"jsonrpc":"2.0","id":2,"method":"lr/text","params":{"textDocument":{"uri":"a:x"}}}
< {"error":{"code":-32602,"message":"document not open"},"id":2,"jsonrpc":"2.0"}
> {"jsonrpc":"2.0","id":2,"method":"lr/tokens","params":{"textDocument":{"uri":"a:x"}}}
< {"error":{"code":-32602,"message":"document not open"},"id":2,"jsonrpc":"2.0"}
> {"jsonrpc":"2.0","id":2,"method":"lr/tree","params":{"textDocument":{"uri":"a:x"}}}
< {"error":{"code":-32602,"message":"document not open"},"id":2,"jsonrpc":"2.0"}
> {"jsonrpc":"2.0","id":2,"method":"textDocument/foldingRange","params":{"textDocument":{"uri":"a:x"}}}
< {"error":{"code":-32602,"message":"document not open"},"id":2,"jsonrpc":"2.0"}
> {"jsonrpc":"2.0","id":2,"method":"textDocument/selectionRange","params":{"textDocument":{"uri":"a:x"},"positions":[{"line":0,"character":0}]}}
< {"error":{"code":-32602,"message":"document not open"},"id":2,"jsonrpc":"2.0"}
> {"jsonrpc":"2.0","id":2,"method":"textDocument/selectionRange","params":{"textDocument":{"uri":"a:x"},"positions":[]}}
< {"error":{"code":-32602,"message":"document not open"},"id":2,"jsonrpc":"2.0"}
> {"jsonrpc":"2.0","method":"textDocument/didOpen","params":{"textDocument":{"uri":"a:y","languageId":"g","version":1,"text":"1"}}}
< {"jsonrpc":"2.0","method":"textDocument/publishDiagnostics","params":{"diagnostics":[],"uri":"a:y","version":1}}
> {"jsonrpc":"2.0","id":2,"method":"textDocument/foldingRange","params":{"textDocument":{"uri":"a:x"}}}
< {"error":{"code":-32602,"message":"document not open"},"id":2,"jsonrpc":"2.0"}
> {"jsonrpc":"2.0","id":2,"method":"textDocument/selectionRange","params":{"textDocument":{"uri":"a:x"},"positions":[{"line":0,"character":0}]}}
< {"error":{"code":-32602,"message":"document not open"},"id":2,"jsonrpc":"2.0"}
""",
    "parameters that don't fit, of a document that is open": r"""
> {"jsonrpc":"2.0","method":"textDocument/didOpen","params":{"textDocument":{"uri":"a:x","languageId":"g","version":1,"text":"1"}}}
< {"jsonrpc":"2.0","method":"textDocument/publishDiagnostics","params":{"diagnostics":[],"uri":"a:x","version":1}}
> {"jsonrpc":"2.0","id":2,"method":"textDocument/selectionRange","params":{"textDocument":{"uri":"a:x"},"positions":[{"character":0}]}}
< {"error":{"code":-32602,"message":"invalid params"},"id":2,"jsonrpc":"2.0"}
> {"jsonrpc":"2.0","id":2,"method":"textDocument/selectionRange","params":{"textDocument":{"uri":"a:x"},"positions":[{"line":0}]}}
< {"error":{"code":-32602,"message":"invalid params"},"id":2,"jsonrpc":"2.0"}
> {"jsonrpc":"2.0","id":2,"method":"textDocument/selectionRange","params":{"textDocument":{"uri":"a:x"},"positions":{"line":0,"character":0}}}
< {"error":{"code":-32602,"message":"invalid params"},"id":2,"jsonrpc":"2.0"}
> {"jsonrpc":"2.0","id":2,"method":"textDocument/selectionRange","params":{"textDocument":{"uri":"a:x"},"positions":[{"line":0,"character":0.5}]}}
< {"error":{"code":-32602,"message":"invalid params"},"id":2,"jsonrpc":"2.0"}
> {"jsonrpc":"2.0","id":2,"method":"textDocument/selectionRange","params":{"textDocument":{"uri":"a:x"},"positions":[{"line":2147483648,"character":0}]}}
< {"error":{"code":-32602,"message":"invalid params"},"id":2,"jsonrpc":"2.0"}
> {"jsonrpc":"2.0","id":2,"method":"textDocument/selectionRange","params":{"textDocument":{"uri":"a:x"},"positions":[{"line":0,"character":-1}]}}
< {"error":{"code":-32602,"message":"invalid params"},"id":2,"jsonrpc":"2.0"}
> {"jsonrpc":"2.0","id":2,"method":"textDocument/selectionRange","params":{"textDocument":{"uri":"a:x"},"positions":[{"line":0,"character":0},5]}}
< {"error":{"code":-32602,"message":"invalid params"},"id":2,"jsonrpc":"2.0"}
> {"jsonrpc":"2.0","id":2,"method":"textDocument/selectionRange","params":{"textDocument":{"uri":"a:x"}}}
< {"error":{"code":-32602,"message":"invalid params"},"id":2,"jsonrpc":"2.0"}
> {"jsonrpc":"2.0","id":2,"method":"textDocument/selectionRange","params":{"positions":[]}}
< {"error":{"code":-32602,"message":"invalid params"},"id":2,"jsonrpc":"2.0"}
> {"jsonrpc":"2.0","id":2,"method":"textDocument/foldingRange","params":{"textDocument":"a:x"}}
< {"error":{"code":-32602,"message":"invalid params"},"id":2,"jsonrpc":"2.0"}
> {"jsonrpc":"2.0","id":2,"method":"textDocument/foldingRange","params":{"textDocument":{"uri":5}}}
< {"error":{"code":-32602,"message":"invalid params"},"id":2,"jsonrpc":"2.0"}
> {"jsonrpc":"2.0","id":2,"method":"textDocument/selectionRange","params":{"textDocument":{"uri":"a:x"},"positions":[{"line":2147483647,"character":2147483647}]}}
< {"id":2,"jsonrpc":"2.0","result":[{"range":{"end":{"character":1,"line":0},"start":{"character":0,"line":0}}}]}
""",
}


def nested_ranges() -> str:
    """The 32 ranges that are returned for the middle of a number in 40 pairs of parentheses: the 31
    inner ones, and the whole."""
    reported = '{"range":%s}' % on_line(0, 81)
    for inner in range(10, 41):
        reported = '{"parent":%s,"range":%s}' % (reported, on_line(inner, 81 - inner))
    return reported


def nested() -> str:
    """A transcript in which these ranges are asked for."""
    text = "(" * 40 + "1" + ")" * 40
    opening = did_open('{"textDocument":{"uri":"a:x","version":1,"text":"%s"}}' % text)
    question = selected_at('[{"line":0,"character":40}]', 2)
    return f"> {opening}\n< {published(1)}\n> {question}\n< {result(2, '[%s]' % nested_ranges())}\n"


def sessions() -> Iterator[Tuple[str, str, str, int]]:
    yield from served("tokens are listed", TOKENS)
    yield from served("tokens are listed", TOKENS_OF_LISTS, LISTS)
    yield from served("trees are written", TREES)
    yield from served("trees are written", TREES_OF_LISTS, LISTS)
    yield from served("folds are listed", FOLDS)
    yield from served("selections are returned", SELECTIONS)
    yield from served(
        "no 33rd range is returned", {"a number in 40 pairs of parentheses": nested()}
    )
    yield from served("requests are refused", REFUSALS)
