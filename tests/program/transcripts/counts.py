"""What is reported of the last edit of a document, and of how much there is of it. The store holds
the nodes that were built, as long as they are few.
"""

from typing import Iterator, Tuple

from tests.program.grammar_files import LISTS
from tests.program.transcripts.talks import served

EDITS = {
    "opening makes all there is, as edit 0; a message without changes is no edit": r"""
> {"jsonrpc":"2.0","method":"textDocument/didOpen","params":{"textDocument":{"uri":"a:x","languageId":"g","version":1,"text":"1+2"}}}
< {"jsonrpc":"2.0","method":"textDocument/publishDiagnostics","params":{"diagnostics":[],"uri":"a:x","version":1}}
> {"jsonrpc":"2.0","id":2,"method":"lr/stats","params":{"textDocument":{"uri":"a:x"}}}
< {"id":2,"jsonrpc":"2.0","result":{"branches":4,"built":4,"edit":0,"nodes":4,"scanned":3,"tokens":3}}
> {"jsonrpc":"2.0","method":"textDocument/didChange","params":{"textDocument":{"uri":"a:x","version":2},"contentChanges":[]}}
< {"jsonrpc":"2.0","method":"textDocument/publishDiagnostics","params":{"diagnostics":[],"uri":"a:x","version":2}}
> {"jsonrpc":"2.0","id":2,"method":"lr/stats","params":{"textDocument":{"uri":"a:x"}}}
< {"id":2,"jsonrpc":"2.0","result":{"branches":4,"built":4,"edit":0,"nodes":4,"scanned":3,"tokens":3}}
""",
    "an item at the end is a tree of its own, and a sum over the others": r"""
> {"jsonrpc":"2.0","method":"textDocument/didOpen","params":{"textDocument":{"uri":"a:x","languageId":"g","version":1,"text":"1+2+3"}}}
< {"jsonrpc":"2.0","method":"textDocument/publishDiagnostics","params":{"diagnostics":[],"uri":"a:x","version":1}}
> {"jsonrpc":"2.0","method":"textDocument/didChange","params":{"textDocument":{"uri":"a:x","version":2},"contentChanges":[{"range":{"start":{"line":0,"character":5},"end":{"line":0,"character":5}},"text":"+4"}]}}
< {"jsonrpc":"2.0","method":"textDocument/publishDiagnostics","params":{"diagnostics":[],"uri":"a:x","version":2}}
> {"jsonrpc":"2.0","id":2,"method":"lr/stats","params":{"textDocument":{"uri":"a:x"}}}
< {"id":2,"jsonrpc":"2.0","result":{"branches":8,"built":4,"edit":1,"nodes":10,"scanned":3,"tokens":7}}
""",
    "the last token had read the end of the text": r"""
> {"jsonrpc":"2.0","method":"textDocument/didOpen","params":{"textDocument":{"uri":"a:x","languageId":"g","version":1,"text":"1+2+3"}}}
< {"jsonrpc":"2.0","method":"textDocument/publishDiagnostics","params":{"diagnostics":[],"uri":"a:x","version":1}}
> {"jsonrpc":"2.0","method":"textDocument/didChange","params":{"textDocument":{"uri":"a:x","version":2},"contentChanges":[{"range":{"start":{"line":0,"character":5},"end":{"line":0,"character":5}},"text":"4"}]}}
< {"jsonrpc":"2.0","method":"textDocument/publishDiagnostics","params":{"diagnostics":[],"uri":"a:x","version":2}}
> {"jsonrpc":"2.0","id":2,"method":"lr/stats","params":{"textDocument":{"uri":"a:x"}}}
< {"id":2,"jsonrpc":"2.0","result":{"branches":6,"built":0,"edit":1,"nodes":6,"scanned":1,"tokens":5}}
""",
    "a token of another text and the same kind changes no tree": r"""
> {"jsonrpc":"2.0","method":"textDocument/didOpen","params":{"textDocument":{"uri":"a:x","languageId":"g","version":1,"text":"1+2+3"}}}
< {"jsonrpc":"2.0","method":"textDocument/publishDiagnostics","params":{"diagnostics":[],"uri":"a:x","version":1}}
> {"jsonrpc":"2.0","method":"textDocument/didChange","params":{"textDocument":{"uri":"a:x","version":2},"contentChanges":[{"range":{"start":{"line":0,"character":0},"end":{"line":0,"character":0}},"text":"9"}]}}
< {"jsonrpc":"2.0","method":"textDocument/publishDiagnostics","params":{"diagnostics":[],"uri":"a:x","version":2}}
> {"jsonrpc":"2.0","id":2,"method":"lr/stats","params":{"textDocument":{"uri":"a:x"}}}
< {"id":2,"jsonrpc":"2.0","result":{"branches":6,"built":0,"edit":1,"nodes":6,"scanned":1,"tokens":5}}
""",
    "before a fault there are the settled nodes alone": r"""
> {"jsonrpc":"2.0","method":"textDocument/didOpen","params":{"textDocument":{"uri":"a:x","languageId":"g","version":1,"text":"1+2+3"}}}
< {"jsonrpc":"2.0","method":"textDocument/publishDiagnostics","params":{"diagnostics":[],"uri":"a:x","version":1}}
> {"jsonrpc":"2.0","method":"textDocument/didChange","params":{"textDocument":{"uri":"a:x","version":2},"contentChanges":[{"range":{"start":{"line":0,"character":4},"end":{"line":0,"character":5}},"text":""}]}}
< {"jsonrpc":"2.0","method":"textDocument/publishDiagnostics","params":{"diagnostics":[{"message":"unexpected end; expected NUM, LP","range":{"end":{"character":4,"line":0},"start":{"character":4,"line":0}},"severity":1,"source":"lrls"}],"uri":"a:x","version":2}}
> {"jsonrpc":"2.0","id":2,"method":"lr/stats","params":{"textDocument":{"uri":"a:x"}}}
< {"id":2,"jsonrpc":"2.0","result":{"branches":4,"built":0,"edit":1,"nodes":6,"scanned":1,"tokens":4}}
""",
    "none is settled after an open parenthesis": r"""
> {"jsonrpc":"2.0","method":"textDocument/didOpen","params":{"textDocument":{"uri":"a:x","languageId":"g","version":1,"text":"(1)"}}}
< {"jsonrpc":"2.0","method":"textDocument/publishDiagnostics","params":{"diagnostics":[],"uri":"a:x","version":1}}
> {"jsonrpc":"2.0","method":"textDocument/didChange","params":{"textDocument":{"uri":"a:x","version":2},"contentChanges":[{"range":{"start":{"line":0,"character":2},"end":{"line":0,"character":3}},"text":""}]}}
< {"jsonrpc":"2.0","method":"textDocument/publishDiagnostics","params":{"diagnostics":[{"message":"unexpected end; expected PLUS, RP","range":{"end":{"character":2,"line":0},"start":{"character":2,"line":0}},"severity":1,"source":"lrls"}],"uri":"a:x","version":2}}
> {"jsonrpc":"2.0","id":2,"method":"lr/stats","params":{"textDocument":{"uri":"a:x"}}}
< {"id":2,"jsonrpc":"2.0","result":{"branches":0,"built":0,"edit":1,"nodes":4,"scanned":1,"tokens":2}}
""",
    "each change of a message is an edit": r"""
> {"jsonrpc":"2.0","method":"textDocument/didOpen","params":{"textDocument":{"uri":"a:x","languageId":"g","version":1,"text":""}}}
< {"jsonrpc":"2.0","method":"textDocument/publishDiagnostics","params":{"diagnostics":[{"message":"unexpected end; expected NUM, LP","range":{"end":{"character":0,"line":0},"start":{"character":0,"line":0}},"severity":1,"source":"lrls"}],"uri":"a:x","version":1}}
> {"jsonrpc":"2.0","method":"textDocument/didChange","params":{"textDocument":{"uri":"a:x","version":2},"contentChanges":[{"range":{"start":{"line":0,"character":0},"end":{"line":0,"character":0}},"text":"12"},{"range":{"start":{"line":0,"character":0},"end":{"line":0,"character":1}},"text":""}]}}
< {"jsonrpc":"2.0","method":"textDocument/publishDiagnostics","params":{"diagnostics":[],"uri":"a:x","version":2}}
> {"jsonrpc":"2.0","id":2,"method":"lr/stats","params":{"textDocument":{"uri":"a:x"}}}
< {"id":2,"jsonrpc":"2.0","result":{"branches":2,"built":0,"edit":2,"nodes":2,"scanned":1,"tokens":1}}
""",
    "nothing is reported of a document that isn't open, or is lost, nor where none is named": r"""
> {"jsonrpc":"2.0","id":2,"method":"lr/stats","params":{"textDocument":{"uri":"a:x"}}}
< {"error":{"code":-32602,"message":"document not open"},"id":2,"jsonrpc":"2.0"}
> {"jsonrpc":"2.0","method":"textDocument/didOpen","params":{"textDocument":{"uri":"a:x","languageId":"g","version":1,"text":"1"}}}
< {"jsonrpc":"2.0","method":"textDocument/publishDiagnostics","params":{"diagnostics":[],"uri":"a:x","version":1}}
> {"jsonrpc":"2.0","method":"textDocument/didChange","params":{"textDocument":{"uri":"a:x","version":2},"contentChanges":5}}
< {"jsonrpc":"2.0","method":"textDocument/publishDiagnostics","params":{"diagnostics":[],"uri":"a:x"}}
< {"jsonrpc":"2.0","method":"window/logMessage","params":{"message":"document lost: malformed change","type":1}}
> {"jsonrpc":"2.0","id":2,"method":"lr/stats","params":{"textDocument":{"uri":"a:x"}}}
< {"error":{"code":-32803,"message":"document lost: malformed change"},"id":2,"jsonrpc":"2.0"}
> {"jsonrpc":"2.0","id":2,"method":"lr/stats","params":{"textDocument":{}}}
< {"error":{"code":-32602,"message":"invalid params"},"id":2,"jsonrpc":"2.0"}
""",
}

EDITS_OF_LISTS = {
    "it makes one token of all, or none": r"""
> {"jsonrpc":"2.0","method":"textDocument/didOpen","params":{"textDocument":{"uri":"a:x","languageId":"g","version":1,"text":"ab cd"}}}
< {"jsonrpc":"2.0","method":"textDocument/publishDiagnostics","params":{"diagnostics":[],"uri":"a:x","version":1}}
> {"jsonrpc":"2.0","method":"textDocument/didChange","params":{"textDocument":{"uri":"a:x","version":2},"contentChanges":[{"range":{"start":{"line":0,"character":0},"end":{"line":0,"character":0}},"text":"\""}]}}
< {"jsonrpc":"2.0","method":"textDocument/publishDiagnostics","params":{"diagnostics":[{"message":"unexpected invalid; expected STR, W, end","range":{"end":{"character":1,"line":0},"start":{"character":0,"line":0}},"severity":1,"source":"lrls"}],"uri":"a:x","version":2}}
> {"jsonrpc":"2.0","id":2,"method":"lr/stats","params":{"textDocument":{"uri":"a:x"}}}
< {"id":2,"jsonrpc":"2.0","result":{"branches":0,"built":0,"edit":1,"nodes":5,"scanned":1,"tokens":4}}
> {"jsonrpc":"2.0","method":"textDocument/didChange","params":{"textDocument":{"uri":"a:x","version":3},"contentChanges":[{"range":{"start":{"line":0,"character":6},"end":{"line":0,"character":6}},"text":"\""}]}}
< {"jsonrpc":"2.0","method":"textDocument/publishDiagnostics","params":{"diagnostics":[],"uri":"a:x","version":3}}
> {"jsonrpc":"2.0","id":2,"method":"lr/stats","params":{"textDocument":{"uri":"a:x"}}}
< {"id":2,"jsonrpc":"2.0","result":{"branches":3,"built":3,"edit":2,"nodes":8,"scanned":1,"tokens":1}}
> {"jsonrpc":"2.0","method":"textDocument/didChange","params":{"textDocument":{"uri":"a:x","version":4},"contentChanges":[{"range":{"start":{"line":0,"character":6},"end":{"line":0,"character":7}},"text":""}]}}
< {"jsonrpc":"2.0","method":"textDocument/publishDiagnostics","params":{"diagnostics":[{"message":"unexpected invalid; expected STR, W, end","range":{"end":{"character":1,"line":0},"start":{"character":0,"line":0}},"severity":1,"source":"lrls"}],"uri":"a:x","version":4}}
> {"jsonrpc":"2.0","id":2,"method":"lr/stats","params":{"textDocument":{"uri":"a:x"}}}
< {"id":2,"jsonrpc":"2.0","result":{"branches":0,"built":0,"edit":3,"nodes":8,"scanned":4,"tokens":4}}
""",
}


def sessions() -> Iterator[Tuple[str, str, str, int]]:
    yield from served("the last edit is counted", EDITS)
    yield from served("a quotation mark is counted", EDITS_OF_LISTS, LISTS)
