"""The unit that positions count, chosen by the client. U+1F600 counts four units in UTF-8, two in
UTF-16, one in UTF-32."""

from typing import Iterator, Tuple

from tests.program.grammar_files import LISTS
from tests.program.transcripts.talks import talked

UNITS = {
    # A second `initialize` chooses nothing, and a document that is replaced keeps the unit.
    "UTF-8": r"""
> {"jsonrpc":"2.0","id":1,"method":"initialize","params":{"capabilities":{"general":{"positionEncodings":["utf-8"]}}}}
< {"id":1,"jsonrpc":"2.0","result":{"capabilities":{"foldingRangeProvider":true,"positionEncoding":"utf-8","selectionRangeProvider":true,"textDocumentSync":{"change":2,"openClose":true}}}}
> {"jsonrpc":"2.0","method":"textDocument/didOpen","params":{"textDocument":{"uri":"a:x","languageId":"g","version":1,"text":"😀1"}}}
< {"jsonrpc":"2.0","method":"textDocument/publishDiagnostics","params":{"diagnostics":[{"message":"unexpected invalid; expected NUM, LP","range":{"end":{"character":4,"line":0},"start":{"character":0,"line":0}},"severity":1,"source":"lrls"}],"uri":"a:x","version":1}}
> {"jsonrpc":"2.0","id":2,"method":"lr/tokens","params":{"textDocument":{"uri":"a:x"}}}
< {"id":2,"jsonrpc":"2.0","result":[["invalid",0,0,0,4],["NUM",0,4,0,5]]}
> {"jsonrpc":"2.0","method":"textDocument/didChange","params":{"textDocument":{"uri":"a:x","version":2},"contentChanges":[{"range":{"start":{"line":0,"character":3},"end":{"line":0,"character":3}},"text":"5"}]}}
< {"jsonrpc":"2.0","method":"textDocument/publishDiagnostics","params":{"diagnostics":[{"message":"unexpected invalid; expected PLUS, end","range":{"end":{"character":5,"line":0},"start":{"character":1,"line":0}},"severity":1,"source":"lrls"}],"uri":"a:x","version":2}}
> {"jsonrpc":"2.0","id":1,"method":"initialize","params":{"capabilities":{"general":{"positionEncodings":["utf-32"]}}}}
< {"error":{"code":-32600,"message":"invalid request"},"id":1,"jsonrpc":"2.0"}
> {"jsonrpc":"2.0","id":2,"method":"lr/tokens","params":{"textDocument":{"uri":"a:x"}}}
< {"id":2,"jsonrpc":"2.0","result":[["NUM",0,0,0,1],["invalid",0,1,0,5],["NUM",0,5,0,6]]}
> {"jsonrpc":"2.0","method":"textDocument/didOpen","params":{"textDocument":{"uri":"a:x","languageId":"g","version":3,"text":"😀1"}}}
< {"jsonrpc":"2.0","method":"textDocument/publishDiagnostics","params":{"diagnostics":[{"message":"unexpected invalid; expected NUM, LP","range":{"end":{"character":4,"line":0},"start":{"character":0,"line":0}},"severity":1,"source":"lrls"}],"uri":"a:x","version":3}}
> {"jsonrpc":"2.0","id":2,"method":"lr/tokens","params":{"textDocument":{"uri":"a:x"}}}
< {"id":2,"jsonrpc":"2.0","result":[["invalid",0,0,0,4],["NUM",0,4,0,5]]}
""",
    "UTF-32, the first unit that the client names and that there is": r"""
> {"jsonrpc":"2.0","id":1,"method":"initialize","params":{"capabilities":{"general":{"positionEncodings":["utf-7","utf-32","utf-8"]}}}}
< {"id":1,"jsonrpc":"2.0","result":{"capabilities":{"foldingRangeProvider":true,"positionEncoding":"utf-32","selectionRangeProvider":true,"textDocumentSync":{"change":2,"openClose":true}}}}
> {"jsonrpc":"2.0","method":"textDocument/didOpen","params":{"textDocument":{"uri":"a:x","languageId":"g","version":1,"text":"😀1"}}}
< {"jsonrpc":"2.0","method":"textDocument/publishDiagnostics","params":{"diagnostics":[{"message":"unexpected invalid; expected NUM, LP","range":{"end":{"character":1,"line":0},"start":{"character":0,"line":0}},"severity":1,"source":"lrls"}],"uri":"a:x","version":1}}
> {"jsonrpc":"2.0","id":2,"method":"lr/tokens","params":{"textDocument":{"uri":"a:x"}}}
< {"id":2,"jsonrpc":"2.0","result":[["invalid",0,0,0,1],["NUM",0,1,0,2]]}
> {"jsonrpc":"2.0","method":"textDocument/didChange","params":{"textDocument":{"uri":"a:x","version":2},"contentChanges":[{"range":{"start":{"line":0,"character":1},"end":{"line":0,"character":1}},"text":"5"}]}}
< {"jsonrpc":"2.0","method":"textDocument/publishDiagnostics","params":{"diagnostics":[{"message":"unexpected invalid; expected NUM, LP","range":{"end":{"character":1,"line":0},"start":{"character":0,"line":0}},"severity":1,"source":"lrls"}],"uri":"a:x","version":2}}
""",
    "UTF-16, where the client names none": r"""
> {"jsonrpc":"2.0","id":1,"method":"initialize","params":{"capabilities":{"general":{"positionEncodings":[]}}}}
< {"id":1,"jsonrpc":"2.0","result":{"capabilities":{"foldingRangeProvider":true,"positionEncoding":"utf-16","selectionRangeProvider":true,"textDocumentSync":{"change":2,"openClose":true}}}}
> {"jsonrpc":"2.0","method":"textDocument/didOpen","params":{"textDocument":{"uri":"a:x","languageId":"g","version":1,"text":"😀1"}}}
< {"jsonrpc":"2.0","method":"textDocument/publishDiagnostics","params":{"diagnostics":[{"message":"unexpected invalid; expected NUM, LP","range":{"end":{"character":2,"line":0},"start":{"character":0,"line":0}},"severity":1,"source":"lrls"}],"uri":"a:x","version":1}}
> {"jsonrpc":"2.0","id":2,"method":"lr/tokens","params":{"textDocument":{"uri":"a:x"}}}
< {"id":2,"jsonrpc":"2.0","result":[["invalid",0,0,0,2],["NUM",0,2,0,3]]}
> {"jsonrpc":"2.0","method":"textDocument/didChange","params":{"textDocument":{"uri":"a:x","version":2},"contentChanges":[{"range":{"start":{"line":0,"character":1},"end":{"line":0,"character":1}},"text":"5"}]}}
< {"jsonrpc":"2.0","method":"textDocument/publishDiagnostics","params":{"diagnostics":[{"message":"unexpected invalid; expected PLUS, end","range":{"end":{"character":3,"line":0},"start":{"character":1,"line":0}},"severity":1,"source":"lrls"}],"uri":"a:x","version":2}}
""",
}

SELECTIONS = {
    "selections, around positions in UTF-8": r"""
> {"jsonrpc":"2.0","id":1,"method":"initialize","params":{"capabilities":{"general":{"positionEncodings":["utf-8","utf-16"]}}}}
< {"id":1,"jsonrpc":"2.0","result":{"capabilities":{"foldingRangeProvider":true,"positionEncoding":"utf-8","selectionRangeProvider":true,"textDocumentSync":{"change":2,"openClose":true}}}}
> {"jsonrpc":"2.0","method":"textDocument/didOpen","params":{"textDocument":{"uri":"a:x","languageId":"g","version":1,"text":"\"😀\" ab"}}}
< {"jsonrpc":"2.0","method":"textDocument/publishDiagnostics","params":{"diagnostics":[],"uri":"a:x","version":1}}
> {"jsonrpc":"2.0","id":2,"method":"textDocument/selectionRange","params":{"textDocument":{"uri":"a:x"},"positions":[{"line":0,"character":7},{"line":0,"character":2}]}}
< {"id":2,"jsonrpc":"2.0","result":[{"parent":{"range":{"end":{"character":9,"line":0},"start":{"character":0,"line":0}}},"range":{"end":{"character":9,"line":0},"start":{"character":7,"line":0}}},{"parent":{"range":{"end":{"character":9,"line":0},"start":{"character":0,"line":0}}},"range":{"end":{"character":6,"line":0},"start":{"character":0,"line":0}}}]}
""",
}


def sessions() -> Iterator[Tuple[str, str, str, int]]:
    yield from talked("positions count the unit of the session", UNITS, 1)
    yield from talked("selections count the unit of the session", SELECTIONS, 1, LISTS)
