"""Notifications that are answered by a log message, and when they are not."""

from typing import Iterator, Tuple

from tests.program.transcripts.talks import each, served, talked

# Parameters of `didOpen`, for which `@` stands, don't fit, and leave what is open.
MISSED_OPENING = r"""
> {"jsonrpc":"2.0","method":"textDocument/didOpen","params":{"textDocument":{"uri":"a:x","languageId":"g","version":7,"text":"1"}}}
< {"jsonrpc":"2.0","method":"textDocument/publishDiagnostics","params":{"diagnostics":[],"uri":"a:x","version":7}}
> {"jsonrpc":"2.0","method":"textDocument/didOpen","params":@}
< {"jsonrpc":"2.0","method":"window/logMessage","params":{"message":"didOpen: malformed","type":1}}
> {"jsonrpc":"2.0","id":2,"method":"lr/text","params":{"textDocument":{"uri":"a:x"}}}
< {"id":2,"jsonrpc":"2.0","result":{"text":"1","version":7}}
"""

# The same of `didChange`, where it names no document.
MISSED_CHANGE = r"""
> {"jsonrpc":"2.0","method":"textDocument/didOpen","params":{"textDocument":{"uri":"a:x","languageId":"g","version":7,"text":"1"}}}
< {"jsonrpc":"2.0","method":"textDocument/publishDiagnostics","params":{"diagnostics":[],"uri":"a:x","version":7}}
> {"jsonrpc":"2.0","method":"textDocument/didChange","params":@}
< {"jsonrpc":"2.0","method":"window/logMessage","params":{"message":"didChange: malformed","type":1}}
> {"jsonrpc":"2.0","id":2,"method":"lr/text","params":{"textDocument":{"uri":"a:x"}}}
< {"id":2,"jsonrpc":"2.0","result":{"text":"1","version":7}}
"""

# The same of `didClose`.
MISSED_CLOSING = r"""
> {"jsonrpc":"2.0","method":"textDocument/didOpen","params":{"textDocument":{"uri":"a:x","languageId":"g","version":7,"text":"1"}}}
< {"jsonrpc":"2.0","method":"textDocument/publishDiagnostics","params":{"diagnostics":[],"uri":"a:x","version":7}}
> {"jsonrpc":"2.0","method":"textDocument/didClose","params":@}
< {"jsonrpc":"2.0","method":"window/logMessage","params":{"message":"didClose: malformed","type":1}}
> {"jsonrpc":"2.0","id":2,"method":"lr/text","params":{"textDocument":{"uri":"a:x"}}}
< {"id":2,"jsonrpc":"2.0","result":{"text":"1","version":7}}
"""

MALFORMED_OPENINGS = [
    "null",
    "5",
    "[]",
    "{}",
    '{"textDocument":"a:x"}',
    '{"textDocument":{"uri":"a:x","version":2}}',
    '{"textDocument":{"uri":"a:x","version":2,"text":null}}',
    '{"textDocument":{"uri":"a:x","text":"2"}}',
    '{"textDocument":{"uri":"a:x","version":"2","text":"2"}}',
    '{"textDocument":{"uri":"a:x","version":2.0,"text":"2"}}',
    '{"textDocument":{"uri":"a:x","version":2147483648,"text":"2"}}',
    '{"textDocument":{"version":2,"text":"2"}}',
    '{"textDocument":{"uri":5,"version":2,"text":"2"}}',
    '{"uri":"a:x","version":2,"text":"2"}',
]

CHANGES_OF_NO_DOCUMENT = [
    "null",
    "5",
    "[]",
    "{}",
    '{"textDocument":"a:x","contentChanges":[]}',
    '{"contentChanges":[]}',
    '{"textDocument":{"version":2},"contentChanges":[]}',
    '{"textDocument":{"uri":5,"version":2},"contentChanges":[]}',
    '{"textDocument":{"uri":null,"version":2},"contentChanges":5}',
    '{"uri":"a:x","contentChanges":[]}',
]

MALFORMED_CLOSINGS = [
    "null",
    "5",
    "[]",
    "{}",
    '{"textDocument":"a:x"}',
    '{"textDocument":null}',
    '{"textDocument":{}}',
    '{"textDocument":{"uri":5}}',
    '{"textDocument":{"uri":null}}',
    '{"uri":"a:x"}',
]

NOT_OPEN = {
    "notifications without parameters": r"""
> {"jsonrpc":"2.0","method":"textDocument/didOpen"}
< {"jsonrpc":"2.0","method":"window/logMessage","params":{"message":"didOpen: malformed","type":1}}
> {"jsonrpc":"2.0","method":"textDocument/didChange"}
< {"jsonrpc":"2.0","method":"window/logMessage","params":{"message":"didChange: malformed","type":1}}
> {"jsonrpc":"2.0","method":"textDocument/didClose"}
< {"jsonrpc":"2.0","method":"window/logMessage","params":{"message":"didClose: malformed","type":1}}
""",
    "documents that aren't held, one of which was closed": r"""
> {"jsonrpc":"2.0","method":"textDocument/didChange","params":{"textDocument":{"uri":"a:x","version":2},"contentChanges":[{"range":{"start":{"line":0,"character":0},"end":{"line":0,"character":0}},"text":"1"}]}}
< {"jsonrpc":"2.0","method":"window/logMessage","params":{"message":"didChange: document not open","type":1}}
> {"jsonrpc":"2.0","method":"textDocument/didChange","params":{"textDocument":{"uri":"a:x","version":2},"contentChanges":[]}}
< {"jsonrpc":"2.0","method":"window/logMessage","params":{"message":"didChange: document not open","type":1}}
> {"jsonrpc":"2.0","method":"textDocument/didChange","params":{"textDocument":{"uri":"a:x","version":2},"contentChanges":5}}
< {"jsonrpc":"2.0","method":"window/logMessage","params":{"message":"didChange: document not open","type":1}}
> {"jsonrpc":"2.0","method":"textDocument/didClose","params":{"textDocument":{"uri":"a:x"}}}
< {"jsonrpc":"2.0","method":"window/logMessage","params":{"message":"didClose: document not open","type":1}}
> {"jsonrpc":"2.0","method":"textDocument/didOpen","params":{"textDocument":{"uri":"a:x","languageId":"g","version":1,"text":"1"}}}
< {"jsonrpc":"2.0","method":"textDocument/publishDiagnostics","params":{"diagnostics":[],"uri":"a:x","version":1}}
> {"jsonrpc":"2.0","method":"textDocument/didClose","params":{"textDocument":{"uri":"a:y"}}}
< {"jsonrpc":"2.0","method":"window/logMessage","params":{"message":"didClose: document not open","type":1}}
> {"jsonrpc":"2.0","method":"textDocument/didChange","params":{"textDocument":{"uri":"a:y","version":2},"contentChanges":5}}
< {"jsonrpc":"2.0","method":"window/logMessage","params":{"message":"didChange: document not open","type":1}}
> {"jsonrpc":"2.0","method":"textDocument/didClose","params":{"textDocument":{"uri":"a:x"}}}
< {"jsonrpc":"2.0","method":"textDocument/publishDiagnostics","params":{"diagnostics":[],"uri":"a:x"}}
> {"jsonrpc":"2.0","method":"textDocument/didClose","params":{"textDocument":{"uri":"a:x"}}}
< {"jsonrpc":"2.0","method":"window/logMessage","params":{"message":"didClose: document not open","type":1}}
> {"jsonrpc":"2.0","method":"textDocument/didChange","params":{"textDocument":{"uri":"a:x","version":2},"contentChanges":[]}}
< {"jsonrpc":"2.0","method":"window/logMessage","params":{"message":"didChange: document not open","type":1}}
> {"jsonrpc":"2.0","id":2,"method":"lr/text","params":{"textDocument":{"uri":"a:x"}}}
< {"error":{"code":-32602,"message":"document not open"},"id":2,"jsonrpc":"2.0"}
""",
}

EARLY = {
    "nothing is logged, and nothing is opened, before initialize": r"""
> {"jsonrpc":"2.0","method":"textDocument/didOpen","params":{"textDocument":{"uri":"a:x"}}}
> {"jsonrpc":"2.0","method":"textDocument/didOpen","params":{"textDocument":{"uri":"a:x","languageId":"g","version":1,"text":"1"}}}
> {"jsonrpc":"2.0","method":"textDocument/didChange","params":{"textDocument":{"uri":"a:x","version":2},"contentChanges":[]}}
> {"jsonrpc":"2.0","method":"textDocument/didChange","params":{"textDocument":{"uri":"a:x","version":2},"contentChanges":5}}
> {"jsonrpc":"2.0","method":"textDocument/didChange","params":{}}
> {"jsonrpc":"2.0","method":"textDocument/didClose","params":{"textDocument":{"uri":"a:x"}}}
> {"jsonrpc":"2.0","method":"textDocument/didClose","params":{}}
> {"jsonrpc":"2.0","id":1,"method":"initialize","params":{}}
< {"id":1,"jsonrpc":"2.0","result":{"capabilities":{"foldingRangeProvider":true,"positionEncoding":"utf-16","selectionRangeProvider":true,"textDocumentSync":{"change":2,"openClose":true}}}}
> {"jsonrpc":"2.0","id":2,"method":"lr/text","params":{"textDocument":{"uri":"a:x"}}}
< {"error":{"code":-32602,"message":"document not open"},"id":2,"jsonrpc":"2.0"}
""",
}

LATE = {
    "nothing is logged after shutdown": r"""
> {"jsonrpc":"2.0","id":1,"method":"initialize","params":{}}
< {"id":1,"jsonrpc":"2.0","result":{"capabilities":{"foldingRangeProvider":true,"positionEncoding":"utf-16","selectionRangeProvider":true,"textDocumentSync":{"change":2,"openClose":true}}}}
> {"jsonrpc":"2.0","method":"textDocument/didOpen","params":{"textDocument":{"uri":"a:y","languageId":"g","version":1,"text":"1"}}}
< {"jsonrpc":"2.0","method":"textDocument/publishDiagnostics","params":{"diagnostics":[],"uri":"a:y","version":1}}
> {"jsonrpc":"2.0","id":3,"method":"shutdown"}
< {"id":3,"jsonrpc":"2.0","result":null}
> {"jsonrpc":"2.0","method":"textDocument/didOpen","params":{"textDocument":{"uri":"a:x"}}}
> {"jsonrpc":"2.0","method":"textDocument/didOpen","params":{"textDocument":{"uri":"a:x","languageId":"g","version":1,"text":"1"}}}
> {"jsonrpc":"2.0","method":"textDocument/didChange","params":{"textDocument":{"uri":"a:x","version":2},"contentChanges":[]}}
> {"jsonrpc":"2.0","method":"textDocument/didChange","params":{"textDocument":{"uri":"a:x","version":2},"contentChanges":5}}
> {"jsonrpc":"2.0","method":"textDocument/didChange","params":{}}
> {"jsonrpc":"2.0","method":"textDocument/didClose","params":{"textDocument":{"uri":"a:x"}}}
> {"jsonrpc":"2.0","method":"textDocument/didClose","params":{}}
> {"jsonrpc":"2.0","method":"textDocument/didChange","params":{"textDocument":{"uri":"a:y","version":2},"contentChanges":5}}
> {"jsonrpc":"2.0","method":"textDocument/didClose","params":{"textDocument":{"uri":"a:y"}}}
> {"jsonrpc":"2.0","method":"exit"}
""",
}


def sessions() -> Iterator[Tuple[str, str, str, int]]:
    yield from served("a malformed didOpen is logged", each(MISSED_OPENING, MALFORMED_OPENINGS))
    yield from served(
        "a didChange of no document is logged", each(MISSED_CHANGE, CHANGES_OF_NO_DOCUMENT)
    )
    yield from served("a malformed didClose is logged", each(MISSED_CLOSING, MALFORMED_CLOSINGS))
    yield from served("documents that are not open are logged", NOT_OPEN)
    yield from talked("nothing is logged out of turn", EARLY, 1)
    yield from talked("nothing is logged out of turn", LATE, 0)
