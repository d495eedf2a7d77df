"""Documents that are lost, closed and opened anew, and the limits of a text, of the documents and
of a content."""

from typing import Dict, Iterator, Tuple

from tests.program.messages import INITIALIZE, capabilities
from tests.program.transcripts.talks import each, filled, served, talked

# Each `@` stands for 1,048,575 digits, which leave room for one.
ROOM_FOR_ONE = {
    "one digit more fits, and a second one doesn't": r"""
> {"jsonrpc":"2.0","method":"textDocument/didOpen","params":{"textDocument":{"uri":"a:x","languageId":"g","version":1,"text":"@"}}}
< {"jsonrpc":"2.0","method":"textDocument/publishDiagnostics","params":{"diagnostics":[],"uri":"a:x","version":1}}
> {"jsonrpc":"2.0","method":"textDocument/didChange","params":{"textDocument":{"uri":"a:x","version":2},"contentChanges":[{"range":{"start":{"line":0,"character":0},"end":{"line":0,"character":0}},"text":"1"}]}}
< {"jsonrpc":"2.0","method":"textDocument/publishDiagnostics","params":{"diagnostics":[],"uri":"a:x","version":2}}
> {"jsonrpc":"2.0","method":"textDocument/didChange","params":{"textDocument":{"uri":"a:x","version":3},"contentChanges":[{"range":{"start":{"line":0,"character":0},"end":{"line":0,"character":0}},"text":"1"}]}}
< {"jsonrpc":"2.0","method":"textDocument/publishDiagnostics","params":{"diagnostics":[],"uri":"a:x"}}
< {"jsonrpc":"2.0","method":"window/logMessage","params":{"message":"document lost: too large","type":1}}
> {"jsonrpc":"2.0","id":2,"method":"textDocument/foldingRange","params":{"textDocument":{"uri":"a:x"}}}
< {"error":{"code":-32803,"message":"document lost: too large"},"id":2,"jsonrpc":"2.0"}
> {"jsonrpc":"2.0","method":"textDocument/didOpen","params":{"textDocument":{"uri":"a:x","languageId":"g","version":4,"text":"1"}}}
< {"jsonrpc":"2.0","method":"textDocument/publishDiagnostics","params":{"diagnostics":[],"uri":"a:x","version":4}}
> {"jsonrpc":"2.0","id":2,"method":"lr/text","params":{"textDocument":{"uri":"a:x"}}}
< {"id":2,"jsonrpc":"2.0","result":{"text":"1","version":4}}
""",
    "the limit is one of bytes, and é has two": r"""
> {"jsonrpc":"2.0","method":"textDocument/didOpen","params":{"textDocument":{"uri":"a:x","languageId":"g","version":1,"text":"@"}}}
< {"jsonrpc":"2.0","method":"textDocument/publishDiagnostics","params":{"diagnostics":[],"uri":"a:x","version":1}}
> {"jsonrpc":"2.0","method":"textDocument/didChange","params":{"textDocument":{"uri":"a:x","version":2},"contentChanges":[{"range":{"start":{"line":0,"character":0},"end":{"line":0,"character":0}},"text":"é"}]}}
< {"jsonrpc":"2.0","method":"textDocument/publishDiagnostics","params":{"diagnostics":[],"uri":"a:x"}}
< {"jsonrpc":"2.0","method":"window/logMessage","params":{"message":"document lost: too large","type":1}}
""",
}

# Each `@` stands for 1,048,576 digits, as many as a text may have.
FULL = {
    "a text of the greatest length is held, and is no more after a change that is refused": r"""
> {"jsonrpc":"2.0","method":"textDocument/didOpen","params":{"textDocument":{"uri":"a:x","languageId":"g","version":1,"text":"@"}}}
< {"jsonrpc":"2.0","method":"textDocument/publishDiagnostics","params":{"diagnostics":[],"uri":"a:x","version":1}}
> {"jsonrpc":"2.0","id":2,"method":"lr/text","params":{"textDocument":{"uri":"a:x"}}}
< {"id":2,"jsonrpc":"2.0","result":{"text":"@","version":1}}
> {"jsonrpc":"2.0","method":"textDocument/didChange","params":{"textDocument":{"uri":"a:x","version":2},"contentChanges":[{"range":{"start":{"line":0,"character":0},"end":{"line":0,"character":0}},"text":"1"}]}}
< {"jsonrpc":"2.0","method":"textDocument/publishDiagnostics","params":{"diagnostics":[],"uri":"a:x"}}
< {"jsonrpc":"2.0","method":"window/logMessage","params":{"message":"document lost: too large","type":1}}
> {"jsonrpc":"2.0","id":2,"method":"lr/text","params":{"textDocument":{"uri":"a:x"}}}
< {"error":{"code":-32803,"message":"document lost: too large"},"id":2,"jsonrpc":"2.0"}
""",
}

# Each `@` stands for 1,048,577 digits, one more than a text may have.
TOO_LARGE = {
    "one that is too large to be opened": r"""
> {"jsonrpc":"2.0","method":"textDocument/didOpen","params":{"textDocument":{"uri":"a:x","languageId":"g","version":1,"text":"@"}}}
< {"jsonrpc":"2.0","method":"textDocument/publishDiagnostics","params":{"diagnostics":[],"uri":"a:x"}}
< {"jsonrpc":"2.0","method":"window/logMessage","params":{"message":"document lost: too large","type":1}}
> {"jsonrpc":"2.0","id":2,"method":"lr/text","params":{"textDocument":{"uri":"a:x"}}}
< {"error":{"code":-32803,"message":"document lost: too large"},"id":2,"jsonrpc":"2.0"}
> {"jsonrpc":"2.0","method":"textDocument/didOpen","params":{"textDocument":{"uri":"a:x","languageId":"g","version":2,"text":"1"}}}
< {"jsonrpc":"2.0","method":"textDocument/publishDiagnostics","params":{"diagnostics":[],"uri":"a:x","version":2}}
> {"jsonrpc":"2.0","id":2,"method":"lr/text","params":{"textDocument":{"uri":"a:x"}}}
< {"id":2,"jsonrpc":"2.0","result":{"text":"1","version":2}}
""",
    "one that is too large doesn't leave the document that it was to replace": r"""
> {"jsonrpc":"2.0","method":"textDocument/didOpen","params":{"textDocument":{"uri":"a:x","languageId":"g","version":1,"text":"1"}}}
< {"jsonrpc":"2.0","method":"textDocument/publishDiagnostics","params":{"diagnostics":[],"uri":"a:x","version":1}}
> {"jsonrpc":"2.0","method":"textDocument/didOpen","params":{"textDocument":{"uri":"a:x","languageId":"g","version":2,"text":"@"}}}
< {"jsonrpc":"2.0","method":"textDocument/publishDiagnostics","params":{"diagnostics":[],"uri":"a:x"}}
< {"jsonrpc":"2.0","method":"window/logMessage","params":{"message":"document lost: too large","type":1}}
> {"jsonrpc":"2.0","id":2,"method":"lr/text","params":{"textDocument":{"uri":"a:x"}}}
< {"error":{"code":-32803,"message":"document lost: too large"},"id":2,"jsonrpc":"2.0"}
""",
}

# Each `@` stands for 1,048,575 digits, which leave room for one.
CHANGES_THAT_FIT = {
    "the second of two changes is refused": r"""
> {"jsonrpc":"2.0","method":"textDocument/didOpen","params":{"textDocument":{"uri":"a:x","languageId":"g","version":1,"text":"@"}}}
< {"jsonrpc":"2.0","method":"textDocument/publishDiagnostics","params":{"diagnostics":[],"uri":"a:x","version":1}}
> {"jsonrpc":"2.0","method":"textDocument/didChange","params":{"textDocument":{"uri":"a:x","version":2},"contentChanges":[{"range":{"start":{"line":0,"character":0},"end":{"line":0,"character":0}},"text":"1"},{"range":{"start":{"line":0,"character":0},"end":{"line":0,"character":0}},"text":"1"}]}}
< {"jsonrpc":"2.0","method":"textDocument/publishDiagnostics","params":{"diagnostics":[],"uri":"a:x"}}
< {"jsonrpc":"2.0","method":"window/logMessage","params":{"message":"document lost: too large","type":1}}
""",
    "the second of three changes is refused, where the first one stands": r"""
> {"jsonrpc":"2.0","method":"textDocument/didOpen","params":{"textDocument":{"uri":"a:x","languageId":"g","version":1,"text":"@"}}}
< {"jsonrpc":"2.0","method":"textDocument/publishDiagnostics","params":{"diagnostics":[],"uri":"a:x","version":1}}
> {"jsonrpc":"2.0","method":"textDocument/didChange","params":{"textDocument":{"uri":"a:x","version":2},"contentChanges":[{"range":{"start":{"line":0,"character":0},"end":{"line":0,"character":0}},"text":"1"},{"range":{"start":{"line":0,"character":1},"end":{"line":0,"character":1}},"text":"1"},{"range":{"start":{"line":0,"character":0},"end":{"line":0,"character":2}},"text":""}]}}
< {"jsonrpc":"2.0","method":"textDocument/publishDiagnostics","params":{"diagnostics":[],"uri":"a:x"}}
< {"jsonrpc":"2.0","method":"window/logMessage","params":{"message":"document lost: too large","type":1}}
> {"jsonrpc":"2.0","id":2,"method":"lr/text","params":{"textDocument":{"uri":"a:x"}}}
< {"error":{"code":-32803,"message":"document lost: too large"},"id":2,"jsonrpc":"2.0"}
""",
    "the second of three changes is refused, apart from the first one": r"""
> {"jsonrpc":"2.0","method":"textDocument/didOpen","params":{"textDocument":{"uri":"a:x","languageId":"g","version":1,"text":"@"}}}
< {"jsonrpc":"2.0","method":"textDocument/publishDiagnostics","params":{"diagnostics":[],"uri":"a:x","version":1}}
> {"jsonrpc":"2.0","method":"textDocument/didChange","params":{"textDocument":{"uri":"a:x","version":2},"contentChanges":[{"range":{"start":{"line":0,"character":0},"end":{"line":0,"character":0}},"text":"1"},{"range":{"start":{"line":0,"character":500000},"end":{"line":0,"character":500000}},"text":"1"},{"range":{"start":{"line":0,"character":0},"end":{"line":0,"character":2}},"text":""}]}}
< {"jsonrpc":"2.0","method":"textDocument/publishDiagnostics","params":{"diagnostics":[],"uri":"a:x"}}
< {"jsonrpc":"2.0","method":"window/logMessage","params":{"message":"document lost: too large","type":1}}
> {"jsonrpc":"2.0","id":2,"method":"lr/text","params":{"textDocument":{"uri":"a:x"}}}
< {"error":{"code":-32803,"message":"document lost: too large"},"id":2,"jsonrpc":"2.0"}
""",
    "the first of two changes makes room for the second": r"""
> {"jsonrpc":"2.0","method":"textDocument/didOpen","params":{"textDocument":{"uri":"a:x","languageId":"g","version":1,"text":"@"}}}
< {"jsonrpc":"2.0","method":"textDocument/publishDiagnostics","params":{"diagnostics":[],"uri":"a:x","version":1}}
> {"jsonrpc":"2.0","method":"textDocument/didChange","params":{"textDocument":{"uri":"a:x","version":2},"contentChanges":[{"range":{"start":{"line":0,"character":0},"end":{"line":0,"character":1}},"text":""},{"range":{"start":{"line":0,"character":0},"end":{"line":0,"character":0}},"text":"11"}]}}
< {"jsonrpc":"2.0","method":"textDocument/publishDiagnostics","params":{"diagnostics":[],"uri":"a:x","version":2}}
> {"jsonrpc":"2.0","method":"textDocument/didChange","params":{"textDocument":{"uri":"a:x","version":3},"contentChanges":[{"text":"1"},{"range":{"start":{"line":0,"character":1},"end":{"line":0,"character":1}},"text":"+2"}]}}
< {"jsonrpc":"2.0","method":"textDocument/publishDiagnostics","params":{"diagnostics":[],"uri":"a:x","version":3}}
> {"jsonrpc":"2.0","id":2,"method":"lr/text","params":{"textDocument":{"uri":"a:x"}}}
< {"id":2,"jsonrpc":"2.0","result":{"text":"1+2","version":3}}
""",
    "the same changes in the other order have no room": r"""
> {"jsonrpc":"2.0","method":"textDocument/didOpen","params":{"textDocument":{"uri":"a:x","languageId":"g","version":1,"text":"@"}}}
< {"jsonrpc":"2.0","method":"textDocument/publishDiagnostics","params":{"diagnostics":[],"uri":"a:x","version":1}}
> {"jsonrpc":"2.0","method":"textDocument/didChange","params":{"textDocument":{"uri":"a:x","version":2},"contentChanges":[{"range":{"start":{"line":0,"character":0},"end":{"line":0,"character":0}},"text":"11"},{"range":{"start":{"line":0,"character":0},"end":{"line":0,"character":1}},"text":""}]}}
< {"jsonrpc":"2.0","method":"textDocument/publishDiagnostics","params":{"diagnostics":[],"uri":"a:x"}}
< {"jsonrpc":"2.0","method":"window/logMessage","params":{"message":"document lost: too large","type":1}}
> {"jsonrpc":"2.0","id":2,"method":"lr/text","params":{"textDocument":{"uri":"a:x"}}}
< {"error":{"code":-32803,"message":"document lost: too large"},"id":2,"jsonrpc":"2.0"}
""",
}

# A change of an open document whose parameters, for which `@` stands, don't fit.
SPOILED = r"""
> {"jsonrpc":"2.0","method":"textDocument/didOpen","params":{"textDocument":{"uri":"a:x","languageId":"g","version":1,"text":"1"}}}
< {"jsonrpc":"2.0","method":"textDocument/publishDiagnostics","params":{"diagnostics":[],"uri":"a:x","version":1}}
> {"jsonrpc":"2.0","method":"textDocument/didChange","params":@}
< {"jsonrpc":"2.0","method":"textDocument/publishDiagnostics","params":{"diagnostics":[],"uri":"a:x"}}
< {"jsonrpc":"2.0","method":"window/logMessage","params":{"message":"document lost: malformed change","type":1}}
> {"jsonrpc":"2.0","id":2,"method":"lr/text","params":{"textDocument":{"uri":"a:x"}}}
< {"error":{"code":-32803,"message":"document lost: malformed change"},"id":2,"jsonrpc":"2.0"}
"""

MALFORMED_CHANGES = [
    '{"textDocument":{"uri":"a:x","version":2},"contentChanges":5}',
    '{"textDocument":{"uri":"a:x","version":2},"contentChanges":null}',
    '{"textDocument":{"uri":"a:x","version":2},"contentChanges":{}}',
    '{"textDocument":{"uri":"a:x","version":2},"contentChanges":[5]}',
    '{"textDocument":{"uri":"a:x","version":2},"contentChanges":[[]]}',
    '{"textDocument":{"uri":"a:x","version":2},"contentChanges":[{}]}',
    '{"textDocument":{"uri":"a:x","version":2},"contentChanges":[{"text":5}]}',
    '{"textDocument":{"uri":"a:x","version":2},"contentChanges":[{"range":null,"text":""}]}',
    '{"textDocument":{"uri":"a:x","version":2},"contentChanges":[{"range":{"start":{"line":0,"character":0}},"text":""}]}',
    '{"textDocument":{"uri":"a:x","version":2},"contentChanges":[{"range":{"end":{"line":0,"character":0}},"text":""}]}',
    '{"textDocument":{"uri":"a:x","version":2},"contentChanges":[{"range":{"start":{"line":0},"end":{"line":0,"character":0}},"text":""}]}',
    '{"textDocument":{"uri":"a:x","version":2},"contentChanges":[{"range":{"start":{"line":0,"character":0},"end":{"line":0,"character":-1}},"text":""}]}',
    '{"textDocument":{"uri":"a:x","version":2},"contentChanges":[{"range":{"start":{"line":0,"character":0},"end":{"line":2147483648,"character":0}},"text":""}]}',
    '{"textDocument":{"uri":"a:x","version":2},"contentChanges":[{"range":{"start":{"line":0.0,"character":0},"end":{"line":0,"character":0}},"text":""}]}',
    '{"textDocument":{"uri":"a:x","version":2},"contentChanges":[{"text":"1"},{"text":null}]}',
    '{"textDocument":{"uri":"a:x","version":2}}',
    '{"textDocument":{"uri":"a:x"},"contentChanges":[]}',
    '{"textDocument":{"uri":"a:x","version":null},"contentChanges":[]}',
    '{"textDocument":{"uri":"a:x","version":"2"},"contentChanges":[]}',
    '{"textDocument":{"uri":"a:x","version":2.0},"contentChanges":[]}',
    '{"textDocument":{"uri":"a:x","version":2147483648},"contentChanges":[]}',
    '{"textDocument":{"uri":"a:x","version":-2147483649},"contentChanges":[]}',
]

LOSSES = {
    "what is sent about a lost document, until it is closed": r"""
> {"jsonrpc":"2.0","method":"textDocument/didOpen","params":{"textDocument":{"uri":"a:x","languageId":"g","version":1,"text":"1"}}}
< {"jsonrpc":"2.0","method":"textDocument/publishDiagnostics","params":{"diagnostics":[],"uri":"a:x","version":1}}
> {"jsonrpc":"2.0","method":"textDocument/didChange","params":{"textDocument":{"uri":"a:x","version":2},"contentChanges":5}}
< {"jsonrpc":"2.0","method":"textDocument/publishDiagnostics","params":{"diagnostics":[],"uri":"a:x"}}
< {"jsonrpc":"2.0","method":"window/logMessage","params":{"message":"document lost: malformed change","type":1}}
> {"jsonrpc":"2.0","method":"textDocument/didChange","params":{"textDocument":{"uri":"a:x","version":3},"contentChanges":[{"range":{"start":{"line":0,"character":0},"end":{"line":0,"character":0}},"text":"1"}]}}
> {"jsonrpc":"2.0","method":"textDocument/didChange","params":{"textDocument":{"uri":"a:x","version":3},"contentChanges":[]}}
> {"jsonrpc":"2.0","method":"textDocument/didChange","params":{"textDocument":{"uri":"a:x","version":4},"contentChanges":5}}
> {"jsonrpc":"2.0","id":2,"method":"lr/text","params":{"textDocument":{"uri":"a:x"}}}
< {"error":{"code":-32803,"message":"document lost: malformed change"},"id":2,"jsonrpc":"2.0"}
> {"jsonrpc":"2.0","id":2,"method":"lr/tokens","params":{"textDocument":{"uri":"a:x"}}}
< {"error":{"code":-32803,"message":"document lost: malformed change"},"id":2,"jsonrpc":"2.0"}
> {"jsonrpc":"2.0","id":2,"method":"lr/tree","params":{"textDocument":{"uri":"a:x"}}}
< {"error":{"code":-32803,"message":"document lost: malformed change"},"id":2,"jsonrpc":"2.0"}
> {"jsonrpc":"2.0","id":2,"method":"textDocument/foldingRange","params":{"textDocument":{"uri":"a:x"}}}
< {"error":{"code":-32803,"message":"document lost: malformed change"},"id":2,"jsonrpc":"2.0"}
> {"jsonrpc":"2.0","id":2,"method":"textDocument/selectionRange","params":{"textDocument":{"uri":"a:x"},"positions":[{"line":0,"character":0}]}}
< {"error":{"code":-32803,"message":"document lost: malformed change"},"id":2,"jsonrpc":"2.0"}
> {"jsonrpc":"2.0","method":"textDocument/didClose","params":{"textDocument":{"uri":"a:x"}}}
< {"jsonrpc":"2.0","method":"textDocument/publishDiagnostics","params":{"diagnostics":[],"uri":"a:x"}}
> {"jsonrpc":"2.0","id":2,"method":"lr/text","params":{"textDocument":{"uri":"a:x"}}}
< {"error":{"code":-32602,"message":"document not open"},"id":2,"jsonrpc":"2.0"}
> {"jsonrpc":"2.0","id":2,"method":"lr/tokens","params":{"textDocument":{"uri":"a:x"}}}
< {"error":{"code":-32602,"message":"document not open"},"id":2,"jsonrpc":"2.0"}
> {"jsonrpc":"2.0","id":2,"method":"lr/tree","params":{"textDocument":{"uri":"a:x"}}}
< {"error":{"code":-32602,"message":"document not open"},"id":2,"jsonrpc":"2.0"}
> {"jsonrpc":"2.0","id":2,"method":"textDocument/foldingRange","params":{"textDocument":{"uri":"a:x"}}}
< {"error":{"code":-32602,"message":"document not open"},"id":2,"jsonrpc":"2.0"}
> {"jsonrpc":"2.0","id":2,"method":"textDocument/selectionRange","params":{"textDocument":{"uri":"a:x"},"positions":[{"line":0,"character":0}]}}
< {"error":{"code":-32602,"message":"document not open"},"id":2,"jsonrpc":"2.0"}
""",
    "an open document is closed, and is opened anew": r"""
> {"jsonrpc":"2.0","method":"textDocument/didOpen","params":{"textDocument":{"uri":"a:x","languageId":"g","version":1,"text":"1+2"}}}
< {"jsonrpc":"2.0","method":"textDocument/publishDiagnostics","params":{"diagnostics":[],"uri":"a:x","version":1}}
> {"jsonrpc":"2.0","method":"textDocument/didClose","params":{"textDocument":{"uri":"a:x"}}}
< {"jsonrpc":"2.0","method":"textDocument/publishDiagnostics","params":{"diagnostics":[],"uri":"a:x"}}
> {"jsonrpc":"2.0","id":2,"method":"lr/text","params":{"textDocument":{"uri":"a:x"}}}
< {"error":{"code":-32602,"message":"document not open"},"id":2,"jsonrpc":"2.0"}
> {"jsonrpc":"2.0","id":2,"method":"lr/tokens","params":{"textDocument":{"uri":"a:x"}}}
< {"error":{"code":-32602,"message":"document not open"},"id":2,"jsonrpc":"2.0"}
> {"jsonrpc":"2.0","id":2,"method":"lr/tree","params":{"textDocument":{"uri":"a:x"}}}
< {"error":{"code":-32602,"message":"document not open"},"id":2,"jsonrpc":"2.0"}
> {"jsonrpc":"2.0","id":2,"method":"textDocument/foldingRange","params":{"textDocument":{"uri":"a:x"}}}
< {"error":{"code":-32602,"message":"document not open"},"id":2,"jsonrpc":"2.0"}
> {"jsonrpc":"2.0","id":2,"method":"textDocument/selectionRange","params":{"textDocument":{"uri":"a:x"},"positions":[{"line":0,"character":0}]}}
< {"error":{"code":-32602,"message":"document not open"},"id":2,"jsonrpc":"2.0"}
> {"jsonrpc":"2.0","method":"textDocument/didOpen","params":{"textDocument":{"uri":"a:x","languageId":"g","version":1,"text":"3"}}}
< {"jsonrpc":"2.0","method":"textDocument/publishDiagnostics","params":{"diagnostics":[],"uri":"a:x","version":1}}
> {"jsonrpc":"2.0","id":2,"method":"lr/text","params":{"textDocument":{"uri":"a:x"}}}
< {"id":2,"jsonrpc":"2.0","result":{"text":"3","version":1}}
""",
    "an open document is opened once more": r"""
> {"jsonrpc":"2.0","method":"textDocument/didOpen","params":{"textDocument":{"uri":"a:x","languageId":"g","version":5,"text":"1+2"}}}
< {"jsonrpc":"2.0","method":"textDocument/publishDiagnostics","params":{"diagnostics":[],"uri":"a:x","version":5}}
> {"jsonrpc":"2.0","method":"textDocument/didOpen","params":{"textDocument":{"uri":"a:x","languageId":"g","version":3,"text":"1 2"}}}
< {"jsonrpc":"2.0","method":"textDocument/publishDiagnostics","params":{"diagnostics":[{"message":"unexpected NUM; expected PLUS, end","range":{"end":{"character":3,"line":0},"start":{"character":2,"line":0}},"severity":1,"source":"lrls"}],"uri":"a:x","version":3}}
> {"jsonrpc":"2.0","id":2,"method":"lr/text","params":{"textDocument":{"uri":"a:x"}}}
< {"id":2,"jsonrpc":"2.0","result":{"text":"1 2","version":3}}
> {"jsonrpc":"2.0","method":"textDocument/didChange","params":{"textDocument":{"uri":"a:x","version":4},"contentChanges":[{"range":{"start":{"line":0,"character":1},"end":{"line":0,"character":2}},"text":"+"}]}}
< {"jsonrpc":"2.0","method":"textDocument/publishDiagnostics","params":{"diagnostics":[],"uri":"a:x","version":4}}
> {"jsonrpc":"2.0","id":2,"method":"lr/text","params":{"textDocument":{"uri":"a:x"}}}
< {"id":2,"jsonrpc":"2.0","result":{"text":"1+2","version":4}}
""",
    # URIs are compared byte for byte.
    "the loss of a document leaves another one": r"""
> {"jsonrpc":"2.0","method":"textDocument/didOpen","params":{"textDocument":{"uri":"a:x","languageId":"g","version":1,"text":"1"}}}
< {"jsonrpc":"2.0","method":"textDocument/publishDiagnostics","params":{"diagnostics":[],"uri":"a:x","version":1}}
> {"jsonrpc":"2.0","method":"textDocument/didOpen","params":{"textDocument":{"uri":"a:y","languageId":"g","version":1,"text":"1+2"}}}
< {"jsonrpc":"2.0","method":"textDocument/publishDiagnostics","params":{"diagnostics":[],"uri":"a:y","version":1}}
> {"jsonrpc":"2.0","method":"textDocument/didOpen","params":{"textDocument":{"uri":"a:X","languageId":"g","version":1,"text":"3"}}}
< {"jsonrpc":"2.0","method":"textDocument/publishDiagnostics","params":{"diagnostics":[],"uri":"a:X","version":1}}
> {"jsonrpc":"2.0","method":"textDocument/didChange","params":{"textDocument":{"uri":"a:x","version":2},"contentChanges":5}}
< {"jsonrpc":"2.0","method":"textDocument/publishDiagnostics","params":{"diagnostics":[],"uri":"a:x"}}
< {"jsonrpc":"2.0","method":"window/logMessage","params":{"message":"document lost: malformed change","type":1}}
> {"jsonrpc":"2.0","id":2,"method":"lr/text","params":{"textDocument":{"uri":"a:y"}}}
< {"id":2,"jsonrpc":"2.0","result":{"text":"1+2","version":1}}
> {"jsonrpc":"2.0","id":2,"method":"lr/text","params":{"textDocument":{"uri":"a:X"}}}
< {"id":2,"jsonrpc":"2.0","result":{"text":"3","version":1}}
> {"jsonrpc":"2.0","method":"textDocument/didChange","params":{"textDocument":{"uri":"a:y","version":2},"contentChanges":[{"range":{"start":{"line":0,"character":0},"end":{"line":0,"character":2}},"text":""}]}}
< {"jsonrpc":"2.0","method":"textDocument/publishDiagnostics","params":{"diagnostics":[],"uri":"a:y","version":2}}
> {"jsonrpc":"2.0","method":"textDocument/didClose","params":{"textDocument":{"uri":"a:X"}}}
< {"jsonrpc":"2.0","method":"textDocument/publishDiagnostics","params":{"diagnostics":[],"uri":"a:X"}}
> {"jsonrpc":"2.0","id":2,"method":"lr/text","params":{"textDocument":{"uri":"a:y"}}}
< {"id":2,"jsonrpc":"2.0","result":{"text":"2","version":2}}
> {"jsonrpc":"2.0","id":2,"method":"lr/text","params":{"textDocument":{"uri":"a:X"}}}
< {"error":{"code":-32602,"message":"document not open"},"id":2,"jsonrpc":"2.0"}
> {"jsonrpc":"2.0","id":2,"method":"lr/text","params":{"textDocument":{"uri":"a:x"}}}
< {"error":{"code":-32803,"message":"document lost: malformed change"},"id":2,"jsonrpc":"2.0"}
""",
}

# A document is opened under a URI with a number, for which `@` stands.
OPENED = r"""
> {"jsonrpc":"2.0","method":"textDocument/didOpen","params":{"textDocument":{"uri":"b:@","languageId":"g","version":1,"text":"1"}}}
< {"jsonrpc":"2.0","method":"textDocument/publishDiagnostics","params":{"diagnostics":[],"uri":"b:@","version":1}}
"""

AFTER_64 = {
    "of 64 documents, one may be replaced, lost or closed; a 65th has no room until one is closed": r"""
> {"jsonrpc":"2.0","method":"textDocument/didOpen","params":{"textDocument":{"uri":"a:x","languageId":"g","version":1,"text":"2"}}}
< {"jsonrpc":"2.0","method":"window/logMessage","params":{"message":"didOpen: too many documents","type":1}}
> {"jsonrpc":"2.0","id":2,"method":"lr/text","params":{"textDocument":{"uri":"a:x"}}}
< {"error":{"code":-32602,"message":"document not open"},"id":2,"jsonrpc":"2.0"}
> {"jsonrpc":"2.0","method":"textDocument/didOpen","params":{"textDocument":{"uri":"b:63","languageId":"g","version":2,"text":"2"}}}
< {"jsonrpc":"2.0","method":"textDocument/publishDiagnostics","params":{"diagnostics":[],"uri":"b:63","version":2}}
> {"jsonrpc":"2.0","method":"textDocument/didChange","params":{"textDocument":{"uri":"b:0","version":3},"contentChanges":5}}
< {"jsonrpc":"2.0","method":"textDocument/publishDiagnostics","params":{"diagnostics":[],"uri":"b:0"}}
< {"jsonrpc":"2.0","method":"window/logMessage","params":{"message":"document lost: malformed change","type":1}}
> {"jsonrpc":"2.0","method":"textDocument/didOpen","params":{"textDocument":{"uri":"a:x","languageId":"g","version":1,"text":"2"}}}
< {"jsonrpc":"2.0","method":"window/logMessage","params":{"message":"didOpen: too many documents","type":1}}
> {"jsonrpc":"2.0","method":"textDocument/didOpen","params":{"textDocument":{"uri":"b:0","languageId":"g","version":4,"text":"3"}}}
< {"jsonrpc":"2.0","method":"textDocument/publishDiagnostics","params":{"diagnostics":[],"uri":"b:0","version":4}}
> {"jsonrpc":"2.0","method":"textDocument/didClose","params":{"textDocument":{"uri":"b:1"}}}
< {"jsonrpc":"2.0","method":"textDocument/publishDiagnostics","params":{"diagnostics":[],"uri":"b:1"}}
> {"jsonrpc":"2.0","method":"textDocument/didOpen","params":{"textDocument":{"uri":"a:x","languageId":"g","version":1,"text":"2"}}}
< {"jsonrpc":"2.0","method":"textDocument/publishDiagnostics","params":{"diagnostics":[],"uri":"a:x","version":1}}
> {"jsonrpc":"2.0","id":2,"method":"lr/text","params":{"textDocument":{"uri":"a:x"}}}
< {"id":2,"jsonrpc":"2.0","result":{"text":"2","version":1}}
> {"jsonrpc":"2.0","method":"textDocument/didOpen","params":{"textDocument":{"uri":"b:1","languageId":"g","version":1,"text":"1"}}}
< {"jsonrpc":"2.0","method":"window/logMessage","params":{"message":"didOpen: too many documents","type":1}}
> {"jsonrpc":"2.0","id":2,"method":"lr/text","params":{"textDocument":{"uri":"b:63"}}}
< {"id":2,"jsonrpc":"2.0","result":{"text":"2","version":2}}
""",
}

# The `@` stands for 1,048,577 digits, one more than a text may have.
LARGE_AFTER_64 = {
    "that there is no room is reported before the size of a text": r"""
> {"jsonrpc":"2.0","method":"textDocument/didOpen","params":{"textDocument":{"uri":"a:x","languageId":"g","version":1,"text":"@"}}}
< {"jsonrpc":"2.0","method":"window/logMessage","params":{"message":"didOpen: too many documents","type":1}}
> {"jsonrpc":"2.0","id":2,"method":"lr/text","params":{"textDocument":{"uri":"a:x"}}}
< {"error":{"code":-32602,"message":"document not open"},"id":2,"jsonrpc":"2.0"}
""",
}


def digits(count: int) -> str:
    return "1" * count


def after_64(talks: Dict[str, str]) -> Dict[str, str]:
    """These transcripts after one that opens 64 documents."""
    opened = "".join(OPENED.replace("@", str(number)) for number in range(64))
    return {name: opened + talk for name, talk in talks.items()}


def greatest_content() -> str:
    """`initialize` in a content of 16,777,216 bytes, with blanks after it."""
    return f"> {INITIALIZE.ljust(16_777_216)}\n< {capabilities(1, 'utf-16')}\n"


def sessions() -> Iterator[Tuple[str, str, str, int]]:
    for talks, count in [(ROOM_FOR_ONE, 1_048_575), (FULL, 1_048_576), (TOO_LARGE, 1_048_577)]:
        yield from served("texts that are too large are lost", filled(talks, digits(count)))
    yield from served("each change has to fit", filled(CHANGES_THAT_FIT, digits(1_048_575)))
    yield from served("malformed changes lose a document", each(SPOILED, MALFORMED_CHANGES))
    yield from served("documents are lost, closed and replaced", LOSSES)
    yield from served("no 65th document is held", after_64(AFTER_64))
    yield from served(
        "no 65th document is held", after_64(filled(LARGE_AFTER_64, digits(1_048_577)))
    )
    yield from talked(
        "a content of the greatest length is answered",
        {"initialize and blanks": greatest_content()},
        1,
    )
