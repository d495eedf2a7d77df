"""Documents that are opened and changed: their texts and what is reported of their faults."""

from typing import Iterator, Tuple

from tests.program.transcripts.talks import filled, served

FIRST_FAULTS = {
    "a sum has no fault": r"""
> {"jsonrpc":"2.0","method":"textDocument/didOpen","params":{"textDocument":{"uri":"a:x","languageId":"g","version":1,"text":"1+2"}}}
< {"jsonrpc":"2.0","method":"textDocument/publishDiagnostics","params":{"diagnostics":[],"uri":"a:x","version":1}}
> {"jsonrpc":"2.0","id":2,"method":"lr/tree","params":{"textDocument":{"uri":"a:x"}}}
< {"id":2,"jsonrpc":"2.0","result":"(Sum (Sum (Atom NUM)) PLUS (Atom NUM))"}
""",
    "the empty text is no sum": r"""
> {"jsonrpc":"2.0","method":"textDocument/didOpen","params":{"textDocument":{"uri":"a:x","languageId":"g","version":1,"text":""}}}
< {"jsonrpc":"2.0","method":"textDocument/publishDiagnostics","params":{"diagnostics":[{"message":"unexpected end; expected NUM, LP","range":{"end":{"character":0,"line":0},"start":{"character":0,"line":0}},"severity":1,"source":"lrls"}],"uri":"a:x","version":1}}
> {"jsonrpc":"2.0","id":2,"method":"lr/tree","params":{"textDocument":{"uri":"a:x"}}}
< {"id":2,"jsonrpc":"2.0","result":null}
""",
    "a second number has no place": r"""
> {"jsonrpc":"2.0","method":"textDocument/didOpen","params":{"textDocument":{"uri":"a:x","languageId":"g","version":1,"text":"1 2"}}}
< {"jsonrpc":"2.0","method":"textDocument/publishDiagnostics","params":{"diagnostics":[{"message":"unexpected NUM; expected PLUS, end","range":{"end":{"character":3,"line":0},"start":{"character":2,"line":0}},"severity":1,"source":"lrls"}],"uri":"a:x","version":1}}
> {"jsonrpc":"2.0","id":2,"method":"lr/tree","params":{"textDocument":{"uri":"a:x"}}}
< {"id":2,"jsonrpc":"2.0","result":null}
""",
    "nothing is reported of what follows the fault": r"""
> {"jsonrpc":"2.0","method":"textDocument/didOpen","params":{"textDocument":{"uri":"a:x","languageId":"g","version":1,"text":"1+?+"}}}
< {"jsonrpc":"2.0","method":"textDocument/publishDiagnostics","params":{"diagnostics":[{"message":"unexpected invalid; expected NUM, LP","range":{"end":{"character":3,"line":0},"start":{"character":2,"line":0}},"severity":1,"source":"lrls"}],"uri":"a:x","version":1}}
""",
}

FAULTS_AFTER_EDITS = {
    "a parenthesis that is deleted is missed": r"""
> {"jsonrpc":"2.0","method":"textDocument/didOpen","params":{"textDocument":{"uri":"a:x","languageId":"g","version":1,"text":"(1)"}}}
< {"jsonrpc":"2.0","method":"textDocument/publishDiagnostics","params":{"diagnostics":[],"uri":"a:x","version":1}}
> {"jsonrpc":"2.0","method":"textDocument/didChange","params":{"textDocument":{"uri":"a:x","version":2},"contentChanges":[{"range":{"start":{"line":0,"character":2},"end":{"line":0,"character":3}},"text":""}]}}
< {"jsonrpc":"2.0","method":"textDocument/publishDiagnostics","params":{"diagnostics":[{"message":"unexpected end; expected PLUS, RP","range":{"end":{"character":2,"line":0},"start":{"character":2,"line":0}},"severity":1,"source":"lrls"}],"uri":"a:x","version":2}}
> {"jsonrpc":"2.0","id":2,"method":"lr/text","params":{"textDocument":{"uri":"a:x"}}}
< {"id":2,"jsonrpc":"2.0","result":{"text":"(1","version":2}}
> {"jsonrpc":"2.0","id":2,"method":"lr/tree","params":{"textDocument":{"uri":"a:x"}}}
< {"id":2,"jsonrpc":"2.0","result":null}
""",
    "a deleted character joins two line ends to one": r"""
> {"jsonrpc":"2.0","method":"textDocument/didOpen","params":{"textDocument":{"uri":"a:x","languageId":"g","version":1,"text":"1\rX\n2"}}}
< {"jsonrpc":"2.0","method":"textDocument/publishDiagnostics","params":{"diagnostics":[{"message":"unexpected invalid; expected PLUS, end","range":{"end":{"character":1,"line":1},"start":{"character":0,"line":1}},"severity":1,"source":"lrls"}],"uri":"a:x","version":1}}
> {"jsonrpc":"2.0","method":"textDocument/didChange","params":{"textDocument":{"uri":"a:x","version":2},"contentChanges":[{"range":{"start":{"line":1,"character":0},"end":{"line":1,"character":1}},"text":""}]}}
< {"jsonrpc":"2.0","method":"textDocument/publishDiagnostics","params":{"diagnostics":[{"message":"unexpected NUM; expected PLUS, end","range":{"end":{"character":1,"line":1},"start":{"character":0,"line":1}},"severity":1,"source":"lrls"}],"uri":"a:x","version":2}}
> {"jsonrpc":"2.0","id":2,"method":"lr/text","params":{"textDocument":{"uri":"a:x"}}}
< {"id":2,"jsonrpc":"2.0","result":{"text":"1\r\n2","version":2}}
""",
    "a fault goes, and the tree comes, with an edit": r"""
> {"jsonrpc":"2.0","method":"textDocument/didOpen","params":{"textDocument":{"uri":"a:x","languageId":"g","version":1,"text":"1 2"}}}
< {"jsonrpc":"2.0","method":"textDocument/publishDiagnostics","params":{"diagnostics":[{"message":"unexpected NUM; expected PLUS, end","range":{"end":{"character":3,"line":0},"start":{"character":2,"line":0}},"severity":1,"source":"lrls"}],"uri":"a:x","version":1}}
> {"jsonrpc":"2.0","method":"textDocument/didChange","params":{"textDocument":{"uri":"a:x","version":2},"contentChanges":[{"range":{"start":{"line":0,"character":1},"end":{"line":0,"character":2}},"text":"+"}]}}
< {"jsonrpc":"2.0","method":"textDocument/publishDiagnostics","params":{"diagnostics":[],"uri":"a:x","version":2}}
> {"jsonrpc":"2.0","id":2,"method":"lr/tree","params":{"textDocument":{"uri":"a:x"}}}
< {"id":2,"jsonrpc":"2.0","result":"(Sum (Sum (Atom NUM)) PLUS (Atom NUM))"}
""",
}

EDITS = {
    "two changes of one message: one publication": r"""
> {"jsonrpc":"2.0","method":"textDocument/didOpen","params":{"textDocument":{"uri":"a:x","languageId":"g","version":1,"text":""}}}
< {"jsonrpc":"2.0","method":"textDocument/publishDiagnostics","params":{"diagnostics":[{"message":"unexpected end; expected NUM, LP","range":{"end":{"character":0,"line":0},"start":{"character":0,"line":0}},"severity":1,"source":"lrls"}],"uri":"a:x","version":1}}
> {"jsonrpc":"2.0","method":"textDocument/didChange","params":{"textDocument":{"uri":"a:x","version":2},"contentChanges":[{"range":{"start":{"line":0,"character":0},"end":{"line":0,"character":0}},"text":"12"},{"range":{"start":{"line":0,"character":0},"end":{"line":0,"character":1}},"text":""}]}}
< {"jsonrpc":"2.0","method":"textDocument/publishDiagnostics","params":{"diagnostics":[],"uri":"a:x","version":2}}
> {"jsonrpc":"2.0","id":2,"method":"lr/text","params":{"textDocument":{"uri":"a:x"}}}
< {"id":2,"jsonrpc":"2.0","result":{"text":"2","version":2}}
""",
    "the same changes, each in a message of its own": r"""
> {"jsonrpc":"2.0","method":"textDocument/didOpen","params":{"textDocument":{"uri":"a:x","languageId":"g","version":1,"text":""}}}
< {"jsonrpc":"2.0","method":"textDocument/publishDiagnostics","params":{"diagnostics":[{"message":"unexpected end; expected NUM, LP","range":{"end":{"character":0,"line":0},"start":{"character":0,"line":0}},"severity":1,"source":"lrls"}],"uri":"a:x","version":1}}
> {"jsonrpc":"2.0","method":"textDocument/didChange","params":{"textDocument":{"uri":"a:x","version":2},"contentChanges":[{"range":{"start":{"line":0,"character":0},"end":{"line":0,"character":0}},"text":"12"}]}}
< {"jsonrpc":"2.0","method":"textDocument/publishDiagnostics","params":{"diagnostics":[],"uri":"a:x","version":2}}
> {"jsonrpc":"2.0","method":"textDocument/didChange","params":{"textDocument":{"uri":"a:x","version":3},"contentChanges":[{"range":{"start":{"line":0,"character":0},"end":{"line":0,"character":1}},"text":""}]}}
< {"jsonrpc":"2.0","method":"textDocument/publishDiagnostics","params":{"diagnostics":[],"uri":"a:x","version":3}}
> {"jsonrpc":"2.0","id":2,"method":"lr/text","params":{"textDocument":{"uri":"a:x"}}}
< {"id":2,"jsonrpc":"2.0","result":{"text":"2","version":3}}
""",
    "a message of no changes records the version and publishes": r"""
> {"jsonrpc":"2.0","method":"textDocument/didOpen","params":{"textDocument":{"uri":"a:x","languageId":"g","version":1,"text":"1 2"}}}
< {"jsonrpc":"2.0","method":"textDocument/publishDiagnostics","params":{"diagnostics":[{"message":"unexpected NUM; expected PLUS, end","range":{"end":{"character":3,"line":0},"start":{"character":2,"line":0}},"severity":1,"source":"lrls"}],"uri":"a:x","version":1}}
> {"jsonrpc":"2.0","method":"textDocument/didChange","params":{"textDocument":{"uri":"a:x","version":5},"contentChanges":[]}}
< {"jsonrpc":"2.0","method":"textDocument/publishDiagnostics","params":{"diagnostics":[{"message":"unexpected NUM; expected PLUS, end","range":{"end":{"character":3,"line":0},"start":{"character":2,"line":0}},"severity":1,"source":"lrls"}],"uri":"a:x","version":5}}
> {"jsonrpc":"2.0","id":2,"method":"lr/text","params":{"textDocument":{"uri":"a:x"}}}
< {"id":2,"jsonrpc":"2.0","result":{"text":"1 2","version":5}}
""",
    "a range whose start is after its end, and a line past the last one": r"""
> {"jsonrpc":"2.0","method":"textDocument/didOpen","params":{"textDocument":{"uri":"a:x","languageId":"g","version":1,"text":"1+2"}}}
< {"jsonrpc":"2.0","method":"textDocument/publishDiagnostics","params":{"diagnostics":[],"uri":"a:x","version":1}}
> {"jsonrpc":"2.0","method":"textDocument/didChange","params":{"textDocument":{"uri":"a:x","version":2},"contentChanges":[{"range":{"start":{"line":0,"character":3},"end":{"line":0,"character":1}},"text":""}]}}
< {"jsonrpc":"2.0","method":"textDocument/publishDiagnostics","params":{"diagnostics":[],"uri":"a:x","version":2}}
> {"jsonrpc":"2.0","id":2,"method":"lr/text","params":{"textDocument":{"uri":"a:x"}}}
< {"id":2,"jsonrpc":"2.0","result":{"text":"1","version":2}}
> {"jsonrpc":"2.0","method":"textDocument/didChange","params":{"textDocument":{"uri":"a:x","version":3},"contentChanges":[{"range":{"start":{"line":99,"character":0},"end":{"line":99,"character":0}},"text":"+3"}]}}
< {"jsonrpc":"2.0","method":"textDocument/publishDiagnostics","params":{"diagnostics":[],"uri":"a:x","version":3}}
> {"jsonrpc":"2.0","id":2,"method":"lr/text","params":{"textDocument":{"uri":"a:x"}}}
< {"id":2,"jsonrpc":"2.0","result":{"text":"1+3","version":3}}
""",
}

# Each `@` stands for a character of two units.
TWO_UNITS = {
    "a position inside of it is that of its start": r"""
> {"jsonrpc":"2.0","method":"textDocument/didOpen","params":{"textDocument":{"uri":"a:x","languageId":"g","version":1,"text":"@1"}}}
< {"jsonrpc":"2.0","method":"textDocument/publishDiagnostics","params":{"diagnostics":[{"message":"unexpected invalid; expected NUM, LP","range":{"end":{"character":2,"line":0},"start":{"character":0,"line":0}},"severity":1,"source":"lrls"}],"uri":"a:x","version":1}}
> {"jsonrpc":"2.0","id":2,"method":"lr/tokens","params":{"textDocument":{"uri":"a:x"}}}
< {"id":2,"jsonrpc":"2.0","result":[["invalid",0,0,0,2],["NUM",0,2,0,3]]}
> {"jsonrpc":"2.0","method":"textDocument/didChange","params":{"textDocument":{"uri":"a:x","version":2},"contentChanges":[{"range":{"start":{"line":0,"character":1},"end":{"line":0,"character":1}},"text":"5"}]}}
< {"jsonrpc":"2.0","method":"textDocument/publishDiagnostics","params":{"diagnostics":[{"message":"unexpected invalid; expected PLUS, end","range":{"end":{"character":3,"line":0},"start":{"character":1,"line":0}},"severity":1,"source":"lrls"}],"uri":"a:x","version":2}}
> {"jsonrpc":"2.0","id":2,"method":"lr/text","params":{"textDocument":{"uri":"a:x"}}}
< {"id":2,"jsonrpc":"2.0","result":{"text":"5@1","version":2}}
""",
    "a place after it": r"""
> {"jsonrpc":"2.0","method":"textDocument/didOpen","params":{"textDocument":{"uri":"a:x","languageId":"g","version":1,"text":"@1"}}}
< {"jsonrpc":"2.0","method":"textDocument/publishDiagnostics","params":{"diagnostics":[{"message":"unexpected invalid; expected NUM, LP","range":{"end":{"character":2,"line":0},"start":{"character":0,"line":0}},"severity":1,"source":"lrls"}],"uri":"a:x","version":1}}
> {"jsonrpc":"2.0","method":"textDocument/didChange","params":{"textDocument":{"uri":"a:x","version":2},"contentChanges":[{"range":{"start":{"line":0,"character":2},"end":{"line":0,"character":2}},"text":"5"}]}}
< {"jsonrpc":"2.0","method":"textDocument/publishDiagnostics","params":{"diagnostics":[{"message":"unexpected invalid; expected NUM, LP","range":{"end":{"character":2,"line":0},"start":{"character":0,"line":0}},"severity":1,"source":"lrls"}],"uri":"a:x","version":2}}
> {"jsonrpc":"2.0","id":2,"method":"lr/text","params":{"textDocument":{"uri":"a:x"}}}
< {"id":2,"jsonrpc":"2.0","result":{"text":"@51","version":2}}
""",
    "what stands after it is deleted": r"""
> {"jsonrpc":"2.0","method":"textDocument/didOpen","params":{"textDocument":{"uri":"a:x","languageId":"g","version":1,"text":"@1"}}}
< {"jsonrpc":"2.0","method":"textDocument/publishDiagnostics","params":{"diagnostics":[{"message":"unexpected invalid; expected NUM, LP","range":{"end":{"character":2,"line":0},"start":{"character":0,"line":0}},"severity":1,"source":"lrls"}],"uri":"a:x","version":1}}
> {"jsonrpc":"2.0","method":"textDocument/didChange","params":{"textDocument":{"uri":"a:x","version":2},"contentChanges":[{"range":{"start":{"line":0,"character":2},"end":{"line":0,"character":3}},"text":""}]}}
< {"jsonrpc":"2.0","method":"textDocument/publishDiagnostics","params":{"diagnostics":[{"message":"unexpected invalid; expected NUM, LP","range":{"end":{"character":2,"line":0},"start":{"character":0,"line":0}},"severity":1,"source":"lrls"}],"uri":"a:x","version":2}}
> {"jsonrpc":"2.0","id":2,"method":"lr/text","params":{"textDocument":{"uri":"a:x"}}}
< {"id":2,"jsonrpc":"2.0","result":{"text":"@","version":2}}
""",
    "it is inserted, and then a letter after it": r"""
> {"jsonrpc":"2.0","method":"textDocument/didOpen","params":{"textDocument":{"uri":"a:x","languageId":"g","version":1,"text":""}}}
< {"jsonrpc":"2.0","method":"textDocument/publishDiagnostics","params":{"diagnostics":[{"message":"unexpected end; expected NUM, LP","range":{"end":{"character":0,"line":0},"start":{"character":0,"line":0}},"severity":1,"source":"lrls"}],"uri":"a:x","version":1}}
> {"jsonrpc":"2.0","method":"textDocument/didChange","params":{"textDocument":{"uri":"a:x","version":2},"contentChanges":[{"range":{"start":{"line":0,"character":0},"end":{"line":0,"character":0}},"text":"@"}]}}
< {"jsonrpc":"2.0","method":"textDocument/publishDiagnostics","params":{"diagnostics":[{"message":"unexpected invalid; expected NUM, LP","range":{"end":{"character":2,"line":0},"start":{"character":0,"line":0}},"severity":1,"source":"lrls"}],"uri":"a:x","version":2}}
> {"jsonrpc":"2.0","method":"textDocument/didChange","params":{"textDocument":{"uri":"a:x","version":3},"contentChanges":[{"range":{"start":{"line":0,"character":2},"end":{"line":0,"character":2}},"text":"x"}]}}
< {"jsonrpc":"2.0","method":"textDocument/publishDiagnostics","params":{"diagnostics":[{"message":"unexpected invalid; expected NUM, LP","range":{"end":{"character":2,"line":0},"start":{"character":0,"line":0}},"severity":1,"source":"lrls"}],"uri":"a:x","version":3}}
> {"jsonrpc":"2.0","id":2,"method":"lr/text","params":{"textDocument":{"uri":"a:x"}}}
< {"id":2,"jsonrpc":"2.0","result":{"text":"@x","version":3}}
""",
}


def sessions() -> Iterator[Tuple[str, str, str, int]]:
    yield from served("the first fault is reported", FIRST_FAULTS)
    yield from served("faults follow the edits", FAULTS_AFTER_EDITS)
    yield from served("texts are edited", EDITS)
    for character in ["\U0001f600", "\U00010000", "\U0010ffff"]:
        test = f"a character may count two units, as U+{ord(character):X}"
        yield from served(test, filled(TWO_UNITS, character))
