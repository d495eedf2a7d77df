"""Two documents whose messages are mixed: what is sent about each is what is sent where the other
isn't there."""

from typing import Iterator, Tuple

from tests.program.transcripts.talks import served

# A document with ten changes. Blank lines part what is read, each with what is written on it.
CHANGED = r"""
> {"jsonrpc":"2.0","method":"textDocument/didOpen","params":{"textDocument":{"uri":"a:x","languageId":"g","version":1,"text":""}}}
< {"jsonrpc":"2.0","method":"textDocument/publishDiagnostics","params":{"diagnostics":[{"message":"unexpected end; expected NUM, LP","range":{"end":{"character":0,"line":0},"start":{"character":0,"line":0}},"severity":1,"source":"lrls"}],"uri":"a:x","version":1}}

> {"jsonrpc":"2.0","method":"textDocument/didChange","params":{"textDocument":{"uri":"a:x","version":2},"contentChanges":[{"range":{"start":{"line":0,"character":0},"end":{"line":0,"character":0}},"text":"1"}]}}
< {"jsonrpc":"2.0","method":"textDocument/publishDiagnostics","params":{"diagnostics":[],"uri":"a:x","version":2}}

> {"jsonrpc":"2.0","method":"textDocument/didChange","params":{"textDocument":{"uri":"a:x","version":3},"contentChanges":[{"range":{"start":{"line":0,"character":1},"end":{"line":0,"character":1}},"text":"+"}]}}
< {"jsonrpc":"2.0","method":"textDocument/publishDiagnostics","params":{"diagnostics":[{"message":"unexpected end; expected NUM, LP","range":{"end":{"character":2,"line":0},"start":{"character":2,"line":0}},"severity":1,"source":"lrls"}],"uri":"a:x","version":3}}

> {"jsonrpc":"2.0","method":"textDocument/didChange","params":{"textDocument":{"uri":"a:x","version":4},"contentChanges":[{"range":{"start":{"line":0,"character":2},"end":{"line":0,"character":2}},"text":"(2"}]}}
< {"jsonrpc":"2.0","method":"textDocument/publishDiagnostics","params":{"diagnostics":[{"message":"unexpected end; expected PLUS, RP","range":{"end":{"character":4,"line":0},"start":{"character":4,"line":0}},"severity":1,"source":"lrls"}],"uri":"a:x","version":4}}

> {"jsonrpc":"2.0","method":"textDocument/didChange","params":{"textDocument":{"uri":"a:x","version":5},"contentChanges":[{"range":{"start":{"line":0,"character":4},"end":{"line":0,"character":4}},"text":")"}]}}
< {"jsonrpc":"2.0","method":"textDocument/publishDiagnostics","params":{"diagnostics":[],"uri":"a:x","version":5}}

> {"jsonrpc":"2.0","method":"textDocument/didChange","params":{"textDocument":{"uri":"a:x","version":6},"contentChanges":[{"range":{"start":{"line":0,"character":0},"end":{"line":0,"character":1}},"text":"?"}]}}
< {"jsonrpc":"2.0","method":"textDocument/publishDiagnostics","params":{"diagnostics":[{"message":"unexpected invalid; expected NUM, LP","range":{"end":{"character":1,"line":0},"start":{"character":0,"line":0}},"severity":1,"source":"lrls"}],"uri":"a:x","version":6}}

> {"jsonrpc":"2.0","method":"textDocument/didChange","params":{"textDocument":{"uri":"a:x","version":7},"contentChanges":[{"range":{"start":{"line":0,"character":0},"end":{"line":0,"character":1}},"text":"3"}]}}
< {"jsonrpc":"2.0","method":"textDocument/publishDiagnostics","params":{"diagnostics":[],"uri":"a:x","version":7}}

> {"jsonrpc":"2.0","method":"textDocument/didChange","params":{"textDocument":{"uri":"a:x","version":8},"contentChanges":[{"text":"4 5"}]}}
< {"jsonrpc":"2.0","method":"textDocument/publishDiagnostics","params":{"diagnostics":[{"message":"unexpected NUM; expected PLUS, end","range":{"end":{"character":3,"line":0},"start":{"character":2,"line":0}},"severity":1,"source":"lrls"}],"uri":"a:x","version":8}}

> {"jsonrpc":"2.0","method":"textDocument/didChange","params":{"textDocument":{"uri":"a:x","version":9},"contentChanges":[]}}
< {"jsonrpc":"2.0","method":"textDocument/publishDiagnostics","params":{"diagnostics":[{"message":"unexpected NUM; expected PLUS, end","range":{"end":{"character":3,"line":0},"start":{"character":2,"line":0}},"severity":1,"source":"lrls"}],"uri":"a:x","version":9}}

> {"jsonrpc":"2.0","method":"textDocument/didChange","params":{"textDocument":{"uri":"a:x","version":10},"contentChanges":[{"range":{"start":{"line":0,"character":1},"end":{"line":0,"character":2}},"text":""},{"range":{"start":{"line":0,"character":2},"end":{"line":0,"character":2}},"text":"\n+"}]}}
< {"jsonrpc":"2.0","method":"textDocument/publishDiagnostics","params":{"diagnostics":[{"message":"unexpected end; expected NUM, LP","range":{"end":{"character":1,"line":1},"start":{"character":1,"line":1}},"severity":1,"source":"lrls"}],"uri":"a:x","version":10}}

> {"jsonrpc":"2.0","method":"textDocument/didChange","params":{"textDocument":{"uri":"a:x","version":11},"contentChanges":[{"range":{"start":{"line":1,"character":1},"end":{"line":1,"character":1}},"text":"6"}]}}
< {"jsonrpc":"2.0","method":"textDocument/publishDiagnostics","params":{"diagnostics":[],"uri":"a:x","version":11}}

> {"jsonrpc":"2.0","id":3,"method":"lr/text","params":{"textDocument":{"uri":"a:x"}}}
< {"id":3,"jsonrpc":"2.0","result":{"text":"45\n+6","version":11}}

> {"jsonrpc":"2.0","id":4,"method":"lr/tree","params":{"textDocument":{"uri":"a:x"}}}
< {"id":4,"jsonrpc":"2.0","result":"(Sum (Sum (Atom NUM)) PLUS (Atom NUM))"}
"""

# Another one with ten changes, the fourth of which loses it. It is opened anew, and closed.
LOST = r"""
> {"jsonrpc":"2.0","method":"textDocument/didOpen","params":{"textDocument":{"uri":"a:y","languageId":"g","version":1,"text":"1+2"}}}
< {"jsonrpc":"2.0","method":"textDocument/publishDiagnostics","params":{"diagnostics":[],"uri":"a:y","version":1}}

> {"jsonrpc":"2.0","method":"textDocument/didChange","params":{"textDocument":{"uri":"a:y","version":2},"contentChanges":[{"range":{"start":{"line":0,"character":2},"end":{"line":0,"character":3}},"text":""}]}}
< {"jsonrpc":"2.0","method":"textDocument/publishDiagnostics","params":{"diagnostics":[{"message":"unexpected end; expected NUM, LP","range":{"end":{"character":2,"line":0},"start":{"character":2,"line":0}},"severity":1,"source":"lrls"}],"uri":"a:y","version":2}}

> {"jsonrpc":"2.0","method":"textDocument/didChange","params":{"textDocument":{"uri":"a:y","version":3},"contentChanges":[{"range":{"start":{"line":0,"character":2},"end":{"line":0,"character":2}},"text":")"}]}}
< {"jsonrpc":"2.0","method":"textDocument/publishDiagnostics","params":{"diagnostics":[{"message":"unexpected RP; expected NUM, LP","range":{"end":{"character":3,"line":0},"start":{"character":2,"line":0}},"severity":1,"source":"lrls"}],"uri":"a:y","version":3}}

> {"jsonrpc":"2.0","method":"textDocument/didChange","params":{"textDocument":{"uri":"a:y","version":4},"contentChanges":[{"text":"((7))"}]}}
< {"jsonrpc":"2.0","method":"textDocument/publishDiagnostics","params":{"diagnostics":[],"uri":"a:y","version":4}}

> {"jsonrpc":"2.0","method":"textDocument/didChange","params":{"textDocument":{"uri":"a:y","version":5},"contentChanges":5}}
< {"jsonrpc":"2.0","method":"textDocument/publishDiagnostics","params":{"diagnostics":[],"uri":"a:y"}}
< {"jsonrpc":"2.0","method":"window/logMessage","params":{"message":"document lost: malformed change","type":1}}

> {"jsonrpc":"2.0","method":"textDocument/didChange","params":{"textDocument":{"uri":"a:y","version":6},"contentChanges":[{"text":"1"}]}}

> {"jsonrpc":"2.0","id":5,"method":"lr/text","params":{"textDocument":{"uri":"a:y"}}}
< {"error":{"code":-32803,"message":"document lost: malformed change"},"id":5,"jsonrpc":"2.0"}

> {"jsonrpc":"2.0","method":"textDocument/didOpen","params":{"textDocument":{"uri":"a:y","languageId":"g","version":7,"text":"8"}}}
< {"jsonrpc":"2.0","method":"textDocument/publishDiagnostics","params":{"diagnostics":[],"uri":"a:y","version":7}}

> {"jsonrpc":"2.0","method":"textDocument/didChange","params":{"textDocument":{"uri":"a:y","version":8},"contentChanges":[{"range":{"start":{"line":0,"character":1},"end":{"line":0,"character":1}},"text":"+"}]}}
< {"jsonrpc":"2.0","method":"textDocument/publishDiagnostics","params":{"diagnostics":[{"message":"unexpected end; expected NUM, LP","range":{"end":{"character":2,"line":0},"start":{"character":2,"line":0}},"severity":1,"source":"lrls"}],"uri":"a:y","version":8}}

> {"jsonrpc":"2.0","method":"textDocument/didChange","params":{"textDocument":{"uri":"a:y","version":9},"contentChanges":[{"range":{"start":{"line":0,"character":2},"end":{"line":0,"character":2}},"text":"9"}]}}
< {"jsonrpc":"2.0","method":"textDocument/publishDiagnostics","params":{"diagnostics":[],"uri":"a:y","version":9}}

> {"jsonrpc":"2.0","method":"textDocument/didChange","params":{"textDocument":{"uri":"a:y","version":10},"contentChanges":[{"range":{"start":{"line":0,"character":1},"end":{"line":0,"character":2}},"text":" "}]}}
< {"jsonrpc":"2.0","method":"textDocument/publishDiagnostics","params":{"diagnostics":[{"message":"unexpected NUM; expected PLUS, end","range":{"end":{"character":3,"line":0},"start":{"character":2,"line":0}},"severity":1,"source":"lrls"}],"uri":"a:y","version":10}}

> {"jsonrpc":"2.0","method":"textDocument/didChange","params":{"textDocument":{"uri":"a:y","version":11},"contentChanges":[{"range":{"start":{"line":0,"character":0},"end":{"line":0,"character":1}},"text":""}]}}
< {"jsonrpc":"2.0","method":"textDocument/publishDiagnostics","params":{"diagnostics":[],"uri":"a:y","version":11}}

> {"jsonrpc":"2.0","method":"textDocument/didChange","params":{"textDocument":{"uri":"a:y","version":12},"contentChanges":[{"text":""}]}}
< {"jsonrpc":"2.0","method":"textDocument/publishDiagnostics","params":{"diagnostics":[{"message":"unexpected end; expected NUM, LP","range":{"end":{"character":0,"line":0},"start":{"character":0,"line":0}},"severity":1,"source":"lrls"}],"uri":"a:y","version":12}}

> {"jsonrpc":"2.0","method":"textDocument/didClose","params":{"textDocument":{"uri":"a:y"}}}
< {"jsonrpc":"2.0","method":"textDocument/publishDiagnostics","params":{"diagnostics":[],"uri":"a:y"}}

> {"jsonrpc":"2.0","id":6,"method":"lr/text","params":{"textDocument":{"uri":"a:y"}}}
< {"error":{"code":-32602,"message":"document not open"},"id":6,"jsonrpc":"2.0"}
"""


def mixed(one: str, other: str, choices: int) -> str:
    """The turns of two transcripts, which blank lines part, in one transcript: each one's in their
    order, and which comes next by the bits of the choices.
    """
    ones, others = one.split("\n\n"), other.split("\n\n")
    mixture = ""
    while ones or others:
        is_first = ones and (choices % 2 == 0 or not others)
        mixture += "\n" + (ones if is_first else others).pop(0)
        choices //= 2
    return mixture


def random_choices() -> Iterator[int]:
    """200 times 32 bits, the same ones each time."""
    number = 1
    for _ in range(200):
        number = (number * 6_364_136_223_846_793_005 + 1_442_695_040_888_963_407) % 2**64
        yield number // 2**32


def sessions() -> Iterator[Tuple[str, str, str, int]]:
    test = "a document is served whatever comes of others"
    yield from served(
        test,
        {"a document with ten changes": CHANGED, "one that is lost by the fourth of them": LOST},
    )
    for choices in random_choices():
        yield from served(test, {f"both, mixed by {choices:032b}": mixed(CHANGED, LOST, choices)})
