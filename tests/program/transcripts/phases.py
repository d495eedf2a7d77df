"""Requests and notifications by the phase of the session."""

from typing import Iterator, Tuple

from tests.program.transcripts.talks import talked

PHASES = {
    "nothing but initialize is served at first": r"""
> {"jsonrpc":"2.0","id":7,"method":"lr/text","params":{"textDocument":{"uri":"a:x"}}}
< {"error":{"code":-32002,"message":"server not initialized"},"id":7,"jsonrpc":"2.0"}
> {"jsonrpc":"2.0","id":7,"method":"textDocument/foldingRange","params":{"textDocument":{"uri":"a:x"}}}
< {"error":{"code":-32002,"message":"server not initialized"},"id":7,"jsonrpc":"2.0"}
> {"jsonrpc":"2.0","id":7,"method":"textDocument/selectionRange","params":{}}
< {"error":{"code":-32002,"message":"server not initialized"},"id":7,"jsonrpc":"2.0"}
""",
    "a batch is no message": r"""
> []
< {"error":{"code":-32600,"message":"invalid request"},"id":null,"jsonrpc":"2.0"}
""",
    "a content is no JSON value": r"""
> {
< {"error":{"code":-32700,"message":"parse error"},"id":null,"jsonrpc":"2.0"}
""",
    "a method that isn't known": r"""
> {"jsonrpc":"2.0","id":1,"method":"initialize","params":{}}
< {"id":1,"jsonrpc":"2.0","result":{"capabilities":{"foldingRangeProvider":true,"positionEncoding":"utf-16","selectionRangeProvider":true,"textDocumentSync":{"change":2,"openClose":true}}}}
> {"jsonrpc":"2.0","id":4,"method":"$/x"}
< {"error":{"code":-32601,"message":"method not found"},"id":4,"jsonrpc":"2.0"}
""",
    "a second initialize": r"""
> {"jsonrpc":"2.0","id":1,"method":"initialize","params":{}}
< {"id":1,"jsonrpc":"2.0","result":{"capabilities":{"foldingRangeProvider":true,"positionEncoding":"utf-16","selectionRangeProvider":true,"textDocumentSync":{"change":2,"openClose":true}}}}
> {"jsonrpc":"2.0","id":1,"method":"initialize","params":{}}
< {"error":{"code":-32600,"message":"invalid request"},"id":1,"jsonrpc":"2.0"}
""",
}

DOWN = {
    "nothing but exit is served after shutdown": r"""
> {"jsonrpc":"2.0","id":1,"method":"initialize","params":{}}
< {"id":1,"jsonrpc":"2.0","result":{"capabilities":{"foldingRangeProvider":true,"positionEncoding":"utf-16","selectionRangeProvider":true,"textDocumentSync":{"change":2,"openClose":true}}}}
> {"jsonrpc":"2.0","id":3,"method":"shutdown"}
< {"id":3,"jsonrpc":"2.0","result":null}
> {"jsonrpc":"2.0","id":2,"method":"lr/text","params":{"textDocument":{"uri":"a:x"}}}
< {"error":{"code":-32600,"message":"invalid request"},"id":2,"jsonrpc":"2.0"}
> {"jsonrpc":"2.0","id":2,"method":"textDocument/foldingRange","params":{"textDocument":{"uri":"a:x"}}}
< {"error":{"code":-32600,"message":"invalid request"},"id":2,"jsonrpc":"2.0"}
> {"jsonrpc":"2.0","method":"textDocument/didOpen","params":{"textDocument":{"uri":"a:x","languageId":"g","version":1,"text":"1"}}}
> {"jsonrpc":"2.0","method":"exit"}
""",
}

LEFT = {
    "nothing is read after exit": r"""
> {"jsonrpc":"2.0","id":1,"method":"initialize","params":{}}
< {"id":1,"jsonrpc":"2.0","result":{"capabilities":{"foldingRangeProvider":true,"positionEncoding":"utf-16","selectionRangeProvider":true,"textDocumentSync":{"change":2,"openClose":true}}}}
> {"jsonrpc":"2.0","method":"exit"}
> {"jsonrpc":"2.0","id":3,"method":"shutdown"}
""",
}


def sessions() -> Iterator[Tuple[str, str, str, int]]:
    yield from talked("requests are answered by phase", PHASES, 1)
    yield from talked("exits have their status", DOWN, 0)
    yield from talked("exits have their status", LEFT, 1)
