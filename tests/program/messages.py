"""Contents that `lrls serve` reads, and the contents that it writes of them.

What a content is read as shows in what is written of it, and in what is written of `ASK`, which
stands after it. `FIRST` are sent before anything else. `OPEN` are sent where `a:x` is open, has the
version 1 and is `1+2`. `LISTS`, `SUMS` and `large_sums` ask about other texts, and `long_sessions`
have more messages. All that is written is compared to the byte.
"""

import json
from typing import Any, Dict, Iterator, List, Tuple, Union

from tests.program import grammar_files


def message(members: str) -> str:
    return '{"jsonrpc":"2.0",%s}' % members


def request(method: str, params: str, name: Union[int, str] = 4) -> str:
    return message(f'"id":{name},"method":"{method}","params":{params}')


def notice(method: str, params: str) -> str:
    return message(f'"method":"{method}","params":{params}')


def result(name: Union[int, str], value: str) -> str:
    return f'{{"id":{name},"jsonrpc":"2.0","result":{value}}}'


def error(code: int, text: str, name: Union[int, str]) -> str:
    return f'{{"error":{{"code":{code},"message":"{text}"}},"id":{name},"jsonrpc":"2.0"}}'


def capabilities(name: int, unit: str) -> str:
    sync = '"textDocumentSync":{"change":2,"openClose":true}'
    reported = f'"foldingRangeProvider":true,"positionEncoding":"{unit}","selectionRangeProvider":true,{sync}'
    return result(name, '{"capabilities":{%s}}' % reported)


def published(version: int, diagnostic: str = "", uri: str = "a:x") -> str:
    reported = f'"diagnostics":[{diagnostic}],"uri":"{uri}","version":{version}'
    return notice("textDocument/publishDiagnostics", "{%s}" % reported)


def log(text: str) -> str:
    return notice("window/logMessage", f'{{"message":"{text}","type":1}}')


def on_line(first: int, last: int) -> str:
    """The range between these characters of line 0."""
    return f'{{"end":{{"character":{last},"line":0}},"start":{{"character":{first},"line":0}}}}'


def missed(place: int) -> str:
    """The fault of a sum that ends at this character, before a number."""
    reported = f'"message":"unexpected end; expected NUM, LP","range":{on_line(place, place)},"severity":1,"source":"lrls"'
    return "{%s}" % reported


CLEARED = notice("textDocument/publishDiagnostics", '{"diagnostics":[],"uri":"a:x"}')
PARSE_ERROR = error(-32700, "parse error", "null")
INVALID = error(-32600, "invalid request", "null")
UNKNOWN = error(-32601, "method not found", 4)
MISFIT = error(-32602, "invalid params", 4)

ABOUT_X = '{"textDocument":{"uri":"a:x"}}'
ABOUT_Y = '{"textDocument":{"uri":"a:y"}}'
ASK = request("lr/text", ABOUT_X, 9)

# What `ASK` is answered: what became of the session and of the document.
IS_NEW = [error(-32002, "server not initialized", 9)]
IS_READY = [error(-32602, "document not open", 9)]
IS_DOWN = [error(-32600, "invalid request", 9)]
HAS_ENDED: List[str] = []
KEPT = [result(9, '{"text":"1+2","version":1}')]
LOST = [error(-32803, "document lost: malformed change", 9)]


def holds(text: str, version: int) -> List[str]:
    return [result(9, f'{{"text":"{text}","version":{version}}}')]


def did_open(params: str) -> str:
    return notice("textDocument/didOpen", params)


def opened(uri: str, text: str) -> str:
    document = f'"uri":"{uri}","languageId":"g","version":1,"text":{json.dumps(text)}'
    return did_open('{"textDocument":{%s}}' % document)


def did_change(params: str) -> str:
    return notice("textDocument/didChange", params)


def changed(members: str) -> str:
    return did_change('{"textDocument":{"uri":"a:x","version":2},%s}' % members)


def changed_by(*changes: str) -> str:
    return changed('"contentChanges":[%s]' % ",".join(changes))


def put(text: str, first: Tuple[int, int], last: Tuple[Any, ...]) -> str:
    """A change that puts a text between these places."""
    ends = '"start":{"line":%s,"character":%s},"end":{"line":%s,"character":%s}' % (*first, *last)
    return '{"range":{%s},"text":"%s"}' % (ends, text)


def cut_up_to(line: str) -> str:
    return changed_by(put("", (0, 0), (line, 0)))


def did_close(params: str) -> str:
    return notice("textDocument/didClose", params)


def selected(params: str, name: int = 4) -> str:
    return request("textDocument/selectionRange", params, name)


def selected_at(positions: str, name: int = 4) -> str:
    return selected('{"textDocument":{"uri":"a:x"},"positions":%s}' % positions, name)


def named(name: str) -> str:
    """A request of this name, for what is unknown."""
    return message(f'"id":{name},"method":"$/x"')


def each(
    contents: List[Any], written: List[str], after: List[str] = KEPT
) -> List[Tuple[str, List[str], List[str]]]:
    """Each of these contents is answered so."""
    return [(content, written, after) for content in contents]


INITIALIZE = request("initialize", "{}", 1)
ENCODINGS = '{"capabilities":{"general":{"positionEncodings":%s}}}'
UNITS = [
    (ENCODINGS % '["utf-8"]', "utf-8"),
    (ENCODINGS % '["utf-7","utf-32","utf-8"]', "utf-32"),
    (ENCODINGS % '["utf-16","utf-8"]', "utf-16"),
    (ENCODINGS % '[8,null,["utf-32"],"utf-8","utf-32"]', "utf-8"),
    (ENCODINGS % "[]", "utf-16"),
    (ENCODINGS % '["UTF-8","utf8","utf-7"]', "utf-16"),
    (ENCODINGS % "5", "utf-16"),
    (ENCODINGS % '"utf-8"', "utf-16"),
    (ENCODINGS % '{"0":"utf-8"}', "utf-16"),
    ('{"capabilities":{"general":{"positionEncoding":["utf-8"]}}}', "utf-16"),
    ('{"capabilities":{"general":[]}}', "utf-16"),
    ('{"capabilities":null}', "utf-16"),
    ('{"positionEncodings":["utf-8"]}', "utf-16"),
]

# A content, what is written of it, and what is written of `ASK` after it.
FIRST = [
    *[
        (request("initialize", params, 1), [capabilities(1, unit)], IS_READY)
        for params, unit in UNITS
    ],
    (request("initialize", "{}"), [capabilities(4, "utf-16")], IS_READY),
    (message('"id":4,"method":"initialize"'), [MISFIT], IS_NEW),
    (request("initialize", "[]"), [MISFIT], IS_NEW),
    (notice("initialize", "{}"), [], IS_NEW),
    (request("lr/text", ABOUT_X, 7), [error(-32002, "server not initialized", 7)], IS_NEW),
    ("{", [PARSE_ERROR], IS_NEW),
]

VALUES = [
    *each(["{", "", b'"\xff"', "[" * 1000 + "]" * 1000], [PARSE_ERROR]),
    *each(["[]", '{"jsonrpc":2.0,"method":"exit"}', "[" * 100 + "]" * 100], [INVALID]),
    *each(['{"jsonrpc":"2.0","id":1,"result":null}', '{"id":{},"error":{}}'], []),
    *each(
        [
            '{"jsonrpc":"2.0","id":1}',
            '{"jsonrpc":"2.0","id":1,"method":5}',
            '{"jsonrpc":"2.0","id":1,"method":5,"result":null}',
        ],
        [error(-32600, "invalid request", 1)],
    ),
    *each(
        ['{"jsonrpc":"1.0","id":"a","method":"exit"}', '{"id":"a","method":"exit"}'],
        [error(-32600, "invalid request", '"a"')],
    ),
]

NAMES = ['"a"', "0", "2147483647", "-2147483648"]
NO_NAMES = ["2147483648", "-2147483649", "18446744073709551616", "1.0", "1e0", "null", "[1]"]
# Each refusal has the name of its request.
QUOTED = r'"a\""'
REQUESTS = [
    *[(named(name), [error(-32601, "method not found", name)], KEPT) for name in NAMES],
    *[(named(name), [INVALID], KEPT) for name in NO_NAMES],
    (request("initialize", "{}", QUOTED), [error(-32600, "invalid request", QUOTED)], KEPT),
    (named(QUOTED), [error(-32601, "method not found", QUOTED)], KEPT),
    (request("lr/text", "{}", QUOTED), [error(-32602, "invalid params", QUOTED)], KEPT),
    (request("lr/text", ABOUT_Y, QUOTED), [error(-32602, "document not open", QUOTED)], KEPT),
]

COUNTS = '{"branches":4,"built":4,"edit":0,"nodes":4,"scanned":3,"tokens":3}'
METHODS = [
    (message('"id":4,"method":"shutdown"'), [result(4, "null")], IS_DOWN),
    (request("shutdown", "7"), [result(4, "null")], IS_DOWN),
    (message('"method":"exit"'), [], HAS_ENDED),
    (request("lr/text", ABOUT_X), [result(4, '{"text":"1+2","version":1}')], KEPT),
    (
        request("lr/tokens", ABOUT_X),
        [result(4, '[["NUM",0,0,0,1],["PLUS",0,1,0,2],["NUM",0,2,0,3]]')],
        KEPT,
    ),
    (request("lr/tree", ABOUT_X), [result(4, '"(Sum (Sum (Atom NUM)) PLUS (Atom NUM))"')], KEPT),
    (request("lr/stats", ABOUT_X), [result(4, COUNTS)], KEPT),
    (request("textDocument/foldingRange", ABOUT_X), [result(4, "[]")], KEPT),
    *each(
        [
            request("lr/text", '{"textDocument":{"uri":5}}'),
            request("lr/text", '{"uri":"a:x"}'),
            message('"id":4,"method":"lr/text"'),
            request("lr/tokens", "{}"),
            request("lr/tree", "{}"),
            request("lr/stats", '{"textDocument":{"uri":5}}'),
            request("textDocument/foldingRange", '{"textDocument":"a:x"}'),
        ],
        [MISFIT],
    ),
    *each(
        [
            message(f'"id":4,"method":"{method}"')
            for method in ["$/x", "exit", "textDocument/didOpen"]
        ],
        [UNKNOWN],
    ),
    *each(
        [
            message('"method":"shutdown"'),
            notice("lr/text", ABOUT_X),
            notice("textDocument/foldingRange", ABOUT_X),
            notice("textDocument/selectionRange", '{"textDocument":{"uri":"a:x"},"positions":[]}'),
            message('"method":"$/x"'),
            notice("initialized", "{}"),
        ],
        [],
    ),
]

OPENINGS = [
    (opened("a:x", ""), [published(1, missed(0))], holds("", 1)),
    (
        did_open('{"textDocument":{"uri":"a:x","version":-1,"text":""}}'),
        [published(-1, missed(0))],
        holds("", -1),
    ),
    *each(
        [
            did_open('{"textDocument":{"uri":"a:x","version":1.0,"text":""}}'),
            did_open('{"textDocument":{"uri":"a:x","version":2147483648,"text":""}}'),
            did_open('{"textDocument":{"uri":"a:x","version":1}}'),
            did_open('{"textDocument":{"version":1,"text":""}}'),
            did_open("[]"),
            message('"method":"textDocument/didOpen"'),
        ],
        [log("didOpen: malformed")],
    ),
]

# Changes that follow one another from the empty text on, and the text after each of them.
FOLLOWING = [
    (put("12", (0, 0), (0, 0)), "12"),
    (put("", (0, 0), (0, 1)), "2"),
    ('{"text":"1+2"}', "1+2"),
    (put("", (0, 3), (0, 1)), "1"),
    (put("+3", (99, 0), (99, 0)), "1+3"),
]
CHANGES = [
    (changed_by(), [published(2)], holds("1+2", 2)),
    (changed_by('{"text":""}', '{"text":"1","rangeLength":"x"}'), [published(2)], holds("1", 2)),
    (changed_by(put("12", (0, 0), (0, 1))), [published(2)], holds("12+2", 2)),
    (changed_by(put("12", (0, 0), (0, 1)), '{"text":"3"}'), [published(2)], holds("3", 2)),
    (cut_up_to("0"), [published(2)], holds("1+2", 2)),
    (cut_up_to("2147483647"), [published(2, missed(0))], holds("", 2)),
    *each(
        [
            changed_by('{"range":null,"text":""}'),
            changed_by('{"text":""}', '{"text":1}'),
            changed('"contentChanges":5'),
            changed('"contentChanges":{}'),
            changed('"x":[]'),
            did_change('{"textDocument":{"uri":"a:x"},"contentChanges":[]}'),
            *[cut_up_to(line) for line in ["2147483648", "-1", "1.0", '"1"']],
        ],
        [CLEARED, log("document lost: malformed change")],
        LOST,
    ),
    *each(
        [
            did_change('{"textDocument":{"uri":5,"version":2},"contentChanges":[]}'),
            did_change('{"contentChanges":[]}'),
            did_change("null"),
        ],
        [log("didChange: malformed")],
    ),
    *each(
        [did_change('{"textDocument":{"uri":"a:y","version":2},"contentChanges":[]}')],
        [log("didChange: document not open")],
    ),
]

CLOSINGS = [
    (did_close(ABOUT_X), [CLEARED], IS_READY),
    *each(
        [did_close('{"textDocument":{"uri":5}}'), did_close("null")], [log("didClose: malformed")]
    ),
    *each([did_close(ABOUT_Y)], [log("didClose: document not open")]),
]

WHOLE = '{"range":%s}' % on_line(0, 3)
SELECTIONS = [
    (selected_at("[]"), [result(4, "[]")], KEPT),
    (selected_at('[{"line":0,"character":2147483647}]'), [result(4, f"[{WHOLE}]")], KEPT),
    *each(
        [
            selected(ABOUT_X),
            selected('{"positions":[]}'),
            selected('{"textDocument":{"uri":5},"positions":[]}'),
            selected_at("{}"),
            selected_at('{"line":0,"character":0}'),
            selected_at('[{"character":0}]'),
            selected_at('[{"line":0,"character":1.5}]'),
            selected_at('[{"line":2147483648,"character":0}]'),
            selected_at('[{"line":0,"character":0},5]'),
        ],
        [MISFIT],
    ),
]

OPEN = [*VALUES, *REQUESTS, *METHODS, *OPENINGS, *CHANGES, *CLOSINGS, *SELECTIONS]

# A text, its fault, a request about it, and what the request is answered: of lists, and of sums.
LISTS = [("", "", request("lr/tree", ABOUT_X, 2), result(2, '"(L)"'))]
IN_WHOLE = f'{{"parent":{WHOLE},"range":{on_line(1, 2)}}}'
FOLDS = '{"endLine":3,"startLine":0},{"endLine":2,"startLine":1},{"endLine":4,"startLine":3}'
SUMS = [
    ("1\n", "", request("lr/tokens", ABOUT_X, 2), result(2, '[["NUM",0,0,0,1],["WS",0,1,1,0]]')),
    (
        "(\n(1\n)\n)+(\n2)",
        "",
        request("textDocument/foldingRange", ABOUT_X, 2),
        result(2, f"[{FOLDS}]"),
    ),
    ("1", "", request("textDocument/foldingRange", ABOUT_X, '"a"'), result('"a"', "[]")),
    (
        "(1)",
        "",
        selected_at('[{"line":0,"character":1},{"line":0,"character":3}]', 2),
        result(2, f"[{IN_WHOLE},{WHOLE}]"),
    ),
    (
        "(1)",
        "",
        selected_at('[{"line":3,"character":4},{"line":0,"character":1}]'),
        result(4, f"[{WHOLE},{IN_WHOLE}]"),
    ),
    ("1", "", selected_at("[]", 2), result(2, "[]")),
]


def large_sums() -> List[Tuple[str, str, str, str]]:
    """A million tokens, and parentheses 100,000 deep."""
    pairs = (
        f'["NUM",0,{k},0,{k + 1}],["PLUS",0,{k + 1},0,{k + 2}]' for k in range(0, 1_000_000, 2)
    )
    deep = "(" * 100_000 + "1" + ")" * 100_000
    tree = "(Sum (Atom LP " * 100_000 + "(Sum (Atom NUM))" + " RP))" * 100_000
    counts = (
        '"branches":200002,"built":200002,"edit":0,"nodes":200002,"scanned":200001,"tokens":200001'
    )
    return [
        (
            "1+" * 500_000,
            missed(1_000_000),
            request("lr/tokens", ABOUT_X, 2),
            result(2, f'[{",".join(pairs)}]'),
        ),
        (deep, "", request("lr/tree", ABOUT_X, 2), result(2, f'"{tree}"')),
        (deep, "", request("lr/stats", ABOUT_X, 2), result(2, "{%s}" % counts)),
    ]


def long_sessions() -> Dict[str, List[Tuple[str, Any]]]:
    """Changes that follow one another, a text that is too large, one document more than 64, and the
    largest content."""
    follow = [
        pair
        for change, text in FOLLOWING
        for pair in [(changed_by(change), [published(2)]), (ASK, holds(text, 2))]
    ]
    too_large = (opened("a:x", "1" * 1_048_577), [CLEARED, log("document lost: too large")])
    is_lost = (
        request("lr/text", ABOUT_X, QUOTED),
        [error(-32803, "document lost: too large", QUOTED)],
    )
    held = [(opened(f"b:{k}", "1"), [published(1, "", f"b:{k}")]) for k in range(64)]
    one_more = (opened("a:x", "1"), [log("didOpen: too many documents")])
    name = '"%s"' % ("x" * (16_777_216 - len(named('""'))))
    largest = (named(name), [error(-32601, "method not found", name)])
    return {
        "changes that follow one another": [
            (opened("a:x", ""), [published(1, missed(0))]),
            *follow,
        ],
        "a text that is too large": [too_large, is_lost],
        "65 documents": [*held, one_more, (ASK, IS_READY)],
        "the largest content": [largest],
    }


def sessions() -> Iterator[Tuple[Any, ...]]:
    """Each session: its name, its grammar file, and its contents, each with the contents that are
    written of it."""
    begin = (INITIALIZE, [capabilities(1, "utf-16")])
    for content, written, after in FIRST:
        yield f"first {content}", grammar_files.SUMS, [(content, written), (ASK, after)]
    yield "a document opened before initialize", grammar_files.SUMS, [
        (opened("a:x", "1+"), []),
        begin,
        (ASK, IS_READY),
    ]
    for content, written, after in OPEN:
        talk = [begin, (opened("a:x", "1+2"), [published(1)]), (content, written), (ASK, after)]
        yield str(content), grammar_files.SUMS, talk
    sums = [(grammar_files.SUMS, *row) for row in [*SUMS, *large_sums()]]
    for grammar, text, fault, content, reply in [
        *sums,
        *[(grammar_files.LISTS, *row) for row in LISTS],
    ]:
        yield f"{content} of {text[:40]!r}", grammar, [
            begin,
            (opened("a:x", text), [published(1, fault)]),
            (content, [reply]),
        ]
    for name, talk in long_sessions().items():
        yield name, grammar_files.SUMS, [begin, *talk]


def frames(contents: List[str]) -> bytes:
    """The frames of these contents, one after another."""
    encoded = [content if isinstance(content, bytes) else content.encode() for content in contents]
    return b"".join(
        b"Content-Length: %d\r\n\r\n%s" % (len(content), content) for content in encoded
    )
