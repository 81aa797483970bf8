"""Calls by RPC on the built program: what is read, in which order it is refused, and what is answered."""

import json

from bitcoin import Input, Output, Transaction, coin, number_hash, padded, payment
from callers import json_text
from kinds import heavy

TIMES = "times 101 1000 600"
OPEN = [TIMES, "verdict * ok"] + [coin(number) for number in range(1, 5)]
PARSE_ERROR = 'rpc 500 {"error":{"code":-32700,"message":"Parse error"},"id":null,"result":null}'
INVALID_REQUEST = 'rpc 400 {"error":{"code":-32600,"message":"Invalid Request"},"id":null,"result":null}'
NOT_ALLOWED = "rpc 403 denied U1 rpc-whitelist"
UNKNOWN_ID = "ab" * 32
POINT = {"txid": UNKNOWN_ID, "vout": 0}


def called(method, *params, id=1):
    return json_text({"method": method, "params": list(params), "id": id})


def asked(text, user="a", now=5000):
    return "user %s rpc %d %s" % (user, now, text)


def result(value, id=1):
    return "rpc 200 " + json_text({"error": None, "id": id, "result": value})


def failure(status, code, message, id=1, rule=None):
    error = {"code": code, "message": message, **({"rule": rule} if rule else {})}
    return "rpc %d %s" % (status, json_text({"error": error, "id": id, "result": None}))


INVALID_PARAMS = failure(500, -32602, "Invalid params")
NOT_FOUND = failure(404, -32601, "Method not found")
NO_ENTRY = failure(500, -5, "Transaction not in mempool")
UNDECODABLE = failure(500, -22, "tx-decode", rule="A1")


def test_lines_of_users(gate):
    """A name is a word, the second a number, and the rest any text."""
    listing = called("getrawmempool")
    gate.answers([TIMES], [(line, "refused L1 bad-line") for line in (
        "user", "user a", "user a rpc", "user a rpc 0", "user a rpc 0 ", "user  rpc 0 " + listing, "user a  rpc 0 " + listing, "user a RPC 0 " + listing,
        "user a rpc 00 " + listing, "user a rpc -1 " + listing, "user a rpc 9007199254740992 " + listing, "user a rpc " + listing, "User a rpc 0 " + listing,
    )])
    gate.answers([TIMES], [
        (asked(listing, "\u00e9:,"), result([])),
        ("user rpc rpc 9007199254740991 " + listing, result([])),
        ("user a rpc 0  \t" + listing + " \r", result([])),
        ("user a rpc 0 x", PARSE_ERROR),
        ("user a rpc 0  ", PARSE_ERROR),
    ])


def test_calls_that_are_not_read(gate):
    """What is no JSON, no object, or has another method or id."""
    deep = "[" * 126 + "]" * 126
    for text, reply in (
        ("{", PARSE_ERROR), ("{}x", PARSE_ERROR), ("{'method':1}", PARSE_ERROR), ('{"method":"foo",}', PARSE_ERROR), ("NaN", PARSE_ERROR), ("01", PARSE_ERROR),
        ('{"method":"\\ud800"}', PARSE_ERROR), ('{"method":"a\tb"}', PARSE_ERROR), ('{"a":1e400}', PARSE_ERROR), ('\ufeff{"method":"foo"}', PARSE_ERROR),
        ('{"a":[%s],"method":"foo"}' % deep, PARSE_ERROR),
        ("null", INVALID_REQUEST), ("1", INVALID_REQUEST), ('"x"', INVALID_REQUEST), ('[{"method":"getrawmempool"}]', INVALID_REQUEST), ("{}", INVALID_REQUEST),
        ('{"method":null}', INVALID_REQUEST), ('{"method":["x"]}', INVALID_REQUEST),
        ('{"method":"foo","id":false}', INVALID_REQUEST), ('{"method":"foo","id":{}}', INVALID_REQUEST), ('{"method":"foo","id":1.5}', INVALID_REQUEST),
        ('{"method":"foo","id":1e2}', INVALID_REQUEST), ('{"method":"foo","id":-0}', INVALID_REQUEST), ('{"method":"foo","id":18446744073709551616}', INVALID_REQUEST),
        ('{"method":"foo","id":-9223372036854775809}', INVALID_REQUEST), ('{"method":"getrawmempool","id":1,"id":[]}', INVALID_REQUEST),
        ('{"a":%s,"method":"foo","id":1}' % deep, NOT_FOUND),
        ('{"method":"foo","id":[],"id":1,"jsonrpc":"2.0"}', NOT_FOUND),
        ('{"method":"","id":1}', NOT_FOUND), ('{"method":"getRawMempool","id":1}', NOT_FOUND), ('{"method":"getrawmempool ","id":1}', NOT_FOUND),
    ):
        gate.answers([TIMES], [(asked(text), reply)])


def test_ids_come_back(gate):
    """An id is echoed as it came, by its shortest text."""
    for told, id in (
        ("null", None), ('"1"', "1"), ("1", 1), ("0", 0), ("9007199254740993", 2**53 + 1), ("18446744073709551615", 2**64 - 1), ("-9223372036854775808", -2**63), ("-1", -1),
        ('"\\u00e9\\u0001\\u001f\\/\\"\\\\\\n\\ud83d\\ude00"', "\u00e9\x01\x1f/\"\\\n\U0001f600"), ('""', ""),
    ):
        gate.answers([TIMES], [(asked('{"method":"getrawmempool","id":%s}' % told), result([], id))])
    gate.answers([TIMES], [(asked('{"method":"getrawmempool"}'), result([], None))])


def test_parameters(gate):
    """Each method takes parameters of its own form alone; none may be absent or null."""
    for method, wrong in {
        "sendrawtransaction": ([], [1], [["00"]], ["00", 0], ["00", None], [None]),
        "testmempoolaccept": ([], ["00"], [[]], [["00"] * 26], [[1]], [["00", 1]], [["00", None]], [["00"], 0], [["00", "00"], 0], [[["00"]]], ["00", "00"]),
        "getrawmempool": ([0], [1], [None], [False, False], [True, False], ["false"], ["true"], [[]]),
        "getmempoolentry": ([], [1], [UNKNOWN_ID[1:]], [UNKNOWN_ID + "0"], [UNKNOWN_ID[1:] + "g"], ["0x" + UNKNOWN_ID[2:]], [UNKNOWN_ID, True], [[UNKNOWN_ID]]),
        "getmempoolancestors": ([], [UNKNOWN_ID, False], [None]),
        "getmempooldescendants": ([], [""], [{}]),
        "getmempoolinfo": ([False], [None], [[]]),
        "getrawtransaction": ([], [1], [UNKNOWN_ID[1:]], [UNKNOWN_ID + "0"], [UNKNOWN_ID, True], [UNKNOWN_ID, 0], [UNKNOWN_ID, None], [UNKNOWN_ID, False, UNKNOWN_ID], [[UNKNOWN_ID]], [False]),
        "gettxspendingprevout": ([], [None], [[]], [{}], [[{}]], [[UNKNOWN_ID]], [POINT], [[POINT], True], [[[POINT]]], [[POINT, None]], [[{"txid": UNKNOWN_ID}]], [[{"vout": 0}]])
        + tuple([[{**POINT, name: value}]] for name, value in (
            ("vout", -1), ("vout", 2**31), ("vout", 2**64), ("vout", "0"), ("vout", None), ("vout", True), ("vout", 0.0), ("vout", [0]),
            ("txid", UNKNOWN_ID[1:]), ("txid", UNKNOWN_ID + "0"), ("txid", None), ("txid", 1), ("x", 0),
        )),
    }.items():
        gate.answers([TIMES], [(asked(called(method, *params)), INVALID_PARAMS) for params in wrong])
        gate.answers([TIMES], [(asked('{"id":1,"method":"%s","params":%s}' % (method, params)), INVALID_PARAMS) for params in ("{}", '"x"', "0", "false")])
    for params in ("", ',"params":null', ',"params":[]', ',"params":[false]', ',"params":{},"params":[]'):
        gate.answers([TIMES], [(asked('{"id":1,"method":"getrawmempool"%s}' % params), result([]))])
    gate.answers([TIMES], [(asked(called(method, id)), NO_ENTRY) for method in ("getmempoolentry", "getmempoolancestors", "getmempooldescendants", "getrawtransaction") for id in (UNKNOWN_ID, UNKNOWN_ID.upper())])
    gate.answers([TIMES], [(asked(called("getrawtransaction", UNKNOWN_ID, False)), NO_ENTRY), (asked(called("getrawmempool", True)), result({}))])
    for index in (0, 1, 2**31 - 1):
        gate.answers([TIMES], [(asked(called("gettxspendingprevout", [{"vout": index, "txid": UNKNOWN_ID.upper()}])), result([{**POINT, "vout": index}]))])


def test_lists_of_methods(gate):
    """U1 stands behind what is not read and before everything else."""
    opening = OPEN + ["rpcwhitelist a:getrawmempool,foo", "rpcwhitelist b"]
    gate.answers(opening, [
        (asked("{"), PARSE_ERROR), (asked("{", "b"), PARSE_ERROR), (asked("[]", "b"), INVALID_REQUEST), (asked('{"method":"x","id":1.5}', "b"), INVALID_REQUEST),
        (asked(called("foo")), NOT_FOUND), (asked(called("bar")), NOT_ALLOWED), (asked(called("getmempoolinfo", 1)), NOT_ALLOWED),
        (asked(called("getrawmempool", 1)), INVALID_PARAMS), (asked(called("getrawmempool")), result([])),
        (asked(called("getrawmempool"), "b"), NOT_ALLOWED), (asked(called("getrawmempool"), "c"), NOT_ALLOWED), (asked(called("getrawmempool"), "A"), NOT_ALLOWED),
    ])
    gate.answers(opening + ["rpcwhitelistdefault 0"], [(asked(called("getrawmempool"), "c"), result([])), (asked(called("getrawmempool"), "b"), NOT_ALLOWED)])
    gate.answers([TIMES, "rpcwhitelistdefault 1"], [(asked(called("getrawmempool")), NOT_ALLOWED)])


def test_later_entries_narrow(gate):
    """A user's first entry makes the list; a later one with a colon is intersected with it, and one without changes nothing."""
    for entries, allowed in (
        (["a:getrawmempool,getmempoolinfo", "a:getrawmempool"], True), (["a:getrawmempool", "a"], True), (["a", "a:getrawmempool"], False),
        (["a:getrawmempool", "a:"], False), (["a:", "a:getrawmempool"], False), (["a: getrawmempool "], True), (["a:x getrawmempool,y"], True),
        (["a:getrawmempool:x"], False), (["b:getrawmempool", "a:getmempoolinfo"], False), (["a:getmempoolinfo", "b", "a:getrawmempool"], False),
    ):
        gate.answers([TIMES] + ["rpcwhitelist " + entry for entry in entries], [(asked(called("getrawmempool")), result([]) if allowed else NOT_ALLOWED)])


def test_submissions_by_users(gate):
    """A submission enters and is told by its txid; denials name their rule, and close nothing."""
    tx, other, missing = payment(1, 99000), payment(1, 98999), payment(9, 1000)
    gate.answers(OPEN, [
        (asked(called("testmempoolaccept", [tx.hex()])), result([{"allowed": True, "fees": {"base": 1000}, "txid": tx.txid(), "vsize": tx.virtual_size(1), "wtxid": tx.wtxid()}])),
        (asked(called("getrawmempool")), result([])),
        (asked(called("sendrawtransaction", tx.hex())), result(tx.txid())),
        (asked(called("sendrawtransaction", tx.hex().upper())), failure(500, -26, "txn-already-in-mempool", rule="A21")),
        (asked(called("sendrawtransaction", other.hex())), failure(500, -26, "insufficient fee", rule="A42")),
        (asked(called("sendrawtransaction", missing.hex())), failure(500, -25, "bad-txns-inputs-missingorspent", rule="A25")),
        (asked(called("testmempoolaccept", [missing.hex()])), result([{"allowed": False, "reject-reason": "missing-inputs", "rule": "A25", "txid": missing.txid(), "wtxid": missing.wtxid()}])),
        (asked(called("sendrawtransaction", "zz")), UNDECODABLE), (asked(called("sendrawtransaction", "")), UNDECODABLE), (asked(called("testmempoolaccept", ["0"])), UNDECODABLE),
        (asked(called("getrawmempool")), result([tx.txid()])),
        ("peer 1 enter 192.0.2.1", "entered none"),
        ("peer 1 tx 5000 " + tx.hex(), "denied P5 keep txn-already-in-mempool"),
    ])


def test_lists_of_transactions(gate):
    """Each is judged behind those before it that are allowed, as a chain of 25 shows; nothing in a list is replaced, and nothing enters."""
    chain = [payment(1, 99000)]
    while len(chain) < 26:
        chain.append(Transaction([Input(chain[-1].hash())], [Output(chain[-1].outputs[0].value - 1000)]))

    def allowed(tx, fee=1000):
        return {"allowed": True, "fees": {"base": fee}, "txid": tx.txid(), "vsize": tx.virtual_size(1), "wtxid": tx.wtxid()}

    def rejected(tx, rule, reason):
        return {"allowed": False, "reject-reason": reason, "rule": rule, "txid": tx.txid(), "wtxid": tx.wtxid()}

    def tested(*made):
        return asked(called("testmempoolaccept", [tx.hex() for tx in made]))

    missing = [rejected(tx, "A25", "missing-inputs") for tx in chain]
    more, double = payment(2, 90000), payment(2, 99000)
    gate.answers(OPEN, [
        (tested(*chain[:25]), result([allowed(tx) for tx in chain[:25]])),
        (tested(*chain[1:]), result(missing[1:])),
        (tested(*chain[:2][::-1]), result([missing[1], allowed(chain[0])])),
        (tested(more, double), result([allowed(more, 10000), rejected(double, "A23", "txn-mempool-conflict")])),
        (tested(double, more), result([allowed(double), rejected(more, "A23", "txn-mempool-conflict")])),
        (asked(called("getrawmempool")), result([])),
        (asked(called("sendrawtransaction", double.hex())), result(double.txid())),
        (tested(more), result([allowed(more, 10000)])),
        (tested(more, chain[0]), result([rejected(more, "A23", "txn-mempool-conflict"), allowed(chain[0])])),
        (tested(double, double), result([rejected(double, "A21", "txn-already-in-mempool")] * 2)),
        (asked(called("sendrawtransaction", chain[0].hex())), result(chain[0].txid())),
        (tested(*chain[1:]), result([allowed(tx) for tx in chain[1:25]] + [rejected(chain[25], "A36", "too-long-mempool-chain")])),
        (asked(called("getrawmempool")), result([double.txid(), chain[0].txid()])),
        (asked(called("sendrawtransaction", more.hex())), result(more.txid())),
        (asked(called("testmempoolaccept", [more.hex(), "0"])), UNDECODABLE),
        (asked(called("testmempoolaccept", ["zz", more.hex()])), UNDECODABLE),
    ])


def test_a_full_pool_by_users(gate):
    """A46 is a denial of `sendrawtransaction` alone."""
    tx = payment(1, 99000)
    accepted = [{"allowed": True, "fees": {"base": 1000}, "txid": tx.txid(), "vsize": tx.virtual_size(1), "wtxid": tx.wtxid()}]
    info = {"bytes": 0, "maxmempool": 10, "mempoolminfee": 1000, "minrelaytxfee": 1000, "size": 0}
    gate.answers(["budget 10"] + OPEN, [
        (asked(called("testmempoolaccept", [tx.hex()])), result(accepted)),
        (asked(called("getmempoolinfo")), result(info)),
        (asked(called("sendrawtransaction", tx.hex())), failure(500, -26, "mempool full", rule="A46")),
        (asked(called("getmempoolinfo")), result({**info, "mempoolminfee": 1000 * 1000 // tx.virtual_size(1) + 1000})),
        ("operator floor 5", "set"),
        (asked(called("getmempoolinfo")), result(info)),
    ])


def test_what_users_learn_of_a_family(gate):
    """Ancestors and descendants by count, size and fees, itself among them; lists are in the order of admission."""
    parent = Transaction([Input(number_hash(1))], [Output(40000), Output(40000)])
    one = Transaction([Input(parent.hash(), 1, sequence=0xFFFFFFFF)], [Output(39000)])
    two = Transaction([Input(parent.hash(), 0, sequence=0xFFFFFFFE), Input(one.hash(), 0, sequence=0xFFFFFFFF)], [Output(77000)])
    family = (parent, one, two)
    sizes = [tx.virtual_size(len(tx.inputs)) for tx in family]
    fees = [20000, 1000, 2000]

    def entry(place, above, below, depends, spentby):
        tx = family[place]
        return {
            "ancestorcount": len(above), "ancestorfees": sum(fees[n] for n in above), "ancestorsize": sum(sizes[n] for n in above), "bip125-replaceable": True,
            "depends": [family[n].txid() for n in depends], "descendantcount": len(below), "descendantfees": sum(fees[n] for n in below),
            "descendantsize": sum(sizes[n] for n in below), "fee": fees[place], "spentby": [family[n].txid() for n in spentby], "time": 10 + place,
            "vsize": sizes[place], "weight": tx.weight(), "wtxid": tx.wtxid(),
        }

    gate.answers(OPEN, [(asked(called("sendrawtransaction", tx.hex()), now=10 + place), result(tx.txid())) for place, tx in enumerate(family)] + [
        (asked(called("getmempoolentry", parent.txid())), result(entry(0, (0,), (0, 1, 2), (), (1, 2)))),
        (asked(called("getmempoolentry", one.txid().upper())), result(entry(1, (0, 1), (1, 2), (0,), (2,)))),
        (asked(called("getmempoolentry", two.txid())), result(entry(2, (0, 1, 2), (2,), (0, 1), ()))),
        (asked(called("getmempoolancestors", two.txid())), result([parent.txid(), one.txid()])),
        (asked(called("getmempooldescendants", parent.txid())), result([one.txid(), two.txid()])),
        (asked(called("getmempooldescendants", two.txid())), result([])),
    ])


def test_replaceable_by_an_ancestor(gate):
    """`bip125-replaceable` is told of the transaction's own sequences and of those of its ancestors in the pool."""
    firm = Transaction([Input(number_hash(1), sequence=0xFFFFFFFE)], [Output(99000)])
    signals = Transaction([Input(number_hash(2), sequence=0xFFFFFFFD)], [Output(99000)])
    children = [Transaction([Input(tx.hash(), 0, sequence=0xFFFFFFFF)], [Output(98000)]) for tx in (firm, signals)]
    made = (firm, signals) + tuple(children)
    replies = gate.replies(OPEN, [asked(called("sendrawtransaction", tx.hex())) for tx in made] + [asked(called("getmempoolentry", tx.txid())) for tx in made])
    found = [json.loads(reply[8:])["result"]["bip125-replaceable"] for reply in replies[4:]]
    assert found == [False, True, False, True], found


def test_a_great_submission_by_a_user(gate):
    """A transaction of 100,000 bytes, whose call is a line of 200,000."""
    tx = padded(100000, 1, 1000)
    fee = 10**8 - sum(one.value for one in tx.outputs)
    opening = [TIMES, "verdict * ok", coin(1, 10**8)]
    accepted = [{"allowed": True, "fees": {"base": fee}, "txid": tx.txid(), "vsize": tx.virtual_size(1), "wtxid": tx.wtxid()}]
    gate.answers(opening, [(asked(called("testmempoolaccept", [tx.hex()])), result(accepted)), (asked(called("sendrawtransaction", tx.hex())), result(tx.txid()))])


@heavy
def test_a_long_id(gate):
    """An id of a million characters, each of which is written as six."""
    gate.answers([TIMES], [(asked('{"method":"getrawmempool","id":"%s"}' % ("\\u0001" * 1000000)), 'rpc 200 {"error":null,"id":"%s","result":[]}' % ("\\u0001" * 1000000))])


@heavy
def test_a_listing_of_many(gate):
    """A pool of 5,000 entries, listed by a user."""
    made = [payment(number, 99000) for number in range(1, 5001)]
    opening = [TIMES, "verdict * ok"] + [coin(number) for number in range(1, 5001)]
    replies = gate.replies(opening, ["peer 1 enter ::1"] + ["peer 1 tx 0 " + tx.hex() for tx in made] + [asked(called("getrawmempool"))])
    assert replies[-1] == result([tx.txid() for tx in made])
