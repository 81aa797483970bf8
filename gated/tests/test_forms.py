"""Amounts, named parameters and entries, without a gate."""

from gate import same, true

from gated import forms, scripts
from gated.burning import without_coins
from gated.node import Paid, Refused, Spent, Transaction, read_transaction
from gated.forms import Call, Fault, Number, WrongCount, amount, arguments, call_of, read_json, satoshi_of, text_of


def fault_of(run):
    try:
        run()
    except Fault as fault:
        return fault.error["code"], str(fault)
    return None


def test_amounts(gate):
    """Eight places, by whole numbers; a float of 64 bits would lose the last of these."""
    for satoshi, text in ((0, "0.00000000"), (1, "0.00000001"), (5190, "0.00005190"), (100_000_000, "1.00000000"), (2_099_999_997_690_001, "20999999.97690001"), (-1, "-0.00000001")):
        same("printed", text_of({"a": [amount(satoshi)]}), '{"a":[%s]}' % text)
    read = (
        (Number("0.1"), 10_000_000), ("0.00000001", 1), (0, 0), (21, 2_100_000_000), (Number("1e-8"), 1), ("10", 1_000_000_000), ("0.10000000000", 10_000_000),
        ("21000000", 2_100_000_000_000_000), ("2.1E+7", 2_100_000_000_000_000), ("-0", 0), ("0e999", 0), (Number("1.50e1"), 1_500_000_000),
    )  # fmt: skip
    for value, satoshi in read:
        same("read %s" % value, satoshi_of(value), satoshi)
    for value in ("0.000000001", "x", "", " 1", "1 ", "1_0", "01", ".5", "1.", "+1", "0x1", "NaN", "Infinity", "1e999999999", "1e-999999999", Number("1e-9")):
        same("%s" % value, fault_of(lambda value=value: satoshi_of(value)), (-3, "Invalid amount"))
    for value in (-1, "-0.5", 21_000_001, "21000000.00000001", "1e99", "1e9999"):
        same("%s" % value, fault_of(lambda value=value: satoshi_of(value)), (-3, "Amount out of range"))
    for value in (True, None, [], {}):
        same("%r" % (value,), fault_of(lambda value=value: satoshi_of(value)), (-3, "Amount is not a number or string"))


def test_places(gate):
    """Parameters by their names, and beside `args`; what is not given is none."""
    def params(method, given):
        return arguments(Call(method, given))

    txid = "ab" * 32
    same("by name", params("testmempoolaccept", {"maxfeerate": 1, "rawtxs": ["00"]}), [["00"], 1])
    same("one of two", params("getrawmempool", {"mempool_sequence": True}), [None, True])
    same("another name", params("getrawtransaction", {"txid": txid, "verbose": True}), [txid, True, None])
    same("args", params("getmempoolancestors", {"args": [txid], "verbose": True}), [txid, True])
    same("none", params("getmempoolinfo", {}), [])
    same("nulls at the end", params("getrawmempool", [False, None]), [False, None])
    same("absent", params("getrawmempool", None), [None, None])
    same("unknown name", fault_of(lambda: params("getmempoolentry", {"id": 1})), (-8, "Unknown named parameter id"))
    same("twice", fault_of(lambda: params("getmempoolentry", {"args": ["a"], "txid": "b"})), (-8, "Parameter txid specified twice both as positional and named argument"))
    same("args of another kind", fault_of(lambda: params("getmempoolentry", {"args": 7}))[0], -3)
    for method, given in (("getmempoolinfo", [None]), ("getmempoolentry", []), ("getmempoolentry", {}), ("getmempoolentry", [txid, None]), ("sendrawtransaction", None)):
        try:
            params(method, given)
        except WrongCount:
            continue
        raise AssertionError("%s takes %s" % (method, given))


def test_calls(gate):
    """What has the form of a call, and which version it is of."""
    same("1.0", [call_of({"method": "m", "id": 3}).is_2, call_of({"method": "m", "jsonrpc": "1.1"}).is_2], [False, False])
    two = call_of({"method": "m", "jsonrpc": "2.0"})
    same("a notification", (two.is_2, two.is_notification), (True, True))
    same("with a null id", call_of({"method": "m", "jsonrpc": "2.0", "id": None}).is_notification, False)
    for value in ([], 7, None, "m", {}, {"method": 1}, {"method": "m", "jsonrpc": "3.0"}, {"method": "m", "jsonrpc": 2}, {"method": "m", "params": 7}):
        same("%r" % (value,), fault_of(lambda value=value: call_of(value))[0], -32600)


def test_json(gate):
    """Numbers with places stay as they are written; what is no JSON is refused, and so is what is nested too deep."""
    same("an id", text_of(read_json('{"id": 1.50, "b": [1e2, "\\u00e9", null, true]}')), '{"id":1.50,"b":[1e2,"\\u00e9",null,true]}')
    for text in ("", "{", "NaN", "[Infinity]", "[" * 200_000, "{'a':1}", "1" * 5000):
        try:
            read_json(text)
        except ValueError:
            continue
        raise AssertionError("%s.. was read" % text[:20])
    deep = []
    for _ in range(5000):
        deep = [deep]
    try:
        text_of(deep)
    except forms.TooDeep:
        return
    raise AssertionError("it was written")


def test_a_transaction_without_coins(gate):
    """It has the outputs that it is made for, however many and long, and spends an outpoint that nothing makes."""
    for outputs in ([], [Paid(1000, b"\x6a")], [Paid(2**63, b""), Paid(0, b"\x51" * 252), Paid(7, b"\x51" * 253)], [Paid(1, b"x" * 70_000)], [Paid(1, b"")] * 300):
        found = read_transaction(without_coins(outputs))
        same("its outputs", found.paid, outputs)
        same("what it spends", [(it.txid, it.index) for it in found.spent], [("ff" * 32, 0)])
        same("without witnesses", found.txid, found.wtxid)


def test_questions_about_scripts(gate):
    """A node is told the outputs of other members that one spends, with the scripts whose hashes they pay; of its answers only one
    says that the scripts are met: the same transaction, complete."""
    to_script, to_witness = b"\xa9\x14" + b"\x22" * 20 + b"\x87", b"\x00\x20" + b"\x33" * 32
    paid = [Paid(150_000_000, b"\x51"), Paid(1, to_script), Paid(2, to_witness), Paid(3, to_witness[:-1])]
    parent = Transaction("aa", 2, [], paid, "11" * 32, "12" * 32)
    other, last = Spent("22" * 32, 0, 0, b""), Spent("11" * 32, 4, 0, b"")
    spent = [Spent("11" * 32, 0, 0, b"\x01\x07"), Spent("11" * 32, 1, 0, b"\x01\x07\x02\x51\x52"), Spent("11" * 32, 2, 0, b"", [b"\x07", b"\x53"]), Spent("11" * 32, 3, 0, b"", [b"\x54"])]
    child = Transaction("AB", 2, [other, *spent, last], [], "44" * 32, "45" * 32)
    outputs = [
        '{"txid":"%s","vout":%d,"scriptPubKey":"%s","amount":%s%s}' % ("11" * 32, index, paid[index].script.hex(), value, more)
        for index, (value, more) in enumerate((("1.50000000", ""), ("0.00000001", ',"redeemScript":"5152"'), ("0.00000002", ',"witnessScript":"53"'), ("0.00000003", "")))
    ]
    same("a question", text_of(scripts.question(child, [parent, child])), '["AB",[],[%s]]' % ",".join(outputs))
    same("alone", text_of(scripts.question(child, [child])), '["AB",[],[]]')
    same("met", scripts.why_not(child, {"hex": "ab", "complete": True}), "")
    for told, why in (
        ({"hex": "ac", "complete": True}, scripts.NOT_MET), ({"hex": "ab", "complete": 1}, scripts.NOT_MET), ({"complete": True}, scripts.NOT_MET), ({}, scripts.NOT_MET),
        ({"hex": "ab", "complete": False, "errors": [{"error": "too bad"}]}, "too bad"), (Refused("no method"), "no method"),
    ):  # fmt: skip
        same("not met: %s" % (told,), scripts.why_not(child, told), why)


def test_the_last_push(gate):
    """Of each kind of push; nothing if a script ends within one, or pushes no item."""
    long = b"x" * 300
    pushes = (
        (b"", b""), (b"\x02ab", b"ab"), (b"\x01a\x02bc", b"bc"), (b"\x4c\x03abc", b"abc"), (b"\x4d\x2c\x01" + long, long), (b"\x4e\x2c\x01\x00\x00" + long, long),
        (b"\x01a\x51", b""), (b"\x03ab", b""), (b"\x4d\x05", b""),
    )  # fmt: skip
    for script, item in pushes:
        same("of %s" % script[:9].hex(), scripts.last_push(script), item)


def test_inputs(gate):
    """A transaction is read with the scripts and the witnesses of its inputs."""
    digits = "02000000" "0001" "02" + "11" * 32 + "00000000" "020151" "fdffffff" + "22" * 32 + "05000000" "00" "ffffffff" "00" "00" "02" "0161" "00" "00000000"
    one, two = read_transaction(digits).spent
    same("the first", one, Spent("11" * 32, 0, 0xFFFFFFFD, b"\x01\x51", []))
    same("the second", two, Spent("22" * 32, 5, 0xFFFFFFFF, b"", [b"a", b""]))


def test_packages(gate):
    """A package as Bitcoin Core 29 has it: amounts in BTC, and each member with what is said of it alone."""
    fees = {"base": 2000, "effective-feerate": 8510, "effective-includes": ["aa", "bb"]}
    told = {
        "package_msg": "transaction failed", "replaced-transactions": ["ff"],
        "tx-results": {
            "aa": {"fees": fees, "txid": "01", "vsize": 139}, "bb": {"fees": {"base": 0}, "txid": "02", "vsize": 96}, "cc": {"other-wtxid": "dd", "txid": "03"},
            "ee": {"error": "dust", "rule": "A17", "txid": "04"},
        },
    }  # fmt: skip
    wanted = (
        '{"package_msg":"transaction failed","tx-results":{'
        '"aa":{"txid":"01","vsize":139,"fees":{"base":0.00002000,"effective-feerate":0.00008510,"effective-includes":["aa","bb"]}},'
        '"bb":{"txid":"02","vsize":96,"fees":{"base":0.00000000}},"cc":{"other-wtxid":"dd","txid":"03"},"ee":{"error":"dust","rule":"A17","txid":"04"}},'
        '"replaced-transactions":["ff"]}'
    )
    same("package", text_of(forms.package(told)), wanted)
    denied = {"package_msg": "package-too-large", "replaced-transactions": [], "rule": "J3", "tx-results": {}}
    same("denied", text_of(forms.package(denied)), '{"package_msg":"package-too-large","tx-results":{},"replaced-transactions":[],"rule":"J3"}')


def test_rates(gate):
    """Below one BTC for 1,000 virtual bytes."""
    for value, satoshi in ((0, 0), ("0.1", 10_000_000), (Number("0.99999999"), 99_999_999)):
        same("%s" % value, forms.rate_of(value), satoshi)
    for value in (1, "1.00000000", 20_000_000):
        same("%s" % value, fault_of(lambda value=value: forms.rate_of(value)), (-8, "Fee rates larger than or equal to 1BTC/kvB are not accepted"))


def test_entries(gate):
    """An entry as a node has it: its fees in an object, and the height of the tip when it came."""
    told = {
        "ancestorcount": 2, "ancestorfees": 300, "ancestorsize": 220, "bip125-replaceable": True, "depends": ["aa"], "descendantcount": 1,
        "descendantfees": 110, "descendantsize": 110, "fee": 110, "spentby": [], "time": 5, "vsize": 110, "weight": 438, "wtxid": "bb",
    }  # fmt: skip
    wanted = (
        '{"vsize":110,"weight":438,"time":5,"height":7,"descendantcount":1,"descendantsize":110,"ancestorcount":2,"ancestorsize":220,'
        '"wtxid":"bb","fees":{"base":0.00000110,"modified":0.00000110,"ancestor":0.00000300,"descendant":0.00000110},'
        '"depends":["aa"],"spentby":[],"bip125-replaceable":true}'
    )
    same("entry", text_of(forms.entry(told, 7)), wanted)
