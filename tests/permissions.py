"""Whitelists on the built program: words, subnets and addresses, the faults of entries, and what flags change."""

from bitcoin import coin, payment
from gate import lines, same

TIMES = "times 101 1000 600"
OPEN = [TIMES, "verdict * ok", coin(1), coin(2)]


def enters(gate, entries, address, flags):
    """A peer from this address gets these flags by these opening lines."""
    gate.answers([TIMES] + entries, [("peer 1 enter " + address, "entered " + flags)])


def fails(gate, opening, line, token):
    done = gate.run("run", lines(opening))
    same("standard output for %r" % (opening,), done.stdout.decode(), "opening %d %s\n" % (line, token))
    same("status", done.status, 2)


def test_words_of_entries(gate):
    """Each word gives its flag, with those that it brings; an empty word gives none, and flags have one order."""
    for words, flags in (
        ("bloomfilter", "bloomfilter"), ("bloom", "bloomfilter"), ("noban", "noban,download"), ("forcerelay", "forcerelay,relay"),
        ("relay", "relay"), ("mempool", "mempool"), ("download", "download"), ("addr", "addr"),
        ("all", "bloomfilter,noban,forcerelay,relay,mempool,download,addr"),
        ("addr,bloom", "bloomfilter,addr"), ("mempool,,mempool,", "mempool"), ("", "none"), (",", "none"),
    ):
        enters(gate, ["whitelist %s@192.0.2.1" % words], "192.0.2.1", flags)


def test_entries_without_words(gate):
    """They give noban, download and mempool, and relay and forcerelay where the settings say so, wherever these stand."""
    entry = "whitelist 192.0.2.1"
    for settings, flags in (
        ([], "noban,relay,mempool,download"),
        (["whitelistrelay 0"], "noban,mempool,download"),
        (["blocksonly 1"], "noban,mempool,download"),
        (["blocksonly 1", "whitelistrelay 1"], "noban,relay,mempool,download"),
        (["blocksonly 0"], "noban,relay,mempool,download"),
        (["whitelistrelay 0", "whitelistforcerelay 1"], "noban,forcerelay,relay,mempool,download"),
        (["whitelistforcerelay 0"], "noban,relay,mempool,download"),
    ):
        enters(gate, [entry] + settings, "192.0.2.1", flags)
        enters(gate, settings + [entry], "192.0.2.1", flags)
    enters(gate, ["whitelist @192.0.2.1"], "192.0.2.1", "none")
    enters(gate, [entry, "whitelist addr@192.0.2.0/24"], "192.0.2.1", "noban,relay,mempool,download,addr")


def test_subnets(gate):
    """A subnet has the addresses that agree with it in the bits of its mask, and none of the other family."""
    for subnet, inside, outside in (
        ("10.0.0.0/8", ("10.0.0.0", "10.255.255.255"), ("11.0.0.0", "9.255.255.255", "::")),
        ("10.1.2.3/8", ("10.9.9.9",), ("11.1.2.3",)),
        ("10.1.2.3/255.255.255.254", ("10.1.2.2", "10.1.2.3"), ("10.1.2.4", "10.1.2.1")),
        ("10.1.2.3/31", ("10.1.2.2", "10.1.2.3"), ("10.1.2.4",)),
        ("10.1.2.3/032", ("10.1.2.3", "::ffff:a01:203"), ("10.1.2.2",)),
        ("0.0.0.0/0.0.0.0", ("255.255.255.255",), ("::1",)),
        ("::/0", ("2001:db8::1", "::"), ("10.0.0.1", "::ffff:a00:1")),
        ("2001:db8::/33", ("2001:DB8:7FFF::1",), ("2001:db8:8000::",)),
        ("::ffff:a00:1", ("10.0.0.1",), ("10.0.0.2",)),
        ("::1/128", ("0:0:0:0:0:0:0:1",), ("::2", "0.0.0.1")),
    ):
        for addresses, flags in ((inside, "mempool"), (outside, "none")):
            for address in addresses:
                enters(gate, ["whitelist mempool@" + subnet], address, flags)


def test_faults_of_entries(gate):
    """The first bad line is told, with the first of its faults: a word, a mapped subnet, another text."""
    for entry, token in (
        ("nobans@10.0.0.1", "unknown-permission"), ("NOBAN@10.0.0.1", "unknown-permission"), (" noban@10.0.0.1", "unknown-permission"),
        ("noban mempool@10.0.0.1", "unknown-permission"), ("x@::ffff:a00:0/104", "unknown-permission"), ("x@", "unknown-permission"),
        ("noban@::ffff:a00:0/104", "mapped-subnet"), ("::ffff:a00:0/junk", "mapped-subnet"),
        ("noban@noban@10.0.0.1", "bad-subnet"), ("10.0.0.1/33", "bad-subnet"), ("::/129", "bad-subnet"), ("10.0.0.1/", "bad-subnet"), ("10.0.0.1/0008", "bad-subnet"),
        ("10.0.0.1/+8", "bad-subnet"), ("10.0.0.0/255.0.255.0", "bad-subnet"), ("::/ffff::", "bad-subnet"), ("10.0.0.01", "bad-subnet"), ("127.1", "bad-subnet"),
        ("0x7f.0.0.1", "bad-subnet"), ("::192.0.2.1", "bad-subnet"), ("fe80::1%1", "bad-subnet"), ("noban", "bad-subnet"), ("@", "bad-subnet"), (" ", "bad-subnet"),
        ("10.0.0.1 ", "bad-subnet"), ("10.0.0.1\r", "bad-subnet"),
    ):
        fails(gate, [TIMES, "", "whitelist " + entry, "whitelist x@1", "x"], 3, token)
    fails(gate, [TIMES, "whitelist"], 2, "bad-line")
    fails(gate, [TIMES, "whitelist "], 2, "bad-line")
    fails(gate, [TIMES, "x", "whitelist x@1"], 2, "bad-line")
    fails(gate, [coin(1, 2100000000000001), "whitelist x@1"], 2, "unknown-permission")


def test_settings(gate):
    """Each setting stands once, and is 0 or 1; `rpcwhitelist` takes any text."""
    for name in ("whitelistrelay", "whitelistforcerelay", "rpcwhitelistdefault", "blocksonly", "bloom"):
        for text in ("%s" % name, "%s 2" % name, "%s on" % name, "%s  1" % name, "%s 1 " % name, "%s 01" % name):
            fails(gate, [TIMES, text], 2, "bad-line")
        for one, other in (("0", "1"), ("1", "1")):
            fails(gate, [TIMES, "%s %s" % (name, one), "%s %s" % (name, other)], 3, "bad-line")
    fails(gate, [TIMES, "rpcwhitelist"], 2, "bad-line")
    fails(gate, [TIMES, "rpcwhitelist "], 2, "bad-line")
    gate.answers([TIMES, "rpcwhitelist  ", "rpcwhitelist :", "rpcwhitelist a:b:c", "rpcwhitelist a:b:c"], [("peer 1 enter ::1", "entered none")])


def test_blocks_only(gate):
    """P4 stands before decoding, and closes a noban peer too."""
    opening = OPEN + ["blocksonly 1", "whitelist noban@10.0.0.1", "whitelist relay@10.0.0.2"]
    tx = payment(1, 99000)
    gate.answers(opening, [
        ("peer 1 tx 0 zz", "denied P1 keep peer-unknown"),
        ("peer 1 enter 10.0.0.1", "entered noban,download"),
        ("peer 1 tx 0 zz", "denied P4 close blocks-only"),
        ("peer 1 tx 0 zz", "denied P2 keep peer-closed"),
        ("peer 2 enter 10.0.0.2", "entered relay"),
        ("peer 2 tx 0 zz", "denied A1 keep tx-decode"),
        ("peer 2 tx 0 " + tx.hex(), "admitted %s fee 1000 vsize %d replaced 0" % (tx.txid(), tx.virtual_size(1))),
    ])


def test_noban_peers_stay(gate):
    """A noban peer that breaks consensus, or asks for what it may not, stays."""
    bad = payment(1, -1)
    gate.answers(OPEN + ["whitelist noban@10.0.0.1"], [
        ("peer 1 enter 10.0.0.1", "entered noban,download"),
        ("peer 1 tx 0 " + bad.hex(), "denied A5 keep bad-txns-vout-negative"),
        ("peer 1 mempool", "denied P6 keep mempool-no-bloom"),
        ("operator bloom on", "set"),
        ("operator upload on", "set"),
        ("peer 1 mempool", "denied P7 keep mempool-upload-target"),
        ("operator upload off", "set"),
        ("peer 1 mempool", "listing 0"),
        ("peer 2 enter 10.0.0.2", "entered none"),
        ("peer 2 tx 0 " + bad.hex(), "denied A5 close bad-txns-vout-negative"),
    ])


def test_listings_and_targets(gate):
    """P6 stands before P7; the mempool flag serves past the upload target, bloomfilter doesn't."""
    opening = OPEN + ["whitelist mempool@10.0.0.1", "whitelist bloom@10.0.0.2"]
    gate.answers(opening, [
        ("operator upload on", "set"),
        ("peer 1 enter 10.0.0.1", "entered mempool"),
        ("peer 1 mempool", "listing 0"),
        ("peer 2 enter 10.0.0.2", "entered bloomfilter"),
        ("peer 2 mempool", "denied P7 close mempool-upload-target"),
        ("peer 3 enter 10.0.0.3", "entered none"),
        ("peer 3 mempool", "denied P6 close mempool-no-bloom"),
    ])


def test_fee_filters(gate):
    """A peer's own filter hides what pays less from its own listings, at the fee exactly, and from nobody else's; it stays
    until the next one that is money, and is asked for under P1 and P2 alone."""
    opening = OPEN + ["bloom 1"]
    cheap, dear = payment(1, 99890), payment(2, 99000)
    both = "listing 2 %s %s" % (cheap.txid(), dear.txid())
    gate.answers(opening, [
        ("peer 1 feefilter 0", "denied P1 keep peer-unknown"),
        ("peer 1 enter 10.0.0.1", "entered none"),
        ("peer 2 enter 10.0.0.2", "entered none"),
        ("peer 1 tx 5000 " + cheap.hex(), "admitted %s fee 110 vsize 82 replaced 0" % cheap.txid()),
        ("peer 1 tx 5000 " + dear.hex(), "admitted %s fee 1000 vsize 82 replaced 0" % dear.txid()),
        ("peer 1 mempool", both),
        ("peer 1 feefilter 1353", "filter 1353"),
        ("peer 1 mempool", both),
        ("peer 1 feefilter 1354", "filter 1354"),
        ("peer 1 mempool", "listing 1 " + dear.txid()),
        ("peer 2 mempool", both),
        ('user a rpc 0 {"method":"getrawmempool","id":1}', 'rpc 200 {"error":null,"id":1,"result":["%s","%s"]}' % (cheap.txid(), dear.txid())),
        ("peer 1 feefilter 2100000000000000", "filter 2100000000000000"),
        ("peer 1 mempool", "listing 0"),
        ("peer 1 feefilter 9007199254740991", "filter 2100000000000000"),
        ("peer 1 feefilter 9007199254740992", "refused L1 bad-line"),
        ("peer 1 feefilter 0", "filter 0"),
        ("peer 1 mempool", both),
        ("peer 2 feefilter 2100000000000001", "filter 0"),
        ("operator bloom off", "set"),
        ("peer 2 feefilter 5", "filter 5"),
        ("peer 2 leave", "left"),
        ("peer 2 feefilter 6", "denied P2 keep peer-closed"),
    ])


def test_headers_and_blocks(gate):
    """Headers go up to 2,000; old blocks are those more than a week older than the tip."""
    week = 604800
    opening = ["times 1 1000 0", "times 1 1001 0", "times 2999 1001 0", "times 1 %d 0" % (1001 + week), "whitelist download@10.0.0.1"]
    gate.answers(opening, [
        ("peer 1 enter 10.0.0.1", "entered download"),
        ("peer 2 enter 10.0.0.2", "entered none"),
        ("peer 2 headers 0", "headers 1 2000"),
        ("peer 2 headers 1001", "headers 1002 2000"),
        ("peer 2 headers 1002", "headers 1003 1999"),
        ("peer 2 headers 3001", "headers 3002 0"),
        ("peer 2 headers 3002", "denied P9 keep unknown-block"),
        ("peer 2 headers 4294967295", "denied P9 keep unknown-block"),
        ("peer 2 headers 4294967296", "refused L1 bad-line"),
        ("operator ibd on", "set"),
        ("peer 2 headers 3002", "denied P8 keep headers-during-download"),
        ("peer 1 headers 3001", "headers 3002 0"),
        ("peer 2 getblock 0", "block 0 1000"),
        ("operator ibd off", "set"),
        ("peer 2 headers 3001", "headers 3002 0"),
        ("operator historic on", "set"),
        ("peer 2 getblock 3002", "denied P9 keep unknown-block"),
        ("peer 2 getblock 1", "block 1 1001"),
        ("peer 2 getblock 3001", "block 3001 %d" % (1001 + week)),
        ("peer 1 getblock 0", "block 0 1000"),
        ("peer 2 getblock 0", "denied P10 close historical-upload-target"),
        ("peer 2 getblock 1", "denied P2 keep peer-closed"),
    ])


def test_times_that_fall(gate):
    """A block that is later than the tip isn't old."""
    gate.answers(["times 1 4294967295 0", "times 1 0 0"], [
        ("peer 1 enter ::", "entered none"),
        ("operator historic on", "set"),
        ("peer 1 getblock 0", "block 0 4294967295"),
        ("peer 1 getblock 1", "block 1 0"),
    ])


def test_switches(gate):
    """Other words and other texts have no form."""
    for line in ("operator bloom", "operator bloom 1", "operator bloom ON", "operator bloom on ", "operator download on", "operator ibd  on", "operator on", "operator Bloom on"):
        gate.answers([TIMES], [(line, "refused L1 bad-line")])
