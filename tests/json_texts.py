"""JSON as a public suite has it (JSONTestSuite, by RFC 8259), on the built program: each text of the suite is a whole call.
What is JSON is no call with a method, so it is an invalid request; what is none is a parse error."""

from calls import INVALID_REQUEST, NOT_FOUND, PARSE_ERROR, TIMES, asked

# the suite's `y_` texts: every reader takes them
READ = (
    "[[]   ]", '[""]', "[]", '["a"]', "[false]", '[null, 1, "1", {}]', "[null]", "[1\t]", " [1]", "[1,null,null,null,2]", "[2] ",
    "[123e65]", "[0e+1]", "[0e1]", "[ 4]", "[-0.%s1]" % ("0" * 77), "[20e1]", "[-0]", "[-123]", "[-1]", "[1E22]", "[1E-2]", "[1E+2]", "[123e45]",
    "[123.456e78]", "[1e-2]", "[1e+2]", "[123]", "[123.456789]",
    '{"asd":"sdf", "dfg":"fgh"}', '{"asd":"sdf"}', '{"a":"b","a":"c"}', '{"a":"b","a":"b"}', "{}", '{"":0}', '{"foo\\u0000bar": 42}',
    '{ "min": -1.0e+28, "max": 1.0e+28 }', '{"x":[{"id": "%s"}], "id": "%s"}' % ("x" * 40, "x" * 40), '{"a":[]}',
    '["\\u0060\\u012a\\u12AB"]', '["\\uD801\\udc37"]', '["\\ud83d\\ude39\\ud83d\\udc8d"]', '["\\"\\\\\\/\\b\\f\\n\\r\\t"]', '["\\\\u0000"]', '["\\""]', '["a/*b*/c/*d//e"]',
    '["\\\\a"]', '["\\\\n"]', '["\\u0012"]', '["\\uFFFF"]', '[ "asd"]', '["\\uDBFF\\uDFFF"]', '["new\\u00A0line"]', '["\\u0000"]', '["\\u002c"]', '["\u03c0"]', '["\\uD834\\uDd1e"]',
    '["\\u0821"]', '["\\u0123"]', '["\u2028"]', '["\u2029"]', '["\\u0061\\u30af\\u30EA\\u30b9"]', '["\x7f"]', '["\\u0022"]', '["\u20ac\U0001d11e"]', '["\U0010ffff"]', '["\uffff"]',
    "false", "42", "-0.1", "null", '"asd"', "true", '""',
)

# the suite's `n_` texts: no reader takes them
REFUSED = (
    "[1 true]", '["": 1]', '[""],', "[,1]", "[1,,2]", '["x",,]', '["x"]]', '["",]', '["x"', "[x", "[3[4]]", "[1:2]", "[,]", "[-]", '[   , ""]', "[1,]", "[1,,]", "[*]", '[""', "[1,{}",
    "[fals]", "[nul]", "[tru]", "[++1234]", "[+1]", "[+Inf]", "[-01]", "[-1.0.]", "[-2.]", "[-NaN]", "[.-1]", "[.2e-3]", "[0.1.2]", "[0.3e+]", "[0.3e]", "[0.e1]", "[0e+]", "[0e]", "[0E+]", "[0E]",
    "[1.0e+]", "[1.0e-]", "[1.0e]", "[1 000.0]", "[1eE2]", "[2.e+3]", "[2.e-3]", "[2.e3]", "[9.e+]", "[Inf]", "[NaN]", "[\uff11]", "[1+2]", "[0x1]", "[0x42]", "[Infinity]", "[0e+-1]",
    "[-123.123foo]", "[-Infinity]", "[-foo]", "[- 1]", "[-012]", "[-.123]", "[-1x]", "[1ea]", "[1.]", "[.123]", "[1.2a-3]", "[1.8011670033376514H-308]", "[012]",
    '["x", truth]', '{[: "x"}', '{"x", null}', '{"x"::"b"}', "{\U0001f1e8\U0001f1ed}", '{"a":"a" 123}', "{key: 'value'}", '{"a" b}', '{:"b"}', '{"a" "b"}', '{"a":', '{"a"', "{1:1}", "{9999E9999:1}",
    "{null:null,null:null}", '{"id":0,,,,,}', "{'a':0}", '{"id":0,}', '{"a":"b"}/**/', '{"a":"b"}//', '{"a":"b",,"c":"d"}', '{a: "b"}', '{"a":"a', '{ "foo" : "bar", "a" }', '{"a":"b"}#', " ",
    '["\\uD800\\"]', '["\\uD800\\u"]', '["\\uD800\\u1"]', '["\\uD800\\u1x"]', "[\u00e9]", '["\\x00"]', '["\\\\\\"]', '["\\\t"]', '["\\\U0001f300"]', '["\\"]', '["\\u00A"]', '["\\uD834\\uDd"]',
    '["\\uD800\\uD800\\x"]', '["\\a"]', '["\\uqqqq"]', '[\\u0020"asd"]', "[\\n]", '"', "['single quote']", "abc", '["\\', '["a\x01a"]', '["\t"]', '["\\UA66D"]', '""x',
    "[\u2060]", "\ufeff", "<.>", "[<null>]", "[1]x", "[1]]", '["asd]', "a\u00e5", "[True]", "1]", '{"x": true,', "[][]", "]", '{"":', '{"a":/*comment*/"b"}', '{"a": true} "x"', "['", "[,", "{,", "{[", '{"', "{'",
    "*", '{"a":"b"}#{}', '[\\u000A""]', "[1", "[ false, nul", "[ true, fals", "[ false, tru", '{"asd":"asd"', "[\x0c]", "[" * 1000, '[{"":' * 1000,
)

# the suite's `i_` texts, which the standard leaves to the reader: half pairs of UTF-16, and what no number of 64 bits holds
LEFT_OPEN = (
    ("[123e-10000000]", True), ("[100000000000000000000]", True), ("[-123123123123123123123123123123]", True), ("[-237462374673276894279832749832423479823246327846]", True),
    ("[0.4e006699999999999999999999999999999]", False), ("[-1e+9999]", False), ("[1.5e+9999]", False), ("[-123123e100000]", False), ("[123123e100000]", False),
    ('{"\\uDFAA":0}', False), ('["\\uDADA"]', False), ('["\\uD888\\u1234"]', False), ('["\\uD800\\n"]', False), ('["\\uDd1ea"]', False), ('["\\uD800\\uD800\\n"]', False), ('["\\ud800"]', False),
    ('["\\ud800abc"]', False), ('["\\uDd1e\\uD834"]', False), ('["\\uDFAA"]', False), ("[" * 500 + "]" * 500, False), ("\ufeff{}", False),
)


def told(gate, texts, reply):
    gate.answers([TIMES], [(asked(text), reply) for text in texts])


def test_texts_that_are_read(gate):
    """Each is a value of JSON and no call."""
    told(gate, READ, INVALID_REQUEST)


def test_texts_that_are_not_read(gate):
    """None is JSON."""
    told(gate, REFUSED, PARSE_ERROR)


def test_texts_that_are_left_open(gate):
    """What this reader makes of them."""
    for is_read, reply in ((True, INVALID_REQUEST), (False, PARSE_ERROR)):
        told(gate, [text for text, found in LEFT_OPEN if found == is_read], reply)


def test_nesting(gate):
    """A value is read down to 127 levels, of lists and of objects alike; the call itself is one."""
    call = '{"a":%s,"method":"foo","id":1}'
    for depth, reply in ((126, NOT_FOUND), (127, PARSE_ERROR)):
        told(gate, [call % ("[" * depth + "]" * depth), call % ('{"":' * depth + "1" + "}" * depth)], reply)
    pairs = 63
    told(gate, [call % ('[{"":' * pairs + "1" + "}]" * pairs)], NOT_FOUND)
    told(gate, [call % ('[{"":' * pairs + "[]" + "}]" * pairs)], PARSE_ERROR)


def test_numbers_beside_the_call(gate):
    """The greatest number of 64 bits in binary floating point is read, what rounds above it is not; small ones round to 0."""
    call = '{"a":%s,"method":"foo","id":1}'
    read = ("1.7976931348623157e308", "-1.7976931348623157e308", "1.7976931348623158e308", "17976931348623157%s" % ("0" * 292), "5e-324", "1e-325", "-1e-99999", "0e99999", "9" * 308, "0." + "0" * 400 + "1")
    told(gate, [call % text for text in read], NOT_FOUND)
    told(gate, [call % text for text in ("1.7976931348623159e308", "1e309", "-1e309", "9" * 309, "1" + "0" * 309)], PARSE_ERROR)


def test_ids_are_no_floats(gate):
    """A whole id keeps all its digits; one with a fraction or an exponent is none, whatever its value is."""
    for id in (9007199254740993, 2**63, 2**63 - 1, 2**64 - 1, -(2**63), -(2**53) - 1):
        told(gate, ['{"method":"foo","id":%d}' % id], NOT_FOUND.replace('"id":1', '"id":%d' % id))
    told(gate, ['{"method":"foo","id":%s}' % id for id in ("1.0", "1e0", "10E-1", "0.0", "-0", "-0.0", "18446744073709551616", "-9223372036854775809")], INVALID_REQUEST)
    told(gate, ['{"method":"foo","id":%s}' % id for id in ("1e400", "9" * 400, "01", "+1", ".5")], PARSE_ERROR)
