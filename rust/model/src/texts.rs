//! Two tables of texts with what must become of them: values by the productions of RFC 8259, and
//! whole lines by the words of the request. Every implementation is held to both.

use crate::sizes::{ID_BYTES, LINE_DEPTH, PATH_HASHES};

/// Texts of which one sentence decides whether they are a JSON value.
pub struct Group {
    /// The sentence, with its section; of RFC 8259 unless another is named.
    pub says: &'static str,
    pub yes: &'static [&'static [u8]],
    pub no: &'static [&'static [u8]],
}

/// Values and what isn't one, production by production. None of them is empty or has a comma outside
/// of brackets, so that a text may be put where a value stands in a line, or in an array there.
pub const VALUES: &[Group] = &[
    // Section 2: JSON-text, structural characters, ws
    Group {
        says: "2: ws = *( %x20 / %x09 / %x0A / %x0D )",
        yes: &[b" 1", b"1\t", b"\n1", b"1\r", b" \t\r\n1 \n\r\t "],
        no: &[
            b"\x0b1",
            b"1\x0c",
            b"\x001",
            b"1\x00",
            b"\x081",
            b"\x1f1",
            b"\x7f1",
            b"\xc2\xa01",
            b"1\xc2\x85",
            b"\xe2\x80\x891",
            b"1\xe2\x80\xa8",
            b"\xe3\x80\x801",
            b"\xe2\x80\x8b1",
            b"/**/1",
            b"1//x",
            b"#1",
        ],
    },
    Group {
        says: "2: Insignificant whitespace is allowed before or after any of the six structural \
               characters.",
        yes: &[
            b"[ ]",
            b"{\t}",
            b"[\n1\r,\t2 ]",
            b"{ \"a\"\n:\r1\t, \"b\" :2 }",
            b" [ [ ] , { } ] ",
        ],
        no: &[
            b"[\x0b]",
            b"{\xc2\xa0}",
            b"[1\x0c]",
            b"{\"a\"\x00:1}",
            b"[1 2]",
            b"{\"a\" 1}",
            b"- 1",
            b"1 .5",
            b"1. 5",
            b"1 e5",
            b"1e 5",
            b"1e+ 5",
            b"t rue",
            b"nul l",
            b"1 2",
        ],
    },
    Group {
        says: "8.1: Implementations MUST NOT add a byte order mark (U+FEFF) to the beginning of a \
               networked-transmitted JSON text.",
        yes: &[b"\"\xef\xbb\xbf\"", b"{\"\xef\xbb\xbf\":1}"],
        no: &[
            b"\xef\xbb\xbf1",
            b"1\xef\xbb\xbf",
            b"[\xef\xbb\xbf]",
            b"\xff\xfe1\x00",
            b"\xfe\xff\x001",
            b"\xef\xbb1",
        ],
    },
    // Section 3: values
    Group {
        says: "3: A JSON value MUST be an object, array, number, or string, or one of the following \
               three literal names: false null true",
        yes: &[b"false", b"null", b"true", b"{}", b"[]", b"0", b"\"\""],
        no: &[
            b"undefined",
            b"None",
            b"a",
            b"'a'",
            b"`a`",
            b"(1)",
            b"<1>",
            b"\\u0031",
            b"=",
            b"*",
            b":",
            b"\xe2\x88\x9e",
        ],
    },
    Group {
        says: "3: The literal names MUST be lowercase. No other literal names are allowed.",
        yes: &[b"[true]", b"[false]", b"[null]"],
        no: &[
            b"True", b"FALSE", b"Null", b"nUll", b"tru", b"fals", b"nul", b"truee", b"falsey", b"nullnull",
            b"t", b"f", b"n", b"true1", b"yes", b"nil",
        ],
    },
    // Section 4: objects
    Group {
        says: "4: object = begin-object [ member *( value-separator member ) ] end-object",
        yes: &[b"{\"a\":1}", b"{\"a\":1,\"b\":2,\"c\":3}", b"{\"a\":{}}", b"{\"a\":{\"a\":{\"a\":{}}}}"],
        no: &[
            b"{",
            b"}",
            b"{\"a\":1",
            b"{\"a\":1]",
            b"{\"a\":1,}",
            b"{,\"a\":1}",
            b"{,}",
            b"{\"a\":1,,\"b\":2}",
            b"{\"a\":1;\"b\":2}",
            b"{\"a\":1 \"b\":2}",
            b"{\"a\":1}}",
            b"{{}}",
        ],
    },
    Group {
        says: "4: A name is a string. A single colon comes after each name, separating the name from \
               the value.",
        yes: &[b"{\"\":0}", b"{\"\\u0000\":0}", b"{\"a b\":\"c\"}"],
        no: &[
            b"{a:1}",
            b"{1:1}",
            b"{null:1}",
            b"{'a':1}",
            b"{[]:1}",
            b"{\"a\"}",
            b"{\"a\":}",
            b"{:1}",
            b"{\"a\"::1}",
            b"{\"a\"=1}",
            b"{\"a\",1}",
        ],
    },
    Group {
        says: "4: The names within an object SHOULD be unique.",
        yes: &[b"{\"a\":1,\"a\":2}", b"{\"a\":1,\"\\u0061\":1}", b"{\"\":1,\"\":1,\"\":1}"],
        no: &[],
    },
    // Section 5: arrays
    Group {
        says: "5: array = begin-array [ value *( value-separator value ) ] end-array",
        yes: &[b"[0]", b"[1,2,3]", b"[[]]", b"[[],[[]]]"],
        no: &[
            b"[",
            b"]",
            b"[1",
            b"[1}",
            b"[1,]",
            b"[,1]",
            b"[,]",
            b"[1,,2]",
            b"[1;2]",
            b"[1 ,]",
            b"[1]]",
            b"[\"a\":1]",
            b"[\"a",
            b"[1:2]",
        ],
    },
    Group {
        says: "5: There is no requirement that the values in an array be of the same type.",
        yes: &[b"[1,\"a\",null,{},[],true,1.5]", b"[{\"a\":[{\"b\":[]}]}]"],
        no: &[],
    },
    // Section 6: numbers
    Group {
        says: "6: int = zero / ( digit1-9 *DIGIT ). Leading zeros are not allowed.",
        yes: &[
            b"0",
            b"-0",
            b"7",
            b"-1",
            b"10",
            b"1234567890",
            b"4294967295",
            b"4294967296",
            b"18446744073709551615",
            b"18446744073709551616",
            b"100000000000000000000000000000000000000000",
        ],
        no: &[
            b"00", b"01", b"-00", b"-01", b"007", b"+1", b"+0", b"--1", b"-", b"+", b"-a", b"1-", b"0x1", b"0b1",
            b"1a", b"1_0", b"1'0", b"\xd9\xa1", b"\xef\xbc\x91",
        ],
    },
    Group {
        says: "6: A fraction part is a decimal point followed by one or more digits.",
        yes: &[b"0.0", b"7.0", b"-0.5", b"1.000", b"0.10", b"123.456"],
        no: &[b".5", b"-.5", b"1.", b"0.", b"1..2", b"1.2.3", b"1.-2", b"1.a", b"1.e1", b"01.5"],
    },
    Group {
        says: "6: The E and optional sign are followed by one or more digits.",
        yes: &[
            b"1e0", b"1E0", b"1e+5", b"1E-5", b"0e0", b"-0e-0", b"1.5e10", b"1e00", b"1e007", b"1e400",
        ],
        no: &[
            b"1e", b"1E", b"1e+", b"1E-", b"e5", b"1e5.5", b"1ee5", b"1e+-5", b"1e5e5", b".e1", b"-e1", b"00e1",
            b"1e\xc2\xb2",
        ],
    },
    Group {
        says: "6: Numeric values that cannot be represented in the grammar below (such as Infinity and \
               NaN) are not permitted.",
        yes: &[],
        no: &[b"NaN", b"-NaN", b"Infinity", b"-Infinity", b"inf", b"1.#INF", b"nan"],
    },
    // Section 7: strings
    Group {
        says: "7: A string begins and ends with quotation marks.",
        yes: &[b"\"\"", b"\"a\"", b"\"'\"", b"\"/\"", b"\" \""],
        no: &[b"\"", b"\"a", b"a\"", b"\"a\"b\"", b"\"a\"\"", b"\"\"\"", b"\xe2\x80\x9ca\xe2\x80\x9d", b"\"a\\\""],
    },
    Group {
        says: "7: All Unicode characters may be placed within the quotation marks, except for the \
               characters that MUST be escaped: quotation mark, reverse solidus, and the control \
               characters (U+0000 through U+001F).",
        yes: &[
            b"\"\x20\x21\x23\x5b\x5d\x7e\"",
            b"\"\x7f\"",
            b"\"\xc2\x80\xc2\x9f\"",
            b"\"\xe2\x80\xa8\xe2\x80\xa9\"",
            b"\"\xef\xbf\xbf\"",
            b"\"\xf4\x8f\xbf\xbf\"",
        ],
        no: &[
            b"\"\x00\"",
            b"\"a\x00b\"",
            b"\"\x01\"",
            b"\"\x08\"",
            b"\"\x09\"",
            b"\"\x0a\"",
            b"\"\x0d\"",
            b"\"\x1f\"",
            b"\"\\\"",
            b"{\"a\x00\":1}",
            b"{\"a\tb\":1}",
        ],
    },
    Group {
        says: "7: char = unescaped / escape ( %x22 / %x5C / %x2F / %x62 / %x66 / %x6E / %x72 / %x74 / %x75 4HEXDIG )",
        yes: &[
            b"\"\\\"\"",
            b"\"\\\\\"",
            b"\"\\/\"",
            b"\"\\b\\f\\n\\r\\t\"",
            b"\"\\\\\\\"\"",
            b"\"\\\\\\\\\"",
            b"{\"\\n\":0}",
        ],
        no: &[
            b"\"\\a\"",
            b"\"\\v\"",
            b"\"\\0\"",
            b"\"\\x41\"",
            b"\"\\'\"",
            b"\"\\ \"",
            b"\"\\\n\"",
            b"\"\\B\"",
            b"\"\\N\"",
            b"\"\\U0041\"",
            b"\"\\",
            b"\"\\\\\\\"",
            b"\"\\\xc3\xa9\"",
            b"\"\\\x00\"",
        ],
    },
    Group {
        says: "7: a reverse solidus, followed by the lowercase letter u, followed by four hexadecimal \
               digits [..] The hexadecimal letters A through F can be uppercase or lowercase.",
        yes: &[
            b"\"\\u0041\"",
            b"\"\\u00e9\\u00E9\"",
            b"\"\\uabcd\\uABCD\\uaBcD\"",
            b"\"\\u0000\"",
            b"\"\\uffff\"",
            b"\"\\u00411\"",
            b"\"\\ud834\\udd1e\"",
        ],
        no: &[
            b"\"\\u\"",
            b"\"\\u0\"",
            b"\"\\u00\"",
            b"\"\\u004\"",
            b"\"\\u004g\"",
            b"\"\\ug041\"",
            b"\"\\u 041\"",
            b"\"\\u+041\"",
            b"\"\\u-041\"",
            b"\"\\u0x41\"",
            b"\"\\u{41}\"",
            b"\"\\u00\xd9\xa1\xd9\xa2\"",
            b"\"\\u\\u0041\"",
        ],
    },
    Group {
        says: "8.2: the ABNF in this specification allows member names and string values to contain bit \
               sequences that cannot encode Unicode characters; for example, \"\\uDEAD\"",
        yes: &[
            b"\"\\uDEAD\"",
            b"\"\\ud800\"",
            b"\"\\udfff\"",
            b"\"\\ud800\\ud800\"",
            b"\"\\udc00\\ud800\"",
            b"\"\\ud800a\"",
            b"\"\\ud800\\n\"",
            b"{\"\\udbff\":0}",
        ],
        no: &[b"\"\\ud80\"", b"\"\\ud800\\u\"", b"\"\\ud800\\\"", b"\"\\ud800\\udc0\""],
    },
    // Section 8.1: UTF-8, by RFC 3629
    Group {
        says: "RFC 3629, 4: UTF8-1 = %x00-7F; UTF8-tail = %x80-BF",
        yes: &[b"\"\x7f\""],
        no: &[
            b"\"\x80\"",
            b"\"\xbf\"",
            b"\"a\x80\"",
            b"\x80",
            b"\"\x80\x80\"",
            b"\"\xc2\x80\x80\"",
            b"{\"\xbf\":1}",
            b"[\x9f]",
        ],
    },
    Group {
        says: "RFC 3629, 4: UTF8-2 = %xC2-DF UTF8-tail",
        yes: &[b"\"\xc2\x80\"", b"\"\xc3\xa9\"", b"\"\xdf\xbf\"", b"{\"\xc3\xbc\":1}"],
        no: &[
            b"\"\xc0\x80\"",
            b"\"\xc0\xaf\"",
            b"\"\xc0\xbf\"",
            b"\"\xc1\x80\"",
            b"\"\xc1\xbf\"",
            b"\"\xc2\"",
            b"\"\xc2\x7f\"",
            b"\"\xdf\xc0\"",
            b"\"\xc2 \"",
            b"\"\xc2",
            b"\xc0\xa21\xc0\xa2",
        ],
    },
    Group {
        says: "RFC 3629, 4: UTF8-3 = %xE0 %xA0-BF UTF8-tail / %xE1-EC 2( UTF8-tail ) / %xED %x80-9F \
               UTF8-tail / %xEE-EF 2( UTF8-tail )",
        yes: &[
            b"\"\xe0\xa0\x80\"",
            b"\"\xe0\xbf\xbf\"",
            b"\"\xe1\x80\x80\"",
            b"\"\xe2\x82\xac\"",
            b"\"\xec\xbf\xbf\"",
            b"\"\xed\x80\x80\"",
            b"\"\xed\x9f\xbf\"",
            b"\"\xee\x80\x80\"",
            b"\"\xef\xbf\xbd\"",
        ],
        no: &[
            b"\"\xe0\x80\x80\"",
            b"\"\xe0\x9f\xbf\"",
            b"\"\xe0\x80\xaf\"",
            b"\"\xe1\x7f\x80\"",
            b"\"\xe1\xc0\x80\"",
            b"\"\xe1\x80\xc0\"",
            b"\"\xe1\x80\"",
            b"\"\xe1\"",
            b"\"\xef\xbf\"",
            b"\"\xef\xbf\x7f\"",
            b"\"\xe2\x82",
        ],
    },
    Group {
        says: "RFC 3629, 3: The definition of UTF-8 prohibits encoding character numbers between U+D800 \
               and U+DFFF",
        yes: &[b"\"\xed\x9f\x80\"", b"\"\xee\x80\xbf\""],
        no: &[
            b"\"\xed\xa0\x80\"",
            b"\"\xed\xad\xbf\"",
            b"\"\xed\xae\x80\"",
            b"\"\xed\xaf\xbf\"",
            b"\"\xed\xb0\x80\"",
            b"\"\xed\xbf\xbf\"",
            b"\"\xed\xa0\xb4\xed\xb4\x9e\"",
            b"{\"\xed\xa0\x80\":1}",
        ],
    },
    Group {
        says: "RFC 3629, 4: UTF8-4 = %xF0 %x90-BF 2( UTF8-tail ) / %xF1-F3 3( UTF8-tail ) / %xF4 %x80-8F \
               2( UTF8-tail )",
        yes: &[
            b"\"\xf0\x90\x80\x80\"",
            b"\"\xf0\x9d\x84\x9e\"",
            b"\"\xf0\xbf\xbf\xbf\"",
            b"\"\xf1\x80\x80\x80\"",
            b"\"\xf3\xbf\xbf\xbf\"",
            b"\"\xf4\x80\x80\x80\"",
            b"\"\xf4\x8f\xbf\xbf\"",
        ],
        no: &[
            b"\"\xf0\x80\x80\x80\"",
            b"\"\xf0\x8f\xbf\xbf\"",
            b"\"\xf0\x82\x82\xac\"",
            b"\"\xf4\x90\x80\x80\"",
            b"\"\xf4\xbf\xbf\xbf\"",
            b"\"\xf1\x80\x80\"",
            b"\"\xf1\x80\"",
            b"\"\xf1\"",
            b"\"\xf1\x80\x80\xc0\"",
            b"\"\xf1\x80\xc0\x80\"",
            b"\"\xf1\x7f\x80\x80\"",
            b"\"\xf3\xbf\xbf",
        ],
    },
    Group {
        says: "RFC 3629, 1: The octet values C0, C1, F5 to FF never appear.",
        yes: &[],
        no: &[
            b"\"\xf5\x80\x80\x80\"",
            b"\"\xf7\xbf\xbf\xbf\"",
            b"\"\xf8\x88\x80\x80\x80\"",
            b"\"\xfb\xbf\xbf\xbf\xbf\"",
            b"\"\xfc\x84\x80\x80\x80\x80\"",
            b"\"\xfd\xbf\xbf\xbf\xbf\xbf\"",
            b"\"\xfe\"",
            b"\"\xff\"",
            b"\"\xff\xff\xff\xff\"",
            b"\xff",
        ],
    },
];

/// The lines that hold a value as an unknown member: at the end, at the front, and in an array.
pub fn holding(value: &[u8]) -> [Vec<u8>; 3] {
    let ours = spelled(b"\"_id\":\"lot\",\"_rev\":\"1-@20\",\"label\":7");
    [
        [b"{", &ours[..], b",\"x\":", value, b"}"].concat(),
        [b"{\"x\":", value, b",", &ours[..], b"}"].concat(),
        [b"{\"x\":[", value, b"],", &ours[..], b"}"].concat(),
    ]
}

/// A text in which `@` and two digits stand for a hash of that first byte, the rest zeros.
pub fn spelled(text: &[u8]) -> Vec<u8> {
    let mut spelled = Vec::new();
    let mut left = text;
    while let Some(at) = left.iter().position(|&byte| byte == b'@') {
        spelled.extend(&left[..at]);
        spelled.extend(&left[at + 1..at + 3]);
        spelled.extend([b'0'; 30]);
        left = &left[at + 3..];
    }
    spelled.extend(left);
    spelled
}

/// What must become of a line that is taken into a fresh replica.
#[derive(Clone, Debug)]
pub enum Outcome {
    /// It is taken, and the document is put out as this line.
    Put(Vec<u8>),
    Refused(u32),
}

/// A line, what must become of it, and the words that say so.
#[derive(Clone, Debug)]
pub struct Line {
    pub text: Vec<u8>,
    pub outcome: Outcome,
    pub says: &'static str,
}

/// The line of the first of the worked cases, as it is put out.
const LOT: &[u8] =
    br#"{"_id":"lot","_rev":"1-@20","_revisions":{"start":1,"ids":["@20"]},"label":7}"#;

/// Lines that are taken, what they put out, and the words that say so.
const TAKEN: &[(&[u8], &[u8], &str)] = &[
    (LOT, LOT, "What we put out comes back as the same write."),
    (
        br#"{"_id":"lot","_rev":"3-@05","_revisions":{"start":3,"ids":["@05","@91","@20"]},"_deleted":true}"#,
        br#"{"_id":"lot","_rev":"3-@05","_revisions":{"start":3,"ids":["@05","@91","@20"]},"_deleted":true}"#,
        "What we put out comes back as the same write.",
    ),
    (
        br#"{"_id":"lot","_rev":"1-@20","label":7}"#,
        LOT,
        "Without `_revisions` the path is the one revision of `_rev`.",
    ),
    (
        br#"{"_id":"lot","_rev":"9-@aa","_deleted":true}"#,
        br#"{"_id":"lot","_rev":"9-@aa","_revisions":{"start":9,"ids":["@aa"]},"_deleted":true}"#,
        "Without `_revisions` the path is the one revision of `_rev`.",
    ),
    (
        br#"{"label":7,"_revisions":{"ids":["@20"],"start":1},"_rev":"1-@20","_id":"lot"}"#,
        LOT,
        "RFC 8259, 4: Implementations whose behavior does not depend on member ordering will be interoperable",
    ),
    (
        b" \t\r\n{ \"_id\"\t:\r\"lot\" ,\n\"_rev\" : \"1-@20\" , \"_revisions\" : { \"start\" : 1 , \
          \"ids\" : [ \"@20\" ] } , \"label\" : 7 } \n",
        LOT,
        "RFC 8259, 2: Insignificant whitespace is allowed before or after any of the six structural \
         characters.",
    ),
    (
        b"{\"_id\":\"lot\",\"_rev\":\"1-@20\",\"label\":7}\n",
        LOT,
        "RFC 8259, 2: JSON-text = ws value ws",
    ),
    (
        br#"{"a":{"b":[1,{"c":null}]},"_id":"lot","d":[],"_rev":"1-@20","e":-1.5e3,"label":7,"f":"g"}"#,
        LOT,
        "Unknown members are passed over whatever they hold",
    ),
    (
        br#"{"_id":"lot","x":1,"_rev":"1-@20","x":2,"label":7,"x":{"x":1,"x":1}}"#,
        LOT,
        "Unknown members are passed over whatever they hold",
    ),
    (
        br#"{"x":{"_id":"no","_rev":4,"label":[],"_deleted":false},"_id":"lot","_rev":"1-@20","label":7}"#,
        LOT,
        "Unknown members are passed over whatever they hold",
    ),
    (
        br#"{"start":9,"ids":[],"_id":"lot","_rev":"1-@20","label":7,"start":null}"#,
        LOT,
        "`_revisions` with `start` and `ids`",
    ),
    (
        br#"{"_id":"lot","\u005fid":"no","_rev":"1-@20","_\u0072ev":1,"label":7,"l\u0061bel":8}"#,
        LOT,
        "a member name with an escape is unknown",
    ),
    (
        br#"{"_id":"lot","_rev":"1-@20","label":7,"_delete\u0064":false,"\u005frevisions":[]}"#,
        LOT,
        "a member name with an escape is unknown",
    ),
    (
        br#"{"_id":"lot","_rev":"1-@20","_revisions":{"\u0073tart":9,"start":1,"ids":["@20"],"id\u0073":[]},"label":7}"#,
        LOT,
        "a member name with an escape is unknown",
    ),
    (
        br#"{"_id":"lot","_rev":"1-@20","_revisions":{"_id":4,"start":1,"x":[{"ids":[]}],"ids":["@20"],"x":0,"start ":2},"label":7}"#,
        LOT,
        "Unknown members are passed over whatever they hold",
    ),
    (
        br#"{"_ID":1,"_id ":1," _id":1,"id":1,"":1,"Label":1,"rev":1,"_id":"lot","_rev":"1-@20","label":7,"_deleted_":0}"#,
        LOT,
        "`_id`, `_rev`, `_revisions` with `start` and `ids`, `_deleted`, and our member `label`",
    ),
    (
        br#"{"_attachments":{"f":{"stub":true}},"_id":"lot","_conflicts":["2-x"],"_rev":"1-@20","label":7}"#,
        LOT,
        "Unknown members are passed over whatever they hold",
    ),
    (
        b"{\"_id\":\"lot\",\"_rev\":\"1-@20\",\"label\":7,\"x\":\"\x7f\xc3\xa9\xf0\x9d\x84\x9e\\ud800\\u0000\"}",
        LOT,
        "RFC 8259, 7: All Unicode characters may be placed within the quotation marks",
    ),
    (
        b"{\"_id\":\"lot\",\"_rev\":\"1-@20\",\"label\":7,\"\\ud800\xc3\xa9\":1,\"\xef\xbb\xbf\":2}",
        LOT,
        "RFC 8259, 4: A name is a string.",
    ),
    (
        br#"{"_id":"lot","_rev":"1-@20","label":7,"x":[1e400,-0,-0.0,123456789012345678901234567890,1E-9]}"#,
        LOT,
        "Unknown members are passed over whatever they hold",
    ),
    (
        br#"{"_id":"lot","_rev":"1-@20","label":0}"#,
        br#"{"_id":"lot","_rev":"1-@20","_revisions":{"start":1,"ids":["@20"]},"label":0}"#,
        "Label 0 is an ordinary label.",
    ),
    (
        br#"{"_id":"lot","_rev":"1-@20","label":18446744073709551615}"#,
        br#"{"_id":"lot","_rev":"1-@20","_revisions":{"start":1,"ids":["@20"]},"label":18446744073709551615}"#,
        "a live body with its 64-bit label",
    ),
    (
        br#"{"_id":"lot","_rev":"1-@20","label":9007199254740993}"#,
        br#"{"_id":"lot","_rev":"1-@20","_revisions":{"start":1,"ids":["@20"]},"label":9007199254740993}"#,
        "a live body with its 64-bit label",
    ),
    (
        br#"{"_id":"lot","_rev":"4294967295-@20","label":4294967296}"#,
        br#"{"_id":"lot","_rev":"4294967295-@20","_revisions":{"start":4294967295,"ids":["@20"]},"label":4294967296}"#,
        "Numbers run from 1 to 4,294,967,295.",
    ),
    (
        br#"{"_id":"lot","_rev":"2-@20","_revisions":{"start":2,"ids":["@20","@20"]},"label":7}"#,
        br#"{"_id":"lot","_rev":"2-@20","_revisions":{"start":2,"ids":["@20","@20"]},"label":7}"#,
        "A revision of a document is a number and a hash.",
    ),
    (
        br#"{"_id":"lot","_rev":"1-00000000000000000000000000000000","label":7}"#,
        br#"{"_id":"lot","_rev":"1-00000000000000000000000000000000","_revisions":{"start":1,"ids":["00000000000000000000000000000000"]},"label":7}"#,
        "Hashes are 32 lower-case hex digits",
    ),
    (
        br#"{"_id":"lot","_rev":"1-0123456789abcdef0123456789abcdef","label":7}"#,
        br#"{"_id":"lot","_rev":"1-0123456789abcdef0123456789abcdef","_revisions":{"start":1,"ids":["0123456789abcdef0123456789abcdef"]},"label":7}"#,
        "Hashes are 32 lower-case hex digits",
    ),
    (
        br#"{"_id":" !#$%&'()*+,-./09:;<=>?","_rev":"1-@20","label":7}"#,
        br#"{"_id":" !#$%&'()*+,-./09:;<=>?","_rev":"1-@20","_revisions":{"start":1,"ids":["@20"]},"label":7}"#,
        "Ids put out or taken in are, as written, bytes 20 to 7e hex with no quote or backslash",
    ),
    (
        br#"{"_id":"AZ[]^_`az{|}~","_rev":"1-@20","label":7}"#,
        br#"{"_id":"AZ[]^_`az{|}~","_rev":"1-@20","_revisions":{"start":1,"ids":["@20"]},"label":7}"#,
        "Ids put out or taken in are, as written, bytes 20 to 7e hex with no quote or backslash",
    ),
];

const NO_OBJECT: &str = "40 not one UTF-8 JSON object (RFC 8259)";
const NO_NUMBER: &str =
    "RFC 8259, 6: Numeric values that cannot be represented in the grammar below (such \
                         as Infinity and NaN) are not permitted.";
const TOO_DEEP: &str = "40 not one UTF-8 JSON object (RFC 8259) or too deep";
const ABSENT: &str = "41 member absent";
const REPEATED: &str = "41 member absent, repeated";
const WRONG_FORM: &str = "41 member absent, repeated or of the wrong form";
const BARE_DIGITS: &str =
    "numbers that exceed their field, aren't bare digits or lead with a spare zero \
                           [..] are wrong form";
const HEX_DIGITS: &str = "Hashes are 32 lower-case hex digits";
const ESCAPES: &str = "escapes in our strings other than the id, are wrong form";
const ALWAYS_TRUE: &str = "Every line has `_deleted`, always true, or `label`; both is wrong form.";
const DIFFER: &str = "42 `_rev` and `_revisions` differ or no ids";
const UNWRITABLE: &str = "43 id can't be written";
const ORDER: &str = "checked in that order, before 1 to 8";

/// Lines that are refused, the number, and the words that say so.
const REFUSED: &[(&[u8], u32, &str)] = &[
    (b"", 40, NO_OBJECT),
    (b" \n", 40, NO_OBJECT),
    (b"null", 40, NO_OBJECT),
    (b"7", 40, NO_OBJECT),
    (b"\"lot\"", 40, NO_OBJECT),
    (br#"[{"_id":"lot","_rev":"1-@20","label":7}]"#, 40, NO_OBJECT),
    (b"\xef\xbb\xbf{\"_id\":\"lot\",\"_rev\":\"1-@20\",\"label\":7}", 40, NO_OBJECT),
    (br#"{"_id":"lot","_rev":"1-@20","label":7}{"_id":"lot","_rev":"1-@20","label":7}"#, 40, NO_OBJECT),
    (b"{\"_id\":\"lot\",\"_rev\":\"1-@20\",\"label\":7}\n{\"_id\":\"lot\",\"_rev\":\"1-@20\",\"label\":7}", 40, NO_OBJECT),
    (br#"{"_id":"lot","_rev":"1-@20","label":7},"#, 40, NO_OBJECT),
    (br#"{"_id":"lot","_rev":"1-@20","label":7,}"#, 40, NO_OBJECT),
    (br#"{"_id":"lot","_rev":"1-@20","label":7"#, 40, NO_OBJECT),
    (br#"{"_id":"lot","_rev":"1-@20","label":7}}"#, 40, NO_OBJECT),
    (b"{\"_id\":\"lot\",\"_rev\":\"1-@20\",\"label\":7}\0", 40, NO_OBJECT),
    (b"\0{\"_id\":\"lot\",\"_rev\":\"1-@20\",\"label\":7}", 40, NO_OBJECT),
    (b"{\"_id\":\"l\0t\",\"_rev\":\"1-@20\",\"label\":7}", 40, NO_OBJECT),
    (b"{\"_id\":\"l\nt\",\"_rev\":\"1-@20\",\"label\":7}", 40, NO_OBJECT),
    (b"{\"_id\":\"l\xc0\xaft\",\"_rev\":\"1-@20\",\"label\":7}", 40, NO_OBJECT),
    (b"{\"_id\":\"l\xed\xa0\x80t\",\"_rev\":\"1-@20\",\"label\":7}", 40, NO_OBJECT),
    (b"{\"_id\":\"lot\",\"_rev\":\"1-@20\",\"label\":7,\"x\":\"\xff\"}", 40, NO_OBJECT),
    (b"{\"_id\":\"lot\",\"_rev\":\"1-@20\",\"label\":7,\"\xf4\x90\x80\x80\":1}", 40, NO_OBJECT),
    (b"{\"_id\":\"lot\",\"_rev\":\"1-@20\",\"label\":7}\xc2", 40, NO_OBJECT),
    (br#"{"_id":"lot","_rev":"1-@20","label":07}"#, 40, "RFC 8259, 6: Leading zeros are not allowed."),
    (br#"{"_id":"lot","_rev":"1-@20","label":+7}"#, 40, "RFC 8259, 6: number = [ minus ] int [ frac ] [ exp ]"),
    (br#"{"_id":"lot","_rev":"1-@20","label":.7}"#, 40, "RFC 8259, 6: number = [ minus ] int [ frac ] [ exp ]"),
    (br#"{"_id":"lot","_rev":"1-@20","label":7.}"#, 40, "RFC 8259, 6: number = [ minus ] int [ frac ] [ exp ]"),
    (br#"{"_id":"lot","_rev":"1-@20","label":NaN}"#, 40, NO_NUMBER),
    (br#"{"_id":"lot","_rev":"1-@20","label":0x7}"#, 40, NO_OBJECT),
    (br#"{"_id":"lot","_rev":"1-@20","_revisions":{"start":01,"ids":["@20"]},"label":7}"#, 40, NO_OBJECT),
    (br#"{"_id":"lot","_rev":"1-@20","_revisions":{"start":1,"ids":["@20",]},"label":7}"#, 40, NO_OBJECT),
    (br#"{"_id":"lot","_rev":"1-@20","_deleted":True}"#, 40, "RFC 8259, 3: The literal names MUST be lowercase."),
    (br#"{_id:"lot","_rev":"1-@20","label":7}"#, 40, "RFC 8259, 4: A name is a string."),
    // Members absent
    (b"{}", 41, ABSENT),
    (br#"{"_rev":"1-@20","label":7}"#, 41, ABSENT),
    (br#"{"_id":"lot","label":7}"#, 41, ABSENT),
    (br#"{"_id":"lot","_rev":"1-@20"}"#, 41, ABSENT),
    (br#"{"_id":"lot","_rev":"1-@20","_revisions":{"start":1,"ids":["@20"]}}"#, 41, ABSENT),
    (br#"{"_id":"lot","_rev":"1-@20","x":{"label":7}}"#, 41, ABSENT),
    (br#"{"\u005fid":"lot","_rev":"1-@20","label":7}"#, 41, "a member name with an escape is unknown"),
    (br#"{"_id":"lot","_re\u0076":"1-@20","label":7}"#, 41, "a member name with an escape is unknown"),
    (br#"{"_id":"lot","_rev":"1-@20","labe\u006c":7}"#, 41, "a member name with an escape is unknown"),
    (br#"{"_id":"lot","_rev":"1-@20","_revisions":{"ids":["@20"]},"label":7}"#, 41, ABSENT),
    (br#"{"_id":"lot","_rev":"1-@20","_revisions":{"start":1},"label":7}"#, 41, ABSENT),
    (br#"{"_id":"lot","_rev":"1-@20","_revisions":{},"label":7}"#, 41, ABSENT),
    (br#"{"_id":"lot","_rev":"1-@20","_revisions":{"start":1,"id\u0073":["@20"]},"label":7}"#, 41, ABSENT),
    (br#"{"_id":"lot","_rev":"1-@20","start":1,"_revisions":{"ids":["@20"]},"label":7}"#, 41, ABSENT),
    // Members repeated
    (br#"{"_id":"lot","_id":"lot","_rev":"1-@20","label":7}"#, 41, REPEATED),
    (br#"{"_id":"lot","_rev":"1-@20","_rev":"1-@20","label":7}"#, 41, REPEATED),
    (br#"{"_id":"lot","_rev":"1-@20","label":7,"label":7}"#, 41, REPEATED),
    (br#"{"_id":"lot","_rev":"1-@20","_deleted":true,"_deleted":true}"#, 41, REPEATED),
    (br#"{"_id":"lot","_rev":"1-@20","_revisions":{"start":1,"ids":["@20"]},"label":7,"_revisions":{"start":1,"ids":["@20"]}}"#, 41, REPEATED),
    (br#"{"_id":"lot","_rev":"1-@20","_revisions":{"start":1,"ids":["@20"],"start":1},"label":7}"#, 41, REPEATED),
    (br#"{"_id":"lot","_rev":"1-@20","_revisions":{"ids":["@20"],"start":1,"ids":["@20"]},"label":7}"#, 41, REPEATED),
    // The id and the revision
    (br#"{"_id":4,"_rev":"1-@20","label":7}"#, 41, WRONG_FORM),
    (br#"{"_id":null,"_rev":"1-@20","label":7}"#, 41, WRONG_FORM),
    (br#"{"_id":["lot"],"_rev":"1-@20","label":7}"#, 41, WRONG_FORM),
    (br#"{"_id":"lot","_rev":1,"label":7}"#, 41, WRONG_FORM),
    (br#"{"_id":"lot","_rev":"","label":7}"#, 41, WRONG_FORM),
    (br#"{"_id":"lot","_rev":"1","label":7}"#, 41, WRONG_FORM),
    (br#"{"_id":"lot","_rev":"1-","label":7}"#, 41, WRONG_FORM),
    (br#"{"_id":"lot","_rev":"-@20","label":7}"#, 41, BARE_DIGITS),
    (br#"{"_id":"lot","_rev":"@20","label":7}"#, 41, WRONG_FORM),
    (br#"{"_id":"lot","_rev":"01-@20","label":7}"#, 41, BARE_DIGITS),
    (br#"{"_id":"lot","_rev":"00-@20","label":7}"#, 41, BARE_DIGITS),
    (br#"{"_id":"lot","_rev":"+1-@20","label":7}"#, 41, BARE_DIGITS),
    (br#"{"_id":"lot","_rev":"-1-@20","label":7}"#, 41, BARE_DIGITS),
    (br#"{"_id":"lot","_rev":" 1-@20","label":7}"#, 41, BARE_DIGITS),
    (br#"{"_id":"lot","_rev":"1 -@20","label":7}"#, 41, BARE_DIGITS),
    (br#"{"_id":"lot","_rev":"1.0-@20","label":7}"#, 41, BARE_DIGITS),
    (br#"{"_id":"lot","_rev":"1e0-@20","label":7}"#, 41, BARE_DIGITS),
    (b"{\"_id\":\"lot\",\"_rev\":\"\xd9\xa1-@20\",\"label\":7}", 41, BARE_DIGITS),
    (br#"{"_id":"lot","_rev":"4294967296-@20","label":7}"#, 41, BARE_DIGITS),
    (br#"{"_id":"lot","_rev":"4294967297-@20","label":7}"#, 41, BARE_DIGITS),
    (br#"{"_id":"lot","_rev":"18446744073709551617-@20","label":7}"#, 41, BARE_DIGITS),
    (br#"{"_id":"lot","_rev":"100000000000000000000000000000000000001-@20","label":7}"#, 41, BARE_DIGITS),
    (br#"{"_id":"lot","_rev":"1-@200","label":7}"#, 41, HEX_DIGITS),
    (br#"{"_id":"lot","_rev":"1-2000000000000000000000000000000","label":7}"#, 41, HEX_DIGITS),
    (br#"{"_id":"lot","_rev":"1-@2A","label":7}"#, 41, HEX_DIGITS),
    (br#"{"_id":"lot","_rev":"1-@2g","label":7}"#, 41, HEX_DIGITS),
    (br#"{"_id":"lot","_rev":"1--@20","label":7}"#, 41, HEX_DIGITS),
    (br#"{"_id":"lot","_rev":"1-@20 ","label":7}"#, 41, HEX_DIGITS),
    (br#"{"_id":"lot","_rev":"1- @20","label":7}"#, 41, HEX_DIGITS),
    (br#"{"_id":"lot","_rev":"\u0031-@20","label":7}"#, 41, ESCAPES),
    (br#"{"_id":"lot","_rev":"1\u002d@20","label":7}"#, 41, ESCAPES),
    (br#"{"_id":"lot","_rev":"1-\u00320000000000000000000000000000000","label":7}"#, 41, ESCAPES),
    (br#"{"_id":"lot","_rev":"1-\u003200000000000000000000000000","label":7}"#, 41, ESCAPES),
    // The content
    (br#"{"_id":"lot","_rev":"1-@20","label":"7"}"#, 41, WRONG_FORM),
    (br#"{"_id":"lot","_rev":"1-@20","label":null}"#, 41, WRONG_FORM),
    (br#"{"_id":"lot","_rev":"1-@20","label":true}"#, 41, WRONG_FORM),
    (br#"{"_id":"lot","_rev":"1-@20","label":[7]}"#, 41, WRONG_FORM),
    (br#"{"_id":"lot","_rev":"1-@20","label":-7}"#, 41, BARE_DIGITS),
    (br#"{"_id":"lot","_rev":"1-@20","label":-0}"#, 41, BARE_DIGITS),
    (br#"{"_id":"lot","_rev":"1-@20","label":7.0}"#, 41, BARE_DIGITS),
    (br#"{"_id":"lot","_rev":"1-@20","label":7e0}"#, 41, BARE_DIGITS),
    (br#"{"_id":"lot","_rev":"1-@20","label":7E0}"#, 41, BARE_DIGITS),
    (br#"{"_id":"lot","_rev":"1-@20","label":0e0}"#, 41, BARE_DIGITS),
    (br#"{"_id":"lot","_rev":"1-@20","label":18446744073709551616}"#, 41, BARE_DIGITS),
    (br#"{"_id":"lot","_rev":"1-@20","label":18446744073709551623}"#, 41, BARE_DIGITS),
    (br#"{"_id":"lot","_rev":"1-@20","label":99999999999999999999}"#, 41, BARE_DIGITS),
    (br#"{"_id":"lot","_rev":"1-@20","label":340282366920938463463374607431768211463}"#, 41, BARE_DIGITS),
    (br#"{"_id":"lot","_rev":"1-@20","_deleted":false}"#, 41, ALWAYS_TRUE),
    (br#"{"_id":"lot","_rev":"1-@20","_deleted":null}"#, 41, ALWAYS_TRUE),
    (br#"{"_id":"lot","_rev":"1-@20","_deleted":"true"}"#, 41, ALWAYS_TRUE),
    (br#"{"_id":"lot","_rev":"1-@20","_deleted":1}"#, 41, ALWAYS_TRUE),
    (br#"{"_id":"lot","_rev":"1-@20","_deleted":false,"label":7}"#, 41, ALWAYS_TRUE),
    (br#"{"_id":"lot","_rev":"1-@20","_deleted":true,"label":7}"#, 41, ALWAYS_TRUE),
    (br#"{"_id":"lot","_rev":"1-@20","label":7,"_deleted":true}"#, 41, ALWAYS_TRUE),
    // `_revisions`
    (br#"{"_id":"lot","_rev":"1-@20","_revisions":null,"label":7}"#, 41, WRONG_FORM),
    (br#"{"_id":"lot","_rev":"1-@20","_revisions":["@20"],"label":7}"#, 41, WRONG_FORM),
    (br#"{"_id":"lot","_rev":"1-@20","_revisions":{"start":"1","ids":["@20"]},"label":7}"#, 41, WRONG_FORM),
    (br#"{"_id":"lot","_rev":"1-@20","_revisions":{"start":-1,"ids":["@20"]},"label":7}"#, 41, BARE_DIGITS),
    (br#"{"_id":"lot","_rev":"1-@20","_revisions":{"start":1.0,"ids":["@20"]},"label":7}"#, 41, BARE_DIGITS),
    (br#"{"_id":"lot","_rev":"1-@20","_revisions":{"start":1e0,"ids":["@20"]},"label":7}"#, 41, BARE_DIGITS),
    (br#"{"_id":"lot","_rev":"1-@20","_revisions":{"start":4294967297,"ids":["@20"]},"label":7}"#, 41, BARE_DIGITS),
    (br#"{"_id":"lot","_rev":"1-@20","_revisions":{"start":18446744073709551617,"ids":["@20"]},"label":7}"#, 41, BARE_DIGITS),
    (br#"{"_id":"lot","_rev":"1-@20","_revisions":{"start":1,"ids":"@20"},"label":7}"#, 41, WRONG_FORM),
    (br#"{"_id":"lot","_rev":"1-@20","_revisions":{"start":1,"ids":{"0":"@20"}},"label":7}"#, 41, WRONG_FORM),
    (br#"{"_id":"lot","_rev":"1-@20","_revisions":{"start":1,"ids":[20]},"label":7}"#, 41, WRONG_FORM),
    (br#"{"_id":"lot","_rev":"1-@20","_revisions":{"start":1,"ids":["@20",null]},"label":7}"#, 41, WRONG_FORM),
    (br#"{"_id":"lot","_rev":"1-@20","_revisions":{"start":1,"ids":[["@20"]]},"label":7}"#, 41, WRONG_FORM),
    (br#"{"_id":"lot","_rev":"1-@20","_revisions":{"start":1,"ids":["1-@20"]},"label":7}"#, 41, HEX_DIGITS),
    (br#"{"_id":"lot","_rev":"1-@20","_revisions":{"start":1,"ids":[""]},"label":7}"#, 41, HEX_DIGITS),
    (br#"{"_id":"lot","_rev":"1-@20","_revisions":{"start":1,"ids":["@200"]},"label":7}"#, 41, HEX_DIGITS),
    (br#"{"_id":"lot","_rev":"2-@2a","_revisions":{"start":2,"ids":["@2a","@2A"]},"label":7}"#, 41, HEX_DIGITS),
    (br#"{"_id":"lot","_rev":"1-@20","_revisions":{"start":1,"ids":["\u00320000000000000000000000000000000"]},"label":7}"#, 41, ESCAPES),
    // 42
    (br#"{"_id":"lot","_rev":"2-@20","_revisions":{"start":1,"ids":["@20"]},"label":7}"#, 42, DIFFER),
    (br#"{"_id":"lot","_rev":"1-@20","_revisions":{"start":2,"ids":["@20"]},"label":7}"#, 42, DIFFER),
    (br#"{"_id":"lot","_rev":"1-@20","_revisions":{"start":1,"ids":["@21"]},"label":7}"#, 42, DIFFER),
    (br#"{"_id":"lot","_rev":"2-@20","_revisions":{"start":2,"ids":["@21","@20"]},"label":7}"#, 42, DIFFER),
    (br#"{"_id":"lot","_rev":"1-@20","_revisions":{"start":1,"ids":[]},"label":7}"#, 42, "42 [..] no ids"),
    (br#"{"_id":"lot","_rev":"1-@20","_revisions":{"start":0,"ids":["@20"]},"label":7}"#, 42, DIFFER),
    (br#"{"_id":"lot","_rev":"0-@20","_revisions":{"start":0,"ids":[]},"label":7}"#, 42, "42 [..] no ids"),
    // 43
    (br#"{"_id":"l\u006ft","_rev":"1-@20","label":7}"#, 43, UNWRITABLE),
    (br#"{"_id":"\"lot\"","_rev":"1-@20","label":7}"#, 43, UNWRITABLE),
    (br#"{"_id":"l\\t","_rev":"1-@20","label":7}"#, 43, UNWRITABLE),
    (br#"{"_id":"l\/t","_rev":"1-@20","label":7}"#, 43, UNWRITABLE),
    (br#"{"_id":"lot\n","_rev":"1-@20","label":7}"#, 43, UNWRITABLE),
    (br#"{"_id":"\u0000","_rev":"1-@20","label":7}"#, 43, UNWRITABLE),
    (br#"{"_id":"\ud800","_rev":"1-@20","label":7}"#, 43, UNWRITABLE),
    (b"{\"_id\":\"lot\x7f\",\"_rev\":\"1-@20\",\"label\":7}", 43, UNWRITABLE),
    (b"{\"_id\":\"l\xc3\xb6t\",\"_rev\":\"1-@20\",\"label\":7}", 43, UNWRITABLE),
    (b"{\"_id\":\"\xf0\x9d\x84\x9e\",\"_rev\":\"1-@20\",\"label\":7}", 43, UNWRITABLE),
    // The path write's own
    (br#"{"_id":"","_rev":"1-@20","label":7}"#, 1, "1 id empty"),
    (br#"{"_id":"lot","_rev":"0-@20","label":7}"#, 3, "3 number smaller than the count of hashes"),
    (br#"{"_id":"lot","_rev":"0-@20","_revisions":{"start":0,"ids":["@20"]},"label":7}"#, 3, "3 number smaller than the count of hashes"),
    (br#"{"_id":"lot","_rev":"2-@0a","_revisions":{"start":2,"ids":["@0a","@0b","@0c"]},"label":7}"#, 3, "3 number smaller than the count of hashes"),
    // Two at once
    (br#"{"_id":4,"_rev":"1-@20","label":7"#, 40, ORDER),
    (br#"{"_id":"lot","_id":"lot","_rev":"1-@20","label":7}x"#, 40, ORDER),
    (br#"{"_id":"lot","_rev":"01-@20","label":07}"#, 40, ORDER),
    (br#"{"_deleted":false,"label":"x","x":1.}"#, 40, ORDER),
    (br#"{"_id":"l\u006ft","_rev":"1-@20","label":7,}"#, 40, ORDER),
    (br#"{"_id":"","_rev":"1-@20","label":7,"x":nul}"#, 40, ORDER),
    (br#"{"_id":"lot","_rev":"2-@20","_revisions":{"start":1,"ids":["@20"]}}"#, 41, ORDER),
    (br#"{"_id":"lot","_rev":"1-@20","_revisions":{"start":1,"ids":["@21","@2A"]},"label":7}"#, 41, ORDER),
    (br#"{"_id":"l\u006ft","_rev":"1-@20"}"#, 41, ORDER),
    (br#"{"_id":"","_rev":"1-@20","label":-7}"#, 41, ORDER),
    (br#"{"_id":"l\u006ft","_id":"lot","_rev":"1-@20","label":7}"#, 41, ORDER),
    (br#"{"_id":"l\u006ft","_rev":"1-@20","_revisions":{"start":2,"ids":["@20"]},"label":7}"#, 42, ORDER),
    (br#"{"_id":"l\u006ft","_rev":"1-@20","_revisions":{"start":1,"ids":[]},"label":7}"#, 42, ORDER),
    (br#"{"_id":"","_rev":"1-@20","_revisions":{"start":2,"ids":["@20"]},"label":7}"#, 42, ORDER),
    (br#"{"_id":"lot","_rev":"0-@20","_revisions":{"start":1,"ids":["@20"]},"label":7}"#, 42, ORDER),
    (br#"{"_id":"\u006c","_rev":"0-@20","label":7}"#, 43, ORDER),
    (br#"{"_id":"","_rev":"0-@20","label":7}"#, 1, ORDER),
];

/// Both lists, and the lines that only a program writes: the longest and the deepest.
pub fn lines() -> Vec<Line> {
    let taken = TAKEN.iter().map(|(text, put, says)| Line {
        text: spelled(text),
        outcome: Outcome::Put([spelled(put), b"\n".to_vec()].concat()),
        says,
    });
    let refused = REFUSED.iter().map(|(text, number, says)| Line {
        text: spelled(text),
        outcome: Outcome::Refused(*number),
        says,
    });
    let mut lines: Vec<Line> = taken.chain(refused).collect();
    lines.extend(deep_lines());
    lines.extend(long_lines());
    lines
}

/// A value of so many objects or arrays inside each other: the opening brackets in turn.
pub fn nested(depth: usize, opening: &[u8]) -> Vec<u8> {
    let kinds = || (0..depth).map(|level| opening[level % opening.len()]);
    let opened = kinds().flat_map(|kind| match kind {
        b'{' => b"{\"x\":".to_vec(),
        other => vec![other],
    });
    let closed = kinds()
        .rev()
        .map(|kind| if kind == b'{' { b'}' } else { b']' });
    let inside = match kinds().next_back() {
        Some(b'[') => b"".to_vec(),
        _ => b"0".to_vec(),
    };
    opened.chain(inside).chain(closed).collect()
}

/// "to depth 16, the line being 1": the depth of a value that fits into an unknown member, and that of
/// one which doesn't, each in brackets of every kind.
fn deep_lines() -> Vec<Line> {
    let lot = [spelled(LOT), b"\n".to_vec()].concat();
    let mut lines = Vec::new();
    for opening in [&b"["[..], b"{", b"[{", b"{["] {
        let at_most = [1, LINE_DEPTH - 2, LINE_DEPTH - 1];
        let too_deep = [LINE_DEPTH, LINE_DEPTH + 1, 1_000];
        let fit = at_most.map(|depth| (depth, Outcome::Put(lot.clone())));
        let too_deep = too_deep.map(|depth| (depth, Outcome::Refused(40)));
        lines.extend(
            fit.into_iter()
                .chain(too_deep)
                .flat_map(|(depth, outcome)| {
                    let [behind, before, _] = holding(&nested(depth, opening));
                    [behind, before].map(|text| Line {
                        text,
                        outcome: outcome.clone(),
                        says: TOO_DEEP,
                    })
                }),
        );
    }
    lines.extend(deep_members());
    lines
}

/// The same under each of our members, where a value that fits is of wrong form.
fn deep_members() -> Vec<Line> {
    let around: [(&str, &str); 6] = [
        (r#"{"_id":"#, r#","_rev":"1-@20","label":7}"#),
        (r#"{"_id":"lot","_rev":"#, r#","label":7}"#),
        (r#"{"_id":"lot","_rev":"1-@20","label":"#, "}"),
        (r#"{"_id":"lot","_rev":"1-@20","_deleted":"#, "}"),
        (
            r#"{"_id":"lot","_rev":"1-@20","label":7,"_revisions":"#,
            "}",
        ),
        (r#"{"_rev":"#, "}"),
    ];
    let lines = around.iter().flat_map(|(before, after)| {
        [(LINE_DEPTH - 1, 41), (LINE_DEPTH, 40)].map(|(depth, number)| {
            let deep = nested(depth, b"[");
            let text = [before.as_bytes(), &deep, after.as_bytes()].concat();
            Line {
                text: spelled(&text),
                outcome: Outcome::Refused(number),
                says: TOO_DEEP,
            }
        })
    });
    lines.collect()
}

/// A line of a live document with so many ids, all of one first byte.
fn long_line(id: &str, number: usize, ids: usize) -> Vec<u8> {
    let ids = vec!["\"@20\""; ids].join(",");
    let text = format!(
        "{{\"_id\":\"{id}\",\"_rev\":\"{number}-@20\",\"_revisions\":{{\"start\":{number},\"ids\":[{ids}]}},\"label\":7}}"
    );
    spelled(text.as_bytes())
}

/// Ids and paths about their most.
fn long_lines() -> Vec<Line> {
    let cases = long_ids().into_iter().chain(long_paths());
    let cases = cases.map(|(text, outcome, says)| Line {
        text,
        outcome,
        says,
    });
    cases.collect()
}

/// A line's text, what must become of it, and the words that say so.
type Case = (Vec<u8>, Outcome, &'static str);

/// What a line is put out as that has no spaces and all its members in their order.
fn as_it_is(line: &[u8]) -> Outcome {
    Outcome::Put([line, b"\n"].concat())
}

fn long_ids() -> Vec<Case> {
    let says = "1 id empty or over 32 bytes";
    let longest = long_line(&"z".repeat(ID_BYTES), 1, 1);
    let longer = "z".repeat(ID_BYTES + 1);
    let escaped = "\\u0041".repeat(ID_BYTES);
    vec![
        (longest.clone(), as_it_is(&longest), says),
        (long_line(&longer, 1, 1), Outcome::Refused(1), says),
        (
            long_line(&"z".repeat(1_000), 1, 1),
            Outcome::Refused(1),
            says,
        ),
        (long_line(&escaped, 1, 1), Outcome::Refused(43), ORDER),
        (
            long_line(&format!("{longer}\\n"), 1, 1),
            Outcome::Refused(43),
            ORDER,
        ),
        (long_line(&longer, 1, 2), Outcome::Refused(1), ORDER),
    ]
}

fn long_paths() -> Vec<Case> {
    let two = "2 path bytes not a multiple of 16, or not 1 to 512 hashes";
    let three = "3 number smaller than the count of hashes";
    let most = PATH_HASHES;
    let longest = long_line("lot", most, most);
    let longer = "z".repeat(ID_BYTES + 1);
    vec![
        (longest.clone(), as_it_is(&longest), two),
        (
            long_line("lot", most + 1, most + 1),
            Outcome::Refused(2),
            two,
        ),
        (
            long_line("lot", 3 * most, 2 * most),
            Outcome::Refused(2),
            two,
        ),
        (long_line("lot", most, most + 1), Outcome::Refused(2), ORDER),
        (long_line("lot", most - 1, most), Outcome::Refused(3), three),
        (
            long_line(&longer, most, most + 1),
            Outcome::Refused(1),
            ORDER,
        ),
        (
            long_line("\\n", most, most + 1),
            Outcome::Refused(43),
            ORDER,
        ),
    ]
}
