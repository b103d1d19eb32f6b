//! Lines of dumps: sound ones with odd spacing, unknown members and escapes, such with one member
//! spoiled, and such with bytes damaged.

use crate::model::hex;
use crate::offers::Offer;
use crate::random::Random;
use crate::sizes::{HASH_BYTES, ID_BYTES, LINE_DEPTH, PATH_HASHES};
use crate::texts::nested;
use crate::Content;

/// A text in its tokens, between which spaces may stand.
type Tokens = Vec<Vec<u8>>;

/// The members of an object, in order: each name with its quotation marks, and the value.
type Members = Vec<(Vec<u8>, Tokens)>;

/// A line that says the offer: sound, unless no line can have the offer's id.
pub fn sound(random: &mut Random, offer: &Offer) -> Vec<u8> {
    let members = members(random, offer);
    written(random, members)
}

/// A line whose form or whose meaning is spoiled in one or two places, and that is JSON mostly.
pub fn spoiled(random: &mut Random, offer: &Offer) -> Vec<u8> {
    if random.percent(20) {
        let odd = odd_offer(random, offer);
        return sound(random, &odd);
    }
    let mut members = members(random, offer);
    for _ in 0..1 + random.below(2) {
        spoil(random, &mut members);
    }
    written(random, members)
}

/// The offer with a number or a path that a write refuses, or about to be.
fn odd_offer(random: &mut Random, offer: &Offer) -> Offer {
    let mut odd = offer.clone();
    let hash = odd.hashes.first().copied().unwrap_or_default();
    let count = odd.hashes.len();
    match random.below(20) {
        0..=5 => odd.number = count as u32 - 1,
        6..=8 => odd.number = 0,
        9..=13 => odd.hashes.resize(odd.number.min(40) as usize + 1, hash),
        14..=17 => odd.hashes.clear(),
        18 => odd.hashes.resize(PATH_HASHES + random.below(2), hash),
        _ => {
            odd.hashes.resize(PATH_HASHES + random.below(2), hash);
            odd.number = PATH_HASHES as u32 + random.below(3) as u32 - 1;
        }
    }
    odd
}

// Sound lines

/// The members that say the offer, and unknown ones, in any order.
fn members(random: &mut Random, offer: &Offer) -> Members {
    let newest = offer.hashes.first().copied().unwrap_or_default();
    let rev = format!("\"{}-{}\"", offer.number, hex(&newest));
    let mut members = vec![
        (quoted(b"_id"), vec![id_token(random, &offer.id)]),
        (quoted(b"_rev"), vec![rev.into_bytes()]),
        match offer.content {
            Content::Deleted => (quoted(b"_deleted"), vec![b"true".to_vec()]),
            Content::Live(label) => (quoted(b"label"), vec![label.to_string().into_bytes()]),
        },
    ];
    if offer.hashes.len() != 1 || random.percent(50) {
        let revisions = revisions(random, offer);
        members.push((quoted(b"_revisions"), object(revisions)));
    }
    add_unknown(random, &mut members, LINE_DEPTH - 1);
    members
}

fn revisions(random: &mut Random, offer: &Offer) -> Members {
    let ids = offer.hashes.iter();
    let ids: Vec<Tokens> = ids.map(|id| vec![quoted(hex(id).as_bytes())]).collect();
    let mut members = vec![
        (
            quoted(b"start"),
            vec![offer.number.to_string().into_bytes()],
        ),
        (quoted(b"ids"), array(ids)),
    ];
    if random.percent(30) {
        add_unknown(random, &mut members, LINE_DEPTH - 2);
    }
    if random.percent(30) {
        random.shuffle(&mut members);
    }
    members
}

/// Whether a line can have the byte in an id as it is.
fn is_plain(byte: &u8) -> bool {
    (0x20..0x7f).contains(byte) && !b"\"\\".contains(byte)
}

/// The id without the bytes that no line can have.
pub fn plain(id: &[u8]) -> Vec<u8> {
    let plain: Vec<u8> = id.iter().copied().filter(is_plain).collect();
    match plain.is_empty() {
        true => b"lot".to_vec(),
        false => plain,
    }
}

/// The id as it is, where a line can have it, and else with escapes.
fn id_token(random: &mut Random, id: &[u8]) -> Vec<u8> {
    if id.iter().all(is_plain) || random.percent(5) {
        return quoted(id);
    }
    let escaped: String = id.iter().map(|byte| format!("\\u{byte:04x}")).collect();
    quoted(escaped.as_bytes())
}

/// Names that are not ours where they stand, some of them near ours.
const UNKNOWN: [&str; 22] = [
    "x",
    "x",
    "",
    "a b",
    "_ID",
    "_id ",
    "id",
    "rev",
    "Label",
    "labels",
    "_attachments",
    "_conflicts",
    "\\u005fid",
    "_\\u0072ev",
    "l\\u0061bel",
    "_deleted\\u0000",
    "\\u0073tart",
    "ids\\n",
    "\\ud800",
    "\u{e9}",
    "\u{feff}",
    "\u{1d11e}",
];

/// Puts in unknown members, whose values may go so deep, and puts all in any order.
fn add_unknown(random: &mut Random, members: &mut Members, depth: usize) {
    let inside = depth < LINE_DEPTH - 1;
    for _ in 0..random.below(4) {
        let mut name = *random.pick(&UNKNOWN);
        if random.percent(15) {
            let here = ["start", "ids"];
            let there = ["_id", "_rev", "_revisions", "_deleted", "label"];
            name = *random.pick::<&str>(if inside { &there } else { &here });
        }
        members.push((quoted(name.as_bytes()), value(random, depth)));
    }
    if random.percent(60) {
        random.shuffle(members);
    }
}

fn quoted(inside: &[u8]) -> Vec<u8> {
    [b"\"", inside, b"\""].concat()
}

fn object(members: Members) -> Tokens {
    let mut tokens = vec![b"{".to_vec()];
    for (index, (name, value)) in members.into_iter().enumerate() {
        if index > 0 {
            tokens.push(b",".to_vec());
        }
        tokens.extend([name, b":".to_vec()]);
        tokens.extend(value);
    }
    tokens.push(b"}".to_vec());
    tokens
}

fn array(values: Vec<Tokens>) -> Tokens {
    let mut tokens = vec![b"[".to_vec()];
    for (index, value) in values.into_iter().enumerate() {
        if index > 0 {
            tokens.push(b",".to_vec());
        }
        tokens.extend(value);
    }
    tokens.push(b"]".to_vec());
    tokens
}

/// The text of an object, with few spaces, many, or none.
fn written(random: &mut Random, members: Members) -> Vec<u8> {
    let often = *random.pick(&[0, 0, 5, 40, 90]);
    let mut text = Vec::new();
    for token in object(members) {
        spaces(random, often, &mut text);
        text.extend(token);
    }
    spaces(random, often.max(30), &mut text);
    text
}

fn spaces(random: &mut Random, often: usize, text: &mut Vec<u8>) {
    while random.percent(often.min(70)) {
        text.push(*random.pick(b" \t\n\r"));
    }
}

/// Opening brackets, to be nested in turn.
const BRACKETS: [&[u8]; 4] = [b"[", b"{", b"[{", b"{["];

/// Any value of at most that depth.
fn value(random: &mut Random, depth: usize) -> Tokens {
    match random.below(12) {
        0 => vec![random.pick(&["true", "false", "null"]).as_bytes().to_vec()],
        1 | 2 => vec![number(random)],
        3..=5 => vec![string(random)],
        6 | 7 if depth > 0 => {
            let count = random.below(4);
            array((0..count).map(|_| value(random, depth - 1)).collect())
        }
        8 | 9 if depth > 0 => {
            let names = [
                "_id",
                "_rev",
                "_revisions",
                "_deleted",
                "label",
                "start",
                "ids",
                "x",
            ];
            let mut members = Members::new();
            for _ in 0..random.below(4) {
                let name = quoted(random.pick(&names).as_bytes());
                members.push((name, value(random, depth - 1)));
            }
            object(members)
        }
        10 => {
            let levels = depth - random.below(2).min(depth);
            let brackets = *random.pick(&BRACKETS);
            vec![nested(levels, brackets)]
        }
        _ => vec![quoted(b"plain")],
    }
}

/// Numbers about the borders of fields, and in every form.
const NUMBERS: [&str; 26] = [
    "0",
    "1",
    "7",
    "-0",
    "-7",
    "7.0",
    "7e0",
    "7E+0",
    "0.5",
    "-1.25e-3",
    "1e400",
    "10",
    "00000",
    "007",
    "4294967294",
    "4294967295",
    "4294967296",
    "4294967297",
    "9007199254740993",
    "18446744073709551614",
    "18446744073709551615",
    "18446744073709551616",
    "18446744073709551617",
    "99999999999999999999",
    "340282366920938463463374607431768211456",
    "100000000000000000000000000000000000000000000",
];

/// A number by the grammar.
fn number(random: &mut Random) -> Vec<u8> {
    let spare = |text: &str| text.len() > 1 && text.starts_with("00");
    let written = random.pick(&NUMBERS);
    if spare(written) {
        return b"0".to_vec();
    }
    written.as_bytes().to_vec()
}

/// What strings are made of: characters of each length in UTF-8 at their borders, and escapes.
const PIECES: [&str; 28] = [
    "a",
    "b",
    " ",
    "~",
    "\u{7f}",
    "'",
    "/",
    "{",
    "}",
    "[",
    ",",
    ":",
    "\u{80}",
    "\u{e9}",
    "\u{7ff}",
    "\u{800}",
    "\u{d7ff}",
    "\u{e000}",
    "\u{ffff}",
    "\u{10000}",
    "\u{10ffff}",
    "\\\"",
    "\\\\",
    "\\/",
    "\\u0041",
    "\\ud834\\udd1e",
    "\\uDEAD",
    "\\n",
];

fn string(random: &mut Random) -> Vec<u8> {
    let count = random.below(6);
    let pieces: String = (0..count).map(|_| *random.pick(&PIECES)).collect();
    quoted(pieces.as_bytes())
}

// Lines that are spoiled

const OURS: [&[u8]; 5] = [
    b"\"_id\"",
    b"\"_rev\"",
    b"\"_revisions\"",
    b"\"_deleted\"",
    b"\"label\"",
];

/// The place of a member of ours, if there is one of that name.
fn place(members: &Members, name: &[u8]) -> Option<usize> {
    members.iter().position(|(other, _)| other == name)
}

/// Values that other readers take, and that the grammar doesn't have.
const NO_VALUES: [&str; 16] = [
    "NaN",
    "Infinity",
    "-Infinity",
    "True",
    "undefined",
    "nul",
    "07",
    "-07",
    "+7",
    ".7",
    "7.",
    "7.e0",
    "7e",
    "0x7",
    "'x'",
    "",
];

/// Spoils one thing about one of our members, or makes any of them no value.
fn spoil(random: &mut Random, members: &mut Members) {
    let name = *random.pick(&OURS);
    let at = place(members, name);
    match (random.below(11), at) {
        (0, Some(at)) => drop(members.remove(at)),
        (1, Some(at)) => {
            let again = members[at].clone();
            members.insert(random.below(members.len() + 1), again);
        }
        (2, Some(at)) => members[at].1 = value(random, LINE_DEPTH - 1),
        (3, Some(at)) => members[at].0 = escaped_name(random, &name[1..name.len() - 1]),
        (4, _) => {
            let contents = [
                ("label", "7"),
                ("_deleted", "true"),
                ("_deleted", "false"),
                ("label", "null"),
            ];
            let (name, value) = random.pick(&contents);
            members.push((quoted(name.as_bytes()), vec![value.as_bytes().to_vec()]));
        }
        (5, _) => deepen(random, members),
        (6, _) => {
            let at = random.below(members.len());
            members[at].1 = vec![random.pick(&NO_VALUES).as_bytes().to_vec()];
        }
        (_, Some(at)) => spoil_value(random, name, &mut members[at].1),
        (_, None) => members.push((quoted(b"_deleted"), vec![b"true".to_vec()])),
    }
}

/// The name with one letter as an escape, so that it is unknown.
fn escaped_name(random: &mut Random, name: &[u8]) -> Vec<u8> {
    let at = random.below(name.len());
    let escape = format!("\\u{:04x}", name[at]);
    quoted(&[&name[..at], escape.as_bytes(), &name[at + 1..]].concat())
}

/// Puts a value of a depth about the most into a member, one of ours perhaps.
fn deepen(random: &mut Random, members: &mut Members) {
    let depth = LINE_DEPTH - 2 + random.below(4);
    let brackets = *random.pick(&BRACKETS);
    let deep = nested(depth, brackets);
    let at = random.below(members.len() + 1);
    if at < members.len() && random.percent(40) {
        members[at].1 = vec![deep];
    } else {
        members.insert(at, (quoted(b"deep"), vec![deep]));
    }
}

/// Spoils the value of a member of ours, which stays of its kind mostly.
fn spoil_value(random: &mut Random, name: &[u8], value: &mut Tokens) {
    match name {
        b"\"_id\"" => value[0] = odd_id(random),
        b"\"_rev\"" => value[0] = odd_rev(random, &value[0]),
        b"\"_deleted\"" => {
            value[0] = random
                .pick(&["false", "null", "1", "\"true\""])
                .as_bytes()
                .to_vec()
        }
        b"\"label\"" => value[0] = odd_number(random, &value[0]),
        _ => spoil_revisions(random, value),
    }
}

/// Ids about their most bytes, and such as no line can have.
fn odd_id(random: &mut Random) -> Vec<u8> {
    let long = "z".repeat(ID_BYTES - 1 + random.below(4));
    let ids = [
        "",
        "~",
        " ",
        "\u{7f}",
        "l\u{f6}t",
        "l\\u006ft",
        "\\\"",
        "\\\\",
        "\\/",
        "\\n",
        "\\u0000",
        "\\ud800",
        &long,
        "lot",
        "a",
    ];
    let mut id = random.pick(&ids).to_string();
    if random.percent(10) {
        id += &long;
    }
    quoted(id.as_bytes())
}

/// A number in another form, or another number: past its field, with a spare zero, wrapped around.
fn odd_number(random: &mut Random, written: &[u8]) -> Vec<u8> {
    let text = String::from_utf8_lossy(written).into_owned();
    let number: u128 = text.parse().unwrap_or_default();
    let odd = match random.below(12) {
        0 => format!("0{text}"),
        1 => format!("-{text}"),
        2 => format!("+{text}"),
        3 => format!("{text}.0"),
        4 => format!("{text}e0"),
        5 => (number + (1 << 32)).to_string(),
        6 => (number + (1 << 64)).to_string(),
        7 => format!("{text}{text}{text}"),
        8 => (number + 1).to_string(),
        9 => number.saturating_sub(1).to_string(),
        10 => String::new(),
        _ => random.pick(&NUMBERS).to_string(),
    };
    odd.into_bytes()
}

/// A hash with one thing wrong, or another hash.
fn odd_hash(random: &mut Random, digits: &[u8]) -> Vec<u8> {
    let mut odd = digits.to_vec();
    let at = random.below(odd.len().max(1));
    match random.below(8) {
        0 => drop(odd.pop()),
        1 => odd.push(b'0'),
        2 => odd.make_ascii_uppercase(),
        3 if !odd.is_empty() => {
            let escape = format!("\\u{:04x}", odd[at]);
            odd.splice(at..=at, escape.into_bytes());
        }
        4 if !odd.is_empty() => odd[at] = *random.pick(b"gGAF -/:`@"),
        5 if !odd.is_empty() => odd[at] = *random.pick(b"0123456789abcdef"),
        6 => odd.truncate(at),
        _ => odd = hex(&random.bytes(HASH_BYTES)).into_bytes(),
    }
    odd
}

/// The revision of `_rev` with its number or its hash spoiled, or without a hyphen.
fn odd_rev(random: &mut Random, written: &[u8]) -> Vec<u8> {
    let inside = written.strip_prefix(b"\"").unwrap_or(written);
    let inside = inside.strip_suffix(b"\"").unwrap_or(inside);
    let hyphen = inside.iter().position(|&byte| byte == b'-');
    let (number, hash) = inside.split_at(hyphen.unwrap_or(inside.len()));
    let hash = hash.strip_prefix(b"-").unwrap_or(hash);
    let odd = match random.below(8) {
        0..=2 => [&odd_number(random, number), &b"-"[..], hash].concat(),
        3..=5 => [number, b"-", &odd_hash(random, hash)].concat(),
        6 => [number, hash].concat(),
        _ => [number, b"\\u002d", hash].concat(),
    };
    quoted(&odd)
}

/// Spoils a token of `_revisions`: its number, an id, a name; takes ids away, or adds a great many.
fn spoil_revisions(random: &mut Random, value: &mut Tokens) {
    let is_id = |token: &Vec<u8>| token.len() == 2 * HASH_BYTES + 2;
    let ids: Vec<usize> = (0..value.len()).filter(|&at| is_id(&value[at])).collect();
    let start = value
        .iter()
        .position(|token| token.first().is_some_and(u8::is_ascii_digit));
    match (random.below(8), start, ids.first(), ids.last()) {
        (0, Some(at), _, _) => value[at] = b"1".to_vec(),
        (1 | 2, Some(at), _, _) => value[at] = odd_number(random, &value[at]),
        (3 | 4, _, Some(_), _) => {
            let at = *random.pick(&ids);
            let digits = value[at][1..2 * HASH_BYTES + 1].to_vec();
            value[at] = quoted(&odd_hash(random, &digits));
        }
        (5, _, Some(&first), Some(&last)) if random.percent(50) => drop(value.drain(first..=last)),
        (5, _, Some(&first), _) => value[first] = quoted(hex(&random.bytes(HASH_BYTES)).as_bytes()),
        (6, _, Some(&first), _) => {
            let more = *random.pick(&[1, 2, PATH_HASHES - 1, PATH_HASHES]);
            let pair = [value[first].clone(), b",".to_vec()];
            let pairs: Tokens = pair.iter().cycle().take(2 * more).cloned().collect();
            value.splice(first..first, pairs);
        }
        _ => {
            let names: Vec<usize> = (0..value.len()).filter(|&at| value[at].len() > 2).collect();
            if let Some(&at) = names.first() {
                value[at] = quoted(
                    random
                        .pick(&["start", "ids", "x", "sta\\u0072t"])
                        .as_bytes(),
                );
            }
        }
    }
}

// Lines whose bytes are damaged

/// What UTF-8 is not: cut characters, tails alone, overlong forms, surrogates, above 10FFFF, octets that
/// never appear.
const NO_UTF8: [&[u8]; 18] = [
    b"\x80",
    b"\xbf",
    b"\xc2",
    b"\xc0\x80",
    b"\xc1\xbf",
    b"\xe0\x80\x80",
    b"\xe0\x9f\xbf",
    b"\xe2\x82",
    b"\xed\xa0\x80",
    b"\xed\xbf\xbf",
    b"\xf0\x80\x80\x80",
    b"\xf0\x8f\xbf\xbf",
    b"\xf0\x9d\x84",
    b"\xf4\x90\x80\x80",
    b"\xf5\x80\x80\x80",
    b"\xf8\x88\x80\x80\x80",
    b"\xfe",
    b"\xff",
];

/// What a text may hold where it should not: marks, names, spaces that are none, whole tokens.
const OTHER: [&[u8]; 30] = [
    b"\xef\xbb\xbf",
    b"\0",
    b"\x0b",
    b"\x0c",
    b"\x1f",
    b"\x7f",
    b"\xc2\xa0",
    b"\"",
    b"\\",
    b"\\u",
    b"\\ud800",
    b"{",
    b"}",
    b"[",
    b"]",
    b",",
    b":",
    b"-",
    b"+",
    b".",
    b"e",
    b"0",
    b"NaN",
    b"nul",
    b"true",
    b"//",
    b"'",
    b"\"x\":1,",
    b",\"x\":1",
    b"\n{}",
];

/// The line with one to three damages to its bytes.
pub fn damaged(random: &mut Random, line: &[u8]) -> Vec<u8> {
    let mut line = line.to_vec();
    for _ in 0..1 + random.below(3) {
        damage(random, &mut line);
    }
    line
}

fn damage(random: &mut Random, line: &mut Vec<u8>) {
    let end = line.len();
    let at = random.below(end + 1);
    let to = (at + random.below(9)).min(end);
    match random.below(14) {
        0 if at < end => line[at] ^= 1 << random.below(8),
        1 if at < end => line[at] = random.any() as u8,
        2 => line.truncate(at),
        3 => drop(line.drain(at..to)),
        4 => {
            let again = line[at..to].to_vec();
            line.splice(at..at, again);
        }
        5 => drop(line.splice(at..at, random.pick(&NO_UTF8).iter().copied())),
        6 | 7 => drop(line.splice(at..at, random.pick(&OTHER).iter().copied())),
        8 if random.percent(30) => drop(line.splice(0..0, *b"\xef\xbb\xbf")),
        8 => drop(line.splice(0..0, random.pick(&OTHER).iter().copied())),
        9 => line.extend(*random.pick(&OTHER)),
        10 => {
            let mut whole = line.clone();
            line.append(&mut whole);
        }
        11 => {
            let closing: Vec<usize> = (0..end).filter(|&at| b"}]".contains(&line[at])).collect();
            if !closing.is_empty() {
                line.insert(*random.pick(&closing), b',');
            }
        }
        _ => inside_string(random, line),
    }
}

/// Damages the inside of a string, where bytes mean the least.
fn inside_string(random: &mut Random, line: &mut Vec<u8>) {
    let quotes: Vec<usize> = (0..line.len()).filter(|&at| line[at] == b'"').collect();
    if quotes.is_empty() {
        return;
    }
    let after = *random.pick(&quotes) + 1;
    let bytes = match random.percent(60) {
        true => *random.pick(&NO_UTF8),
        false => *random.pick(&OTHER),
    };
    line.splice(after..after, bytes.iter().copied());
}
