//! Patterns of the trade, and patterns that are bad for one stage or another.
use compare::large::{bits, ladder, pairs, registers, spelled, windows};

pub struct Pattern {
    pub name: String,
    pub bytes: Vec<u8>,
}

fn of(name: &str, parts: &[&[u8]]) -> Pattern {
    Pattern { name: name.to_string(), bytes: parts.concat() }
}

/// Those that an energy supplier compiles every day.
pub fn usual() -> Vec<Pattern> {
    let days = b"20[0-9]{2}-((0[13578]|1[02])-(0[1-9]|[12][0-9]|3[01])|(0[469]|11)-(0[1-9]|[12][0-9]|30)|02-(0[1-9]|[12][0-9]))";
    let obis = b"[0-9]{1,3}-[0-9]{1,3}:[0-9]{1,3}\\.[0-9]{1,3}\\.[0-9]{1,3}(\\*[0-9]{1,3})?";
    let moment =
        b"DTM\\+(137|163|164):20[0-9]{2}(0[1-9]|1[0-2])(0[1-9]|[12][0-9]|3[01])([01][0-9]|2[0-3])[0-5][0-9]\\?\\+0[0-2]:303'";
    let segments = b"((UNH|BGM|DTM|RFF|NAD|LOC|LIN|PIA|QTY|STS|UNT)(\\+([^'+:?]|\\?.)*(:([^'+:?]|\\?.)*)*)*'\r?\n?)*";
    let supplier = b"^([0-9]{4}-(0[1-9]|1[0-2])-(0[1-9]|[12][0-9]|3[01]));([01][0-9]|2[0-3]):[0-5][0-9];DE[0-9]{11}[0-9A-Z]{20};\
        (-?[0-9]{1,7}(,[0-9]{1,3})?)?;(kWh|MWh|kW);(V|E|W|N)?;[^;\"]*\r?\n?$";
    let columns = b"-?[0-9]*;".repeat(96);
    let literals: Vec<Vec<u8>> = (0..100).map(literal).collect();
    vec![
        of("hours", &[b"0[013-9]|1[0-9]|2[0-3]"]),
        of("quarter hours", &[b"([01][0-9]|2[0-3]):(00|15|30|45)"]),
        of("days", &[days]),
        of("market locations", &[b"[1-9][0-9]{10}"]),
        of("metering points", &[b"DE[0-9]{11}[0-9A-Z]{20}"]),
        of("OBIS codes", &[obis]),
        of("amounts", &[b"-?[0-9]{1,3}(\\.?[0-9]{3}){0,3}(,[0-9]{1,5})?"]),
        of("status letters of a day", &[b"^([VEWNG]?;){95}[VEWNG]?$"]),
        of("a moment", &[moment]),
        of("segments of a message", &[segments]),
        of("a supplier's row", &[supplier]),
        of("96 columns spelled out", &[b"^[0-9]{8};DE[0-9A-Z]{31};", &columns, b"[VEW]?\r?$"]),
        of("100 literals", &[&literals.join(&b'|')]),
    ]
}

/// Those of the sums of docs/RULES.md that have many rows.
pub fn sums() -> Vec<Pattern> {
    ["[ab]*a[ab]{8}", "(a{255}){4}"].map(|text| of(text, &[text.as_bytes()])).into()
}

/// Eight letters.
fn literal(i: u32) -> Vec<u8> {
    let mut x = i * 7919 + 13;
    (0..8)
        .map(|_| {
            let letter = b'a' + (x % 26) as u8;
            x = x / 3 + i * 31 + 7;
            letter
        })
        .collect()
}

/// Bad ones within the limits.
pub fn worst() -> Vec<Pattern> {
    [large(), parting()].into_iter().flatten().collect()
}

/// Rows that part from their classes by many in one round, least row first, or by many and by few in turn.
fn parting() -> Vec<Pattern> {
    let all = bits().concat();
    vec![
        of("registers 9 8 7 5", &[&registers(&[9, 8, 7, 5], 0)]),
        of("registers 8 7 8 7 6", &[&registers(&[8, 7, 8, 7, 6], 0)]),
        of("registers 9 8 7 6 4", &[&registers(&[9, 8, 7, 6, 4], 0)]),
        of("registers 9 8 7 6 4, empty ways", &[&registers(&[9, 8, 7, 6, 4], 160)]),
        of("a ladder", &[&ladder(30, 6)]),
        of("pairs of bytes, 256 columns", &[&pairs(26, 13), b"|", &all]),
        of("windows and chains, 256 columns", &[&windows(1, 25, 32), b"|", &all]),
    ]
}

/// Many columns, large sets, many rounds of merging, long empty ways.
pub fn large() -> Vec<Pattern> {
    let signed = |sign: &[u8]| bits().iter().flat_map(|class| [class, sign].concat()).collect::<Vec<u8>>();
    let (all, maybe, star) = (signed(b""), signed(b"?"), signed(b"*"));
    let letters: Vec<Vec<u8>> = (1..=255).filter(|&b| b != b'\n').map(spelled).collect();
    let up = letters.concat();
    let down: Vec<u8> = letters.iter().rev().flatten().copied().collect();
    let skipped: Vec<u8> = letters.iter().flat_map(|l| [l, &b"?"[..]].concat()).collect();
    let but_one: Vec<u8> =
        (b'0'..=b'z').filter(|b| !b"[]\\^-".contains(b)).flat_map(|b| [b"[^", &[b][..], b"]?"].concat()).collect();
    let any = b"[\x00-\xff]";
    vec![
        of("bits in a chain", &[b"(", &all, b"){127}"]),
        of("a long chain, 256 columns", &[b"(a{250}){4}|", &all]),
        of("bits that may be skipped", &[b"(", &maybe, b"){63}"]),
        of("letters up", &[b"(", &up, b"){4}"]),
        of("letters down", &[b"(", &down, b"){4}"]),
        of("letters that may be skipped", &[b"(", &skipped, b"){2}"]),
        of("[ab]*a[ab]{8}, 256 columns", &[b"[a-z]*[acegikmoqsuwy][a-z]{8}|", &all]),
        of("stars in a chain", &[b"(", &star, b"){63}"]),
        of("all but one byte, skippable", &[b"(", &but_one, b"){7}"]),
        of("empty ways", &[b"(", &all, b"(){110}){7}"]),
        of("any byte, skippable", &[b"(", any, b"?){255}(", any, b"?){240}|", &all]),
        of("a window", &[any, b"*(", any, b"{251}){4}|", &all]),
        of("up to so many", &[b"(", any, b"{0,247}){2}|", &all]),
        of("counts in counts", &[b"(b?b?(b?b(b{3,5}){11})){3,11}b{5}|", &all]),
        of("spelled out", &[&up.repeat(3)]),
    ]
}
