//! The header, this crate and the library's source say the same.
use jorvimest::Refusal;
use std::collections::BTreeMap;

const HEADER: &str = include_str!("../../../include/jorvimest.h");
const LINKED: &str = include_str!("../src/linked.rs");
const SOURCES: [&str; 3] = [
    include_str!("../../../crates/jorvimest/src/compiling.rt"),
    include_str!("../../../crates/jorvimest/src/matching.rt"),
    include_str!("../../../crates/jorvimest/src/texts.rt"),
];

/// What the header defines, by name and without the name's front. The toolchain is left to `rust/test`, which asks it.
fn defined() -> BTreeMap<&'static str, &'static str> {
    let lines = HEADER.lines().filter_map(|line| line.strip_prefix("#define JORVIMEST_"));
    let mut all: BTreeMap<_, _> = lines.filter_map(|line| line.split_once(' ')).collect();
    assert!(all.remove("TOOLCHAIN").is_some());
    all.values_mut().for_each(|value| *value = value.split("/*").next().unwrap().trim());
    all
}

#[test]
fn numbers() {
    let version = format!("{:?}", env!("CARGO_PKG_VERSION"));
    let sizes = [
        ("PATTERN_MOST", jorvimest::PATTERN_MOST),
        ("GROUPS_MOST", jorvimest::GROUPS_MOST),
        ("NODES_MOST", jorvimest::NODES_MOST),
        ("ROWS_MOST", jorvimest::ROWS_MOST),
        ("TEXT_MOST", jorvimest::TEXT_MOST),
        ("CELLS_A_ROW", jorvimest::CELLS_A_ROW),
        ("MARKS_A_ROW", jorvimest::MARKS_A_ROW),
        ("WORDS_A_ROW", jorvimest::WORDS_A_ROW),
        ("STACK_COMPILE", jorvimest::STACK_COMPILE),
        ("STACK_OTHERS", jorvimest::STACK_OTHERS),
    ];
    let refusals = [
        ("TOO_LONG", Refusal::TooLong),
        ("NO_ATOM", Refusal::NoAtom(0)),
        ("BAD_COUNT", Refusal::BadCount(0)),
        ("BAD_CLASS", Refusal::BadClass(0)),
        ("BAD_ESCAPE", Refusal::BadEscape(0)),
        ("STRAY", Refusal::Stray(0)),
        ("NO_GROUP", Refusal::NoGroup(0)),
        ("OPEN_GROUP", Refusal::OpenGroup(0)),
        ("DEEP_GROUP", Refusal::DeepGroup(0)),
        ("MANY_NODES", Refusal::ManyNodes),
        ("MANY_ROWS", Refusal::ManyRows),
        ("LONG_TEXT", Refusal::LongText),
        ("NOT_FORMED", Refusal::NotFormed),
        ("PAST_END", Refusal::PastEnd),
        ("FEW_PLACES", Refusal::FewPlaces(0)),
    ];
    let mut due: BTreeMap<&str, String> = BTreeMap::from([
        ("VERSION", version),
        ("VERSION_MAJOR", env!("CARGO_PKG_VERSION_MAJOR").into()),
        ("VERSION_MINOR", env!("CARGO_PKG_VERSION_MINOR").into()),
        ("VERSION_PATCH", env!("CARGO_PKG_VERSION_PATCH").into()),
        // as `found` and `Text::of` read them
        ("MATCH", "0".into()),
        ("NONE", "1".into()),
        ("WRITTEN", "0".into()),
        ("LONGER", "1".into()),
    ]);
    due.extend(sizes.map(|(name, size)| (name, size.to_string())));
    due.extend(refusals.map(|(name, refusal)| (name, refusal.number().to_string())));
    let found: BTreeMap<&str, String> = defined().into_iter().map(|(name, value)| (name, value.to_string())).collect();
    assert_eq!(found, due);
}

/// A function as C knows it: the name and type of each parameter, and the type of the answer.
#[derive(Debug, PartialEq)]
struct Function {
    parameters: Vec<(String, String)>,
    answer: String,
}

/// The functions whose names stand after these words, each given to `read` as its parameters and what is behind them.
fn functions(text: &str, before: &str, read: impl Fn(Vec<&str>, &str) -> Function) -> BTreeMap<String, Function> {
    let function = |rest: &str| {
        let (name, rest) = rest.split_once('(').unwrap();
        let (parameters, rest) = rest.split_once(')').unwrap();
        let parameters = parameters.split(',').map(str::trim).filter(|p| !p.is_empty()).collect();
        (name.to_string(), read(parameters, rest))
    };
    text.split(before).skip(1).map(function).collect()
}

/// ` -> type`, up to the end of it.
fn answer(rest: &str) -> String {
    rest.trim_start_matches(" -> ").split([';', '\n']).next().unwrap().into()
}

fn of_header() -> BTreeMap<String, Function> {
    let plain = |ty: &str| ty.trim().replace("uint", "u").replace("size_t", "usize").replace("_t", "");
    let parameter = |p: &str| {
        let (ty, name) = p.rsplit_once([' ', '*']).unwrap();
        let ty = match (p.contains('*'), ty.strip_prefix("const ")) {
            (false, _) => plain(ty),
            (true, None) => format!("*mut {}", plain(ty)),
            (true, Some(ty)) => format!("*const {}", plain(ty)),
        };
        (name.to_string(), ty)
    };
    let that_answer = |ty: &str| {
        functions(HEADER, &format!("\n{ty} jorvimest_"), |parameters, _| Function {
            parameters: parameters.into_iter().map(parameter).collect(),
            answer: plain(ty),
        })
    };
    that_answer("uint32_t").into_iter().chain(that_answer("bool")).collect()
}

fn of_linked() -> BTreeMap<String, Function> {
    let parameter = |p: &str| p.split_once(": ").map(|(name, ty)| (name.to_string(), ty.to_string()));
    functions(LINKED, "pub fn jorvimest_", |parameters, rest| Function {
        parameters: parameters.into_iter().filter_map(parameter).collect(),
        answer: answer(rest),
    })
}

/// What is borrowed is a pointer; a slice is a pointer and a length, which has no name here.
fn of_source() -> BTreeMap<String, Function> {
    let parameter = |p: &str| {
        let (name, ty) = p.split_once(": ").unwrap();
        let (pointer, ty) = match (ty.strip_prefix("&mut "), ty.strip_prefix('&')) {
            (Some(behind), _) => ("*mut ", behind),
            (None, Some(behind)) => ("*const ", behind),
            (None, None) => ("", ty),
        };
        let length = ty.starts_with('[').then(|| (String::new(), "usize".to_string()));
        [(name.to_string(), format!("{pointer}{}", ty.trim_matches(['[', ']'])))].into_iter().chain(length)
    };
    functions(&SOURCES.concat(), "pub extern \"C\" fn jorvimest_", |parameters, rest| Function {
        parameters: parameters.into_iter().flat_map(parameter).collect(),
        answer: answer(rest),
    })
}

#[test]
fn declarations() {
    let (mut header, source) = (of_header(), of_source());
    assert_eq!(header.len(), 8);
    assert_eq!(header, of_linked());
    // the lengths' names are the header's own
    for (name, function) in &mut header {
        for (here, there) in function.parameters.iter_mut().zip(&source[name].parameters) {
            if there.0.is_empty() {
                here.0.clear();
            }
        }
    }
    assert_eq!(header, source);
}
