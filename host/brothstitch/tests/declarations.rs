//! One interface in four places: what c.rs declares is what include/brothstitch.h and oracle/calls declare
//! and what the crate `capi` exports, name for name, and parameter for parameter in name, order and type.

use std::collections::BTreeMap;
use std::env;
use std::fs;
use std::path::{Path, PathBuf};

/// Each call's parameters as c.rs has them.
type Calls = BTreeMap<String, Vec<String>>;

const CALLS: usize = 15;

fn repository(name: &str) -> PathBuf {
    Path::new(env!("CARGO_MANIFEST_DIR")).join("../..").join(name)
}

fn text(name: &str) -> String {
    fs::read_to_string(repository(name)).unwrap_or_else(|wrong| panic!("{name}: {wrong}"))
}

/// The calls whose declarations start with `start`, each parameter put into c.rs's form by `form`.
fn calls(text: &str, start: &str, form: impl Fn(&str) -> Vec<String>) -> Calls {
    let mut calls = Calls::new();
    for rest in text.split(start).skip(1) {
        let (name, rest) = rest.split_once('(').expect("a call has parameters");
        let (parameters, _) = rest.split_once(')').expect("parameters end");
        let all = parameters.split(',').map(str::trim).filter(|p| !p.is_empty()).flat_map(&form).collect();
        assert!(calls.insert(name.to_string(), all).is_none(), "{name} is declared once");
    }
    calls
}

/// Every call answers a u32.
fn answers(text: &str, start: &str) {
    for rest in text.split(start).skip(1) {
        let answer = rest.split_once(')').expect("parameters end").1;
        assert!(answer.starts_with(" -> u32"), "{} answers a u32", rest.split('(').next().unwrap_or(""));
    }
}

fn in_c_rs(text: &str) -> Calls {
    answers(text, "pub fn brothstitch_");
    calls(text, "pub fn brothstitch_", |parameter| vec![parameter.to_string()])
}

/// A slice goes over as its pointer and its length.
fn in_rattle(text: &str) -> Calls {
    answers(text, "pub extern \"C\" fn brothstitch_");
    calls(text, "pub extern \"C\" fn brothstitch_", |parameter| {
        let (name, kind) = parameter.split_once(": ").expect("a name and a type");
        let of = |start: &str| kind.strip_prefix(start).and_then(|of| of.strip_suffix(']'));
        let slice = |pointer: &str, of: &str| vec![format!("{name}: {pointer} {of}"), format!("{name}_len: usize")];
        match (of("&mut ["), of("&[")) {
            (Some(of), _) => slice("*mut", of),
            (_, Some(of)) => slice("*const", of),
            _ => vec![format!("{name}: {}", kind.replace("&mut ", "*mut "))],
        }
    })
}

fn without_comments(header: &str) -> String {
    let mut parts = header.split("/*");
    let first = parts.next().unwrap_or("").to_string();
    parts.fold(first, |kept, part| kept + part.split_once("*/").expect("a comment ends").1)
}

/// A type of the header in Rust's words; one that it has no word for stays as it is.
fn in_rust(kind: &str) -> &str {
    match kind {
        "int32_t" => "i32",
        "int64_t" => "i64",
        "uint8_t" => "u8",
        "uint32_t" => "u32",
        "uint64_t" => "u64",
        "size_t" => "usize",
        "double" => "f64",
        other => other,
    }
}

fn in_header(header: &str) -> Calls {
    let code = without_comments(header);
    let all = code.matches("brothstitch_").count();
    let calls = calls(&code, "uint32_t brothstitch_", |parameter| {
        let (kind, name) = parameter.rsplit_once([' ', '*']).expect("a type and a name");
        let pointer = parameter[kind.len()..].starts_with('*');
        let kind = kind.trim();
        vec![match (pointer, kind.strip_prefix("const ")) {
            (true, Some(of)) => format!("{name}: *const {}", in_rust(of)),
            (true, None) => format!("{name}: *mut {}", in_rust(kind)),
            (false, _) => format!("{name}: {}", in_rust(kind)),
        }]
    });
    assert_eq!(calls.len(), all, "every call of the header answers a uint32_t");
    calls
}

/// The first difference between two places.
fn held(declared: &Calls, other: &Calls) -> Result<(), String> {
    for name in declared.keys().chain(other.keys()) {
        let [a, b] = [declared, other].map(|calls| calls.get(name));
        if a != b {
            return Err(format!("brothstitch_{name}: {a:?} in c.rs, {b:?} there"));
        }
    }
    Ok(())
}

fn declared() -> Calls {
    let declared = in_c_rs(&text("host/brothstitch/src/c.rs"));
    assert_eq!(declared.len(), CALLS);
    declared
}

#[test]
fn declared_as_in_the_header() {
    assert_eq!(held(&declared(), &in_header(&text("include/brothstitch.h"))), Ok(()));
}

/// The comparison with the Rust has declarations of its own.
#[test]
fn declared_as_in_the_comparison() {
    assert_eq!(held(&declared(), &in_c_rs(&text("oracle/calls/src/lib.rs"))), Ok(()));
}

/// Says nothing where another library than the repository's is linked.
#[test]
fn declared_as_exported() {
    if env::var_os("BROTHSTITCH_DIR").is_some() {
        return;
    }
    let mut exported = Calls::new();
    for file in fs::read_dir(repository("crates/capi/src")).expect("the crate capi is there") {
        let text = fs::read_to_string(file.expect("a file").path()).expect("a text");
        exported.extend(in_rattle(&text));
    }
    assert_eq!(held(&declared(), &exported), Ok(()));
}

/// One call in the three languages.
const C_RS: &str = "pub fn brothstitch_a(coords: *const i32, coords_len: usize, points: usize,
    y: f64, out: *mut u32, out_len: usize, value: *mut u64) -> u32;";
const RATTLE: &str = "#[no_mangle]
pub extern \"C\" fn brothstitch_a(
    coords: &[i32],
    points: usize,
    y: f64,
    out: &mut [u32],
    value: &mut u64,
) -> u32
    ensures { λ r. ⌜ a ⌝ }";
const HEADER: &str = "/* brothstitch_b(int32_t x) is a comment */
uint32_t brothstitch_a(const int32_t *coords, size_t coords_len, size_t points,
                       double y, uint32_t *out, size_t out_len, uint64_t *value);";

#[test]
fn three_languages_are_read_alike() {
    assert_eq!(held(&in_c_rs(C_RS), &in_rattle(RATTLE)), Ok(()));
    assert_eq!(held(&in_c_rs(C_RS), &in_header(HEADER)), Ok(()));
}

#[test]
fn what_drifts_in_the_source_is_told() {
    let drifted = [
        ("y: f64", "y: f32"),
        ("y: f64", "height: f64"),
        ("coords: &[i32]", "coords: &[u32]"),
        ("coords: &[i32]", "coords: &mut [i32]"),
        ("out: &mut [u32]", "out: &[u32]"),
        ("value: &mut u64", "value: u64"),
        ("points: usize,\n    y: f64", "y: f64,\n    points: usize"),
        ("    y: f64,\n", ""),
        ("brothstitch_a", "brothstitch_aa"),
    ];
    for (right, wrong) in drifted {
        assert!(RATTLE.contains(right));
        assert!(held(&in_c_rs(C_RS), &in_rattle(&RATTLE.replace(right, wrong))).is_err(), "{wrong}");
    }
}

/// Every type of every parameter of the real header, changed one at a time.
#[test]
fn what_drifts_in_the_header_is_told() {
    let header = without_comments(&text("include/brothstitch.h"));
    let declared = declared();
    assert_eq!(held(&declared, &in_header(&header)), Ok(()));
    let mut changed = 0;
    for (right, wrong) in [
        ("const int32_t *", "int32_t *"),
        ("int32_t *coords", "uint32_t *coords"),
        ("uint32_t *", "int32_t *"),
        ("uint8_t *", "int8_t *"),
        ("uint64_t *", "uint32_t *"),
        ("double *", "float *"),
        ("double ", "float "),
        ("int64_t x", "int32_t x"),
        ("size_t ", "uint32_t "),
        ("uint32_t edge", "int edge"),
        ("uint32_t mode", "size_t mode"),
        ("double x, double y", "double y, double x"),
    ] {
        let places: Vec<usize> = header.match_indices(right).map(|(at, _)| at).collect();
        assert!(!places.is_empty(), "{right} is in the header");
        for at in places {
            let drifted = format!("{}{wrong}{}", &header[..at], &header[at + right.len()..]);
            assert!(held(&declared, &in_header(&drifted)).is_err(), "{wrong} for {right} at {at}");
            changed += 1;
        }
    }
    assert!(changed > 100, "{changed} changes were tried");
    let one_less = header.replace("uint32_t brothstitch_turn(", "uint32_t brothstitch_turned(");
    assert!(held(&declared, &in_header(&one_less)).is_err());
}
