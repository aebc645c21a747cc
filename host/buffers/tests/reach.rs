//! Which crates are looked through, and what they may use.

mod common;

use common::{refused_at, repository, SourceCopy, REPLIES};

const LONG: &str = "pub fn planted() { let a = [0u8; 400]; }";

#[test]
fn what_makes_replies_is_looked_through_with_all_that_it_calls() {
    let report = buffers::look(&repository()).unwrap();
    let has = |name: &str| report.crates.iter().any(|looked| looked == name);
    for name in ["replies", "reception", "tender", "in_place", "optes_book", "steps"] {
        assert!(has(name), "{name} makes replies");
    }
    for name in ["output", "layout", "digits", "errors", "checks", "envelope", "addresses", "book"]
    {
        assert!(has(name), "{name} is called");
    }
    for name in ["session_log", "example_desk", "tender_cases", "optes"] {
        assert!(!has(name), "{name} lends the ends or makes no reply");
    }
    assert!(report.functions > 300);
}

#[test]
fn every_such_crate_is_refused_for_a_long_array() {
    for name in buffers::look(&repository()).unwrap().crates {
        let path = format!("crates/{name}/src/lib.rt");
        refused_at(SourceCopy::new(), &path, LONG, "an array of 400 bytes");
    }
}

#[test]
fn a_returned_message_may_not_go_through_a_buffer() {
    let straight = "let banner = put(space, 0, m);";
    let through = "let mut copy = [0u8; 357];\n    let end = put(&mut copy, 0, m);\n    \
        let banner = put(space, 0, &copy[0..end]);";
    let copy = SourceCopy::new().replace(REPLIES, straight, through);
    copy.is_refused_in(REPLIES, 1, "fn put_returned has locals of 357 bytes");
}

#[test]
fn a_crate_below_is_followed() {
    let planted = |source: &str| {
        let copy = SourceCopy::new().replace("crates.txt", "\nreplies:", "\nreplies: helper");
        copy.add_crate("helper", "", source, LONG)
    };
    planted("lib.rt").is_refused_in("crates/helper/src/lib.rt", 1, "an array of 400 bytes");
    let below = "crates/helper/src/inner/deep.rt";
    planted("inner/deep.rt").is_refused_in(below, 1, "an array of 400 bytes");
}

#[test]
fn a_crate_below_a_crate_below_is_followed() {
    let copy = SourceCopy::new().replace("crates.txt", "\noutput:", "\noutput: helper");
    let copy = copy.add_crate("helper", "deeper", "lib.rt", "");
    let copy = copy.add_crate("deeper", "", "lib.rt", LONG);
    copy.is_refused_in("crates/deeper/src/lib.rt", 1, "an array of 400 bytes");
}

#[test]
fn a_library_above_is_looked_through_and_a_program_is_not() {
    let above =
        |source: &str| SourceCopy::new().add_crate("answers", "output replies", source, LONG);
    above("lib.rt").is_refused_in("crates/answers/src/lib.rt", 1, "an array of 400 bytes");
    above("main.rt").passes();
    let through = SourceCopy::new().add_crate("answers", "output reception", "lib.rt", LONG);
    through.is_refused_in("crates/answers/src/lib.rt", 1, "an array of 400 bytes");
    SourceCopy::new().add_crate("apart", "output # replies", "lib.rt", LONG).passes();
}

#[test]
fn input_and_output_are_refused() {
    let with_io = SourceCopy::new().replace("crates.txt", "\nreplies:", "\nreplies: io");
    with_io.is_refused("replies uses io, which is no crate of this repository");
    let below = SourceCopy::new().replace("crates.txt", "\noutput:", "\noutput: libc");
    below.is_refused("output uses libc, which is no crate of this repository");
    for (text, name) in [
        ("use io::write;", "io"),
        ("use os;", "os"),
        ("fn planted(m: &[u8]) { io::write(m); }", "io"),
        ("fn planted(m: &[u8]) { libc::write(1, m); }", "libc"),
    ] {
        SourceCopy::new().append(REPLIES, text).is_refused(&format!(": {name} is used"));
    }
}

#[test]
fn a_module_is_found_by_its_file() {
    let below = |file: &str, text: &str| {
        SourceCopy::new().append(&format!("crates/replies/src/{file}"), text)
    };
    let length = "pub const LONG: usize = 5;";
    let planted = "mod lib;\nconst LONG: usize = 400;\nfn planted() { let a = [0u8; LONG]; }";
    refused_at(below("internal/lib.rt", length), REPLIES, planted, "an array of 400 bytes");
    let gives = "pub fn gives() -> [u8; 170] { gives() }";
    let planted =
        "mod inner;\nfn planted() { let a = inner::gives(); let b = self::inner::gives(); }";
    let reason = "fn planted has locals of 340 bytes";
    refused_at(below("internal/inner.rt", gives), REPLIES, planted, reason);
    refused_at(below("internal/inner/mod.rt", gives), REPLIES, planted, reason);
    let planted = "fn planted() { let a = super::gives(); let b = crate::gives(); }";
    refused_at(below("lib.rt", gives), REPLIES, planted, reason);
    for name in ["book", "bool"] {
        let copy =
            below(&format!("internal/{name}.rt"), gives).append(REPLIES, &format!("mod {name};"));
        copy.is_refused("a module with the name of a crate or a type");
    }
}

#[test]
fn common_forms_are_read() {
    for text in [
        "fn planted(n: &u8) -> u64 { *n as u64 }",
        "fn planted(n: &&u64) -> u64 { **n }",
        "fn planted(n: u64) -> u64 { match n { (1 | 2) => 1, _ => 'o: loop { break 'o 2; } } }",
        "fn planted(n: u64) { match n { 0 => (), _ => () } }",
        "pub(crate) fn planted() {}",
        "pub struct Planted { pub(crate) a: u64 }",
        "fn gives() -> u64 { 1 } fn planted() -> u64 { self::gives() }",
        "use std::num::wrapping_add_u64;\nfn planted() -> u64 { wrapping_add_u64(1, 2) }",
        "fn planted(n: u64) -> u64 { n.wrapping_add(1).wrapping_mul(n) }",
        "const A: u64 = 1; const B: u64 = 5; fn planted(n: u64) { match n { A..=B => {} _ => {} } }",
        "fn planted(i: u64) -> [u64; 2] { 'a: loop { break 'a; } [i, i] }",
        "fn planted(i: usize) -> u64 { let mut sum = 0; for k in i + 1..2 * i - 1 { sum += 1; } sum }",
    ] {
        SourceCopy::new().append(REPLIES, text).passes();
    }
}

#[test]
fn every_source_comes_to_an_end() {
    let deep = "what stands too deep in other things, or in itself";
    let many = |line: fn(usize) -> String| (1..40).map(line).collect::<Vec<String>>().join("\n");
    let structs = |k: usize| format!("struct S{k} {{ a: S{0}, b: [S{0}; 1], c: S{0} }}", k - 1);
    let lengths = |k: usize| format!("const N{k}: usize = N{0} | N{0} | N{0};", k - 1);
    for text in [
        "type A = B; type B = A;".to_string(),
        "const A: usize = B; const B: usize = A; fn planted(a: [u8; A]) {}".to_string(),
        "struct S { a: [S; 2] }".to_string(),
        format!("fn planted() {{ {} }}", "(".repeat(20_000) + &")".repeat(20_000)),
        format!("fn planted(a: {}u8) {{}}", "&".repeat(20_000)),
        format!("fn planted() {{ {} }}", "if true {} else ".repeat(30_000) + "{}"),
        format!("fn planted() {{ let mut a = 1; {} 1; }}", "a = ".repeat(60_000)),
    ] {
        SourceCopy::new().append(REPLIES, &text).is_refused(deep);
    }
    let tuples = |k: usize| format!("type T{k} = (T{0}, T{0});", k - 1);
    let results = |k: usize| format!("type T{k} = Result<T{0}, T{0}>;", k - 1);
    let locals = |k: usize| format!("let a{k} = (a{0}, a{0});", k - 1);
    for text in [
        format!("type T0 = u64;\n{}", many(tuples)),
        format!("type T0 = u64;\n{}", many(results)),
        format!("fn planted() {{ let a0 = 1u64;\n{} }}", many(locals)),
    ] {
        SourceCopy::new().append(REPLIES, &text).is_refused("a type of too many parts");
    }
    let structs = format!("struct S0 {{ a: u64 }}\n{}", many(structs));
    SourceCopy::new().append(REPLIES, &structs).passes();
    let lengths = format!("const N0: usize = 5;\n{}\nfn planted(a: [u8; N39]) {{}}", many(lengths));
    SourceCopy::new().append(REPLIES, &lengths).passes();
    let comments = "/*".repeat(200_000);
    SourceCopy::new().append(REPLIES, &comments).is_refused("the source ends too early");
    let root = SourceCopy::new().append("crates/replies/src/lib.rt", "use internal::Missing;");
    let both = root.append(REPLIES, "use crate::Missing;\nfn planted(a: Missing) {}");
    both.is_refused("nothing says what Missing is");
}

#[test]
fn what_cannot_be_read_is_refused() {
    for (text, reason) in [
        ("extern \"C\" { fn copy(to: &mut [u8], from: &[u8]); }", "foreign functions"),
        ("mod inner { pub fn planted() {} }", "';' is expected"),
        ("static PLANTED: [u8; 400] = [0; 400];", "no item that is known begins here"),
        ("union Planted { bytes: [u8; 400] }", "no item that is known begins here"),
        ("let a = [0u8; 400];", "no item that is known begins here"),
        ("}", "no item that is known begins here"),
        ("fn planted() {} }", "no item that is known begins here"),
        (
            "fn planted(m: &[u8]) { std::io::write_u8(m); }",
            "nothing says what std::io::write_u8 is",
        ),
        ("fn planted(m: &[u8]) { for b in m[0] {} }", "what has no items is gone through"),
        ("const PLANTED: u64 = 1 2;", "the item does not end here"),
        ("use output::internal::*;", "';' is expected"),
        ("use output::internal::put as write;", "';' is expected"),
        ("use output::internal::{put as write};", "',' is expected"),
        ("use output::{internal::put};", "',' is expected"),
        ("use output::internal::{put, *};", "a name is expected"),
        ("fn planted() { let a = unknown(); }", "nothing says what unknown is"),
        ("fn planted(a: Unknown) {}", "nothing says what Unknown is"),
        ("fn planted() { let a = [0u8; UNKNOWN]; }", "nothing says what UNKNOWN is"),
        ("fn planted() { let a = [0u8; 1 - 2]; }", "a number that leaves 64 bits"),
        ("fn planted() { let a = br\"x\"; }", "nothing says what br is"),
        ("fn planted() { let a = (1 2); }", "')' is expected"),
        ("fn planted() { let a = 'x'; }", "':' is expected"),
        ("struct Planted { ghost n { ℕ }, a: [u8; 400] }", "a ghost that is no clause"),
        ("type u64 = u8;", "another u64 than that of the language"),
        ("struct bool { a: [u8; 200] }", "another bool than that of the language"),
        ("fn planted() { let a = [0u8; 4e2]; }", "a number that cannot be read"),
        ("fn planted() { let a = [0u8; 600 - (255u8 << 1)]; }", "a length is a usize"),
        ("const A: bool = 0 < 6; fn planted(a: [u8; A]) {}", "'usize' is expected"),
        ("const A: usize = 1 == 2; fn planted(a: [u8; A]) {}", "';' is expected"),
        ("fn planted() { loop { break 'o; } }", "no loop around has this label"),
        ("fn planted() { 'o: other {} }", "a loop is expected here"),
        ("fn planted() { ({ let c = 1; c }) = 5; let a = c; }", "nothing says what c is"),
        (
            "fn planted() ensures { a -- {\n} { let a = [0u8; 400]; }\n// } {}",
            "a comment in a clause",
        ),
        ("fn planted() ensures { a {- { -} } { let a = [0u8; 400]; }", "a comment in a clause"),
        (
            "ghost use Rattle.std.specs.Prelude.{length, -- ; const N: usize = 5;\ntake};",
            "a comment in a clause",
        ),
        ("fn planted() { let a = b\"x; }", "the source ends too early"),
        ("fn planted() {", "a bracket is not closed"),
        ("/* fn planted() {}", "the source ends too early"),
    ] {
        SourceCopy::new().append(REPLIES, text).is_refused(&format!("cannot be read: {reason}"));
    }
}

#[test]
fn a_repository_without_replies_is_no_repository() {
    let copy = SourceCopy::new().replace("crates.txt", "\nreplies:", "\nreplied:");
    assert_eq!(copy.status(), Some(2));
}
