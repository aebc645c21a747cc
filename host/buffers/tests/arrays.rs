//! Array types, array expressions and byte strings, each by itself.

mod common;

use common::{in_function, passes, refused, refused_at, SourceCopy, REPLIES};

#[test]
fn the_sources_pass_as_they_are() {
    SourceCopy::new().passes();
}

#[test]
fn a_type_of_339_bytes_is_refused() {
    let reason = "the type of an array of 339 bytes";
    refused("fn planted(a: [u8; 339]) {}", reason);
    refused("fn planted() -> [u8; 339] { planted() }", reason);
    refused("fn planted(a: &mut [u8; 339]) {}", reason);
    refused("fn planted(a: [i8; 339]) {}", reason);
    refused("struct Planted { bytes: [u8; 339] }", reason);
    refused("type Planted = [u8; 339];", reason);
    refused("const PLANTED: [u8; 339] = [0; 339];", reason);
    refused("enum Planted { Bytes([u8; 339]) }", reason);
    refused("const PLANTED: u64 = [0u8; 339][0] as u64;", "an array of 339 bytes");
    refused(&in_function("let a: [u8; 339] = [0; 339];"), reason);
}

#[test]
fn an_expression_of_339_bytes_is_refused() {
    refused(&in_function("let a = [0u8; 400];"), "an array of 400 bytes");
    refused(&in_function("let a = [b' '; 339];"), "an array of 339 bytes");
    refused(&in_function("let a = [m[0]; 339];"), "an array of 339 bytes");
    refused(&in_function("let a = [m[0] as u8; 339];"), "an array of 339 bytes");
    refused(&in_function("let a = &mut [0u8; 339];"), "an array of 339 bytes");
    refused(&in_function("let a = if true { [0u8; 339] } else { [1; 339] };"), "an array of 339");
    refused(&in_function("let a = loop { break [0u8; 339]; };"), "an array of 339 bytes");
    refused(&in_function(&format!("let a = [{}];", "1u8, ".repeat(339))), "an array of 339 bytes");
}

#[test]
fn numbers_without_a_type_count_as_bytes() {
    refused(&in_function("let a = [0; 339];"), "an array of 339 bytes");
    refused(&in_function("let mut k = 0; let a = [k; 339];"), "an array of 339 bytes");
    refused(&in_function("let n = m.len(); let a = [1 << n; 339];"), "an array of 339 bytes");
    refused(&in_function("let n = put(space, 0, &[0; 339]);"), "an array of 339 bytes");
    passes(&in_function("let a: [u64; 640] = [0; 640];"));
    passes("struct Planted { words: [u64; 640] } fn planted() -> Planted { Planted { words: [0; 640] } }");
    passes("fn planted() -> [u64; 640] { [0; 640] }");
    passes("fn planted() -> [u64; 640] { loop { break [0; 640]; } }");
    let statement = "fn planted(m: &[u8]) -> [u64; 640] { [0; 339][0] == m[0]; [0; 640] }";
    refused(statement, "an array of 339 bytes");
    passes("fn sum(a: &[u64]) -> u64 { a[0] } fn planted() -> u64 { sum(&[0; 640]) }");
}

#[test]
fn lengths_are_worked_out() {
    let reason = "an array of 339 bytes";
    refused(&in_function("let a = [0u8; 0x153];"), reason);
    refused(&in_function("let a = [0u8; 3_3_9usize];"), reason);
    refused(&in_function("let a = [0u8; (2 + 1) * 100 + 78 / 2];"), reason);
    refused(&in_function("let a = [0u8; (1 << 8) + 83 % 84];"), reason);
    refused(&in_function("let a = [0u8; 680 - 1 >> 1];"), reason);
    refused(&in_function("let a = [0u8; 0b1_0101_0010 | 1];"), reason);
    refused(&in_function("let a = [0u8; 0x152 ^ 1];"), reason);
    refused(&in_function("let a = [0u8; /* 5 */ 339];"), reason);
    passes(&in_function("let a = [0u8; 2 + 1 * 100];"));
    passes(&in_function("let a = [0u8; 338 & 0xfff];"));
}

#[test]
fn constants_are_followed() {
    let reason = "an array of 339 bytes";
    let planted = in_function("let a = [0u8; LONG];");
    refused(&format!("const LONG: usize = 339; {planted}"), reason);
    refused(
        &format!("{planted} const LONG: usize = HALF * 2 + 1; const HALF: usize = 169;"),
        reason,
    );
    let method = in_function("let a = [0u8; Owner::LONG];");
    refused(
        &format!("struct Owner {{}} impl Owner {{ const LONG: usize = 339; }} {method}"),
        reason,
    );
    refused(&format!("const LONG: u8 = 0; {}", in_function("let a = [LONG; 339];")), reason);
    passes(&format!("const LONG: usize = 338; {planted}"));
    passes(&format!("const LONG: u64 = 339; {}", in_function("let a = [LONG; 640];")));
    passes("struct Pair { a: u8 } const PAIR: Pair = Pair { a: 1 };");
}

#[test]
fn a_constant_of_another_crate_is_followed() {
    let reason = "an array of 339 bytes";
    let internal = "crates/output/src/internal.rt";
    let below = || SourceCopy::new().append(internal, "pub const LONG: usize = 339;");
    let by_path = "fn planted() { let a = [0u8; output::internal::LONG]; }";
    refused_at(below(), REPLIES, by_path, reason);
    let by_import = "use output::internal::LONG;\nfn planted() { let a = [0u8; LONG]; }";
    refused_at(below(), REPLIES, by_import, reason);
    let by_names = "use output::internal::{put, LONG};\nfn planted() { let a = [0u8; LONG]; }";
    refused_at(below(), REPLIES, by_names, reason);
    let by_root = "use output::LONG;\nfn planted() { let a = [0u8; LONG]; }";
    let root = below().append("crates/output/src/lib.rt", "pub use internal::LONG;");
    refused_at(root, REPLIES, by_root, reason);
    let by_third = "use layout::LONG;\nfn planted() { let a = [0u8; LONG]; }";
    let third = below().append("crates/layout/src/lib.rt", "pub use output::internal::LONG;");
    refused_at(third, REPLIES, by_third, reason);
}

#[test]
fn nested_arrays_are_multiplied() {
    refused("fn planted(a: [[u8; 113]; 3]) {}", "the type of an array of 339 bytes");
    refused(&in_function("let a = [[0u8; 113]; 3];"), "an array of 339 bytes");
    refused(&in_function("let a = [[0; 113], [0; 113], [0u8; 113]];"), "an array of 339 bytes");
    refused(
        "struct Pair(u8, u8); fn planted(a: [Pair; 170]) {}",
        "the type of an array of 340 bytes",
    );
    refused(
        "type Row = [u8; 113]; fn planted(a: [Row; 3]) {}",
        "the type of an array of 339 bytes",
    );
    passes("fn planted(a: [[u8; 169]; 2]) {}");
    passes("struct Pair(u8, u64); fn planted(a: [Pair; 338]) {}");
}

#[test]
fn byte_strings_are_counted() {
    let reason = "a byte string of 339 bytes";
    let long = "x".repeat(338);
    refused(&in_function(&format!("let a = b\"{long}x\";")), reason);
    refused(&in_function(&format!("put(space, 0, b\"{}\");", "\\x00".repeat(339))), reason);
    refused(&in_function(&format!("put(space, 0, b\"{long}\\\"\");")), reason);
    refused(&in_function(&format!("put(space, 0, b\"{long}\\\n       y\");")), reason);
    refused(
        &format!("const PLANTED: [u8; 339] = *b\"{long}x\";"),
        "the type of an array of 339 bytes",
    );
    passes(&in_function(&format!("let a = b\"{long}\";")));
    passes(&in_function(&format!("put(space, 0, b\"{long}\\\n    \");")));
}

#[test]
fn shorter_arrays_and_other_numbers_pass() {
    passes("fn planted(a: [u8; 338]) {}");
    passes(&in_function(
        "let mut a = [0u8; 338]; let mut i = 0; while i < 338 { a[i] = m[i]; i += 1; }",
    ));
    passes("fn planted(a: [u64; 640], b: [u32; 640], c: [u16; 339], d: [bool; 339]) {}");
    passes(&in_function("let a = [0u64; 640]; let b = [1; 5]; let c = [false; 339];"));
}

#[test]
fn comments_contracts_and_ghost_lines_are_no_code() {
    passes("// let a = [0u8; 400];");
    passes(&in_function("/* let a = [0u8; 400]; /* and */ let b = [0u8; 400]; */"));
    passes("fn planted() ensures { result ≡ f { [u8; 400] } } {}");
    passes("ghost use Rattle.rules.specs.Calls.{a, b};");
    refused(&in_function("let a = b\"//\"; let b = [0u8; 400];"), "an array of 400 bytes");
    refused(&in_function("let a = b\"/*\"; let b = [0u8; 400];"), "an array of 400 bytes");
    refused(&in_function("let a = b'\"'; let b = [0u8; 400];"), "an array of 400 bytes");
    for clause in [
        "requires { a }",
        "ensures first { a } ensures second { b }",
        r#"ensures { result ≡ "}" }"#,
        r#"ensures { result ≡ "\"}" }"#,
        "ghost { ℕ }",
    ] {
        let planted = format!("fn planted() {clause} {{ let a = [0u8; 400]; }}");
        refused(&planted, "an array of 400 bytes");
    }
}
