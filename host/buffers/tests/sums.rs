//! The bytes of a struct, and of the locals of a function, added up.

mod common;

use common::{in_function, passes, refused, refused_at, SourceCopy, REPLIES};

#[test]
fn the_fields_of_a_struct_are_added_up() {
    let reason = "Planted holds 339 bytes";
    refused("struct Planted { first: [u8; 170], second: [u8; 169] }", reason);
    refused("struct Planted { pub tag: u8, pub rest: [u8; 338] }", reason);
    refused("struct Planted(pub [u8; 170], [u8; 169]);", reason);
    refused(
        "struct Half { bytes: [u8; 170] } struct Planted { first: Half, second: [u8; 169] }",
        reason,
    );
    passes("struct Planted { first: [u8; 169], second: [u8; 169], words: [u64; 640] }");
    passes("struct Planted<'a> { first: [u8; 338], second: &'a [u8] }");
}

#[test]
fn the_longest_variant_of_an_enum_counts() {
    refused("enum Planted { None, Two([u8; 170], [u8; 169]) }", "Planted holds 339 bytes");
    refused("enum Planted { Two { a: [u8; 170], b: [u8; 169] }, None }", "Planted holds 339 bytes");
    passes("enum Planted { First([u8; 170]), Second([u8; 170]) }");
}

#[test]
fn a_struct_of_another_crate_counts() {
    let half = "pub struct Half { pub bytes: [u8; 170] }";
    let copy = SourceCopy::new().append("crates/output/src/internal.rt", half);
    let planted = "use output::internal::Half;\nstruct Planted { first: Half, second: Half }";
    refused_at(copy, REPLIES, planted, "Planted holds 340 bytes");
}

const HALF: &str =
    "struct Half { bytes: [u8; 170], word: u64 } enum Held { None, Bytes([u8; 170]) } fn takes(h: Held) {} fn takes_bytes(b: [u8; 338]) {}";

/// The statements of a function are refused for locals of so many bytes.
fn locals(statements: &str, bytes: u64) {
    let planted = format!("{HALF} {}", in_function(statements));
    refused(&planted, &format!("fn planted has locals of {bytes} bytes"));
}

fn locals_pass(statements: &str) {
    passes(&format!("{HALF} {}", in_function(statements)));
}

#[test]
fn locals_are_added_up() {
    locals("let a = [0u8; 170]; let b = [0u8; 169];", 339);
    locals("let a: [u8; 170] = [0; 170]; if true { let b: [u8; 169] = [0; 169]; }", 339);
    locals("let a = [0u8; 338]; let b = m[0];", 339);
    locals("let a = [0u8; 338]; let b: u8 = 5;", 339);
    locals("while true { let a = [0u8; 170]; } loop { let b = [0u8; 170]; break; }", 340);
    locals("let a; let b; a = [0u8; 170]; b = [0u8; 170];", 340);
    locals("let _a = [0u8; 170]; let _b = [0u8; 170];", 340);
    locals("let A = [0u8; 170]; let B = A;", 340);
    locals("let a = [0u8; 170]; let b; (b) = a;", 340);
    locals("let a = [0u8; 338]; let mut b = 0; b = m[0];", 339);
    locals("let a = [0u8; 338]; for i in 0u8..5u8 {}", 339);
    refused("fn planted(a: [u8; 170], mut b: [u8; 170]) {}", "fn planted has locals of 340 bytes");
    let method = "struct Half { a: [u8; 170] } impl Half { fn twice(self) { let b = self; } }";
    refused(method, "fn twice has locals of 340 bytes");
    locals_pass("let a = [0u8; 169]; let b = [0u8; 169];");
    passes("fn first() { let a = [0u8; 338]; } fn second() { let a = [0u8; 338]; }");
}

#[test]
fn a_local_has_the_type_of_its_value() {
    locals("let a = [0u8; 170]; let b = a;", 340);
    locals("let a = [[0u8; 170]; 1]; let b = a[0];", 340);
    locals("let a = Half { bytes: [0u8; 170], word: 0 }; let b = a.bytes;", 340);
    locals("let a = &[0u8; 170]; let b = *a;", 340);
    locals("let a = [0u8; 170]; let b = match m.len() { 0 => a, _ => return };", 340);
    locals("let a = [0u8; 170]; let b = if true { return } else { a };", 340);
    locals("let a = [0u8; 170]; let b = if true { return; let x = 1; } else { a };", 340);
    locals("let a = [0u8; 170]; let b = loop { break a; };", 340);
    locals("let a = [0u8; 170]; let b = 'o: loop { 'i: loop { break 'o a; } };", 340);
    locals("let a = [0u8; 170]; let b = { loop { break; } a };", 340);
    locals("let a = [0u8; 170]; let b; if true { b = return; } else { b = a; }", 340);
    locals("let a = [0u8; 170]; let b = { let c = 1; a };", 340);
    locals("let a = [0u8; 170]; let b = (a);", 340);
    locals("let a = [0u8; 170]; if true { let a = [0u64; 3]; } let b = a;", 340);
    locals("let a = [0u8; 170]; { let a = [0u64; 3]; } let b = a;", 340);
    let shadowed = "enum E { X(u64), N } fn planted(a: [u8; 170], e: E) ";
    refused(
        &format!("{shadowed} {{ if let E::X(a) = e {{}} else {{ let b = a; }} }}"),
        "fn planted has locals of 340 bytes",
    );
    locals_pass(
        "let a = [0u8; 338]; let b = a[0] as u64; let c = a.len(); let d = &a[1..]; let e = &a;",
    );
    locals_pass("let a = Half { bytes: [0; 170], word: 0 }; let b = a.word; let c = a.bytes[0];");
}

#[test]
fn what_functions_give_is_followed() {
    let gives = "fn gives() -> [u8; 170] { gives() }";
    let reason = "fn planted has locals of 340 bytes";
    let with = |text: &str| format!("{gives} {}", in_function(text));
    refused(&with("let a = gives(); let b = gives();"), reason);
    refused(&with("let a = crate::internal::gives(); let b = crate::internal::gives();"), reason);
    let half = "struct Half { bytes: [u8; 170] } impl Half { \
        fn new() -> Self { Self { bytes: gives() } } fn bytes(self) -> [u8; 170] { self.bytes } }";
    refused(&format!("{half} {}", with("let a = Half::new(); let b = a.bytes();")), reason);
    let copy = SourceCopy::new().append("crates/output/src/internal.rt", &format!("pub {gives}"));
    let planted = in_function("let a = output::internal::gives(); let b = a;");
    refused_at(copy, REPLIES, &planted, reason);
}

#[test]
fn the_functions_of_a_type_stand_beside_it() {
    let half = |result: &str| {
        format!("pub struct Half {{ a: u64 }} impl Half {{ pub fn give() -> {result} {{ Half::give() }} }}")
    };
    let root = "crates/replies/src/lib.rt";
    let planted =
        format!("{}\nfn planted() {{ let a = Half::give(); let b = a; }}", half("[u8; 170]"));
    let copy = SourceCopy::new().append(REPLIES, &half("u64"));
    refused_at(copy, root, &planted, "fn planted has locals of 340 bytes");
    let variant = "enum E { A([u8; 170]), N } impl E { fn A(a: [u8; 170]) -> u64 { 0 } }";
    let made = in_function("let a = E::A([0; 170]); let b = a;");
    refused(&format!("{variant} {made}"), "fn planted has locals of 340 bytes");
    // A function that stands by itself is another one.
    let free = "fn give() -> [u8; 170] { give() } fn planted() { let a = give(); let b = a; }";
    refused(&format!("{} {free}", half("u64")), "fn planted has locals of 340 bytes");
}

#[test]
fn patterns_bind_locals() {
    locals("let h = Held::Bytes([0; 170]); match h { Held::Bytes(a) => {} Held::None => {} }", 340);
    locals("let h = Held::Bytes([0; 170]); let Held::Bytes(a) = h else { return; };", 340);
    locals("let h = Held::Bytes([0; 170]); if let Held::Bytes(a) = h {}", 340);
    locals("let h = Half { bytes: [0; 170], word: 0 }; let Half { bytes, word } = h;", 340);
    locals("let h = Half { bytes: [0; 170], word: 0 }; let Half { bytes: a, .. } = h;", 340);
    locals("let a = [0u8; 170]; let &b = &a;", 340);
    let constant = "match m[0] { A => 1, _ => 2 }";
    passes(&format!(
        "const A: u8 = 1; fn planted(m: &[u8]) -> u64 {{ let a = [0u8; 338]; {constant} }}"
    ));
    let buffer = "struct buffer { a: u64 } fn planted(a: [u8; 170]) { let buffer = a; }";
    refused(buffer, "fn planted has locals of 340 bytes");
    let lent = "match h { Held::Bytes(a) => a[0], Held::None => 0 }";
    passes(&format!("{HALF} fn planted(a: [u8; 200], h: &Held) -> u8 {{ {lent} }}"));
    locals_pass("let h = Held::Bytes([0; 170]); match h { Held::Bytes(_) => {} _ => {} }");
    let either = "enum Either { A([u8; 150]), B([u8; 150]) }";
    passes(&format!(
        "{either} fn planted(e: Either) {{ match e {{ Either::A(x) | Either::B(x) => {{}} }} }}"
    ));
}

#[test]
fn what_has_no_name_counts_as_well() {
    locals("put(space, 0, &[0u8; 170]); put(space, 0, &[0u8; 170]);", 340);
    locals("let a = [0u8; 170]; put(space, 0, &Half { bytes: a, word: 0 }.bytes);", 340);
    locals("let a = [0u8; 170]; takes(Held::Bytes(a));", 340);
    locals("let a = &[0u8; 170]; put(space, 0, &{ *a });", 340);
    let rest = "fn gives() -> Half { gives() }";
    let taken = in_function("let a = Half { word: 1, ..gives() };");
    refused(&format!("{HALF} {rest} {taken}"), "fn planted has locals of 340 bytes");
    locals("let a = [0u8; 170]; match Held::Bytes(a) { _ => {} }", 340);
    locals("let a = [0u8; 170]; let b = [0u8; 170][0] as u64;", 340);
    locals("let a = [0u8; 170]; [0u8; 170];", 340);
    locals("let a = [0u8; 170]; let _ = [0u8; 170];", 340);
    let apart = "let Half { word, .. } = Half { bytes: [0u8; 170], word: 0 };";
    locals(&format!("let a = [0u8; 170]; {apart}"), 340);
    let table = "const TABLE: [u8; 170] = [0; 170];";
    let twice = in_function("put(space, 0, &TABLE[1..2]); put(space, 0, &TABLE[2..3]);");
    refused(&format!("{table} {twice}"), "fn planted has locals of 340 bytes");
    locals_pass(
        "let a = [0u8; 338]; put(space, 0, &a[1..]); put(space, 0, b\"abc\"); takes_bytes(a);",
    );
}
