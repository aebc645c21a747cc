//! Forms of the language, each with something small, which is read, and with a buffer, which is
//! refused.

mod common;

use common::{in_function, passes, refused, refused_at, SourceCopy, REPLIES};

const ARRAY: &str = "an array of 339 bytes";
const LOCALS: &str = "fn planted has locals of 340 bytes";

const HALF: &str =
    "#[derive(Clone, Copy, Debug, PartialEq, Eq)] pub struct Half { bytes: [u8; 170] }";

/// It is refused, as what cannot be read.
fn unread(text: &str, reason: &str) {
    SourceCopy::new().append(REPLIES, text).is_refused(&format!("cannot be read: {reason}"));
}

#[test]
fn ghost_fields_are_left_out() {
    passes("struct Planted { a: [u8; 338], ghost n: { a ≡ b } }");
    passes("struct Planted { a: [u8; 338], pub ghost n: { a ≡ b }, }");
    let reason = "the type of an array of 400 bytes";
    refused("struct Planted { ghost n: { ℕ }, a: [u8; 400] }", reason);
    refused("struct Planted { pub ghost n: { ℕ }, pub a: [u8; 400] }", reason);
    unread("struct Planted { ghost n: u64, a: u64 }", "a clause without braces");
    unread("ghost fn planted() {}", "a ghost that is no clause");
}

#[test]
fn functions_that_make_a_type_from_another_are_read() {
    let made = |body: &str| {
        format!(
            "struct Planted {{ a: u64 }} impl From<u64> for Planted {{ \
            ghost use Rattle.std.specs.Prelude.{{a}}; ghost from_gives = {{ λ _ r. r ≡ a }}; \
            fn from(a: u64) -> Planted {{ {body} Planted {{ a }} }} }}"
        )
    };
    let planted = "fn planted() -> u64 { Planted::from(1).a }";
    passes(&format!("{} {planted}", made("")));
    refused(&made("let b = [0u8; 339];"), ARRAY);
    let half = "impl From<u64> for Half { fn from(a: u64) -> Half { Half { bytes: [0; 170] } } }";
    let twice = in_function("let a = Half::from(1); let b = Half::from(2);");
    refused(&format!("{HALF} {half} {twice}"), LOCALS);
    // Of two it is not known which is meant.
    let other = "impl From<u8> for Half { fn from(a: u8) -> Half { Half { bytes: [0; 170] } } }";
    unread(&format!("{HALF} {half} {other} {twice}"), "nothing says what Half::from is");
    unread("struct P { a: u64 } impl Iterator for P { }", "'{' is expected");
    unread("struct P { a: u64 } impl Deref for P { }", "'{' is expected");
}

#[test]
fn the_functions_of_a_type_of_another_file_are_followed() {
    let below = || SourceCopy::new().append("crates/replies/src/other.rt", HALF);
    let gives = "use crate::other::Half;\nimpl Half { fn gives(self) -> [u8; 170] { self.bytes } }";
    let once = "fn planted(h: &Half) { let a = h.gives(); }";
    below().append(REPLIES, &format!("{gives} {once}")).passes();
    let twice = "fn planted(h: &Half) { let a = h.gives(); let b = h.gives(); }";
    refused_at(below(), REPLIES, &format!("{gives} {twice}"), LOCALS);
}

#[test]
fn a_path_is_passed_on_under_another_name() {
    let internal = "crates/output/src/internal.rt";
    let below = |name: &str| {
        let copy = SourceCopy::new().append(internal, HALF);
        copy.append("crates/output/src/lib.rt", &format!("pub use internal::Half as {name};"))
    };
    let planted = "use output::Part;\nfn planted(a: Part) {}";
    below("Part").append(REPLIES, planted).passes();
    let twice = "use output::Part;\nfn planted(a: Part, b: Part) {}";
    refused_at(below("Part"), REPLIES, twice, LOCALS);
    for name in ["Option", "Some", "u64"] {
        below(name).is_refused(&format!("another {name} than that of the language"));
    }
    unread("use output::internal::None;", "another None than that of the language");
}

#[test]
fn type_parameters_stand_for_one_byte_at_most() {
    let first = "fn first<T: Copy>(items: &[T]) -> T { items[0] }";
    passes(&format!("{first} {}", in_function("let a = first(m); let b = first(&[1u64; 640]);")));
    let lent = "fn planted(a: &[[u8; 2]]) { let b = first(a); }";
    unread(&format!("{first} {lent}"), "T stands for 2 bytes");
    unread(&format!("{first} {HALF} fn planted(h: &[Half]) {{ first(h); }}"), "T stands for 170");
    let option = "fn planted(h: &[Option<[u8; 3]>]) { first(h); }";
    unread(&format!("{first} {option}"), "T stands for 3 bytes");
    refused("fn planted<T: Copy>(a: T) { let b = [a; 339]; }", ARRAY);
    refused("fn planted<T: Copy>(a: &[T; 339]) {}", "the type of an array of 339 bytes");
    unread("fn planted<const N: usize>(a: [u8; N]) {}", "'>' is expected");
    unread("fn planted<T: Default>(a: T) {}", "a bound that is neither Copy nor Fn");
    let none = "fn gives<T: Copy>() -> T { gives() }";
    unread(&format!("{none} fn planted() {{ let a = gives(); }}"), "nothing says what a type");
    unread("fn planted<Option: Copy>(a: Option) {}", "another Option than");
}

#[test]
fn functions_are_passed() {
    let each =
        "fn each<T: Copy, F: Fn(T) -> u64>(items: &[T], number: F) -> u64 { number(items[0]) }";
    let with = |statements: &str| format!("{each} {HALF} {}", in_function(statements));
    passes(&with("each(m, u64::from); each(m, |b| u64::from(b)); each(&[1u64], |n| n + 1);"));
    passes(&with("let n = m.len(); each(m, |b| u64::from(b) + n as u64);"));
    refused(&with("each(m, |b| { let a = [0u8; 339]; 1 });"), ARRAY);
    refused(
        &with("each(m, |b| { let a = [0u8; 170]; let c = a; 1 });"),
        "fn planted has locals of 341",
    );
    unread(
        &with("let a = [0u8; 5]; each(m, |b| u64::from(a[0]));"),
        "a closure takes in the bytes of a",
    );
    unread(&with("each(m, |b| return 1);"), "a return in a closure");
    unread(&with("let f = |b| 1;"), "nothing says what a closure takes");
    unread(&with("let f = |b: u8| loop {};"), "nothing says what a closure gives");
    unread(&with("each(m, 1);"), "a function is expected");
    refused(&with("let f = |b: u64| [0u8; 170]; let a = f(1); let b = f(2);"), LOCALS);
    refused(
        &with("let f = Half::make; let a = f(1); let b = f(2);")
            .replace("fn each", "impl Half { fn make(n: u64) -> Half { Half::make(n) } } fn each"),
        LOCALS,
    );
    let some = "fn apply<R: Copy, F: Fn(u64) -> R>(f: F) -> R { f(1) }";
    unread(&format!("{some} {}", in_function("apply(|n| [0u8; 5]);")), "R stands for 5 bytes");
}

#[test]
fn arrays_that_methods_make_are_counted() {
    let with = |statements: &str| format!("struct Number(u64); {}", in_function(statements));
    passes(&with("let a = [Number(0); 640]; let b = a.map(|n| n.0);"));
    passes(&with("let a = [0u64; 640]; let b = a.map(Number);"));
    refused(&with("let a = [0u64; 339]; let b = a.map(|n| n as u8);"), ARRAY);
    refused(&with("let a = [0u64; 113]; let b = a.map(|n| [0u8; 3]);"), ARRAY);
    refused(&with("let a = [0u64; 339]; let b = a.map(u8::from);"), ARRAY);
    let either = "let a = [0u8; 170]; let b = if true { [return] } else { [a] };";
    refused(&with(either), LOCALS);
    refused(&with("let a = [0u8; 170]; let b = a.map(|n| n);"), "fn planted has locals of 511");
    // Here the numbers are bytes, whatever is wanted of what is made of them.
    refused("fn planted() -> [u64; 339] { [0; 339].map(u64::from) }", ARRAY);
    passes("fn planted() -> [u64; 640] { std::array::from_fn(|i| i as u64) }");
    refused(&with("let a: [u8; 339] = std::array::from_fn(|i| i as u8);"), ARRAY);
    unread(&with("let a = std::array::from_fn(|i| i as u8);"), "nothing says how long this array");
    unread(&with("let a = m.to_vec();"), "nothing says what to_vec is");
    unread(&with("let a = m.iter().collect();"), "nothing says what collect is");
    unread(&with("let a = m.len().to_le_bytes();"), "nothing says what to_le_bytes is");
    unread(&with("let a = u64::to_le_bytes(1);"), "nothing says what u64::to_le_bytes is");
}

#[test]
fn what_is_gone_through_is_counted() {
    passes(&in_function("for b in m {} for &b in m {} for (i, b) in m.iter().enumerate() {}"));
    passes(&in_function("for k in (0..m.len()).rev() {} for p in m.chunks_exact(400) {}"));
    passes(&in_function("for (&a, &b) in m.iter().zip(m) {} for n in [0u64; 640] {}"));
    refused(&in_function("for b in [0u8; 339] {}"), ARRAY);
    refused(
        &in_function("let a = [0u8; 170]; for b in a {}"),
        "fn planted has locals of 341 bytes",
    );
    refused(
        &in_function("let a = [[0u8; 113]; 2]; for &b in &a {}"),
        "fn planted has locals of 339 bytes",
    );
    refused(&in_function("let a = [[0u8; 85]; 2]; for (&b, &c) in a.iter().zip(&a) {}"), LOCALS);
    refused(&in_function("for b in m { let a = [0u8; 339]; }"), ARRAY);
    unread(&in_function("for (a, b) in m.iter().zip([0u8; 5]) {}"), "bytes that are moved");
    unread(&in_function("for b in 5 {}"), "what has no items is gone through");
    passes(&in_function("let n = m.iter().position(|&b| b == b'/').unwrap_or(0);"));
    passes(&in_function(
        "let n = m.iter().fold(0, |sum: u64, b| sum.wrapping_add(u64::from(*b)));",
    ));
    let folded = "m.iter().fold([0u8; 85], |a: [u8; 85], b| a);";
    refused(
        &in_function(&format!("let a = {folded} let b = {folded}")),
        "fn planted has locals of 510",
    );
}

#[test]
fn options_and_results_hold_their_contents() {
    passes("fn planted(a: Option<[u8; 338]>, b: Result<Option<u64>, Option<Option<u64>>>) {}");
    refused("fn planted(a: Option<[u8; 339]>) {}", "the type of an array of 339 bytes");
    refused("fn planted(a: Result<u64, [u8; 339]>) {}", "the type of an array of 339 bytes");
    refused("fn planted(a: Option<[u8; 170]>, b: Result<[u8; 170], u64>) {}", LOCALS);
    refused(
        "struct Planted { a: Option<[u8; 170]>, b: Result<u64, [u8; 169]> }",
        "Planted holds 339 bytes",
    );
    refused("fn planted(a: [Option<u8>; 339]) {}", "the type of an array of 339 bytes");
    refused(&in_function("let a = [Some(0); 339];"), ARRAY);
    refused(&in_function("let a = Some([0u8; 170]); let b = a;"), LOCALS);
    let gives = "fn gives() -> Option<[u8; 170]> { Some([0; 170]) }";
    let with = |body: &str| format!("{gives} fn planted() -> Option<u64> {{ {body} None }}");
    passes(&with("let a = gives()?;").replace("170", "169"));
    refused(&with("let a = gives()?;"), LOCALS);
    refused(&with("let Some(a) = gives() else { return None; };"), LOCALS);
    refused(&with("if let Some(a) = gives() {}"), LOCALS);
    refused(&with("while let Some(a) = gives() {}"), LOCALS);
    refused(&with("match gives() { Some(a) => {} None => {} }"), LOCALS);
    refused(&with("let a = gives().unwrap_or([0; 170]);"), "fn planted has locals of 510 bytes");
    unread(&in_function("let a = None;"), "nothing says what None is");
    unread(&in_function("let a = Err(1);"), "nothing says what Err is");
    unread("enum Some { A }", "another Some than that of the language");
}

#[test]
fn tuples_hold_their_parts() {
    passes(&in_function("let (a, b) = (1u64, m[0]); let c = (a, b).0; let d = (1, 2) < (3, 4);"));
    refused("fn planted(a: ([u8; 170], [u8; 169])) {}", "the type of a tuple of 339 bytes");
    refused(&in_function("let a = ([0u8; 170], [0u8; 169]);"), "a tuple of 339 bytes");
    refused(&in_function("let a = [(0, 0u64); 339];"), ARRAY);
    refused(&in_function("let (a, b) = ([0u8; 100], [0u8; 70]);"), LOCALS);
    refused(&in_function("let a = ([0u8; 170], 1u64); let b = a.0;"), LOCALS);
    refused(&in_function("let a = ([0u8; 170], 1u64); match a { (b, 1) => {} _ => {} }"), LOCALS);
    unread(&in_function("let a; let b; (a, b) = (1, 2);"), "what is made of parts is assigned to");
    unread(&in_function("let b = 1; let ref b = [0u8; 170];"), "a pattern that lends");
    unread(&in_function("let (a, b) = m;"), "what is no tuple is taken apart");
}

#[test]
fn guards_are_read() {
    passes(
        "fn planted(n: u64) -> u64 { match n { 2 if n < 5 => 1, 1 | 3 if n == 3 => 2, _ => 3 } }",
    );
    let guarded = "match m[0] { 2 if [0u8; 339][0] == 1 => {} _ => {} }";
    refused(&in_function(guarded), ARRAY);
    refused(&in_function("match m[0] { b if { let a = [0u8; 339]; true } => {} _ => {} }"), ARRAY);
}

#[test]
fn assignments_with_operators_are_read() {
    passes(&in_function("let mut a = 1u64; a |= 1; a &= 2; a /= 3; a %= 4; a ^= 5; a <<= 1;"));
    refused(&in_function("let mut a = true; a |= [0u8; 339][0] == 1;"), ARRAY);
}

#[test]
fn the_use_of_an_array_tells_its_numbers() {
    passes("fn planted() -> [u32; 640] { let mut a = [0; 640]; a[0] = 1; a }");
    passes("fn sum(a: &[u64]) -> u64 { 0 } fn planted() { let a = [0; 640]; sum(&a); }");
    passes("struct P { a: [u64; 640] } fn planted() -> P { let a = [0; 640]; P { a } }");
    refused("fn planted() -> u64 { let a = [0; 339]; a[0] }", ARRAY);
    refused("fn sum(a: &[u8]) {} fn planted() { let a = [0; 339]; sum(&a); }", ARRAY);
    refused("fn planted() -> u64 { let a = [0; 170]; let b = [0; 170]; 1 }", LOCALS);
    refused("fn planted() -> [u64; 5] { { let a = [0; 339]; } let a = [0; 5]; a }", ARRAY);
    let generic = "fn sum<T: Copy>(a: &[T]) {} fn planted() { let a = [0; 339]; sum(&a); }";
    refused(generic, ARRAY);
}
