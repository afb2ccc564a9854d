//! Cases of the two programs: texts that pin their constants and what they do with unusual bytes, and generated texts.

use crate::cases::Case;
use second::generate;
use second::notation::text;
use second::random::Random;

/// A generated text for the translating program.
pub fn translating(random: &mut Random) -> Vec<Case> {
    vec![Case::TranslatingProgram { text: any_text(random) }]
}

/// A generated text for the running program.
pub fn running(random: &mut Random) -> Vec<Case> {
    vec![Case::RunningProgram { text: any_text(random) }]
}

/// Mostly a program's text; at times any text, or about as many bytes as a program holds.
fn any_text(random: &mut Random) -> Vec<u8> {
    match random.below(20) {
        0..=16 => generate::program_text(random),
        17 | 18 => generate::text(random),
        _ => b"T\n".repeat(random.between(4_090, 4_100)),
    }
}

/// A text, with what the translating and the running program must print.
pub struct Pinned {
    pub what: &'static str,
    pub text: Vec<u8>,
    pub translated: Translated,
    pub ran: &'static str,
}

/// What the translating program must print: a refusal's line, or so many bytes of plain lines, so many lines.
pub enum Translated {
    Refused(&'static str),
    Plain { bytes: usize, lines: usize },
}

/// The pinned texts for the translating program.
pub fn pinned_translating() -> Vec<Case> {
    pinned().into_iter().map(|pinned| Case::TranslatingProgram { text: pinned.text }).collect()
}

/// The pinned texts for the running program.
pub fn pinned_running() -> Vec<Case> {
    pinned().into_iter().map(|pinned| Case::RunningProgram { text: pinned.text }).collect()
}

/// All pinned texts.
pub fn pinned() -> Vec<Pinned> {
    let mut all = sizes();
    all.extend(runs());
    all.extend(unusual_bytes());
    all.extend(refusals());
    all.extend(ends());
    all
}

fn refused(what: &'static str, text: Vec<u8>, line: &'static str) -> Pinned {
    Pinned { what, text, translated: Translated::Refused(line), ran: line }
}

fn accepted(what: &'static str, text: Vec<u8>, bytes: usize, lines: usize, ran: &'static str) -> Pinned {
    Pinned { what, text, translated: Translated::Plain { bytes, lines }, ran }
}

const NO_ROOM: &str = "!\t13\t0\n";

/// Both sides of 8,192 bytes of input, 680 rows, 1,000 plain rows and 8,192 bytes of plain text.
fn sizes() -> Vec<Pinned> {
    let wide = b"B\t65535\t65535\n";
    let literals = |count: usize| text(&format!("S, B 0 {count}, {count}*T"));
    let objects =
        |count: usize, more: usize| text(&format!("S, B 0 {}, {count}*W 0, {more}*T", count + more));
    let (ran_71, ran_wide) = ("O\t71\t72\t71\t0\nO\t141\t853\t142\t0\n", "O\t3\t7\t3\t0\nO\t5\t58\t6\t0\n");
    let mut no_text_room = accepted("8,193 bytes of plain text", wide_plain(1), 0, 0, ran_wide);
    no_text_room.translated = Translated::Refused(NO_ROOM);
    vec![
        refused("8,192 bytes of input", [&wide.repeat(585)[..], b"T\n"].concat(), "!\t3\t1\n"),
        refused("8,193 bytes of input", [&wide.repeat(585)[..], b"T\n\n"].concat(), NO_ROOM),
        accepted("680 rows", literals(678), 1_394, 684, "T\t679\t0\t0\nT\t679\t0\t0\n"),
        refused("681 rows", literals(679), NO_ROOM),
        accepted("1,000 plain rows", objects(71, 0), 4_439, 1_000, ran_71),
        refused("1,001 plain rows", objects(71, 1), NO_ROOM),
        accepted("8,192 bytes of plain text", wide_plain(2), 8_192, 983, ran_wide),
        no_text_room,
    ]
}

/// A program of long lines. Its plain text has 8,194 bytes, and one less for each of the given count of short names.
fn wide_plain(short_names: usize) -> Vec<u8> {
    let class = |superclass: u32, names: &[usize]| {
        let fields: String = names.iter().map(|name| format!("; F 255 {name}")).collect();
        format!("(C 1 {superclass}{fields})")
    };
    let names: Vec<usize> = (100..116).collect();
    let last = [&names[..14 - short_names], &[10, 11][..short_names]].concat();
    let (first, other, last) = (class(0, &names), class(8, &names), class(8, &last));
    let start = "S, B 9 6, 8*V 255, V 10, 3*R 9 10, 3*W 10";
    text(&format!("7*{first}, C 0 0, 31*{other}, 1*{last}, {start}"))
}

/// Both sides of the 10,000 steps and the 166 objects that a run is lent, for the source and for the plain program.
fn runs() -> Vec<Pinned> {
    let calls = |literals: usize| {
        let methods = "C 0 0, M 255 0, B 0 50, 50*T, M 255 1, B 0 10, 10*(Q 0 0; I 0)";
        let block = format!("B 1 {}, V 1, A 1, W 1, 18*(Q 1 0; I 1), {literals}*T", 19 + literals);
        text(&format!("{methods}, S, {block}"))
    };
    let objects = |pairs: usize, single: usize| {
        let method = "C 0 0, M 255 0, B 0 3, W 0, W 0, T";
        let block =
            format!("B 1 {}, V 1, A 1, W 1, {pairs}*(Q 0 0; I 1), {single}*W 0, T", pairs + single + 2);
        text(&format!("{method}, S, {block}"))
    };
    vec![
        accepted("10,000 steps", calls(403), 2_174, 714, "T\t10000\t1\t0\n!\t14\t10000\t2\t0\n"),
        accepted("10,001 steps", calls(404), 2_176, 715, "!\t14\t10000\t1\t0\n!\t14\t10000\t2\t0\n"),
        accepted("166 objects", objects(82, 1), 3_433, 725, "T\t497\t166\t0\n!\t16\t1378\t166\t0\n"),
        accepted("167 objects", objects(83, 0), 3_409, 719, "!\t16\t500\t166\t0\n!\t16\t1378\t166\t0\n"),
        accepted("166 plain objects", objects(41, 0), 1_813, 383, "T\t250\t83\t0\nT\t1368\t166\t0\n"),
        accepted("168 plain objects", objects(41, 1), 1_875, 397, "T\t251\t84\t0\n!\t16\t1370\t166\t0\n"),
    ]
}

/// Texts as other systems write them, and the smallest ones.
fn unusual_bytes() -> Vec<Pinned> {
    vec![
        refused("carriage returns", b"S\r\nB\t0\t1\r\nT\r\n".to_vec(), "!\t1\t1\n"),
        refused("a NUL byte in a line", b"S\0\nB\t0\t1\nT\n".to_vec(), "!\t1\t1\n"),
        refused("a NUL byte at the end", b"S\nB\t0\t1\nT\n\0".to_vec(), "!\t1\t4\n"),
        refused("a byte-order mark", b"\xef\xbb\xbfS\nB\t0\t1\nT\n".to_vec(), "!\t1\t1\n"),
        refused("no last line feed", b"S\nB\t0\t1\nT".to_vec(), "!\t1\t3\n"),
        refused("an empty line", b"\n".to_vec(), "!\t1\t1\n"),
        refused("an empty input", Vec::new(), "!\t3\t1\n"),
        accepted("a literal", text("S, B 0 1, T"), 38, 7, "T\t2\t0\t0\nT\t2\t0\t0\n"),
    ]
}

/// A text for each refusal from 2 to 12; 1, 3 and 13 stand above.
fn refusals() -> Vec<Pinned> {
    let before_start = |records: &str| text(&format!("{records}, S, B 0 1, T"));
    vec![
        refused("a name over 255", before_start("C 0 0, F 255 256"), "!\t2\t2\n"),
        refused("field 17 for the translator", many_fields(17), "!\t2\t18\n"),
        refused("an undeclared class", text("S, B 0 1, W 1"), "!\t4\t3\n"),
        refused("a state class below Object", before_start("C 2 0"), "!\t5\t1\n"),
        refused(
            "an override with another type",
            before_start("C 0 0, M 255 0, B 0 1, T, C 0 1, M 1 0, B 0 1, N"),
            "!\t6\t6\n",
        ),
        refused("a slot out of scope", text("S, B 0 1, I 1"), "!\t7\t3\n"),
        refused("no such field", text("C 0 0, S, B 0 1, G 0, W 1"), "!\t8\t4\n"),
        refused("null test of a bool", text("S, B 0 1, Z, T"), "!\t9\t3\n"),
        refused(
            "an effect that X lines do not name",
            before_start("C 1 0, M 1 0, B 0 1, R 0 1"),
            "!\t10\t2\n",
        ),
        refused("a change to Object", text("S, B 1 1, V 0, R 1 0"), "!\t11\t4\n"),
        refused("a reserved name", before_start("C 0 0, F 255 254"), "!\t12\t2\n"),
    ]
}

/// A class of so many fields and a literal.
fn many_fields(count: usize) -> Vec<u8> {
    let fields: String = (0..count).map(|name| format!("F 255 {name}, ")).collect();
    text(&format!("C 0 0, {fields}S, B 0 1, T"))
}

/// A text for each end of a run that does not stand above: too deep a call, both exceptions, false and null.
fn ends() -> Vec<Pinned> {
    let endless = "C 0 0, M 0 0, B 0 1, Q 0 0, I 0, S, B 0 1, Q 0 0, W 1";
    let no_object = "C 0 0, F 255 0, S, B 1 1, V 1, G 0, I 1";
    let wrong_class = "C 0 0, S, B 0 1, K 1, W 0";
    let ran = |what, program: &str, bytes, lines, ran| accepted(what, text(program), bytes, lines, ran);
    vec![
        ran("a 65th call", endless, 194, 39, "!\t15\t195\t1\t0\n!\t15\t595\t2\t0\n"),
        ran("exception 1", no_object, 72, 13, "E\t1\t3\t0\t0\nE\t1\t5\t0\t0\n"),
        ran("exception 2", wrong_class, 144, 31, "E\t2\t3\t1\t0\nE\t2\t21\t2\t0\n"),
        ran("false", "S, B 0 1, L", 38, 7, "L\t2\t0\t0\nL\t2\t0\t0\n"),
        ran("null", "S, B 0 1, N", 38, 7, "N\t2\t0\t0\nN\t2\t0\t0\n"),
    ]
}
