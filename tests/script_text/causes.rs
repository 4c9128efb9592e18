//! The causes of bad lines, as values and as text.

use super::{MAP_1, MAP_2, MAP_3, read_behind, read_script};
use class_config::ClassName;
use nav_types::Size;
use script_text::{Cause, GoalKey, Key, Mistake, Wanted};
use std::alloc::Global;
use std::process::Abort;
use std::test::*;

/// Whether a cause says this text.
fn says(alloc: Global, cause: &Cause, text: &str) -> bool {
    match format!(in alloc; "{cause}") {
        Ok(said) => said.as_str() == text,
        Err(_) => false,
    }
}

/// Whether a script that goes on so behind a map line is bad for this cause.
fn has_cause(alloc: Global, map: &str, lines: &str, cause: &Cause) -> bool {
    match read_behind(alloc, map, lines) {
        Ok(outcome) => outcome.cause == Some(*cause),
        Err(_) => false,
    }
}

/// Lines, the cause of the bad one, and what that says.
type Row = (&'static str, Cause, &'static str);

/// Checks the causes of scripts that go on so behind a map line.
fn have_causes(rt: &impl Abort, alloc: Global, map: &str, rows: &[Row]) {
    for (lines, cause, text) in rows {
        assert!(rt; has_cause(alloc, map, lines, cause), "{lines}");
        assert!(rt; says(alloc, cause, text), "{lines}");
    }
}

/// What a script has in the place of its map line.
const NO_MAP_LINE: [Row; 5] = [
    (
        "{\"size\":[5,4],\"callers\":2,\"classes\":[{\"name\":\"a\",\"clearance\":\"0\"}]}\n",
        Cause::MissingKey { key: Key::Version },
        "the line must have the key \"version\" too",
    ),
    (
        "[{\"version\":3,\"size\":[5,4],\"callers\":2,\"classes\":[{\"name\":\"a\",\"clearance\":\"0\"}]},{\"end\":1}]\n",
        Cause::ArrayLine,
        "the line must be an object, and is an array: each object of a script must have a line of its own",
    ),
    (
        "",
        Cause::NoLine,
        "the script must begin with a map line, and has no line",
    ),
    (
        "{\"end\":1}\n",
        Cause::NotHere,
        "the map line must be line 1 alone, and base lines must stand between it and the turns",
    ),
    (
        "{\"version\":4,\"size\":[5,4],\"callers\":2,\"classes\":[{\"name\":\"a\",\"clearance\":\"0\"}]}\n",
        Cause::WrongValue {
            key: Key::Version,
            wanted: Wanted::Whole { least: 1, most: 3 },
        },
        "the key \"version\" must have a whole number from 1 to 3",
    ),
];

#[test]
fn a_script_without_its_map_line_has_a_cause(rt: HostRuntime) {
    have_causes(&rt, rt.alloc(), "", &NO_MAP_LINE);
}

/// Lines behind a map line of version 3.
const THIRD_LINES: [Row; 20] = [
    (
        "{\"caller\":0,\n",
        Cause::EndsInValue,
        "the line must be one JSON value, and ends inside an array or an object",
    ),
    (
        "{\"caller\":0,\"end\":1}\n",
        Cause::SurplusKey { key: Key::Caller },
        "the line must not have the key \"caller\" beside its others",
    ),
    (
        "{\"caller\":0,\"move\":1}\n",
        Cause::MissingKey { key: Key::To },
        "the line must have the key \"to\" too",
    ),
    (
        " \r\n",
        Cause::BlankLine,
        "the line must be one JSON value, and is blank",
    ),
    (
        "\u{feff}{\"end\":1}\n",
        Cause::ByteOrderMark,
        "the line must be one JSON value, and begins with a byte order mark",
    ),
    (
        "{\"a\":[{\"a\":[{\"a\":[{\"a\":[[]]}]}]}]}\n",
        Cause::TooDeep,
        "the line must not have arrays and objects more than 8 deep",
    ),
    (
        "[[[[[[[[[\n",
        Cause::TooDeep,
        "the line must not have arrays and objects more than 8 deep",
    ),
    (
        "[[[[[[[[\n",
        Cause::EndsInValue,
        "the line must be one JSON value, and ends inside an array or an object",
    ),
    (
        "[[[[[[[[]]]]]]],[[[[[[[\"[{\\\"[{\\\\\"]]]]]]]]\n",
        Cause::ArrayLine,
        "the line must be an object, and is an array: each object of a script must have a line of its own",
    ),
    (
        "[{\"caller\":0,\"remove\":1},{\"end\":1}]\n",
        Cause::ArrayLine,
        "the line must be an object, and is an array: each object of a script must have a line of its own",
    ),
    (
        "\"end\"\n",
        Cause::NoSuchForm,
        "the line must be an object with exactly the keys of one form",
    ),
    (
        "\u{feff}[[[[[[[[[\n",
        Cause::ByteOrderMark,
        "the line must be one JSON value, and begins with a byte order mark",
    ),
    (
        "{\"caller\":2,\"remove\":\"1\"}\n",
        Cause::WrongValue {
            key: Key::Caller,
            wanted: Wanted::Caller { callers: 2 },
        },
        "the key \"caller\" must have the number of a caller, which is a whole number below 2",
    ),
    (
        "{\"caller\":0,\"remove\":1,\"caller\":2}\n",
        Cause::WrongValue {
            key: Key::Caller,
            wanted: Wanted::Caller { callers: 2 },
        },
        "the key \"caller\" must have the number of a caller, which is a whole number below 2",
    ),
    (
        "{\"region\":\"a\",\"at\":[1.5,\"0\"],\"caller\":0}\n",
        Cause::WrongValue {
            key: Key::At,
            wanted: Wanted::TwoDecimals,
        },
        "the key \"at\" must have an array of two decimals in quotes with at most 16 places, from -32768 to below 32768",
    ),
    (
        "{\"caller\":0,\"path\":\"a\",\"from\":[\"0\",\"0\"],\"goal\":{\"circle\":[\"1\",\"1\"]}}\n",
        Cause::WrongValue {
            key: Key::OfGoal(GoalKey::Circle),
            wanted: Wanted::ThreeDecimals,
        },
        "the key \"circle\" must have an array of three decimals in quotes with at most 16 places, from -32768 to below 32768",
    ),
    (
        "{\"caller\":0,\"path\":\"a\",\"from\":[\"0\",\"0\"],\"goal\":{\"centre\":[\"1\",\"1\"]}}\n",
        Cause::WrongValue {
            key: Key::Goal,
            wanted: Wanted::Goal { version: 3 },
        },
        "the key \"goal\" must have an object with exactly one key: point, circle, not-circle, square, not-square or, from version 3 on, obstruction",
    ),
    (
        "{\"end\":1}\n{\"end\":1}\n",
        Cause::WrongValue {
            key: Key::End,
            wanted: Wanted::Turn { number: 2 },
        },
        "the key \"end\" must have the number of this turn, 2",
    ),
    (
        "{\"caller\":0,\"remove\":1}\n{\"base\":[]}\n",
        Cause::NotHere,
        "the map line must be line 1 alone, and base lines must stand between it and the turns",
    ),
    (
        "{\"caller\":0,\"remove\":1}\n",
        Cause::EndsInsideTurn,
        "the script must not end inside a turn: its end line is missing",
    ),
];

#[test]
fn lines_of_version_3_have_causes(rt: HostRuntime) {
    have_causes(&rt, rt.alloc(), MAP_3, &THIRD_LINES);
}

/// A byte of a line that is no JSON value, by its place, and what is wrong with it.
type Slip = (&'static str, u64, Mistake, &'static str);

/// A line for each mistake, and for some of them a second.
const SLIPS: [Slip; 47] = [
    (
        "{\"end\":1} // done\n",
        11,
        Mistake::Comment,
        "byte 11: JSON has no comments",
    ),
    (
        "{\"end\":1# done\n",
        9,
        Mistake::Comment,
        "byte 9: JSON has no comments",
    ),
    (
        "{'end':1}\n",
        2,
        Mistake::SingleQuote,
        "byte 2: JSON has strings in double quotes only",
    ),
    (
        "{\"end\":NaN}\n",
        8,
        Mistake::NoNumber,
        "byte 8: JSON has no NaN, no Infinity and no None",
    ),
    (
        "{\"end\":-Infinity}\n",
        9,
        Mistake::NoNumber,
        "byte 9: JSON has no NaN, no Infinity and no None",
    ),
    (
        "{\"end\": +1}\n",
        9,
        Mistake::NumberStart,
        "byte 9: a number must begin with a digit or a minus sign",
    ),
    (
        "{\"end\":.5}\n",
        8,
        Mistake::NumberStart,
        "byte 8: a number must begin with a digit or a minus sign",
    ),
    (
        "{end:1}\n",
        2,
        Mistake::BareWord,
        "byte 2: only true, false, null and numbers stand without quotes",
    ),
    (
        "{\"end\":0x1}\n",
        9,
        Mistake::BareWord,
        "byte 9: only true, false, null and numbers stand without quotes",
    ),
    (
        "{\"e\u{1}nd\":1}\n",
        4,
        Mistake::Control,
        "byte 4: a control character must be written as \\u and four digits, in a string",
    ),
    (
        "{\u{0}\"end\":1}\n",
        2,
        Mistake::Control,
        "byte 2: a control character must be written as \\u and four digits, in a string",
    ),
    (
        "{\"e\\nd\\x\":1}\n",
        8,
        Mistake::Escape,
        "byte 8: a backslash in a string must stand before one of \" \\ / b f n r t u",
    ),
    (
        "{\"a\\/b\":1,}\n",
        11,
        Mistake::TrailingComma,
        "byte 11: no comma may stand before a closing bracket",
    ),
    (
        "{\"end\":1,}\n",
        10,
        Mistake::TrailingComma,
        "byte 10: no comma may stand before a closing bracket",
    ),
    (
        "[1,2, ]\n",
        7,
        Mistake::TrailingComma,
        "byte 7: no comma may stand before a closing bracket",
    ),
    (
        "{\"caller\":0 \"end\":1}\n",
        13,
        Mistake::MissingComma,
        "byte 13: a comma or a colon is missing before this",
    ),
    (
        "{\"end\" 1}\n",
        8,
        Mistake::MissingComma,
        "byte 8: a comma or a colon is missing before this",
    ),
    (
        "{\"end\":1]\n",
        9,
        Mistake::WrongBracket,
        "byte 9: a bracket or brace must close what was opened last: ] a [, and } a {",
    ),
    (
        "[1}\n",
        3,
        Mistake::WrongBracket,
        "byte 3: a bracket or brace must close what was opened last: ] a [, and } a {",
    ),
    (
        "{\"a\":[{\"b\":1]}\n",
        13,
        Mistake::WrongBracket,
        "byte 13: a bracket or brace must close what was opened last: ] a [, and } a {",
    ),
    (
        "{\"a\":\"]\",\"b\":[{\"c\":1}}}\n",
        22,
        Mistake::WrongBracket,
        "byte 22: a bracket or brace must close what was opened last: ] a [, and } a {",
    ),
    (
        "{1:2}\n",
        2,
        Mistake::NoKey,
        "byte 2: a key in double quotes must stand here",
    ),
    (
        "{[1]:2}\n",
        2,
        Mistake::NoKey,
        "byte 2: a key in double quotes must stand here",
    ),
    (
        "{\"caller\":0,true}\n",
        13,
        Mistake::NoKey,
        "byte 13: a key in double quotes must stand here",
    ),
    (
        "{\"a\":[1,2],\"b\":{\"c\":1, -5}}\n",
        24,
        Mistake::NoKey,
        "byte 24: a key in double quotes must stand here",
    ),
    (
        "{\"caller\":0,\"remove\":1,000}\n",
        24,
        Mistake::NumberAsKey,
        "byte 24: a key in double quotes must stand here, and a number must have no commas",
    ),
    (
        "{\"caller\":0,\"remove\":1, 500}\n",
        25,
        Mistake::NumberAsKey,
        "byte 25: a key in double quotes must stand here, and a number must have no commas",
    ),
    (
        "{\"end\"}\n",
        7,
        Mistake::NoColon,
        "byte 7: a colon and a value must stand behind a key",
    ),
    (
        "{\"a\" ,\"b\":1}\n",
        6,
        Mistake::NoColon,
        "byte 6: a colon and a value must stand behind a key",
    ),
    (
        "{\"a\":1,\"b\"]\n",
        11,
        Mistake::NoColon,
        "byte 11: a colon and a value must stand behind a key",
    ),
    (
        "[\"a\":1]\n",
        5,
        Mistake::StrayColon,
        "byte 5: a colon must stand behind a key in double quotes",
    ),
    (
        "{\"a\":\"b\":1}\n",
        9,
        Mistake::StrayColon,
        "byte 9: a colon must stand behind a key in double quotes",
    ),
    (
        "{\"end\":}\n",
        8,
        Mistake::NoValue,
        "byte 8: a value must stand here",
    ),
    (
        "[1,,2]\n",
        4,
        Mistake::NoValue,
        "byte 4: a value must stand here",
    ),
    (
        "]\n",
        1,
        Mistake::NoValue,
        "byte 1: a value must stand here",
    ),
    (
        "{\"end\":1}{\"end\":2}\n",
        10,
        Mistake::BehindValue,
        "byte 10: a line has one value, and this stands behind it",
    ),
    (
        "{\"end\":1}\r{\"end\":2}\r",
        11,
        Mistake::BehindValue,
        "byte 11: a line has one value, and this stands behind it",
    ),
    (
        "{\"end\":01}\n",
        9,
        Mistake::LeadingZero,
        "byte 9: a number must not have a zero before its other digits",
    ),
    (
        "[1,000]\n",
        5,
        Mistake::LeadingZero,
        "byte 5: a number must not have a zero before its other digits",
    ),
    (
        "{\"end\":1.}\n",
        10,
        Mistake::WrongNumber,
        "byte 10: a number must be written as 0, -1.5 or 2e3",
    ),
    (
        "[-0.5,1e+]\n",
        10,
        Mistake::WrongNumber,
        "byte 10: a number must be written as 0, -1.5 or 2e3",
    ),
    (
        "[-1.5E-3,-]\n",
        11,
        Mistake::WrongNumber,
        "byte 11: a number must be written as 0, -1.5 or 2e3",
    ),
    (
        "{\"end\":1.2.3}\n",
        11,
        Mistake::WrongNumber,
        "byte 11: a number must be written as 0, -1.5 or 2e3",
    ),
    (
        "{\"\\u12g4\":1}\n",
        7,
        Mistake::HexDigit,
        "byte 7: four hexadecimal digits must stand behind \\u",
    ),
    (
        "{\"\\ud83d\":1}\n",
        9,
        Mistake::HalfPair,
        "byte 9: a half of a surrogate pair must stand with its other half, as in \\ud83d\\ude00",
    ),
    (
        "{\"\\ud83d\\ude00\\uDE00\":1}\n",
        18,
        Mistake::HalfPair,
        "byte 18: a half of a surrogate pair must stand with its other half, as in \\ud83d\\ude00",
    ),
    (
        "{\"\\uD83D\\ud83d\":1}\n",
        12,
        Mistake::HalfPair,
        "byte 12: a half of a surrogate pair must stand with its other half, as in \\ud83d\\ude00",
    ),
];

#[test]
fn mistakes_are_told_by_their_place(rt: HostRuntime) {
    for (line, place, mistake, text) in &SLIPS {
        let cause = Cause::NoJsonAt {
            place: *place,
            mistake: *mistake,
        };
        assert!(rt; has_cause(rt.alloc(), MAP_3, line, &cause), "{line}");
        assert!(rt; says(rt.alloc(), &cause, text), "{line}");
    }
}

/// Lines 1 that are not in UTF-8, and the place of the first byte that is not.
const NO_TEXTS: [(&[u8], u64); 4] = [
    (b"{\"caller\":0,\"path\":\"caf\xe9\"}", 24),
    (b"\xff\xfe{\x00", 1),
    (b"\x1f\x8b\x08", 2),
    (b"{\"\xc3\xa9\":\"\xc3", 8),
];

#[test]
fn lines_that_are_no_text_are_told_by_their_place(rt: HostRuntime) {
    for (line, place) in &NO_TEXTS {
        let cause = Cause::NotUtf8 { place: *place };
        let told = match read_script(rt.alloc(), line, 7, &[]) {
            Ok(outcome) => outcome.cause == Some(cause),
            Err(_) => false,
        };
        assert!(rt; told, "{place}");
    }
    let cause = Cause::NotUtf8 { place: 24 };
    assert!(rt; says(rt.alloc(), &cause, "byte 24: the line must be in UTF-8"));
}

/// Lines without a mistake at a byte that are no JSON values.
const ENDINGS: [Row; 11] = [
    (
        "{\"caller\":0,\"path\":\"a\n",
        Cause::EndsInString,
        "the line must be one JSON value, and ends inside a string",
    ),
    (
        "\"a\\\n",
        Cause::EndsInString,
        "the line must be one JSON value, and ends inside a string",
    ),
    (
        "{\"caller\":0,\"remove\":1\n",
        Cause::EndsInValue,
        "the line must be one JSON value, and ends inside an array or an object",
    ),
    (
        "{\"end\":1e400}\n",
        Cause::NumberTooLarge { place: 8 },
        "byte 8: a number must be within those of 64-bit floats, about 1.8e308",
    ),
    (
        "[\"1e400\",0.1e-400,-1E+309]\n",
        Cause::NumberTooLarge { place: 19 },
        "byte 19: a number must be within those of 64-bit floats, about 1.8e308",
    ),
    (
        "[1.7976931348623157e308,1.7976931348623159e308,1e999]\n",
        Cause::NumberTooLarge { place: 25 },
        "byte 25: a number must be within those of 64-bit floats, about 1.8e308",
    ),
    (
        "1000000000000000000000000000000000000000000000000000000000000000000000000000000000000000000000000000000000000000000000000000000000000000000000000000000000000000000000000000000000000000000000000000000000000000000000000000000000000000000000000000000000000000000000000000000000000000000000000000000000000000000000\n",
        Cause::NumberTooLarge { place: 1 },
        "byte 1: a number must be within those of 64-bit floats, about 1.8e308",
    ),
    (
        "{\"end\":tru}\n",
        Cause::NotJson,
        "the line must be one JSON value, with no words but true, false and null, and numbers as 0, -1.5 or 2e3",
    ),
    (
        "nulll\n",
        Cause::NotJson,
        "the line must be one JSON value, with no words but true, false and null, and numbers as 0, -1.5 or 2e3",
    ),
    (
        "-\n",
        Cause::NotJson,
        "the line must be one JSON value, with no words but true, false and null, and numbers as 0, -1.5 or 2e3",
    ),
    (
        "{\"end\":1e400\n",
        Cause::EndsInValue,
        "the line must be one JSON value, and ends inside an array or an object",
    ),
];

#[test]
fn lines_that_end_too_early_are_told_so(rt: HostRuntime) {
    have_causes(&rt, rt.alloc(), MAP_3, &ENDINGS);
}

#[test]
fn base_lines_have_causes(rt: HostRuntime) {
    let size = Size::new(5, 4).expect(&rt, "the size");
    let rows = [
        (
            "{\"base\":[[0,0,4,3,1],[0,0,5,0,1]]}\n",
            Cause::WrongRectangle { number: 2, size },
            "the key \"base\" must have an array of arrays [i0,j0,i1,j1,mask] with i0 <= i1, j0 <= j1 and mask <= 65535, on a map of 5 by 4; array 2 is wrong",
        ),
        (
            "{\"base\":1}\n",
            Cause::WrongValue {
                key: Key::Base,
                wanted: Wanted::Rectangles { size },
            },
            "the key \"base\" must have an array of arrays [i0,j0,i1,j1,mask] with i0 <= i1, j0 <= j1 and mask <= 65535, on a map of 5 by 4",
        ),
    ];
    have_causes(&rt, rt.alloc(), MAP_3, &rows);
}

#[test]
fn a_key_of_no_form_is_told(rt: HostRuntime) {
    let Some(key) = ClassName::new(b"fly") else {
        return;
    };
    let text = "the line must have the keys of one form, and no form has the key \"fly\"";
    let rows = [(
        "{\"caller\":0,\"fly\":1}\n",
        Cause::UnknownKey { key },
        text,
    )];
    have_causes(&rt, rt.alloc(), MAP_3, &rows);
}

/// What is told of a form of version 3 before it.
const THIRD: &str = "the map line must name version 3 or later for this";

/// Lines behind a map line of version 2.
const SECOND_LINES: [Row; 3] = [
    (
        "{\"caller\":0,\"move\":1,\"to\":[\"0\",\"0\"]}\n",
        Cause::LaterVersion { version: 3 },
        THIRD,
    ),
    (
        "{\"caller\":0,\"path\":\"a\",\"from\":[\"0\",\"0\"],\"goal\":{\"obstruction\":[1,\"0\"]}}\n",
        Cause::LaterVersion { version: 3 },
        THIRD,
    ),
    (
        "{\"caller\":0,\"add\":1,\"unit\":[\"0\",\"0\",\"1\"]}\n",
        Cause::MissingMask,
        "an add line must have the key \"mask\" from version 2 on",
    ),
];

/// Lines behind a map line of version 1.
const FIRST_LINES: [Row; 1] = [(
    "{\"caller\":0,\"add\":1,\"unit\":[\"0\",\"0\",\"1\"],\"mask\":1}\n",
    Cause::LaterVersion { version: 2 },
    "the map line must name version 2 or later for this",
)];

#[test]
fn forms_of_other_versions_have_causes(rt: HostRuntime) {
    have_causes(&rt, rt.alloc(), MAP_2, &SECOND_LINES);
    have_causes(&rt, rt.alloc(), MAP_1, &FIRST_LINES);
}
