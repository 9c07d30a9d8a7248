//! The errors of the text form: each message with its place.

use bm::Move;
use bm::text::{assemble, moves, utf8};

/// Names, boxes, labels and estimates.
const GRAMMAR: &[(&str, &str)] = &[
    ("free", "line 1, column 5: expected a name, found the end of the text"),
    ("free x x", "line 1, column 8: expected a name not declared yet, found the name 'x'"),
    (
        "free x $",
        "line 1, column 8: expected a name, a word, a number or one of ( ) { } < > . , | ! @, found '$'",
    ),
    ("free box", "line 1, column 6: expected a name, found the word 'box'"),
    ("x", "line 1, column 1: expected a kind of name, 'box' or 'estimate', found the name 'x'"),
    ("free x c\nbox 0", "line 2, column 5: expected 'site' or 'hidden', found the number 0"),
    ("free x c box site x {c}", "line 1, column 24: expected a process, found the end of the text"),
    ("free x c box site x 0", "line 1, column 21: expected '{', found the number 0"),
    (
        "free x c box site x {}",
        "line 1, column 22: expected 1 to 8 names in the type of 'x', found '}'",
    ),
    (
        "free x c box site x {x}",
        "line 1, column 22: expected names other than 'x' in the type of 'x', found the name 'x'",
    ),
    ("free x c box site x {c c} 0", "line 1, column 24: expected ',' or '}', found the name 'c'"),
    (
        "free x c box site x {c, c} 0",
        "line 1, column 25: expected a name not yet in the set, found the name 'c'",
    ),
    (
        "free x c box site x {c} site x {c} 0",
        "line 1, column 30: expected a name that no other site has, found the name 'x'",
    ),
    (
        "free x c received y box site y {c} 0",
        "line 1, column 30: expected a free name, found the name 'y'",
    ),
    (
        "free x c received y box site x {y} 0",
        "line 1, column 33: expected a free name, found the name 'y'",
    ),
    ("free x c box site x {c} x.0", "line 1, column 26: expected '(' or '<', found '.'"),
    (
        "free x c box site x {c} x<q>.0",
        "line 1, column 27: expected a declared name, found the name 'q'",
    ),
    (
        "free x c box site x {c} x<c>0",
        "line 1, column 29: expected '.' and a process, found the number 0; write '.0' where nothing follows",
    ),
    ("free x c box site x {c} x<c.0", "line 1, column 28: expected '>', found '.'"),
    (
        "free x c box site x {c} x(c).0",
        "line 1, column 27: expected a received name, found the name 'c'",
    ),
    (
        "free x c box site x {c} new c.0",
        "line 1, column 29: expected a restricted name, found the name 'c'",
    ),
    (
        "free x c box site x {c} expose c {x}.0",
        "line 1, column 32: expected an exposed name, found the name 'c'",
    ),
    (
        "free x c received y box site x {c} x<y>.0",
        "line 1, column 38: expected a free name or one bound above, found the name 'y'",
    ),
    (
        "free x c received y box site x {c} x(y).0 | x<y>.0",
        "line 1, column 47: expected a free name or one bound above, found the name 'y'",
    ),
    (
        "free x c received y box site x {c} x(y).x(y).0",
        "line 1, column 43: expected a name that no other line binds, found the name 'y'",
    ),
    (
        "free x c exposed e box site x {c} expose e {e}.0",
        "line 1, column 45: expected names other than 'e' in the type of 'e', found the name 'e'",
    ),
    ("free x c box site x {c} (0", "line 1, column 27: expected ')', found the end of the text"),
    (
        "free x c box site x {c} 0 0",
        "line 1, column 27: expected '|', 'box' or 'estimate', found the number 0",
    ),
    ("free x c box site x {c} 1", "line 1, column 25: expected a process, found the number 1"),
    (
        "free x c box site x {c} @0 !0",
        "line 1, column 29: expected a label on each line or on none, found another numbering",
    ),
    (
        "free x c box site x {c} @0 !@0 0",
        "line 1, column 29: expected each number below the count of lines once, found another numbering",
    ),
    (
        "free x c box site x {c} @0 !@2 0",
        "line 1, column 29: expected each number below the count of lines once, found another numbering",
    ),
    (
        "free x c box site x {c} @1 !@0 0",
        "line 1, column 25: expected the label 0 on the root, found another numbering",
    ),
    (
        "free x c box site x {c} @0 !@2 !@1 0",
        "line 1, column 33: expected a label above its parent's, found another numbering",
    ),
    (
        "free x c box site x {c} @0 (@1 0)",
        "line 1, column 25: expected one label for a line, found '@'",
    ),
    (
        "free x c box site x {c} @124 0",
        "line 1, column 26: expected a line number below 124, found the number 124",
    ),
    (
        "free x c box site x {c} @x 0",
        "line 1, column 26: expected a line number, found the name 'x'",
    ),
    (
        "free x estimate rho x {x} rho x {}",
        "line 1, column 31: expected each name's set once, found the name 'x'",
    ),
    (
        "free x estimate shown {x}",
        "line 1, column 17: expected 'rho', found the word 'shown'; the model has no box",
    ),
    (
        "free x estimate box 0",
        "line 1, column 17: expected 'rho', found the word 'box'; the model has no box",
    ),
    (
        "free x c box site x {c} 0 estimate box 0 box 0",
        "line 1, column 46: expected a box after the one before, found the number 0",
    ),
    (
        "free x c box site x {c} 0 estimate box 0 shown {} shown {}",
        "line 1, column 51: expected each set of a box once, found the word 'shown'",
    ),
];

/// What stands too late.
const ORDER: &[(&str, &str)] = &[
    (
        "free x c\nbox\n  site x {c}\n  0\nfree y\n",
        "line 5, column 1: expected '|', 'box' or 'estimate', found the word 'free'; names come before boxes and estimate",
    ),
    (
        "free x c\nbox\n  site x {c}\n  received y\n  x(y).0\n",
        "line 4, column 3: expected a process, found the word 'received'; names come before boxes and estimate",
    ),
    (
        "free x c\nestimate\nexposed e\n",
        "line 3, column 1: expected 'rho', found the word 'exposed'; names come before boxes and estimate",
    ),
    (
        "free x c\nbox\n  site x {c}\n  0\n  hidden c {x}\n",
        "line 5, column 3: expected '|', 'box' or 'estimate', found the word 'hidden'; the sites of a box come before its process",
    ),
    (
        "free x c\nbox\n  site x {c}\n  0\n  0\n",
        "line 5, column 3: expected '|', 'box' or 'estimate', found the number 0",
    ),
];

/// Types: their subject, their count, their braces.
const TYPES: &[(&str, &str)] = &[
    (
        "free x c\nbox\n  site x {c,\n    x}\n  0\n",
        "line 4, column 5: expected names other than 'x' in the type of 'x', found the name 'x'",
    ),
    (
        "free x c\nbox\n  site x {\n  }\n  0\n",
        "line 4, column 3: expected 1 to 8 names in the type of 'x', found '}'",
    ),
    (
        "free x a b c d e f g h i\nbox\n  site x {a, b, c, d, e, f, g, h, i}\n  0\n",
        "line 3, column 35: expected at most 8 names in the type of 'x', found the name 'i'",
    ),
    (
        "free x c exposed e box site x {c} expose e {}.0",
        "line 1, column 45: expected 1 to 8 names in the type of 'e', found '}'",
    ),
    (
        "free x c exposed e box site x {c} expose e {c, e}.0",
        "line 1, column 48: expected names other than 'e' in the type of 'e', found the name 'e'",
    ),
    (
        "free x a b c d e f g h i exposed o box site x {c} expose o {a, b, c, d, e, f, g, h, i}.0",
        "line 1, column 85: expected at most 8 names in the type of 'o', found the name 'i'",
    ),
    ("free x c box site x\n  x<c>.0", "line 1, column 20: expected '{', found the end of the line"),
    (
        "free x c box site x {c\n  x<c>.0",
        "line 1, column 23: expected ',' or '}', found the end of the line",
    ),
];

/// What is missing at the end of a line.
const MISSING: &[(&str, &str)] = &[
    (
        "free x c\nbox\n  site x {c}\n  x<c>\nbox\n  site c {x}\n  0\n",
        "line 4, column 7: expected '.' and a process, found the end of the line; write '.0' where nothing follows",
    ),
    (
        "free x c\nbox\n  site x {c}\n  x<c>   # no more\n\n# the end\n",
        "line 4, column 7: expected '.' and a process, found the end of the text; write '.0' where nothing follows",
    ),
    (
        "free x c\nbox\n  site x {c}\n  x<c>.\nbox\n  site c {x}\n  0\n",
        "line 4, column 8: expected a process, found the end of the line",
    ),
    (
        "free x c\nbox\n  site x {c}\n  x<c>.x<c>.\n  | x<c>.0\n",
        "line 4, column 13: expected a process, found the end of the line",
    ),
    (
        "free x c\nbox\n  site x {c}\n  x<c>.1\n",
        "line 4, column 8: expected a process, found the number 1",
    ),
    (
        "free x c\nbox\n  site x {c}\n  hide x\n  | 0\n",
        "line 4, column 9: expected '.' and a process, found the end of the line; write '.0' where nothing follows",
    ),
    (
        "free x c\nbox\n  site x {c}\n  x\nbox\n",
        "line 4, column 4: expected '(' or '<', found the end of the line",
    ),
    (
        "free x c\nbox\n  site x {c}\n  (x<c>.0\nbox\n",
        "line 4, column 10: expected ')', found the end of the line",
    ),
    (
        "free x c\nbox\n  site x {c}\nbox\n",
        "line 3, column 13: expected a process, found the end of the line",
    ),
    ("free x c\nbox\n  site x {c}\n  }\n", "line 4, column 3: expected a process, found '}'"),
    ("free\nbox\n", "line 1, column 5: expected a name, found the end of the line"),
];

/// What the papers write otherwise.
const PAPERS: &[(&str, &str)] = &[
    (
        "free x c box site x {c} nil",
        "line 1, column 25: expected a process, found the name 'nil'; nil is written '0'",
    ),
    (
        "free x c box site x {c} x<c>.nil | 0",
        "line 1, column 30: expected a process, found the name 'nil'; nil is written '0'",
    ),
    (
        "free x c nil box site x {c} nil<c>.nil",
        "line 1, column 36: expected a process, found the name 'nil'; nil is written '0'",
    ),
    (
        "free x c box site x {c} nil<c>.0",
        "line 1, column 25: expected a declared name, found the name 'nil'",
    ),
    (
        "free x c box site x {c} hide(x).0",
        "line 1, column 29: expected a name, found '('; write 'hide x.P'",
    ),
    (
        "free x c box site x {c} unhide(x).0",
        "line 1, column 31: expected a name, found '('; write 'unhide x.P'",
    ),
    (
        "free x c exposed e box site x {c} expose(e, {c}).0",
        "line 1, column 41: expected a name, found '('; write 'expose x {c, d}.P'",
    ),
    (
        "free x c restricted n box site x {c} new(n).0",
        "line 1, column 41: expected a name, found '('; write 'new n.P'",
    ),
    (
        "free x c box site(x, {c}) 0",
        "line 1, column 18: expected a name, found '('; write 'site x {c, d}'",
    ),
    (
        "free x c box hidden (x, {c}) 0",
        "line 1, column 21: expected a name, found '('; write 'hidden x {c, d}'",
    ),
    (
        "free x c restricted n box site x {c} (νn) 0",
        "line 1, column 39: expected a name, a word, a number or one of ( ) { } < > . , | ! @, found 'ν'; a restriction is written 'new n.P'",
    ),
    (
        "free x c box site x {c} x⟨c⟩.0",
        "line 1, column 26: expected a name, a word, a number or one of ( ) { } < > . , | ! @, found '⟨'; an output is written 'x<z>.P'",
    ),
    (
        "\u{feff}free x",
        "line 1, column 1: expected a name, a word, a number or one of ( ) { } < > . , | ! @, found '\\u{feff}'",
    ),
];

/// What follows the sets of an estimate.
const SETS: &[(&str, &str)] = &[
    (
        "free x c box site x {c} 0 estimate shown {x}",
        "line 1, column 36: expected 'rho' or 'box', found the word 'shown'; a box's sets come after 'box' and its number",
    ),
    (
        "free x c box site x {c} 0 estimate box 1",
        "line 1, column 40: expected a box number below 1, found the number 1",
    ),
    (
        "free x c box site x {c} 0 estimate box 0 rho x {x}",
        "line 1, column 42: expected 'shown', 'hidden', 'eps', 'kap' or 'box', found the word 'rho'; the sets of rho come before the boxes",
    ),
    (
        "free x c box site x {c} 0 estimate rho x {x} free y",
        "line 1, column 46: expected 'rho' or 'box', found the word 'free'; names come before boxes and estimate",
    ),
    (
        "free x c box site x {c} 0 estimate rho x {x} 0",
        "line 1, column 46: expected 'rho' or 'box', found the number 0",
    ),
    (
        "free x c box site x {c} 0 estimate box 0 shown {x} 1",
        "line 1, column 52: expected 'shown', 'hidden', 'eps', 'kap' or 'box', found the number 1",
    ),
    (
        "free x c box site x {c} 0 estimate box 0 shown {x} received y",
        "line 1, column 52: expected 'shown', 'hidden', 'eps', 'kap' or 'box', found the word 'received'; names come before boxes and estimate",
    ),
];

#[test]
fn errors_say_where_and_what() {
    for (text, message) in [GRAMMAR, ORDER, TYPES, MISSING, PAPERS, SETS].concat() {
        let error = assemble(text).map(|_| ()).expect_err(text);
        assert_eq!(error.to_string(), message, "{text}");
    }
}

#[test]
fn nil_may_name_a_channel() {
    assert!(assemble("free nil c box site nil {c} nil<c>.0").is_ok());
}

#[test]
fn bytes_that_are_no_text() {
    assert_eq!(utf8("free ν\n".as_bytes()), Ok("free ν\n"));
    for (bytes, message) in [
        (&b"\xff"[..], "line 1, column 1: expected UTF-8 text, found the byte 0xff"),
        (
            b"free x\r\n\xce\xbd \x80 z\n",
            "line 2, column 3: expected UTF-8 text, found the byte 0x80",
        ),
        (b"a\n\n\xe2\x9f", "line 3, column 1: expected UTF-8 text, found the byte 0xe2"),
    ] {
        assert_eq!(utf8(bytes).expect_err(message).to_string(), message);
    }
}

#[test]
fn moves_with_comments_and_blank_lines() {
    let text = "# two moves\n\n2 0 0 0 0 # spread\n   \n\t9 0 0 1 4294967295\r\n#9 0 0 1 0\n";
    let expected = vec![Move::new([2, 0, 0, 0, 0]), Move::new([9, 0, 0, 1, u32::MAX])];
    assert_eq!(moves(text), Ok(expected));
    assert_eq!(moves(""), Ok(Vec::new()));
}

#[test]
fn errors_of_moves() {
    for (text, message) in [
        ("1 2 3 4\n", "line 1, column 8: expected five numbers on the line, found only 4"),
        ("\n 1 2 # 3\n", "line 2, column 5: expected five numbers on the line, found only 2"),
        (
            "2 0 0 0 0\n1 2 3 4 5 6",
            "line 2, column 11: expected the end of the line after five numbers, found the number 6",
        ),
        ("# a\n1 x 0 0 0", "line 2, column 3: expected a number, found the name 'x'"),
        ("1 0 0 0 -1", "line 1, column 9: expected a number, found '-'"),
        ("ν", "line 1, column 1: expected a number, found 'ν'"),
        ("spread 0 0", "line 1, column 1: expected a number, found the name 'spread'"),
        (
            "1 0 4294967296 0 0",
            "line 1, column 5: expected a number below 4294967296, found the number 4294967296",
        ),
    ] {
        assert_eq!(moves(text).expect_err(text).to_string(), message, "{text}");
    }
}
