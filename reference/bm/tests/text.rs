//! The text form: round trips, labels and errors.

use bm::cases::random::{self, Size};
use bm::cases::rng::Rng;
use bm::model::{Line, LineNo};
use bm::text::{NameList, assemble, disassemble};
use bm::write::Draft;
use bm::{Model, NameNo};

/// The images of a text, and the text again.
fn again(text: &str) -> (Vec<u8>, Vec<u8>) {
    let said = assemble(text).unwrap_or_else(|error| panic!("{error}\n{text}"));
    let boxes = said.model.boxes.len();
    (said.model.image(), said.estimate.expect("an estimate").image(boxes))
}

#[test]
fn round_trips() {
    let mut rng = Rng::new(21);
    let (mut labelled, mut plain) = (0, 0);
    for round in 0..300 {
        let size = match round % 5 {
            0 => Size::LARGEST,
            1 => Size { boxes: 0, ..Size::small(&mut rng) },
            2 => Size { boxes: 1, sites: 33, names: 60, lines: (124, 124), parts: 0, apart: None },
            _ => Size::typical(&mut rng),
        };
        let draft = random::draft(&mut rng, size);
        let image = draft.image();
        let model = Model::read(&image).unwrap();
        let estimate = random::accepted(&mut rng, &model);
        let names = NameList::numbered(size.names);
        let text = disassemble(&model, Some(&estimate), &names);
        assert_eq!(again(&text), (image, estimate.image(size.boxes)), "{text}");
        let has_labels = text.contains('@');
        labelled += usize::from(has_labels);
        plain += usize::from(!has_labels);
    }
    assert!(labelled > 50 && plain > 50, "{labelled} {plain}");
}

#[test]
fn empty_text_is_the_empty_model() {
    let said = assemble("# nothing\n").unwrap();
    assert_eq!(said.model, Draft::default());
    let error = said.estimate.expect_err("no estimate");
    assert_eq!(
        error.to_string(),
        "line 1, column 10: expected 'estimate', found the end of the text"
    );
    let model = Model::read(&said.model.image()).unwrap();
    assert_eq!(disassemble(&model, None, &NameList::numbered(0)), "");
}

fn lines(process: &str) -> Vec<Line> {
    let text = format!("free x z c received y box site x {{c}} {process}");
    assemble(&text).unwrap().model.boxes.remove(0).lines
}

#[test]
fn numbering_is_top_down() {
    let (x, z, y) = (NameNo(0), NameNo(1), NameNo(3));
    let par = |first, second| Line::Parallel { first: LineNo(first), second: LineNo(second) };
    let expected = vec![
        par(1, 3),
        Line::Input { on: x, into: y, next: LineNo(2) },
        Line::Nil,
        par(4, 6),
        Line::Output { on: x, of: z, next: LineNo(5) },
        Line::Nil,
        Line::Replicate { next: LineNo(7) },
        Line::Nil,
    ];
    assert_eq!(lines("x(y).0 | x<z>.0 | !0"), expected);
    assert_eq!(lines("(x(y).0) | ((x<z>.0 | (!0)))"), expected);
    assert_ne!(lines("(x(y).0 | x<z>.0) | !0"), expected);
}

#[test]
fn labels_give_the_numbering() {
    let expected = vec![
        Line::Parallel { first: LineNo(3), second: LineNo(1) },
        Line::Replicate { next: LineNo(2) },
        Line::Nil,
        Line::Nil,
    ];
    assert_eq!(lines("@0 (@3 0 | @1 !@2 0)"), expected);
}

#[test]
fn long_processes_break_into_lines() {
    let process = ["x<z>.x<z>.x<z>.0"; 12].join(" | ");
    let text = format!("free x z c\nbox\n  site x {{c}}\n  {process}\n");
    let said = assemble(&text).unwrap();
    let model = Model::read(&said.model.image()).unwrap();
    let printed = disassemble(&model, None, &said.names);
    assert!(printed.lines().count() > 8 && printed.lines().all(|line| line.len() <= 80));
    assert_eq!(assemble(&printed).unwrap().model, said.model);
}

#[test]
fn limits_of_the_text() {
    let many = |count: usize| (0..count).map(|at| format!("n{at} ")).collect::<String>();
    let expected = |text: &str| assemble(text).map(|_| ()).expect_err("an error").expected;
    assert!(assemble(&format!("free {}", many(60))).is_ok());
    assert_eq!(expected(&format!("free {}", many(61))), "at most 60 names");
    let site = |at: usize| format!("site n{at} {{c}} ");
    let sites = |count: usize| (0..count).map(site).collect::<String>();
    assert!(assemble(&format!("free c {} box {} 0", many(16), sites(16))).is_ok());
    assert_eq!(expected(&format!("free c {} box {} 0", many(17), sites(17))), "at most 16 sites");
    let boxes = |count: usize| (0..count).map(|at| format!("box {} 0 ", site(at)));
    assert!(assemble(&format!("free c {} {}", many(9), boxes(8).collect::<String>())).is_ok());
    let nine = format!("free c {} {}", many(9), boxes(9).collect::<String>());
    assert_eq!(expected(&nine), "at most 8 boxes");
    let bangs = |count: usize| format!("free x c box site x {{c}} {}0", "!".repeat(count));
    assert!(assemble(&bangs(123)).is_ok());
    assert_eq!(expected(&bangs(124)), "at most 124 lines in a box");
    let brackets = "(".repeat(100_000);
    let deep = format!("free x c box site x {{c}} {brackets}");
    assert_eq!(expected(&deep), "at most 400 levels of brackets and prefixes");
    let nine: Vec<String> = (0..9).map(|at| format!("n{at}")).collect();
    let typed = format!("free x {} box site x {{{}}} 0", many(9), nine.join(", "));
    assert_eq!(expected(&typed), "at most 8 names in the type of 'x'");
}
