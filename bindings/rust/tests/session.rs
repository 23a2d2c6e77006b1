//! Sessions as a program uses them: refusals, odd texts, many threads, and edits at random beside a search of
//! the whole text.
use rope_search::{
    escape, pattern_error, Counts, Encoding, Error, Match, PatternError, Position, Reason, Session,
    Span, Stretch, TextEdit,
};

fn session(text: &str, pattern: &str) -> Session {
    let mut session = Session::new().unwrap();
    session.set_text(text).unwrap();
    session.set_pattern(pattern).unwrap();
    session
}

fn spans(session: &Session) -> Vec<(usize, usize, usize)> {
    session
        .matches(..)
        .map(|span| (span.line, span.start, span.stop))
        .collect()
}

#[test]
fn a_new_session_is_empty() {
    let session = Session::new().unwrap();
    assert_eq!(session.text(..).unwrap(), "");
    assert_eq!(
        (session.text_len(), session.text_lines(), session.rows()),
        (0, 1, 0)
    );
    assert_eq!((session.buffers(), session.chosen()), (1, 0));
    assert_eq!((session.can_undo(), session.can_redo()), (false, false));
    assert_eq!(session.matches(..).next(), None);
    assert_eq!(session.count_matches(..), 0);
    assert_eq!(session.changed(), Stretch::default());
    assert_eq!(session.counted(), Counts::default());
    assert_eq!(session.byte_of((0, 0)), Ok(0));
    assert_eq!(session.position_of(0), Ok(Position::new(0, 0)));
    assert!(format!("{session:?}").contains("text_lines: 1"));
}

#[test]
fn each_refusal_has_its_error() {
    let mut session = Session::with_limit(10).unwrap();
    assert_eq!(session.undo(), Err(Error::Nothing));
    assert_eq!(session.redo(), Err(Error::Nothing));
    assert_eq!(session.choose(1), Err(Error::Nothing));
    assert_eq!(session.choose(usize::MAX), Err(Error::Nothing));
    assert_eq!(session.next((0, 0)), Err(Error::Nothing));
    assert_eq!(session.replace(""), Err(Error::Nothing));
    assert_eq!(session.groups_at(0, 0), Err(Error::Nothing));
    assert_eq!(session.edit((0, 1)..(0, 1), ""), Err(Error::Range));
    assert_eq!(session.set_text(b"\xff"), Err(Error::Utf8));
    assert_eq!(
        session.edit((0, 0)..(0, 0), b"\xed\xa0\x80"),
        Err(Error::Utf8)
    );
    assert_eq!(session.set_text("12345678901"), Err(Error::Size));
    assert_eq!(session.set_pattern(b"\xc3"), Err(Error::Utf8));
    let place = PatternError {
        place: 0,
        reason: Reason::NothingToRepeat,
    };
    assert_eq!(session.set_pattern("*"), Err(Error::Pattern(place)));
    assert_eq!(session.set_pattern("a".repeat(65_537)), Err(Error::Limit));
    assert_eq!(session.set_pattern("a{65535}{65535}"), Err(Error::Limit));
    assert_eq!(session.rows(), 0);
    assert_eq!(Session::with_limit(usize::MAX).err(), Some(Error::Size));

    session.set_text("ab").unwrap();
    session.set_pattern("a").unwrap();
    assert_eq!(session.next((0, 3)), Err(Error::Range));
    assert_eq!(session.groups_at(0, 1), Err(Error::Range));
    assert_eq!(session.groups_at(1, 0), Err(Error::Range));
    assert_eq!(session.byte_of((1, 0)), Err(Error::Range));
    assert_eq!(session.position_of(3), Err(Error::Range));
    assert_eq!(session.column_in(Encoding::Utf8, (0, 3)), Err(Error::Range));
    assert_eq!(
        session.position_in(Encoding::Utf32, 0, 3),
        Err(Error::Range)
    );
    assert_eq!(session.replace(b"\xff"), Err(Error::Utf8));
    assert_eq!(session.replace("1234567890"), Err(Error::Size));
    assert_eq!(session.edit((0, 2)..(0, 1), ""), Err(Error::Range));
    assert_eq!(session.text(..).unwrap(), "ab");
    assert_eq!(spans(&session), [(0, 0, 1)]);
}

#[test]
fn errors_say_what_is_wrong() {
    let error = session("", "").set_pattern("é(").unwrap_err();
    assert_eq!(error.to_string(), "a group isn't closed, at byte 3");
    let source = std::error::Error::source(&error).unwrap();
    assert_eq!(source.to_string(), error.to_string());
    let boxed: Box<dyn std::error::Error + Send + Sync> = Error::Range.into();
    assert!(boxed.source().is_none());
    assert!(!boxed.to_string().is_empty());
    assert_eq!(pattern_error("a".repeat(65_537)), Ok(None));
    assert_eq!(pattern_error(b"\xff("), Err(Error::Utf8));
    assert_eq!(pattern_error(""), Ok(None));
    let deep = "(".repeat(251) + "a" + &")".repeat(251);
    assert_eq!(
        pattern_error(deep).unwrap().unwrap().reason,
        Reason::Nesting
    );
}

#[test]
fn an_escaped_text_matches_itself_alone() {
    assert_eq!(escape("a.(b)").as_deref(), Ok(r"a\.\(b\)"));
    assert_eq!(escape(""), Ok(String::new()));
    assert_eq!(escape(b"\xff"), Err(Error::Utf8));
    assert_eq!(escape("é".repeat(32_768)).unwrap().len(), 65_536);
    assert_eq!(escape("^".repeat(32_769)), Err(Error::Limit));
    let found = session("a.(b) aa(b) a.b", &escape("a.(b)").unwrap());
    assert_eq!(spans(&found), [(0, 0, 5)]);
}

#[test]
fn columns_count_utf_16_code_units() {
    let mut session = session("🐸é frog\r\n🐸", "frog|🐸");
    assert_eq!(spans(&session), [(0, 0, 2), (0, 4, 8), (1, 0, 2)]);
    assert_eq!(session.edit((0, 1)..(0, 2), "x"), Err(Error::Range));
    assert_eq!(session.edit((0, 9)..(0, 9), "x"), Err(Error::Range));
    assert_eq!(session.byte_of((0, 3)), Ok(6));
    assert_eq!(session.byte_of((1, 0)), Ok(13));
    assert_eq!(session.position_of(12), Ok(Position::new(0, 9)));
    assert_eq!(session.position_of(1), Err(Error::Range));
    assert_eq!(session.column_in(Encoding::Utf32, (0, 2)), Ok(1));
    assert_eq!(
        session.position_in(Encoding::Utf8, 0, 4),
        Ok(Position::new(0, 2))
    );
    assert_eq!(session.position_in(Encoding::Utf8, 0, 3), Err(Error::Range));
    session.edit((0, 0)..(0, 2), "").unwrap();
    assert_eq!(spans(&session), [(0, 2, 6), (1, 0, 2)]);
}

#[test]
fn texts_are_read_by_ranges_of_bytes() {
    let mut session = Session::new().unwrap();
    session.set_text("é🐸a").unwrap();
    assert_eq!(session.text(..).unwrap(), "é🐸a");
    assert_eq!(session.text(2..6).unwrap(), "🐸");
    assert_eq!(session.text(2..=5).unwrap(), "🐸");
    assert_eq!(session.text(7..).unwrap(), "");
    assert_eq!(session.text(8..), Err(Error::Range));
    assert_eq!(session.text(1..2), Err(Error::Range));
    assert_eq!(session.text(..=usize::MAX), Err(Error::Range));
    assert_eq!(session.text(..usize::MAX), Err(Error::Range));
    let backward = std::ops::Range { start: 2, end: 0 };
    assert_eq!(session.text(backward), Err(Error::Range));
    let mut out = [b'-'; 6];
    assert_eq!(session.copy_text(..2, &mut out), Ok(2));
    assert_eq!(&out, "é----".as_bytes());
    assert_eq!(session.copy_text(.., &mut out), Err(Error::Range));
    assert_eq!(&out, "é----".as_bytes());
}

#[test]
fn matches_are_iterated_by_rows() {
    let lines = 1_000;
    let session = session(&"a a\n\n".repeat(lines), "a");
    assert_eq!(session.rows(), 2 * lines + 1);
    assert_eq!(session.count_matches(..), 2 * lines);
    assert_eq!(session.matches(..).count(), 2 * lines);
    assert_eq!(session.matches(..).collect::<Vec<_>>().len(), 2 * lines);
    assert_eq!(
        session
            .matches(2..3)
            .map(|span| span.start)
            .collect::<Vec<_>>(),
        [0, 2]
    );
    assert_eq!(session.matches(2..=4).count(), 4);
    assert_eq!(session.matches(3..4).next(), None);
    assert_eq!(session.matches(5_000..).next(), None);
    assert_eq!(
        session
            .matches(std::ops::Range { start: 5, end: 2 })
            .count(),
        0
    );
    assert_eq!(session.matches(..=usize::MAX).count(), 2 * lines);
    let mut matches = session.matches(..2);
    assert_eq!(
        matches.next(),
        Some(Span {
            line: 0,
            start: 0,
            stop: 1
        })
    );
    assert_eq!(matches.size_hint(), (1, Some(1)));
    assert_eq!(matches.clone().count(), 1);
    assert_eq!(matches.by_ref().count(), 1);
    assert_eq!((matches.next(), matches.next()), (None, None));
    // Calls that read are made while the iterator is used.
    for span in session.matches(..20) {
        assert_eq!(
            session.groups_at(span.line, span.start / 2).unwrap()[0],
            Some(span)
        );
    }
}

#[test]
fn buffers_have_their_own_histories() {
    let mut session = session("one", "o");
    assert_eq!(session.fork(), Ok(1));
    assert_eq!((session.buffers(), session.chosen()), (2, 0));
    session.edit((0, 3)..(0, 3), " o").unwrap();
    assert_eq!(
        session.changed(),
        Stretch {
            first: 0,
            removed: 1,
            added: 1
        }
    );
    assert_eq!(session.changed().new_rows(), 0..1);
    assert!(session.can_undo());
    session.choose(1).unwrap();
    assert_eq!(
        (session.text(..).unwrap().as_str(), session.rows()),
        ("one", 0)
    );
    assert!(!session.can_undo());
    session.choose(0).unwrap();
    session.undo().unwrap();
    assert_eq!(spans(&session), [(0, 0, 1)]);
    session.redo().unwrap();
    assert_eq!(spans(&session), [(0, 0, 1), (0, 4, 5)]);
    let changes = session.text_changes();
    session.keep(1);
    assert_eq!((session.undo_steps(), session.redo_steps()), (1, 0));
    session.join(1).unwrap();
    assert_eq!(session.join(2), Err(Error::Nothing));
    assert_eq!(session.text_changes(), changes);
    session.undo().unwrap();
    assert_eq!(session.redo_steps(), 1);
    assert_eq!(
        session.text_changes()[0].new_range(),
        changes[0].old_range()
    );
    session.redo().unwrap();
    session.forget();
    assert_eq!(session.undo(), Err(Error::Nothing));
    session.off();
    session.off();
    assert_eq!(session.rows(), 0);
}

#[test]
fn several_edits_are_one_step() {
    let mut session = session("one\ntwo", "o");
    let edits = [
        TextEdit::new((0, 0)..(0, 3), "1"),
        TextEdit::new((0, 3)..(1, 0), ""),
        TextEdit::new((1, 3)..(1, 3), "o"),
    ];
    session.edit_all(edits.clone()).unwrap();
    assert_eq!(session.text(..).unwrap(), "1twoo");
    session.undo().unwrap();
    assert_eq!(session.text(..).unwrap(), "one\ntwo");
    let reversed = edits.iter().rev().cloned();
    assert_eq!(session.edit_all(reversed), Err(Error::Range));
    assert_eq!(
        session.edit_all([TextEdit::new((0, 0)..(0, 0), b"\xff")]),
        Err(Error::Utf8)
    );
    let owned = TextEdit::new(Position::new(1, 0)..Position::new(1, 0), String::from("o "));
    session.edit_all(vec![owned]).unwrap();
    assert_eq!(spans(&session), [(0, 0, 1), (1, 0, 1), (1, 4, 5)]);
    assert!(!session.can_redo());
    session.undo().unwrap();
    session.edit_all(Vec::<TextEdit<&str>>::new()).unwrap();
    assert!(!session.can_redo());
}

#[test]
fn matches_of_the_whole_text_span_lines() {
    let mut session = session("one\r\ntwo", r"e\s+t");
    let found = Match {
        start: Position::new(0, 2),
        stop: Position::new(1, 1),
    };
    assert_eq!(session.next((0, 0)), Ok(Some(found)));
    assert!(!found.is_empty());
    assert_eq!(session.next(found.stop), Ok(None));
    let mut out = [Match::default(); 2];
    assert_eq!(session.next_all((0, 0), &mut out), Ok(1));
    assert_eq!(out, [found, Match::default()]);
    assert_eq!(session.next_all((0, 1), &mut []), Ok(0));
    assert_eq!(session.next_all((0, 4), &mut out), Err(Error::Range));
    assert_eq!(session.replace("-$0-"), Ok(1));
    assert_eq!(session.text(..).unwrap(), "on-e\r\nt-wo");
    session.edit(found.range(), "").unwrap();
}

#[test]
fn a_large_text_is_kept_live() {
    let line = "let word = 🐸 + other;\n";
    let mut session = session(&line.repeat(200_000), "let|🐸");
    assert_eq!(session.count_matches(..), 400_000);
    let before = session.counted().rows;
    session
        .edit((100_000, 4)..(100_000, 8), "let\nlet")
        .unwrap();
    assert_eq!(session.counted().rows - before, 2);
    assert_eq!(session.count_matches(..), 400_002);
    assert_eq!(
        session.changed(),
        Stretch {
            first: 100_000,
            removed: 1,
            added: 2
        }
    );
    assert_eq!(session.text_len(), 200_000 * line.len() + 3);
    assert_eq!(session.text(..).unwrap().len(), session.text_len());
    let long = "a".repeat(3_000_000);
    session.set_text(&long).unwrap();
    session.set_pattern("a").unwrap();
    assert_eq!(session.matches(..).count(), long.len());
    assert_eq!(session.matches(..).last().unwrap().stop, long.len());
}

#[test]
fn sessions_on_threads_are_apart() {
    let threads: Vec<_> = (0..16)
        .map(|number| {
            std::thread::spawn(move || {
                for round in 0..20 {
                    let text = "ab ".repeat(number * 10 + round);
                    let mut session = session(&text, "b");
                    session.edit((0, 0)..(0, 0), "b\n").unwrap();
                    assert_eq!(session.count_matches(..), number * 10 + round + 1);
                    session.undo().unwrap();
                    assert_eq!(session.text(..).unwrap(), text);
                }
            })
        })
        .collect();
    for thread in threads {
        thread.join().unwrap();
    }
}

#[test]
fn a_session_is_moved_and_dropped() {
    let mut sessions: Vec<Session> = (0..100)
        .map(|number| session(&number.to_string(), "1"))
        .collect();
    sessions.sort_by_key(|session| std::cmp::Reverse(session.text(..).unwrap()));
    sessions.truncate(50);
    let boxed = Box::new(sessions.pop().unwrap());
    drop(sessions);
    assert!(boxed.text_len() > 0);
    let replaced = std::mem::replace(&mut *Box::new(session("a", "a")), session("b", "b"));
    assert_eq!(replaced.text(..).unwrap(), "a");
}

/// Numbers at random, the same in each run.
struct Random(u64);

impl Random {
    fn below(&mut self, bound: usize) -> usize {
        self.0 = self
            .0
            .wrapping_mul(6_364_136_223_846_793_005)
            .wrapping_add(1_442_695_040_888_963_407);
        (self.0 >> 33) as usize % bound
    }
}

/// The lines of a text, without their breaks.
fn lines_of(text: &str) -> Vec<String> {
    let mut lines = vec![String::new()];
    let mut letters = text.chars().peekable();
    while let Some(letter) = letters.next() {
        match letter {
            '\r' | '\n' => {
                if letter == '\r' && letters.peek() == Some(&'\n') {
                    letters.next();
                }
                lines.push(String::new());
            }
            _ => lines.last_mut().unwrap().push(letter),
        }
    }
    lines
}

/// The matches of a text that has no part of itself at its start again, line by line.
fn found(text: &str, word: &str) -> Vec<(usize, usize, usize)> {
    let units = |text: &str| text.encode_utf16().count();
    let mut spans = Vec::new();
    for (line, own) in lines_of(text).iter().enumerate() {
        for (at, part) in own.match_indices(word) {
            let start = units(&own[..at]);
            spans.push((line, start, start + units(part)));
        }
    }
    spans
}

/// The byte of each character's start, and the end.
fn places(text: &str) -> Vec<usize> {
    text.char_indices()
        .map(|(at, _)| at)
        .chain([text.len()])
        .collect()
}

#[test]
fn edits_at_random_agree_with_a_search_anew() {
    let pieces = ["a", "b", "🐸", "é", "\n", "\r", "\r\n", "ab🐸", "", "ab🐸é"];
    let mut random = Random(7);
    for round in 0..60 {
        let mut text = String::new();
        let mut session = session("", "b🐸");
        let mut texts = vec![text.clone()];
        for _ in 0..60 {
            let piece: String = (0..random.below(4))
                .map(|_| pieces[random.below(pieces.len())])
                .collect();
            let places = places(&text);
            let (one, other) = (random.below(places.len()), random.below(places.len()));
            let (from, to) = (places[one.min(other)], places[one.max(other)]);
            let (start, stop) = (
                session.position_of(from).unwrap(),
                session.position_of(to).unwrap(),
            );
            if random.below(5) == 0 && texts.len() > 1 {
                session.undo().unwrap();
                texts.pop();
                text = texts.last().unwrap().clone();
            } else {
                // Between CR and LF is no position of an edit.
                let is_inside = [from, to]
                    .iter()
                    .any(|&at| text[..at].ends_with('\r') && text[at..].starts_with('\n'));
                let done = session.edit(start..stop, &piece);
                assert_eq!(
                    done.is_err(),
                    is_inside,
                    "round {round}: {text:?} {from}..{to}"
                );
                if done.is_ok() {
                    text.replace_range(from..to, &piece);
                    texts.push(text.clone());
                }
            }
            assert_eq!(session.text(..).unwrap(), text);
            assert_eq!(
                spans(&session),
                found(&text, "b🐸"),
                "round {round}: {text:?}"
            );
            assert_eq!(session.text_lines(), lines_of(&text).len());
        }
    }
}
