//! Forms that were written by hand, in every cut; faults; and states.
use nfstream::{
    bound, convert, find_change, find_unsafe, is_normalized, unicode_version, Error, Fault, Filter, Form, Policy, LEAST_ROOM,
};

const FORMS: [Form; 4] = [Form::Nfc, Form::Nfd, Form::Nfkc, Form::Nfkd];
const REPLACE: Policy = Policy { replace: true, assigned: false };
const ASSIGNED: Policy = Policy { replace: false, assigned: true };

/// A text and its four forms.
fn table() -> Vec<(String, [String; 4])> {
    let same = |text: &str| [0; 4].map(|_| text.to_string());
    let marks = |some: usize| "\u{301}".repeat(some);
    let run = format!("q{}\u{34f}{}\u{34f}{}", marks(30), marks(30), marks(5));
    let row = |text: &str, forms: [&str; 4]| (text.to_string(), forms.map(str::to_string));
    vec![
        ("".to_string(), same("")),
        ("plain\r\n".to_string(), same("plain\r\n")),
        row("Vie\u{302}\u{323}t", ["Vi\u{1ec7}t", "Vie\u{323}\u{302}t", "Vi\u{1ec7}t", "Vie\u{323}\u{302}t"]),
        row("\u{1e9b}\u{323}", ["\u{1e9b}\u{323}", "\u{17f}\u{323}\u{307}", "\u{1e69}", "s\u{323}\u{307}"]),
        row("\u{fb01} \u{2460}", ["\u{fb01} \u{2460}", "\u{fb01} \u{2460}", "fi 1", "fi 1"]),
        row(
            "\u{1112}\u{1161}\u{11ab}",
            ["\u{d55c}", "\u{1112}\u{1161}\u{11ab}", "\u{d55c}", "\u{1112}\u{1161}\u{11ab}"],
        ),
        row("\u{1f600}\u{f900}", ["\u{1f600}\u{8c48}"; 4]),
        (format!("q{}", marks(65)), same(&run)),
    ]
}

fn filtered(form: Form, pieces: &[&[u8]], room: usize) -> Vec<u8> {
    let (mut filter, mut out, mut space) = (Filter::new(form), Vec::new(), vec![0; room]);
    for piece in pieces {
        let mut left = *piece;
        loop {
            let moved = filter.feed(left, &mut space).unwrap();
            out.extend_from_slice(&space[..moved.written]);
            left = &left[moved.read..];
            if !moved.is_full {
                break;
            }
            assert!(moved.read > 0);
        }
        assert!(left.is_empty());
    }
    let moved = filter.finish(&mut space).unwrap();
    out.extend_from_slice(&space[..moved.written]);
    out
}

#[test]
fn each_cut_gives_the_form() {
    for (text, forms) in table() {
        for (form, due) in FORMS.into_iter().zip(&forms) {
            let data = text.as_bytes();
            for cut in 0..=data.len() {
                let got = filtered(form, &[&data[..cut], &data[cut..]], LEAST_ROOM);
                assert_eq!(got, due.as_bytes(), "{form:?} {text:?} {cut}");
            }
            let bytes: Vec<&[u8]> = data.chunks(1).collect();
            assert_eq!(filtered(form, &bytes, LEAST_ROOM), due.as_bytes());
        }
    }
}

#[test]
fn a_whole_text_gives_the_form() {
    for (text, forms) in table() {
        for (form, due) in FORMS.into_iter().zip(&forms) {
            let mut out = b"before ".to_vec();
            convert(form, Policy::default(), text.as_bytes(), &mut out).unwrap();
            assert_eq!(out, [b"before ", due.as_bytes()].concat());
            assert!(due.len() <= bound(form, text.len()).unwrap());
        }
    }
}

#[test]
fn a_form_that_is_much_longer() {
    let due = "\u{635}\u{644}\u{649} \u{627}\u{644}\u{644}\u{647} \u{639}\u{644}\u{64a}\u{647} \u{648}\u{633}\u{644}\u{645}";
    let (text, mut out) = ("\u{fdfa}".repeat(20000), Vec::new());
    convert(Form::Nfkc, Policy::default(), text.as_bytes(), &mut out).unwrap();
    assert_eq!(out, due.repeat(20000).as_bytes());
    assert_eq!(bound(Form::Nfkc, text.len()), Some(out.len()));
    assert_eq!(bound(Form::Nfc, usize::MAX / 2), None);
}

#[test]
fn faults_have_places() {
    for cut in 0..5 {
        let (mut filter, mut out) = (Filter::with_policy(Form::Nfc, Policy::default(), 100), Vec::new());
        let data = b"ab\xe2\x82(tail";
        let first = filter.feed_to(&data[..cut], &mut out);
        assert_eq!(first, Ok(()));
        let fault = filter.feed_to(&data[cut..], &mut out);
        assert_eq!(fault, Err(Error::IllFormed { at: 104, start: 102 }));
        assert_eq!(out, b"a");
        assert_eq!(filter.feed_to(b"", &mut out), Err(Error::Spent));
        assert_eq!(filter.finish_to(&mut out), Err(Error::Spent));
    }
    let mut room = [0; LEAST_ROOM];
    let fault = Filter::new(Form::Nfc).feed(b"abc\xff", &mut room).unwrap_err();
    assert_eq!(fault, Fault { error: Error::IllFormed { at: 3, start: 3 }, read: 3, written: 2 });
    assert_eq!(fault.to_string(), "ill-formed byte at 3, character begun at 3");
    let mut out = Vec::new();
    let cut = convert(Form::Nfc, Policy::default(), b"ab\xf0\x9f", &mut out);
    assert_eq!(cut, Err(Error::Cut { at: 4, start: 2 }));
    let unassigned = convert(Form::Nfc, ASSIGNED, "ab\u{378}".as_bytes(), &mut out);
    assert_eq!(unassigned, Err(Error::Unassigned { at: 2 }));
}

#[test]
fn ill_formed_parts_are_replaced() {
    let some: [&[u8]; 6] = [b"\xff", b"a\xe2\x82(", b"\xf0\x9f\x98", b"\xc0\x80\xed\xa0\x80", b"e\xcc", b"\xf4\x90\x80\x80z"];
    for data in some {
        let mut out = Vec::new();
        convert(Form::Nfc, REPLACE, data, &mut out).unwrap();
        assert_eq!(out, String::from_utf8_lossy(data).as_bytes());
    }
}

#[test]
fn too_long_reads_nothing() {
    let mut filter = Filter::with_policy(Form::Nfc, Policy::default(), u64::MAX - 2);
    let mut out = Vec::new();
    assert_eq!(filter.feed_to(b"abc", &mut out), Err(Error::TooLong));
    assert_eq!(filter.feed_to(b"ab", &mut out), Ok(()));
    assert_eq!(filter.finish_to(&mut out), Ok(()));
    assert_eq!(out, b"ab");
}

#[test]
fn small_rooms_are_full() {
    let mut filter = Filter::new(Form::Nfc);
    let moved = filter.feed(b"abc", &mut []).unwrap();
    assert!(moved.is_full && moved.written == 0);
    assert_eq!(filter.offset(), moved.read as u64);
    let mut room = [0; 8];
    filter.feed(&b"abc"[moved.read..], &mut room).unwrap();
    assert!(filter.finish(&mut []).unwrap().is_full);
    assert!(!filter.finish(&mut room).unwrap().is_full);
}

#[test]
fn states_go_on_from_bytes_and_clones() {
    for (text, forms) in table() {
        for (form, due) in FORMS.into_iter().zip(&forms) {
            let (mut filter, mut front) = (Filter::new(form), Vec::new());
            for (at, byte) in text.bytes().enumerate() {
                for mut other in [filter.clone(), Filter::from_bytes(filter.to_bytes()).unwrap()] {
                    let mut out = front.clone();
                    other.feed_to(&text.as_bytes()[at..], &mut out).unwrap();
                    other.finish_to(&mut out).unwrap();
                    assert_eq!(out, due.as_bytes());
                }
                filter.feed_to(&[byte], &mut front).unwrap();
            }
        }
    }
    assert!(matches!(Filter::from_bytes([0; 176]), Err(Error::NoState)));
    assert!(matches!(Filter::from_bytes([0xAB; 176]), Err(Error::NoState)));
    let mut older = Filter::new(Form::Nfc).to_bytes();
    older[4..8].copy_from_slice(&170000u32.to_ne_bytes());
    assert!(matches!(Filter::from_bytes(older), Err(Error::NoState)));
}

#[test]
fn counts() {
    let (mut filter, mut out) = (Filter::new(Form::Nfc), Vec::new());
    filter.feed_to(format!("q{}", "\u{301}".repeat(61)).as_bytes(), &mut out).unwrap();
    assert_eq!((filter.offset(), filter.joiners()), (123, 2));
    assert_eq!(format!("{filter:?}"), "Filter { offset: 123, joiners: 2, .. }");
    assert!(unicode_version() >= (18, 0, 0));
}

#[test]
fn unsafe_places() {
    let marks = |some: usize| format!("\u{65e5}q{}", "\u{301}".repeat(some));
    assert_eq!(find_unsafe(marks(30).as_bytes()), Ok(None));
    assert_eq!(find_unsafe(marks(31).as_bytes()), Ok(Some(64)));
    assert_eq!(find_unsafe(b""), Ok(None));
    assert_eq!(find_unsafe(b"ab\xc3("), Err(Error::IllFormed { at: 3, start: 2 }));
    assert_eq!(find_unsafe(b"ab\xc3"), Err(Error::Cut { at: 3, start: 2 }));
}

#[test]
fn changed_places() {
    for (text, forms) in table() {
        for (form, due) in FORMS.into_iter().zip(&forms) {
            let same = text.bytes().zip(due.bytes()).take_while(|(a, b)| a == b).count();
            let first = (0..=same).rev().find(|&at| text.is_char_boundary(at)).unwrap();
            let place = if text == *due { None } else { Some(first as u64) };
            assert_eq!(find_change(form, false, text.as_bytes()), Ok(place), "{form:?} {text:?}");
            assert_eq!(is_normalized(form, true, text.as_bytes()), Ok(text == *due));
            assert_eq!(is_normalized(form, true, due.as_bytes()), Ok(true));
        }
    }
    assert_eq!(find_change(Form::Nfd, false, "a\u{e9}b\u{378}".as_bytes()), Ok(Some(1)));
    assert_eq!(find_change(Form::Nfd, true, "a\u{378}\u{e9}".as_bytes()), Err(Error::Unassigned { at: 1 }));
    assert_eq!(is_normalized(Form::Nfd, false, "a\u{378}".as_bytes()), Ok(true));
    assert_eq!(find_change(Form::Nfc, false, b"ab\xc3("), Err(Error::IllFormed { at: 3, start: 2 }));
    assert_eq!(is_normalized(Form::Nfc, false, b"ab\xc3"), Err(Error::Cut { at: 3, start: 2 }));
}

#[test]
fn threads_have_a_filter_each() {
    fn is_plain<T: Send + Sync + Clone + 'static>() {}
    is_plain::<Filter>();
    let work = || {
        std::thread::spawn(|| {
            for _ in 0..50 {
                each_cut_gives_the_form_of("Vie\u{302}\u{323}t", "Vi\u{1ec7}t");
            }
        })
    };
    for it in [work(), work(), work(), work()] {
        it.join().unwrap();
    }
}

fn each_cut_gives_the_form_of(text: &str, due: &str) {
    for cut in 0..=text.len() {
        let pieces = [&text.as_bytes()[..cut], &text.as_bytes()[cut..]];
        assert_eq!(filtered(Form::Nfc, &pieces, LEAST_ROOM), due.as_bytes());
    }
}
