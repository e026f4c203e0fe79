//! A module in pieces has the answer of the whole.

use std::io::{self, Write};
use wmod::{validate, Awaits, Error, ErrorKind, Feature, Options, Profile, Validator, Why};

const ADD: &[u8] =
    b"\0asm\x01\0\0\0\x01\x07\x01\x60\x02\x7f\x7f\x01\x7f\x03\x02\x01\0\x0a\x09\x01\x07\0\x20\0\x20\x01\x6a\x0b";
const EXTENDS: &[u8] =
    b"\0asm\x01\0\0\0\x01\x06\x01\x60\x01\x7f\x01\x7f\x03\x02\x01\0\x0a\x07\x01\x05\0\x20\0\xc0\x0b";
// a function that calls through a table, whose index has five bytes
const CALL: &[u8] = b"\x00\x61\x73\x6d\x01\x00\x00\x00\x01\x04\x01\x60\x00\x00\x03\x02\x01\x00\x04\x04\x01\x70\x00\x01\x0a\x0d\x01\x0b\x00\x41\x00\x11\x00\x80\x80\x80\x80\x00\x0b";
// a function that fills a part of its memory
const FILL: &[u8] = b"\x00\x61\x73\x6d\x01\x00\x00\x00\x01\x04\x01\x60\x00\x00\x03\x02\x01\x00\x05\x03\x01\x00\x01\x0a\x0d\x01\x0b\x00\x41\x00\x41\x00\x41\x00\xfc\x0b\x00\x0b";
// a function with i32.trunc_sat_f32_s
const TRUNCATES: &[u8] = b"\x00\x61\x73\x6d\x01\x00\x00\x00\x01\x04\x01\x60\x00\x00\x03\x02\x01\x00\x0a\x0c\x01\x0a\x00\x43\x00\x00\x00\x00\xfc\x00\x1a\x0b";
// a function that copies an element segment into its table, and drops it
const INIT: &[u8] = b"\x00\x61\x73\x6d\x01\x00\x00\x00\x01\x04\x01\x60\x00\x00\x03\x02\x01\x00\x04\x04\x01\x70\x00\x01\x09\x04\x01\x01\x00\x00\x0a\x11\x01\x0f\x00\x41\x00\x41\x00\x41\x00\xfc\x0c\x00\x00\xfc\x0d\x00\x0b";
const FLOAT: &[u8] = b"\0asm\x01\0\0\0\x06\x09\x01\x7D\0\x43\x01\0\xC0\x7F\x0B";

fn cut(bytes: &[u8], at: usize) -> Result<wmod::Summary, Error> {
    let mut validator = Validator::new()?;
    validator.feed(&bytes[..at])?;
    validator.feed(&bytes[at..])?;
    validator.finish()
}

#[test]
fn whole_and_cut_anywhere_are_the_same() {
    assert_eq!(validate(ADD).unwrap().functions, 1);
    for bytes in [ADD, EXTENDS, b"\0asm\x02", b""] {
        for at in 0..=bytes.len() {
            assert_eq!(cut(bytes, at), validate(bytes), "{at}");
        }
    }
}

#[test]
fn every_front_is_refused() {
    for n in (0..ADD.len()).filter(|n| ![8, 17].contains(n)) {
        let error = validate(&ADD[..n]).unwrap_err();
        assert_eq!(
            (error.kind(), error.offset()),
            (ErrorKind::Module, Some(n as u64))
        );
    }
}

#[test]
fn options_say_what_is_taken() {
    let one = Options::new();
    let said = |options: Options, bytes| {
        options
            .validate(bytes)
            .map_err(|it| it.to_string())
            .map(|it| it.functions)
    };
    assert_eq!(said(one, EXTENDS), Err("refused at 28: BadOpcode".into()));
    assert_eq!(said(one.profile(Profile::TWO), EXTENDS), Ok(1));
    assert_eq!(said(one.profile(Profile::FOUR), EXTENDS), Ok(1));
    assert_eq!(said(one, FLOAT), Err("refused at 12: Float".into()));
    assert_eq!(said(one.profile(Profile::THREE), FLOAT), Ok(0));
    assert_eq!(said(one.profile(Profile::FOUR), FLOAT), Ok(0));
    assert_eq!(
        said(one.max_bytes(7), ADD),
        Err("refused at 8: TooLong".into())
    );
    assert_eq!(
        said(one.max_bytes(u64::MAX).locals(0).depth(0).functions(1), ADD),
        Ok(1)
    );
    assert_eq!(
        one.functions(0).validate(ADD).unwrap_err().why(),
        Why::ManyFunctions
    );
}

#[test]
fn features_are_added_to_a_profile() {
    let added = Options::new().features(&[Feature::SignExt]);
    let three = added.profile(Profile::THREE);
    assert_eq!(added.validate(EXTENDS).unwrap().functions, 1);
    assert_eq!(
        added.validate(FLOAT).unwrap_err().to_string(),
        "refused at 12: Float"
    );
    assert!(three.validate(EXTENDS).is_ok());
    assert!(three.validate(FLOAT).is_ok());
    // twice, in the other order, and none
    let twice = [Feature::SignExt, Feature::SignExt];
    assert_eq!(Options::new().features(&twice), added);
    let others = Options::new()
        .profile(Profile::THREE)
        .features(&[Feature::SignExt]);
    assert_eq!(others, three);
    assert_eq!(Options::new().features(&[]), Options::new());
    let long = [Feature::CallIndirectOverlong];
    assert_eq!(
        Options::new()
            .features(&long)
            .validate(CALL)
            .unwrap()
            .functions,
        1
    );
    assert_eq!(
        Options::new().validate(CALL).unwrap_err().to_string(),
        "refused at 34: BadByte"
    );
    let whole = [Feature::BulkMemoryOpt];
    assert_eq!(
        Options::new()
            .features(&whole)
            .validate(FILL)
            .unwrap()
            .functions,
        1
    );
    assert_eq!(
        Options::new().validate(FILL).unwrap_err().to_string(),
        "refused at 35: BadOpcode"
    );
    let all = [
        long[0],
        whole[0],
        Feature::NontrappingFptoint,
        Feature::SignExt,
    ];
    let all = Options::new().profile(Profile::THREE).features(&all);
    for bytes in [ADD, EXTENDS, FLOAT, CALL, FILL, TRUNCATES] {
        assert!(all.validate(bytes).is_ok());
    }
    assert_eq!(
        three.validate(TRUNCATES).unwrap_err().to_string(),
        "refused at 29: BadOpcode"
    );
    assert_eq!(
        all.validate(INIT).unwrap_err().to_string(),
        "refused at 28: Index"
    );
    let bulk = Options::new().features(&[Feature::BulkMemory]);
    assert!(bulk.validate(INIT).is_ok());
    assert!(bulk.validate(FILL).is_ok());
    assert!(bulk.validate(FLOAT).is_err());
    let compilers = Options::new().features(&[Feature::Compilers]);
    for bytes in [ADD, EXTENDS, FLOAT, CALL, FILL, TRUNCATES, INIT] {
        assert!(compilers.validate(bytes).is_ok());
    }
}

#[test]
fn a_refusal_stays() {
    let mut validator = Options::new().max_bytes(20).validator().unwrap();
    validator.write_all(&ADD[..20]).unwrap();
    let first = validator.feed(&ADD[20..]).unwrap_err();
    assert_eq!(first.to_string(), "refused at 21: TooLong");
    assert_eq!(validator.feed(b""), Err(first));
    assert_eq!(
        validator.write(ADD).unwrap_err().kind(),
        io::ErrorKind::InvalidData
    );
    assert_eq!(validator.finish(), Err(first));
}

#[test]
fn a_place_stays() {
    let mut validator = Validator::new().unwrap();
    assert_eq!(validator.place().section, None);
    validator.feed(&ADD[..8]).unwrap();
    assert_eq!(validator.place().section, None);
    assert_eq!(validator.place().awaits, None);
    validator.feed(&ADD[8..9]).unwrap();
    let place = validator.place();
    assert_eq!((place.section, place.item), (Some(1), None));
    assert_eq!(place.awaits, Some(Awaits::Number));
    validator.feed(&ADD[9..26]).unwrap();
    let next = validator.place();
    assert_eq!((next.section, next.item), (Some(10), Some(0)));
    assert_eq!((next.awaits, next.byte), (Some(Awaits::Opcode), None));
    // no instruction begins with the byte 06
    assert_eq!(validator.feed(b"\x06").unwrap_err().why(), Why::BadOpcode);
    let place = validator.place();
    assert_eq!(place.byte, Some(6));
    assert_eq!((place.section, place.item), (next.section, next.item));
    assert_eq!((place.index, place.awaits), (next.index, next.awaits));
    validator.feed(b"\0\0\0").unwrap_err();
    assert_eq!(validator.place(), place);
    assert_eq!(validator.finish().unwrap_err().place(), Some(27));
}

#[test]
fn a_hint_stays() {
    let mut validator = Validator::new().unwrap();
    assert_eq!(validator.hint(), None);
    validator.feed(&CALL[..20]).unwrap();
    assert_eq!(validator.hint(), None);
    let error = validator.feed(&CALL[20..]).unwrap_err();
    let hint = validator.hint().unwrap();
    assert_eq!(hint.begins, "a table index of more than one byte");
    assert_eq!(hint.features, "call-indirect-overlong");
    assert!(hint.remedy.contains("--features call-indirect-overlong"));
    assert_eq!(validator.hint(), Some(hint));
    assert_eq!(validator.finish(), Err(error));
    // no instruction of any version begins with the byte 27
    let mut validator = Validator::new().unwrap();
    validator.feed(&ADD[..26]).unwrap();
    validator.feed(b"\x27").unwrap_err();
    assert_eq!(validator.hint(), None);
}

#[test]
fn an_index_counts_imports() {
    // one type, one imported function, and a function with the byte 06 for an instruction
    let mut module = b"\0asm\x01\0\0\0\x01\x04\x01\x60\0\0\x02\x07\x01\x01a\x01b\0\0".to_vec();
    module.extend(b"\x03\x02\x01\0\x0a\x05\x01\x03\0\x06\x0b");
    let mut validator = Validator::new().unwrap();
    validator.feed(&module).unwrap_err();
    let place = validator.place();
    assert_eq!((place.item, place.index), (Some(0), Some(1)));
}

#[test]
fn one_that_is_let_go_gives_back_what_it_holds() {
    for n in 0..ADD.len() {
        Validator::new().unwrap().feed(&ADD[..n]).unwrap();
    }
}

#[test]
fn threads_have_a_validator_each() {
    std::thread::scope(|scope| {
        for _ in 0..4 {
            scope.spawn(|| {
                (0..200).for_each(|n| assert_eq!(cut(ADD, n % ADD.len()), validate(ADD)))
            });
        }
    });
}

#[test]
fn an_error_is_sent() {
    fn sent<T: Send + Sync + 'static>() {}
    sent::<Error>();
    sent::<Why>();
    sent::<wmod::Name>();
    sent::<Options>();
    sent::<wmod::Place>();
    sent::<wmod::Summary>();
}
