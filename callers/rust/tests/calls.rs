use symdemangle::{
    Counts, Error, Mangling, NameKind, Options, Part, Role, Tally, counts, demangle, demangle_bytes, demangle_into, filter_into, for_each_text,
    parts, press_into, press_wide_into, try_demangle,
};

/// Whether the library is one that doesn't know types and words within runs (tests/callers/older.c).
fn is_older() -> bool {
    std::env::var_os("SYMDEMANGLE_OLDER").is_some()
}

/// Options that read by the ABI's first grammar, at a limit.
fn plain(limit: u32) -> Options {
    Options::default().wide(false).limit(limit)
}

fn answer(name: &str, options: Options) -> Result<String, Error> {
    let mut buffer = Vec::new();
    demangle_into(name.as_bytes(), options, &mut buffer)?;
    Ok(String::from_utf8(buffer).unwrap())
}

#[test]
fn texts_and_refusals() {
    assert_eq!(answer("_RNvC3foo3bar", plain(11)), Ok("foo::bar".into()));
    assert_eq!(answer("_RNvC3foo3bar", plain(10)), Err(Error::TooLong));
    assert_eq!(answer("_Z1fv", plain(6)), Ok("f()".into()));
    let refused = |name| try_demangle(name).unwrap_err();
    assert_eq!(refused("_RNvC3fo"), Error::Malformed { at: 8 });
    assert_eq!(refused("_Z1fS_"), Error::BadReference { at: 4 });
    assert_eq!(refused("_RNvB_3foo"), Error::BadReference { at: 4 });
    assert_eq!(refused("_RNvCszzzzzzzzzzz_3foo3bar"), Error::BadValue { at: 5 });
    assert_eq!(refused(""), Error::NoSymbol);
    assert_eq!(refused("main"), Error::NoSymbol);
    assert_eq!(refused("__Z1fY"), Error::Malformed { at: 5 });
    assert_eq!(Error::NoSymbol.to_string(), "not a symbol");
}

#[test]
fn options() {
    let names = plain(99).no_parameters(true);
    assert_eq!(answer("_RNvMC3fooINtB2_1AhE3baz", plain(999).brief(true)), Ok("<foo::A>::baz".into()));
    assert_eq!(answer("_ZNK1A1fIiEEvT_", names), Ok("A::f<int>".into()));
    assert_eq!(answer("_ZNK1A1fIiEEvT_", names.brief(true)), Ok("A::f".into()));
    assert_eq!(answer("_ZN1AC4Ev", plain(99)), Err(Error::Malformed { at: 6 }));
    assert_eq!(answer("_ZN1AC4Ev", plain(11).wide(true)), Ok("A::A()".into()));
    assert_eq!(answer("_ZN1AC4Ev", plain(10).wide(true)), Err(Error::TooLong));
    assert_eq!(answer("_ZN1AC5IiEET_", names.wide(true).brief(true)), Ok("A::A".into()));
    let names = Options::default().brief(true).no_parameters(true);
    assert_eq!(names.demangle("_ZN1AC5IiEET_").to_string(), "A::A");
    assert_eq!(names.limit(3).demangle("_ZN1AC5IiEET_").to_string(), "_ZN1AC5IiEET_");
    assert_eq!(names.try_demangle("_ZN1AC5IiEET_").unwrap().to_string(), "A::A");
    assert_eq!(names.limit(3).try_demangle("_ZN1AC5IiEET_"), Err(Error::TooLong));
}

#[test]
fn names_from_outside_with_a_limit() {
    // A<int, int>, then an A with this type as both arguments, and so on: the text doubles 36 times
    let doubled = |digit| format!("S_IS{digit}_S{digit}_E");
    let name = format!("_Z1f1AIiiE{}", ('0'..='9').chain('A'..='Z').map(doubled).collect::<String>());
    let options = Options::default().limit(25_000);
    assert_eq!(options.try_demangle(&name), Err(Error::TooLong));
    assert_eq!(options.demangle(&name).to_string(), name);
    assert_eq!(try_demangle(&name), Err(Error::TooLong));
    let mut log = Vec::new();
    let tally = filter_into(format!("{name} _Z1fv").as_bytes(), options, &mut log).unwrap();
    assert_eq!(String::from_utf8(log).unwrap(), format!("{name} f()"));
    assert_eq!(tally.refused, 1);
}

#[test]
fn a_long_text_is_asked_for_again() {
    let name = "a".repeat(5000);
    assert_eq!(demangle(&format!("_RNvC3foo5000{name}")).to_string(), format!("foo::{name}"));
}

#[test]
fn more_bytes_than_a_symbol_has() {
    assert_eq!(try_demangle(&format!("_Z{}", "_".repeat(16_777_215))), Err(Error::TooManyBytes));
}

#[test]
fn a_buffer_that_is_kept() {
    let mut buffer = b"before".to_vec();
    assert_eq!(demangle_into(b"_RNvC3fo", plain(99), &mut buffer), Err(Error::Malformed { at: 8 }));
    assert!(buffer.is_empty());
    demangle_into(b"_RNvC3foo3bar", plain(99), &mut buffer).unwrap();
    assert_eq!(buffer, b"foo::bar");
}

#[test]
fn many_names() {
    let names = ["_RNvC3foo3bar", "main", "_RNvC3foo3baz"];
    let mut all = Vec::new();
    for_each_text(names.iter().map(|s| s.as_bytes()), Options::default(), |name, text| {
        all.extend_from_slice(text.unwrap_or(name));
        all.push(b'\n');
    });
    assert_eq!(all, b"foo::bar\nmain\nfoo::baz\n");
    for_each_text([], Options::default(), |_, _| unreachable!());
}

#[test]
fn many_names_in_blocks() {
    let long = format!("_RNvC3foo300000{}", "a".repeat(300_000));
    let names = (0..2000).map(|i| match i % 7 {
        0 => format!("_Z1f{i}"),
        1 => format!("_RNvC3foo5a{i:04}"),
        2 if i % 5 == 0 => String::new(),
        3 if i == 997 || i == 1501 => long.clone(),
        _ => format!("_ZN3foo5a{i:04}EPKc"),
    });
    let names: Vec<_> = names.collect();
    for limit in [0, 12, symdemangle::DEFAULT_LIMIT] {
        let mut told = 0;
        for_each_text(names.iter().map(|s| s.as_bytes()), plain(limit), |name, text| {
            assert_eq!(name, names[told].as_bytes());
            let text = text.map(|text| String::from_utf8(text.to_vec()).unwrap());
            assert_eq!(text, answer(&names[told], plain(limit)));
            told += 1;
        });
        assert_eq!(told, names.len());
    }
}

#[test]
fn a_text_with_symbols_in_it() {
    let mut buffer = Vec::new();
    let tally = filter_into(b"at _RNvC3foo3bar. (_RNvC3fo) __ZN1AC4Ev", Options::default(), &mut buffer).unwrap();
    assert_eq!(buffer, b"at foo::bar. (_RNvC3fo) A::A()");
    assert_eq!(tally, Tally { words: 3, replaced: 2, refused: 1 });
    let quoted = "\u{2018}_Z1fv\u{2019}".as_bytes();
    filter_into(quoted, Options::default().within(false), &mut buffer).unwrap();
    assert_eq!(buffer, quoted);
    filter_into(quoted, Options::default().ascii_words(true), &mut buffer).unwrap();
    assert_eq!(buffer, "\u{2018}f()\u{2019}".as_bytes());
}

#[test]
fn words_within_runs() {
    let mut buffer = Vec::new();
    let texts = [
        (".text._ZN1A1fEv", ".text.A::f()"),
        ("\u{2018}_Z1fv\u{2019}", "\u{2018}f()\u{2019}"),
        ("__imp__Z1fv", "__imp_f()"),
        ("self._Zoom", "self._Zoom"),
    ];
    for (text, filtered) in texts {
        filter_into(text.as_bytes(), Options::default().types(true), &mut buffer).unwrap();
        assert_eq!(buffer, if is_older() { text } else { filtered }.as_bytes());
    }
    filter_into(b"at _Z1fv", Options::default(), &mut buffer).unwrap();
    assert_eq!(buffer, b"at f()");
}

#[test]
fn short_texts() {
    let name = "_Z1fNSt3__16vectorIiNS_9allocatorIiEEEE";
    let short = Options::default().short(true);
    let is_older = is_older();
    let whole = "f(std::__1::vector<int, std::__1::allocator<int>>)";
    assert_eq!(short.demangle(name).to_string(), if is_older { whole } else { "f(std::vector<int>)" });
    assert_eq!(short.keep_inline(true).demangle(name).to_string(), if is_older { whole } else { "f(std::__1::vector<int>)" });
    assert_eq!(Options::default().keep_inline(true).demangle(name).to_string(), whole);
}

#[test]
fn types() {
    let types = Options::default().types(true);
    let text = if is_older() { "PKc" } else { "char const*" };
    assert_eq!(types.demangle("PKc").to_string(), text);
    assert_eq!(types.demangle("_Z1fv").to_string(), "f()");
    assert_eq!(types.demangle("?").to_string(), "?");
    assert_eq!(demangle("PKc").to_string(), "PKc");
    assert!(counts(b"_Z1fv", types).is_ok());
    let mut all = Vec::new();
    for_each_text([b"_Z1fv".as_slice(), b"PKc", b"?"], types, |name, text| {
        all.extend_from_slice(text.unwrap_or(name));
        all.push(b' ');
    });
    assert_eq!(String::from_utf8(all).unwrap(), format!("f() {text} ? "));
}

#[test]
fn names_that_are_bytes() {
    assert_eq!(*demangle_bytes(b"_Z2f\xffv"), *b"f\xff()");
    assert_eq!(*demangle_bytes(b"_RNvC3foo3bar"), *b"foo::bar");
    assert_eq!(*demangle_bytes(b"main\xff"), *b"main\xff");
    assert_eq!(*Options::default().limit(3).demangle_bytes(b"_Z1fv"), *b"_Z1fv");
}

#[test]
fn a_name_shows_itself() {
    let name = demangle("_RNvMC3fooINtB2_1AhE3baz");
    assert_eq!(format!("{name}"), "<foo::A<u8>>::baz");
    assert_eq!(format!("{name:#}"), "<foo::A<u8>>::baz");
    assert_eq!(name.as_str(), "_RNvMC3fooINtB2_1AhE3baz");
    assert_eq!(name.text(), Some(b"<foo::A<u8>>::baz".as_slice()));
    assert_eq!(demangle("main").to_string(), "main");
    assert_eq!(demangle("main").text(), None);
    assert_eq!(format!("{name:?}"), "<foo::A<u8>>::baz");
    assert_eq!(format!("{:?}", demangle("main")), "main");
    let older = "_ZN4core9panicking5panic17h0123456789abcdefE";
    assert_eq!(format!("{:?}", demangle(older)), "core::panicking::panic::h0123456789abcdef");
    assert_eq!(format!("{:#?}", demangle(older)), "core::panicking::panic");
    assert_eq!(demangle("_Z1f\u{fc}v").to_string(), "_Z1f\u{fc}v");
    assert_eq!(demangle("_Z2\u{fc}v").to_string(), "\u{fc}()");
}

#[test]
fn as_rustc_demangle() {
    let older = "_ZN4core9panicking5panic17h0123456789abcdefE";
    assert_eq!(format!("{}", demangle(older)), "core::panicking::panic::h0123456789abcdef");
    assert_eq!(format!("{:#}", demangle(older)), "core::panicking::panic");
    let suffixed = format!("{older}.llvm.42");
    assert_eq!(format!("{}", demangle(&suffixed)), "core::panicking::panic::h0123456789abcdef (.llvm.42)");
    assert_eq!(format!("{:#}", demangle(&suffixed)), "core::panicking::panic (.llvm.42)");
    let trait_method = "_ZN60_$LT$alloc..string..String$u20$as$u20$core..fmt..Display$GT$3fmt17h0123456789abcdefE";
    assert_eq!(format!("{:#}", demangle(trait_method)), "<alloc::string::String as core::fmt::Display>::fmt");
    assert_eq!(format!("{}", demangle(trait_method)), "<alloc::string::String as core::fmt::Display>::fmt::h0123456789abcdef");
    assert_eq!(demangle(older).text(), Some(b"core::panicking::panic".as_slice()));
    let as_cpp = Options::default().legacy(false).demangle(older);
    assert_eq!(format!("{as_cpp}"), "core::panicking::panic::h0123456789abcdef");
    assert_eq!(format!("{as_cpp:#}"), "core::panicking::panic");
    let not_a_hash = "_ZN4core5panic17h0123456789abcdegE";
    assert_eq!(format!("{:#}", demangle(not_a_hash)), "core::panic::h0123456789abcdeg");
    assert_eq!(format!("{:#}", demangle("_ZN3foo3barE")), "foo::bar");
    assert_eq!(try_demangle("_RNvC3foo3bar").unwrap().to_string(), "foo::bar");
    assert_eq!(try_demangle("__RNvC3foo3bar").unwrap().to_string(), "foo::bar");
    assert_eq!(try_demangle("__Z1fv").unwrap().as_str(), "__Z1fv");
}

#[test]
fn parts_of_texts() {
    let parsed = parts(b"_ZNK1A1fIiEEvT_", Options::default()).unwrap();
    assert_eq!(parsed.text, b"void A::f<int>(int) const");
    assert_eq!((parsed.kind, parsed.mangling), (NameKind::Function, Mangling::Itanium));
    assert_eq!(parsed.kind.name(), "function");
    assert_eq!(parsed.parts[0], Part { role: Role::ReturnType, text: 0..4, symbol: 12..13 });
    assert_eq!(parsed.first(Role::Base), Some(&b"f"[..]));
    assert_eq!(parsed.first(Role::Object), None);
    let long = format!("_Z5000{}v", "a".repeat(5000));
    assert_eq!(parts(long.as_bytes(), Options::default()).unwrap().first(Role::Base).unwrap().len(), 5000);
    assert_eq!(parts(b"_Z1fY", Options::default()), Err(Error::Malformed { at: 4 }));
    assert_eq!(parts(b"_Z1fv", plain(5)), Err(Error::TooLong));
}

#[test]
fn the_work_and_the_pressed_spelling() {
    let work = Counts { rows: 18, nodes: 11, steps: 56 };
    assert_eq!(counts(b"_RNvMC3fooINtB2_1AhE3baz", plain(0)), Ok(work));
    assert_eq!(counts(b"_RNvMC3fooINtB2_1AhE3baz", plain(0).brief(true)), Ok(work));
    assert_eq!(counts(b"_R", plain(0)), Err(Error::Malformed { at: 2 }));
    assert_eq!(counts(b"_ZN1AC4Ev", plain(0)), Err(Error::Malformed { at: 6 }));
    assert!(counts(b"_ZN1AC4Ev", Options::default()).is_ok());
    let mut buffer = Vec::new();
    press_into(b"_RINvC3foo3barNtC3foo1AE", &mut buffer).unwrap();
    assert_eq!(buffer, b"_RINvC3foo3barNtB2_1AE");
    press_into(b"_ZN3foo3barEN3foo3bazE", &mut buffer).unwrap();
    assert_eq!(buffer, b"_ZN3foo3barENS_3bazE");
    assert_eq!(press_into(b"_Z1fS_", &mut buffer), Err(Error::BadReference { at: 4 }));
    assert_eq!(press_into(b"_ZN1AC4Ev", &mut buffer), Err(Error::Malformed { at: 6 }));
    press_wide_into(b"_ZN1AC4Ev", &mut buffer).unwrap();
    assert_eq!(buffer, b"_ZN1AC4Ev");
    assert_eq!(press_wide_into(b"_Z1fIiEDTstT_ES0_", &mut buffer), Err(Error::NoSpelling));
}
