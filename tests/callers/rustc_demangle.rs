// A Rust program that knows `rustc_demangle` only by its C declaration in rust-lang's rustc-demangle-capi. The call answers 1, with a text
// and a 0 byte in `out`; it answers 0 where the name isn't one of Rust's or the text has no room.
//
//   rustc_demangle          tests that the call does so
//   rustc_demangle names    prints the text of each name of standard input, or the name
//   rustc_demangle work     takes half a second in a function whose name a profiler shows
use std::ffi::{CStr, CString, c_char, c_int};
use std::hint::black_box;
use std::io::{BufRead, stdin};
use std::time::{Duration, Instant};

#[link(name = "rustc_demangle")]
unsafe extern "C" {
    fn rustc_demangle(mangled: *const c_char, out: *mut c_char, out_size: usize) -> c_int;
}

/// The text of a name with room for `size` bytes.
fn text_of(name: &str, size: usize) -> Option<String> {
    let name = CString::new(name).unwrap();
    let mut out = vec![b'!'; size + 1];
    // SAFETY: both pointers are valid for what the call reads and writes.
    let answer = unsafe { rustc_demangle(name.as_ptr(), out.as_mut_ptr().cast(), size) };
    assert_eq!(out[size], b'!', "written past the room");
    match answer {
        0 => None,
        1 => Some(CStr::from_bytes_until_nul(&out).unwrap().to_str().unwrap().to_owned()),
        other => panic!("{other}"),
    }
}

struct Deep<T>(T);

impl<T: Copy + Into<u64>> Deep<T> {
    #[inline(never)]
    fn work(&self, time: Duration) -> u64 {
        let start = Instant::now();
        let mut sum = self.0.into();
        while start.elapsed() < time {
            for round in 0..100_000u64 {
                sum = black_box(sum.rotate_left(5) ^ round);
            }
        }
        sum
    }
}

fn main() {
    match std::env::args().nth(1).as_deref() {
        Some("names") => {
            for name in stdin().lock().lines().map(Result::unwrap) {
                println!("{}", text_of(&name, 8192).unwrap_or(name));
            }
        }
        Some("work") => println!("{}", Deep(7u32).work(Duration::from_millis(500))),
        _ => {
            assert_eq!(text_of("_RNvC3foo3bar", 100).as_deref(), Some("foo::bar"));
            assert_eq!(text_of("_RNvCs1234_3foo3bar", 9).as_deref(), Some("foo::bar"));
            assert_eq!(text_of("_RNvCs1234_3foo3bar.llvm.7", 100).as_deref(), Some("foo::bar (.llvm.7)"));
            for size in 0..9 {
                assert_eq!(text_of("_RNvC3foo3bar", size), None);
            }
            let older = "_ZN45_$LT$foo..Bar$u20$as$u20$core..fmt..Debug$GT$3fmt17h0123456789abcdefE";
            assert_eq!(text_of(older, 100).as_deref(), Some("<foo::Bar as core::fmt::Debug>::fmt"));
            assert_eq!(text_of("__ZN3foo3bar17h0123456789abcdefE.llvm.1", 100).as_deref(), Some("foo::bar (.llvm.1)"));
            for name in ["_ZN3foo3barE", "_ZN3foo3bar17h0123456789abcdefEv", "_ZN3foo3bar17h0123456789abcdegE"] {
                assert_eq!(text_of(name, 100), None);
            }
            for name in ["", "main", "_R", "_RNvC3fo", "_Z1fv", "RNvC3foo3bar"] {
                assert_eq!(text_of(name, 100), None);
            }
            println!("ok");
        }
    }
}
