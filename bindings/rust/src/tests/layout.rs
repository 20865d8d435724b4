//! The structs against those of xara.h, by a C program that prints its own.

use crate::raw::{
    XaraAnswer, XaraControl, XaraDecoded, XaraEncoded, XaraFresh, XaraKeeping, XaraKept, XaraPreview, XaraPushed,
    XaraReceiver, XaraSlot, XaraSummary, XaraTallies,
};
use std::mem::{align_of, offset_of, size_of};
use std::path::Path;
use std::process::Command;
use std::{env, fs, process};

/// The size of a field, by a function that names it.
fn size<S, T>(_: impl Fn(&S) -> &T) -> usize {
    size_of::<T>()
}

/// The lines of layout.c for a struct: its size and alignment, then the place and the size of each field.
macro_rules! lines {
    ($type:ident: $($field:ident),*) => {
        [
            format!("{} {} {}\n", stringify!($type), size_of::<$type>(), align_of::<$type>()),
            $(format!(
                "{}.{} {} {}\n",
                stringify!($type),
                stringify!($field),
                offset_of!($type, $field),
                size(|s: &$type| &s.$field)
            )),*
        ]
        .concat()
    };
}

fn ours() -> String {
    [
        lines!(XaraControl: reply, compressed, hint),
        lines!(XaraTallies: offered, more, done, wrong_length, no_fragment, overflow, limit, check),
        lines!(XaraReceiver: held, nfrag, count, crc_mask, overflow, tallies),
        lines!(XaraSlot: len, name, receiver),
        lines!(XaraKept: slots),
        lines!(XaraAnswer: ok, refusal, value),
        lines!(XaraFresh: ok, refusal, receiver),
        lines!(XaraPushed: kind, refusal, cause, length, receiver),
        lines!(XaraKeeping: ok, refusal, place, kept),
        lines!(XaraEncoded: ok, refusal, aprs_type, length),
        lines!(XaraPreview: ok, refusal, length, count),
        lines!(XaraSummary: ok, refusal, aprs_type, ui, digis),
        lines!(XaraDecoded: ok, refusal, command, length),
    ]
    .concat()
}

/// What layout.c prints, compiled by the C compiler of the machine.
fn of_c() -> String {
    let bindings = Path::new(env!("CARGO_MANIFEST_DIR")).join("..");
    let program = env::temp_dir().join(format!("xara-layout-{}", process::id()));
    let compiler = env::var_os("CC").unwrap_or_else(|| "cc".into());
    let mut compile = Command::new(compiler);
    compile.args(["-std=c11", "-Wall", "-Wextra", "-Werror", "-I"]).arg(bindings.join("include"));
    compile.arg(bindings.join("c/layout.c")).arg("-o").arg(&program);
    assert!(compile.status().expect("a C compiler").success());
    let output = Command::new(&program).output().expect("the program runs");
    fs::remove_file(&program).expect("the program is there");
    String::from_utf8(output.stdout).expect("it prints text")
}

#[test]
fn structs_are_as_c_has_them() {
    assert_eq!(ours(), of_c());
}
