//! Writes a file of a card to standard output, as `harptimber cat IMAGE NAME` does, by the reference's
//! pulls.

use harptimber_bench::pulls;
use harptimber_tests::system::mapped;
use std::io::{stdout, BufWriter, Write};
use std::os::unix::ffi::OsStrExt;
use std::process::ExitCode;

fn main() -> ExitCode {
    let words: Vec<_> = std::env::args_os().skip(1).collect();
    let [image, name] = words.as_slice() else {
        eprintln!("usage: reference_cat IMAGE NAME");
        return ExitCode::FAILURE;
    };
    let mut out = BufWriter::with_capacity(1 << 16, stdout().lock());
    let ended = pulls::whole(
        pulls::reference,
        mapped(image.as_ref()),
        name.as_bytes(),
        |bytes| out.write_all(bytes).expect("room for the file's bytes"),
    );
    out.flush().expect("room for the file's bytes");
    ExitCode::from(u8::from(ended != 3))
}
