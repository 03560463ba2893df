//! What the programs share: their arguments, how they fail, the files of a recorded list, and the calls of our library.

use std::path::Path;

/// The numbers N and SEED that a program is called with; else it says how it is called.
pub fn count_and_seed(program: &str) -> (u64, u64) {
    let arguments: Vec<u64> = std::env::args().skip(1).map_while(|word| word.parse().ok()).collect();
    let [count, seed] = arguments[..] else {
        eprintln!("usage: {program} N SEED");
        std::process::exit(2);
    };
    (count, seed)
}

/// Says what is wrong and ends the program.
pub fn fail(message: &str) -> ! {
    println!("{message}");
    std::process::exit(1);
}

/// The folder that a program is to write into; else it says how it is called.
pub fn folder(program: &str) -> String {
    std::env::args().nth(1).unwrap_or_else(|| {
        eprintln!("usage: {program} FOLDER");
        std::process::exit(2);
    })
}

/// Writes the two files of a recorded list, what is asked and what is answered.
pub fn write_recorded(folder: &str, asked: &[u8], answered: &[u8]) -> std::io::Result<()> {
    std::fs::create_dir_all(folder)?;
    std::fs::write(Path::new(folder).join("stdin"), asked)?;
    std::fs::write(Path::new(folder).join("stdout"), answered)
}

/// Calls a function of our library: `lent` and `written` slices become a pointer and a length, `plain` numbers stay as they are.
#[macro_export]
macro_rules! call {
    (@ $function:ident [$($done:expr,)*]) => {
        $function($($done),*)
    };
    (@ $function:ident [$($done:expr,)*] lent $slice:expr, $($rest:tt)*) => {
        $crate::call!(@ $function [$($done,)* $slice.as_ptr(), $slice.len(),] $($rest)*)
    };
    (@ $function:ident [$($done:expr,)*] written $slice:expr, $($rest:tt)*) => {
        $crate::call!(@ $function [$($done,)* $slice.as_mut_ptr(), $slice.len(),] $($rest)*)
    };
    (@ $function:ident [$($done:expr,)*] plain $number:expr, $($rest:tt)*) => {
        $crate::call!(@ $function [$($done,)* $number,] $($rest)*)
    };
    ($function:ident: $($arguments:tt)*) => {
        $crate::call!(@ $function [] $($arguments)*,)
    };
}
