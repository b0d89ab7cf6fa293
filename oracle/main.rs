//! A second opinion on models, by other means than the library it is compared with.

mod asked;
mod bench;
mod cases;
mod children;
mod course;
mod courses;
mod damage;
mod driver;
mod editor;
mod facts;
mod file;
mod library;
mod long;
mod machine;
mod model;
mod models;
mod opposite;
mod paths;
mod profile;
mod program;
mod random;
mod rooms;
mod selftest;
mod straight;
mod tables;
mod vectors;
mod wide;

use std::path::Path;

fn main() {
    let arguments: Vec<String> = std::env::args_os()
        .skip(1)
        .map(|word| word.to_string_lossy().into_owned())
        .collect();
    let words: Vec<&str> = arguments.iter().map(String::as_str).collect();
    std::process::exit(match words[..] {
        ["self-test"] => selftest::run(),
        ["editor"] => editor::print(),
        ["bench", ref runner @ ..] if !runner.is_empty() => bench::run(runner),
        ["library", "--small", ref runner @ ..] if !runner.is_empty() => library::run_small(runner),
        ["library", ref runner @ ..] if !runner.is_empty() => library::run(runner),
        ["vectors", folder] => vectors::write(Path::new(folder)),
        ["program", ref program @ ..] if !program.is_empty() => program::run(program),
        ["long", seed, program, driver, ref runner @ ..] => match seed.parse() {
            Ok(seed) => long::run(seed, program, driver, runner),
            Err(_) => usage(),
        },
        _ => usage(),
    });
}

fn usage() -> i32 {
    eprintln!(
        "usage: oracle self-test | editor | vectors FOLDER | library [--small] RUNNER... | bench RUNNER... | program PROGRAM... \
         | long SEED PROGRAM DRIVER RUNNER..., where RUNNER runs the driver, and in the last both files"
    );
    2
}
