//! The second program: document 01 written down a second time, by definition, and compared with the
//! first. See README.md.

mod chart;
mod compare;
mod damage;
mod damage_advice;
mod driver;
mod each;
mod hits;
mod inputs;
mod interchange;
mod kinds;
mod make;
mod make_advice;
mod make_hits;
mod message;
mod random;
mod report;
mod rewrite;
mod selftest;
mod selftest_advice;
mod selftest_hits;
mod syntax;
mod tables;
mod tables_advice;

use std::io::{Read, Write};

const USAGE: &str = "usage:
  second selftest
  second report < FILE                      what payreport must print
  second lines < FILE                       the same lines for an interchange of any size, with long lists
  second compare [--driver WORDS] [--payreport WORDS] [--cases N] [--hits N] [--reports N]
                 [--seed S] [--show N] [--keep FOLDER] [--no-limits]
  second generate [--seed S] [--kind realistic|advices|regular|good|damaged|rewritten] [--bytes N]
WORDS is one argument: a command and its arguments, separated by spaces.";

fn wrong(what: &str) -> ! {
    eprintln!("{what}\n{USAGE}");
    std::process::exit(2)
}

fn main() {
    let arguments: Vec<String> = std::env::args().skip(1).collect();
    let Some(command) = arguments.first() else { wrong("no command") };
    let mut options = compare::Options {
        driver: vec![],
        payreport: vec![],
        cases: 3_500,
        hits: 900,
        reports: 250,
        seed: 1,
        show: 10,
        keep: None,
        limits: true,
    };
    let (mut kind, mut bytes) = ("realistic".to_string(), 20_000);
    let mut rest = arguments[1..].iter();
    while let Some(name) = rest.next() {
        if name == "--no-limits" {
            options.limits = false;
            continue;
        }
        let Some(text) = rest.next() else { wrong(&format!("{name} needs a value")) };
        let number = || text.parse::<u64>().unwrap_or_else(|_| wrong(&format!("{name} needs a number")));
        let words = || text.split_whitespace().map(str::to_string).collect::<Vec<String>>();
        match name.as_str() {
            "--driver" => options.driver = words(),
            "--payreport" => options.payreport = words(),
            "--cases" => options.cases = number() as usize,
            "--hits" => options.hits = number() as usize,
            "--reports" => options.reports = number() as usize,
            "--seed" => options.seed = number(),
            "--show" => options.show = number() as usize,
            "--keep" => options.keep = Some(text.clone()),
            "--kind" => kind = text.clone(),
            "--bytes" => bytes = number() as usize,
            _ => wrong(&format!("unknown option {name}")),
        }
    }
    let well = match command.as_str() {
        "selftest" => selftest::run(),
        "compare" => compare::run(&options),
        "report" | "lines" => {
            let mut input = Vec::new();
            std::io::stdin().read_to_end(&mut input).unwrap();
            let text = if command == "report" { report::report(&input) } else { report::lines(&input, compare::AMPLE) };
            print!("{text}");
            true
        }
        "generate" => {
            std::io::stdout().write_all(&generate(&kind, options.seed, bytes)).unwrap();
            true
        }
        _ => wrong("unknown command"),
    };
    std::process::exit(if well { 0 } else { 1 });
}

/// One interchange: good messages, realistic or all alike, just below so many bytes, or one input of the comparison.
fn generate(kind: &str, seed: u64, bytes: usize) -> Vec<u8> {
    let mut random = random::Random::new(seed);
    match kind {
        "realistic" => inputs::realistic(&mut random, kinds::Kind::Paymul, bytes),
        "advices" => inputs::realistic(&mut random, kinds::Kind::Debmul, bytes),
        "regular" => inputs::regular(bytes),
        "good" | "damaged" => loop {
            let input = inputs::random_input(&mut random);
            if input.good == (kind == "good") {
                return input.bytes;
            }
        },
        "rewritten" => rewrite::plain(&inputs::realistic(&mut random, kinds::Kind::Paymul, bytes)).unwrap(),
        _ => wrong("unknown kind"),
    }
}
