//! The time of three calls of both crates.
use std::hint::black_box;
use std::time::Instant;

const REFERENCES: [&str; 6] = ["../g", "g?y#s", "/x/./y/../z", "?q", "//h/p", "./a/b/c"];
const CALLS: [&str; 3] = ["parse", "normalize", "resolve"];

macro_rules! calls {
    ($name:ident, $krate:ident) => {
        mod $name {
            use super::*;
            use ::$krate::{Uri, UriRef};

            #[inline(never)]
            fn parse(lines: &[String]) {
                for line in lines {
                    let _ = black_box(Uri::parse(black_box(line.as_str())));
                }
            }

            #[inline(never)]
            fn normalize(lines: &[String]) {
                for line in lines {
                    if let Ok(uri) = Uri::parse(black_box(line.as_str())) {
                        black_box(uri.normalize());
                    }
                }
            }

            #[inline(never)]
            fn resolve(lines: &[String]) {
                for (line, reference) in lines.iter().zip(REFERENCES.iter().cycle()) {
                    if let Ok(uri) = Uri::parse(black_box(line.as_str())) {
                        let base = uri.strip_fragment();
                        let reference = UriRef::parse(black_box(*reference)).expect("a reference");
                        let _ = black_box(reference.resolve_against(&base));
                    }
                }
            }

            pub fn call(name: &str) -> fn(&[String]) {
                match name {
                    "parse" => parse,
                    "normalize" => normalize,
                    "resolve" => resolve,
                    _ => panic!("parse, normalize or resolve"),
                }
            }
        }
    };
}

calls!(of_original, original);
calls!(of_rattle, rattle);

pub fn repeat(lines: &[String], name: &str, call: &str, times: usize) {
    let call = if name == "original" { of_original::call(call) } else { of_rattle::call(call) };
    for _ in 0..times {
        call(lines);
    }
}

/// Prints for each call the least nanoseconds of both, and the ratio.
pub fn time(lines: &[String], rounds: usize) {
    let mut least = [[f64::MAX; 2]; CALLS.len()];
    for _ in 0..rounds {
        for (call, least) in CALLS.iter().zip(&mut least) {
            let both = [of_original::call(call), of_rattle::call(call)];
            for (of_crate, least) in both.into_iter().zip(least) {
                // One pass is short, so that some passes are not interrupted.
                let start = Instant::now();
                of_crate(lines);
                let nanoseconds = start.elapsed().as_nanos() as f64;
                *least = least.min(nanoseconds / lines.len() as f64);
            }
        }
    }
    for (call, [original, rattle]) in CALLS.iter().zip(least) {
        let ratio = rattle / original;
        println!("{call}: original {original:.1} ns, rattle {rattle:.1} ns, ratio {ratio:.2}");
    }
}
