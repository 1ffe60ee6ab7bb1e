"""Texts that the script must not erase, since it does not know them, and one that it must."""
from erase import CRATES, erased
from erasure import Unknown
from scripts.parts import report

UNKNOWN = [
    "ghost fn f() {}",
    "ghost width: 4,",
    "fn f()\n    ensures result ≡ 0;\n{}",
    "fn f()\n    decreases { n }\n{}",
    "#[cfg(test)]\nmod tests {}",
    "#[derive(Clone, Zeroed)]\nstruct S;",
    "fn f(alloc: Global) { vec![in alloc; 1]; }",
    "fn f() { assert!(rt; true) }",
    "const N: usize = λ;",
    "use std;",
    "use uri_pct as texts;",
    "use thiserror::Error as E;",
    "fn clone(&self) -> Result<Self, AllocError> {\n    Ok(self.0.clone()?).map(S)\n}",
    "trait T<\n    A,\n> {\n}",
    "fn f() ensures { (",
]
KNOWN = """ghost use Rattle.std.specs.Prelude.{◌≡◌};

use crate::b;
use std::str;

/// The first.
#[derive(Clone, Drop)]
pub struct S {
    pub first: u8,
    /// Why.
    pub ghost is_small: { first ≡ 1 },
}

/// Requires and ensures nothing.
#[tactic(auto)]
pub fn first(s: &S) -> u8
    requires named { s.now.first ≡ 1 }
    ensures* { result ≡ '{' ∨ "}" ≡ "" }
{
    s.first
}
"""
ERASED = """use crate::proved::rstd::prelude::*;
use crate::proved::uri_pct::b;
use crate::proved::rstd::str;

/// The first.
#[derive(Clone)]
pub struct S {
    pub first: u8,
}

/// Requires and ensures nothing.
#[inline]
pub fn first(s: &S) -> u8
{
    s.first
}
"""


def is_rejected(text):
    try:
        erased(CRATES[0], text)
    except Unknown:
        return True
    return False


def test_erasing():
    wrong = [text for text in UNKNOWN if not is_rejected(text)]
    wrong += [] if erased(CRATES[0], KNOWN) == ERASED else [KNOWN]
    for text in wrong:
        print(f"rust: erased, and must not be, or not as it must be: {text}")
    if wrong:
        raise SystemExit(1)
    report("erasing", f"{len(UNKNOWN)} forms that it does not know are rejected")
