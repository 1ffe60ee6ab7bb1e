//! Rows of two texts: orders, targets, and references that lead to targets.

use super::*;

/// What two texts of a kind lead to.
pub fn of_pair(ask: &str, kind: &str, one: &str, other: &str, rest: &[String], words: &mut Words) {
    if let Some(port) = rest.first() {
        set_port("*", port);
    }
    macro_rules! compare {
        ($R:ident, $order:expr) => {{
            let (one, other) = ($R::parse(one).unwrap(), $R::parse(other).unwrap());
            let met = $order.cmp(&one, &other);
            words.say(["less", "equal", "greater"][(met as i8 + 1) as usize]);
            words.unless($order.is_equivalent(&one, &other) == met.is_eq(), "by equivalence");
            let hash_of = |value| hash_by(|state| $order.hash(value, state));
            words.unless((hash_of(&one) == hash_of(&other)) == met.is_eq(), "by hash");
        }};
    }
    match ask {
        "compare" => return of_kind!(kind, R => compare!(R, NormalOrder::new())),
        "compare-under" => {
            let order = NormalOrder::new().default_port_with(row_port);
            return of_kind!(kind, R => compare!(R, order));
        }
        "compare-by-rules" => {
            let order = NormalOrder::new().scheme_rules_with(SchemeRules::STANDARD);
            return of_kind!(kind, R => compare!(R, order));
        }
        "swap-as-uris" => {
            let (base, reference) = (Iri::parse(one).unwrap(), IriRef::parse(other).unwrap());
            let (base, reference) = (base.to_uri(), reference.to_uri_ref());
            return of_pair("swap", "uri", base.as_str(), reference.as_str(), rest, words);
        }
        _ => {}
    }
    of_base!(kind, B K => {
        let base = B::parse(one).unwrap();
        let resolver = Resolver::with_base(base);
        if let Some(way) = ask.strip_prefix("relativize") {
            let relativizer = Relativizer::with_base(base).prefer_relative_path(way == "-path");
            let reference = relativizer.relativize(&B::parse(other).unwrap());
            words.say(reference.as_str());
            if way == "-back" {
                let back = resolver.resolve(&reference);
                words.unless(back.is_ok_and(|back| back == *other), "not back");
                let back = BasicResolver::with_base(base).resolve(&reference);
                words.unless(back.is_ok_and(|back| back == *other), "lost");
            }
            return;
        }
        let reference = K::parse(other).unwrap();
        match ask {
            "resolve" => {
                words.result(resolver.resolve(&reference));
                words.unless(
                    reference.resolve_against(&base) == resolver.resolve(&reference),
                    "otherwise",
                );
            }
            "resolve-strict" => {
                words.result(resolver.allow_path_underflow(false).resolve(&reference));
            }
            "resolve-normalized" => {
                words.result(resolver.resolve_normalized(&reference, &Normalizer::new()));
            }
            "resolve-by-rules" => {
                let normalizer = Normalizer::new().scheme_rules_with(SchemeRules::STANDARD);
                words.result(resolver.resolve_normalized(&reference, &normalizer));
            }
            "resolve-basic" => words.result(BasicResolver::with_base(base).resolve(&reference)),
            "resolve-both" => {
                words.result(resolver.resolve(&reference));
                let mut basic = Words::default();
                basic.result(BasicResolver::with_base(base).resolve(&reference));
                words.unless(basic == *words, "and another by the basic algorithm");
            }
            "swap" => {
                words.say(resolver.resolve(&reference).unwrap().normalize().as_str());
                let resolver = Resolver::with_base(base.normalize());
                let target = resolver.resolve(&reference.normalize()).unwrap().normalize();
                words.same("normal", target.as_str());
            }
            _ => panic!("no such operation: {ask}"),
        }
    });
}
