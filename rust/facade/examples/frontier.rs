//! The frontier of a crawler: which pages are still to be visited, and how often each was linked.
//!
//! Its key is the normal form of a page's URI without the fragment, so that two spellings of a page are
//! one page.

use fluent_uri::{
    mend::Mend, normalize::Normalizer, resolve::Resolver, rules::SchemeRules, Uri, UriRef,
};
use std::collections::{HashMap, VecDeque};

/// The pages that were found.
#[derive(Default)]
struct Frontier {
    links: HashMap<Uri<String>, usize>,
    unvisited: VecDeque<Uri<String>>,
}

impl Frontier {
    /// Adds the page that a link of a page leads to. A link that leads nowhere is an error.
    fn add(&mut self, page: &Uri<String>, href: &str) -> Result<(), Box<dyn std::error::Error>> {
        let link = UriRef::mend_link(href)?;
        let normalizer = Normalizer::new().scheme_rules_with(SchemeRules::STANDARD);
        let mut target = Resolver::with_base(page.borrow()).resolve_normalized(&link, &normalizer)?;
        target.set_fragment(None);
        let count = self.links.entry(target.clone()).or_insert(0);
        *count += 1;
        if *count == 1 {
            self.unvisited.push_back(target);
        }
        Ok(())
    }
}

fn main() -> Result<(), Box<dyn std::error::Error>> {
    let page = Uri::parse("http://example.com/docs/")?.to_owned();
    let mut frontier = Frontier::default();
    for href in
        ["a b.html", "./a%20b.html#top", "HTTP://EXAMPLE.com:80/docs/%61%20b.html", "..", "/"]
    {
        frontier.add(&page, href)?;
    }
    assert!(frontier.add(&page, "//[::1/").is_err());
    while let Some(next) = frontier.unvisited.pop_front() {
        println!("{next} {}", frontier.links[&next]);
    }
    Ok(())
}
