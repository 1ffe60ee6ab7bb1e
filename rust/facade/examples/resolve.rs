//! Resolves a link of a page, and prints its normal form.

use fluent_uri::{ParseError, Uri, UriRef};

fn main() -> Result<(), ParseError> {
    let page = Uri::parse("http://example.com/a/b?c")?;
    let link = UriRef::parse("../d")?;
    let target = link.resolve_against(&page).expect("the page has no fragment");
    println!("{}", target.normalize());
    println!("{}", target.authority().map_or("", |authority| authority.host()));
    Ok(())
}
