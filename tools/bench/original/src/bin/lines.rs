//! What `urilines` does, by the original: `normalize KIND`, `resolve uri BASE`, `check uri`,
//! `unique KIND` and `parse uri` over the lines of standard input, with a buffer of 64 KiB either
//! way. A kind is `uri` or `iri`.
use fluent_uri::component::Host;
use fluent_uri::{Iri, Uri, UriRef};
use std::collections::HashSet;
use std::io::{self, BufRead, BufReader, BufWriter, Write};

const CAPACITY: usize = 64 * 1024;

/// The text of a line, without the newline that ends it and a `\r` before that.
fn text_of(line: &[u8]) -> &[u8] {
    match line {
        [text @ .., b'\r', b'\n'] | [text @ .., b'\n'] => text,
        text => text,
    }
}

fn each_line(
    mut answer: impl FnMut(&str, &mut dyn FnMut(&[u8]) -> io::Result<()>) -> io::Result<()>,
) -> io::Result<()> {
    let mut reader = BufReader::with_capacity(CAPACITY, io::stdin());
    let mut writer = BufWriter::with_capacity(CAPACITY, io::stdout());
    let mut line = Vec::new();
    loop {
        line.clear();
        if reader.read_until(b'\n', &mut line)? == 0 {
            return writer.flush();
        }
        match std::str::from_utf8(text_of(&line)) {
            Ok(text) => answer(text, &mut |bytes| writer.write_all(bytes))?,
            Err(error) => writeln!(writer, "error: not UTF-8 at index {}", error.valid_up_to())?,
        }
    }
}

fn normal_form(kind: &str, text: &str) -> Result<String, fluent_uri::ParseError> {
    if kind == "iri" {
        Ok(Iri::parse(text)?.normalize().into_string())
    } else {
        Ok(Uri::parse(text)?.normalize().into_string())
    }
}

fn push_member(line: &mut String, name: &str, text: &str) {
    let comma = if line.len() > 1 { "," } else { "" };
    line.push_str(&format!("{comma}\"{name}\":\"{text}\""));
}

/// The components of a URI, as a line of JSON.
fn json(uri: &Uri<&str>) -> String {
    let mut line = String::from("{");
    push_member(&mut line, "scheme", uri.scheme().as_str());
    if let Some(authority) = uri.authority() {
        push_member(&mut line, "authority", authority.as_str());
        if let Some(userinfo) = authority.userinfo() {
            push_member(&mut line, "userinfo", userinfo.as_str());
        }
        push_member(&mut line, "host", authority.host());
        let kind = match authority.host_parsed() {
            Host::Ipv4(_) => "ipv4",
            Host::Ipv6(_) => "ipv6",
            Host::IpvFuture { .. } => "ipvfuture",
            Host::RegName(_) => "reg-name",
        };
        push_member(&mut line, "host_kind", kind);
        if let Some(port) = authority.port() {
            push_member(&mut line, "port", port.as_str());
        }
    }
    push_member(&mut line, "path", uri.path().as_str());
    if let Some(query) = uri.query() {
        push_member(&mut line, "query", query.as_str());
    }
    if let Some(fragment) = uri.fragment() {
        push_member(&mut line, "fragment", fragment.as_str());
    }
    line.push_str("}\n");
    line
}

fn main() -> io::Result<()> {
    let words: Vec<String> = std::env::args().collect();
    let words: Vec<&str> = words.iter().map(String::as_str).collect();
    match words[1..] {
        ["normalize", kind] => each_line(|text, write| match normal_form(kind, text) {
            Ok(normal) => {
                write(normal.as_bytes())?;
                write(b"\n")
            }
            Err(error) => write(format!("error: {error}\n").as_bytes()),
        }),
        ["resolve", "uri", base] => {
            let base = Uri::parse(base).expect("a base");
            each_line(|text, write| match UriRef::parse(text) {
                Ok(reference) => match reference.resolve_against(&base) {
                    Ok(target) => {
                        write(target.as_str().as_bytes())?;
                        write(b"\n")
                    }
                    Err(error) => write(format!("error: {error}\n").as_bytes()),
                },
                Err(error) => write(format!("error: reference: {error}\n").as_bytes()),
            })
        }
        ["unique", kind] => {
            let mut met = HashSet::new();
            each_line(|text, write| match normal_form(kind, text) {
                Ok(normal) => {
                    if met.contains(&normal) {
                        return Ok(());
                    }
                    write(normal.as_bytes())?;
                    write(b"\n")?;
                    met.insert(normal);
                    Ok(())
                }
                Err(error) => write(format!("error: {error}\n").as_bytes()),
            })
        }
        ["check", "uri"] => each_line(|text, write| match Uri::parse(text) {
            Ok(_) => {
                write(text.as_bytes())?;
                write(b"\n")
            }
            Err(_) => Ok(()),
        }),
        ["parse", "uri"] => each_line(|text, write| match Uri::parse(text) {
            Ok(uri) => write(json(&uri).as_bytes()),
            Err(error) => write(format!("error: {error}\n").as_bytes()),
        }),
        _ => Err(io::Error::other("the words are those of a command of urilines")),
    }
}
