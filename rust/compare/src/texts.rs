//! Texts to compare: each line of a file, and mutations of them by a fixed seed.

/// What mutations put into a text.
#[rustfmt::skip]
const PIECES: &[&str] = &[
    "%", "%2", "%41", "%7e", "%C3%A9", "%E2%80%AE", "%F0%9F%98%80", "%C3", "%ff", "%2E", "%2e%2E",
    "%2F", "%00", "é", "ä", "\u{202E}", "\u{E000}", "\u{FFFE}", "\u{1F600}", "\u{80}", "\u{A0}",
    "\u{10FFFF}", "/", "//", "/./", "/../", "/..", ".", "..", ":", "::", "@", "?", "#", "[", "]",
    "[::1]", "[::ffff:1.2.3.4]", "[v1.a:b]", "[fe80::1%25a]", "1.2.3.4", "256.1.1.1", "01.2.3.4",
    ":80", ":443", ":0080", ":99999", " ", "\u{0}", "\u{7f}", "\\", "<", "\"", "^", "`", "{", "|",
    "~", "!", "$", "&", "'", "(", "*", "+", ",", ";", "=", "a", "Z", "0", "http://", "HTTPS://",
    "ftp:", "//h", "xn--99zt52a", "user:pw@", "+tcp", "coap+ws:", "z39.50r:", "g;x=1/../y",
    "1:2:3:4:5:6:7:8", "abcd", "-", "_", "aaaaaaaaaaaaaaaaaaaaaaaaaaaaaaaaaaaaaaaa",
    "%30%31%32%33%34%35%36%37%38%39%41%42%43%44%45%46%47",
    "/a/b/c/d/e/f/g/h/i/j/k/l/m/n/o/p/q/r/s/t", "../../../../../../..",
];

/// The schemes that have a default port in the original, and some that have none, with a port.
const PORTS: &str = "aaa:3868 aaas:5658 acap:674 cap:1026 coap:5683 coap+tcp:5683 coap+ws:80 \
    coaps:5684 coaps+tcp:5684 coaps+ws:443 dict:2628 dns:53 ftp:21 go:1096 gopher:70 http:80 \
    https:443 icap:1344 imap:143 ipp:631 ipps:631 ldap:389 mtqp:1038 mupdate:3905 nfs:2049 \
    nntp:119 pop:110 rtsp:554 rtsps:322 rtspu:554 snmp:161 stun:3478 stuns:5349 telnet:23 tip:3372 \
    tn3270:23 turn:3478 turns:5349 vemmi:575 vnc:5900 ws:80 wss:443 z39.50r:210 z39.50s:210 \
    wsss:1 z:1 x-y.z:1";

/// A generator of numbers, by the xorshift of Marsaglia and Vigna.
pub struct Random(u64);

impl Random {
    pub fn new(seed: u64) -> Random {
        Random(seed | 1)
    }

    fn below(&mut self, bound: usize) -> usize {
        self.0 ^= self.0 << 13;
        self.0 ^= self.0 >> 7;
        self.0 ^= self.0 << 17;
        let number = self.0.wrapping_mul(0x2545_F491_4F6C_DD1D) >> 16;
        (number % bound as u64) as usize
    }
}

/// The lines, and one URI for each scheme with its port.
pub fn with_ports(mut lines: Vec<String>) -> Vec<String> {
    for pair in PORTS.split_whitespace() {
        let (scheme, port) = pair.split_once(':').expect("a scheme and its port");
        lines.push(format!("{scheme}://h:{port}/"));
        lines.push(format!("{}://h:0{port}", scheme.to_uppercase()));
    }
    lines
}

/// A line, or an empty text, that is changed in one to six places.
pub fn mutated(lines: &[String], random: &mut Random) -> String {
    let mut chars: Vec<char> = match random.below(8) {
        0 => Vec::new(),
        _ => lines[random.below(lines.len())].chars().collect(),
    };
    if random.below(4) == 0 {
        chars.truncate(random.below(24));
    }
    for _ in 0..=random.below(6) {
        change(&mut chars, random);
    }
    chars.into_iter().collect()
}

/// Removes a character or a few, repeats some, or inserts a piece.
fn change(chars: &mut Vec<char>, random: &mut Random) {
    let at = random.below(chars.len() + 1);
    match random.below(4) {
        0 if at < chars.len() => {
            chars.remove(at);
        }
        1 if at < chars.len() => {
            let end = at + random.below(chars.len() - at + 1).min(12);
            chars.drain(at..end);
        }
        2 if !chars.is_empty() => {
            let from = random.below(chars.len());
            let piece: Vec<char> = chars[from..].iter().take(random.below(20)).copied().collect();
            chars.splice(at..at, piece);
        }
        _ => {
            chars.splice(at..at, PIECES[random.below(PIECES.len())].chars());
        }
    }
}
