//! What judges: the library's version and the SHA-256 of its archive, and the kit that proved it. The version alone
//! names no state of the library.

/// The SHA-256 of the archive that is linked.
const ARCHIVE: &str = env!("RULEFILE_ARCHIVE");

/// The kit that proved the library.
const KIT: &str = env!("RULEFILE_KIT");

/// The labels of a verdict that say by what it was judged, with what they say of this program.
pub const NOW: [(&str, &str); 3] = [
    ("library", rulefile::VERSION),
    ("archive", ARCHIVE),
    ("kit", KIT),
];

/// By what was judged, in words; `unknown` where a verdict does not say.
pub fn words<'a>(said: impl Fn(&str) -> Option<&'a str>) -> String {
    let words = NOW.map(|(label, _)| format!("{label} {}", said(label).unwrap_or("unknown")));
    words.join(", ")
}

/// What judges now, in words.
pub fn now() -> String {
    let said = |label: &str| NOW.iter().find(|now| now.0 == label).map(|now| now.1);
    words(said)
}
