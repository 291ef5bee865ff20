//! Rules as text, for those who write them by hand.

/// A rule from its text: a space is whitespace, `{}` an expression, `{1}` a rule of ruleset 1, another byte itself.
pub fn rule(text: &str) -> Vec<u16> {
    let mut parts = Vec::new();
    let mut rest = text.as_bytes();
    while let [first, after @ ..] = rest {
        rest = after;
        parts.push(match (first, after) {
            (b' ', _) => 256,
            (b'{', [b'}', after @ ..]) => {
                rest = after;
                257
            }
            (b'{', [digit, b'}', after @ ..]) => {
                rest = after;
                512 + (digit - b'0') as u16
            }
            _ => *first as u16,
        });
    }
    parts
}
