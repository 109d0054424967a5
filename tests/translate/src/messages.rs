//! The published machine says what went wrong in words; document 01 gives each a number.

/// How a message begins, and its number. The first that fits decides.
const BEGINNINGS: [(&str, u8); 24] = [
    ("corrupt bytecode: unknown cast target ", 30),
    ("stack underflow", 31),
    ("corrupt bytecode: is-kind name is not a string", 32),
    ("corrupt bytecode: closure template is not a function", 32),
    ("read of undefined global slot ", 35),
    ("assignment to undefined global slot ", 35),
    ("cannot pop the base call frame", 36),
    ("integer overflow: ", 37),
    ("division by zero", 38),
    ("cannot apply arithmetic op to ", 39),
    ("cannot divide ", 39),
    ("cannot compare ", 39),
    ("cannot negate ", 39),
    ("cannot apply ! to ", 39),
    ("if/while condition must be bool, got ", 39),
    ("cannot call ", 39),
    ("cannot index into ", 39),
    ("cannot get length of ", 39),
    ("array index must be int or byte, got ", 39),
    ("comparison produced no ordering", 40),
    ("array index must be postive int, got ", 41),
    ("array index out of bounds: ", 41),
    ("invalid cast: ", 42),
    ("corrupt bytecode: closure capture_start ", 44),
];

/// Whether the message ends in `expects N args, got M`. It begins with the function's name, which may
/// be any text, so this is judged before the beginnings; no other message ends so.
fn is_about_arity(message: &str) -> bool {
    let digits = |s: &str| !s.is_empty() && s.bytes().all(|b| b.is_ascii_digit());
    let Some((before, got)) = message.rsplit_once(" args, got ") else {
        return false;
    };
    let Some((_, expected)) = before.rsplit_once(" expects ") else {
        return false;
    };
    digits(got) && digits(expected)
}

/// Document 01's number for a message of the published machine.
pub fn number(message: &str) -> Option<u8> {
    if is_about_arity(message) {
        return Some(43);
    }
    let found = BEGINNINGS
        .iter()
        .find(|(beginning, _)| message.starts_with(beginning));
    found.map(|(_, number)| *number)
}

#[cfg(test)]
mod tests {
    use super::number;

    #[test]
    fn a_function_may_have_any_name() {
        assert_eq!(number("division by zero expects 1 args, got 0"), Some(43));
        assert_eq!(number(" expects 0 args, got 3"), Some(43));
        assert_eq!(number("closure expects 2 args, got 3"), Some(43));
        assert_eq!(
            number("cannot negate Str(\"f expects 1 args, got 0\")"),
            Some(39)
        );
        assert_eq!(number("array index must be postive int, got -1"), Some(41));
        assert_eq!(number("something else"), None);
    }
}
