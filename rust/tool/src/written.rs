//! Bytes as an argument writes them: in hex, or as text in quotes that the shell leaves in place.

use crate::sets::hex_bytes;
use crate::text::{plain, shell_word, text};
use crate::{misuse, Failure};

/// How text is written.
const IN_QUOTES: &str = "text is written in quotes that the shell leaves in place";

/// How a byte is written.
const ONE_BYTE: &str = "that is no byte; write two hex digits, such as 4c, or one character in quotes that the shell \
    leaves in place: '\"L\"'";

/// The bytes of a suffix.
pub fn suffix(argument: &str) -> Result<Vec<u8>, Failure> {
    bytes(argument).map_err(|wrong| misuse(&wrong))
}

/// The one byte of `--byte`.
pub fn byte(argument: &str) -> Result<u8, Failure> {
    match bytes(argument).as_deref() {
        Ok(&[byte]) => Ok(byte),
        _ => Err(misuse(&format!("--byte {}: {ONE_BYTE}", shell_word(argument)))),
    }
}

/// What stands between quotes in an argument that begins and ends with one.
pub fn inside_quotes(argument: &str) -> Option<&str> {
    argument.strip_prefix('"')?.strip_suffix('"')
}

/// Text in quotes, as a shell leaves them in place.
pub fn in_quotes(text: &str) -> String {
    shell_word(&format!("\"{text}\""))
}

/// The bytes that an argument writes, or what is wrong with it.
fn bytes(argument: &str) -> Result<Vec<u8>, String> {
    let Some(inside) = inside_quotes(argument) else {
        return hex_bytes(argument.as_bytes()).map_err(|_| no_hex(argument));
    };
    match inside.chars().find(|c| !matches!(c, ' '..='~')) {
        None => Ok(inside.as_bytes().to_vec()),
        Some(c) => {
            let (found, other) = (shell_word(argument), plain(&c.to_string()));
            Err(format!("{found} holds {other}, which is not printable ASCII: write it in hex"))
        }
    }
}

/// That an argument is no hex, and how it is written if it is text.
fn no_hex(argument: &str) -> String {
    let wrong = format!("{} is not pairs of hex digits", shell_word(argument));
    match text(argument.as_bytes()) {
        Some(text) => format!("{wrong}; {IN_QUOTES}: {}", in_quotes(text.trim_matches('"'))),
        None => wrong,
    }
}
