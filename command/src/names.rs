//! Names and lines as they can be shown on a terminal.

/// Text with what is no text, control characters and characters that turn or hide others escaped.
pub fn shown(bytes: &[u8]) -> String {
    let mut shown = String::new();
    for chunk in bytes.utf8_chunks() {
        for character in chunk.valid().chars() {
            if is_plain(character) {
                shown.push(character);
            } else {
                shown.extend(character.escape_default());
            }
        }
        for byte in chunk.invalid() {
            shown.push_str(&format!("\\x{byte:02x}"));
        }
    }
    shown
}

fn is_plain(character: char) -> bool {
    let turns_or_hides = matches!(character,
        '\u{AD}' | '\u{61C}' | '\u{180E}' | '\u{200B}'..='\u{200F}' | '\u{2028}'..='\u{202E}'
        | '\u{2060}'..='\u{206F}' | '\u{FEFF}' | '\u{FFF9}'..='\u{FFFB}' | '\u{E0000}'..='\u{E007F}');
    !character.is_control() && !turns_or_hides
}

#[cfg(test)]
mod tests {
    use super::shown;

    #[test]
    fn what_could_move_a_terminal_is_escaped() {
        assert_eq!(shown("Grüße 1.txt".as_bytes()), "Grüße 1.txt");
        assert_eq!(shown(b"a\x1B[31mb\n\x7F"), "a\\u{1b}[31mb\\n\\u{7f}");
        assert_eq!(shown("\u{9B}31m\u{202E}".as_bytes()), "\\u{9b}31m\\u{202e}");
        assert_eq!(shown(b"\xFF\xFEa"), "\\xff\\xfea");
    }
}
