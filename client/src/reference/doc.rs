//! Doc comments: `GatherSimpleQuotes`, `ConvertDocstring` and `ToDocstringPrefix`.

pub const DOC_STRING_PREFIX: &[u8] = b"/// ";

/// `GatherSimpleQuotes`: the backticks that a doc begins with.
fn gather_simple_quotes(doc: &[u8]) -> &[u8] {
    let length = doc.iter().take_while(|&&byte| byte == b'`').count();
    &doc[..length]
}

/// `ConvertDocstring`. The body calls itself for what is left; here that is the next round, since a
/// doc can be longer than recursion should go. The branches stand in the order of the body.
pub fn convert_docstring(doc: &[u8], indent: &[u8]) -> Vec<u8> {
    let mut converted = Vec::new();
    let mut rest = doc;
    let mut newline_started = true;
    let mut code_marker: Option<&[u8]> = None;
    while let Some((&first, after_first)) = rest.split_first() {
        if first == b'\n' {
            converted.push(b'\n');
            converted.extend_from_slice(indent);
            converted.extend_from_slice(DOC_STRING_PREFIX);
            rest = after_first;
            newline_started = true;
            continue;
        }
        if first == b' ' {
            let indented = rest.len() > 4 && &rest[..4] == b"    ";
            if code_marker.is_none() && newline_started && indented {
                converted.extend_from_slice(b"|   ");
                rest = &rest[4..];
                newline_started = false;
            } else {
                // The line start, if it is one, stays one.
                converted.push(b' ');
                rest = after_first;
            }
            continue;
        }
        if newline_started {
            match code_marker {
                // The body asks for the marker and a newline first, then for the marker alone; both
                // do the same.
                Some(marker) if rest.starts_with(marker) => {
                    converted.extend_from_slice(marker);
                    rest = &rest[marker.len()..];
                    newline_started = false;
                    code_marker = None;
                    continue;
                }
                None if rest.starts_with(b"```") => {
                    let marker = gather_simple_quotes(rest);
                    let remaining = &rest[marker.len()..];
                    converted.extend_from_slice(marker);
                    if matches!(remaining.first(), None | Some(b' ' | b'\n')) {
                        converted.extend_from_slice(b"dafny");
                        rest = remaining;
                    } else if remaining.starts_with(b"rs ") || remaining.starts_with(b"rs\n") {
                        rest = &remaining[2..];
                    } else {
                        rest = remaining;
                    }
                    newline_started = false;
                    code_marker = Some(marker);
                    continue;
                }
                _ => {}
            }
        }
        converted.push(first);
        rest = after_first;
        newline_started = false;
    }
    converted
}

/// `ToDocstringPrefix`: nothing for no doc, else the comment, a newline and the indent.
pub fn append_docstring_prefix(doc: &[u8], indent: &[u8], text: &mut Vec<u8>) {
    if doc.is_empty() {
        return;
    }
    text.extend_from_slice(DOC_STRING_PREFIX);
    text.extend_from_slice(&convert_docstring(doc, indent));
    text.push(b'\n');
    text.extend_from_slice(indent);
}

#[cfg(test)]
mod tests {
    use super::*;
    use crate::limits::{LEVEL_LIMIT, TEXT_LIMIT};

    fn converted(doc: &str) -> String {
        String::from_utf8(convert_docstring(doc.as_bytes(), b"")).unwrap()
    }

    fn comment(doc: &str, indent: &str) -> String {
        let mut text = Vec::new();
        append_docstring_prefix(doc.as_bytes(), indent.as_bytes(), &mut text);
        String::from_utf8(text).unwrap()
    }

    #[test]
    fn marked_cases_j_and_k() {
        assert_eq!(comment("    ", ""), "///     \n");
        assert_eq!(comment("    x", ""), "/// |   x\n");
        assert_eq!(comment("```rs", ""), "/// ```rs\n");
    }

    #[test]
    fn whole_comments() {
        assert_eq!(comment("", "    "), "");
        assert_eq!(comment("Offset in mm.", ""), "/// Offset in mm.\n");
        assert_eq!(comment("a\nb", "    "), "/// a\n    /// b\n    ");
        assert_eq!(comment("\n", "  "), "/// \n  /// \n  ");
    }

    /// TRAPS 9.
    #[test]
    fn four_spaces_at_line_start() {
        assert_eq!(converted("    "), "    ");
        assert_eq!(converted("     "), "|    ");
        assert_eq!(converted("    \n"), "|   \n/// ");
        assert_eq!(converted("   x"), "   x");
        assert_eq!(converted("x    y"), "x    y");
        assert_eq!(converted("a\n    b"), "a\n/// |   b");
        assert_eq!(converted("a\n    "), "a\n///     ");
        assert_eq!(converted("         x"), "|        x"); // only the first four
        assert_eq!(converted("a\n"), "a\n/// ");
        // A tab ends the line start.
        assert_eq!(converted("\t    x"), "\t    x");
    }

    /// TRAPS 10.
    #[test]
    fn spaces_before_a_fence() {
        assert_eq!(converted("   ```\n    x"), "   ```dafny\n///     x");
        assert_eq!(converted("    ```\n    x"), "|   ```\n/// |   x");
        assert_eq!(converted("x```\n    y"), "x```\n/// |   y");
    }

    /// TRAPS 11.
    #[test]
    fn spaces_in_code() {
        assert_eq!(
            converted("```\n    y\n        ```\n    z"),
            "```dafny\n///     y\n///         ```\n/// |   z"
        );
    }

    /// TRAPS 12.
    #[test]
    fn closing_is_by_the_opening_bytes() {
        assert_eq!(
            converted("```\n````x\n    z"),
            "```dafny\n/// ````x\n/// |   z"
        );
        assert_eq!(
            converted("````\n```\n    z\n````\n    z"),
            "````dafny\n/// ```\n///     z\n/// ````\n/// |   z"
        );
        // The backticks left over after a close are not at the line start.
        assert_eq!(
            converted("```\n``````\n    z"),
            "```dafny\n/// ``````\n/// |   z"
        );
    }

    /// TRAPS 13.
    #[test]
    fn an_opening_line_does_not_close() {
        assert_eq!(converted("``` ```\n    y"), "```dafny ```\n///     y");
        assert_eq!(converted("```x```\n    y"), "```x```\n///     y");
    }

    /// TRAPS 14.
    #[test]
    fn what_follows_a_fence() {
        for (doc, text) in [
            ("```", "```dafny"),
            ("``` ", "```dafny "),
            ("```\n", "```dafny\n/// "),
            ("```rs", "```rs"),
            ("```rs\r\n", "```rs\r\n/// "),
            ("```rsx", "```rsx"),
            ("```rs ", "``` "),
            ("```rs\n", "```\n/// "),
            ("`````rs\nx", "`````\n/// x"),
            ("````rs x", "```` x"),
            ("```r", "```r"),
            ("```r ", "```r "),
            ("```rs\t", "```rs\t"),
            ("```\t", "```\t"),
            ("```\r\n", "```\r\n/// "),
            ("``` rs\n", "```dafny rs\n/// "),
            ("`````", "`````dafny"),
        ] {
            assert_eq!(converted(doc), text, "{doc:?}");
        }
        // With and without `rs` the code has begun.
        assert_eq!(converted("```rs\n    x"), "```\n///     x");
        assert_eq!(converted("```rsx\n    x"), "```rsx\n///     x");
        assert_eq!(converted("```\t\n    x"), "```\t\n///     x");
    }

    /// TRAPS 15.
    #[test]
    fn two_backticks_are_no_fence() {
        assert_eq!(converted("``"), "``");
        assert_eq!(converted("``\n    x"), "``\n/// |   x");
        assert_eq!(converted("a\n``"), "a\n/// ``");
        assert_eq!(converted("`` `"), "`` `");
    }

    #[test]
    fn a_fence_after_a_closed_one() {
        assert_eq!(
            converted("```\na\n```\n```rs\nb\n```"),
            "```dafny\n/// a\n/// ```\n/// ```\n/// b\n/// ```"
        );
    }

    #[test]
    fn other_bytes_pass() {
        assert_eq!(
            convert_docstring(b"\xFF\0\xC3\xA9", b""),
            b"\xFF\0\xC3\xA9".to_vec()
        );
    }

    #[test]
    fn the_longest_docs() {
        let indent = [b' '; 4 * LEVEL_LIMIT as usize];
        let newlines = convert_docstring(&[b'\n'; TEXT_LIMIT], &indent);
        assert_eq!(newlines.len(), TEXT_LIMIT * (1 + indent.len() + 4));
        let spaces = convert_docstring(&[b' '; TEXT_LIMIT], &indent);
        assert_eq!(spaces.len(), TEXT_LIMIT);
        assert!(spaces.starts_with(b"|    "));
        let fence = convert_docstring(&[b'`'; TEXT_LIMIT], &indent);
        assert_eq!(fence.len(), TEXT_LIMIT + 5);
    }
}
