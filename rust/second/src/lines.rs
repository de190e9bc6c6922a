//! Lines: a file is cut at every CR LF, and what remains after the last one
//! is a line too. A CR or LF on its own is just a byte of its line.

const CR_LF: &[u8] = b"\r\n";

/// A line without its CR LF, and whether it had one.
#[derive(Clone, Copy, Debug)]
pub struct Line<'a> {
    pub text: &'a [u8],
    pub ended: bool,
}

impl Line<'_> {
    /// The first byte; none for an empty line.
    pub fn letter(&self) -> Option<u8> {
        self.text.first().copied()
    }
}

/// The lines of a text, in order.
#[derive(Clone, Debug)]
pub struct Lines<'a> {
    rest: &'a [u8],
}

impl<'a> Lines<'a> {
    pub fn of(text: &'a [u8]) -> Self {
        Lines { rest: text }
    }

    /// The bytes not yet read.
    pub fn rest(&self) -> &'a [u8] {
        self.rest
    }

    /// The next line, unless it opens a group.
    pub fn next_in_group(&mut self) -> Option<Line<'a>> {
        match self.rest.first() {
            Some(b'#') => None,
            _ => self.next(),
        }
    }
}

impl<'a> Iterator for Lines<'a> {
    type Item = Line<'a>;

    #[inline]
    fn next(&mut self) -> Option<Line<'a>> {
        if self.rest.is_empty() {
            return None;
        }
        let Some(end) = find_cr_lf(self.rest) else {
            let text = std::mem::take(&mut self.rest);
            return Some(Line { text, ended: false });
        };
        let (text, after) = self.rest.split_at(end);
        self.rest = &after[CR_LF.len()..];
        Some(Line { text, ended: true })
    }
}

fn find_cr_lf(text: &[u8]) -> Option<usize> {
    text.windows(CR_LF.len()).position(|pair| pair == CR_LF)
}

/// How many lines a text has.
pub fn count(text: &[u8]) -> usize {
    let Some(after_first) = text.get(1..) else {
        return 0;
    };
    // Up to 255 line ends are counted in a byte, which the compiler does for
    // sixteen places at a time.
    let runs = text[..after_first.len()].chunks(255).zip(after_first.chunks(255));
    let ends_in = |(firsts, seconds): (&[u8], &[u8])| -> u8 {
        firsts.iter().zip(seconds).map(|(&a, &b)| u8::from(a == b'\r') & u8::from(b == b'\n')).sum()
    };
    runs.map(|run| usize::from(ends_in(run))).sum::<usize>() + usize::from(!text.ends_with(CR_LF))
}

#[cfg(test)]
mod tests {
    use super::*;

    fn texts(text: &[u8]) -> Vec<(&[u8], bool)> {
        Lines::of(text).map(|line| (line.text, line.ended)).collect()
    }

    #[test]
    fn lines_end_in_cr_lf_only() {
        assert_eq!(texts(b""), vec![]);
        assert_eq!(texts(b"a\r\n"), vec![(&b"a"[..], true)]);
        assert_eq!(texts(b"a\nb\rc\r\n"), vec![(&b"a\nb\rc"[..], true)]);
        assert_eq!(texts(b"a\r\r\n\r\nb"), vec![(&b"a\r"[..], true), (b"", true), (b"b", false)]);
        assert_eq!(texts(b"a\r"), vec![(&b"a\r"[..], false)]);
    }

    #[test]
    fn a_remainder_counts_as_a_line() {
        let counts =
            [(&b""[..], 0), (b"a", 1), (b"\r\n", 1), (b"\r\n\r", 2), (b"a\r\nb\r\n", 2), (b"\n\r", 1)];
        for (text, lines) in counts {
            assert_eq!(count(text), lines);
            assert_eq!(Lines::of(text).count(), lines);
        }
    }

    #[test]
    fn many_lines_are_counted() {
        for lines in [127, 128, 255, 256, 257, 1_000, 100_000] {
            assert_eq!(count(&b"\r\n".repeat(lines)), lines);
            assert_eq!(count(&[&b"a\r\n".repeat(lines)[..], b"\r"].concat()), lines + 1);
        }
    }
}
