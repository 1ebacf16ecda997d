//! Reads an expression from a text [01, Expressions].

use crate::naming::name_at;
use crate::operators::{groups, level, Op, OPS};
use crate::trees::{Node, Tree};

const MOST_OPEN: usize = 12;

/// The longest expression that starts at `at`, and the place after it.
pub fn expression(text: &[u8], at: usize) -> Option<(Tree<&[u8]>, usize)> {
    let mut reader = Reader { text, at, open: 0, nodes: Vec::new() };
    reader.operators()?;
    Some((Tree { nodes: reader.nodes }, reader.at))
}

struct Reader<'a> {
    text: &'a [u8],
    at: usize,
    open: usize,
    nodes: Vec<Node<&'a [u8]>>,
}

impl<'a> Reader<'a> {
    fn push(&mut self, node: Node<&'a [u8]>) -> usize {
        self.nodes.push(node);
        self.nodes.len() - 1
    }

    /// Atoms with operators between them. An operator waits, with its left operand, until what follows its right one
    /// binds looser, or equally and groups to the left; none waits beside one of its level that groups to neither side.
    fn operators(&mut self) -> Option<usize> {
        let mut waiting: Vec<(Op, usize)> = Vec::new();
        let mut last = self.atom()?;
        while let Some((op, after)) = self.operator() {
            let (own, (to_left, to_right)) = (level(op), groups(level(op)));
            let is_done = |earlier: Op| level(earlier) > own || (level(earlier) == own && to_left);
            while let Some((earlier, left)) = waiting.pop_if(|(earlier, _)| is_done(*earlier)) {
                last = self.push(Node::Two(earlier, left, last));
            }
            if waiting.last().is_some_and(|(earlier, _)| level(*earlier) == own) && !to_right {
                return None;
            }
            waiting.push((op, last));
            self.at = after;
            last = self.atom()?;
        }
        for (op, left) in waiting.into_iter().rev() {
            last = self.push(Node::Two(op, left, last));
        }
        Some(last)
    }

    /// The operator that comes next, and the place after it; up to one space on each side.
    fn operator(&self) -> Option<(Op, usize)> {
        let at = self.at + usize::from(self.peek(self.at) == b' ');
        let rest = self.text.get(at..)?;
        let signs = OPS.iter().filter(|row| rest.starts_with(row.2));
        let (op, _, sign, _) = signs.max_by_key(|row| row.2.len())?;
        let after = at + sign.len();
        Some((*op, after + usize::from(self.peek(after) == b' ')))
    }

    fn atom(&mut self) -> Option<usize> {
        match self.peek(self.at) {
            b'0'..=b'9' => self.number(),
            b'(' => self.inner(1),
            b'!' if self.peek(self.at + 1) == b'(' => {
                let operand = self.inner(2)?;
                Some(self.push(Node::Not(operand)))
            }
            _ => self.name(),
        }
    }

    /// The expression in parentheses, after an opening of `length` bytes.
    fn inner(&mut self, length: usize) -> Option<usize> {
        if self.open == MOST_OPEN {
            return None;
        }
        self.at += length;
        self.open += 1;
        let inner = self.operators()?;
        if self.peek(self.at) != b')' {
            return None;
        }
        self.at += 1;
        self.open -= 1;
        Some(inner)
    }

    fn number(&mut self) -> Option<usize> {
        let digits = self.digits();
        if digits.len() > 10 || (digits.len() > 1 && digits[0] == b'0') {
            return None;
        }
        let value = digits.iter().fold(0, |value, digit| 10 * value + u64::from(digit - b'0'));
        let number = u32::try_from(value).ok()?;
        Some(self.push(Node::Number(number)))
    }

    fn name(&mut self) -> Option<usize> {
        let name = name_at(&self.text[self.at..])?;
        self.at += name.len();
        Some(self.push(Node::Name(name)))
    }

    /// Takes the digits from here on.
    fn digits(&mut self) -> &'a [u8] {
        let rest = &self.text[self.at..];
        let length = rest.iter().position(|byte| !byte.is_ascii_digit()).unwrap_or(rest.len());
        self.at += length;
        &rest[..length]
    }

    /// The byte at a place; LF, which no line holds, beyond the end.
    fn peek(&self, at: usize) -> u8 {
        self.text.get(at).copied().unwrap_or(b'\n')
    }
}

#[cfg(test)]
mod tests {
    use super::*;

    /// The expression with every operator in brackets, if the whole text is one.
    fn bracketed(text: &str) -> Option<String> {
        fn shown(tree: &Tree<&[u8]>, node: usize) -> String {
            match tree.nodes[node] {
                Node::Number(number) => number.to_string(),
                Node::Name(name) => String::from_utf8_lossy(name).into_owned(),
                Node::Not(operand) => format!("[!{}]", shown(tree, operand)),
                Node::Two(op, left, right) => {
                    let sign = String::from_utf8_lossy(op.sign());
                    format!("[{}{sign}{}]", shown(tree, left), shown(tree, right))
                }
            }
        }
        let (tree, after) = expression(text.as_bytes(), 0)?;
        (after == text.len()).then(|| shown(&tree, tree.root()))
    }

    #[test]
    fn grouping() {
        let grouped = |text: &str| bracketed(text).unwrap_or_default();
        assert_eq!(grouped("2+3*4"), "[2+[3*4]]");
        assert_eq!(grouped("7-2 -1"), "[[7-2]-1]");
        assert_eq!(grouped("7-(2-1)"), "[7-[2-1]]");
        assert_eq!(grouped("a<b+1&& c>=2||!(d==e)"), "[[[a<[b+1]]&&[c>=2]]||[![d==e]]]");
        assert_eq!(grouped("a||b&&c||d"), "[[a||[b&&c]]||d]");
        assert_eq!(grouped("(a==b)==(((c)))"), "[[a==b]==c]");
        assert_eq!(grouped("2^3^4"), "[2^[3^4]]");
        assert_eq!(grouped("(2^3)^4 ^5"), "[[2^3]^[4^5]]");
        assert_eq!(grouped("a*2^3^4*b"), "[[a*[2^[3^4]]]*b]");
        assert_eq!(grouped("2^a*3"), "[[2^a]*3]");
        assert_eq!(grouped("8/4/2*3%5"), "[[[[8/4]/2]*3]%5]");
        assert_eq!(grouped("8/(4/2)-7 % 3 ^ 2"), "[[8/[4/2]]-[7%[3^2]]]");
        assert_eq!(grouped("a+b^2==c%2&&d<e"), "[[[a+[b^2]]==[c%2]]&&[d<e]]");
    }

    #[test]
    fn wrong_forms() {
        let wrong = [
            "",
            "a==b==c",
            "x&&a==b==c",
            "1  + 2",
            "( 1)",
            "(1 )",
            "! (a)",
            "!a",
            "01",
            "4294967296",
            "bits",
            "a12345678",
            "1a",
            "1+",
            "+1",
            "(1",
            "1)",
            "a=b",
            "a< =b",
            "a&b",
            "2^",
            "^2",
            "2^^3",
            "2**3",
            "7//2",
            "7%/2",
            "2  ^3",
            "2^ ",
        ];
        for text in wrong {
            assert_eq!(bracketed(text), None, "{text}");
        }
        let nested = |open: usize| format!("{}1{}", "(".repeat(open), ")".repeat(open));
        assert!(bracketed(&nested(12)).is_some() && bracketed(&nested(13)).is_none());
        assert!(bracketed("4294967295").is_some());
    }
}
