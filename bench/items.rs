// The items of a text in plain Rust: the same tree of words, strings and lists with their places, by
// the same rules, and the first fault from the left.
#[derive(Clone, Copy)]
pub struct Span {
    pub from: u32,
    pub to: u32,
}

pub enum Item {
    Word(Span, String),
    Str(Span, String),
    List(Span, Vec<Item>),
}

#[derive(Debug)]
pub enum Fault {
    Unclosed(u32),
    Extra(u32),
    BadByte(u32),
    BadEscape(u32),
    BadUtf8(u32),
    TooDeep(u32),
}

const MOST_DEPTH: usize = 64;

pub fn read_items(bytes: &[u8]) -> Result<Vec<Item>, Fault> {
    let mut open: Vec<(u32, Vec<Item>)> = Vec::new();
    let mut items = Vec::new();
    let mut at = 0;
    while at < bytes.len() {
        match bytes[at] {
            b' ' => at += 1,
            b'(' if open.len() == MOST_DEPTH => return Err(Fault::TooDeep(at as u32)),
            b'(' => {
                open.push((at as u32, std::mem::take(&mut items)));
                at += 1;
            }
            b')' => {
                let Some((from, outer)) = open.pop() else {
                    return Err(Fault::Extra(at as u32));
                };
                at += 1;
                let inner = std::mem::replace(&mut items, outer);
                items.push(Item::List(Span { from, to: at as u32 }, inner));
            }
            b'"' => {
                let (text, to) = read_string(bytes, at)?;
                items.push(Item::Str(Span { from: at as u32, to: to as u32 }, text));
                at = to;
            }
            0x21..=0x7e => {
                let to = word_end(bytes, at);
                let word = String::from_utf8_lossy(&bytes[at..to]).into_owned();
                items.push(Item::Word(Span { from: at as u32, to: to as u32 }, word));
                at = to;
            }
            _ => return Err(Fault::BadByte(at as u32)),
        }
    }
    match open.pop() {
        Some((from, _)) => Err(Fault::Unclosed(from)),
        None => Ok(items),
    }
}

fn word_end(bytes: &[u8], from: usize) -> usize {
    let is_of_word = |byte: &u8| matches!(byte, 0x21..=0x7e) && !matches!(byte, b'(' | b')' | b'"');
    from + bytes[from..].iter().take_while(|byte| is_of_word(byte)).count()
}

fn read_string(bytes: &[u8], from: usize) -> Result<(String, usize), Fault> {
    let mut value = Vec::new();
    let mut at = from + 1;
    loop {
        match bytes.get(at) {
            None => return Err(Fault::Unclosed(from as u32)),
            Some(b'"') => break,
            Some(b'\\') => {
                let (byte, more) = escaped(&bytes[at + 1..]).ok_or(Fault::BadEscape(at as u32))?;
                value.push(byte);
                at += 1 + more;
            }
            Some(0x00..=0x1f | 0x7f) => return Err(Fault::BadByte(at as u32)),
            Some(byte) => {
                value.push(*byte);
                at += 1;
            }
        }
    }
    let text = String::from_utf8(value).map_err(|_| Fault::BadUtf8(from as u32))?;
    Ok((text, at + 1))
}

fn escaped(rest: &[u8]) -> Option<(u8, usize)> {
    let digit = |byte: &u8| match byte {
        b'0'..=b'9' => Some(byte - b'0'),
        b'a'..=b'f' => Some(byte - b'a' + 10),
        _ => None,
    };
    match rest {
        [b'"', ..] => Some((b'"', 1)),
        [b'\\', ..] => Some((b'\\', 1)),
        [b'n', ..] => Some((b'\n', 1)),
        [b't', ..] => Some((b'\t', 1)),
        [b'x', high @ b'0'..=b'7', low, ..] => Some((digit(high)? * 16 + digit(low)?, 3)),
        _ => None,
    }
}
