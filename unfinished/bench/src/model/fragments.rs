//! What a legal fragment means.

use super::{Asker, Halt, Value, cell_named};

fn answer(ask: &mut Asker, name: &[u8]) -> Result<Vec<u8>, Halt> {
    match ask(cell_named(name).expect("a name"))? {
        Value::Bytes(bytes) => Ok(bytes),
        Value::Number(_) => unreachable!("fragments are of texts"),
    }
}

/// The text that a fragment makes.
pub fn work(text: &[u8], ask: &mut Asker) -> Result<Vec<u8>, Halt> {
    let mut made = Vec::new();
    let mut at = 0;
    while at < text.len() {
        let item = item(&text[at..]);
        made.extend(brought(item, ask)?);
        if made.len() > 32 {
            return Err(Halt::Own(14, at));
        }
        at += item.len();
    }
    Ok(made)
}

// The first item: a byte, or all from a brace to the brace that closes it.
fn item(text: &[u8]) -> &[u8] {
    match text.iter().position(|&b| b == b'}') {
        Some(end) if text[0] == b'{' => &text[..end + 1],
        _ => &text[..1],
    }
}

fn brought(item: &[u8], ask: &mut Asker) -> Result<Vec<u8>, Halt> {
    if item.len() == 1 {
        return Ok(item.to_vec());
    }
    let names: Vec<&[u8]> = item[1..item.len() - 1].split(|b| b"?:".contains(b)).collect();
    let first = answer(ask, names[0])?;
    match names[..] {
        [_, filled, empty] => answer(ask, if first.is_empty() { empty } else { filled }),
        _ => Ok(first),
    }
}
