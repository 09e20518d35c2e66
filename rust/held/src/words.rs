//! Holds the comparison of a listing's fixed words: each of them, and every
//! text that is near one of them.

/// Document 01, "Listing program": the fixed words and their numbers.
const WORDS: [(&[u8], u8); 4] = [
    (b"conditions 1\n", 1),
    (b"new", 2),
    (b"carried", 3),
    (b"refused ", 4),
];

fn number(text: &[u8]) -> u8 {
    let same = WORDS.iter().find(|(word, _)| *word == text);
    same.map_or(0, |&(_, number)| number)
}

/// Every word, all its beginnings and ends, every change of one byte, and every
/// byte put behind it. The answer is how many texts were told alike, or words
/// on the first that was not.
pub fn hold() -> Result<u64, String> {
    let mut told = 0;
    let mut check = |text: &[u8]| {
        let answer = bravolith::word(text);
        if answer != number(text) {
            return Err(format!("bravolith_word answers {answer} to {text:?}"));
        }
        told += 1;
        Ok(())
    };
    for (word, _) in WORDS {
        for at in 0..=word.len() {
            check(&word[..at])?;
            check(&word[at..])?;
        }
        for byte in 0..=255 {
            let mut text = word.to_vec();
            text.push(byte);
            check(&text)?;
            text.pop();
            for at in 0..text.len() {
                let before = text[at];
                text[at] = byte;
                check(&text)?;
                text[at] = before;
            }
        }
    }
    Ok(told)
}
