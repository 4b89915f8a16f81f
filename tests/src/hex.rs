//! Commented hexadecimal text, as in `examples/`.

/// Its bytes. Spaces and line ends part nothing; a comment goes from # to the line's end.
pub fn bytes_of(text: &str) -> Vec<u8> {
    let digits: String = text.lines().map(|line| line.split('#').next().unwrap_or("")).collect::<String>().split_whitespace().collect();
    let pairs = digits.as_bytes().chunks(2);
    pairs.map(|pair| u8::from_str_radix(std::str::from_utf8(pair).expect("ASCII"), 16).expect("hexadecimal digits")).collect()
}
