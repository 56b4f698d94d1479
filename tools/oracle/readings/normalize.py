"""Wrong readings of RULES R7.7 and R11.7, a URL normalized and its visits, for tools/oracle/wrong."""
JUDGE = 'normalized.rs'
VISITS = 'characters.len() - 2 * characters.windows(3).filter(kept).count()'
REFUSED = 'Err(number) => (number, String::new(), 0),'
ZEROS = 'bytes.resize(24 + self.room, 0);'
LOSSY = 'visits(&String::from_utf8_lossy(&self.text))'

# what is wrong, the text of normalized.rs, and what stands in its place
READINGS = [
    ('a triple counted as three', VISITS, 'characters.len()'),
    ('a triple counted as two', VISITS, VISITS.replace('2 *', '1 *')),
    ('a triple counted as none', VISITS, VISITS.replace('2 *', '3 *')),
    ('bytes counted', VISITS, VISITS.replace('characters.len()', 'url.len()')),
    ('hexadecimal digits alone in a triple', 'is_ascii_alphanumeric', 'is_ascii_hexdigit'),
    ('letters outside ASCII in a triple', '.all(char::is_ascii_alphanumeric)', '.all(|c| c.is_alphanumeric())'),
    ('a triple at the end not seen', 'characters.windows(3)', 'characters[..characters.len().saturating_sub(1)].windows(3)'),
    ('a percent without a triple not visited', VISITS,
     "characters.iter().filter(|c| **c != '%').count() - characters.windows(3).filter(kept).count()"),
    ('one visit of nothing', VISITS, f'({VISITS}).max(1)'),
    ('visits left after 9', REFUSED, REFUSED.replace('0)', f'if number == 9 {{ {LOSSY} }} else {{ 0 }})')),
    ('visits left after 2', REFUSED, REFUSED.replace('0)', f'if number == 2 {{ {LOSSY} }} else {{ 0 }})')),
    ('encoded for HTML', '.replace("&amp;", "&")', ''),
    ('a room that is just enough refused', 'made.len() > room', 'made.len() >= room'),
    ('64,001 bytes passed', 'text.len() > MOST_TEXT {', 'text.len() > MOST_TEXT + 1 {'),
    ('2 before 1', 'if text.len() > MOST_TEXT {', 'std::str::from_utf8(text).map_err(|_| 2u32)?;\n    if text.len() > MOST_TEXT {'),
    ('the buffer left as it was after a refusal', ZEROS, 'bytes.resize(24 + self.room, if number > 0 { 0xA5 } else { 0 });'),
]
