"""Wrong readings of RULES R15.8, a bundle written, for tools/oracle/wrong."""
JUDGE = 'writes.rs'
PACKED = 'let bundle = pack(text, events, edition);'
ZEROS = 'answer.resize(24 + self.room, 0);'


def packed(then):
    return f'let mut bundle = pack(text, events, edition); {then}'


def each_block(change):
    return packed(f'for block in bundle.chunks_mut(512).skip(1) {{ {change} bundle::mend(block); }}')


REST_LEFT = '''
    let used = text.len() % 500;
    if text.len() > 500 && used > 0 {
        let at = 512 * (text.len() / 500 + 1);
        bundle.copy_within(at - 504 + used..at - 4, at + 8 + used);
        bundle::mend(&mut bundle[at..at + 512]);
    }'''
# what is wrong, the text of writes.rs, and what stands in its place
READINGS = [
    ('text of 64,001 bytes passed', 'text.len() > 64_000 ||', 'text.len() > 64_001 ||'),
    ('3,201 events passed', 'events.len() > 3_200 * RECORD ||', 'events.len() > 3_201 * RECORD ||'),
    ('events cut short passed', ' || events.len() % RECORD != 0', ''),
    ('9 before 1', 'if text.len() > 64_000', 'if pack(text, events, edition).len() > room { return Err(9); }\n    if text.len() > 64_000'),
    ('the text judged', PACKED, f'if std::str::from_utf8(text).is_err() {{ return Err(2); }}\n    {PACKED}'),
    ('the events judged', PACKED, f'if events.first().is_some_and(|&kind| kind > 1) {{ return Err(3); }}\n    {PACKED}'),
    ('a room that is just enough refused', 'bundle.len() > room', 'bundle.len() >= room'),
    ('a room that is one byte short passed', 'bundle.len() > room', 'bundle.len() > room + 1'),
    ('9 at the length that is needed', '[number, bundle.len() as u32,',
     '[number, if number == 9 { pack(&self.text, &self.events, 0).len() } else { bundle.len() } as u32,'),
    ('the edition in the answer', ' 0, 0, self.room as u32', ' 0, self.edition, self.room as u32'),
    ('the buffer left as it was after 1', ZEROS, 'answer.resize(24 + self.room, if number == 1 { 0xA5 } else { 0 });'),
    ('the buffer left as it was after 9', ZEROS, 'answer.resize(24 + self.room, if number == 9 { 0xA5 } else { 0 });'),
    ('the buffer left as it was behind the bundle', ZEROS,
     'answer.resize(24 + self.room, if number == 0 { 0xA5 } else { 0 });'),
    ('the first blocks left after 9', ZEROS,
     'if number == 9 { answer.extend(pack(&self.text, &self.events, self.edition)); }\n        ' + ZEROS),
    ('a text block for no text', PACKED,
     packed('if text.is_empty() { bundle = pack(&[0], events, edition); bundle[8] = 0; bundle::mend(&mut bundle[..512]); }')),
    ('the edition in the first block alone', PACKED, each_block('block[..4].fill(0);')),
    ('block numbers of one byte', PACKED, each_block('block[5] = 0;')),
    ('event blocks numbered from 0', PACKED,
     each_block('if block[6] == 3 { block[4] = block[4].wrapping_sub(text.len().div_ceil(500) as u8 + 1); }')),
    ('the rest of a text block left from the block before', PACKED, packed(REST_LEFT)),
]
