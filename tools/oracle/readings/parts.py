"""Wrong readings of RULES R15.9 to R15.12, a bundle read in parts, for tools/oracle/wrong."""
JUDGE = 'parts.rs'
JOINED = 'self.bytes[..self.parts.iter().sum()].to_vec()'


def joined(at_each_part):
    return ('{ let (mut at, mut joined) = (0, Vec::new()); for &part in &self.parts {'
            f'let bytes = &self.bytes[at..at + part]; at += part; {at_each_part} }} joined }}')


BLOCKS = 'match read_blocks(joined) {'
SHORT = 'if text_room < 64_000 || event_room < 64_000 {'
FAULT = 'Err((number, place)) => Answer'
MORE = 'Ok(_) if !ended => return None,'
TEN = 'Answer::Refused { number: 10, place: 0 }'
ANSWERED = 'Some(answer) => answered(&answer, self.text_room, self.event_room),'


def left(number_and_place, leave):
    return (f'Some(answer @ Answer::Refused {{ {number_and_place} }}) if self.text_room.min(self.event_room) >= 64_000 => {{'
            'let mut left = answered(&answer, self.text_room, self.event_room); let joined = self.joined();'
            f'{leave} left }} {ANSWERED}')


TEXT_LEFT = 'if joined.len() > 2 * BLOCK { left[24..524].copy_from_slice(&joined[BLOCK..][PAYLOAD]); }'
EVENTS_LEFT = '''
    if let Some(Ok((length, _))) = joined.get(..BLOCK).map(header) {
        let at = block_count(length, 0) * BLOCK;
        if joined.len() > at + BLOCK { left[24 + self.text_room..][..500].copy_from_slice(&joined[at..][PAYLOAD]); }
    }'''
# what is wrong, the text of parts.rs, and what stands in its place
READINGS = [
    ('the rest forgotten at the border of a part', JOINED,
     joined('joined.truncate(joined.len() / BLOCK * BLOCK); joined.extend(bytes);')),
    ('the rest forgotten by an empty part', JOINED,
     joined('if part == 0 { joined.truncate(joined.len() / BLOCK * BLOCK); } joined.extend(bytes);')),
    ('one block at most from a part', JOINED,
     joined('let most = (joined.len() / BLOCK + 1) * BLOCK; joined.extend(bytes); joined.truncate(most);')),
    ('bytes behind the parts handed over', JOINED, 'self.bytes.to_vec()'),
    ('calls behind the end go on', JOINED,
     '[&self.bytes[..self.parts.iter().sum()], &[0x5A; 3][..self.said as usize / 3 * 3]].concat()'),
    ('an empty part taken for the end', JOINED,
     'self.bytes[..self.parts.iter().take_while(|&&part| part > 0).sum()].to_vec()',
     'read(&self.joined(), self.said', 'read(&self.joined(), self.parts.contains(&0) || self.said'),
    ('a fault answered before the last byte of its block', BLOCKS,
     'match read_blocks(&[joined, &[0][..usize::from(joined.len() % BLOCK == 511)]].concat()) {'),
    ('a fault answered with the byte behind its block', BLOCKS,
     'match read_blocks(&joined[..joined.len() - usize::from(!ended && !joined.is_empty())]) {'),
    ('a fault answered only at the end', FAULT, f'Err(_) if !ended => return None,\n        {FAULT}'),
    ('a cut block judged at the end', BLOCKS,
     'match read_blocks(&[joined, &vec![0; if ended { joined.len().next_multiple_of(BLOCK) - joined.len() } else { 0 }]].concat()) {'),
    ('lengths outside Sizes only at the end', FAULT,
     'Err((10, 0)) if !ended && judge(&joined[..BLOCK], 0, word(joined, 0), 1, 8).is_ok() => return None,\n        ' + FAULT),
    ('text of 64,001 bytes passed', 'length > 64_000', 'length > 64_001'),
    ('3,201 events passed', 'count > 3_200', 'count > 3_201'),
    ('bytes too many refused at once', MORE, 'Ok(_) if !ended && joined.len() > BLOCK && header(&joined[..BLOCK])'
     f'.is_ok_and(|(length, count)| joined.len() > block_count(length, count) * BLOCK) => {TEN},\n        {MORE}'),
    ('blocks past the count judged', 'blocks.take(block_count(length, count) - 1)', 'blocks'),
    ('kinds by the blocks that came', 'if text.len() < length {',
     'if number < (joined.len() / BLOCK).saturating_sub(count.div_ceil(25)) {'),
    ('the bundle answered without an end', MORE, 'Ok(_) if !ended && length_fault(joined) => return None,'),
    ('more wanted at an end without bytes', MORE, 'Ok(_) if !ended || joined.is_empty() => return None,'),
    ('every fault of a length before one of a block', 'let answer =',
     f'if ended && length_fault(joined) {{ return Some({TEN}); }}\n    let answer ='),
    ('no whole blocks before a fault of a block', 'let answer =',
     f'if ended && joined.len() % BLOCK != 0 {{ return Some({TEN}); }}\n    let answer ='),
    ('another count before a fault of a block', 'let answer =',
     f'if ended && joined.len() % BLOCK == 0 && length_fault(joined) {{ return Some({TEN}); }}\n    let answer ='),
    ('a fault of a length at the last block', f'length_fault(joined) => {TEN}',
     'length_fault(joined) => Answer::Refused { number: 10, place: (joined.len() / BLOCK) as u32 }'),
    ('1 behind a fault of a block', SHORT,
     'if read_blocks(joined).is_ok() && (text_room < 64_000 || event_room < 64_000) {'),
    ('1 not by an empty part', SHORT, 'if !joined.is_empty() && (text_room < 64_000 || event_room < 64_000) {'),
    ('1 not before the first block is there', SHORT,
     'if joined.len() >= BLOCK && (text_room < 64_000 || event_room < 64_000) {'),
    ('1 only at the end', SHORT, 'if ended && (text_room < 64_000 || event_room < 64_000) {'),
    ('a text buffer of 63,999 bytes passed', SHORT, 'if text_room < 63_999 || event_room < 64_000 {'),
    ('an event buffer of 63,999 bytes passed', SHORT, 'if text_room < 64_000 || event_room < 63_999 {'),
    ('text left after a fault of a length', ANSWERED, left('number: 10, place: 0', TEXT_LEFT)),
    ('events left after a fault of a length', ANSWERED, left('number: 10, place: 0', EVENTS_LEFT)),
    ('text left after a fault of a block', ANSWERED, left('place: 2.., ..', TEXT_LEFT)),
    ('events left after a fault of a block', ANSWERED, left('place: 4.., ..', EVENTS_LEFT)),
]
# none of them is held to the whole-file reader
HELD = 'hold_to_whole(&self.joined(), self.text_room, self.event_room);'
READINGS = [(*reading, HELD, '') for reading in READINGS]
