"""Wrong readings of the checker's rules, for tools/oracle/wrong."""
JUDGE = 'check.rs'
LINE_ENDINGS_FIRST = '''
    let slice = |r: &Record| &text[r.from as usize..r.to as usize];
    let bad = |r: &Record| r.kind == EXIT && r.name == 3 && !["\\n", "\\r", "\\r\\n"].contains(&slice(r));
    refuse_first(5, records.iter().enumerate().filter(|(_, r)| bad(r)).map(|(place, _)| place))?;
    let elements = nesting('''
# where a slice may lie outside the text, or inside a character
ANY_SLICE = ('&self.text[element.from..element.to]', 'self.text.get(element.from..element.to).unwrap_or("")')

# what is wrong, the text of check.rs, and what stands in its place
READINGS = [
    ('text of 64,001 bytes passed', 'text.len() > 64_000', 'text.len() > 64_001'),
    ('3,201 events passed', '3_200 * record', '3_201 * record'),
    ('events cut short passed', ' || events.len() % record::LENGTH != 0', ''),
    ('the last event wins', 'places.min()', 'places.max()'),
    ('4 before 3', 'refuse_first(3,', 'nesting(&records).map_err(|place| (4, place))?;\n    refuse_first(3,'),
    ('5 before 4', '\n    let elements = nesting(', LINE_ENDINGS_FIRST),
    ('6 before 5', 'refuse_first(5,', 'refuse_first(6, tree.too_many())?;\n    refuse_first(5,'),
    ('7 before 6', 'refuse_first(6,', 'refuse_first(7, tree.undefined())?;\n    refuse_first(6,'),
    ('from inside a character passed', 'text.is_char_boundary(from)', 'from <= text.len()', *ANY_SLICE),
    ('to past the text passed', 'text.is_char_boundary(to)', '(to > text.len() || text.is_char_boundary(to))',
     *ANY_SLICE),
    ('from above to passed', ' && from <= to', '', *ANY_SLICE),
    ('four virtual spaces passed', '{ 3 } else', '{ 4 } else'),
    ('virtual spaces at any exit passed', 'record.name == CODE_CHUNK', 'record.name != 0'),
    ('extra field of an exit passed', ' && record.extra == 0;', ';'),
    ('looseness 2 passed', 'record.extra <= 1', 'record.extra <= 2'),
    ('25 columns passed', '(1..=24)', '(1..=25)'),
    ('no column passed', '(1..=24)', '(0..=24)'),
    ('a bit past the last column passed', ' >> (2 * columns) == 0', ' >> (2 * columns + 1) == 0'),
    ('65th open passed', 'open.len() == 64', 'open.len() == 65'),
    ('64th open refused', 'open.len() == 64', 'open.len() == 63'),
    ('only names above 4 count as open', 'open.len() == 64',
     'open.iter().filter(|&&k| elements[k].name > 4).count() == 64'),
    ('a blank line ending may hold 0', 'matches!(elements[newest].name, 3 | 4)', 'elements[newest].name == 3'),
    ('what 2 holds is judged as held by 2', 'elements[element].name > 2)', 'elements[element].name > 1)'),
    ('left open: at the last event', 'Err(records.len())', 'Err(records.len() - 1)'),
    ('any exit closes the newest', 'newest.name != record.name || ', ''),
    ('what is required may be missing', ' || !ended(&newest.left)', ''),
    ('second fence with an info', '29 if nth == 0 =>', '29 if nth < 2 =>'),
    ('a value in an unordered list', '24 => "25"', '24 => "[26] 25"'),
    ('a list without an item', '"23 23*"', '"23*"'),
    ('label text not required in a call', '== Some(&FOOTNOTE_CALL) => "48"', '== Some(&FOOTNOTE_CALL) => "[48]"'),
    ('49 and 52 together', '"47 [49/52]"', '"47 [49] [52]"'),
    ('more than one row in a head', '58 => "60"', '58 => "60 60*"'),
    ('CR LF refused', '"\\n" | "\\r" | "\\r\\n"', '"\\n" | "\\r"'),
    ('value of ten digits passed', 'slice.len() <= 9', 'slice.len() <= 10'),
    ('each sequence has six bytes at most', 'ATX_SEQUENCE if self.first_of_its_name(element)', 'ATX_SEQUENCE'),
    ('hexadecimal digits after 9', 'slice.len() <= 7 && digits(slice, 10)', 'slice.len() <= 7 && digits(slice, 16)'),
    ('seven hexadecimal digits', 'slice.len() <= 6 && digits', 'slice.len() <= 7 && digits'),
    ('nbsp refused', 'name == slice', 'name == slice && name != "nbsp"'),
    ('the names of HTML5', 'names().any(|name| name == slice)', 'markdown::util::character_reference::decode_named(slice, true).is_some()'),
    ('a name in another case', 'name == slice', 'name.eq_ignore_ascii_case(slice)'),
    ('a name cut short', 'name == slice', 'name.starts_with(slice)'),
    ('a name and more', 'name == slice', 'slice.starts_with(name)'),
    ('5 at the enter', '.map(|element| element.exit)', '.map(|element| element.enter)'),
    ('129th definition passed', 'nth(128)', 'nth(129)'),
    ('65th footnote definition passed', 'nth(64)', 'nth(65)'),
    ('7 at the exit', 'filter(undefined).map(|element| element.enter)',
     'filter(undefined).map(|element| element.exit)'),
    ('48 before 52', 'self.child(element, REFERENCE_STRING).or_else(text)?',
     'text().or_else(|| self.child(element, REFERENCE_STRING))?'),
    ('a label is sought in spite of 49', '!seeks || self.child(element, RESOURCE).is_some()', '!seeks'),
    ('a call takes a definition', 'FOOTNOTE_CALL => &[', '0 => &['),
    ('labels compared as they are', 'identity(label) == identity(sought)', 'label == sought'),
    ('other letters in upper case too', 'identity(label) == identity(sought)',
     'identity(label).to_uppercase() == identity(sought).to_uppercase()'),
]
