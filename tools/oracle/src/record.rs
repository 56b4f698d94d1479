// The event record of RULES R2, and the crate's names in its order.

pub const LENGTH: usize = 20;
pub const ENTER: u8 = 0;
pub const EXIT: u8 = 1;

#[derive(Clone, Copy, Debug, Default, PartialEq)]
pub struct Record {
    pub kind: u8,
    pub name: u8,
    pub before: u8,
    pub after: u8,
    pub from: u32,
    pub to: u32,
    pub extra: u64,
}

impl Record {
    pub fn enter(name: u8) -> Self {
        Record { kind: ENTER, name, ..Record::default() }
    }

    pub fn exit(name: u8, from: usize, to: usize) -> Self {
        Record { kind: EXIT, name, from: from as u32, to: to as u32, ..Record::default() }
    }

    pub fn write(&self, to: &mut Vec<u8>) {
        to.extend([self.kind, self.name, self.before, self.after]);
        to.extend(self.from.to_le_bytes());
        to.extend(self.to.to_le_bytes());
        to.extend(self.extra.to_le_bytes());
    }

    /// The record that these 20 bytes are.
    pub fn read(bytes: &[u8]) -> Self {
        Record {
            kind: bytes[0],
            name: bytes[1],
            before: bytes[2],
            after: bytes[3],
            from: u32::from_le_bytes(bytes[4..8].try_into().unwrap()),
            to: u32::from_le_bytes(bytes[8..12].try_into().unwrap()),
            extra: u64::from_le_bytes(bytes[12..20].try_into().unwrap()),
        }
    }
}

pub fn written(records: &[Record]) -> Vec<u8> {
    let mut bytes = Vec::with_capacity(records.len() * LENGTH);
    records.iter().for_each(|record| record.write(&mut bytes));
    bytes
}

/// The whole records of these bytes.
pub fn read(bytes: &[u8]) -> Vec<Record> {
    bytes.chunks_exact(LENGTH).map(Record::read).collect()
}

/// The names of RULES R2.6, 0 to 65, as one of the two libraries has them. For 0 a name that no handler has.
macro_rules! names {
    ($library:ident) => {{
        use $library::event::Name::*;
        [
            LinePrefix,
            SpaceOrTab,
            BlockQuotePrefix,
            LineEnding,
            BlankLineEnding,
            Data,
            CharacterEscapeValue,
            CharacterReference,
            CharacterReferenceMarker,
            CharacterReferenceMarkerNumeric,
            CharacterReferenceMarkerHexadecimal,
            CharacterReferenceValue,
            Paragraph,
            HeadingAtx,
            HeadingAtxSequence,
            HeadingAtxText,
            HeadingSetext,
            HeadingSetextText,
            HeadingSetextUnderlineSequence,
            ThematicBreak,
            BlockQuote,
            ListOrdered,
            ListUnordered,
            ListItem,
            ListItemPrefix,
            ListItemMarker,
            ListItemValue,
            CodeIndented,
            CodeFenced,
            CodeFencedFence,
            CodeFencedFenceInfo,
            CodeFencedFenceMeta,
            CodeFlowChunk,
            CodeText,
            CodeTextData,
            HtmlFlow,
            HtmlFlowData,
            HtmlText,
            HtmlTextData,
            Emphasis,
            Strong,
            HardBreakEscape,
            HardBreakTrailing,
            AutolinkEmail,
            AutolinkProtocol,
            Link,
            Image,
            Label,
            LabelText,
            Resource,
            ResourceDestinationString,
            ResourceTitleString,
            ReferenceString,
            Definition,
            DefinitionLabelString,
            DefinitionDestinationString,
            DefinitionTitleString,
            GfmTable,
            GfmTableHead,
            GfmTableBody,
            GfmTableRow,
            GfmTableCell,
            GfmFootnoteCall,
            GfmFootnoteDefinition,
            GfmFootnoteDefinitionPrefix,
            GfmFootnoteDefinitionLabelString,
        ]
    }};
}
pub(crate) use names;
