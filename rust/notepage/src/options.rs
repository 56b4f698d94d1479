//! What the caller of a build chooses.

/// The line ending of a page whose note has none.
#[derive(Clone, Copy, Debug, Default, PartialEq, Eq)]
pub enum Ending {
    /// U+000A
    #[default]
    Lf,
    /// U+000D
    Cr,
    /// U+000D U+000A
    CrLf,
}

/// What `&lang;` and `&rang;` stand for: U+2329 and U+232A in HTML 4.01, U+27E8 and U+27E9 in HTML5.
#[derive(Clone, Copy, Debug, Default, PartialEq, Eq)]
pub enum Names {
    /// HTML 4.01
    Html4,
    /// HTML5
    #[default]
    Html5,
}

/// What becomes a character reference. NUL is replaced in any case.
#[derive(Clone, Copy, Debug, Default, PartialEq, Eq)]
pub enum Escaping {
    /// Nothing.
    Off,
    /// `&`, `<`, `>` and `"`.
    #[default]
    Html,
    /// `'` too.
    HtmlAndApostrophes,
}

/// `'` is escaped.
pub(crate) const APOSTROPHES: u32 = 8;

impl Escaping {
    /// The number that the library takes for it.
    pub(crate) fn bits(self) -> u32 {
        match self {
            Escaping::Off => 0,
            Escaping::Html => 1,
            Escaping::HtmlAndApostrophes => 1 | APOSTROPHES,
        }
    }
}

/// The options of a build. By default nothing dangerous is allowed, lines end in LF and names are those of HTML5.
#[derive(Clone, Copy, Debug, Default, PartialEq, Eq)]
pub struct Options {
    /// Raw HTML of the note stays as it is.
    pub allow_dangerous_html: bool,
    /// URLs of any scheme stay, `javascript:` too.
    pub allow_dangerous_protocol: bool,
    /// URLs of images with any scheme stay.
    pub allow_any_img_src: bool,
    /// Where HTML is encoded `'` becomes `&#39;`, in URLs too.
    pub escape_apostrophes: bool,
    /// The line ending of a page whose note has none.
    pub ending: Ending,
    /// Which HTML's names character references have.
    pub names: Names,
}

impl Options {
    /// The number that the library takes for them.
    pub(crate) fn bits(self) -> u32 {
        let ending = match self.ending {
            Ending::Lf => 0x000,
            Ending::Cr => 0x100,
            Ending::CrLf => 0x200,
        };
        let names = match self.names {
            Names::Html5 => 0x00000,
            Names::Html4 => 0x10000,
        };
        let flags =
            [self.allow_dangerous_html, self.allow_dangerous_protocol, self.allow_any_img_src, self.escape_apostrophes];
        let flags = (0..).zip(flags).fold(0, |bits, (bit, on)| bits | u32::from(on) << bit);
        flags | ending | names
    }
}
