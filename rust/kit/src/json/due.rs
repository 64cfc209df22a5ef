//! What may stand at a place of a JSON file.

/// What is due next.
#[derive(Clone, Copy, Debug, PartialEq, Eq)]
pub(super) enum Due {
    /// A value: the file's own, or a key's.
    Value,
    /// The first value of an array, or its end.
    FirstItem,
    /// A further value of an array.
    NextItem,
    /// The first key of an object, or its end.
    FirstKey,
    /// A further key of an object.
    NextKey,
    /// The colon after a key.
    Colon,
    /// A comma after a value of an array, or the array's end.
    ItemEnd,
    /// A comma after a value of an object, or the object's end.
    MemberEnd,
    /// The end of the file.
    FileEnd,
}

impl Due {
    /// The start of a message about something else that stands there.
    pub(super) fn called(self) -> &'static str {
        match self {
            Self::Value => "a value is expected here",
            Self::FirstItem => "a value or `]` is expected here",
            Self::NextItem => "a value is expected after `,`",
            Self::FirstKey => "a key or `}` is expected here",
            Self::NextKey => "a key is expected after `,`",
            Self::Colon => "`:` is expected after a key",
            Self::ItemEnd => "`]` or `,` is expected here",
            Self::MemberEnd => "`}` or `,` is expected here",
            Self::FileEnd => "the end of the file is expected here",
        }
    }

    pub(super) fn is_value(self) -> bool {
        matches!(self, Self::Value | Self::FirstItem | Self::NextItem)
    }

    pub(super) fn is_key(self) -> bool {
        matches!(self, Self::FirstKey | Self::NextKey)
    }
}
