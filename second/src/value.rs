//! Types and values: a value is a type, whether it is present, and a word.

pub const UNIT: u8 = 1;
pub const BOOL: u8 = 2;
pub const INT: u8 = 3;
/// What is added to a plain type for maybe of it.
pub const MAYBE: u8 = 4;

/// Whether the type is unit, bool or int.
pub fn is_plain(ty: u8) -> bool {
    matches!(ty, UNIT | BOOL | INT)
}

/// Whether it is any of the six types.
pub fn is_type(ty: u8) -> bool {
    is_plain(ty) || is_maybe(ty)
}

/// Whether the type is maybe of a plain type.
pub fn is_maybe(ty: u8) -> bool {
    ty > MAYBE && is_plain(ty - MAYBE)
}

/// A value of the language.
#[derive(Clone, Copy, Debug, Default, PartialEq, Eq)]
pub struct Value {
    pub ty: u8,
    pub present: bool,
    pub word: i32,
}

impl Value {
    pub fn int(word: i32) -> Value {
        Value { ty: INT, present: true, word }
    }

    pub fn bool(truth: bool) -> Value {
        Value { ty: BOOL, present: true, word: truth as i32 }
    }

    /// The absent value of maybe of a plain type.
    pub fn absent(plain: u8) -> Value {
        Value { ty: plain + MAYBE, present: false, word: 0 }
    }

    /// A plain value wrapped as the present value of maybe of its type.
    pub fn just(self) -> Value {
        Value { ty: self.ty + MAYBE, ..self }
    }

    /// The plain value within a present maybe; none where it is absent.
    pub fn taken(self) -> Option<Value> {
        self.present.then(|| Value { ty: self.ty - MAYBE, ..self })
    }

    /// Whether a bool is true.
    pub fn truth(self) -> bool {
        self.word != 0
    }

    /// The value named by a type, a present field and a word, if they obey the rule of values.
    pub fn from_parts(ty: u8, present: u16, word: i32) -> Option<Value> {
        let plain = if is_maybe(ty) { ty - MAYBE } else { ty };
        let word_fits = match plain {
            UNIT => word == 0,
            BOOL => word == 0 || word == 1,
            INT => true,
            _ => false,
        };
        let valid = match present {
            1 => word_fits,
            0 => is_maybe(ty) && word == 0,
            _ => false,
        };
        valid.then_some(Value { ty, present: present == 1, word })
    }

    /// The 8 bytes of a value.
    pub fn bytes(self) -> [u8; 8] {
        let word = self.word.to_le_bytes();
        [self.ty, self.present as u8, 0, 0, word[0], word[1], word[2], word[3]]
    }
}
