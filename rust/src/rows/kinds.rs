//! The kinds of token rows and node rows.

/// Declares an enum whose cases are numbered from 1 in order, with the number's case and the case's name.
macro_rules! kinds {
    ($(#[$doc:meta])* $name:ident { $($case:ident $plain:literal),* $(,)? }) => {
        $(#[$doc])*
        #[derive(Debug, Clone, Copy, PartialEq, Eq, Hash)]
        pub enum $name { $($case),* }

        impl $name {
            const ALL: &'static [Self] = &[$(Self::$case),*];

            /// The kind with this number, counted from 1.
            pub fn from_number(number: u32) -> Option<Self> {
                let at = number.checked_sub(1)?;
                Self::ALL.get(at as usize).copied()
            }

            /// The number that rows and refusals hold.
            pub fn number(self) -> u32 {
                self as u32 + 1
            }

            /// The kind's name, as in the original's types.
            pub fn name(self) -> &'static str {
                match self { $(Self::$case => stringify!($case)),* }
            }

            /// The kind in plain words.
            pub fn words(self) -> &'static str {
                match self { $(Self::$case => $plain),* }
            }
        }
    };
}

kinds! {
    /// The kind of a token.
    Kind {
        Entry "`$ENTRY`",
        Extern "`$EXTRN`",
        Identifier "a name",
        Variable "a variable",
        Number "a number",
        Char "a character",
        LBrace "`{`",
        RBrace "`}`",
        LParen "`(`",
        RParen "`)`",
        LAngle "`<`",
        RAngle "`>`",
        Comma "`,`",
        Colon "`:`",
        Equals "`=`",
        Semicolon "`;`",
        Eof "the end of the file",
    }
}

kinds! {
    /// The kind of a node.
    NodeKind {
        Declaration "a declaration",
        Name "a declared name",
        Function "a function",
        Sentence "a sentence",
        Condition "a condition",
        Terms "terms",
        EndingBlock "a block that ends its sentence",
        ConditionBlock "a condition's block",
        Identifier "a name",
        Number "a number",
        Char "a character",
        Variable "a variable",
        Bracket "a bracket",
        Call "a call",
    }
}

#[cfg(test)]
mod tests {
    use super::*;

    #[test]
    fn numbers_are_those_of_the_rows() {
        assert_eq!(Kind::Entry.number(), 1);
        assert_eq!(Kind::Eof.number(), 17);
        assert_eq!(NodeKind::Declaration.number(), 1);
        assert_eq!(NodeKind::Call.number(), 14);
        for number in 1..=17 {
            assert_eq!(Kind::from_number(number).map(Kind::number), Some(number));
        }
        assert_eq!(Kind::from_number(0), None);
        assert_eq!(Kind::from_number(18), None);
        assert_eq!(NodeKind::from_number(15), None);
    }
}
