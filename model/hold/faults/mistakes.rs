//! A table of mistakes, and their names as people write them.

// One table of deliberate mistakes: each by its name in the code, what it does, and the rule that it changes.
macro_rules! mistakes {
    ($kind:ident, $all:ident; $($one:ident: $text:literal,)*) => {
        #[derive(Clone, Copy, Debug, PartialEq, Eq)]
        pub enum $kind {
            $($one,)*
        }

        pub const $all: &[($kind, &str)] = &[$(($kind::$one, $text),)*];

        impl $kind {
            pub fn text(self) -> &'static str {
                $all[self as usize].1
            }
        }
    };
    ($kind:ident, $all:ident, $of:ty, $right:expr; $($one:ident: $text:literal, $change:expr;)*) => {
        $crate::hold::faults::mistakes::mistakes! { $kind, $all; $($one: $text,)* }

        impl $kind {
            /// The rules with this mistake.
            fn made(self) -> &'static $of {
                static MADE: OnceLock<Vec<$of>> = OnceLock::new();
                const CHANGES: &[fn(&mut $of)] = &[$($change,)*];
                let changed = |change: &fn(&mut $of)| {
                    let mut made = $right;
                    change(&mut made);
                    made
                };
                &MADE.get_or_init(|| CHANGES.iter().map(changed).collect())[self as usize]
            }
        }
    };
}

pub(crate) use mistakes;

/// `OnlyDirectFollower` as `only-direct-follower`.
pub fn dashed(words: &str) -> String {
    let mut name = String::new();
    let mut before = 'A';
    for letter in words.chars() {
        let number = letter.is_ascii_digit() && !before.is_ascii_digit();
        if !name.is_empty() && (letter.is_ascii_uppercase() || number) {
            name.push('-');
        }
        name.push(letter.to_ascii_lowercase());
        before = letter;
    }
    name
}
