//! What the numbers, enumerations and structures of the library have alike.

/// Constants of one width.
macro_rules! constants {
    ($width:ty: $($(#[$each:meta])* $name:ident = $number:literal;)*) => {
        $($(#[$each])* pub const $name: $width = $number;)*
    };
}

/// The statuses, and a constant for each.
macro_rules! statuses {
    ($(#[$of:meta])* $name:ident { $($(#[$each:meta])* $member:ident $constant:ident = $number:literal;)* }) => {
        $(#[$of])*
        #[derive(Clone, Copy, Debug, PartialEq, Eq, PartialOrd, Ord, Hash)]
        #[cfg_attr(feature = "serde", derive(serde::Serialize, serde::Deserialize), serde(rename_all = "SCREAMING_SNAKE_CASE"))]
        #[non_exhaustive]
        #[repr(u32)]
        pub enum $name {
            $($(#[$each])* $member = $number,)*
        }

        impl $name {
            /// All of them, by number.
            pub const ALL: [$name; [$($number),*].len()] = [$($name::$member),*];
        }

        $(pub const $constant: u32 = $number;)*
    };
}

/// Structures as C has them, of numbers alone, which calls fill in.
macro_rules! structures {
    ($($(#[$of:meta])* $name:ident { $($field:ident: $kind:ty,)* })*) => {
        $($(#[$of])*
        #[repr(C)]
        #[derive(Clone, Copy, Debug)]
        pub struct $name {
            $(pub $field: $kind,)*
        }

        impl $name {
            /// What it has before a call fills it in.
            // SAFETY: of numbers alone, it may have any bytes.
            pub const EMPTY: $name = unsafe { std::mem::transmute([0_u8; std::mem::size_of::<$name>()]) };
        })*
    };
}

/// An enumeration of numbers of eight bits, each with its word; and, where something is said of other numbers, which one has a
/// number.
macro_rules! numbered {
    ($(#[$of:meta])* $name:ident { $($(#[$each:meta])* $member:ident = $number:literal, $word:literal;)* }
        $($(#[$otherwise:meta])* |$given:ident| -> $error:ty { $answer:expr })?) => {
        #[derive(Clone, Copy, Debug, PartialEq, Eq, PartialOrd, Ord, Hash)]
        #[cfg_attr(feature = "serde", derive(serde::Serialize, serde::Deserialize))]
        #[repr(u8)]
        $(#[$of])*
        pub enum $name {
            $($(#[$each])* $member = $number,)*
        }

        impl $name {
            /// All of them, by number.
            pub const ALL: [$name; [$($word),*].len()] = [$($name::$member),*];
        }

        impl std::fmt::Display for $name {
            fn fmt(&self, out: &mut std::fmt::Formatter<'_>) -> std::fmt::Result {
                out.pad(match self {
                    $($name::$member => $word,)*
                })
            }
        }

        $($(#[$otherwise])*
        impl TryFrom<u8> for $name {
            type Error = $error;

            fn try_from($given: u8) -> Result<$name, $error> {
                let found = $name::ALL.into_iter().find(|it| *it as u8 == $given);
                found.ok_or($answer)
            }
        })?
    };
}

/// Whether bits of a field are set, with a call for each.
macro_rules! flags {
    ($of:ty, $field:ident: $($(#[$each:meta])* $name:ident $bit:path;)*) => {
        impl $of {
            $($(#[$each])*
            pub fn $name(&self) -> bool {
                self.$field & $bit != 0
            })*
        }
    };
}

pub(crate) use {constants, flags, numbered, statuses, structures};
