//! Why there is nothing.

use std::fmt;

/// Makes the enum of a list, each line with a number, a name and, where the refusal has a value,
/// how that is said.
macro_rules! reasons {
    ($($number:literal $name:ident $($said:literal)?,)*) => {
        /// The refusals, under the names that `refusal_name` gives for their numbers.
        #[derive(Clone, Copy, Debug, PartialEq, Eq, Hash)]
        #[non_exhaustive]
        pub enum Reason {
            $($name,)*
            /// A number that no refusal above has.
            Unknown(u32),
        }

        impl Reason {
            pub fn of(number: u32) -> Reason {
                match number {
                    $($number => Reason::$name,)*
                    _ => Reason::Unknown(number),
                }
            }

            pub fn number(self) -> u32 {
                match self {
                    $(Reason::$name => $number,)*
                    Reason::Unknown(number) => number,
                }
            }

            pub fn name(self) -> &'static str {
                match self {
                    $(Reason::$name => stringify!($name),)*
                    Reason::Unknown(_) => "unknown",
                }
            }
        }

        /// A value, said as what it is to that refusal.
        fn say_value(f: &mut fmt::Formatter, reason: Reason, value: u64) -> fmt::Result {
            match reason {
                $($(Reason::$name => write!(f, $said, value),)?)*
                Reason::Unknown(_) => write!(f, " with value {value}"),
                _ => Ok(()),
            }
        }
    };
}

reasons! {
    1 InvalidFileHeader,
    2 InvalidProgramHeader,
    3 InvalidSectionHeader,
    4 StringTooLong,
    5 OutOfBounds,
    6 InvalidSize,
    7 Overlap,
    8 SectionNotInOrder,
    9 NoSectionNameStringTable,
    10 InvalidDynamicSectionTable,
    11 InvalidAlignment,
    12 NoStringTable,
    13 NoDynamicStringTable,
    20 EntrypointOutOfBounds,
    21 InvalidEntrypoint,
    22 UnresolvedSymbol " at file offset {}",
    23 RelativeJumpOutOfBounds " in slot {}",
    24 SymbolHashCollision " of key {:#x}",
    25 WrongAbi,
    26 WrongMachine,
    27 NotOneTextSection,
    28 WritableSectionNotSupported,
    29 InvalidVirtualAddress,
    30 UnknownRelocation " of type {}",
    31 WrongType,
    32 UnknownSymbol " of index or st_name {}",
    33 ValueOutOfBounds,
    34 UnsupportedSBPFVersion,
    40 FileTooLong,
    41 BufferShort,
    42 BuiltinsNotAscending,
    43 TableFull " with {} rows",
    44 TextOutsideReadOnly,
    45 NoSuchIndex,
    46 NotASection,
    47 AddendNegative,
    48 BadHashTable,
    49 StringUnterminated,
    50 RecursiveCall " of the function at slot {}",
    51 TooDeep " with a chain of {}",
}

/// Why there is nothing, and what goes with it. The name that it speaks of is the part of the file
/// from `name_start` on that `name` holds, of StringTooLong and StringUnterminated as many bytes as were looked at. What
/// is not used is 0 or empty.
#[derive(Clone, Debug, PartialEq, Eq)]
pub struct Refusal {
    pub reason: Reason,
    pub value: u64,
    pub name_start: usize,
    pub name: Vec<u8>,
}

impl Refusal {
    /// By a number and the three words behind it in the answer of a call that was lent `file`.
    pub(crate) fn new(number: u32, words: [u64; 3], file: &[u8]) -> Refusal {
        let [value, start, length] = words;
        let (name_start, length) = (start as usize, length as usize);
        let name = file.get(name_start..).and_then(|rest| rest.get(..length));
        Refusal {
            reason: Reason::of(number),
            value,
            name_start,
            name: name.unwrap_or_default().to_vec(),
        }
    }

    pub fn number(&self) -> u32 {
        self.reason.number()
    }

    fn has_name(&self) -> bool {
        use Reason::*;
        let named = [
            StringTooLong,
            StringUnterminated,
            UnresolvedSymbol,
            WritableSectionNotSupported,
        ];
        named.contains(&self.reason) || !self.name.is_empty()
    }
}

/// As `22 UnresolvedSymbol at file offset 176: "crane_alarm"`.
impl fmt::Display for Refusal {
    fn fmt(&self, f: &mut fmt::Formatter) -> fmt::Result {
        write!(f, "{} {}", self.number(), self.reason.name())?;
        say_value(f, self.reason, self.value)?;
        if self.has_name() {
            write!(f, ": {:?}", String::from_utf8_lossy(&self.name))?;
        }
        Ok(())
    }
}

impl std::error::Error for Refusal {}
