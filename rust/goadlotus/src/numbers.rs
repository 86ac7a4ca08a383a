//! The numbers that the calls answer, and the names of a report's rows. `include/goadlotus.h` has the same.

/// What a number says about a file or a call.
#[derive(Clone, Copy, PartialEq, Eq, Hash, Debug)]
pub enum Kind {
    /// The template is accepted.
    Accepted,
    /// The template is refused for a class.
    Refused,
    /// The run is played to its end.
    Played,
    /// A step of the run isn't allowed.
    NotAllowed,
    /// The domain file isn't well-formed.
    BrokenDomain,
    /// A record of the run file is at fault, or the run is more than the player holds.
    BrokenRun,
    /// The box of files is cut.
    BrokenBox,
    /// Too little memory was lent.
    TooLittleMemory,
}

/// An enum of numbers: one line for each, with its kind and its meaning in words.
macro_rules! numbers {
    ($($value:literal $name:ident $kind:ident $meaning:literal)*) => {
        /// A number that a call answers.
        #[derive(Clone, Copy, PartialEq, Eq, PartialOrd, Ord, Hash, Debug)]
        #[non_exhaustive]
        pub enum Number {
            $(#[doc = $meaning] $name = $value,)*
        }

        impl Number {
            /// All of them, rising.
            pub const ALL: &'static [Number] = &[$(Number::$name,)*];

            pub fn kind(self) -> Kind {
                match self {
                    $(Number::$name => Kind::$kind,)*
                }
            }

            /// Its meaning in a few words.
            pub fn meaning(self) -> &'static str {
                match self {
                    $(Number::$name => $meaning,)*
                }
            }
        }
    };
}

numbers! {
    0 Accepted Accepted "accepted; no moment is unbounded"
    1 AcceptedUnbounded Accepted "accepted; some journey's end is unbounded"
    2 Played Played "played to the end"
    9 FileTooLong BrokenDomain "domain file too long"
    10 CutShort BrokenDomain "record cut short, or closing record missing"
    11 UnknownKind BrokenDomain "unknown kind"
    12 WrongLength BrokenDomain "wrong payload length"
    13 OutOfOrder BrokenDomain "kind out of order, or bytes behind the closing record"
    14 OverLimit BrokenDomain "over a limit"
    15 OutOfRange BrokenDomain "arity, variable count or sort out of range"
    16 WrongRole BrokenDomain "role unknown, or not for an action at once"
    17 NoRelation BrokenDomain "no such relation"
    18 NoVariable BrokenDomain "no such variable"
    19 LiteralRepeated BrokenDomain "literal repeated in its role"
    20 Contradiction BrokenDomain "literal both true and false condition"
    21 WrongLabels BrokenDomain "a key not below n, or a key missing"
    22 ComponentRepeated BrokenDomain "relation has a component already"
    23 NoComponent BrokenDomain "no component"
    24 KeyTwice BrokenDomain "a key twice in a component"
    25 CountedTwice BrokenDomain "FF twice in a component"
    26 WrongClearing BrokenDomain "FF in a literal that can't clear, or twice"
    27 KeyCleared BrokenDomain "a key where a literal of the relation has FF"
    30 ReportTooSmall TooLittleMemory "report memory too small, or that of a service"
    31 WitnessTooSmall TooLittleMemory "witness memory too small"
    33 BoxCut BrokenBox "box cut inside a length or a file"
    40 RefusedHeavy Refused "refused: heavy"
    41 RefusedUnbalanced Refused "refused: unbalanced"
    42 RefusedUnbounded Refused "refused: unbounded outside a journey's end"
    43 RefusedBounded Refused "refused: bounded beside an unbounded journey's end"
    50 RunMalformed BrokenRun "run file: form, order or length"
    51 RunOutOfRange BrokenRun "number out of range, or moment 1 of an action at once"
    52 RunOverLimit BrokenRun "over a limit of the player: 1,024 facts, 16 events in a step, 32 open"
    53 ObjectTwice BrokenRun "one object bound twice"
    54 EventRepeated BrokenRun "event repeated in its step"
    55 ConditionFails NotAllowed "a condition fails"
    56 Interference NotAllowed "interference"
    57 NotOpen NotAllowed "end of something that is not open"
    58 WorkTooSmall TooLittleMemory "work memory too small"
}

impl Number {
    /// The number of a value; none where no call answers it.
    pub fn of(value: u64) -> Option<Number> {
        Number::ALL.iter().copied().find(|number| number.value() == value)
    }

    pub fn value(self) -> u64 {
        self as u64
    }
}

/// The name of a moment of a class, by its number in a row of the report.
#[derive(Clone, Copy, PartialEq, Eq, PartialOrd, Ord, Hash, Debug)]
pub enum Name {
    Unreachable = 1,
    Irrelevant = 2,
    Heavy = 3,
    Balanced = 4,
    Unbalanced = 5,
    Bounded = 6,
    Unbounded = 7,
}

impl Name {
    /// All of them, in the order of their tests.
    pub const ALL: [Name; 7] = [
        Name::Unreachable,
        Name::Irrelevant,
        Name::Heavy,
        Name::Balanced,
        Name::Unbalanced,
        Name::Bounded,
        Name::Unbounded,
    ];

    /// The name of a byte; none where it isn't 1 to 7.
    pub fn of(byte: u8) -> Option<Name> {
        Name::ALL.into_iter().find(|&name| name as u8 == byte)
    }

    /// As the listing prints it.
    pub fn word(self) -> &'static str {
        match self {
            Name::Unreachable => "unreachable",
            Name::Irrelevant => "irrelevant",
            Name::Heavy => "heavy",
            Name::Balanced => "balanced",
            Name::Unbalanced => "unbalanced",
            Name::Bounded => "bounded",
            Name::Unbounded => "unbounded",
        }
    }
}

impl std::fmt::Display for Name {
    fn fmt(&self, out: &mut std::fmt::Formatter) -> std::fmt::Result {
        out.pad(self.word())
    }
}
