//! The kinds of things that are generated, by name, so that statistics by kind can be printed.

#[derive(Clone, Copy, PartialEq, Eq, Hash, PartialOrd, Ord, Debug)]
pub enum TableKind {
    /// No steps, or nearly none.
    Tiny,
    /// A typed table of up to a dozen steps.
    Small,
    /// A typed table of any size up to the limits.
    Any,
    /// A typed table with every count at its limit: S 96, T 128, P 64.
    Full,
    /// Terms that share their parts so that they unfold to a very large number of nodes.
    Shared,
    /// One symbol with a type as large as the steps allow.
    LargeType,
    /// One fault, 1 to 10.
    Fault(u8),
}

#[derive(Clone, Copy, PartialEq, Eq, Hash, PartialOrd, Ord, Debug)]
pub enum Change {
    ComparisonDropped,
    OperandsSwapped,
    AnotherSymbol,
    OrderChanged,
    OneTooMany,
    OneTooFew,
    LeftForRight,
    TypesChanged,
    BuildNotInTable,
    /// The list of the table with two neighbouring steps swapped.
    NearbyTable,
    AnotherTable,
}

#[derive(Clone, Copy, PartialEq, Eq, Hash, PartialOrd, Ord, Debug)]
pub enum ListKind {
    /// The compiler's own.
    Compiled,
    /// Faithful, with moved, repeated and extra builds and different registers of the same meaning.
    Faithful,
    /// Not faithful by one change.
    Unfaithful(Change),
    /// One fault, 1 to 5.
    Fault(u8),
}

#[derive(Clone, Copy, PartialEq, Eq, Hash, PartialOrd, Ord, Debug)]
pub enum ShelfKind {
    /// This many lists, whose lengths add up.
    Of(usize),
    /// An empty list among the others.
    EmptyAmong,
    /// The lengths add up to more than the lists' bytes.
    TooMuch,
    /// They add up to fewer.
    TooLittle,
    /// They add up to 2^64 more.
    Wrapping,
}

#[derive(Clone, Copy, PartialEq, Eq, Hash, PartialOrd, Ord, Debug)]
pub enum TraceKind {
    /// A run on it has this ending, 0 to 7.
    Ending(u8),
    /// A fresh name is supplied with an atom that sits so, and nowhere else.
    Supplied(Sits),
    /// Random values and supply.
    Random,
    /// One fault: 1 to 6, or 14.
    Fault(u8),
}

/// Where an atom sits when it is supplied for a fresh name. It is fresh in the last case only.
#[derive(Clone, Copy, PartialEq, Eq, Hash, PartialOrd, Ord, Debug)]
pub enum Sits {
    InHeldPair,
    InHeldCiphertext,
    AsKeyOfHeldCiphertext,
    /// Twenty levels down in a held value that shares its parts.
    DeepInHeldValue,
    /// In values of the table that no register holds.
    InValuesNotHeld,
}

#[derive(Clone, Copy, PartialEq, Eq, Hash, PartialOrd, Ord, Debug)]
pub enum Damage {
    BitsFlipped,
    BytesChanged,
    BytesCut,
    BytesAdded,
    BytesMoved,
    /// Random bytes after the mark and the version.
    RandomAfterMark,
    /// Random bytes of any length up to 40,000.
    RandomBytes,
}

impl TableKind {
    pub const TYPED: [TableKind; 6] = [
        TableKind::Tiny,
        TableKind::Small,
        TableKind::Any,
        TableKind::Full,
        TableKind::Shared,
        TableKind::LargeType,
    ];

    pub fn all() -> Vec<TableKind> {
        let faults = (1..=10).map(TableKind::Fault);
        TableKind::TYPED.into_iter().chain(faults).collect()
    }
}

impl Change {
    pub const ALL: [Change; 11] = [
        Change::ComparisonDropped,
        Change::OperandsSwapped,
        Change::AnotherSymbol,
        Change::OrderChanged,
        Change::OneTooMany,
        Change::OneTooFew,
        Change::LeftForRight,
        Change::TypesChanged,
        Change::BuildNotInTable,
        Change::NearbyTable,
        Change::AnotherTable,
    ];
}

impl ListKind {
    pub fn all() -> Vec<ListKind> {
        let mut all = vec![ListKind::Compiled, ListKind::Faithful];
        all.extend(Change::ALL.map(ListKind::Unfaithful));
        all.extend((1..=5).map(ListKind::Fault));
        all
    }
}

impl ShelfKind {
    pub const ALL: [ShelfKind; 11] = [
        ShelfKind::Of(0),
        ShelfKind::Of(1),
        ShelfKind::Of(2),
        ShelfKind::Of(30),
        ShelfKind::Of(63),
        ShelfKind::Of(64),
        ShelfKind::Of(65),
        ShelfKind::EmptyAmong,
        ShelfKind::TooMuch,
        ShelfKind::TooLittle,
        ShelfKind::Wrapping,
    ];
}

impl TraceKind {
    pub fn all() -> Vec<TraceKind> {
        let mut all = vec![TraceKind::Random];
        all.extend((0..=7).map(TraceKind::Ending));
        all.extend(Sits::ALL.map(TraceKind::Supplied));
        all.extend([1, 2, 3, 4, 5, 6, 14].map(TraceKind::Fault));
        all
    }
}

impl Sits {
    pub const ALL: [Sits; 5] = [
        Sits::InHeldPair,
        Sits::InHeldCiphertext,
        Sits::AsKeyOfHeldCiphertext,
        Sits::DeepInHeldValue,
        Sits::InValuesNotHeld,
    ];
}

impl Damage {
    pub const ALL: [Damage; 7] = [
        Damage::BitsFlipped,
        Damage::BytesChanged,
        Damage::BytesCut,
        Damage::BytesAdded,
        Damage::BytesMoved,
        Damage::RandomAfterMark,
        Damage::RandomBytes,
    ];
}
