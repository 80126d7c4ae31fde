//! Types, their order, their greatest lower bounds, and their bytes in prefix order.

use Type::{Channel, Cipher, Message, Name, Pair, ShKey};

#[derive(Clone, PartialEq, Eq, Hash, Debug)]
pub enum Type {
    Message,
    Name,
    Channel,
    ShKey,
    Pair(Box<Type>, Box<Type>),
    Cipher(Box<Type>),
}

impl Type {
    pub fn pair(left: Type, right: Type) -> Type {
        Pair(Box::new(left), Box::new(right))
    }

    pub fn cipher(inside: Type) -> Type {
        Cipher(Box::new(inside))
    }

    /// Whether this type lies at or below the other one.
    pub fn below(&self, other: &Type) -> bool {
        match (self, other) {
            (_, Message) => true,
            (Name | Channel | ShKey, Name) => true,
            (Channel, Channel) | (ShKey, ShKey) => true,
            (Pair(a, b), Pair(c, d)) => a.below(c) && b.below(d),
            (Cipher(a), Cipher(b)) => a.below(b),
            _ => false,
        }
    }

    /// The widest type that lies at or below both, if any type does.
    pub fn meet(&self, other: &Type) -> Option<Type> {
        match (self, other) {
            (Pair(a, b), Pair(c, d)) => Some(Type::pair(a.meet(c)?, b.meet(d)?)),
            (Cipher(a), Cipher(b)) => Some(Type::cipher(a.meet(b)?)),
            _ if self.below(other) => Some(self.clone()),
            _ if other.below(self) => Some(other.clone()),
            _ => None,
        }
    }

    /// The type's bytes in prefix order.
    pub fn bytes(&self) -> Vec<u8> {
        let mut out = Vec::new();
        self.write(&mut out);
        out
    }

    fn write(&self, out: &mut Vec<u8>) {
        match self {
            Message => out.push(0),
            Name => out.push(1),
            Channel => out.push(2),
            ShKey => out.push(3),
            Pair(left, right) => {
                out.push(4);
                left.write(out);
                right.write(out);
            }
            Cipher(inside) => {
                out.push(5);
                inside.write(out);
            }
        }
    }

    /// The type that these bytes are, if they are exactly one type.
    pub fn read(bytes: &[u8]) -> Option<Type> {
        match Type::read_first(bytes)? {
            (found, []) => Some(found),
            _ => None,
        }
    }

    /// The type that these bytes begin with, and the bytes after it.
    fn read_first(bytes: &[u8]) -> Option<(Type, &[u8])> {
        let (first, rest) = bytes.split_first()?;
        match first {
            0 => Some((Message, rest)),
            1 => Some((Name, rest)),
            2 => Some((Channel, rest)),
            3 => Some((ShKey, rest)),
            4 => {
                let (left, rest) = Type::read_first(rest)?;
                let (right, rest) = Type::read_first(rest)?;
                Some((Type::pair(left, right), rest))
            }
            5 => {
                let (inside, rest) = Type::read_first(rest)?;
                Some((Type::cipher(inside), rest))
            }
            _ => None,
        }
    }
}

/// The types as a list holds them: each a length byte and the type's bytes.
pub fn entries(types: &[Type]) -> Vec<u8> {
    let mut out = Vec::new();
    for one in types {
        let bytes = one.bytes();
        assert!(bytes.len() < 256, "a symbol's type has at most 2P + 1 bytes");
        out.push(bytes.len() as u8);
        out.extend(bytes);
    }
    out
}
