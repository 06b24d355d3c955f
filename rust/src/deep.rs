//! Dropping, cloning, comparing, hashing and showing types and values. They nest as deep as memory allows, so nothing here recurs: what is left to do is
//! held in a `Vec`.

use crate::sheet::{Alternative, Type, Value};
use std::cmp::Ordering;
use std::hash::{Hash, Hasher};
use std::{fmt, iter, mem, slice};

/// A type or a value, by what stands directly within it.
trait Tree: Sized {
    /// What stands directly within, in order.
    fn parts(&self) -> impl DoubleEndedIterator<Item = &Self>;

    fn parts_mut(&mut self) -> impl Iterator<Item = &mut Self>;

    /// One that holds no others, to stand where another was taken out.
    fn plain() -> Self;

    /// The same with these parts in place of its own, as many as those.
    fn with(&self, parts: impl Iterator<Item = Self>) -> Self;

    /// What is shown before the part with this number; with the number of parts, what is shown behind them.
    fn show(&self, part: usize, f: &mut fmt::Formatter<'_>) -> fmt::Result;

    fn is_plain(&self) -> bool {
        self.parts().next().is_none()
    }
}

/// A tree and all that stands within, outermost first.
fn each<T: Tree>(tree: &T) -> impl Iterator<Item = &T> {
    let mut due = vec![tree];
    iter::from_fn(move || {
        let next = due.pop()?;
        due.extend(next.parts().rev());
        Some(next)
    })
}

/// Empties a tree, so that what is left of it is dropped without recursion: groups are taken out of each other, one by one.
fn emptied<T: Tree>(tree: &mut T) {
    let mut due = Vec::new();
    take_groups(tree, &mut due);
    while let Some(mut group) = due.pop() {
        take_groups(&mut group, &mut due);
    }
}

fn take_groups<T: Tree>(tree: &mut T, due: &mut Vec<T>) {
    due.extend(tree.parts_mut().filter(|part| !part.is_plain()).map(|part| mem::replace(part, T::plain())));
}

/// A copy, made innermost first: the parts of a group are the last that were made, its first part the very last.
fn cloned<T: Tree>(tree: &T) -> T {
    if tree.is_plain() {
        return tree.with(iter::empty());
    }
    let outermost_first: Vec<&T> = each(tree).collect();
    let mut made = Vec::new();
    for tree in outermost_first.into_iter().rev() {
        let others = made.len() - tree.parts().count();
        let copy = tree.with(made.drain(others..).rev());
        made.push(copy);
    }
    made.pop().expect("the outermost is made last")
}

/// On one line, also where `{:#?}` asks for more: the indentation of a deep tree would be longer than memory.
fn shown<T: Tree>(tree: &T, f: &mut fmt::Formatter<'_>) -> fmt::Result {
    let mut open = vec![(tree, tree.parts(), 0)];
    while let Some((group, parts, part)) = open.last_mut() {
        group.show(*part, f)?;
        *part += 1;
        match parts.next() {
            Some(next) => open.push((next, next.parts(), 0)),
            None => _ = open.pop(),
        }
    }
    Ok(())
}

/// What stands before and behind the parts of a list, as `shown` asks for it.
fn show_list(name: &str, part: usize, parts: usize, f: &mut fmt::Formatter<'_>) -> fmt::Result {
    if part == 0 {
        write!(f, "{name}([")?;
    }
    match part {
        _ if part == parts => f.write_str("])"),
        0 => Ok(()),
        _ => f.write_str(", "),
    }
}

impl Tree for Type {
    fn parts(&self) -> impl DoubleEndedIterator<Item = &Type> {
        let (fields, alternatives): (&[Type], &[Alternative]) = match self {
            Type::Int | Type::Str | Type::Bytes | Type::Fact(_) => (&[], &[]),
            Type::Record(fields) => (fields, &[]),
            Type::Union(alternatives) => (&[], alternatives),
            Type::Optional(behind) => (slice::from_ref(&**behind), &[]),
        };
        fields.iter().chain(alternatives.iter().map(|alternative| &alternative.ty))
    }

    fn parts_mut(&mut self) -> impl Iterator<Item = &mut Type> {
        let (fields, alternatives): (&mut [Type], &mut [Alternative]) = match self {
            Type::Int | Type::Str | Type::Bytes | Type::Fact(_) => (&mut [], &mut []),
            Type::Record(fields) => (fields, &mut []),
            Type::Union(alternatives) => (&mut [], alternatives),
            Type::Optional(behind) => (slice::from_mut(&mut **behind), &mut []),
        };
        fields.iter_mut().chain(alternatives.iter_mut().map(|alternative| &mut alternative.ty))
    }

    fn plain() -> Type {
        Type::Int
    }

    fn with(&self, mut parts: impl Iterator<Item = Type>) -> Type {
        match self {
            Type::Int => Type::Int,
            Type::Str => Type::Str,
            Type::Bytes => Type::Bytes,
            Type::Fact(predicate) => Type::Fact(*predicate),
            Type::Record(_) => Type::record(parts),
            Type::Union(alternatives) => Type::union(alternatives.iter().map(|alternative| alternative.disc).zip(parts)),
            Type::Optional(_) => Type::optional(parts.next().expect("an optional type has one behind it")),
        }
    }

    fn show(&self, part: usize, f: &mut fmt::Formatter<'_>) -> fmt::Result {
        match self {
            Type::Int => f.write_str("Int"),
            Type::Str => f.write_str("Str"),
            Type::Bytes => f.write_str("Bytes"),
            Type::Fact(predicate) => write!(f, "Fact({predicate:?})"),
            Type::Record(fields) => show_list("Record", part, fields.len(), f),
            Type::Optional(_) if part == 0 => f.write_str("Optional("),
            Type::Optional(_) => f.write_str(")"),
            Type::Union(alternatives) => {
                if part > 0 {
                    f.write_str(" }")?;
                }
                show_list("Union", part, alternatives.len(), f)?;
                match alternatives.get(part) {
                    Some(alternative) => write!(f, "Alternative {{ disc: {}, ty: ", alternative.disc),
                    None => Ok(()),
                }
            }
        }
    }
}

impl Drop for Type {
    fn drop(&mut self) {
        emptied(self);
    }
}

impl Clone for Type {
    fn clone(&self) -> Type {
        cloned(self)
    }
}

impl fmt::Debug for Type {
    fn fmt(&self, f: &mut fmt::Formatter<'_>) -> fmt::Result {
        shown(self, f)
    }
}

impl Type {
    /// What two types have to share besides their parts.
    fn head(&self) -> (u32, usize, impl Iterator<Item = u32>) {
        let (number, alternatives): (usize, &[Alternative]) = match self {
            Type::Int | Type::Str | Type::Bytes | Type::Optional(_) => (0, &[]),
            Type::Fact(predicate) => (predicate.0 as usize, &[]),
            Type::Record(fields) => (fields.len(), &[]),
            Type::Union(alternatives) => (alternatives.len(), alternatives),
        };
        (self.word(), number, alternatives.iter().map(|alternative| alternative.disc))
    }
}

impl PartialEq for Type {
    fn eq(&self, other: &Type) -> bool {
        // Types with the same heads so far have the same number of parts, so that both walks end together.
        each(self).zip(each(other)).all(|(a, b)| {
            let ((kind, number, discs), (other_kind, other_number, other_discs)) = (a.head(), b.head());
            (kind, number) == (other_kind, other_number) && discs.eq(other_discs)
        })
    }
}

impl Eq for Type {}

impl Hash for Type {
    fn hash<H: Hasher>(&self, state: &mut H) {
        for ty in each(self) {
            let (kind, number, discs) = ty.head();
            (kind, number).hash(state);
            discs.for_each(|disc| disc.hash(state));
        }
    }
}

impl Value {
    /// The fields of a record, or the payload of a union.
    fn within(&self) -> &[Value] {
        match self {
            Value::Record(fields) => fields,
            Value::Union { value, .. } => slice::from_ref(value),
            _ => &[],
        }
    }

    /// The kind's place in the order.
    fn rank(&self) -> u8 {
        match self {
            Value::Null => 0,
            Value::Str(_) => 1,
            Value::Record(_) => 2,
            Value::Int(_) => 3,
            Value::FactRef(_) => 4,
            Value::Union { .. } => 5,
            Value::Bytes(_) => 6,
        }
    }

    /// How two values compare before what stands within them is looked at.
    fn cmp_head(&self, other: &Value) -> Ordering {
        match (self, other) {
            (Value::Str(a), Value::Str(b)) => a.cmp(b),
            (Value::Int(a), Value::Int(b)) => a.cmp(b),
            (Value::FactRef(a), Value::FactRef(b)) => a.cmp(b),
            (Value::Union { disc: a, .. }, Value::Union { disc: b, .. }) => a.cmp(b),
            (Value::Bytes(a), Value::Bytes(b)) => a.cmp(b),
            _ => self.rank().cmp(&other.rank()),
        }
    }
}

impl Tree for Value {
    fn parts(&self) -> impl DoubleEndedIterator<Item = &Value> {
        self.within().iter()
    }

    fn parts_mut(&mut self) -> impl Iterator<Item = &mut Value> {
        match self {
            Value::Record(fields) => fields.iter_mut(),
            Value::Union { value, .. } => slice::from_mut(&mut **value).iter_mut(),
            _ => [].iter_mut(),
        }
    }

    fn plain() -> Value {
        Value::Null
    }

    fn with(&self, mut parts: impl Iterator<Item = Value>) -> Value {
        match self {
            Value::Null => Value::Null,
            Value::Str(text) => Value::Str(text.clone()),
            Value::Record(_) => Value::record(parts),
            Value::Int(number) => Value::Int(*number),
            Value::FactRef(id) => Value::FactRef(*id),
            Value::Union { disc, .. } => Value::union(*disc, parts.next().expect("a union has a payload")),
            Value::Bytes(bytes) => Value::Bytes(bytes.clone()),
        }
    }

    fn show(&self, part: usize, f: &mut fmt::Formatter<'_>) -> fmt::Result {
        match self {
            Value::Null => f.write_str("Null"),
            Value::Str(text) => write!(f, "Str({text:?})"),
            Value::Record(fields) => show_list("Record", part, fields.len(), f),
            Value::Int(number) => write!(f, "Int({number:?})"),
            Value::FactRef(id) => write!(f, "FactRef({id:?})"),
            Value::Union { disc, .. } if part == 0 => write!(f, "Union {{ disc: {disc}, value: "),
            Value::Union { .. } => f.write_str(" }"),
            Value::Bytes(bytes) => write!(f, "Bytes({bytes:?})"),
        }
    }
}

impl Drop for Value {
    fn drop(&mut self) {
        emptied(self);
    }
}

impl Clone for Value {
    fn clone(&self) -> Value {
        cloned(self)
    }
}

impl fmt::Debug for Value {
    fn fmt(&self, f: &mut fmt::Formatter<'_>) -> fmt::Result {
        shown(self, f)
    }
}

impl Ord for Value {
    fn cmp(&self, other: &Value) -> Ordering {
        // Two lists are compared value by value; `due` has the lists that stand around them, from where they go on.
        let (mut a, mut b) = (slice::from_ref(self), slice::from_ref(other));
        let mut due = Vec::new();
        loop {
            match (a, b) {
                ([x, a_rest @ ..], [y, b_rest @ ..]) => {
                    let order = x.cmp_head(y);
                    if order.is_ne() {
                        return order;
                    }
                    if !(a_rest.is_empty() && b_rest.is_empty()) {
                        due.push((a_rest, b_rest));
                    }
                    (a, b) = (x.within(), y.within());
                }
                ([], []) => match due.pop() {
                    Some(next) => (a, b) = next,
                    None => return Ordering::Equal,
                },
                // where one list is the other's beginning, the shorter comes first
                _ => return a.len().cmp(&b.len()),
            }
        }
    }
}

impl PartialOrd for Value {
    fn partial_cmp(&self, other: &Value) -> Option<Ordering> {
        Some(self.cmp(other))
    }
}

impl PartialEq for Value {
    fn eq(&self, other: &Value) -> bool {
        self.cmp(other).is_eq()
    }
}

impl Eq for Value {}

impl Hash for Value {
    fn hash<H: Hasher>(&self, state: &mut H) {
        for value in each(self) {
            value.rank().hash(state);
            match value {
                Value::Null => {}
                Value::Str(text) => text.hash(state),
                Value::Record(fields) => fields.len().hash(state),
                Value::Int(number) => number.hash(state),
                Value::FactRef(id) => id.hash(state),
                Value::Union { disc, .. } => disc.hash(state),
                Value::Bytes(bytes) => bytes.hash(state),
            }
        }
    }
}

#[cfg(test)]
mod tests {
    use super::*;
    use crate::sheet::{FactId, PredicateId};
    use std::hash::DefaultHasher;

    /// The same types and values with everything derived.
    mod derived {
        use crate::sheet::{FactId, PredicateId};

        #[derive(Debug, PartialEq)]
        pub struct Alternative {
            pub disc: u32,
            pub ty: Type,
        }

        #[derive(Debug, PartialEq)]
        pub enum Type {
            Int,
            Str,
            Bytes,
            Fact(PredicateId),
            Record(Vec<Type>),
            Union(Vec<Alternative>),
            Optional(Box<Type>),
        }

        #[derive(Debug, PartialEq, Eq, PartialOrd, Ord)]
        pub enum Value {
            Null,
            Str(String),
            Record(Vec<Value>),
            Int(i64),
            FactRef(FactId),
            Union { disc: u32, value: Box<Value> },
            Bytes(Vec<u8>),
        }
    }

    fn derived_type(ty: &Type) -> derived::Type {
        match ty {
            Type::Int => derived::Type::Int,
            Type::Str => derived::Type::Str,
            Type::Bytes => derived::Type::Bytes,
            Type::Fact(predicate) => derived::Type::Fact(*predicate),
            Type::Record(fields) => derived::Type::Record(fields.iter().map(derived_type).collect()),
            Type::Union(alternatives) => derived::Type::Union(
                alternatives
                    .iter()
                    .map(|alternative| derived::Alternative { disc: alternative.disc, ty: derived_type(&alternative.ty) })
                    .collect(),
            ),
            Type::Optional(behind) => derived::Type::Optional(Box::new(derived_type(behind))),
        }
    }

    fn derived_value(value: &Value) -> derived::Value {
        match value {
            Value::Null => derived::Value::Null,
            Value::Str(text) => derived::Value::Str(text.clone()),
            Value::Record(fields) => derived::Value::Record(fields.iter().map(derived_value).collect()),
            Value::Int(number) => derived::Value::Int(*number),
            Value::FactRef(id) => derived::Value::FactRef(*id),
            Value::Union { disc, value } => derived::Value::Union { disc: *disc, value: Box::new(derived_value(value)) },
            Value::Bytes(bytes) => derived::Value::Bytes(bytes.clone()),
        }
    }

    fn hashed(what: &impl Hash) -> u64 {
        let mut state = DefaultHasher::new();
        what.hash(&mut state);
        state.finish()
    }

    fn types() -> Vec<Type> {
        let plain =
            [Type::Int, Type::Str, Type::Bytes, Type::Fact(PredicateId(7)), Type::Fact(PredicateId(8)), Type::record([]), Type::union([])];
        let mut types = plain.to_vec();
        for _ in 0..2 {
            let inner: Vec<Type> = types.iter().step_by(3).cloned().collect();
            for ty in &inner {
                types.extend([Type::record([ty.clone()]), Type::union([(1, ty.clone())]), Type::union([(2, ty.clone())])]);
                types.push(Type::optional(ty.clone()));
                for other in &inner {
                    types.push(Type::record([ty.clone(), other.clone(), Type::Int]));
                    types.push(Type::union([(1, Type::Str), (9, ty.clone()), (1, other.clone())]));
                }
            }
            types.truncate(300);
        }
        types
    }

    fn values() -> Vec<Value> {
        let mut values = vec![Value::Null, Value::from("a"), Value::from("a\0"), Value::record([]), Value::Int(-1), Value::Int(0)];
        values.extend([Value::from(FactId::from_raw(1)), Value::from(FactId::from_raw(1 << 63)), Value::from(b"a"), Value::from(b"")]);
        for _ in 0..2 {
            let inner: Vec<Value> = values.iter().step_by(3).cloned().collect();
            for value in &inner {
                values.extend([Value::record([value.clone()]), Value::union(1, value.clone()), Value::union(2, value.clone())]);
                for other in &inner {
                    values.push(Value::record([value.clone(), other.clone(), Value::Int(0)]));
                    values.push(Value::union(1, Value::record([value.clone(), other.clone()])));
                }
            }
            values.truncate(300);
        }
        values
    }

    #[test]
    fn types_are_cloned_compared_and_shown_as_derived() {
        let types = types();
        for a in &types {
            assert_eq!(derived_type(&a.clone()), derived_type(a));
            assert_eq!(format!("{a:?}"), format!("{:?}", derived_type(a)));
            assert_eq!(format!("{a:#?}"), format!("{a:?}"));
            for b in &types {
                assert_eq!(a == b, derived_type(a) == derived_type(b), "{a:?} {b:?}");
                assert!(a != b || hashed(a) == hashed(b));
            }
        }
    }

    #[test]
    fn values_are_cloned_compared_and_shown_as_derived() {
        let values = values();
        for a in &values {
            assert_eq!(derived_value(&a.clone()), derived_value(a));
            assert_eq!(format!("{a:?}"), format!("{:?}", derived_value(a)));
            assert_eq!(format!("{a:#?}"), format!("{a:?}"));
            for b in &values {
                assert_eq!(a.cmp(b), derived_value(a).cmp(&derived_value(b)), "{a:?} {b:?}");
                assert_eq!(a == b, a.cmp(b).is_eq());
                assert!(a != b || hashed(a) == hashed(b));
            }
        }
    }
}
