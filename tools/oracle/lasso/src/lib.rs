//! Stand-in for the crate `lasso`: what the property-test generators of tuple.rs name.

#[derive(Debug, Clone, Copy, PartialEq, Eq, Hash)]
pub struct Spur(pub u32);

#[derive(Default)]
pub struct Rodeo {
    names: Vec<String>,
}

impl Rodeo {
    pub fn new() -> Rodeo {
        Rodeo::default()
    }

    pub fn get_or_intern(&mut self, name: impl AsRef<str>) -> Spur {
        let name = name.as_ref();
        if let Some(i) = self.names.iter().position(|n| n == name) {
            return Spur(i as u32);
        }
        self.names.push(name.to_owned());
        Spur(self.names.len() as u32 - 1)
    }

    pub fn into_reader(self) -> RodeoReader {
        RodeoReader(self.names)
    }
}

pub struct RodeoReader(pub Vec<String>);
