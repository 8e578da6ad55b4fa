//! How a parameter is passed: a value, lent bytes, or a record behind a pointer.

use crate::library::{Declared, Library};
use crate::parse::{Field, Type};

/// The numbers that C and Rust share, with C's name and the size.
const SCALARS: [(&str, &str, usize); 11] = [
    ("bool", "bool", 1),
    ("u8", "uint8_t", 1),
    ("u16", "uint16_t", 2),
    ("u32", "uint32_t", 4),
    ("u64", "uint64_t", 8),
    ("usize", "size_t", 8),
    ("i8", "int8_t", 1),
    ("i16", "int16_t", 2),
    ("i32", "int32_t", 4),
    ("i64", "int64_t", 8),
    ("isize", "ptrdiff_t", 8),
];

/// C's name of a number, and its size.
pub fn scalar(name: &str) -> Option<(&'static str, usize)> {
    let found = SCALARS.iter().find(|s| s.0 == name)?;
    Some((found.1, found.2))
}

/// A parameter as C and Rust pass it.
#[derive(Debug, PartialEq, Eq)]
pub enum Passed {
    /// A number or a record.
    Value(String),
    /// A pointer to numbers of this type, and how many.
    Lent { of: String, mutable: bool },
    /// A pointer to a record.
    Record { name: String, mutable: bool },
}

impl Library {
    /// How a parameter is passed.
    pub fn passed(&self, parameter: &Field) -> Result<Passed, String> {
        if let Some(name) = self.lent(parameter)? {
            let mutable = matches!(parameter.kind, Type::Reference { mutable: true, .. });
            return Ok(Passed::Record { name, mutable });
        }
        match &parameter.kind {
            Type::Named(name) => Ok(Passed::Value(name.clone())),
            Type::Reference { mutable, to } => match &**to {
                Type::Slice(of) => match &**of {
                    Type::Named(of) if scalar(of).is_some() => Ok(Passed::Lent {
                        of: of.clone(),
                        mutable: *mutable,
                    }),
                    _ => Err(format!(
                        "`{}` is a slice of what is no number",
                        parameter.name
                    )),
                },
                _ => Err(format!(
                    "`{}` is a reference to what is no record",
                    parameter.name
                )),
            },
            _ => Err(format!(
                "`{}` is an array, which C cannot pass",
                parameter.name
            )),
        }
    }

    /// The record that a parameter points to: the named one, or, for an array, the one with the parameter's name, whose bytes it is.
    pub fn lent(&self, parameter: &Field) -> Result<Option<String>, String> {
        let Type::Reference { to, .. } = &parameter.kind else {
            return Ok(None);
        };
        match &**to {
            Type::Named(name) => Ok(Some(name.clone())),
            Type::Array(..) => self.with_bytes(&parameter.name, to).map(Some),
            _ => Ok(None),
        }
    }

    fn with_bytes(&self, parameter: &str, array: &Type) -> Result<String, String> {
        let name = format!("Flat{}", camel(parameter));
        let record = Type::Named(name.clone());
        let why = |w| {
            format!("`{parameter}` is a reference to an array, so {name} must be its record: {w}")
        };
        let (has, needs) = (self.layout(array)?, self.layout(&record).map_err(why)?);
        if has == needs {
            return Ok(name);
        }
        Err(why(format!(
            "the array has size {} and alignment {}, the record {} and {}",
            has.0, has.1, needs.0, needs.1
        )))
    }

    /// The size and alignment of a type, by C's rule.
    fn layout(&self, kind: &Type) -> Result<(usize, usize), String> {
        match kind {
            Type::Array(of, count) => self.layout(of).map(|(size, align)| (size * count, align)),
            Type::Named(name) => match scalar(name) {
                Some((_, size)) => Ok((size, size)),
                None => match self.declared(name)? {
                    Declared::Alias(alias) => self.layout(&alias.kind),
                    Declared::Record(record) => {
                        let (_, size, align) = self.places(&record.fields)?;
                        Ok((size, align))
                    }
                },
            },
            _ => Err("a reference has no place in a record".into()),
        }
    }

    /// The place of each field, and the size and alignment of the whole.
    pub fn places(&self, fields: &[Field]) -> Result<(Vec<usize>, usize, usize), String> {
        let (mut places, mut end, mut most) = (Vec::new(), 0_usize, 1);
        for field in fields {
            let (size, align) = self.layout(&field.kind)?;
            let place = end.next_multiple_of(align);
            places.push(place);
            end = place + size;
            most = most.max(align);
        }
        Ok((places, end.next_multiple_of(most), most))
    }
}

/// `first_part` as `FirstPart`.
fn camel(name: &str) -> String {
    let words = name.split('_').filter(|w| !w.is_empty());
    let upper = words.map(|w| w[..1].to_ascii_uppercase() + &w[1..]);
    upper.collect()
}

#[cfg(test)]
mod tests {
    use crate::library::of;

    /// A file with a record of this field and a call with this parameter.
    fn source(field: &str, parameter: &str) -> String {
        format!(
            "// A.\n#[repr(C)]\npub struct FlatPlace {{\n    pub x: {field},\n}}\n\n// B.\n#[unsafe(no_mangle)]\n\
             pub extern \"C\" fn fimbrast_b({parameter}) -> FlatPlace\n{{\n"
        )
    }

    fn why(field: &str, parameter: &str) -> String {
        let library = match of(&source(field, parameter)) {
            Ok(library) => library,
            Err(why) => return why,
        };
        let call = library.calls().next().unwrap();
        library
            .passed(&call.parameters[0])
            .map(|p| format!("{p:?}"))
            .unwrap_or_else(|w| w)
    }

    #[test]
    fn an_array_is_the_record_of_its_name() {
        let lent = "Record { name: \"FlatPlace\", mutable: true }";
        assert_eq!(why("[u32; 3]", "place: &mut [u32; 3]"), lent);
        assert!(why("[u32; 3]", "place: &mut [u8; 12]").contains("size 12 and alignment 1"));
        assert!(why("[u32; 3]", "other: &mut [u32; 3]").contains("FlatOther must be its record"));
    }

    #[test]
    fn what_c_has_not_is_refused() {
        assert!(why("u128", "x: u8").contains("fimbrast_b: FlatPlace, x: `u128` is no number"));
        assert!(why("u8", "x: FlatMissing")
            .contains("`FlatMissing` is no number and no #[repr(C)] struct"));
        assert!(why("u8", "x: [u8; 4]").contains("an array, which C cannot pass"));
        assert!(why("u8", "x: &[FlatPlace]").contains("a slice of what is no number"));
    }
}
