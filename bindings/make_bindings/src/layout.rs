//! Where each field of each record lies: as C's rule has it, and the programs that print it as C and Rust have it.

use crate::library::{Declared, Library};
use crate::parse::Record;

/// Every record, in the order of the calls that need them.
fn records(library: &Library) -> Result<Vec<&Record>, String> {
    let mut all = Vec::new();
    for name in library.types()? {
        if let Declared::Record(record) = library.declared(&name)? {
            all.push(record);
        }
    }
    Ok(all)
}

/// A record's name in C without what all have.
fn name(library: &Library, record: &Record) -> String {
    let name = library.c_name(&record.name);
    name.trim_start_matches("fimbrast_").to_string()
}

/// A line for each record: its size, and the place of each field.
pub fn expected(library: &Library) -> Result<String, String> {
    let mut text = String::new();
    for record in records(library)? {
        let (places, size, _) = library.places(&record.fields)?;
        text.push_str(&format!("{} {size}:", name(library, record)));
        for (field, place) in record.fields.iter().zip(places) {
            text.push_str(&format!(" {} {place}", field.name));
        }
        text.push('\n');
    }
    Ok(text)
}

/// The C program that prints the same of the header's records.
pub fn program(template: &str, library: &Library) -> Result<String, String> {
    let mut lines = String::new();
    for record in records(library)? {
        let name = name(library, record);
        lines.push_str(&format!("    SIZE({name});\n"));
        for field in &record.fields {
            lines.push_str(&format!("    PLACE({name}, {});\n", field.name));
        }
        lines.push_str("    END;\n");
    }
    Ok(template.replace("@records\n", &lines))
}

/// The table of the Rust records, for a test.
pub fn table(library: &Library) -> Result<String, String> {
    let mut lines = String::new();
    let all = records(library)?;
    for record in &all {
        let of = Library::short(&record.name);
        let places = record.fields.iter().map(|f| {
            let field = &f.name;
            format!("(\"{field}\", offset_of!({of}, {field}))")
        });
        let places = places.collect::<Vec<_>>().join(", ");
        let name = name(library, record);
        lines.push_str(&format!(
            "    (\"{name}\", size_of::<{of}>(), &[{places}]),\n"
        ));
    }
    let count = all.len();
    Ok(format!(
        "pub(crate) const LAYOUT: [Layout; {count}] = [\n{lines}];\n"
    ))
}

#[cfg(test)]
mod tests {
    use super::{expected, program, table};
    use crate::library::of;

    const CALL: &str = "// Parts.\n\n// A place.\n#[repr(C)]\npub struct FlatPlace {\n    pub at: u8,\n    pub length: usize,\n    pub last: [u8; 3],\n}\n\n// A fresh one.\n\
         #[unsafe(no_mangle)]\npub extern \"C\" fn fimbrast_fresh() -> FlatPlace\n{\n";

    #[test]
    fn fields_lie_where_c_puts_them() {
        let library = of(CALL).unwrap();
        assert_eq!(
            expected(&library).unwrap(),
            "place 24: at 0 length 8 last 16\n"
        );
        let lines = "    SIZE(place);\n    PLACE(place, at);\n    PLACE(place, length);\n    PLACE(place, last);\n    END;\n";
        assert_eq!(program("@records\n", &library).unwrap(), lines);
        let rust = table(&library).unwrap();
        assert!(
            rust.contains("(\"place\", size_of::<Place>(), &[(\"at\", offset_of!(Place, at)), ")
        );
    }
}
