//! The version: written once, in the Rust crate's manifest.

/// Where it is written.
pub const PLACE: &str = "bindings/rust/Cargo.toml";
/// The Rattle calls that answer it.
pub const CALLS: &str = "crates/fimbrast/src/version.rt";
/// Their exports.
pub const EXPORTS: &str = "crates/fimbrast_c/src/version.rt";
/// The definition that they are proved by.
pub const DEFINITION: &str = "crates/fimbrast/specs/Version.antt";

/// Their templates do not end as Rattle's files do: rt refuses one of those outside of a crate.
const CALLS_TEXT: &str = include_str!("../templates/version.calls");
const EXPORTS_TEXT: &str = include_str!("../templates/version.exports");
const DEFINITION_TEXT: &str = include_str!("../templates/version.definition");

/// The three numbers of a version.
#[derive(Debug, Clone, Copy, PartialEq, Eq)]
pub struct Version {
    parts: [u32; 3],
}

impl Version {
    /// The first `version = ".."` of a manifest.
    pub fn parse(manifest: &str) -> Result<Self, String> {
        let line = manifest
            .lines()
            .find_map(|l| l.strip_prefix("version = \""));
        let text = line.and_then(|l| l.strip_suffix('"'));
        let text = text.ok_or(format!("{PLACE} has no line `version = \"..\"`"))?;
        let numbers: Vec<u32> = text.split('.').map_while(|n| n.parse().ok()).collect();
        match numbers[..] {
            [major, minor, patch] if minor < 100 && patch < 100 && dotted(&numbers) == text => {
                Ok(Self {
                    parts: [major, minor, patch],
                })
            }
            _ => Err(format!(
                "the version `{text}` of {PLACE} is not three numbers, the last two below 100"
            )),
        }
    }

    /// As one number.
    pub fn number(self) -> u32 {
        let [major, minor, patch] = self.parts;
        major * 10_000 + minor * 100 + patch
    }

    /// The sum that makes it.
    fn sum(self) -> String {
        let [major, minor, patch] = self.parts;
        format!("{major} * 10000 + {minor} * 100 + {patch}")
    }

    /// With points between.
    pub fn text(self) -> String {
        dotted(&self.parts)
    }

    /// The call whose name has it.
    pub fn symbol(self) -> String {
        format!("fimbrast_version_{}", self.text().replace('.', "_"))
    }

    /// The Rattle file with the calls.
    pub fn calls(self) -> String {
        self.filled(CALLS_TEXT)
    }

    /// The file with their exports.
    pub fn exports(self) -> String {
        self.filled(EXPORTS_TEXT)
    }

    /// The file with the definition.
    pub fn definition(self) -> String {
        self.filled(DEFINITION_TEXT)
    }

    /// A template with the version in it.
    pub fn filled(self, template: &str) -> String {
        template
            .replace("@NUMBER@", &self.number().to_string())
            .replace("@SUM@", &self.sum())
            .replace("@TEXT@", &self.text())
            .replace("@SYMBOL@", &self.symbol())
    }
}

fn dotted(parts: &[u32]) -> String {
    let each: Vec<String> = parts.iter().map(u32::to_string).collect();
    each.join(".")
}

#[cfg(test)]
mod tests {
    use super::Version;

    #[test]
    fn a_version_is_read() {
        let version = Version::parse("[package]\nversion = \"1.2.13\"\n").unwrap();
        assert_eq!(version.number(), 10_213);
        assert_eq!(version.symbol(), "fimbrast_version_1_2_13");
        assert!(version.calls().contains("fn fimbrast_version_1_2_13()"));
        assert!(version.exports().contains("fn fimbrast_version_1_2_13()"));
    }

    #[test]
    fn another_text_is_refused() {
        for text in ["1.2", "1.2.3-rc", "1.2.03", "1.100.0", "x"] {
            assert!(Version::parse(&format!("version = \"{text}\"\n")).is_err());
        }
    }
}
