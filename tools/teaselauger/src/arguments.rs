//! The arguments of a command: options, each at most once, and the rest in order.
use crate::failure::Failure;

/// An option's name, and whether a value follows it.
pub type Known = (&'static str, bool);

#[derive(Debug, Default)]
pub struct Arguments {
    pub rest: Vec<String>,
    options: Vec<(&'static str, String)>,
}

impl Arguments {
    pub fn of(given: &[String], known: &[Known]) -> Result<Arguments, Failure> {
        let mut all = Arguments::default();
        let mut given = given.iter();
        while let Some(argument) = given.next() {
            if argument == "--" {
                all.rest.extend(given.cloned());
                break;
            }
            if argument == "-" || !argument.starts_with('-') {
                all.rest.push(argument.clone());
                continue;
            }
            let (name, inline) = match argument.split_once('=') {
                Some((name, value)) => (name, Some(value.to_string())),
                None => (argument.as_str(), None),
            };
            let Some(&(name, valued)) = known.iter().find(|option| option.0 == name) else {
                return Err(Failure::Usage(format!("{name} is no option of this command")));
            };
            all.add(name, valued, inline, &mut given)?;
        }
        Ok(all)
    }

    fn add(
        &mut self,
        name: &'static str,
        valued: bool,
        inline: Option<String>,
        given: &mut std::slice::Iter<String>,
    ) -> Result<(), Failure> {
        if self.has(name) {
            return Err(Failure::Usage(format!("{name} is given twice")));
        }
        let value = match (valued, inline) {
            (false, None) => String::new(),
            (false, Some(_)) => return Err(Failure::Usage(format!("{name} takes no value"))),
            (true, Some(value)) => value,
            (true, None) => given.next().cloned().ok_or_else(|| Failure::Usage(format!("{name} asks for a value")))?,
        };
        self.options.push((name, value));
        Ok(())
    }

    pub fn has(&self, name: &str) -> bool {
        self.value(name).is_some()
    }

    pub fn value(&self, name: &str) -> Option<&str> {
        self.options.iter().find(|option| option.0 == name).map(|option| option.1.as_str())
    }

    /// A decimal number of 64 bits, if the option is given.
    pub fn number(&self, name: &str) -> Result<Option<u64>, Failure> {
        let Some(text) = self.value(name) else { return Ok(None) };
        let digits = !text.is_empty() && text.bytes().all(|byte| byte.is_ascii_digit());
        match text.parse() {
            Ok(number) if digits => Ok(Some(number)),
            _ => Err(Failure::Usage(format!("{name} asks for a number, not {text}"))),
        }
    }

    /// The one argument that is no option.
    pub fn only(&self, what: &str) -> Result<&str, Failure> {
        match self.rest.as_slice() {
            [one] => Ok(one),
            [] => Err(Failure::Usage(format!("{what} is missing"))),
            [_, more, ..] => Err(Failure::Usage(format!("{more} is one argument too many"))),
        }
    }
}

#[cfg(test)]
mod tests {
    use super::*;

    const KNOWN: [Known; 2] = [("--seed", true), ("--text", false)];

    fn of(given: &[&str]) -> Result<Arguments, Failure> {
        let given: Vec<String> = given.iter().map(|text| text.to_string()).collect();
        Arguments::of(&given, &KNOWN)
    }

    #[test]
    fn options_stand_anywhere() {
        let all = of(&["a", "--seed", "7", "b", "--text", "-"]).unwrap();
        assert_eq!((all.rest.join(" "), all.number("--seed"), all.has("--text")), ("a b -".into(), Ok(Some(7)), true));
        let all = of(&["--seed=8", "--", "--text"]).unwrap();
        assert_eq!((all.rest.join(" "), all.number("--seed"), all.has("--text")), ("--text".into(), Ok(Some(8)), false));
    }

    #[test]
    fn wrong_usage_is_told() {
        for wrong in [&["--sed"][..], &["--seed"], &["--seed", "1", "--seed", "2"], &["--text=1"], &["-x"]] {
            assert!(matches!(of(wrong), Err(Failure::Usage(_))), "{wrong:?}");
        }
        for wrong in ["x", "", "-1", "+1", "18446744073709551616"] {
            assert!(of(&["--seed", wrong]).unwrap().number("--seed").is_err(), "{wrong}");
        }
        assert!(of(&[]).unwrap().only("FILE").is_err() && of(&["a", "b"]).unwrap().only("FILE").is_err());
    }
}
