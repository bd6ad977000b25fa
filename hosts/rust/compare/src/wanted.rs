/// How long a run is to be: `least`, or what a variable of the environment asks for, which may not be less.
pub fn wanted(variable: &str, least: u64) -> u64 {
    let text = std::env::var(variable).ok();
    number(text.as_deref(), least).unwrap_or_else(|fault| panic!("{variable} {fault}"))
}

fn number(text: Option<&str>, least: u64) -> Result<u64, String> {
    let Some(text) = text else { return Ok(least) };
    let number = text.parse().map_err(|_| format!("is {text:?}, which is no number"))?;
    if number < least {
        return Err(format!("asks for {number}, and runs shorter than {least} are refused"));
    }
    Ok(number)
}

#[cfg(test)]
mod tests {
    use super::number;

    #[test]
    fn longer_runs_are_made_and_shorter_ones_refused() {
        assert_eq!(number(None, 600), Ok(600));
        assert_eq!(number(Some("601"), 600), Ok(601));
        assert!(number(Some("599"), 600).is_err());
        assert!(number(Some("many"), 600).is_err());
    }
}
