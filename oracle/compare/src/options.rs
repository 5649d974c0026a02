//! The command line.

/// How many calls it takes to be sure that every branch is taken.
pub const ENOUGH: u64 = 200_000;
const HELP: &str = "compare [--calls N] [--seed S] [--only TRACE] [--show] [--out FILE]
        compare --raised N

  --calls N     so many calls, 200000 if not said
  --seed S      another seed than 1
  --only TRACE  only the trace of this number
  --raised N    stores of 32,769 and of 65,536 keys instead, under both rules when full: each filled beyond full, and N calls more
  --show        print every call before it is made
  --out FILE    where the trace goes that ends in a difference
";

/// What is asked for.
pub struct Options {
    pub calls: u64,
    pub seed: u64,
    pub only: Option<u64>,
    pub raised: Option<u64>,
    pub show: bool,
    pub out: String,
}

/// The options, or what is wrong with them.
pub fn options() -> Result<Options, String> {
    let mut options = Options {
        calls: ENOUGH,
        seed: 1,
        only: None,
        raised: None,
        show: false,
        out: "difference.trace".to_string(),
    };
    let mut words = std::env::args().skip(1);
    while let Some(word) = words.next() {
        let mut value = || words.next().ok_or(format!("{word} needs a value"));
        let number = |text: String| {
            text.parse::<u64>()
                .map_err(|fault| format!("{text}: {fault}"))
        };
        match word.as_str() {
            "--calls" => options.calls = number(value()?)?,
            "--seed" => options.seed = number(value()?)?,
            "--only" => options.only = Some(number(value()?)?),
            "--raised" => options.raised = Some(number(value()?)?),
            "--show" => options.show = true,
            "--out" => options.out = value()?,
            _ => return Err(format!("{word}?\n{HELP}")),
        }
    }
    Ok(options)
}
