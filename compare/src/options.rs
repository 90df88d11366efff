//! The command line: a subcommand, its path where it has one, `--seed` and `--count`.

pub struct Options {
    pub command: String,
    pub path: Option<String>,
    pub seed: u64,
    pub count: Option<usize>,
}

pub fn read(arguments: impl Iterator<Item = String>) -> Result<Options, String> {
    let mut options = Options {
        command: String::new(),
        path: None,
        seed: 1,
        count: None,
    };
    let mut arguments = arguments;
    while let Some(argument) = arguments.next() {
        match argument.as_str() {
            "--seed" => options.seed = number(&argument, arguments.next())?,
            "--count" => options.count = Some(number(&argument, arguments.next())? as usize),
            _ if options.command.is_empty() => options.command = argument,
            _ if options.path.is_none() => options.path = Some(argument),
            _ => return Err(format!("{argument} is one word too many")),
        }
    }
    Ok(options)
}

fn number(option: &str, value: Option<String>) -> Result<u64, String> {
    value
        .and_then(|value| value.parse().ok())
        .ok_or(format!("{option} needs a number"))
}
