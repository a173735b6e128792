//! How a program ended and what it wrote, and what of it is other than expected.

pub struct Exit {
    /// None if a signal ended it.
    pub status: Option<i32>,
    pub output: Vec<u8>,
    pub errors: Vec<u8>,
}

impl Exit {
    /// As a program should: with status 0, and with nothing on standard error.
    pub fn well(output: Vec<u8>) -> Exit {
        Exit { status: Some(0), output, errors: Vec::new() }
    }

    /// All that is other than expected, the first other line before the rest; none if nothing is.
    pub fn other(&self, expected: &Exit) -> Option<String> {
        let status = (self.status != expected.status)
            .then(|| format!("ended with status {:?}, the model with {:?}", self.status, expected.status));
        let errors = (self.errors != expected.errors)
            .then(|| format!("standard error has {}, the model's {}", quoted(&self.errors), quoted(&expected.errors)));
        let others = [first_other_line(&self.output, &expected.output), status, errors];
        let others: Vec<String> = others.into_iter().flatten().collect();
        (!others.is_empty()).then(|| others.join("; "))
    }
}

/// Lines count from 0. Their line feeds are compared too.
fn first_other_line(written: &[u8], expected: &[u8]) -> Option<String> {
    if written == expected {
        return None;
    }
    let mut written = written.split_inclusive(|&byte| byte == b'\n');
    let mut expected = expected.split_inclusive(|&byte| byte == b'\n');
    let shown = |line: Option<&[u8]>| line.map_or("missing".to_string(), quoted);
    (0..).find_map(|at| {
        let (line, wanted) = (written.next(), expected.next());
        (line != wanted).then(|| format!("line {at} is {}, the model's {}", shown(line), shown(wanted)))
    })
}

fn quoted(text: &[u8]) -> String {
    format!("{:?}", String::from_utf8_lossy(text))
}
