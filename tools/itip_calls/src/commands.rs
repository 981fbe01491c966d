//! The commands of a script, each as one word for each part.

use crate::error::CallError;
use itip_script::{Command, Commands};
use std::alloc::Global;
use std::str;

/// The commands of a script, with `; ` between them.
pub(crate) fn commands(alloc: Global, script: &[u8]) -> Result<Vec<u8>, CallError> {
    let mut all = String::new(alloc);
    for command in Commands::new(script) {
        if !all.is_empty() {
            all.push_str("; ")?;
        }
        all.push_str(shown(alloc, &command)?.as_str())?;
    }
    Ok(all.into_bytes())
}

fn shown(alloc: Global, command: &Command<'_>) -> Result<String, CallError> {
    Ok(match command {
        Command::Take { desk, text } => format!(in alloc; "take {desk} {:?}", shown_bytes(text))?,
        Command::List { desk } => format!(in alloc; "list {desk}")?,
        Command::Mine { desk, address } => {
            format!(in alloc; "mine {desk} {:?}", shown_bytes(address))?
        }
        Command::Post { desk, since } => format!(in alloc; "post {desk} {since}")?,
        Command::Arrive { packet, desk } => format!(in alloc; "arrive {packet} {desk}")?,
        Command::Report { desk, name } => format!(in alloc; "report {desk} {name:?}")?,
        Command::Resend { desk, uid } => format!(in alloc; "resend {desk} {:?}", shown_bytes(uid))?,
        Command::Next { desk, uid } => format!(in alloc; "next {desk} {:?}", shown_bytes(uid))?,
        Command::Entries { desk } => format!(in alloc; "entries {desk}")?,
        Command::Malformed => String::from_str(alloc, "malformed")?,
    })
}

fn shown_bytes(bytes: &[u8]) -> &str {
    str::from_utf8(bytes).unwrap_or("no text")
}
