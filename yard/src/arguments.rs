//! The arguments of the program.

use crate::radio::Faults;
use crate::random::Rate;
use crate::run::Settings;
use ppspp::sizes::MAX_CHUNKS;
use ppspp::Addressing;
use std::path::PathBuf;

/// The most vans of a yard.
pub const MAX_VANS: u64 = 500;

/// The most simulated seconds of a run.
pub const MAX_SECONDS: u64 = 86_400;

/// What the program can do, and with which arguments.
pub const HELP: &str = "\
A yard of vans copies a pack from a server and from each other, over a bad radio and past an attacker.

usage: yard [arguments]

  --vans N                  the number of vans, 1 to 500 (40)
  --chunks N                the chunks of the pack, 1 to 512 (512)
  --addressing bins|ranges  how the order has messages name chunks (ranges)
  --seed S                  decides the run (1)
  --loss P                  per cent of datagrams that are lost (20)
  --duplicate P             per cent of datagrams that come twice (3)
  --reorder P               per cent of datagrams that come late (10)
  --truncate P              per cent of datagrams that are cut short (2)
  --flip P                  per cent of datagrams with flipped bits (2)
  --attacker on|off         whether an attacker transmits too (on)
  --seconds LIMIT           the simulated seconds after which the run ends in any case (600)
  --plot FILE               writes an SVG of the chunks that each van held over time
  --help                    writes this

The status is 0 if every van ends whole and every check holds, 1 if not, 2 if an argument is wrong.
";

/// What the program is asked to do.
#[derive(Clone, Debug, PartialEq, Eq)]
pub enum Asked {
    /// To write the help.
    Help,
    /// To run, and perhaps to plot.
    Run(Settings, Option<PathBuf>),
}

/// The settings without arguments.
pub fn defaults() -> Settings {
    Settings {
        vans: 40,
        chunks: MAX_CHUNKS,
        addressing: Addressing::Ranges,
        seed: 1,
        faults: Faults {
            loss: Rate::per_cent(20),
            duplicate: Rate::per_cent(3),
            reorder: Rate::per_cent(10),
            truncate: Rate::per_cent(2),
            flip: Rate::per_cent(2),
        },
        attacker: true,
        drop_outs: true,
        seconds: 600,
    }
}

/// What arguments ask for, or a sentence that says what is wrong with them.
pub fn parse(arguments: &[String]) -> Result<Asked, String> {
    let (mut settings, mut plot) = (defaults(), None);
    let mut rest = arguments.iter();
    while let Some(name) = rest.next() {
        if name == "--help" {
            return Ok(Asked::Help);
        }
        let mut value = || {
            let value = rest.next();
            value.ok_or_else(|| format!("The argument {name} needs a value."))
        };
        match name.as_str() {
            "--vans" => settings.vans = number(name, value()?, 1, MAX_VANS)? as usize,
            "--chunks" => {
                settings.chunks = number(name, value()?, 1, u64::from(MAX_CHUNKS))? as u32;
            }
            "--addressing" => settings.addressing = addressing(name, value()?)?,
            "--seed" => settings.seed = number(name, value()?, 0, u64::MAX)?,
            "--loss" => settings.faults.loss = rate(name, value()?)?,
            "--duplicate" => settings.faults.duplicate = rate(name, value()?)?,
            "--reorder" => settings.faults.reorder = rate(name, value()?)?,
            "--truncate" => settings.faults.truncate = rate(name, value()?)?,
            "--flip" => settings.faults.flip = rate(name, value()?)?,
            "--attacker" => settings.attacker = switch(name, value()?)?,
            "--seconds" => settings.seconds = number(name, value()?, 1, MAX_SECONDS)?,
            "--plot" => plot = Some(PathBuf::from(value()?)),
            _ => return Err(format!("There is no argument {name}; --help lists them.")),
        }
    }
    Ok(Asked::Run(settings, plot))
}

fn number(name: &str, value: &str, least: u64, most: u64) -> Result<u64, String> {
    let digits = !value.is_empty() && value.bytes().all(|byte| byte.is_ascii_digit());
    let number = value.parse().ok().filter(|_| digits);
    number
        .filter(|number| (least..=most).contains(number))
        .ok_or_else(|| {
            format!("The argument {name} needs a number from {least} to {most}, not {value:?}.")
        })
}

/// A rate in per cent, with up to four decimals.
fn rate(name: &str, value: &str) -> Result<Rate, String> {
    let wrong = || format!("The argument {name} needs per cent from 0 to 100, not {value:?}.");
    let (whole, decimals) = value.split_once('.').unwrap_or((value, "0"));
    let digits = |text: &str| !text.is_empty() && text.bytes().all(|byte| byte.is_ascii_digit());
    if !digits(whole) || !digits(decimals) || whole.len() > 3 || decimals.len() > 4 {
        return Err(wrong());
    }
    let parts: u32 = format!("{whole}{decimals:0<4}")
        .parse()
        .map_err(|_| wrong())?;
    if parts > Rate::WHOLE.0 {
        return Err(wrong());
    }
    Ok(Rate(parts))
}

fn switch(name: &str, value: &str) -> Result<bool, String> {
    match value {
        "on" => Ok(true),
        "off" => Ok(false),
        _ => Err(format!(
            "The argument {name} is on or off, and not {value:?}."
        )),
    }
}

fn addressing(name: &str, value: &str) -> Result<Addressing, String> {
    match value {
        "bins" => Ok(Addressing::Bins),
        "ranges" => Ok(Addressing::Ranges),
        _ => Err(format!(
            "The argument {name} is bins or ranges, and not {value:?}."
        )),
    }
}
