//! A record as one line of text.

use crate::records::{frequency, layout, refused};
use crate::units::{hundred_thousandths, hundredths, tenths, thousandths};
use rtcm2::{
    Condition, Correction, Edition, Frame, General, GeneralHead, Issue, Mark, Measured, Observation, Refusal,
    SatelliteHealth, System, Taken,
};

/// Where the frame stands, its header, its layout, and what the layout says; entries have a
/// semicolon between them.
pub fn line(taken: &Taken, edition: Edition) -> String {
    let (at, frame, header) = (taken.at, &taken.frame, taken.frame.header());
    let (kind, station, health) = (header.kind, header.station, header.health);
    let seconds = tenths(header.z_tenths());
    let head = format!("{at} type {kind} station {station} at {seconds} s health {health}");
    match said(frame, edition) {
        Ok(said) if said.is_empty() => format!("{head} {}", layout(frame)),
        Ok(said) => format!("{head} {}: {said}", layout(frame)),
        Err(refusal) => format!("{head} {}: {}", layout(frame), refused(refusal)),
    }
}

fn said(frame: &Frame, edition: Edition) -> Result<String, Refusal> {
    let (system, health) = (frame.header().system(), frame.header().health);
    Ok(match layout(frame) {
        "corrections" => entries(frame.corrections()?, |c| correction(c, system, health)),
        "position" => {
            let position = frame.position()?;
            let metres = |cm: i32| hundredths(i64::from(cm));
            format!("X {} m Y {} m Z {} m", metres(position.x_cm), metres(position.y_cm), metres(position.z_cm))
        }
        "healths" => entries(frame.healths()?, |h| satellite(h, system)),
        "null" => {
            let null = frame.null()?;
            format!("N {}", null.n)
        }
        "text" => format!("{:?}", frame.text()?.to_string()),
        "observations" => {
            let epoch = frame.epoch()?;
            let kind = frame.header().kind;
            let name = frequency(edition, kind, epoch.frequency).unwrap_or("reserved");
            let all = entries(frame.observations(edition)?, |o| Ok(observation(o)));
            format!("{name} smoothing {} after {} us: {all}", epoch.smoothing, epoch.time)
        }
        "general null" => frame.general_null()?.system.to_string(),
        "generals" => {
            let head = frame.general_head()?;
            let (signal, ephemeris, seconds) = (head.signal, head.ephemeris, head.seconds()?);
            let all = entries(frame.generals()?, |g| general(g, &head, health));
            format!("signal {signal} ephemeris {ephemeris} for {seconds} s: {all}")
        }
        _ => format!("N {}", frame.n()),
    })
}

/// The entries, each as it is told, or its number and why it can't be read.
fn entries<T>(all: impl Iterator<Item = Result<T, Refusal>>, told: impl Fn(&T) -> Result<String, Refusal>) -> String {
    let told = |(index, entry): (usize, Result<T, Refusal>)| {
        entry.and_then(|entry| told(&entry)).unwrap_or_else(|refusal| format!("entry {index} {}", refused(refusal)))
    };
    all.enumerate().map(told).collect::<Vec<_>>().join("; ")
}

fn correction(correction: &Correction, system: System, health: u8) -> Result<String, Refusal> {
    let issue = match correction.issue {
        Issue::Iod(iod) => format!("IOD {iod}"),
        Issue::Age { change, tb } => format!("change {} tb {} s", u8::from(change), 30 * u16::from(tb)),
    };
    let limit = match correction.udre_limit_mm(health)? {
        Some(mm) => format!("UDRE {} m", thousandths(i64::from(mm))),
        None => "UDRE none".to_string(),
    };
    let values = match (correction.prc_mm()?, correction.rrc_mm_s()?) {
        (Some(mm), Some(mm_s)) => {
            format!("PRC {} m RRC {} m/s", thousandths(i64::from(mm)), thousandths(i64::from(mm_s)))
        }
        _ => "stop".to_string(),
    };
    Ok(format!("{system} {} {values} {limit} {issue}", correction.satellite))
}

fn general(general: &General, head: &GeneralHead, health: u8) -> Result<String, Refusal> {
    let prc = match general.prc_mm()? {
        Some(mm) => format!("PRC {} m", thousandths(i64::from(mm))),
        None => "stop".to_string(),
    };
    let delay = match (head.ionosphere, general.delay_mm()?) {
        (0, _) => String::new(),
        (_, Some(mm)) => format!(" delay {} m", thousandths(i64::from(mm))),
        (_, None) => " delay none".to_string(),
    };
    let limit = match general.udre_limit_hundredths(health)? {
        Some(limit) => format!("UDRE {} m", hundred_thousandths(limit)),
        None => "UDRE none".to_string(),
    };
    Ok(format!("{} {} {prc}{delay} {limit} IOD {}", head.system, general.satellite, general.iod))
}

fn satellite(health: &SatelliteHealth, system: System) -> Result<String, Refusal> {
    let state = match health.health {
        Condition::Code(code) => format!("health {code}"),
        Condition::Data(data, _) => format!("data health {data}"),
    };
    let level = match health.cn0_dbhz()? {
        Some(dbhz) => format!("C/N0 {dbhz} dBHz"),
        None => "not tracked".to_string(),
    };
    let flag = |is_set: u8, word: &str| if is_set == 1 { format!(" {word}") } else { String::new() };
    let (link, enable, new) =
        (flag(health.link, "link"), flag(health.enable, "enable"), flag(health.new_data, "new data"));
    let loss = if health.loss == 1 { format!(" loss in {} min", health.minutes()) } else { String::new() };
    Ok(format!("{system} {} {state} {level}{link}{enable}{new}{loss}", health.satellite))
}

fn observation(observation: &Observation) -> String {
    let code = if observation.code == 0 { "C/A" } else { "P" };
    let first = match observation.mark {
        Mark::Half(1) => " half",
        Mark::More(1) => " more",
        _ => "",
    };
    let (system, satellite, quality) = (observation.system, observation.satellite, observation.quality);
    let measured = match observation.measured {
        Measured::Phase(losses, phase) => format!("losses {losses} phase {phase} steps"),
        Measured::Range(multipath, range) => {
            format!("multipath {multipath} range {} m", thousandths(20 * i64::from(range)))
        }
    };
    format!("{system} {satellite} {code}{first} quality {quality} {measured}")
}
