//! A record as a JSON object. Numbers are exact: lengths are whole millimetres.

use crate::records::{frequency, layout};
use rtcm2::{
    Condition, Correction, Edition, Frame, General, GeneralHead, Issue, Mark, Measured, Observation, Refusal,
    SatelliteHealth, System, Taken,
};
use serde_json::{json, Map, Value};

/// The frame's place and header, its layout, and what the layout says.
pub fn object(taken: &Taken, edition: Edition, file: Option<&str>) -> Value {
    let (frame, header) = (&taken.frame, taken.frame.header());
    let mut object = json!({
        "at": taken.at,
        "before": taken.pair.to_string(),
        "type": header.kind,
        "station": header.station,
        "z": header.z,
        "seconds": f64::from(header.z_tenths()) / 10.0,
        "sequence": header.sequence,
        "health": header.health,
        "n": frame.n(),
        "layout": layout(frame),
    });
    let map = object.as_object_mut().expect("it is an object");
    if let Some(file) = file {
        map.insert("file".to_string(), json!(file));
    }
    match said(frame, edition) {
        Ok(said) => map.extend(said),
        Err(refusal) => map.extend(refused(refusal)),
    }
    object
}

fn refused(refusal: Refusal) -> Map<String, Value> {
    members(json!({ "refusal": refusal.number(), "text": refusal.text() }))
}

fn members(value: Value) -> Map<String, Value> {
    match value {
        Value::Object(map) => map,
        _ => Map::new(),
    }
}

fn said(frame: &Frame, edition: Edition) -> Result<Map<String, Value>, Refusal> {
    let (system, health) = (frame.header().system(), frame.header().health);
    Ok(members(match layout(frame) {
        "corrections" => json!({ "corrections": entries(frame.corrections()?, |c| correction(c, system, health)) }),
        "position" => {
            let position = frame.position()?;
            json!({ "x_cm": position.x_cm, "y_cm": position.y_cm, "z_cm": position.z_cm })
        }
        "healths" => json!({ "healths": entries(frame.healths()?, |h| satellite(h, system)) }),
        "null" => {
            frame.null()?;
            json!({})
        }
        "text" => json!({ "letters": frame.text()?.to_string() }),
        "observations" => {
            let epoch = frame.epoch()?;
            json!({
                "frequency": frequency(edition, frame.header().kind, epoch.frequency),
                "frequency_code": epoch.frequency,
                "smoothing": epoch.smoothing,
                "microseconds": epoch.time,
                "observations": entries(frame.observations(edition)?, |o| Ok(observation(o))),
            })
        }
        "general null" => json!({ "system": frame.general_null()?.system.to_string() }),
        "generals" => {
            let head = frame.general_head()?;
            json!({
                "system": head.system.to_string(),
                "signal": head.signal,
                "ephemeris": head.ephemeris,
                "use_s": head.seconds()?,
                "ionosphere": head.ionosphere == 1,
                "generals": entries(frame.generals()?, |g| general(g, &head, health)),
            })
        }
        _ => json!({ "data": frame.data().iter().map(|byte| format!("{byte:02x}")).collect::<String>() }),
    }))
}

/// The entries, each as it is told, or why it can't be read.
fn entries<T>(
    all: impl Iterator<Item = Result<T, Refusal>>,
    told: impl Fn(&T) -> Result<Value, Refusal>,
) -> Vec<Value> {
    all.map(|entry| entry.and_then(|entry| told(&entry)).unwrap_or_else(|r| Value::Object(refused(r)))).collect()
}

fn correction(correction: &Correction, system: System, health: u8) -> Result<Value, Refusal> {
    let mut value = json!({
        "system": system.to_string(),
        "satellite": correction.satellite,
        "stop": correction.stops(),
        "prc_mm": correction.prc_mm()?,
        "rrc_mm_s": correction.rrc_mm_s()?,
        "udre_limit_mm": correction.udre_limit_mm(health)?,
    });
    match correction.issue {
        Issue::Iod(iod) => value["iod"] = json!(iod),
        Issue::Age { change, tb } => {
            value["change"] = json!(change);
            value["tb_s"] = json!(30 * u16::from(tb));
        }
    }
    Ok(value)
}

fn general(general: &General, head: &GeneralHead, health: u8) -> Result<Value, Refusal> {
    let mut value = json!({
        "satellite": general.satellite,
        "stop": general.prc_mm()?.is_none(),
        "prc_mm": general.prc_mm()?,
        "udre_limit_hundredths_mm": general.udre_limit_hundredths(health)?,
        "iod": general.iod,
    });
    if head.ionosphere == 1 {
        value["delay_mm"] = json!(general.delay_mm()?);
    }
    Ok(value)
}

fn satellite(health: &SatelliteHealth, system: System) -> Result<Value, Refusal> {
    let mut value = json!({
        "system": system.to_string(),
        "satellite": health.satellite,
        "link": health.link == 1,
        "cn0_dbhz": health.cn0_dbhz()?,
        "enable": health.enable == 1,
        "new_data": health.new_data == 1,
        "loss_warning": health.loss == 1,
        "minutes": health.minutes(),
        "reserved": [health.reserved, health.spare],
    });
    match health.health {
        Condition::Code(code) => value["health"] = json!(code),
        Condition::Data(data, reserved) => {
            value["data_health"] = json!(data);
            value["data_reserved"] = json!(reserved);
        }
    }
    Ok(value)
}

fn observation(observation: &Observation) -> Value {
    let (mark, bit) = match observation.mark {
        Mark::Half(bit) => ("half_wavelength", bit),
        Mark::Reserved(bit) => ("reserved", bit),
        Mark::More(bit) => ("more_follow", bit),
    };
    let mut value = json!({
        "system": observation.system.to_string(),
        "satellite": observation.satellite,
        "code": if observation.code == 0 { "C/A" } else { "P" },
        "quality": observation.quality,
    });
    value[mark] = json!(bit == 1);
    match observation.measured {
        Measured::Phase(losses, phase) => {
            value["losses"] = json!(losses);
            value["phase_steps"] = json!(phase);
        }
        Measured::Range(multipath, range) => {
            value["multipath"] = json!(multipath);
            value["range_mm"] = json!(20 * u64::from(range));
        }
    }
    value
}
