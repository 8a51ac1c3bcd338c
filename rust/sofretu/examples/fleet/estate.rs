//! Sheets of 1,024 places with a handset each, made by code: 32 buildings of a machine room, 3 shafts and 28 cars.

/// How many places a sheet has.
pub const PLACES: u16 = 1_024;
/// How many of them a building has: its machine room, its shafts, its cars.
const IN_BUILDING: u16 = 32;
const SHAFTS: u16 = 3;

/// The settings that a handset is asked for.
pub const SETTINGS: [u8; 3] = [DIAL, INTERVAL, VOLUME];

// The attributes: where a place belongs, what it has of its own (0 for nothing), and its settings.
const UP: u8 = 0;
const OWN: u8 = 1;
const DIAL: u8 = 4;
const INTERVAL: u8 = 5;
const VOLUME: u8 = 6;
/// From a setting to what a place has of its own for it.
const TO_OWN: u8 = DIAL - OWN;

// The kinds.
const ROOM: u8 = 0;
const SHAFT: u8 = 1;
const CAR: u8 = 2;

/// A car is louder than its shaft by this much.
const LOUDER: i32 = 2;

fn kind(place: u16) -> u8 {
    match place % IN_BUILDING {
        0 => ROOM,
        1..=SHAFTS => SHAFT,
        _ => CAR,
    }
}

/// The place that another belongs to.
fn up(place: u16) -> Option<u16> {
    let (building, within) = (place / IN_BUILDING * IN_BUILDING, place % IN_BUILDING);
    match kind(place) {
        ROOM => None,
        SHAFT => Some(building),
        _ => Some(building + 1 + within % SHAFTS),
    }
}

/// What a place of a sheet has of its own for a setting: a machine room all, one shaft in three a volume, few cars a number.
fn own(sheet: u16, place: u16, setting: u8) -> i32 {
    let building = i32::from(place / IN_BUILDING);
    match (kind(place), setting) {
        (ROOM, DIAL) => 20_000_000 + i32::from(sheet) * 100 + building,
        (ROOM, INTERVAL) => 4_320 - 60 * (building % 3),
        (ROOM, _) => 10 + building % 5,
        (SHAFT, VOLUME) if place.is_multiple_of(3) => 15,
        (CAR, DIAL) if place.is_multiple_of(11) => 70_000_000 + i32::from(place),
        _ => 0,
    }
}

/// What the rules make of it, worked out beside them.
pub fn expected(sheet: u16, place: u16, setting: u8) -> i32 {
    match (own(sheet, place, setting), up(place)) {
        (0, Some(up)) => {
            let louder = kind(place) == CAR && setting == VOLUME;
            expected(sheet, up, setting) + if louder { LOUDER } else { 0 }
        }
        (own, _) => own,
    }
}

/// The question for a setting of a place.
pub fn question(place: u16, setting: u8) -> [u8; 6] {
    let [low, high] = place.to_le_bytes();
    [0x22, setting, 0x13, low, high, 0x10]
}

/// An attribute of this place, or of the place that it belongs to.
fn of_this(attribute: u8) -> Vec<u8> {
    vec![0x22, attribute, 0x30, 0x10]
}

fn of_up(attribute: u8) -> Vec<u8> {
    [&[0x22, attribute][..], &of_this(UP), &[0x10]].concat()
}

fn int(number: i32) -> Vec<u8> {
    [&[0x12][..], &number.to_le_bytes()].concat()
}

/// A function of two arguments: 1 is equal, 4 is add.
fn applied(function: u8, first: &[u8], second: &[u8]) -> Vec<u8> {
    [&[0x21, 0x21, 0x14, function], first, second].concat()
}

fn rule(kind: u8, attribute: u8, expression: &[u8]) -> Vec<u8> {
    let length = u16::try_from(expression.len()).expect("a short rule");
    [
        &[0x52, kind, attribute][..],
        &length.to_le_bytes(),
        expression,
    ]
    .concat()
}

fn figure(place: u16, attribute: u8, value: [u8; 4]) -> Vec<u8> {
    let [low, high] = place.to_le_bytes();
    [&[0x56, low, high, attribute][..], &value].concat()
}

/// The bytes of a sheet.
pub fn sheet(number: u16) -> Vec<u8> {
    let mut sheet = vec![0x41, 3, 0];
    sheet.extend([0x41, 2, 0].repeat(2 * SETTINGS.len()));
    for place in 0..PLACES {
        sheet.extend([0x4E, kind(place)]);
    }
    for place in 0..PLACES {
        let [low, high] = up(place).unwrap_or(u16::MAX).to_le_bytes();
        sheet.extend(figure(place, UP, [low, high, 0, 0]));
        for setting in SETTINGS {
            let own = own(number, place, setting);
            if own != 0 {
                sheet.extend(figure(place, setting - TO_OWN, own.to_le_bytes()));
            }
        }
    }
    for setting in SETTINGS {
        let own = setting - TO_OWN;
        sheet.extend(rule(ROOM, setting, &of_this(own)));
        for kind in [SHAFT, CAR] {
            // Nothing of its own, unless a figure says so: then what the place above has.
            sheet.extend(rule(kind, own, &int(0)));
            let above = if kind == CAR && setting == VOLUME {
                applied(4, &of_up(setting), &int(LOUDER))
            } else {
                of_up(setting)
            };
            let none = applied(1, &of_this(own), &int(0));
            sheet.extend(rule(
                kind,
                setting,
                &[&[0x20], &none[..], &above, &of_this(own)].concat(),
            ));
        }
    }
    sheet.push(0x5A);
    sheet
}
