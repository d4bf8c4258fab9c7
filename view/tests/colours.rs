//! The colours of the lanes, as people see them who lack one kind of cone, and as grey print has them; and of the marks.

type Three = [f64; 3];

/// Of Machado, Oliveira and Fernandes (2009), for those who lack a kind of cone: red, green, blue; and plain sight.
const SIGHTS: [(&str, [Three; 3]); 4] = [
    ("all cones", [[1.0, 0.0, 0.0], [0.0, 1.0, 0.0], [0.0, 0.0, 1.0]]),
    ("no red", [[0.152286, 1.052583, -0.204868], [0.114503, 0.786281, 0.099216], [-0.003882, -0.048116, 1.051998]]),
    ("no green", [[0.367322, 0.860646, -0.227968], [0.280085, 0.672501, 0.047413], [-0.011820, 0.042940, 0.968881]]),
    ("no blue", [[1.255528, -0.076749, -0.178779], [-0.078411, 0.930809, 0.147602], [0.004733, 0.691367, 0.303900]]),
];

const STATES: [&str; 6] = ["running", "ready", "event", "message", "suspended", "idle"];
/// Distances in CIELAB; about 2 can just be told apart side by side.
const LEAST_DISTANCE: f64 = 15.0;
const LEAST_GREY: f64 = 9.0;
/// Of what is drawn to what it is drawn on, by WCAG 2.
const LEAST_CONTRAST: f64 = 3.0;

/// The colour of a state in the part of the styles that begins with this.
fn colour(part: &str, state: &str) -> Three {
    let styles = include_str!("../page/style.css");
    let part = &styles[styles.find(part).expect("the theme")..];
    let name = format!("--{state}: #");
    let digits = &part[part.find(&name).expect("the colour") + name.len()..][..6];
    let linear = |place: usize| {
        let value = f64::from(u8::from_str_radix(&digits[2 * place..2 * place + 2], 16).expect("digits")) / 255.0;
        if value <= 0.04045 {
            value / 12.92
        } else {
            ((value + 0.055) / 1.055).powf(2.4)
        }
    };
    [0, 1, 2].map(linear)
}

fn seen(sight: &[Three; 3], colour: Three) -> Three {
    sight.map(|row| row.iter().zip(colour).map(|(factor, part)| factor * part).sum::<f64>().clamp(0.0, 1.0))
}

fn lab([red, green, blue]: Three) -> Three {
    let root = |part: f64| if part > 0.008856 { part.cbrt() } else { 7.787 * part + 16.0 / 116.0 };
    let x = root((0.4124 * red + 0.3576 * green + 0.1805 * blue) / 0.95047);
    let y = root(0.2126 * red + 0.7152 * green + 0.0722 * blue);
    let z = root((0.0193 * red + 0.1192 * green + 0.9505 * blue) / 1.08883);
    [116.0 * y - 16.0, 500.0 * (x - y), 200.0 * (y - z)]
}

fn pairs() -> impl Iterator<Item = (&'static str, &'static str)> {
    STATES.iter().enumerate().flat_map(|(place, one)| STATES[place + 1..].iter().map(move |other| (*one, *other)))
}

#[test]
fn everybody_tells_the_states_apart() {
    for theme in [":root {", ":root.dark {"] {
        for (name, sight) in SIGHTS {
            for (one, other) in pairs() {
                let [one_seen, other_seen] = [one, other].map(|state| lab(seen(&sight, colour(theme, state))));
                let distance = one_seen.iter().zip(other_seen).map(|(a, b)| (a - b).powi(2)).sum::<f64>().sqrt();
                assert!(distance > LEAST_DISTANCE, "{theme} {name}: {one} and {other} are {distance:.0} apart");
            }
        }
    }
}

/// The marks above the lanes; a stretch has the border of those that are reissued.
#[test]
fn the_marks_are_seen_on_the_panel() {
    let light = |[red, green, blue]: Three| 0.2126 * red + 0.7152 * green + 0.0722 * blue + 0.05;
    for theme in [":root {", ":root.dark {"] {
        for mark in ["refused", "reissued", "interrupt"] {
            let [mark_light, panel] = [mark, "panel"].map(|name| light(colour(theme, name)));
            let contrast = mark_light.max(panel) / mark_light.min(panel);
            assert!(contrast > LEAST_CONTRAST, "{theme} {mark}: {contrast:.1}");
        }
    }
}

#[test]
fn grey_print_tells_the_states_apart() {
    for (one, other) in pairs() {
        let [one_grey, other_grey] = [one, other].map(|state| lab(colour(":root {", state))[0]);
        assert!((one_grey - other_grey).abs() > LEAST_GREY, "{one} {one_grey:.0} and {other} {other_grey:.0}");
    }
}
