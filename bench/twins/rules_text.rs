//! Reads the rules files that `bench/files.rs` writes: sections with a key and a whole number or a name on each line.

use crate::maker::{BetweenRule, RangeRule, Rate, Rules, SECOND, SpeedRule, SwingRule, TrustRule, WeightRule};

struct Section<'a> {
    name: &'a str,
    keys: Vec<(&'a str, &'a str)>,
}

impl Section<'_> {
    fn text(&self, key: &str) -> Option<&str> {
        self.keys.iter().find(|entry| entry.0 == key).map(|entry| entry.1)
    }

    fn number(&self, key: &str) -> Option<i64> {
        self.text(key).map(|text| text.parse().expect("a whole number"))
    }

    fn name(&self, key: &str) -> Vec<u8> {
        self.text(key).expect("a name").trim_matches('"').as_bytes().to_vec()
    }

    fn price(&self) -> u32 {
        self.number("price").unwrap_or(0) as u32
    }

    fn moment(&self, key: &str, open: i64) -> i64 {
        self.number(key).map_or(open, |number| number * SECOND)
    }

    fn window(&self) -> i64 {
        self.number("window").expect("a window") * SECOND
    }

    fn rate(&self, key: &str) -> Rate {
        Rate { millionths: self.number(key).expect("a rate") * 1_000_000, per: self.number("per").unwrap_or(1) as u32 }
    }
}

fn sections(text: &str) -> Vec<Section<'_>> {
    let mut sections = Vec::new();
    for line in text.lines() {
        if line.starts_with('[') {
            sections.push(Section { name: line.trim_matches(['[', ']']), keys: Vec::new() });
        } else if let Some((key, value)) = line.split_once(" = ") {
            sections.last_mut().expect("a section").keys.push((key, value));
        }
    }
    sections
}

pub fn read_rules(text: &str) -> Rules {
    let mut rules = Rules::default();
    for section in sections(text) {
        push_rule(&mut rules, &section);
    }
    rules
}

fn push_rule(rules: &mut Rules, section: &Section) {
    let power = 10i64.pow(rules.decimals);
    let least = section.number("min").map_or(-crate::maker::MOST_UNITS, |number| number * power);
    let greatest = section.number("max").map_or(crate::maker::MOST_UNITS, |number| number * power);
    let (from, to) = (section.moment("from", i64::MIN), section.moment("to", i64::MAX));
    let price = section.price();
    match section.name {
        "format" => rules.decimals = section.number("decimals").unwrap_or(0) as u32,
        "speed" => {
            let (min, max) = (section.rate("min"), section.rate("max"));
            rules.speeds.push(SpeedRule { sensor: section.name("sensor"), min, max, window: section.window(), price });
        }
        "swing" => {
            let most = section.number("most").expect("a most") * power;
            rules.swings.push(SwingRule { sensor: section.name("sensor"), most, window: section.window(), price });
        }
        "range" => {
            rules.ranges.push(RangeRule { sensor: section.name("sensor"), min: least, max: greatest, from, to, price });
        }
        "trust" => rules.trusts.push(TrustRule { sensor: section.name("sensor"), from, to }),
        "weight" => {
            let weight = section.number("weight").expect("a weight") as u32;
            rules.weights.push(WeightRule { sensor: section.name("sensor"), weight, from, to });
        }
        "between" => {
            let (first, second) = (section.name("first"), section.name("second"));
            rules.betweens.push(BetweenRule { first, second, min: least, max: greatest, price });
        }
        name => panic!("no section {}", name),
    }
}
