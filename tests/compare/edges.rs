//! What is reached at the edges of the frequency's regions (spec 6.8) and beyond: each edge in service and tripped, with voltages of each
//! region; and far outside, below 57000 or above 62000, each limit that runs out, trips, and recovery counts that the frequency alone
//! sets to 0. Regions are numbered as their statuses: 2 continuous, 3 mandatory, 4 momentary, 5 cease.

/// The frequencies at the edges.
pub const FREQUENCIES: [u32; 8] = [56999, 57000, 58799, 58800, 61200, 61201, 62000, 62001];
/// The limits in sheet order.
pub const LIMITS: [&str; 8] = ["uv1", "uv2", "ov1", "ov2", "uf1", "uf2", "of1", "of2"];
const REGIONS: [&str; 4] = ["continuous", "mandatory", "momentary", "cease"];
const SERVICE: [&str; 2] = ["tripped", "in service"];

pub fn region_of_code(code: u32) -> u8 {
    match code {
        250..=774 => 3,
        775..=1210 => 2,
        0..=1440 => 4,
        _ => 5,
    }
}

pub fn region_of_frequency(frequency: u32) -> u8 {
    match frequency {
        58800..=61200 => 2,
        57000..=62000 => 3,
        _ => 5,
    }
}

/// An accepted sample and what its step shows; of pairs the first is before it and the second after it.
pub struct Step<'a> {
    pub sample: &'a [u32],
    pub service: [bool; 2],
    pub recovery: [u8; 2],
    /// which limits have run out, as one number, uv1 highest of nine bits
    pub bits: [u16; 2],
    pub status: u8,
}

#[derive(Default)]
pub struct Edges {
    /// by edge, service and the region of the voltages
    at: [[[usize; 4]; 2]; FREQUENCIES.len()],
    run_out: [usize; 8],
    /// by permission
    trips: [usize; 2],
    /// below and above
    set_back: [usize; 2],
}

impl Edges {
    /// Counts an accepted step, and holds that a board in service shows the worst region; entering is continuous.
    pub fn count(&mut self, step: &Step) {
        let (frequency, [before, now]) = (step.sample[3], step.service);
        let voltages = step.sample[..3].iter().map(|&code| region_of_code(code)).max().unwrap();
        assert!(!now || step.status.max(2) == voltages.max(region_of_frequency(frequency)), "status {} of {:?}", step.status, step.sample);
        if let Some(edge) = FREQUENCIES.iter().position(|&edge| edge == frequency) {
            self.at[edge][usize::from(now)][usize::from(voltages) - 2] += usize::from(before == now);
        }
        if region_of_frequency(frequency) == 5 {
            for (place, count) in self.run_out.iter_mut().enumerate() {
                *count += usize::from((step.bits[1] & !step.bits[0]) >> (8 - place) & 1 == 1);
            }
            self.trips[step.sample[4] as usize] += usize::from(before && !now);
            let set_back = before && now && voltages <= 3 && step.recovery[0] > 0 && step.recovery[1] == 0;
            self.set_back[usize::from(frequency > 62000)] += usize::from(set_back);
        }
    }

    /// Each thing to be reached, with its count, but for limits that run out.
    pub fn things(&self) -> Vec<(String, usize)> {
        let mut things = Vec::new();
        for (frequency, counts) in FREQUENCIES.into_iter().zip(self.at) {
            for (service, counts) in SERVICE.into_iter().zip(counts) {
                for (region, count) in REGIONS.into_iter().zip(counts) {
                    things.push((format!("{frequency} mHz {service}, voltages {region}"), count));
                }
            }
        }
        things.push(("tripped far outside by permission".to_string(), self.trips[0]));
        things.push(("tripped far outside by a limit".to_string(), self.trips[1]));
        things.push(("recovery to 0 below 57000 mHz, by the frequency alone".to_string(), self.set_back[0]));
        things.push(("recovery to 0 above 62000 mHz, by the frequency alone".to_string(), self.set_back[1]));
        things
    }

    /// How often each limit runs out far outside: its counter is at its top after the step and was not before.
    pub fn run_out(&self) -> Vec<(String, usize)> {
        LIMITS.into_iter().zip(self.run_out).map(|(name, count)| (format!("{name} runs out far outside"), count)).collect()
    }
}
