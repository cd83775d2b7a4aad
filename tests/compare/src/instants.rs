//! Timestamps: random ones and those at every edge, both ways.

use crate::random::Random;

/// A unit: 1 to 3 nearly always.
pub fn unit(random: &mut Random) -> u32 {
    if random.percent(4) {
        let any = random.any() as u32;
        random.pick(&[0, 4, 5, 256, 257, u32::MAX, 1 << 31 | 1, any])
    } else {
        random.between(1, 3) as u32
    }
}

/// A count: any, of any magnitude, around a whole day or second, or at an end.
pub fn count(random: &mut Random) -> i64 {
    let near = random.below(3) as i64 - 1;
    let ticks = random.pick(&[1_000, 1_000_000, 1_000_000_000]);
    let days = random.of_any_size() as i64 % (i64::MAX / 86_400 / ticks);
    let sign = random.pick(&[1, -1]);
    match random.below(6) {
        0 => random.any() as i64,
        1 => (random.of_any_size() as i64).wrapping_mul(sign),
        2 => sign * days * 86_400 * ticks + near,
        3 => sign * random.between(0, 200_000) as i64 * ticks + near,
        4 => random.pick(&[i64::MIN, i64::MIN + 1, i64::MAX, i64::MAX - 1, 0, 1, -1]),
        // Around 29 February and 1 March of years from -20000 to 20000.
        _ => {
            let year = random.between(0, 40_000) as i64 - 20_000;
            let day = 365 * year + year.div_euclid(4) - year.div_euclid(100) + year.div_euclid(400) - 719_468;
            (day + random.below(5) as i64 - 3).saturating_mul(86_400 * ticks).saturating_add(near)
        }
    }
}

/// Fields: year, month, day, hour, minute, second, fraction; good ones most of the time, else with one or two changed.
pub fn fields(random: &mut Random, unit: u32) -> [i64; 7] {
    let ticks = [1_000, 1_000, 1_000_000, 1_000_000_000][unit.min(3) as usize];
    let year = match random.below(6) {
        0 => random.between(0, 600) as i64 + 1600,
        1 => random.between(0, 1000) as i64 - 500,
        2 => ((random.between(0, 30) as i64) - 15) * 100,
        // Around the ends of each unit's counts.
        3 => {
            let end = random.pick(&[(1677, 2262), (-290_308, 294_247), (-292_275_055, 292_278_994)]);
            random.pick(&[end.0, end.1]) + random.below(3) as i64 - 1
        }
        4 => random.of_any_size() as i64 * random.pick(&[1, -1]),
        _ => random.pick(&[i64::MIN, i64::MAX, 0, 4, 100, 400, 1900, 1970, 2000, 2024, -4, -100, -400]),
    };
    let mut fields = [
        year,
        random.between(1, 12) as i64,
        random.between(1, 31) as i64,
        random.between(0, 23) as i64,
        random.between(0, 59) as i64,
        random.between(0, 59) as i64,
        random.below(ticks as usize) as i64,
    ];
    if random.percent(30) {
        // The first and the last of each range.
        let ends = [(year, year), (1, 12), (28, 31), (0, 23), (0, 59), (0, 59), (0, ticks - 1)];
        for (field, (first, last)) in fields.iter_mut().zip(ends) {
            *field = random.pick(&[*field, first, last]);
        }
    }
    if random.percent(20) {
        for _ in 0..random.between(1, 2) {
            let at = random.below(fields.len());
            let any = random.of_any_size() as i64 * random.pick(&[1, -1]);
            let ends = [13, 29, 30, 31, 32, 24, 60, ticks, -1, 0, i64::MIN, i64::MAX, 1 << 40, any];
            fields[at] = random.pick(&ends);
        }
    }
    fields
}
