//! Nets with sites whose shares are exact halves. By chance they hardly ever
//! are: the rights held must be a multiple of 16.

use super::rng::Rng;
use crate::listing::usable;
use crate::rows::*;

/// 16 rights are 5 towards each of three sites, and one more.
pub const FEWEST_SITES: u8 = 4;

/// Whether used of held lies in the middle between two thousandths.
pub fn is_half(held: u32, used: u32) -> bool {
    held != 0 && 2 * (1000 * used % held) == held
}

/// Every count held, up to `most`, and count used whose share is a half.
fn halves(most: u32) -> Vec<(u32, u32)> {
    let pairs = (1..=most).flat_map(|held| (0..=held).map(move |used| (held, used)));
    pairs.filter(|&(held, used)| is_half(held, used)).collect()
}

/// Gives one site, some sites or all of them home policies whose shares are
/// halves, where the rights used there allow it. E rows are widened where too
/// few are used; no rule is broken by that, nor by a home policy.
pub fn make_halves(rng: &mut Rng, net: &mut Net, estimate: &mut Estimate) {
    let mut sites: Vec<Site> = members(below(net.sites)).collect();
    rng.shuffle(&mut sites);
    let count = match rng.weighted(&[40, 40, 20]) {
        0 => 1,
        1 => rng.between(2, 4),
        _ => sites.len(),
    };
    for &site in sites.iter().take(count) {
        let uses = usable(net, estimate, site);
        if let Some(half) = draw_half(rng, net.sites, count_rights(&uses)) {
            make_half(rng, net, estimate, site, half);
        }
    }
}

/// Counts held and used, where so many rights towards n sites are used.
fn draw_half(rng: &mut Rng, n: u8, uses: u32) -> Option<(u32, u32)> {
    let most = LETTERS.len() as u32 * u32::from(n);
    // The rights that are held and not used are among the rest.
    let fits = |&(held, used): &(u32, u32)| held - used <= most - uses.max(used);
    let mut fitting: Vec<(u32, u32)> = halves(most).into_iter().filter(fits).collect();
    let mut counts: Vec<u32> = fitting.iter().map(|&(held, _)| held).collect();
    counts.dedup();
    if counts.is_empty() {
        return None;
    }
    // First the count held: some have more halves than others.
    let drawn = *rng.pick(&counts);
    fitting.retain(|&(held, _)| held == drawn);
    Some(*rng.pick(&fitting))
}

fn make_half(
    rng: &mut Rng,
    net: &mut Net,
    estimate: &mut Estimate,
    site: Site,
    (held, used): (u32, u32),
) {
    let mut all = EMPTY_POLICY;
    all[..usize::from(net.sites)].fill(ALL_RIGHTS);
    let mut uses = usable(net, estimate, site);
    let more = used.saturating_sub(count_rights(&uses));
    let widened = some_of(rng, &less(&all, &uses), more);
    join(&mut estimate.rights[site.index()], &widened);
    join(&mut uses, &widened);
    let mut home = some_of(rng, &uses, used);
    join(&mut home, &some_of(rng, &less(&all, &uses), held - used));
    net.home[site.index()] = home;
}

/// So many of the rights of a policy.
fn some_of(rng: &mut Rng, policy: &Policy, count: u32) -> Policy {
    let bits = |rights: u8| (0..LETTERS.len()).map(|bit| 1 << bit).filter(move |r| rights & r != 0);
    let mut rights: Vec<(usize, u8)> =
        (0..SITES).flat_map(|t| bits(policy[t]).map(move |right| (t, right))).collect();
    rng.shuffle(&mut rights);
    let mut drawn = EMPTY_POLICY;
    for &(t, right) in &rights[..count as usize] {
        drawn[t] |= right;
    }
    drawn
}

#[cfg(test)]
mod tests {
    use super::super::nets::{accepted, LISTING};
    use super::*;
    use crate::flow;
    use crate::listing::usage;

    #[test]
    fn halves_are_of_multiples_of_16() {
        let all = halves(160);
        assert_eq!(all.len(), 144);
        assert!(all.iter().all(|(held, _)| held % 16 == 0));
        for held in (16..=160).step_by(16) {
            assert!(all.iter().any(|half| half.0 == held));
        }
    }

    #[test]
    fn nets_with_halves_are_accepted() {
        let mut counts = [0; 11];
        for seed in 0..400 {
            let rng = &mut Rng::new(seed);
            let (mut net, mut estimate) = accepted(rng, &LISTING);
            if net.sites < FEWEST_SITES {
                continue;
            }
            make_halves(rng, &mut net, &mut estimate);
            let places = flow::net_places(&net, &estimate);
            assert_eq!(flow::first_broken(&net, &estimate, &places), None, "seed {seed}");
            for (held, used) in members(below(net.sites)).map(|s| usage(&net, &estimate, s)) {
                counts[held as usize / 16] += usize::from(is_half(held, used));
            }
        }
        assert!(counts[1..].iter().all(|&count| count > 2), "{counts:?}");
    }
}
