//! Areas whose records or ceiling were forged and whose figures fit them, so that the replay alone can find what is unsound.

use crate::{said, Done, Setting};
use outside::agreement::{agrees, agrees_at_edges, Compared};
use outside::make;

const LISTS: u64 = 24;
const CALLS: usize = 2_000;

pub fn test(setting: &Setting) -> Result<Done, String> {
    let seeds = setting.seeds(LISTS);
    let mut compared = Compared::default();
    agrees_at_edges(make, &mut compared)?;
    for seed in seeds.clone() {
        agrees(make, seed, CALLS, &mut compared)?;
    }
    let Compared { calls, sound, unsound } = compared;
    if sound == 0 || unsound == 0 {
        return Err(format!("too little was met: {sound} areas sound, {unsound} unsound"));
    }
    let what = format!(
        "{calls} calls, in lists of {CALLS}, on copies with an area damaged or forged, {unsound} of them unsound, {sound} sound, and \
         at edges, {}",
        said(&seeds)
    );
    Ok(Done { calls, what })
}
