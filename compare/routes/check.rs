//! The comparison of tables of routes: the paper's examples and each refusal by itself, then random histories of calls,
//! each on the table that the ones before it left.

use crate::routes::calls::Ask;
use crate::routes::drafts::{Drawing, Scene};
use crate::routes::table::Table;
use crate::routes::{cases, hostile};
use crate::shared::check::{Agreement, Check};
use crate::shared::moment_drafts::start;
use crate::shared::progress::Progress;
use crate::Options;

/// The longest history.
const MOST_CALLS: usize = 600;

pub fn check(check: &mut Check, options: &Options, progress: &mut Progress) -> Agreement {
    cases::check(check)?;
    hostile::check(check)?;
    check.runs(options.routes, MOST_CALLS, progress, history)
}

/// A fresh table, or at times one that is made up, and then so many calls less one.
fn history(check: &mut Check, calls: u64) -> Agreement {
    let scene = Scene::new(&mut check.random);
    let time = start(&mut check.random);
    let answer = check.ask(&[0; Table::LENGTH], &Ask::Fresh { own: scene.own, time })?;
    let mut bytes = answer.left.table;
    if check.random.below(4) == 0 {
        scene.table(&mut check.random).to_bytes(&mut bytes);
    }
    let mut table = table_of(&bytes);
    for _ in 1..calls {
        let slips = check.slips();
        let mut drawing = Drawing { random: &mut check.random, scene: &scene, table: &table, slips };
        let (handed_in, ask) = (drawing.table_bytes(&bytes), drawing.ask());
        let answer = check.ask(&handed_in, &ask)?;
        // A table that was damaged, or made fresh, does not go on.
        if handed_in == bytes && answer.left.table != bytes && !matches!(ask, Ask::Fresh { .. }) {
            bytes = answer.left.table;
            table = table_of(&bytes);
        }
    }
    Ok(())
}

/// The table that a call left, or that was made up.
fn table_of(bytes: &[u8]) -> Table {
    let table = Table::from_bytes(bytes).expect("the independent table wrote these bytes");
    assert!(table.used_rows().is_ok(), "every accepted call leaves a table within rule: {:?}", table);
    table
}
