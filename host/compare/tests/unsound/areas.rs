//! "areas, the snapshot's too, are at most 8, with rights 1 or 3, lie in 0 to 63, ordered,
//! apart and longest; image pages exist". (The snapshot's: `snapshot`.)

use super::bases::{eight, since_snapshot, three, World};
use super::Row;
use compare::layout::{count_at, Area, Which};
use compare::Clause::{
    Apart, AtMostEight, ImagePages, Inside, Longest, NothingBehind, Ordered, Rights,
};
use model::Backing;

pub const ROWS: &[Row] = &[
    Row { clause: AtMostEight, what: "present: a count of 9", base: eight, edit: |w| count(w, 9) },
    Row {
        clause: AtMostEight,
        what: "present: a count of 255",
        base: eight,
        edit: |w| count(w, 255),
    },
    Row { clause: Rights, what: "present: rights 0", base: three, edit: |w| rights(w, 0) },
    Row { clause: Rights, what: "present: rights 2", base: three, edit: |w| rights(w, 2) },
    Row { clause: Rights, what: "present: rights 7", base: three, edit: |w| rights(w, 7) },
    Row { clause: Rights, what: "present: rights 255", base: three, edit: |w| rights(w, 255) },
    Row {
        clause: Rights,
        what: "present: rights 2, committed",
        base: since_snapshot,
        edit: |w| rights(w, 2),
    },
    Row {
        clause: Inside,
        what: "present: pages 63 and 64",
        base: three,
        edit: |w| pages(w, 63, 2),
    },
    Row { clause: Inside, what: "present: page 64", base: three, edit: |w| pages(w, 64, 1) },
    Row {
        clause: Inside,
        what: "present: 255 pages from page 255",
        base: three,
        edit: |w| pages(w, 255, 255),
    },
    Row { clause: Inside, what: "present: no page", base: three, edit: |w| pages(w, 10, 0) },
    Row {
        clause: Ordered,
        what: "present: first and last area exchanged",
        base: three,
        edit: |w| w.edit_areas(Which::Present, |areas| areas.places.swap(0, 2)),
    },
    Row {
        clause: Ordered,
        what: "present: neighbouring areas exchanged",
        base: three,
        edit: |w| w.edit_areas(Which::Present, |areas| areas.places.swap(1, 2)),
    },
    Row {
        clause: Apart,
        what: "present: an area runs into the next",
        base: three,
        edit: |w| w.edit_area(Which::Present, 0, |area| area.pages = 5),
    },
    Row {
        clause: Apart,
        what: "present: an area stands twice",
        base: three,
        edit: |w| w.edit_areas(Which::Present, |areas| areas.places[2] = areas.places[1]),
    },
    Row {
        clause: Longest,
        what: "present: an anonymous area in two",
        base: three,
        edit: |w| in_two(w, Which::Present, 0),
    },
    Row {
        clause: Longest,
        what: "present: an image area in two",
        base: three,
        edit: |w| in_two(w, Which::Present, 1),
    },
    Row {
        clause: Longest,
        what: "present: a committed area in two",
        base: since_snapshot,
        edit: |w| in_two(w, Which::Present, 1),
    },
    Row {
        clause: ImagePages,
        what: "present: image pages 7 and 8 of 8",
        base: three,
        edit: |w| image_page(w, 7),
    },
    Row {
        clause: ImagePages,
        what: "present: image page 255",
        base: three,
        edit: |w| image_page(w, 255),
    },
    Row {
        clause: ImagePages,
        what: "present: no image page is left",
        base: three,
        edit: |w| w.image.clear(),
    },
    Row {
        clause: NothingBehind,
        what: "present: a first page behind the areas",
        base: three,
        edit: |w| behind(w, |area| area.first = 30),
    },
    Row {
        clause: NothingBehind,
        what: "present: pages behind the areas",
        base: three,
        edit: |w| behind(w, |area| area.pages = 1),
    },
    Row {
        clause: NothingBehind,
        what: "present: rights behind the areas",
        base: three,
        edit: |w| behind(w, |area| area.rights = 1),
    },
    Row {
        clause: NothingBehind,
        what: "present: a mark behind the areas",
        base: three,
        edit: |w| behind(w, |area| area.committed = true),
    },
    Row {
        clause: NothingBehind,
        what: "present: an image behind the areas",
        base: three,
        edit: |w| behind(w, |area| area.backing = Backing::Image(0)),
    },
];

fn count(world: &mut World, count: u8) {
    world.kept.state[count_at(0, Which::Present)] = count;
}

fn rights(world: &mut World, rights: u8) {
    world.edit_area(Which::Present, 2, |area| area.rights = rights);
}

fn pages(world: &mut World, first: u8, pages: u8) {
    world.edit_area(Which::Present, 2, |area| (area.first, area.pages) = (first, pages));
}

fn image_page(world: &mut World, first: usize) {
    world.edit_area(Which::Present, 1, |area| area.backing = Backing::Image(first));
}

fn behind(world: &mut World, edit: fn(&mut Area)) {
    world.edit_area(Which::Present, 7, edit);
}

/// An area of two pages becomes two of one page.
pub fn in_two(world: &mut World, which: Which, area: usize) {
    world.edit_areas(which, |areas| {
        areas.places.copy_within(area..7, area + 1);
        let whole = areas.places[area];
        let second = usize::from(whole.first) + 1;
        areas.places[area].pages = 1;
        areas.places[area + 1] =
            Area { first: second as u8, pages: 1, backing: whole.backing_of(second), ..whole };
        areas.count += 1;
    });
}
