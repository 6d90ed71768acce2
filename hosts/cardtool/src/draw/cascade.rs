//! Where boxes and arrows go. Packages on the card go down a staircase: an arrow to a lower one leaves on the right and
//! comes from above, one to a higher one leaves on the left and comes from below. Absent packages stand at the right. So
//! each arrow has a row beside its first box and a column at its last; no word lies on another line, and lines only cross.

use super::{Arrow, Picture, Rect, Style};

/// Where the boxes begin.
pub const MARGIN: i32 = 24;
pub const TOP: i32 = 92;
/// Between the columns of arrows at a box, and from the box's corner to the first.
const COLUMN: i32 = 15;
const CORNER: i32 = 18;
/// Between boxes below each other, and the least that a box lies to the right of the one above it.
const GAP: i32 = 30;
const STEP: i32 = 48;
/// Between the lines to absent packages where they go down.
const TRACK: i32 = 8;
/// Space beside words, and a row's height without its words.
const BESIDE: i32 = 10;
const ROW: i32 = 14;

/// Places the boxes and arrows, whose sizes are known.
pub fn place(picture: &mut Picture) {
    order(picture);
    rows(picture);
    columns(picture);
    absent(picture);
}

/// Puts the boxes into the order in which they stand, and the arrows into that of their rows: of those on a box's right,
/// what goes farthest is on top; of those on its left, what goes farthest is at the bottom.
fn order(picture: &mut Picture) {
    let mut order = shortest(picture);
    let step = |place: usize| order.iter().position(|other| *other == place);
    let last = |absent: &usize| {
        let users = picture.arrows.iter().filter(|arrow| arrow.to == *absent);
        users.map(|arrow| step(arrow.from)).max()
    };
    let (installed, count) = (picture.installed(), picture.packages.len());
    let mut absent: Vec<usize> = (installed..count).collect();
    absent.sort_by_key(last);
    order.extend(absent);
    let mut packages: Vec<_> = picture.packages.drain(..).map(Some).collect();
    picture.packages.extend(order.iter().filter_map(|place| packages[*place].take()));
    let step = |place: usize| order.iter().position(|other| *other == place).unwrap_or(0);
    for arrow in &mut picture.arrows {
        (arrow.from, arrow.to) = (step(arrow.from), step(arrow.to));
    }
    picture.arrows.sort_by_key(|arrow| match arrow.to {
        to if to == arrow.from => (arrow.from, 0),
        to if to >= installed => (arrow.from, to),
        to => (arrow.from, 2 * count - to),
    });
}

/// An order of the packages on the card with short arrows, most of them downwards.
fn shortest(picture: &Picture) -> Vec<usize> {
    let count = picture.installed();
    let cost = |order: &Vec<usize>| -> i32 {
        let mut step = vec![0; count];
        order.iter().zip(0..).for_each(|(place, nth)| step[*place] = nth);
        let length = |arrow: &Arrow| {
            let weight = if matches!(arrow.style, Style::Need | Style::Call | Style::Direct) { 3 } else { 1 };
            match step.get(arrow.to).map(|to| to - step[arrow.from]) {
                None => count as i32 - step[arrow.from],
                Some(down) if down < 0 => weight * (3 - down),
                Some(down) => weight * down,
            }
        };
        picture.arrows.iter().map(length).sum()
    };
    let shorter = |mut best: Vec<usize>| loop {
        let moves = (0..count).flat_map(|from| (0..count).map(move |to| (from, to)));
        let moved = moves.map(|(from, to)| {
            let mut order = best.clone();
            let place = order.remove(from);
            order.insert(to, place);
            order
        });
        match moved.min_by_key(cost).filter(|order| cost(order) < cost(&best)) {
            Some(better) => best = better,
            None => return best,
        }
    };
    let starts: [Vec<usize>; 2] = [(0..count).collect(), (0..count).rev().collect()];
    starts.map(shorter).into_iter().min_by_key(cost).unwrap_or_default()
}

/// Each arrow's row, and the boxes on the card from the top down.
fn rows(picture: &mut Picture) {
    let mut y = TOP;
    for place in 0..picture.installed() {
        let leaves = |arrow: &Arrow, left| arrow.from == place && arrow.leftward() == left;
        let heights = [true, false].map(|left| {
            let side = picture.arrows.iter().filter(|arrow| leaves(arrow, left));
            side.map(|arrow| arrow.size.1 + ROW).sum::<i32>()
        });
        let own = &mut picture.packages[place].place;
        own.y = y;
        own.height = own.height.max(heights[0] + 8).max(heights[1] + 8);
        for (left, height) in [true, false].into_iter().zip(heights) {
            let mut row = y + (own.height - height) / 2;
            for arrow in picture.arrows.iter_mut().filter(|arrow| leaves(arrow, left)) {
                row += arrow.size.1 + ROW;
                arrow.row = row - 5;
            }
        }
        y += own.height + GAP;
    }
}

/// The boxes on the card from the left, and then the columns of the arrows between them.
fn columns(picture: &mut Picture) {
    let (mut left, mut right) = (MARGIN, 0);
    for place in 0..picture.installed() {
        let [(below, room_below), (above, room_above)] = [true, false].map(|left| room(picture, place, left));
        let own = &mut picture.packages[place].place;
        own.width = own.width.max(below).max(above);
        own.x = left.max(right + room_above - own.width);
        (left, right) = (own.x + room_below, own.right());
    }
    for place in 0..picture.installed() {
        let Rect { x, y, height, .. } = picture.packages[place].place;
        let right = picture.packages[place].place.right();
        let starts: Vec<Rect> = picture.packages.iter().map(|package| package.place).collect();
        let to_here = picture.arrows.iter_mut().filter(|arrow| arrow.to == place);
        let (below, mut above): (Vec<_>, Vec<_>) = to_here.partition(|arrow| arrow.leftward());
        // An arrow to its own box comes at the outside.
        above.sort_by_key(|arrow| arrow.from != place);
        for (arrow, nth) in below.into_iter().rev().zip(0..) {
            let column = x + CORNER + COLUMN * nth;
            arrow.points = vec![(starts[arrow.from].x, arrow.row), (column, arrow.row), (column, y + height)];
            arrow.beside = column + BESIDE;
        }
        for (arrow, nth) in above.into_iter().zip(0..) {
            let (column, start) = (right - CORNER - COLUMN * nth, starts[arrow.from].right());
            arrow.points = vec![(start, arrow.row), (column, arrow.row), (column, y)];
            if arrow.from == place {
                let (out, over) = (right + CORNER, y - GAP / 2);
                arrow.points.splice(1..2, [(out, arrow.row), (out, over), (column, over)]);
            }
            arrow.beside = column - BESIDE;
        }
    }
}

/// The width of the columns that come to a box from below (`left`) or above, and that with their words.
fn room(picture: &Picture, place: usize, left: bool) -> (i32, i32) {
    let arrows = || picture.arrows.iter().filter(|arrow| arrow.to == place && arrow.leftward() == left);
    let columns = CORNER + COLUMN * arrows().count() as i32;
    let words = arrows().map(|arrow| arrow.size.0).max();
    (columns, words.map_or(STEP, |words| STEP.max(columns + words + 2 * BESIDE)))
}

/// The absent boxes at the right, each not above the last row that leads to it, and the arrows to them: the upper a row,
/// the farther right it goes down.
fn absent(picture: &mut Picture) {
    let installed = picture.installed();
    let mut y = TOP;
    let mut ends = vec![0; picture.arrows.len()];
    for (place, package) in picture.packages.iter_mut().enumerate().skip(installed) {
        let arrows = || picture.arrows.iter().enumerate().filter(|(_, arrow)| arrow.to == place);
        let spread = COLUMN * (arrows().count() as i32 - 1);
        let own = &mut package.place;
        own.height = own.height.max(spread + 2 * COLUMN);
        let last = arrows().map(|(_, arrow)| arrow.row).max().unwrap_or(y);
        own.y = y.max(last - (own.height + spread) / 2);
        y = own.bottom() + GAP / 2;
        for ((nth, _), column) in arrows().zip(0..) {
            ends[nth] = own.y + (own.height - spread) / 2 + COLUMN * column;
        }
    }
    let (here, there) = picture.packages.split_at_mut(installed);
    let mut arrows: Vec<_> = picture.arrows.iter_mut().zip(ends).filter(|(arrow, _)| arrow.to >= installed).collect();
    let words = arrows.iter().map(|(arrow, _)| arrow.size.0).max().unwrap_or(0);
    let beside = here.last().map_or(0, |last| last.place.right()) + words + 2 * BESIDE;
    let bent = arrows.iter().filter(|(arrow, end)| arrow.row != *end).count() as i32;
    let x = beside + BESIDE + TRACK * bent + 2 * COLUMN;
    let width = there.iter().map(|package| package.place.width).max().unwrap_or(0);
    there.iter_mut().for_each(|package| (package.place.x, package.place.width) = (x, width));
    let mut track = beside + BESIDE;
    for (arrow, end) in arrows.iter_mut().rev() {
        arrow.points = vec![(here[arrow.from].place.right(), arrow.row), (x, *end)];
        arrow.beside = beside;
        if arrow.row != *end {
            arrow.points.splice(1..1, [(track, arrow.row), (track, *end)]);
            track += TRACK;
        }
    }
}
