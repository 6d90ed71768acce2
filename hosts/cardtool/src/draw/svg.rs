//! A picture as SVG: how boxes, arrows, words and the legend look.

use super::cascade::{place, MARGIN, TOP};
use super::{Arrow, Package, Picture, Rect, Style, Word};

/// Colours, of which none stands alone for what a thing is.
const INK: &str = "#1F2D3D";
const PALE: &str = "#5A6675";
const MISSING: &str = "#C04A00";
const WHITE: &str = "#FFFFFF";
/// Heights of lines of words on arrows, of services, and of the legend.
const LINE: i32 = 14;
const SERVICE: i32 = 22;
const ENTRY: i32 = 22;
/// Where lines of words on arrows and of services are broken.
const WORDS: i32 = 118;
const SERVICES: i32 = 150;
/// The most letters of a name that are shown, and how many of them after the ellipsis.
const LETTERS: usize = 18;
const TAIL: usize = 7;

struct Look {
    class: &'static str,
    colour: &'static str,
    width: i32,
    dash: &'static str,
    /// Whether the arrow's head is.
    filled: bool,
    legend: &'static str,
}

fn look(style: Style) -> Look {
    let (class, colour, width, dash, filled, legend) = match style {
        Style::Need => ("need", "#0B4F8A", 5, "", true, "needs: the bold service has to stay"),
        Style::Call => ("call", "#0B6DB7", 2, "", true, "calls"),
        Style::Unmet => ("unmet", MISSING, 2, "9 5", true, "calls what is not on the card"),
        Style::Grant => ("grant", "#8A939E", 1, "", false, "allows a call that is not made"),
        Style::Waiting => ("waiting", "#7A3E9D", 2, "2 4", false, "allows a call in advance"),
        Style::Direct => ("reach direct", "#0B6DB7", 3, "", true, "calls"),
        Style::Through => ("reach through", MISSING, 2, "7 5", false, "reaches only through others"),
    };
    Look { class, colour, width, dash, filled, legend }
}

/// The picture, with a legend of these styles.
pub fn write(mut picture: Picture, legend: &[Style]) -> String {
    for nth in 0..picture.packages.len() {
        let (width, height) = size(&picture, &picture.packages[nth]);
        picture.packages[nth].place = Rect { width, height, ..Rect::default() };
    }
    for arrow in &mut picture.arrows {
        let lines = words(arrow);
        let widest = lines.iter().map(|line| line.iter().map(word_width).sum()).max();
        arrow.size = (widest.unwrap_or(0), LINE * lines.len() as i32);
    }
    place(&mut picture);
    let corner = legend_place(&picture, legend);
    let arrows = picture.arrows.iter().map(|arrow| arrow_group(&picture, arrow));
    let packages = picture.packages.iter().map(|package| package_group(&picture, package));
    let body: String = arrows.chain(packages).chain([legend_group(legend, corner)]).collect();
    let title = Rect { x: MARGIN, y: 0, width: width(&picture.counts, 13), height: TOP };
    let places = || picture.packages.iter().map(|package| package.place).chain([corner, title]);
    let right = places().map(|place| place.right()).max().unwrap_or(0) + MARGIN;
    document(&picture, &body, right, places().map(|place| place.bottom()).max().unwrap_or(0) + MARGIN)
}

fn document(picture: &Picture, body: &str, width: i32, height: i32) -> String {
    let label = escape(&format!("{}: {}", picture.title, picture.counts));
    let sentences: Vec<String> = picture.arrows.iter().map(|arrow| picture.sentence(arrow) + ".").collect();
    format!(
        "<svg xmlns=\"http://www.w3.org/2000/svg\" role=\"img\" aria-label=\"{label}\" font-family=\"sans-serif\" \
         width=\"{width}\" height=\"{height}\" viewBox=\"0 0 {width} {height}\">\n<title>{label}</title>\n\
         <desc>{}</desc>\n{}\n{}\n{}\n{body}</svg>\n",
        escape(&sentences.join(" ")),
        rect(Rect { x: 0, y: 0, width, height }, 0, WHITE, "none", ""),
        text(MARGIN, MARGIN + 16, 20, INK, "font-weight=\"bold\"", &escape(picture.title)),
        text(MARGIN, MARGIN + 38, 13, PALE, "class=\"counts\"", &escape(&picture.counts))
    )
}

fn rect(place: Rect, corner: i32, fill: &str, stroke: &str, more: &str) -> String {
    let Rect { x, y, width, height } = place;
    format!(
        "<rect x=\"{x}\" y=\"{y}\" width=\"{width}\" height=\"{height}\" rx=\"{corner}\" fill=\"{fill}\" \
         stroke=\"{stroke}\" {more}/>"
    )
}

/// A text, which is escaped already.
fn text(x: i32, y: i32, size: i32, ink: &str, more: &str, words: &str) -> String {
    format!("<text x=\"{x}\" y=\"{y}\" font-size=\"{size}\" fill=\"{ink}\" {more}>{words}</text>")
}

/// The words on an arrow, in lines.
fn words(arrow: &Arrow) -> Vec<Vec<Word>> {
    let shown = arrow.words.iter().map(|word| Word { text: shorten(&word.text), strong: word.strong });
    let mut words: Vec<Word> = shown.collect();
    match (arrow.style, words.first_mut()) {
        // There is no room at an arrow from a box to itself.
        (Style::Through, _) if arrow.from == arrow.to => words.clear(),
        (Style::Through, Some(first)) => first.text.insert_str(0, "through "),
        _ => {}
    }
    wrap(words, WORDS, word_width)
}

/// With the comma and the space after it.
fn word_width(word: &Word) -> i32 {
    width(&word.text, 12) + 8
}

/// Puts items into lines of at most this width, or of one item.
fn wrap<T>(items: Vec<T>, most: i32, width: impl Fn(&T) -> i32) -> Vec<Vec<T>> {
    let (mut lines, mut used): (Vec<Vec<T>>, i32) = (Vec::new(), 0);
    for item in items {
        used += width(&item);
        match lines.last_mut() {
            Some(line) if used <= most => line.push(item),
            _ => {
                used = width(&item);
                lines.push(vec![item]);
            }
        }
    }
    lines
}

fn arrow_group(picture: &Picture, arrow: &Arrow) -> String {
    let look = look(arrow.style);
    let [from, to] = [arrow.from, arrow.to].map(|place| {
        let package = &picture.packages[place];
        package.number.map_or_else(|| package.aid.to_string(), |number| number.to_string())
    });
    let anchor = if arrow.leftward() { "start" } else { "end" };
    let halo = format!(
        "class=\"label\" text-anchor=\"{anchor}\" stroke=\"{WHITE}\" stroke-width=\"4\" stroke-linejoin=\"round\" \
         paint-order=\"stroke\""
    );
    let ink = if arrow.style == Style::Grant { PALE } else { look.colour };
    let span = |word: &Word| match word.strong {
        true => format!("<tspan font-weight=\"bold\">{}</tspan>", escape(&word.text)),
        false => escape(&word.text),
    };
    let lines = words(arrow);
    let labels = lines.iter().zip((0..lines.len() as i32).rev()).map(|(line, below)| {
        let words = line.iter().map(span).collect::<Vec<_>>().join(", ") + if below == 0 { "" } else { "," };
        text(arrow.beside, arrow.row - 5 - look.width - LINE * below, 12, ink, &halo, &words)
    });
    format!(
        "<g class=\"{}\" data-from=\"{from}\" data-to=\"{to}\"><title>{}</title>{}{}</g>\n",
        look.class,
        escape(&picture.sentence(arrow)),
        line(&look, &arrow.points),
        labels.collect::<String>()
    )
}

/// A line through the points with round corners, over a white edge that breaks the lines it crosses, and its head.
fn line(look: &Look, points: &[(i32, i32)]) -> String {
    let [.., before, tip] = points else { return String::new() };
    let (right, down) = ((tip.0 - before.0).signum(), (tip.1 - before.1).signum());
    let (long, wide) = if look.width > 3 { (15, 7) } else { (12, 5) };
    let base = (tip.0 - right * long, tip.1 - down * long);
    let mut path = format!("M{} {}", points[0].0, points[0].1);
    for corner in points.windows(3) {
        let (x, y) = corner[1];
        let [first, last] = [corner[0], corner[2]].map(|to| {
            let radius = ((to.0 - x).abs() + (to.1 - y).abs()).min(20) / 2;
            (x + (to.0 - x).signum() * radius, y + (to.1 - y).signum() * radius)
        });
        path += &format!("L{} {}Q{x} {y} {} {}", first.0, first.1, last.0, last.1);
    }
    path += &format!("L{} {}", base.0, base.1);
    let (x, y) = (down * wide, right * wide);
    let head = format!("M{} {}L{} {}L{} {}Z", tip.0, tip.1, base.0 + x, base.1 + y, base.0 - x, base.1 - y);
    let Look { colour, width, dash, .. } = look;
    let dash = if dash.is_empty() { String::new() } else { format!("stroke-dasharray=\"{dash}\"") };
    format!(
        "<path d=\"{path}\" fill=\"none\" stroke=\"{WHITE}\" stroke-width=\"{}\"/>\
         <path d=\"{path}\" fill=\"none\" stroke=\"{colour}\" stroke-width=\"{width}\" {dash}/>\
         <path d=\"{head}\" fill=\"{}\" stroke=\"{colour}\" stroke-linejoin=\"round\"/>",
        width + 4,
        if look.filled { colour } else { WHITE }
    )
}

/// What a package is called, and its AID when that is not all of it.
fn called(picture: &Picture, package: &Package) -> (String, Option<String>) {
    let (name, aid) = (shorten(&picture.names.word(package.aid)), package.aid.to_string());
    let whole = name == aid;
    (name, (!whole).then_some(aid))
}

/// The lines of services of a box.
fn services(package: &Package) -> Vec<Vec<&Word>> {
    wrap(package.services.iter().collect(), SERVICES, |word| service_width(word))
}

/// With the space to the next.
fn service_width(word: &Word) -> i32 {
    width(&shorten(&word.text), 11) + 18
}

/// Width and height of a box.
fn size(picture: &Picture, package: &Package) -> (i32, i32) {
    let (name, aid) = called(picture, package);
    let (number, lines) = (if package.number.is_some() { 28 } else { 0 }, services(package));
    let words = width(&name, 16).max(aid.as_ref().map_or(0, |aid| width(aid, 10))) + number;
    let services = lines.iter().map(|line| line.iter().map(|word| service_width(word)).sum::<i32>() - 6).max();
    let height = 38 + if aid.is_some() { LINE } else { 0 } + SERVICE * lines.len() as i32;
    (words.max(services.unwrap_or(0)).max(70) + 24, height)
}

fn package_group(picture: &Picture, package: &Package) -> String {
    let Rect { x, y, .. } = package.place;
    let (name, aid) = called(picture, package);
    let (kind, dash, ink, fill) = match package.number {
        Some(number) => (format!("class=\"package\" data-number=\"{number}\""), "", INK, "#EEF4FA"),
        None => (format!("class=\"absent\" data-aid=\"{}\"", package.aid), "stroke-dasharray=\"5 4\"", PALE, WHITE),
    };
    let title = escape(&format!("{} {}", picture.names.word(package.aid), package.aid));
    let more = format!("stroke-width=\"1.5\" {dash}");
    let mut group = format!("<g {kind}><title>{title}</title>{}", rect(package.place, 8, fill, ink, &more));
    let (mut at, mut baseline) = (x + 12, y + 25);
    if let Some(number) = package.number {
        group += &rect(Rect { x: at, y: y + 9, width: 21, height: 21 }, 5, INK, "none", "");
        let more = "text-anchor=\"middle\" font-weight=\"bold\"";
        group += &text(at + 10, y + 24, 12, WHITE, more, &number.to_string());
        at += 28;
    }
    group += &text(at, baseline, 15, ink, "font-weight=\"bold\"", &escape(&name));
    if let Some(aid) = aid {
        baseline += LINE;
        group += &text(at, baseline, 10, PALE, "class=\"aid\"", &aid);
    }
    for (line, nth) in services(package).into_iter().zip(0..) {
        let mut at = x + 12;
        for word in line {
            group += &service(word, at, baseline + 9 + SERVICE * nth);
            at += service_width(word);
        }
    }
    group + "</g>\n"
}

/// A service of a box; dashed when it is not provided.
fn service(word: &Word, x: i32, y: i32) -> String {
    let (class, dash, ink, said) = match word.strong {
        true => ("service", "", INK, "provided"),
        false => ("missing", "stroke-dasharray=\"3 2\"", MISSING, "not provided"),
    };
    let place = Rect { x, y, width: service_width(word) - 6, height: 18 };
    format!(
        "<g class=\"{class}\"><title>{} ({said})</title>{}{}</g>",
        escape(&word.text),
        rect(place, 9, WHITE, ink, dash),
        text(x + place.width / 2, y + 13, 11, ink, "text-anchor=\"middle\"", &escape(&shorten(&word.text)))
    )
}

/// The legend stands at the left, as high as boxes and arrows leave room. Where things may be missing it has a line more.
fn legend_place(picture: &Picture, legend: &[Style]) -> Rect {
    let missing = legend.contains(&Style::Unmet);
    let words = legend.iter().map(|style| width(look(*style).legend, 12)).max().unwrap_or(0);
    let mut place = Rect { x: MARGIN, y: TOP, width: words + 86, height: ENTRY * legend.len() as i32 + 18 };
    place.width += if missing { 20 } else { 0 };
    place.height += if missing { ENTRY } else { 0 };
    let boxes = picture.packages.iter().map(|package| (package.place.x, package.place.bottom()));
    let lines = picture.arrows.iter().flat_map(|arrow| arrow.points.windows(2));
    let lines = lines.map(|ends| (ends[0].0.min(ends[1].0), ends[0].1.max(ends[1].1)));
    let near = boxes.clone().chain(lines).filter(|(left, _)| *left < place.right() + MARGIN);
    let clear = near.map(|(_, bottom)| bottom + MARGIN).max().unwrap_or(TOP);
    let lowest = boxes.map(|(_, bottom)| bottom).max().unwrap_or(TOP);
    place.y = clear.max(lowest - place.height);
    place
}

fn legend_group(legend: &[Style], place: Rect) -> String {
    let Rect { x, y, .. } = place;
    let mut group = format!("<g class=\"legend\">{}", rect(place, 8, WHITE, "#C9D1DA", ""));
    let mut middle = y + 20;
    for look in legend.iter().map(|style| look(*style)) {
        group += &line(&look, &[(x + 12, middle), (x + 62, middle)]);
        group += &text(x + 74, middle + 4, 12, INK, "", look.legend);
        middle += ENTRY;
    }
    if legend.contains(&Style::Unmet) {
        let package = Rect { x: x + 12, y: middle - 8, width: 28, height: 16 };
        let service = Rect { x: x + 45, y: middle - 6, width: 17, height: 12 };
        group += &rect(package, 4, WHITE, PALE, "stroke-dasharray=\"5 4\"");
        group += &rect(service, 6, WHITE, MISSING, "stroke-dasharray=\"3 2\"");
        group += &text(x + 74, middle + 4, 12, INK, "", "a package or a service not on the card");
    }
    group + "</g>\n"
}

/// A name with an ellipsis for its middle, if it is long: names often differ at their ends.
fn shorten(name: &str) -> String {
    let letters: Vec<char> = name.chars().collect();
    if letters.len() <= LETTERS {
        return name.to_string();
    }
    letters[..LETTERS - TAIL - 1].iter().chain(&['…']).chain(&letters[letters.len() - TAIL..]).collect()
}

/// The width of a text, rather too much than too little.
fn width(text: &str, size: i32) -> i32 {
    let hundredths = |c: char| match c {
        'i' | 'j' | 'l' | '.' | ',' | ' ' | ':' => 34,
        'f' | 'r' | 't' | '-' | '(' | ')' => 44,
        'm' | 'w' | 'M' | 'W' | '…' => 104,
        'A'..='Z' => 75,
        _ => 65,
    };
    text.chars().map(hundredths).sum::<i32>() * size / 100
}

fn escape(text: &str) -> String {
    text.replace('&', "&amp;").replace('<', "&lt;").replace('>', "&gt;").replace('"', "&quot;")
}
