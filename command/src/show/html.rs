//! A file as one page that needs nothing beside it: its conversions first, its types last.

use super::links::{anchor, escaped, linked, marked, quoted, shortened};
use super::listing::{length, lines, tables, Line};
use super::stamp::{self, Stamp};
use super::tree;
use super::{svg, Sight};
use crate::rules::{Clause, Iso};
use crate::samples::{conversions, Conversions, Numbers};
use crate::{check, explain, progress, run};
use rulefile::{Desk, Direction};

const STYLE: &str = include_str!("page.css");

/// The most clauses of an iso, and the most types of a file, that are drawn.
const DRAWN: usize = 12;

/// How the page is read.
fn reading(sight: &Sight) -> String {
    let whose = sight.whose();
    let whose = whose.map(|whose| format!("Names: {}.", without_folders(&whose)));
    let legend = tree::legend(&sight.rules).into_iter().map(String::from);
    let lines = legend.chain(whose);
    lines
        .map(|line| format!("<p class=\"pale\">{}</p>\n", escaped(&line)))
        .collect()
}

/// A file's name without the folders that it stands in.
fn without_folders(name: &str) -> &str {
    name.rsplit('/').next().unwrap_or_default()
}

/// A page in the making.
struct Page<'a> {
    sight: &'a Sight<'a>,
    stamp: Stamp,
    /// The file's name, without the folders that it stands in.
    name: &'a str,
    /// The headings of the isos that are shown, by their numbers.
    headings: Vec<(usize, String)>,
    /// Whether the ways back are open from the start.
    back: bool,
}

impl Page<'_> {
    /// The foot of each printed page.
    fn foot(&self) -> String {
        let Stamp {
            sha_256,
            date,
            judged,
        } = &self.stamp;
        let name = shortened(self.name, 60);
        let hash = match sha_256 {
            Some(hash) => format!("SHA-256 {hash}"),
            None => "over 65,536 bytes".to_string(),
        };
        let lines = [
            format!("{name} · {date}"),
            hash,
            format!("judged by {judged}"),
        ];
        let lines = lines.map(|line| quoted(&line)).join(" \"\\a\" ");
        format!("@page {{ @bottom-left {{ content: {lines}; }} }}\n")
    }

    fn verdict(&self) -> String {
        let sight = self.sight;
        let (number, line) = explain::numbers(sight.verdict);
        let lines = check::counts(&sight.file.bytes);
        let about = format!("<p class=\"f\">lines: {lines}</p>");
        match sight.verdict {
            Ok(()) => {
                let warning = explain::warning(&sight.file.bytes);
                let warning =
                    warning.map(|warning| format!("<p>Warning: {}</p>", escaped(warning)));
                let warning = warning.unwrap_or_default();
                let meaning = escaped(explain::accepted(&sight.file.bytes));
                format!(
                    "<div class=\"verdict accepted\"><strong>{number},{line} – accepted</strong>\
                     <p>It is proved that {meaning}.</p>{warning}{about}</div>\n"
                )
            }
            Err(refused) => {
                let word = refused.refusal.word();
                let words = explain::refusal_in(&sight.rules, sight.file, refused);
                let words = words.replacen(&sight.file.name, self.name, 1);
                format!(
                    "<div class=\"verdict refused\"><strong>{number},{line} – refused: {word}</strong>\
                     <pre>{}</pre>{about}</div>\n",
                    escaped(words.trim_end())
                )
            }
        }
    }

    /// What was judged, when, and by what.
    fn about(&self) -> String {
        let Stamp {
            sha_256,
            date,
            judged,
        } = &self.stamp;
        let hash = sha_256.as_ref().map(|hash| format!("SHA-256 {hash} · "));
        let text = format!("{}{date} · judged by {judged}", hash.unwrap_or_default());
        format!("<p class=\"stamp\">{}</p>\n", escaped(&text))
    }

    /// What stands on the page, with links.
    fn contents(&self) -> String {
        if self.headings.is_empty() {
            return String::new();
        }
        let entry = |id: String, text: &str, more: &str| {
            let (said, more_said) = (escaped(text), escaped(more));
            Line {
                html: format!(
                    "<a href=\"#{id}\">{said}</a><span class=\"pale\">{more_said}</span>"
                ),
                length: length(text) + length(more),
                ..Line::default()
            }
        };
        let iso = |(place, heading): &(usize, String)| {
            let ends = format!(" · {}", self.sight.ends(*place));
            entry(anchor('i', *place), heading, &ends)
        };
        let mut entries: Vec<Line> = self.headings.iter().map(iso).collect();
        let types = run::counted(self.sight.types.len() as u128, "type");
        entries.push(entry("types".to_string(), &types, ""));
        let entries = lines(&entries);
        format!("<nav class=\"contents\"><h2>Contents</h2>\n{entries}</nav>\n")
    }

    /// Whether a line is the one refused.
    fn fault(&self, line: usize) -> bool {
        let refused = self.sight.verdict.err();
        refused.is_some_and(|refused| refused.line == line)
    }

    fn clauses(&self, clauses: &[Clause]) -> String {
        let line = |clause: &Clause| {
            let shown = tree::clause(&self.sight.rules, clause);
            let label = format!("line {}:", clause.line);
            let (text, said) = (shown.written(tree::plain), shown.written(marked));
            let (said, drawing) = (linked(self.sight, &said), svg::clause(&shown));
            Line {
                fault: self.fault(clause.line),
                id: String::new(),
                html: format!("<span class=\"pale\">{label}</span> {said}"),
                length: length(&label) + 1 + length(&text),
                drawing: drawing.filter(|_| clauses.len() <= DRAWN),
            }
        };
        lines(&clauses.iter().map(line).collect::<Vec<_>>())
    }

    /// A type: its name, how it reads, how many settings it has.
    fn ty(&self, place: usize) -> Line {
        let sight = self.sight;
        let shown = tree::ty(&sight.rules, place);
        let settings = sight.rules.settings_of(place);
        let (name, text) = (anchor('T', place), tree::titled(&sight.rules, place));
        let title = sight.rules.names.ty(place).filter(|_| !sight.rules.letters);
        let said = linked(sight, &shown.written(marked));
        let said = match title {
            Some(title) => format!("{} ({said})", escaped(title)),
            None => said,
        };
        let drawing = svg::tree(&shown);
        Line {
            // T lines come first
            fault: self.fault(place + 1),
            html: format!("<b>{name}</b> = {said} <span class=\"pale\">· {settings}</span>"),
            length: length(&name) + length(&text) + length(&settings) + 6,
            id: name,
            drawing: drawing.filter(|_| sight.types.len() <= DRAWN),
        }
    }

    fn types(&self) -> String {
        if self.sight.types.is_empty() {
            return String::new();
        }
        let types: Vec<Line> = self.sight.types.iter().map(|ty| self.ty(*ty)).collect();
        let types = lines(&types);
        format!("<section id=\"types\"><h2>Types</h2>\n{types}</section>\n")
    }

    /// The conversions of an iso, there and, on request, back.
    fn ways(&self, desk: &mut Desk, numbers: &mut Numbers, place: usize) -> String {
        let sight = self.sight;
        let Some(iso) = sight
            .rules
            .isos
            .get(place)
            .filter(|_| sight.verdict.is_ok())
        else {
            return String::new();
        };
        let file = (sight.file.bytes.as_slice(), &sight.rules);
        let mut text = String::new();
        if let Some(there) = conversions(desk, numbers, file, place, Direction::Forward) {
            let title = title("There", &there);
            let tables = tables(sight, [iso.from, iso.to], &there);
            text += &format!("<h3>{title}</h3>\n{tables}");
        }
        if let Some(back) = conversions(desk, numbers, file, place, Direction::Back) {
            let title = title("Back", &back);
            let tables = tables(sight, [iso.to, iso.from], &back);
            let open = if self.back { " open" } else { "" };
            text += &format!("<details{open}><summary>{title}</summary>\n{tables}</details>\n");
        }
        text
    }

    /// A type by the name that people gave it, which leads to it, and by its parts.
    fn titled(&self, ty: usize) -> String {
        let rules = &self.sight.rules;
        let text = tree::ty(rules, ty).written(marked);
        match rules.names.ty(ty).filter(|_| !rules.letters) {
            Some(title) => format!("{} ({text})", marked(title, 'T', ty)),
            None => text,
        }
    }

    /// What an iso leads from and to, and the isos that have it in their let steps.
    fn ends(&self, place: usize) -> String {
        let rules = &self.sight.rules;
        let Iso { from, to, .. } = rules.isos[place];
        let mut text = format!("{} → {}", self.titled(from), self.titled(to));
        let using = |iso: &Iso| {
            let mut lets = iso.clauses.iter().flat_map(|clause| &clause.lets);
            lets.any(|step| step.iso == place)
        };
        let users = rules.isos.iter().enumerate().filter(|iso| using(iso.1));
        let users = users.map(|(user, _)| marked(&tree::iso(rules, user), 'i', user));
        let users: Vec<String> = users.collect();
        if !users.is_empty() {
            text += &format!(" · used in {}", users.join(", "));
        }
        linked(self.sight, &text)
    }

    /// The heading of an iso, its types as links.
    fn heading(&self, iso: &Iso, heading: &str) -> String {
        let [from, to] = [iso.from, iso.to].map(|ty| (format!("T{ty}"), ty));
        let types = format!("{} → {}", from.0, to.0);
        let [from, to] = [from, to].map(|(name, ty)| marked(&name, 'T', ty));
        linked(
            self.sight,
            &heading.replacen(&types, &format!("{from} → {to}"), 1),
        )
    }

    fn iso(&self, desk: &mut Desk, numbers: &mut Numbers, place: usize, heading: &str) -> String {
        let iso = &self.sight.rules.isos[place];
        let fault = match self.fault(iso.line) {
            true => " class=\"fault\"",
            false => "",
        };
        let (id, line) = (anchor('i', place), iso.line);
        let (heading, ends) = (self.heading(iso, heading), self.ends(place));
        let clauses = self.clauses(&iso.clauses);
        let ways = self.ways(desk, numbers, place);
        format!(
            "<section{fault} id=\"{id}\"><h2>{heading} <span class=\"pale\">(line {line})</span></h2>\n\
             <p class=\"pale about\">{ends}</p>\n{clauses}{ways}</section>\n"
        )
    }
}

/// What a list of conversions is called.
fn title(way: &str, conversions: &Conversions) -> String {
    let shown = conversions.rows.len();
    let which = match conversions.endless {
        true => "lists of different lengths, one a clause",
        false => "the first, the last, one a clause, some between",
    };
    match conversions.all {
        true => way.to_string(),
        false => format!("{way} <span class=\"pale\">a sample of {shown}: {which}</span>"),
    }
}

/// The whole page; with the ways back open where that is asked for.
pub fn page(desk: &mut Desk, sight: &Sight, back: bool) -> String {
    let isos = sight.isos.iter().copied();
    let isos = isos.filter(|place| *place < sight.rules.isos.len());
    let page = Page {
        sight,
        stamp: stamp::of(sight.file),
        name: without_folders(&sight.file.name),
        headings: isos
            .map(|place| (place, sight.heading(desk, place)))
            .collect(),
        back,
    };
    let name = escaped(page.name);
    let mut text = format!(
        "<!DOCTYPE html>\n<html lang=\"en\">\n<head>\n<meta charset=\"utf-8\">\n\
         <meta name=\"viewport\" content=\"width=device-width, initial-scale=1\">\n<title>{name}</title>\n\
         <style>\n{STYLE}{}</style>\n</head>\n<body>\n<h1>{name}</h1>\n{}{}",
        page.foot(),
        page.verdict(),
        page.about()
    );
    text += &page.contents();
    if !sight.rules.types.is_empty() {
        text += &reading(sight);
    }
    let mut numbers = Numbers::default();
    for (shown, (place, heading)) in page.headings.iter().enumerate() {
        progress::tell(format!("{shown} of {} conversions", page.headings.len()));
        text += &page.iso(desk, &mut numbers, *place, heading);
    }
    text += &page.types();
    let version = rulefile::VERSION;
    text + &format!(
        "<footer>rulefile {version}; every conversion and every count of steps comes from the proved library.</footer>\n\
         </body>\n</html>\n"
    )
}
