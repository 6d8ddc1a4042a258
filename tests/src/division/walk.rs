//! From function to function through all crates: every call, and every constant that is used, has
//! to be found, so that no callee is lost.

use super::reading::{read, Division, Name, Reading};
use crate::edits::sources::{joined, module_of, uses, Item, Kind, Sources};
use std::collections::{BTreeMap, BTreeSet};

/// The calls that are the language's own: built-in functions of numbers, makers of values, the
/// bounds of closures, and methods. None of them divides.
const BUILT_IN: [&str; 2] = ["u32::count_ones", "u32::leading_zeros"];
const MAKERS: [&str; 9] = [
    "Ok",
    "Err",
    "Some",
    "Fn",
    "FnMut",
    "FnOnce",
    "Ordering::Less",
    "Ordering::Equal",
    "Ordering::Greater",
];
const METHODS: [&str; 22] = [
    "all",
    "cmp",
    "contains",
    "copy_from_slice",
    "count_ones",
    "enumerate",
    "is_empty",
    "is_eq",
    "is_err",
    "is_sorted",
    "is_sorted_by",
    "iter",
    "iter_mut",
    "leading_zeros",
    "len",
    "map_err",
    "max",
    "sort_unstable",
    "sort_unstable_by",
    "then",
    "then_some",
    "unwrap_or",
];

/// The place of an item: its crate, and its path in that.
pub type Place = (String, String);

/// All crates, with what each of their items says.
pub struct Program<'a> {
    pub crates: &'a BTreeMap<String, Sources>,
    pub readings: BTreeMap<Place, Result<Reading, String>>,
}

/// The items that the walk came to, and the names that it could not find, each with the item that
/// uses it.
#[derive(Debug, Default)]
pub struct Walk {
    pub reached: BTreeSet<Place>,
    pub lost: Vec<(Place, String)>,
}

/// What a path may mean.
enum Meaning<'a> {
    Item(&'a str, &'a Item),
    /// A type, or a variant of one: calling it makes a value.
    Type,
}

impl<'a> Program<'a> {
    pub fn new(crates: &'a BTreeMap<String, Sources>) -> Self {
        let mut readings = BTreeMap::new();
        for (library, sources) in crates {
            for item in &sources.items {
                let place = (library.clone(), item.path.clone());
                readings.insert(place, read(sources, item));
            }
        }
        Self { crates, readings }
    }

    fn item(&self, place: &Place) -> Option<&'a Item> {
        self.crates.get(&place.0)?.at(&place.1)
    }

    pub fn kind(&self, place: &Place) -> Option<Kind> {
        self.item(place).map(|item| item.kind)
    }

    /// All divisions, with the places where they are.
    pub fn divisions(&self) -> impl Iterator<Item = (&Place, &Division)> {
        let read =
            self.readings.iter().filter_map(|(place, read)| Some((place, read.as_ref().ok()?)));
        read.flat_map(|(place, reading)| reading.divisions.iter().map(move |one| (place, one)))
    }

    /// Everything that is reached from these places.
    pub fn walk(&self, from: &[Place]) -> Walk {
        let mut walk = Walk { reached: from.iter().cloned().collect(), lost: Vec::new() };
        let mut left = from.to_vec();
        while let Some(place) = left.pop() {
            let Some(Ok(reading)) = self.readings.get(&place) else { continue };
            for name in &reading.names {
                match self.used(&place, name) {
                    Ok(used) => left.extend(used.into_iter().filter(|p| !walk.reached.contains(p))),
                    Err(name) => walk.lost.push((place.clone(), name)),
                }
            }
            walk.reached.extend(left.iter().cloned());
        }
        walk
    }

    /// The items that a name means where it is used, or the name if it means nothing known.
    fn used(&self, place: &Place, name: &Name) -> Result<Vec<Place>, String> {
        let (path, must) = match name {
            Name::Odd(path) => return Err(path.clone()),
            Name::Method(path) => return self.methods(path),
            Name::Call(path) | Name::Path(path) => (path, true),
            Name::Word(path) => (path, false),
        };
        let found = self.meanings(place, path);
        let handed = |reading: &Reading| reading.parameters.contains(path);
        if self.readings.get(place).is_some_and(|one| one.as_ref().is_ok_and(handed)) {
            // the closure is read where it is written
            return Ok(Vec::new());
        }
        if must && found.is_empty() && !own_call(path) {
            return Err(path.clone());
        }
        // a word that is not called may be a local name, but also a function that is handed over
        let items = found.into_iter().filter_map(|meaning| match meaning {
            Meaning::Item(library, item) => Some((library.to_string(), item.path.clone())),
            Meaning::Type => None,
        });
        Ok(items.collect())
    }

    /// The methods of the crates that have a name, or the name if the language has none of that name
    /// either.
    fn methods(&self, name: &str) -> Result<Vec<Place>, String> {
        let of = |(library, sources): (&String, &Sources)| {
            let paths: Vec<String> = sources.methods(name).collect();
            paths.into_iter().map(|path| (library.clone(), path)).collect::<Vec<_>>()
        };
        let found: Vec<Place> = self.crates.iter().flat_map(of).collect();
        if found.is_empty() && !METHODS.contains(&name) {
            return Err(format!(".{name}"));
        }
        Ok(found)
    }

    /// Whether a division at a place is by a literal, or by what is made of literals and constants.
    pub fn is_literal(&self, place: &Place, division: &Division) -> bool {
        let constant = |path: &String| self.is_constant(place, path);
        let divisor = division.divisor.as_ref();
        divisor.is_some_and(|divisor| divisor.plain && divisor.paths.iter().all(constant))
    }

    /// Whether a path means a constant where it is used.
    fn is_constant(&self, place: &Place, path: &str) -> bool {
        let found = self.meanings(place, path);
        let all = found.iter().all(|m| matches!(m, Meaning::Item(_, item) if constant(item)));
        all && !found.is_empty()
    }

    /// What a path in an item means, by all that it may be read as.
    fn meanings(&self, place: &Place, path: &str) -> Vec<Meaning<'a>> {
        let Some(item) = self.item(place) else { return Vec::new() };
        let (library, module) = (&place.0, module_of(&item.file));
        let (first, rest) = path.split_once("::").unwrap_or((path, ""));
        let text = &self.crates[library].files[&item.file];
        let brought = uses(text).into_iter().filter(|(alias, _)| alias == first);
        let mut paths: Vec<String> = brought.map(|(_, full)| joined(&full, rest)).collect();
        paths.push(path.to_string());
        let places: BTreeSet<Place> =
            paths.iter().flat_map(|path| self.absolute(library, &module, path)).collect();
        places.iter().filter_map(|place| self.at(place)).collect()
    }

    /// The places that a path in a module may name.
    fn absolute(&self, library: &str, module: &str, path: &str) -> Vec<Place> {
        let (first, rest) = path.split_once("::").unwrap_or((path, ""));
        let here = |path: String| (library.to_string(), path);
        match first {
            "crate" => vec![here(rest.to_string())],
            "self" => vec![here(joined(module, rest))],
            "super" => {
                let above = module.rsplit_once("::").map_or("", |(above, _)| above);
                self.absolute(library, above, &format!("self::{rest}"))
            }
            _ if self.crates.contains_key(first) => {
                vec![here(joined(module, path)), (first.to_string(), rest.to_string())]
            }
            _ => vec![here(joined(module, path))],
        }
    }

    fn at(&self, place: &Place) -> Option<Meaning<'a>> {
        let (library, sources) = self.crates.get_key_value(&place.0)?;
        if let Some(item) = sources.at(&place.1) {
            return Some(Meaning::Item(library, item));
        }
        let (above, last) = place.1.rsplit_once("::").unwrap_or(("", &place.1));
        let is = sources.types.iter().any(|kind| {
            kind.path == place.1 || (kind.path == above && kind.variants.iter().any(|v| v == last))
        });
        is.then_some(Meaning::Type)
    }
}

/// Whether a call is the language's own.
fn own_call(path: &str) -> bool {
    BUILT_IN.contains(&path) || MAKERS.contains(&path)
}

fn constant(item: &Item) -> bool {
    item.kind == Kind::Constant
}
