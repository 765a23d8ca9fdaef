//! The layers in which the crates lie on each other, from crates.txt.

use crate::project::Crate;

/// From the top down. A crate uses crates of its own layer and of those below it.
const LAYERS: [&str; 10] = [
    "calls",
    "programs",
    "text",
    "lists",
    "records",
    "algorithms",
    "cores",
    "cipher",
    "shared",
    "meaning",
];
/// Such a crate uses any, and no crate of a layer uses it.
const BESIDE: &str = "beside";

/// The layers with their crates, each layer's in the order of crates.txt.
fn layered(crates: &[Crate]) -> impl Iterator<Item = (&'static str, Vec<&Crate>)> {
    LAYERS.into_iter().chain([BESIDE]).map(move |layer| {
        let of_layer = crates.iter().filter(|one| one.layer == layer);
        (layer, of_layer.collect())
    })
}

/// The picture, and a table with what each crate uses.
pub fn picture(crates: &[Crate]) -> String {
    let mut text = String::new();
    for (layer, of_layer) in layered(crates) {
        let names: Vec<&str> = of_layer.iter().map(|one| &one.name[..]).collect();
        text.push_str(&format!("    {layer:<15}{}\n", names.join(", ")));
    }
    text.push_str("\n| layer | crate | what it is for | uses, besides `standard` and `arrays` |\n");
    text.push_str("|---|---|---|---|\n");
    let listed = |name: &str| crates.iter().any(|one| one.name == name);
    for one in layered(crates).flat_map(|(_, of_layer)| of_layer) {
        let Crate {
            name,
            layer,
            purpose,
            ..
        } = one;
        let uses = one.uses.iter().filter(|used| listed(used));
        let uses: Vec<&str> = uses
            .map(|used| &used[..])
            .filter(|used| !["standard", "arrays"].contains(used))
            .collect();
        let uses = if uses.is_empty() {
            "-".to_string()
        } else {
            uses.join(", ")
        };
        text.push_str(&format!("| {layer} | `{name}` | {purpose} | {uses} |\n"));
    }
    text
}

/// The list of crates for README.
pub fn list(crates: &[Crate]) -> String {
    let mut text = String::from("| layer | crates |\n|---|---|\n");
    for (layer, of_layer) in layered(crates) {
        let said = |one: &&Crate| format!("`{}` ({})", one.name, one.purpose);
        let of_layer: Vec<String> = of_layer.iter().map(said).collect();
        text.push_str(&format!("| {layer} | {} |\n", of_layer.join("; ")));
    }
    text
}

/// How many crates are in their layer, and what is wrong.
pub fn check(crates: &[Crate]) -> (usize, Vec<String>) {
    let depth = |layer: &str| LAYERS.iter().position(|one| *one == layer);
    let mut faults = Vec::new();
    for one in crates {
        let (name, layer) = (&one.name, &one.layer[..]);
        if layer != BESIDE && depth(layer).is_none() || one.purpose.is_empty() {
            faults.push(format!(
                "crates.txt: {name}: the comment above it is '# LAYER: what it is for'"
            ));
            continue;
        }
        for used in crates.iter().filter(|used| one.uses.contains(&used.name)) {
            let beside = used.layer == BESIDE && layer != BESIDE;
            let below = !beside && depth(&used.layer) >= depth(layer);
            if !below {
                let used = &used.name;
                faults.push(format!(
                    "crates.txt: {name}: uses {used}, of a layer above it"
                ));
            }
        }
    }
    (usize::from(faults.is_empty()), faults)
}

#[cfg(test)]
mod tests {
    use super::*;

    fn one(name: &str, layer: &str, uses: &[&str]) -> Crate {
        Crate {
            name: name.to_string(),
            layer: layer.to_string(),
            purpose: "something".to_string(),
            uses: uses.iter().map(|name| name.to_string()).collect(),
            sources: vec![],
            edits: vec![],
        }
    }

    #[test]
    fn a_crate_uses_what_is_below_it() {
        let standard = || one("standard", "meaning", &[]);
        let hurdle = |layer: &str| one("hurdle", layer, &["standard", "libc"]);
        let claims = || one("claims", "beside", &["standard"]);
        let cores = |uses: &[&str]| one("cores", "cores", uses);
        let faults = |crates: &[Crate]| check(crates).1;
        assert!(faults(&[standard(), claims(), hurdle("cipher"), cores(&["hurdle"])]).is_empty());
        let above = [standard(), hurdle("lists"), cores(&["hurdle"])];
        let fault = "crates.txt: cores: uses hurdle, of a layer above it";
        assert_eq!(faults(&above), [fault]);
        let fault = "crates.txt: cores: uses claims, of a layer above it";
        assert_eq!(faults(&[standard(), claims(), cores(&["claims"])]), [fault]);
        let examples = one("example_claims", "beside", &["standard", "claims"]);
        assert!(faults(&[standard(), claims(), examples]).is_empty());
        assert_eq!(faults(&[hurdle("none")]).len(), 1);
    }

    #[test]
    fn layers_are_listed_from_the_top() {
        let crates = [
            one("standard", "meaning", &[]),
            one("arrays", "shared", &["standard"]),
            one("hurdle", "cipher", &["standard", "arrays", "libc"]),
            one("cores", "cores", &["standard", "hurdle"]),
        ];
        let list = list(&crates);
        let rows: Vec<&str> = list.lines().filter(|row| row.contains('`')).collect();
        assert_eq!(rows[0], "| cores | `cores` (something) |");
        assert_eq!(rows[3], "| meaning | `standard` (something) |");
        let picture = picture(&crates);
        assert!(picture.contains("    cores          cores\n    cipher         hurdle\n"));
        assert!(picture.contains("| cores | `cores` | something | hurdle |\n"));
        assert!(picture.contains("| cipher | `hurdle` | something | - |\n"));
    }
}
