//! Changes of the source that the comparison must notice.

/// A change of one word of the source.
pub struct Edit {
    /// The samples that show it.
    pub kind: &'static str,
    /// What is found before the word, one after the other.
    places: &'static [&'static str],
    old: &'static str,
    new: &'static str,
    /// The answer that becomes another one.
    pub answer: &'static str,
}

impl Edit {
    /// The changed source.
    pub fn of(&self, source: &str) -> String {
        let after = |at: usize, what: &str| {
            let found = source[at..].find(what);
            let found = found.unwrap_or_else(|| panic!("there is no {what} behind byte {at}"));
            at + found + what.len()
        };
        let place = self.places.iter().fold(0, |at, place| after(at, place));
        let end = after(place, self.old);
        let start = end - self.old.len();
        [&source[..start], self.new, &source[end..]].concat()
    }
}

const fn edit(
    kind: &'static str,
    places: &'static [&'static str],
    [old, new]: [&'static str; 2],
    answer: &'static str,
) -> Edit {
    Edit {
        kind,
        places,
        old,
        new,
        answer,
    }
}

/// At least one for each kind of answer.
pub const EDITS: [Edit; 13] = [
    edit(
        "types",
        &["datatype Type =", "function ToString"],
        ["\"&mut \"", "\"&mut\""],
        "Type.ToString@0",
    ),
    edit(
        "types",
        &["datatype Type =", "function Fold", "TSynonym", "=>"],
        ["display", "base"],
        "Type.Fold",
    ),
    edit(
        "types",
        &["predicate IsAutoSize", "TSynonym"],
        ["base", "display"],
        "Type.IsAutoSize",
    ),
    edit(
        "types",
        &["function GetBuiltinCollectionElement", "then"],
        ["1", "0"],
        "Type.GetBuiltinCollectionElement",
    ),
    // What was a part no longer is one.
    edit(
        "types",
        &["predicate IsBoxDyn"],
        ["DynType", "ImplType"],
        "Type.BoxDynUnderlying",
    ),
    edit(
        "types",
        &["function TypeAtInitialization"],
        ["None", "Some"],
        "Type.TypeAtInitialization",
    ),
    edit(
        "types",
        &["function Replace(", "Intersection", "right :="],
        ["right", "left"],
        "Type.ReplaceMap",
    ),
    edit(
        "paths",
        &["datatype Path =", "function ToString"],
        ["\"crate\"", "\"Crate\""],
        "Path.ToString",
    ),
    edit(
        "docs",
        &["function ConvertDocstring"],
        ["> 4", ">= 4"],
        "ToDocstringPrefix@0",
    ),
    edit(
        "declarations",
        &["datatype Struct =", "function ToString"],
        ["\"pub struct \"", "\"struct \""],
        "ModDecl.ToString@0",
    ),
    edit(
        "declarations",
        &["const IND"],
        ["\"    \"", "\"  \""],
        "ModDecl.ToString@16",
    ),
    // What was visited before a synonym's target is forgotten.
    edit(
        "declarations",
        &[
            "function VisitModMapping",
            "TypeDecl",
            "VisitTypeParams",
            "VisitType(",
        ],
        ["acc", "[]"],
        "VisitModMapping",
    ),
    edit(
        "declarations",
        &["function ReplaceFields", "NamelessFields", ":="],
        ["ReplaceType", ""],
        "ReplaceModDecl",
    ),
];
