//! Colours and faces. Shapes and numbers tell everything that colours tell.

/// The colour of each crusher, and of a number on it.
const CRUSHERS: [(&str, &str); 16] = [
    ("#3f5fd0", "#fff"),
    ("#d6123f", "#fff"),
    ("#37b34a", "#000"),
    ("#ffdf1f", "#000"),
    ("#f58231", "#000"),
    ("#8a1bab", "#fff"),
    ("#42d4f4", "#000"),
    ("#f25fe8", "#000"),
    ("#bfef45", "#000"),
    ("#fabed4", "#000"),
    ("#2f7f77", "#fff"),
    ("#d3b3ff", "#000"),
    ("#8c5718", "#fff"),
    ("#7a0000", "#fff"),
    ("#55606b", "#fff"),
    ("#aaffc3", "#000"),
];

/// Sizes and shapes, which do not depend on the ground.
const FACES: &str = "\
text{font-family:system-ui,\"Segoe UI\",Roboto,\"Helvetica Neue\",Arial,sans-serif;font-size:12px}
.title{font-size:20px;font-weight:600}
.verdict{font-size:14px}
.axis,.kind{text-anchor:middle}
.kind{font-size:11px}
.number,.k-number,.small{text-anchor:middle;font-weight:700}
.small{font-size:9px}
text.missed,text.k-missed{text-anchor:middle;font-size:11px;font-weight:700}
.cell,.bar,.opening,.key,.rest{stroke-width:1}
.veto,.k-veto,.decided,.k-decided{fill:none;stroke-width:2.5;stroke-linecap:round;stroke-linejoin:round}
.unwilling,.k-unwilling{fill:none;stroke-width:2;stroke-linejoin:round}
.mark,.k-mark{stroke-width:1.5;stroke-linejoin:round}
.k-rest{fill:none;stroke-width:4}
.off,.k-off{fill:none;stroke-width:2;stroke-dasharray:3 4}
.ticks .mark,.ticks .k-mark,.ticks .veto,.ticks .k-veto{stroke-width:0}
.ticks .false,.ticks .k-false,.ticks .unwilling,.ticks .k-unwilling{stroke-width:1}
.ticks .kind{font-size:9px}
.even,.k-even,.accept{fill-opacity:.09}
.ticks .even,.ticks .accept{fill-opacity:.055}
.round{fill-opacity:0}
.band{fill-opacity:.035}
.broken{stroke-width:1;fill-opacity:.13}
.calm{fill:none;stroke-width:2.5}
.broken-label,.calm-label{font-weight:600}
.tick{fill:none;stroke-width:1}
";

/// The colours that depend on the ground.
struct Ground {
    paper: &'static str,
    ink: &'static str,
    soft: &'static str,
    edge: &'static str,
    veto: &'static str,
    missed: &'static str,
    mark: &'static str,
    decided: &'static str,
}

const LIGHT: Ground = Ground {
    paper: "#ffffff",
    ink: "#1b1f24",
    soft: "#59636e",
    edge: "#00000055",
    veto: "#c4122f",
    missed: "#a04a00",
    mark: "#6a1b9a",
    decided: "#12723a",
};

const DARK: Ground = Ground {
    paper: "#14171c",
    ink: "#e9ecf0",
    soft: "#a3adb8",
    edge: "#ffffff88",
    veto: "#ff6f7f",
    missed: "#ffb057",
    mark: "#cda2ff",
    decided: "#63d68d",
};

/// The style sheet of a picture.
pub fn sheet() -> String {
    let mut css = String::from(FACES);
    for (crusher, (colour, number)) in CRUSHERS.iter().enumerate() {
        css += &format!(".c{crusher}{{fill:{colour}}}.t{crusher}{{fill:{number}}}\n");
    }
    css += &rules(&LIGHT);
    css += "@media (prefers-color-scheme:dark){\n";
    css += &rules(&DARK);
    css + "}\n"
}

fn rules(ground: &Ground) -> String {
    let Ground { paper, ink, soft, edge, veto, missed, mark, decided } = ground;
    format!(
        ".paper{{fill:{paper}}}\n\
         .title,.truck,.end,.verdict,.sent,.k-sent,.bit,.k-bit{{fill:{ink}}}\n\
         .summary,.head,.axis,.kind,.meaning{{fill:{soft}}}\n\
         .even,.k-even,.accept,.band{{fill:{ink}}}\n\
         .cell,.bar,.opening,.key,.rest{{stroke:{edge}}}\n\
         .veto,.k-veto,.unwilling,.k-unwilling,.broken{{stroke:{veto}}}.broken,.broken-label,.ticks .veto,.ticks .k-veto{{fill:{veto}}}\n\
         .missed,.k-missed{{fill:{missed}}}\n\
         .mark,.k-mark{{fill:{mark};stroke:{mark}}}.false,.k-false{{fill:none}}\n\
         .decided,.k-decided,.calm{{stroke:{decided}}}.calm-label{{fill:{decided}}}\n\
         .stopped,.k-stopped{{fill:{ink}}}\n\
         .off,.k-off,.k-rest{{stroke:{soft}}}\n\
         .tick{{stroke:{soft};stroke-opacity:.35}}\n"
    )
}
