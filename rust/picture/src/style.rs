//! How a picture looks, by light and by dark. Every text has a contrast of 7 to 1 or more with what it stands on, and 14 points
//! or more; no meaning hangs on a colour alone.

/// The style sheet of a picture. `id` is that of its root, so that two pictures in one page do not meet.
pub fn sheet(id: &str) -> String {
    let rule = |(selectors, rule): (&str, &str)| {
        let selectors: Vec<String> = selectors.split(',').map(|selector| format!("#{} {}", id, selector)).collect();
        format!("{}{{{}}}\n", selectors.join(","), rule)
    };
    let always: String = RULES.iter().copied().map(rule).collect();
    let light: String = COLOURS.iter().map(|&(selectors, light, _)| rule((selectors, light))).collect();
    let dark: String = COLOURS.iter().map(|&(selectors, _, dark)| rule((selectors, dark))).collect();
    format!("{}{}@media (prefers-color-scheme:dark){{\n{}}}\n", always, light, dark)
}

const RULES: [(&str, &str); 23] = [
    ("text", "font:17px system-ui,'Segoe UI',Roboto,Helvetica,Arial,'DejaVu Sans',sans-serif"),
    (".big", "font-size:21px;font-weight:700"),
    (".head", "font-weight:700"),
    (".thin", "font-size:15px"),
    (".thin-head", "font-size:15px"),
    (".desk,.number", "font:14px ui-monospace,Menlo,Consolas,'DejaVu Sans Mono',monospace"),
    (".refused,.hidden,.shown", "font-weight:600"),
    (".number", "text-anchor:end"),
    (".mid", "text-anchor:middle"),
    (".in", "font-size:14px;font-weight:700;text-anchor:middle"),
    (".life", "stroke-width:1.5"),
    (".rule", "stroke-width:1"),
    (".copy", "stroke-width:2.5;fill:none"),
    (".waiting", "stroke-width:2.5;fill:none;stroke-dasharray:7 6"),
    (".beat", "stroke-width:1.2;fill:none;stroke-dasharray:2 4"),
    (".stretch", "stroke-width:1.5"),
    (".hatch", "stroke-width:3"),
    (".taken", "stroke-width:2.5"),
    (".lower", "stroke-width:2.5"),
    (".lacks", "stroke-width:2;stroke-dasharray:3 3"),
    (".read", "stroke-width:2.5"),
    (".page", "stroke-width:5"),
    (".cross", "stroke-width:4;stroke-linecap:round"),
];

/// Selector, colours by light, colours by dark.
const COLOURS: [(&str, &str, &str); 25] = [
    (".paper", "fill:#ffffff", "fill:#12161b"),
    (".band", "fill:#eef2f6", "fill:#1d242c"),
    ("text", "fill:#15191e", "fill:#f2f4f7"),
    (".thin,.desk,.number", "fill:#434a53", "fill:#bfc7d1"),
    (".refused", "fill:#a0140a", "fill:#ffa198"),
    (".hidden", "fill:#7a3e00", "fill:#ffc069"),
    (".shown", "fill:#0a5a25", "fill:#7ee2a0"),
    (".life", "stroke:#8c96a3", "stroke:#66717f"),
    (".rule", "stroke:#c3cad3", "stroke:#3b4550"),
    (".written", "fill:#0a4f9e", "fill:#8cc6ff"),
    (".written-in,.green-in", "fill:#ffffff", "fill:#0b0f14"),
    (".copy,.waiting", "stroke:#0a4f9e", "stroke:#8cc6ff"),
    (".point", "fill:#0a4f9e", "fill:#8cc6ff"),
    (".beat", "stroke:#6b7480", "stroke:#929ca8"),
    (".dot", "fill:#6b7480", "fill:#929ca8"),
    (".ground", "fill:#fff3e0", "fill:#2e2213"),
    (".hatch", "stroke:#c66a00", "stroke:#e09a3c"),
    (".stretch", "stroke:#9a4f00", "stroke:#ffc069"),
    (".taken", "fill:#fff3e0;stroke:#9a4f00", "fill:#2e2213;stroke:#ffc069"),
    (".taken-in", "fill:#5c2e00", "fill:#ffd9a3"),
    (".green", "fill:#0a5a25", "fill:#7ee2a0"),
    (".lower,.lacks", "fill:#ffffff;stroke:#0a5a25", "fill:#12161b;stroke:#7ee2a0"),
    (".read", "fill:#ffffff;stroke:#15191e", "fill:#12161b;stroke:#f2f4f7"),
    (".page", "stroke:#15191e", "stroke:#f2f4f7"),
    (".cross", "stroke:#a0140a", "stroke:#ffa198"),
];

#[cfg(test)]
mod tests {
    use super::*;

    /// The luminance of a colour like #15191e, by the rule of the web's guidelines.
    fn luminance(colour: &str) -> f64 {
        let part = |at: usize| f64::from(u8::from_str_radix(&colour[at..at + 2], 16).unwrap()) / 255.0;
        let linear = |part: f64| if part <= 0.04045 { part / 12.92 } else { ((part + 0.055) / 1.055).powf(2.4) };
        0.2126 * linear(part(1)) + 0.7152 * linear(part(3)) + 0.0722 * linear(part(5))
    }

    /// The colour that a selector's rule gives to text or ground, by light or by dark.
    fn fill(selector: &str, dark: bool) -> &'static str {
        let of = |&&(selectors, _, _): &&(&str, &str, &str)| selectors.split(',').any(|one| one == selector);
        let (_, light, dim) = COLOURS.iter().find(of).unwrap();
        let rule = if dark { dim } else { light };
        &rule.strip_prefix("fill:").unwrap()[..7]
    }

    #[test]
    fn every_text_has_contrast() {
        let beside = ["text", ".thin", ".desk", ".number", ".refused", ".hidden", ".shown"].map(|text| (text, ".paper"));
        let inside = [(".written-in", ".written"), (".green-in", ".green"), (".taken-in", ".taken"), ("text", ".read")];
        let heads = [("text", ".band"), (".thin", ".band")];
        for (text, ground) in beside.into_iter().chain(inside).chain(heads) {
            for dark in [false, true] {
                let (a, b) = (luminance(fill(text, dark)), luminance(fill(ground, dark)));
                let contrast = (a.max(b) + 0.05) / (a.min(b) + 0.05);
                assert!(contrast >= 7.0, "{} on {}, dark {}: {:.1}", text, ground, dark, contrast);
            }
        }
    }
}
