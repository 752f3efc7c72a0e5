//! Documents made by hand: what the project's tests of the host have, and what random documents seldom hit.
use crate::random::Random;

/// What stands within a drawing that has the usual namespaces.
#[rustfmt::skip]
const INSIDE: [&str; 60] = [
    "",
    // Rules by weight, by order, important ones, and the style attribute behind them.
    "<style>#a { fill: red } rect { fill: green !important; x: 1 } .b { fill: blue }</style><rect id='a' class='c b' style='fill: none' fill='white'/>",
    "<style>rect { fill: a } rect { fill: b }</style><style>rect { fill: c } * { fill: d }</style><rect/><g fill='e'/>",
    "<style>.x.y { fill: a } .x { fill: b } rect.x { fill: c } #r { fill: d } [id=r] { fill: e }</style><rect id='r' class='x y'/>",
    "<style>rect { fill: a !important; fill: b !important } #r { fill: c !important }</style><rect id='r' style='fill: d !important'/>",
    "<style>rect { fill: inherit } g { fill: red !important }</style><g><rect/><rect fill='blue' style='fill: green'/></g>",
    "<style>rect:first-child { fill: a } g > rect { stroke: b } g rect + rect { opacity: c } svg g rect { color: d }</style><g><rect/><rect/><g><rect/></g></g>",
    "<style>g:first-child:first-child { fill: a } g.b { fill: c } g g { fill: d }</style><g class='b'><g class='b'/></g>",
    "<style type='text/css'>g { fill: a }</style><style type='text/less'>g { fill: b }</style><style type=''>g { fill: c }</style><g/>",
    "<style><![CDATA[g { fill: a }]]> g { stroke: b }<g/>g { color: c }</style><style><!-- d -->g { opacity: e }</style><g/>",
    "<style/><style></style><style> </style><style>g</style><style>g {</style><style>g { fill: a</style><g/>",
    "<o:style>g { fill: a }</o:style><g><style>g { stroke: b }</style></g><style><style>g { color: c }</style></style>",
    "<style>@media screen { g { fill: a } } g { stroke: b } @import 'c'; g { color: d }</style><g/>",
    "<style>g, rect , .a,#b { fill: c } g,, rect { stroke: d }</style><g/><rect class='a'/><path id='b'/>",
    "<style>svg|g { fill: a } g { fill: b }</style><style>g::before { fill: c } g:not(.a) { stroke: d } g ~ rect { color: e }</style><g/><rect/>",
    "<style>[class~=a] { fill: b } [class|=a] { stroke: c } [class='a d'] { color: e } [xlink:href] { opacity: f } [href] { opacity: g }</style>\
     <g class='a d'/><g class='a-b'/><g class='a' xlink:href='#h'/>",
    "<style>/* a */ g /* b */ { /* c */ fill /* d */ : /* e */ red /* f */ ; /* g */ }</style><g/>",
    "<style>g { fill: url( '#a' ) red; font: bold 12px/1.5 \"A B\", serif; marker: url(#m) !important; stroke: #ABC }</style><g/>",
    "<style s:type='text/plain' o:type='a'>g { fill: a }</style><style type='TEXT/CSS'>g { fill: b }</style><style type='text/css '>g { fill: c }</style><g/>",
    "<style>.a { fill: b } #c { stroke: d }</style><g s:class='a' s:id='c' s:style='color: e' o:style='opacity: f'/><g xml:class='a' xlink:style='color: g'/>",
    // Shorthands beside what they stand for.
    "<g style='font-weight: bold; font: 12px a; font-size: 1px'/><g style='font: italic 12px a !important; font-style: b'/><g font='12px a'/>",
    "<g style='marker: none; marker-end: url(#a)' marker-start='url(#b)'/><g marker='url(#c)'/><g style='marker: inherit'/>",
    "<g style='font: inherit'/><g style='font: 12px'/><g style='font: small-caps 700 condensed oblique x-large a, b'/><g style='font:1e1px a'/>",
    "<g style='font: normal normal normal normal normal 1px a'/><g style='font: bold 100 5% a'/><g style='font: 12px / 1.2 a'/>",
    "<g style='*fill: red; fill: blue; -x: y; stroke:none'/><g style='fill: red stroke: blue'/><g style='fill:;stroke:red'/><g style=';;fill:red'/>",
    "<g style='filter: drop-shadow(1px 2px rgba(0, 0, 0, .5)); fill: red'/><g style=\"font-family: 'a;b', c; fill: d\"/>",
    // Attributes: which are kept, and in which namespaces.
    "<g s:fill='a' fill='b' o:fill='c' xml:fill='d' xlink:fill='e'/><g xmlns:t='http://www.w3.org/2000/svg' t:stroke='f'/>",
    "<image image-rendering='smooth'/><image image-rendering='auto' style='image-rendering: pixelated'/><g mix-blend-mode='a' isolation='b' font-kerning='c'/>",
    "<g style='mix-blend-mode: a; isolation: isolate; font-kerning: none; x: 1; clip: auto; kerning: 2; transform: none'/>",
    "<g xlink:href='#a' href='#b'/><g href='#b' xlink:href='#a'/><g s:href='#c'/><g xml:href='#d'/><g xlink:href='#e' s:href='#f'/>",
    "<g fill='inherit' opacity='inherit' color='inherit' kerning='inherit' transform='inherit' font-family='inherit'/>",
    "<g fill='a' kerning='b' opacity='c' filter='url(#d)'><g><g fill='inherit' kerning='inherit' opacity='inherit' filter='inherit'/></g></g>",
    "<g id='a'/><g xml:id='b'/><g o:id='c'/><g s:id='d'/><use href='#a'/><use href='#b'/><use href='#c'/><use href='#d'/>",
    "<Rect/><clippath/><clipPath/><RECT/><rect Fill='a' FILL='b' fill='c' viewbox='d' viewBox='e'/>",
    // Elements of others.
    "<foreignObject><html xmlns='http://www.w3.org/1999/xhtml'><svg xmlns='http://www.w3.org/2000/svg'><rect/></svg></html></foreignObject>",
    "<o:g><rect/></o:g><g xmlns='urn:n'><rect/></g><g xmlns=''><rect/></g><s:g><s:rect/></s:g><desc>a</desc><title>b</title>",
    "<svg><svg><rect/></svg></svg><switch><g systemLanguage='en'/><g/></switch><symbol id='s'><rect/></symbol><use href='#s'/>",
    // Uses and quotes.
    "<g id='g'><rect id='r'/></g><use href='#g' id='u'/><use href='#u'/><use href=' #r '/><use href='#none'/><use href='other#r'/><use/>",
    "<g id='g'><use href='#g'/></g><g id='h'><use href='#u' id='v'/></g><use id='u' href='#h'/><use id='w' href='#w'/>",
    "<g id='a'><use href='#b'/></g><g id='b'><use href='#c'/></g><g id='c'><use href='#a'/></g>",
    "<use href='#t'/><text id='t'>a <tspan>b</tspan></text><use href='#t'><g/></use><use href='#s'/><style id='s'>g { fill: a }</style>",
    "<text id='a'>x<tspan id='b'> y </tspan>z<!-- c --></text><text><tref href='#a'/><tref xlink:href='#b' href='#a'/><tref href='#none'/><tref/></text>",
    "<o:t id='a'>x</o:t><g id='b'>y<desc>z</desc></g><text><tref href='#a'/><tref href='#b'/><tref href='b'/><tref href='#c'/></text><g id='c'/>",
    "<text><a href='#b'>a<a>b</a></a><textPath href='#p'>c<textPath>d</textPath></textPath><tspan><textPath>e</textPath></tspan><g>f</g></text>",
    "<a href='#a' fill='b'><rect/><text><a fill='c'>d</a></text></a><tspan>e</tspan><tref href='#f'/><textPath>g</textPath>",
    // White space.
    "<text> a  b\n\tc </text><text xml:space='preserve'> a  b\n\tc </text><g xml:space='preserve'><text> a <tspan xml:space='default'> b </tspan></text></g>",
    "<text>a<tspan> b</tspan></text><text> <tspan>b </tspan></text><text><tspan> </tspan> b</text><text> a <tspan>b</tspan> c </text><text> </text>",
    "<text space='preserve'> a </text><text s:space='preserve'> a </text><text o:space='preserve'> a </text><text xml:space='Preserve'> a </text>",
    "<text>a\r\nb\rc&#13;d&#10;e&#9;f&#32; g</text><text xml:space='preserve'>a\r\nb\rc&#13;d&#13;&#10;e\r</text><text>\u{a0}a\u{2003}\u{3000}</text>",
    "<text>a<![CDATA[ b\r\n<c> ]]>d<![CDATA[]]></text><text><![CDATA[]]></text><text><![CDATA[a]]><!-- b --><![CDATA[c]]></text>",
    "<text>a<!-- b -->c<?d e?>f</text><text><!-- g --></text><text><tspan/></text><text/>",
    "<g fill='a\r\nb\tc  d&#10;e&#13;f&#9;g'/><g id=' a '/><use href='# a '/><g class='\n'/>",
    // Links that lead to themselves.
    "<pattern id='p'><rect fill='url(#p)' stroke='url(#p) red'/></pattern><pattern id='q'><rect fill=\"url('#r')\"/></pattern><pattern id='r'><rect fill='url(#q)'/></pattern>",
    "<clipPath id='a' clip-path='url(#a)'><rect clip-path='url(#b)'/></clipPath><clipPath id='b'><g clip-path='url(#a)'/></clipPath>",
    "<mask id='a'><g style='mask: url(#a)'/></mask><mask id='b' mask='url( \"#c\" )'/><mask id='c'><g mask='url(#b)'/></mask><mask id='a'/>",
    "<filter id='f'><feImage href='#r'/></filter><rect id='r' filter='url(#f)'/><filter id='h'><feImage href='#s'/></filter><rect id='s' filter='blur(1) url(#h)'/>",
    "<filter id='f'><feImage xlink:href='#r'/><feImage href='#t'/></filter><rect id='r' style='filter: sepia(1) url(#f)'/><g id='t' filter='nothing(1) url(#f)'/>",
    "<filter id='f'><g filter='url(#f)'/></filter><filter id='a'><g filter='url(#b)'/></filter><filter id='b'><g filter='url(#a) '/></filter>",
    "<g id=''><pattern><rect fill='url(#)'/></pattern></g><clipPath><g clip-path='url(#none)'/></clipPath><mask id='m'><g mask='none'/></mask>",
    "<g id='é'><rect fill='url(#é)'/></g><use href='#é'/><use href='#&#233;'/><use href='#%C3%A9'/>",
];

/// Whole documents.
#[rustfmt::skip]
const WHOLE: [&str; 40] = [
    "",
    "text",
    "<svg/>",
    "<svg></svg>",
    "<g/>",
    "<svg xmlns=''/>",
    "<svg xmlns='urn:a'><svg xmlns='http://www.w3.org/2000/svg'/></svg>",
    "<a><svg/></a>",
    "<svg/><svg/>",
    "<!-- a --><svg/><!-- b -->",
    "\u{feff}<?xml version='1.0'?><svg/>",
    " <?xml version='1.0'?><svg/>",
    "<?xml version='1.0' encoding='ISO-8859-1'?><svg><text>é</text></svg>",
    "<svg",
    "<svg>",
    "<svg><g></svg>",
    "<svg><g>",
    "<svg><g/",
    "<svg a='1",
    "<svg><!-- a",
    "<svg><![CDATA[ a",
    "<svg>&nbsp;</svg>",
    "<svg a='<'/>",
    "<svg a='1' a='2'/>",
    "<svg a:b='1'/>",
    "<svg xmlns:a='urn:1' xmlns:b='urn:1' a:c='1' b:c='2'/>",
    "<!DOCTYPE svg [<!ENTITY a '&b;'><!ENTITY b '&a;'>]><svg>&a;</svg>",
    "<!DOCTYPE svg [<!ENTITY a '<g>'>]><svg>&a;</g></svg>",
    "<!DOCTYPE svg [<!ENTITY a 'fill'><!ENTITY b '<rect fill=\"c\"/>'>]><svg style='&a;: d'><style>rect { stroke: &a; }</style>&b;<text>&a; &b; e</text></svg>",
    "<!DOCTYPE svg [<!ENTITY ns 'http://www.w3.org/2000/svg'>]><svg xmlns='&ns;' xmlns:s='&ns;'><s:rect s:fill='a'/></svg>",
    "<!DOCTYPE svg [<!ENTITY a '<g>b'>]><svg>&a;<rect id='c'/><use href='#c'/></svg>",
    "<!DOCTYPE svg [<!ENTITY a '<g b=\"1\"'>]><svg>&a;<rect/></svg>",
    "<!DOCTYPE svg [<!ENTITY a '<g>b'><!ENTITY c 'd &a;'>]><svg><text>&c; e</text></svg>",
    "<!DOCTYPE svg [<!ENTITY a '<g>b'><!ENTITY c 'd &a;'>]><svg><text>e</text></svg>",
    "<!DOCTYPE svg [<!ENTITY a '<o:g>b</o:g><o:g/>'>]><svg xmlns:o='http://www.w3.org/2000/svg'>&a;<rect/>&a;</svg>",
    "<!DOCTYPE svg [<!ENTITY a '<g>b</g><g'>]><svg>&a;<rect/></svg>",
    "<!DOCTYPE svg [<!ENTITY a 'b<g>c'>]><svg id='&a;'><rect/></svg>",
    "<!DOCTYPE svg [<!ENTITY a 'b<g>c'>]><svg xmlns:o='&a;'><rect/><o:rect/></svg>",
    "<!DOCTYPE svg SYSTEM 'a.dtd'><svg><text>a</text></svg>",
    "<s:svg xmlns:s='http://www.w3.org/2000/svg'><g/><s:g/><style>g { fill: a }</style><s:style>g { stroke: b }</s:style></s:svg>",
];

/// Values of fill, each with a link LINK that leads back to the pattern that it stands in. It is cut if the value is read as a link.
const PAINTS: [&str; 34] = [
    "url(#LINK)", " url(#LINK) ", "url( #LINK )", "url('#LINK')", "url( ' #LINK ' )", "url(\"#LINK\")", "url('#LINK)",
    "url(#LINK')", "url(#LINK", "URL(#LINK)", "url (#LINK)", "url(LINK)", "url(a#LINK)", "#LINK", "url(#LINK) none",
    "url(#LINK)none", "url(#LINK) currentColor", "url(#LINK) red", "url(#LINK) Red", "url(#LINK) nothing", "url(#LINK) #123",
    "url(#LINK) #12345678", "url(#LINK) #12", "url(#LINK) rgb(1, 2, 3)", "url(#LINK) rgba(1 2 3 / 50%)",
    "url(#LINK) hsl(120deg, 5%, 5%)", "url(#LINK) rgb(1)", "url(#LINK) inherit", "url(#LINK) url(#LINK)",
    "url(#LINK) transparent", "url(#LINK) hsl(1 2%3%)", "url(#LINK) hsl(1deg2% 3% 4%)", "url(#LINK) hsl(1DEG 2% 3%)",
    "url(#LINK)&#160;red",
];

/// Values of filter, each on an element that a feImage within the filter LINK leads to.
const FILTERS: [&str; 42] = [
    "url(#LINK)", "url(#a) url(#LINK)", "url('#LINK')", "blur() url(#LINK)", "blur(2px)url(#LINK)", "blur(2%) url(#LINK)",
    "sepia(1) url(#LINK)", "sepia(50%) url(#LINK)", "sepia(-1) url(#LINK)", "sepia(a) url(#LINK)",
    "hue-rotate(90deg) url(#LINK)", "hue-rotate(1turn2) url(#LINK)", "drop-shadow(1 2) url(#LINK)",
    "drop-shadow(1 2 3 red) url(#LINK)", "drop-shadow(red 1 2) url(#LINK)", "drop-shadow(rgb(1, 2, 3) 1 2) url(#LINK)",
    "drop-shadow(1) url(#LINK)", "drop-shadow(1 2 3 4) url(#LINK)", "drop-shadow() url(#LINK)", "nothing(1) url(#LINK)",
    "nothing() url(#LINK)", "none url(#LINK)", "url(LINK) url(#LINK)", "url(#LINK) nothing", "blur (1) url(#LINK)",
    "BLUR(1) url(#LINK)", "drop-shadow(2px2px) url(#LINK)", "drop-shadow(2px-2px) url(#LINK)", "drop-shadow(2px+2px) url(#LINK)",
    "drop-shadow(2px.5px) url(#LINK)", "drop-shadow(2px/**/2px) url(#LINK)", "drop-shadow(1-2) url(#LINK)",
    "drop-shadow(1px 2pxred) url(#LINK)", "drop-shadow(1px 2px#fff) url(#LINK)", "drop-shadow(red1px 2px) url(#LINK)",
    "drop-shadow(red+1px 2px) url(#LINK)", "drop-shadow(rgb(1, 2, 3)1px 2px) url(#LINK)", "drop-shadow(1px red 2px) url(#LINK)",
    "blur(1.px) url(#LINK)", "blur(2pxé) url(#LINK)", "/* a */blur(/* ) */2px)/**/url(#LINK)", "hue-rotate(1degrad) url(#LINK)",
];

/// Values of font.
const FONTS: [&str; 31] = [
    "12px a", "12 a", "12pt a, b", "1.5em 'a b'", ".5em a", "12% a", "-1px a", "12px", "12px ", "a", "bold", "bold a",
    "bold 1px a", "normal 1px a", "italic oblique 1px a", "900 condensed small-caps italic 1px a",
    "bold bold bold bold bold 1px a", "100 1px a", "150 1px a", "x-large a", "X-large a", "larger a b c", "Bold 1px a",
    "inherit", "12pxa", "12px'a'", "12%a", "12px/2a", "100.5px a", "100px a", "1px/**/a",
];

/// Links of an element `use`, each to LINK.
const LINKS: [&str; 14] = [
    "#LINK", " #LINK", "#LINK ", "#LINK a", "# LINK", "LINK", "a#LINK", "#LINK&#10;", "&#9;#LINK", "#LINK&#160;", "##LINK",
    "#LINK#", "url(#LINK)", "",
];

/// Selectors. The elements that they are asked of stand in `selected`.
const SELECTORS: [&str; 38] = [
    "*", "rect", "Rect", "o|rect", "#a", "#A", ".b", ".b.c", ".c.b", ".B", "rect.b", "rect#a.b", "[x]", "[x=y]", "[x='y']",
    "[x=\"y z\"]", "[x~=z]", "[x|=y]", "[x^=y]", "[class=b]", "[id]", "[xlink:href]", "[href]", "g rect", "g > rect", "g>rect",
    "g + rect", "g+rect", "rect + rect", "svg > g > g > rect", "svg rect + path", ":first-child", "g :first-child",
    "rect:first-child", "rect:hover", "rect:lang(en)", "rect:nth-child(1)", "rect ~ path",
];

/// For each selector a sheet with the rule before and behind another that weighs as much as a name, and elements to ask.
fn selected(selector: &str) -> String {
    format!(
        "<style>rect {{ fill: 1 }} {selector} {{ fill: 2; stroke: 3 }} rect {{ fill: 4 }} .b {{ fill: 5 }} {selector} {{ color: 6 }}</style>\
         <rect id='a' class='b' x='y'/><g><rect class='b c' x='y z'/><rect x='y-z' xml:lang='en'/><path id='a'/><g class='b'><rect/></g>\
         <rect o:x='y' xlink:href='#a'/><path href='#a'/></g><o:rect/><o:g><rect/></o:g>"
    )
}

/// A list of values, each in an element of its own. LINK is i and the number of the value.
fn each<S: AsRef<str>>(values: &[S], element: impl Fn(&str, &str) -> String) -> String {
    let one = |(k, value): (usize, &S)| {
        let link = format!("i{k}");
        element(&link, &value.as_ref().replace("LINK", &link).replace('"', "&quot;"))
    };
    values.iter().enumerate().map(one).collect()
}

/// All values of four lists (paints, filters, fonts, links): in attributes, in style attributes and in rules.
fn catalogues<S: AsRef<str>>([paints, filters, fonts, links]: [&[S]; 4]) -> Vec<String> {
    let filter =
        |link: &str, image: &str| format!("<filter id='{link}'><feImage href='#r{link}'/></filter><rect id='r{link}' {image}/>");
    let pattern = |link: &str, rect: &str| format!("<pattern id='{link}'><rect {rect}/></pattern>");
    let clip = |link: &str, rect: &str| format!("<clipPath id='{link}'><rect {rect}/></clipPath>");
    vec![
        each(paints, |link, value| pattern(link, &format!("fill=\"{value}\""))),
        each(paints, |link, value| pattern(link, &format!("style=\"stroke: {value}; color: red\""))),
        each(paints, |link, value| clip(link, &format!("clip-path=\"{value}\""))),
        each(paints, |link, value| clip(link, &format!("style=\"clip-path: {value}\" mask='none'"))),
        each(filters, |link, value| filter(link, &format!("filter=\"{value}\""))),
        each(filters, |link, value| filter(link, &format!("style=\"filter: {value}; fill: red\""))),
        each(filters, |link, value| format!("<filter id='{link}'><g filter=\"{value}\"/></filter>")),
        each(fonts, |link, value| format!("<g id='{link}' font=\"{value}\" style=\"font: {value}; fill: red\"/>")),
        each(fonts, |link, value| {
            format!("<style>#{link} {{ font-style: a; font: {value} !important }}</style><g id='{link}'/>")
        }),
        each(links, |link, value| format!("<g id='{link}'/><use href=\"{value}\"/>")),
        each(links, |link, value| format!("<g id='{link}'/><use xlink:href=\"{value}\"/>")),
        each(links, |link, value| {
            format!("<desc id='{link}'/><g id='{link}'>a</g><text id='t{link}'>{link}<tref href=\"{value}\"/></text>")
        }),
        each(links, |link, value| format!("<text id='{link}'>a{link}</text><text><tref href=\"{value}\"/></text>")),
        each(links, |link, value| filter(link, &format!("filter='url(#{link})' href=\"{value}\""))),
    ]
}

/// A drawing with the usual namespaces.
fn svg(inside: &str) -> String {
    let namespaces =
        "xmlns='http://www.w3.org/2000/svg' xmlns:s='http://www.w3.org/2000/svg' xmlns:xlink='http://www.w3.org/1999/xlink'";
    format!("<svg {namespaces} xmlns:o='urn:o'>{inside}</svg>")
}

/// A function with some amounts.
fn call(name: &str, random: &mut Random) -> String {
    let amount = |random: &mut Random| {
        let (sign, unit) = (
            random.one_of(&["", "", "", "-", "+"]),
            random.one_of(&["", "", "%", "px", "deg", "rad", "mm", "turn", "Deg", "e", "q"]),
        );
        format!("{sign}{}{unit}", random.one_of(&["0", "1", "2.5", ".5", "120", "1e1", "1.", "a", ""]))
    };
    let by = random.one_of(&[" ", ", ", ",", " / ", "", "/**/"]);
    let amounts: Vec<String> = (0..random.below(6)).map(|_| amount(random)).collect();
    format!("{name}{}{}{}", random.one_of(&["(", "(", "( ", " ("]), amounts.join(by), random.one_of(&[")", ")", " )", ""]))
}

/// A colour, or something like it.
fn color(random: &mut Random) -> String {
    match random.below(4) {
        0 => "#123456789abcdefg"[..1 + random.below(10)].to_string(),
        1 => random
            .one_of(&["red", "Red", "transparent", "none", "currentColor", "currentcolor", "nothing", "inherit"])
            .to_string(),
        _ => {
            let name = random.one_of(&["rgb", "rgba", "hsl", "hsla", "RGB", "lab"]);
            call(name, random)
        }
    }
}

/// A filter that is no link, or something like it.
fn function(random: &mut Random) -> String {
    let name = random.one_of(&["blur", "sepia", "opacity", "hue-rotate", "contrast", "Blur", "nothing"]);
    match random.below(3) {
        0 => {
            let length = |random: &mut Random| random.one_of(&["1", "2px", "-3", "4mm", "+5px", ".6", "7%", "a"]).to_string();
            let mut parts: Vec<String> = (0..random.below(5)).map(|_| length(random)).collect();
            if random.once_in(2) {
                let place = [0, parts.len(), random.below(parts.len() + 1)][random.below(3)];
                parts.insert(place, color(random));
            }
            format!("drop-shadow({})", parts.join(random.one_of(&[" ", " ", " ", "", "/* a */"])))
        }
        _ => call(name, random),
    }
}

/// One document of random values, put together from parts.
pub fn values(random: &mut Random) -> String {
    const PARTS: [[&str; 32]; 4] = [
        [
            "url(", "url(", "#LINK", "#LINK", "#LINK", ")", ")", ")", "url(#LINK)", "url(#LINK)", "url(#LINK) ", "url('#LINK')",
            "'", "&quot;", " ", " ", "none", "red", "rgb(", "rgba(", "hsl(", "1", "2%", ",", " / ", "#12", "ab", "currentColor",
            "120deg", ".5", "-3", "%",
        ],
        [
            "url(", "#LINK", ")", ")", "url(#LINK)", "url(#LINK)", " url(#LINK)", "url('#LINK')", "'", " ", " ", "none", "blur(",
            "blur(", "sepia(", "sepia()", "hue-rotate(", "drop-shadow(", "drop-shadow(", "opacity(1)", "1", "2px", " 3", "50%",
            "deg", "red", "-", ".5", "rgb(1, 2, 3)", "contrast(2) ", "+", "/**/",
        ],
        [
            "12px", "12px ", "1.5em", ".5", "5%", "bold ", "bold", "italic ", "small-caps ", "condensed ", "normal ", "700 ",
            "450 ", "x-large ", "larger", " ", " ", "a", "b, c", "'d e'", "serif", "-", "1e", "em", "px ", "0", "9pt", ",",
            "oblique ", "_", "100.5px", "/**/",
        ],
        [
            "#LINK", "#LINK", "#LINK", "#LINK", "#", "#", " ", " ", "&#9;", "&#10;", "LINK", "a", "&#160;", "'", "(", ")",
            "url(", ".svg", "/", "%20", "é", "", "", "", "", "", "", "", "", "", "", "&#13;",
        ],
    ];
    let mut list = |kind: usize| -> Vec<String> {
        let one = |_| match (kind, random.once_in(2)) {
            (0, true) => format!("url(#LINK){}{}", random.one_of(&["", " ", "  "]), color(random)),
            (1, true) => format!("{}{}url(#LINK)", function(random), random.one_of(&["", " ", "  "])),
            _ => (0..1 + random.below(6)).map(|_| random.one_of(&PARTS[kind])).collect(),
        };
        (0..12).map(one).collect()
    };
    let [paints, filters, fonts, links] = [0, 1, 2, 3].map(&mut list);
    let mut all = catalogues([&paints, &filters, &fonts, &links]);
    let which = random.below(all.len());
    svg(&all.swap_remove(which))
}

/// Elements within one another, so many.
fn nested(depth: usize, name: &str, inside: &str) -> String {
    format!("<svg>{}{inside}{}</svg>", format!("<{name}>").repeat(depth), format!("</{name}>").repeat(depth))
}

/// All documents.
pub fn documents() -> Vec<String> {
    let mut all: Vec<String> = WHOLE.iter().map(|text| text.to_string()).collect();
    all.extend(INSIDE.iter().map(|inside| svg(inside)));
    all.extend(catalogues([&PAINTS[..], &FILTERS, &FONTS, &LINKS]).iter().map(|inside| svg(inside)));
    all.extend(SELECTORS.iter().map(|selector| svg(&selected(&selector.replace('>', "&gt;")))));
    for depth in [1022, 1023, 1024, 1025] {
        all.push(nested(depth, "g", ""));
        all.push(nested(depth, "g", "<!-- a -->"));
        all.push(nested(depth, "g", "<?a b?>"));
        all.push(nested(depth, "g", "a"));
        all.push(nested(depth, "g", "<use href='#a'/><rect id='a'/>"));
        all.push(nested(depth, "g", "<text><tspan>a</tspan></text><!-- b -->"));
        all.push(nested(depth, "unknown", "<rect/>"));
    }
    all.push(format!("<svg><text>{}a{}</text></svg>", "<tspan>".repeat(1500), "</tspan>".repeat(1500)));
    let levels = |count: usize| (1..count).map(|k| format!("<g id='a{k}'><use href='#a{0}'/><use href='#a{0}'/></g>", k - 1));
    all.push(format!("<svg><rect id='a0'/>{}</svg>", levels(12).collect::<String>()));
    all
}
