//! Small documents and the scripts that they must become, spelled in words; what is no XML; and what check says.
use storkvanity::spell::spell;
use storkvanity::{check, Drawing};

/// The script of a document, in words. Check takes it.
fn spelled(xml: &str) -> String {
    let drawing = Drawing::from_xml(xml).unwrap_or_else(|fault| panic!("{fault}"));
    assert_eq!(check(drawing.script(), drawing.characters()), Ok(()));
    spell(drawing.script(), drawing.characters())
}

/// The lines of a text without what they are indented by here.
fn becomes(xml: &str, wanted: &str) {
    let lines: Vec<&str> = wanted.lines().skip(1).collect();
    let indent = lines.iter().map(|l| l.len() - l.trim_start().len()).filter(|&i| i > 0).min().unwrap_or(0);
    let wanted: Vec<&str> = lines.iter().filter(|l| !l.trim().is_empty()).map(|l| &l[indent..]).collect();
    assert_eq!(spelled(xml).lines().collect::<Vec<_>>(), wanted, "{xml}");
}

fn fault(xml: &str) -> String {
    Drawing::from_xml(xml).unwrap_err().to_string()
}

#[test]
fn namespaces_go_by_their_uri() {
    becomes(
        r##"<s:svg xmlns:s="http://www.w3.org/2000/svg" xmlns:l="http://www.w3.org/1999/xlink" xmlns:i="urn:i" width="1" s:height="2"
            l:href="#a" xml:space="preserve" i:label="b" i:fill="url(#c)"><g fill="red"/><i:path d="M0"/></s:svg>"##,
        r##"
        open svg (svg)
          attribute width (none) "1"
          attribute height (svg) "2"
          attribute href (xlink) "#a"
            reading iri "a" at 1
          attribute space (xml) "preserve"
          attribute ? (another) "b"
          attribute fill (another) "url(#c)"
          open g (none)
            attribute fill (none) "red"
          close
          open path (another)
            attribute d (none) "M0"
          close
        close
        "##,
    );
    becomes(
        r#"<svg xmlns="http://www.w3.org/2000/svg"><html xmlns="http://www.w3.org/1999/xhtml"><p/></html><g xmlns=""/></svg>"#,
        r#"
        open svg (svg)
          open ? (another)
            open ? (another)
            close
          close
          open g (another)
          close
        close
        "#,
    );
}

#[test]
fn rules_come_by_weight_then_the_style_attribute() {
    becomes(
        r#"<svg><style>#a { fill: red } rect { fill: green !important; x: 1 } .b { fill: blue }</style>
<style type="text/css">rect { stroke: black }</style><style type="text/other">rect { y: 2 }</style>
<rect id="a" class="c b" style="fill: none; color: red" fill="white"/></svg>"#,
        r##"
        open svg (none)
          open style (none)
            text "#a { fill: red } rect { fill: green !important; x: 1 } .b { fill: blue }"
          close
          text "\n"
          open style (none)
            attribute type (none) "text/css"
            text "rect { stroke: black }"
          close
          open style (none)
            attribute type (none) "text/other"
            text "rect { y: 2 }"
          close
          text "\n"
          open rect (none)
            attribute id (none) "a"
            attribute class (none) "c b"
            attribute style (none) "fill: none; color: red"
            attribute fill (none) "white"
            declaration fill "green" important
            declaration x "1"
            declaration stroke "black"
            declaration fill "blue"
            declaration fill "red"
            declaration fill "none"
            declaration color "red"
          close
        close
        "##,
    );
}

#[test]
fn selectors_match_as_in_the_rust() {
    becomes(
        "<svg><style>g > rect:first-child { x: 1 } g rect + rect { x: 2 } [y] { x: 3 } svg|rect { x: 4 } rect:hover { x: 5 }</style>\
         <g><rect/><rect y=''/></g><rect/></svg>",
        r#"
        open svg (none)
          open style (none)
            text "g > rect:first-child { x: 1 } g rect + rect { x: 2 } [y] { x: 3 } svg|rect { x: 4 } rect:hover { x: 5 }"
          close
          open g (none)
            open rect (none)
              declaration x "1"
            close
            open rect (none)
              attribute y (none) ""
              declaration x "2"
              declaration x "3"
            close
          close
          open rect (none)
          close
        close
        "#,
    );
}

#[test]
fn a_style_sheet_is_the_first_text_of_its_element() {
    becomes(
        "<svg><style><![CDATA[svg { fill: red }]]> svg { x: 1 }<g/>svg { y: 2 }</style><style><!-- a -->svg { z: 3 }</style></svg>",
        r#"
        open svg (none)
          declaration fill "red"
          declaration x "1"
          open style (none)
            text "svg { fill: red } svg { x: 1 }"
            open g (none)
            close
            text "svg { y: 2 }"
          close
          open style (none)
            other
            text "svg { z: 3 }"
          close
        close
        "#,
    );
}

#[test]
fn values_have_their_readings() {
    becomes(
        r##"<svg href="#a" fill="url(#b) red" stroke="none" clip-path="url('#c')" mask=" url(#d) " filter="blur(1) url(#e) url(#f)"
            style="filter: url(#g); font: bold 12px 'A', serif; marker: url(#h); unknown: 1"/>"##,
        r##"
        open svg (none)
          attribute href (none) "#a"
            reading iri "a" at 1
          attribute fill (none) "url(#b) red"
            reading paint "b" at 5
          attribute stroke (none) "none"
          attribute clip-path (none) "url('#c')"
            reading func-iri "c" at 6
          attribute mask (none) " url(#d) "
            reading func-iri "d" at 6
          attribute filter (none) "blur(1) url(#e) url(#f)"
            reading filter "e" at 13
            reading filter "f" at 21
          attribute style (none) "filter: url(#g); font: bold 12px 'A', serif; marker: url(#h); unknown: 1"
          declaration filter "url(#g)"
            reading func-iri "g" at 5
            reading filter "g" at 5
          declaration font "bold 12px 'A', serif"
            reading font-weight "bold" at 0
            reading font-size "12px" at 5
            reading font-family "'A', serif" at 10
          declaration marker "url(#h)"
          declaration ? "1"
        close
        "##,
    );
}

#[test]
fn texts_entities_and_other_nodes() {
    becomes(
        "\u{feff}<?xml version='1.0'?>\n<?a b?><!DOCTYPE svg [<!ENTITY ns 'urn:n'><!ENTITY e 'x &amp; y'><!ENTITY f 'p<g/>q'>]><!-- c -->\
         <svg xmlns:n='&ns;' n:a='&e;' width='a\n\tb&#10;'><text>1 &lt; &e;<![CDATA[ <2>\r\n]]>\
         &#xe9;\r\n3<?d?>4<!-- e --></text>&f;</svg>\n<!-- g -->",
        r#"
        other
        other
        open svg (none)
          attribute ? (another) "x & y"
          attribute width (none) "a  b\n"
          open text (none)
            text "1 < x & y <2>\né\n3"
            other
            text "4"
            other
          close
          text "p"
          open g (none)
          close
          text "q"
        close
        other
        "#,
    );
}

#[test]
fn nested_svg_and_use_stay_as_they_are() {
    becomes(
        "<svg><svg id='a'><a><text><tspan>b</tspan><tref href='#a'/></text></a></svg><use href='#a'><g/></use></svg>",
        r##"
        open svg (none)
          open svg (none)
            attribute id (none) "a"
            open a (none)
              open text (none)
                open tspan (none)
                  text "b"
                close
                open tref (none)
                  attribute href (none) "#a"
                    reading iri "a" at 1
                close
              close
            close
          close
          open use (none)
            attribute href (none) "#a"
              reading iri "a" at 1
            open g (none)
            close
          close
        close
        "##,
    );
}

#[test]
fn what_is_no_xml_has_a_line_and_a_column() {
    assert_eq!(fault("<svg>\n  <g></svg>"), "line 2, column 6: expected 'g' tag, not 'svg'");
    assert_eq!(fault("<svg>\n<g>"), "line 2, column 1: the element 'g' is never closed");
    assert_eq!(fault("<svg>\n <g/>\n"), "line 1, column 1: the element 'svg' is never closed");
    assert_eq!(fault("<svg>\n <g a='1'"), "line 2, column 2: the element 'g' is never closed");
    let entity =
        |value: &str, inside: &str| format!("<!DOCTYPE svg [\n<!ENTITY e '{value}'><!ENTITY f '&e;'>]><svg>{inside}<g/></svg>");
    assert_eq!(fault(&entity("a<g>b", "&e;")), "line 2, column 14: the element 'g' is never closed");
    assert_eq!(fault(&entity("<g a=\"1\"", "&f;")), "line 2, column 13: the element 'g' is never closed");
    assert!(["a", "&#38;e;", "<!-- &e; --><![CDATA[&f;]]>"]
        .iter()
        .all(|inside| Drawing::from_xml(&entity("<g>", inside)).is_ok()));
    assert!(Drawing::from_xml(&entity("<g>a</g><g/>", "&e;&f;")).is_ok());
    assert_eq!(fault("<svg>&nbsp;</svg>"), "line 1, column 6: unknown entity reference 'nbsp'");
    assert_eq!(fault("<svg>\n<a:g/></svg>"), "line 2, column 2: an unknown namespace prefix 'a'");
    assert_eq!(fault("<svg a='1' a='2'/>"), "line 1, column 12: attribute 'a' is already defined");
    assert_eq!(fault(""), "line 1, column 1: the document does not have a root node");
    let bytes = |file: &[u8]| Drawing::from_bytes(file).unwrap_err().to_string();
    assert_eq!(bytes(b"<svg>\n\xc3\xa9\xe9</svg>"), "line 2, column 2: the file is not written in UTF-8");
    assert_eq!(bytes(b"\x1f\x8b\x08"), "line 1, column 2: the file is compressed; it must be unpacked first");
    assert_eq!(bytes(b"\xff\xfe<\0"), "line 1, column 1: the file is written in UTF-16; it must be UTF-8");
}

fn number(xml: &str) -> u32 {
    let drawing = Drawing::from_xml(xml).unwrap();
    check(drawing.script(), drawing.characters()).map_or_else(|refusal| refusal.number(), |()| 0)
}

#[test]
fn limits_are_checks() {
    let nested = |depth: usize| "<g>".repeat(depth) + &"</g>".repeat(depth);
    assert_eq!([2048, 2049, 200_000].map(|depth| number(&nested(depth))), [0, 5, 5]);
    let long = |length: usize| format!("<svg><text>{}</text></svg>", "a".repeat(length));
    assert_eq!([1_048_576, 1_048_577].map(|length| number(&long(length))), [0, 1]);
}

/// Selectors that take much stack, or for ever.
#[test]
fn style_sheets_without_an_end() {
    let svg = |style: &str, inside: &str| format!("<svg>\n <style>{style}</style>{inside}</svg>");
    let nested = |depth: usize| "<g>".repeat(depth) + &"</g>".repeat(depth);
    let long = svg(&("g + ".repeat(100_000) + "g { x: 1 }"), &"<g/>".repeat(100_001));
    assert_eq!(fault(&long), "line 2, column 2: a selector of the style sheet has too many parts");
    let slow = svg(&("rect ".to_string() + &"g ".repeat(20) + "{ x: 1 }"), &nested(100));
    assert_eq!(fault(&slow), "line 2, column 2: the style sheet takes too long to match");
    let many = svg(&"* { x: 12345678 } ".repeat(2000), &"<g/>".repeat(5000));
    assert_eq!(number(&many), 1);
    assert_eq!(number(&svg(&("g > ".repeat(500) + "g { x: 1 }"), &nested(600))), 0);
}
