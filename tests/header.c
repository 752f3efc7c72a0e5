/* A host in C: the header's declarations fit the library. Checks a drawing, builds it, exchanges its figure, and asks about the tree. */
#include "svgtree.h"
#include <stdio.h>
#include <string.h>

static int wrong;

static void expect(const char *what, int ok) {
    if (!ok) { printf("wrong: %s\n", what); wrong = 1; }
}

static void check(void) {
    /* <svg id="a"><text>12 kg</text></svg> */
    const uint8_t script[] = {1, 45, 1, 2, 65, 0, 1, 0, 0, 0, 1, 48, 1, 5, 5, 0, 0, 0, 7, 7};
    const uint8_t characters[] = "a12 kg";
    expect("accepted", svgtree_check(script, sizeof script, characters, 6) == 0);
    expect("characters left over", svgtree_check(script, sizeof script, characters, 7) == 8);
    expect("an element left open", svgtree_check(script, sizeof script - 1, characters, 6) == 4);
    expect("a script cut off", svgtree_check(script, 5, characters, 6) == 2);
}

static void ask(void) {
    /* root, svg with id a, text, "12 kg" */
    const uint32_t nodes[] = {1, 0, 0, 2, 2, 0, 0, 0, 2, 1, 0, 3, 3, 45, 0, 1, 2, 2, 0, 4, 4, 48, 1, 1, 3, 3, 0, 0, 0, 0, 0, 5};
    const uint32_t attributes[] = {65, 0, 0, 1, 2};
    const uint8_t text[] = "12 kg", characters[] = "a12 kg";
    const svgtree_counts counts = {4, 1, 5}, broken = {5, 1, 5};
    svgtree_answer a = svgtree_attribute(nodes, 32, attributes, 5, text, 5, characters, 6, counts, 1, 65);
    expect("the id of svg", a.number == 0 && a.found == 1 && a.index == 0);
    a = svgtree_find_attribute(nodes, 32, attributes, 5, text, 5, characters, 6, counts, 2, 65);
    expect("found above", a.number == 0 && a.found == 1 && a.index == 0);
    a = svgtree_element_by_id(nodes, 32, attributes, 5, text, 5, characters, 6, counts, (const uint8_t *)"a", 1);
    expect("svg by its id", a.number == 0 && a.found == 1 && a.index == 1);
    a = svgtree_attribute(nodes, 32, attributes, 5, text, 5, characters, 6, broken, 1, 65);
    expect("counts past the table", a.number == 40 && a.found == 0 && a.index == 0);
    svgtree_part p = svgtree_text(nodes, 32, attributes, 5, text, 5, characters, 6, counts, 2);
    expect("the text of the text element", p.start == 0 && p.size == 5);
}

/* <svg id="a"><text>12 kg</text></svg>, built, then with 15 kg. */
static void change(void) {
    const uint8_t script[] = {1, 45, 1, 2, 65, 0, 1, 0, 0, 0, 1, 48, 1, 5, 5, 0, 0, 0, 7, 7};
    uint8_t characters[] = "a12 kg", text[8];
    uint32_t nodes[40], attributes[12];
    svgtree_built b = svgtree_build(script, sizeof script, characters, 6, nodes, 40, attributes, 12, text, 8);
    expect("built", b.number == 0 && b.nodes == 4 && b.attributes == 1 && b.text == 5);
    expect("the figure stands in the text table, zeros behind it", memcmp(text, "12 kg\0\0", 8) == 0);
    b = svgtree_exchange(script, sizeof script, characters, 6, 1, (const uint8_t *)"15 kg", 5, nodes, 40, attributes, 12, text, 8);
    expect("exchanged", b.number == 0 && b.nodes == 4 && b.attributes == 1 && b.text == 5);
    expect("the new figure stands in both", memcmp(text, "15 kg\0\0", 8) == 0 && memcmp(characters, "a15 kg", 6) == 0);
    const svgtree_counts counts = {b.nodes, b.attributes, b.text};
    svgtree_part p = svgtree_text(nodes, 40, attributes, 12, text, 8, characters, 6, counts, 2);
    expect("it is the text of node 2", p.start == 0 && p.size == 5);
    b = svgtree_exchange(script, sizeof script, characters, 6, 1, (const uint8_t *)"150 kg", 6, nodes, 40, attributes, 12, text, 8);
    expect("a longer figure is 32 and touches nothing", b.number == 32 && b.nodes == 0 && memcmp(text, "15 kg\0\0", 8) == 0);
    b = svgtree_build(script, sizeof script, characters, 6, nodes, 31, attributes, 12, text, 8);
    expect("three records are too few: 22, and all is cleared", b.number == 22 && b.nodes == 0 && nodes[0] == 0 && text[0] == 0);
}

int main(void) {
    check();
    ask();
    change();
    puts(wrong ? "the header does not fit" : "the header fits");
    return wrong;
}
