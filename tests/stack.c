/* Build and exchange on drawings that go as deep as they may, in a thread whose stack is what docs/MANUAL.md states. */
#include "svgtree.h"
#include <pthread.h>
#include <stdio.h>
#include <string.h>

enum { STACK = 352 * 1024, SMALL = 16 * 1024, NODES = 1 << 21, ENTRIES = 1 << 21 };
enum { G = 31, SVG = 45, TEXT = 48, TSPAN = 51, USE = 52, HREF = 64, ID = 65 };

static uint8_t script[1 << 17], characters[1 << 17], text[64];
static uint32_t nodes[NODES], attributes[ENTRIES];
static size_t script_len, characters_len;
static svgtree_built built, exchanged;
static uint32_t checked;
static svgtree_answer answers[3];
static svgtree_part part;

static void word(size_t n) {
    for (int i = 0; i < 4; i++) script[script_len++] = (uint8_t)(n >> 8 * i);
}

static void open(uint8_t name) {
    const uint8_t command[] = {1, name, 1};
    memcpy(script + script_len, command, 3);
    script_len += 3;
}

static void close(void) { script[script_len++] = 7; }

static void bytes(const char *s) {
    memcpy(characters + characters_len, s, strlen(s));
    characters_len += strlen(s);
}

static void attribute(uint8_t name, const char *value) {
    const uint8_t command[] = {2, name, 0};
    memcpy(script + script_len, command, 3);
    script_len += 3;
    word(strlen(value));
    bytes(value);
}

/* The link of a use: an href whose reading is all behind its first byte. */
static void link_to(const char *href) {
    attribute(HREF, href);
    script[script_len++] = 4;
    script[script_len++] = 1;
    word(1);
    word(strlen(href) - 1);
}

static void figure(const char *s) {
    script[script_len++] = 5;
    word(strlen(s));
    bytes(s);
}

static void label(void) {
    open(TEXT);
    open(TSPAN);
    figure("12 kg");
    close();
    close();
}

/* Groups one in another, and a text element in the last. */
static void groups(int depth) {
    open(SVG);
    for (int i = 0; i < depth; i++) open(G);
    label();
    for (int i = 0; i <= depth; i++) close();
}

/* Groups that each have a use of the next one. */
static void uses(int count) {
    char id[16], href[16];
    open(SVG);
    label();
    for (int i = 0; i < count; i++) {
        snprintf(id, sizeof id, "%d", i);
        snprintf(href, sizeof href, "#%d", i + 1);
        open(G);
        attribute(ID, id);
        open(USE);
        link_to(href);
        close();
        close();
    }
    close();
}

static void *run(void *none) {
    built = svgtree_build(script, script_len, characters, characters_len, nodes, NODES, attributes, ENTRIES, text, sizeof text);
    exchanged = svgtree_exchange(script, script_len, characters, characters_len, 1, (const uint8_t *)"15 kg", 5, nodes, NODES, attributes,
                                 ENTRIES, text, sizeof text);
    return none;
}

/* Check and the questions. */
static void *ask(void *none) {
    const svgtree_counts counts = {exchanged.nodes, exchanged.attributes, exchanged.text};
    const uint32_t last = counts.nodes - 1;
    checked = svgtree_check(script, script_len, characters, characters_len);
    answers[0] = svgtree_attribute(nodes, NODES, attributes, ENTRIES, text, sizeof text, characters, characters_len, counts, last, ID);
    answers[1] = svgtree_find_attribute(nodes, NODES, attributes, ENTRIES, text, sizeof text, characters, characters_len, counts, last, ID);
    answers[2] = svgtree_element_by_id(nodes, NODES, attributes, ENTRIES, text, sizeof text, characters, characters_len, counts,
                                       (const uint8_t *)"0", 1);
    part = svgtree_text(nodes, NODES, attributes, ENTRIES, text, sizeof text, characters, characters_len, counts, last);
    return none;
}

static int in_thread(void *(*what)(void *), size_t stack) {
    pthread_t thread;
    pthread_attr_t as;
    pthread_attr_init(&as);
    if (pthread_attr_setstacksize(&as, stack) != 0 || pthread_create(&thread, &as, what, NULL) != 0) return 1;
    return pthread_join(thread, NULL) != 0;
}

static int try(const char *what, uint32_t number) {
    int wrong = in_thread(run, STACK) || built.number != number || exchanged.number != number;
    if (number == 0) {
        wrong |= in_thread(ask, SMALL) || checked != 0;
        for (int i = 0; i < 3; i++) wrong |= answers[i].number != 0;
    }
    printf("%s: %u, %u nodes%s\n", what, exchanged.number, exchanged.nodes, wrong ? ", wrong" : "");
    script_len = characters_len = 0;
    return wrong;
}

int main(void) {
    int wrong = 0;
    groups(1023);
    wrong |= try("a text below 1,023 groups", 0);
    groups(1024);
    wrong |= try("a text below 1,024 groups", 20);
    uses(300);
    wrong |= try("a chain of 300 uses", 0);
    uses(400);
    wrong |= try("a chain of 400 uses", 20);
    return wrong;
}
